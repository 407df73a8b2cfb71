/* The labels at the left of a block: of each task its name, number, cost, deadline and period. */
#include <string.h>

#include "block.h"

enum { NAME_LEFT = 12, NAME_ROOM = LABELS - NAME_LEFT, NAME_ABOVE = 12 };

/* How wide a letter of a name is at most, by the first byte of it. */
enum { NARROW_LETTER = 6, USUAL_LETTER = 8, WIDER_LETTER = 10, WIDEST_LETTER = 13, OTHER_LETTER = 15 };

static unsigned letter_width(char first)
{
    if ((uint8_t)first >= 0x80) {
        return OTHER_LETTER;
    }
    return strchr("MW@%mw", first) != NULL                               ? WIDEST_LETTER
           : strchr("fijlrt .,:;/-", first) != NULL                      ? NARROW_LETTER
           : strchr("abcdeghknopqsuvxyz0123456789", first) != NULL       ? USUAL_LETTER
                                                                         : WIDER_LETTER;
}

static unsigned width_of(const char *text)
{
    unsigned wide = 0;
    for (; *text != '\0'; text++) {
        wide += ((uint8_t)*text & 0xC0) == 0x80 ? 0 : letter_width(*text);
    }
    return wide;
}

/* As many letters as there is surely room for; where some are left out an ellipsis stands for them. */
static void put_short_name(const struct table *table, unsigned number)
{
    struct words whole, words;
    struct name name;
    unsigned letters = MOST_LETTERS;
    name.bytes = (const uint8_t *)shown_bytes(&table->names[number], letters, &whole);
    name.len = strlen(whole.text);
    while (width_of(shown_bytes(&name, letters, &words)) > NAME_ROOM) {
        letters--;
    }
    put_text(words.text);
}

static void put_name(const struct block *block, unsigned number)
{
    const struct table *table = block->picture->table;
    if (table->names[number].len == 0) {
        return;
    }
    printf("<g><title>");
    put_whole_name(table, number);
    printf("</title><text x=\"%u\" y=\"%u\">", (unsigned)NAME_LEFT, floor_of(block, number) - 2 - NAME_ABOVE);
    put_short_name(table, number);
    printf("</text></g>\n");
}

static void put_names(const struct block *block)
{
    printf("<g class=\"names\" font-size=\"12\">\n");
    for (unsigned number = 0; number < block->picture->tasks; number++) {
        put_name(block, number);
    }
    printf("</g>\n");
}

static void put_label(const struct block *block, unsigned number)
{
    const struct task *task = &block->picture->lanes[number].task;
    unsigned y = floor_of(block, number) - 2;
    printf("<text x=\"36\" y=\"%u\" font-weight=\"bold\">%u</text><text x=\"80\" y=\"%u\">%" PRIu64 "</text>"
           "<text x=\"138\" y=\"%u\">%" PRIu64 "</text><text x=\"186\" y=\"%u\">%" PRIu64 "</text>\n",
           y, number, y, task->cost, y, task->deadline, y, task->period);
}

static void put_headings(const struct block *block)
{
    unsigned y = block->top + CAPTIONS - 7;
    printf("<g font-size=\"12\"><text x=\"36\" y=\"%u\">task</text><text x=\"80\" y=\"%u\">cost</text>"
           "<text x=\"138\" y=\"%u\">deadline</text><text x=\"186\" y=\"%u\">period</text>",
           y, y, y, y);
    printf("<text x=\"186\" y=\"%u\">idle</text></g>\n", axis_of(block) + BAND_HEIGHT);
}

void put_labels(const struct block *block)
{
    put_names(block);
    printf("<g class=\"labels\" text-anchor=\"end\">\n");
    put_headings(block);
    for (unsigned number = 0; number < block->picture->tasks; number++) {
        put_label(block, number);
    }
    printf("</g>\n");
}
