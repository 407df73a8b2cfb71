/* A picture as plain SVG 1.1, its blocks below each other. Shapes and hatchings say everything without colour. */
#include <string.h>

#include "block.h"

enum { HEADING = 48, CAPTION = 24, LEGEND = 14, BELOW = 12, ROW = 20, EDGE = 12 };

/* Letters of the name count as wide as the widest of their kind, so that the name never runs off the sheet. */
enum { NAME_ROOM = 940, USUAL_LETTER = 12, WIDER_LETTER = 14, WIDEST_LETTER = 18 };

/* Where the caption of the drawing begins: below the name and the verdict. */
static unsigned heading_height(const struct picture *picture)
{
    return picture->verdict.more[0] == '\0' ? HEADING : HEADING + ROW;
}

static unsigned letter_width(char letter)
{
    return strchr("MW@%mw", letter) != NULL                                    ? WIDEST_LETTER
           : strchr("abcdefghijklnopqrstuvxyz0123456789 ./_-", letter) != NULL ? USUAL_LETTER
                                                                               : WIDER_LETTER;
}

/* A long name is shown from its end. Takes what it needs of the room. */
static const char *end_of_name(const char *name, unsigned *room)
{
    const char *shown = name + strlen(name);
    while (shown > name && letter_width(shown[-1]) <= *room) {
        shown--;
        *room -= letter_width(*shown);
    }
    return shown;
}

static const char *whole_letter(const char *shown)
{
    while (((uint8_t)*shown & 0xC0) == 0x80) {
        shown++;
    }
    return shown;
}

/* What does not fit is cut. */
static void put_within(const char *text, unsigned room)
{
    const struct name whole = {(const uint8_t *)text, strlen(text)};
    char letter[5];
    for (size_t at = 0; at < whole.len;) {
        at += show_letter(&whole, at, letter);
        unsigned wide = (unsigned)strlen(letter) * letter_width(letter[0]);
        put_text(wide <= room ? letter : "\xE2\x80\xA6");
        if (wide > room) {
            return;
        }
        room -= wide;
    }
}

/* Changes leave half of the room to the name, and have what it does not need. */
static void put_name(const struct picture *picture)
{
    unsigned kept = picture->changes[0] == '\0' ? 0 : NAME_ROOM / 2, room = NAME_ROOM - kept;
    const char *name = picture->name, *shown = end_of_name(name, &room);
    printf("<text class=\"name\" x=\"%u\" y=\"22\" font-size=\"16\" font-weight=\"bold\">%s", (unsigned)EDGE, shown > name ? "..." : "");
    put_text(shown > name ? whole_letter(shown) : name);
    put_within(picture->changes, kept + room);
    printf("</text>\n");
}

static void put_line(unsigned y, const char *text)
{
    printf("<text x=\"%u\" y=\"%u\">", (unsigned)EDGE, y);
    put_text(text);
    printf("</text>\n");
}

static void put_heading(const struct picture *picture)
{
    put_name(picture);
    put_line(43, picture->verdict.text);
    if (picture->verdict.more[0] != '\0') {
        put_line(43 + ROW, picture->verdict.more);
    }
}

static int closes_late(const struct picture *picture)
{
    for (unsigned signs = 0; signs < ALL_SIGNS; signs++) {
        if (picture->seen[signs] && (signs & CLOSED)) {
            return 1;
        }
    }
    return 0;
}

/* Those from 0 on are counted. */
static void put_presses(const struct picture *picture)
{
    const struct press_list *list = &picture->pressed;
    if (list->taken + list->untaken == 0) {
        printf("; from 0 to %lu no button is pressed", picture->to);
    } else {
        printf("; from 0 to %lu presses taken: %lu, too early: %lu", picture->to, list->taken, list->untaken);
    }
    if (picture->pressed_later > 0) {
        printf(", later: %lu", picture->pressed_later);
    }
    printf("%s", closes_late(picture) ? "; a job is closed late" : "");
}

void put_caption(const struct picture *picture)
{
    put_slots(picture->from, picture->to);
    printf("%s", picture->early ? ", every job done after half its cost" : "");
    if (picture->horizon == UINT64_MAX) {
        put_presses(picture);
        return;
    }
    printf("; horizon %" PRIu64, picture->horizon);
    if (picture->is_late && (picture->excess.start < picture->from || picture->excess.end > picture->to)) {
        printf("; the late interval is from %" PRIu64 " to %" PRIu64, picture->excess.start, picture->excess.end);
    }
}

static unsigned height_of(struct block block)
{
    while (block.end < block.picture->to) {
        block = block_after(&block);
    }
    return legend_end(block.picture, block.top + block_height(&block) + LEGEND) + BELOW;
}

/* The hatchings differ in shape, so that they can be told apart in grey. */
void put_patterns(void)
{
    printf("<defs>\n<pattern id=\"meant\" width=\"6\" height=\"6\" patternUnits=\"userSpaceOnUse\"><rect width=\"6\" height=\"6\" "
           "fill=\"#ffd166\"/><path d=\"M-1 7L7 -1M-1 1L1 -1M5 7L7 5\" stroke=\"#000\" stroke-width=\"1.2\"/></pattern>\n");
    printf("<pattern id=\"missed\" width=\"4\" height=\"4\" patternUnits=\"userSpaceOnUse\"><rect width=\"4\" height=\"4\" "
           "fill=\"#fff\"/><path d=\"M0 0L4 4M4 0L0 4\" stroke=\"#c00\"/></pattern>\n</defs>\n");
}

static void put_blocks(struct block block)
{
    put_block(&block);
    put_labels(&block);
    while (block.end < block.picture->to && !ferror(stdout)) {
        block = block_after(&block);
        put_block(&block);
        put_labels(&block);
    }
    put_legend(block.picture, block.top + block_height(&block) + LEGEND);
}

void put_drawing(const struct picture *picture)
{
    struct block first = first_block(picture, heading_height(picture) + CAPTION);
    unsigned height = height_of(first);
    printf("<svg xmlns=\"http://www.w3.org/2000/svg\" version=\"1.1\" width=\"%u\" height=\"%u\" viewBox=\"0 0 %u %u\" "
           "font-family=\"sans-serif\" font-size=\"13\">\n<title>",
           (unsigned)WIDE, height, (unsigned)WIDE, height);
    put_text(picture->name);
    put_text(picture->changes);
    printf("</title>\n<desc>");
    put_verdict(&picture->verdict);
    printf("</desc>\n");
    put_patterns();
    printf("<rect width=\"%u\" height=\"%u\" fill=\"#fff\"/>\n<g transform=\"translate(.5 .5)\">\n", (unsigned)WIDE, height);
    put_heading(picture);
    printf("<text x=\"%u\" y=\"%u\">", (unsigned)EDGE, heading_height(picture) + 15);
    put_caption(picture);
    printf("</text>\n");
    put_blocks(first);
    printf("</g>\n</svg>\n");
}
