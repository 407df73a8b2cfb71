/* The line of a text that is refused. */
#include <string.h>

#include "command.h"

enum { CHARACTERS_SHOWN = 100 };

/* The line feed is no part of the line. */
static size_t line_end(const struct input *text, size_t at)
{
    const uint8_t *feed = memchr(text->bytes + at, '\n', text->len - at);
    return feed == NULL ? text->len : (size_t)(feed - text->bytes);
}

/* A button is refused where the table is judged, and not where its text is read. Without one there is nothing to ask. */
static int same_up_to(const struct input *text, size_t end, uint64_t result)
{
    struct input part = {text->given, text->bytes, end};
    struct table table;
    struct yolizadwa_numbers numbers;
    uint64_t read = table_of(&part, &table);
    return yolizadwa_refused(read) ? read == result : button_count(&table) > 0 && answer_once(&table, &numbers) == result;
}

/* Tells where the refused line begins: the lines up to it are refused alike and fewer are not, so the library finds it by halving. */
size_t refused_line(const struct input *text, uint64_t result)
{
    size_t low = 0, high = text->len;
    while (low < high) {
        size_t middle = low + (high - low) / 2;
        if (same_up_to(text, line_end(text, middle), result)) {
            high = middle;
        } else {
            low = middle + 1;
        }
    }
    return low;
}

unsigned long line_number(const struct input *text, size_t begin)
{
    unsigned long number = 1;
    for (size_t at = 0; at < begin; at++) {
        number += text->bytes[at] == '\n';
    }
    return number;
}

static int is_digits(const struct name *word)
{
    size_t at = 0;
    while (at < word->len && word->bytes[at] >= '0' && word->bytes[at] <= '9') {
        at++;
    }
    return at == word->len;
}

static int is_blank(uint8_t byte)
{
    return byte == ' ' || byte == '\t';
}

/* The first word behind the line's first one that has more than digits: what refusal 61 means. */
struct name not_a_number(const struct input *text, size_t begin)
{
    size_t end = line_end(text, begin), from = begin, words = 0;
    end -= end > begin && text->bytes[end - 1] == '\r';
    for (size_t at = begin; at <= end; at++) {
        int ends = at == end || is_blank(text->bytes[at]) || text->bytes[at] == '#';
        struct name word = {text->bytes + from, at - from};
        if (ends && word.len > 0 && words++ > 0 && !is_digits(&word)) {
            return word;
        }
        from = ends ? at + 1 : from;
    }
    return (struct name){text->bytes + begin, 0};
}

static int shown_as(uint8_t byte)
{
    return byte == '\t' ? ' ' : byte < ' ' || byte > '~' ? '?' : byte;
}

void show_line(FILE *to, const struct input *text, size_t begin)
{
    size_t end = line_end(text, begin);
    end -= end > begin && text->bytes[end - 1] == '\r';
    size_t shown = end - begin > CHARACTERS_SHOWN ? begin + CHARACTERS_SHOWN : end;
    fprintf(to, "%s:%lu: ", shown_name(text->given), line_number(text, begin));
    for (size_t at = begin; at < shown; at++) {
        fputc(shown_as(text->bytes[at]), to);
    }
    fputs(shown < end ? " ...\n" : "\n", to);
}
