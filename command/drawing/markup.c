/* Any bytes, a file's name above all, as a text of XML and HTML. */
#include <string.h>

#include "picture.h"

static void put_letter(const uint8_t *bytes, unsigned length)
{
    switch (bytes[0]) {
    case '<': fputs("&lt;", stdout); break;
    case '>': fputs("&gt;", stdout); break;
    case '&': fputs("&amp;", stdout); break;
    case '"': fputs("&quot;", stdout); break;
    case '\'': fputs("&#39;", stdout); break;
    default: fwrite(bytes, 1, length, stdout);
    }
}

/* XML takes no control, and neither U+FFFE nor U+FFFF; what is hidden is shown nowhere. */
static void put_all(const char *text, const char *line_feed)
{
    const uint8_t *bytes = (const uint8_t *)text, *end = bytes + strlen(text);
    while (bytes < end) {
        struct letter letter = letter_at(bytes, (size_t)(end - bytes));
        if (letter.length > 0 && !is_hidden(letter.code)) {
            put_letter(bytes, letter.length);
            bytes += letter.length;
        } else {
            fputs(*bytes == '\n' ? line_feed : "?", stdout);
            bytes++;
        }
    }
}

void put_text(const char *text)
{
    put_all(text, "?");
}

void put_lines(const char *text)
{
    put_all(text, "\n");
}

void put_verdict(const struct sentence *verdict)
{
    put_text(verdict->text);
    if (verdict->more[0] != '\0') {
        putchar(' ');
        put_text(verdict->more);
    }
}

void put_whole_name(const struct table *table, unsigned number)
{
    const struct name *name = &table->names[number];
    char shown[5];
    for (size_t at = 0; at < name->len && !ferror(stdout);) {
        at += show_letter(name, at, shown);
        put_text(shown);
    }
}
