/* Names: the comment behind the line of a task or button. Lines, words and comments are those of docs/SPECIFICATION.md, section 4.4. */
#include <string.h>

#include "command.h"

#define ELLIPSIS "\xE2\x80\xA6"

static int is_blank(uint8_t byte)
{
    return byte == ' ' || byte == '\t';
}

static struct name trimmed(struct name part)
{
    while (part.len > 0 && is_blank(part.bytes[0])) {
        part.bytes++;
        part.len--;
    }
    while (part.len > 0 && is_blank(part.bytes[part.len - 1])) {
        part.len--;
    }
    return part;
}

/* Tells the part of the line before its comment, and in place of the line leaves the comment. */
static struct name cut_comment(struct name *line)
{
    const uint8_t *mark = line->len == 0 ? NULL : memchr(line->bytes, '#', line->len);
    struct name before = {line->bytes, mark == NULL ? line->len : (size_t)(mark - line->bytes)};
    size_t skipped = before.len + (mark != NULL);
    line->bytes += skipped;
    line->len -= skipped;
    return trimmed(before);
}

static int first_word_is(const struct name *part, const char *word)
{
    size_t len = strlen(word);
    return part->len >= len && memcmp(part->bytes, word, len) == 0 && (part->len == len || is_blank(part->bytes[len]));
}

/* The line without its end. */
static struct name line_at(const uint8_t *text, size_t len)
{
    const uint8_t *feed = memchr(text, '\n', len);
    struct name line = {text, feed == NULL ? len : (size_t)(feed - text)};
    line.len -= line.len > 0 && text[line.len - 1] == '\r';
    return line;
}

static size_t next_line(const uint8_t *text, size_t at, size_t len)
{
    const uint8_t *feed = memchr(text + at, '\n', len - at);
    return feed == NULL ? len : (size_t)(feed - text) + 1;
}

void read_names(const uint8_t *text, size_t len, struct name *names)
{
    unsigned number = 0;
    memset(names, 0, YOLIZADWA_TASKS * sizeof names[0]);
    for (size_t at = 0; at < len && number < YOLIZADWA_TASKS; at = next_line(text, at, len)) {
        struct name comment = line_at(text + at, len - at), before = cut_comment(&comment);
        if (first_word_is(&before, "task") || first_word_is(&before, "button")) {
            names[number++] = trimmed(comment);
        }
    }
}

/* The text needs not be a good table: its lines are counted, and their numbers are not looked at. */
static int read_lent(const char *file, struct name *lent)
{
    struct input input;
    int status = read_input(file, &input);
    if (status != DONE) {
        return status;
    }
    if (is_table_file(&input)) {
        return trouble("%s is a table file, which has no names; --names needs a text", shown_name(input.given));
    }
    read_names(input.bytes, input.len, lent);
    return DONE;
}

/* The names are read once, since standard input cannot be read again. */
int lend_names(const char *file, struct table *table)
{
    static struct name lent[YOLIZADWA_TASKS];
    static int is_read;
    int status = file == NULL || is_read ? DONE : read_lent(file, lent);
    is_read = file != NULL && status == DONE;
    for (unsigned number = 0; is_read && number < YOLIZADWA_TASKS; number++) {
        table->names[number] = lent[number].len > 0 ? lent[number] : table->names[number];
    }
    return status;
}

int any_name(const struct table *table)
{
    size_t bytes = 0;
    for (unsigned number = 0; number < task_count(table); number++) {
        bytes |= table->names[number].len;
    }
    return bytes > 0;
}

size_t show_letter(const struct name *name, size_t at, char *shown)
{
    struct letter letter = letter_at(name->bytes + at, name->len - at);
    size_t length = letter.length == 0 || is_hidden(letter.code) ? 1 : letter.length;
    memcpy(shown, name->bytes + at, length);
    if (letter.length == 0 || is_hidden(letter.code)) {
        shown[0] = name->bytes[at] == '\t' ? ' ' : '?';
    }
    shown[length] = '\0';
    return length;
}

void print_name(FILE *to, const struct name *name)
{
    char shown[5];
    for (size_t at = 0; at < name->len;) {
        at += show_letter(name, at, shown);
        fputs(shown, to);
    }
}

/* A name may be long, and is shown often. */
static int has_more(const struct name *name, unsigned letters)
{
    char shown[5];
    size_t at = 0;
    for (unsigned count = 0; at < name->len && count < letters; count++) {
        at += show_letter(name, at, shown);
    }
    return at < name->len;
}

static void cut_name(const struct name *name, unsigned letters, char *text)
{
    int is_long = has_more(name, letters);
    size_t at = 0;
    for (unsigned count = 0; at < name->len && count + (unsigned)is_long < letters; count++) {
        at += show_letter(name, at, text);
        text += strlen(text);
    }
    strcpy(text, is_long ? ELLIPSIS : "");
}

const char *shown_bytes(const struct name *name, unsigned letters, struct words *words)
{
    cut_name(name, letters < MOST_LETTERS ? letters : MOST_LETTERS, words->text);
    return words->text;
}

const char *name_of(const struct table *table, unsigned number, unsigned letters, struct words *words)
{
    if (number < YOLIZADWA_TASKS && table->names[number].len > 0) {
        return shown_bytes(&table->names[number], letters, words);
    }
    return task_words(table, number, words);
}

const char *task_words(const struct table *table, unsigned number, struct words *words)
{
    int is_named = number < YOLIZADWA_TASKS && table->names[number].len > 0;
    int is_button = number < task_count(table) && task_at(table, number).button;
    int length = snprintf(words->text, sizeof words->text, "%s %u%s", is_button ? "button" : "task", number, is_named ? " (" : "");
    if (is_named) {
        cut_name(&table->names[number], MOST_LETTERS, words->text + length);
        strcat(words->text, ")");
    }
    return words->text;
}

unsigned letters_of(const char *text)
{
    unsigned letters = 0;
    for (; *text != '\0'; text++) {
        letters += ((uint8_t)*text & 0xC0) != 0x80;
    }
    return letters;
}
