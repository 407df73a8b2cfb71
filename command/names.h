/* Letters of UTF-8, and the names of tasks and buttons. */
#ifndef NAMES_H
#define NAMES_H

#include <stddef.h>
#include <stdint.h>
#include <stdio.h>

struct table;

/* A name as it stands in a text: any bytes but a line feed, none of them for no name. */
struct name {
    const uint8_t *bytes;
    size_t len;
};

/* Letters: length 0 is for what is no UTF-8. What is hidden is not shown. */
struct letter {
    unsigned length;
    uint32_t code;
};
struct letter letter_at(const uint8_t *bytes, size_t len);
int is_hidden(uint32_t code);

/* Names. name_of tells "lens scale" or, without a name, "task 0" or "button 0"; task_words "task 0 (lens scale)". Both are safe on a terminal:
 * a question mark stands for each byte of what is hidden or no UTF-8. A name of more letters than these is cut, with an ellipsis. */
enum { MOST_LETTERS = 40 };
struct words {
    char text[4 * MOST_LETTERS + 32];
};
void read_names(const uint8_t *text, size_t len, struct name *names);
int lend_names(const char *file, struct table *table);
int any_name(const struct table *table);
const char *name_of(const struct table *table, unsigned number, unsigned letters, struct words *words);
const char *task_words(const struct table *table, unsigned number, struct words *words);
void print_name(FILE *to, const struct name *name); /* whole */
/* Writes what is shown of the letter there, at most four bytes and a zero byte, and tells how many bytes of the name it is made from. */
size_t show_letter(const struct name *name, size_t at, char *shown);
const char *shown_bytes(const struct name *name, unsigned letters, struct words *words);
unsigned letters_of(const char *text);

#endif
