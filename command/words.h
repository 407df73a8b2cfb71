/* The words of the command. Their one list says how each is called, what it takes, what it does and what help tells of it. */
#ifndef WORDS_H
#define WORDS_H

#include "command.h"

enum { MOST_OPTIONS = 8 };

struct word {
    const char *name, *form;           /* the form begins with the name, as the arguments do */
    const char *sums_up, *sums_up_more; /* a line of the overview, and a second one or NULL */
    unsigned files;
    int many; /* more of them may follow */
    int takes_task; /* the number of a task may follow the files */
    int changes_new;
    const char *options[MOST_OPTIONS];
    int (*act)(const struct request *request);
    const char *page;
};

const struct word *word_named(const char *name);
const struct word *word_after(const struct word *word); /* of NULL the first, of the last NULL */
const char *word_like(const char *name); /* the word that was meant, or NULL */
const char *word_names(void);                           /* all of them, with commas between */
const char *use_of(const struct word *word, const char *between); /* its form and the options that many words take, until it is asked again */

/* Reads the arguments behind the word and does what they ask for. */
int do_word(const struct word *word, char **arguments);

/* Help: NULL names the overview. Tells 0 if there is no such page. */
int print_page(FILE *to, const char *name);
extern const char page_judge[], page_quick[], page_distance[], page_eased[], page_largest[], page_run[], page_draw[], page_page[],
    page_log[], page_show[], page_make[];

#endif
