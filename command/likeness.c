/* Which word was meant: the one with the fewest letters missing, too many, changed, or exchanged with the next. */
#include <string.h>

#include "words.h"

enum { MOST_LETTERS_COMPARED = 12, MOST_SLIPS = 2 };

static unsigned least(unsigned one, unsigned other)
{
    return one < other ? one : other;
}

/* A row of the table of slips has those between the beginnings of a word and one more letter of the name. */
struct rows {
    unsigned before[MOST_LETTERS_COMPARED + 1], last[MOST_LETTERS_COMPARED + 1], now[MOST_LETTERS_COMPARED + 1];
};

static void fill_row(struct rows *rows, const char *name, size_t at, const char *word, size_t length)
{
    rows->now[0] = (unsigned)at;
    for (size_t to = 1; to <= length; to++) {
        unsigned changed = rows->last[to - 1] + (name[at - 1] != word[to - 1]);
        rows->now[to] = least(changed, least(rows->last[to], rows->now[to - 1]) + 1);
        if (at > 1 && to > 1 && name[at - 1] == word[to - 2] && name[at - 2] == word[to - 1]) {
            rows->now[to] = least(rows->now[to], rows->before[to - 2] + 1);
        }
    }
}

static unsigned slips(const char *name, const char *word)
{
    struct rows rows;
    size_t length = strlen(word);
    for (size_t to = 0; to <= length; to++) {
        rows.last[to] = rows.now[to] = (unsigned)to;
    }
    for (size_t at = 1; name[at - 1] != '\0'; at++) {
        memcpy(rows.before, rows.last, sizeof rows.before);
        memcpy(rows.last, rows.now, sizeof rows.last);
        fill_row(&rows, name, at, word, length);
    }
    return rows.now[length];
}

/* The word that is most like the name so far. */
struct likeness {
    const char *found;
    unsigned fewest;
};

/* Fewer slips than half of the letters: else any short name would be like any short word. */
static void compare(const char *name, const char *word, struct likeness *likeness)
{
    unsigned count = slips(name, word);
    if (count < likeness->fewest && 2 * count < strlen(word)) {
        likeness->found = word;
        likeness->fewest = count;
    }
}

const char *word_like(const char *name)
{
    struct likeness likeness = {NULL, MOST_SLIPS + 1};
    if (strlen(name) > MOST_LETTERS_COMPARED) {
        return NULL;
    }
    for (const struct word *word = word_after(NULL); word != NULL; word = word_after(word)) {
        compare(name, word->name, &likeness);
    }
    compare(name, "help", &likeness);
    compare(name, "version", &likeness);
    return likeness.found;
}
