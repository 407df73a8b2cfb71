/* What --set and --budget change in a table, and how it is told. */
#ifndef WHATIF_H
#define WHATIF_H

#include "yolizadwa.h"

struct source;
struct table;

/* What-if: a number that was changed; of the budget the task is YOLIZADWA_TASKS. say_what_if prints a line for each and an empty one, if
 * there are any. put_changes puts the same between other words, and tells how many there are. */
enum { MOST_CHANGES = 4 * YOLIZADWA_TASKS + 1, MOST_OF_A_CHANGE = 300 };
struct change {
    unsigned task;
    const char *field;
    uint64_t was, is;
};
struct what_if {
    const struct table *table; /* as it was */
    unsigned count;
    struct change changes[MOST_CHANGES];
};
struct around {
    const char *before, *after;
    void (*put)(const char *text);
};
int change_table(const struct source *source, struct table *table);
/* A task by its name; or by its number, which is digits alone, or its name. YOLIZADWA_TASKS after they have said what is wrong. */
unsigned task_named(const struct table *table, const char *name, int length);
unsigned task_meant(const struct table *table, const char *who, int length);
void find_changes(const struct table *table, struct what_if *what_if);
unsigned put_changes(const struct around *around, const struct table *table);
void say_what_if(const struct table *table);
const char *changes_told(const struct table *table); /* behind the name of the file, until it is asked again */

#endif
