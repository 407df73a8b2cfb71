/* What --json prints: one object on one line. docs/COMMAND.md has its names. A key is NULL inside an array. */
#ifndef JSON_H
#define JSON_H

#include "course.h"

void json_open(const char *key, char bracket);
void json_close(char bracket);
void json_number(const char *key, uint64_t number);
void json_truth(const char *key, int truth);
void json_null(const char *key);
void json_text(const char *key, const char *text);
void json_name(const char *key, const struct name *name); /* null for none */

/* The object of one answer begins with the word, the file, the status and what a what-if changes; of what cannot be read it is that alone. */
void json_begin(const struct request *request, unsigned which, int status);
void json_changes(const struct table *table);
void json_end(void);
void json_what_if(const struct what_if *what_if);
int json_trouble(const struct request *request, unsigned which); /* the last one, if JSON is asked for; tells TROUBLE */

/* A task with its number, name and numbers; the caller adds more and closes it. */
void json_task(const struct table *table, unsigned number);
void json_number_and_name(const struct table *table, unsigned number);

/* A job of a list, with one more number of this name, and those of a late interval: the first 100, or all, and how many are left out. */
void json_job(const struct table *table, const struct job *job, const char *amount);
void json_excess(const struct table *table, const struct yolizadwa_numbers *numbers, int all);
void json_remedies(const struct table *table, const struct yolizadwa_numbers *numbers, int however_long);
void json_late(const struct late_list *list, const struct table *table);
void json_interval(const struct table *table, const struct yolizadwa_numbers *numbers, int all);

/* Of a table with buttons: of one way to press them, and of a run. */
void json_certain(const struct certain *certain);
void json_presses(const struct press_list *list, const struct course *course);

#endif
