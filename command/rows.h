/* A table as the rows of words that the library writes a table file from. */
#ifndef ROWS_H
#define ROWS_H

#include "command.h"

/* The words of a row: its kind, then offset, cost, deadline and period. */
enum { KIND_WORD = 0, FIRST_NUMBER = 1 };
struct rows {
    uint32_t words[YOLIZADWA_TASKS * YOLIZADWA_ROW_WORDS];
    unsigned tasks;
};
void take_rows(const struct table *table, struct rows *rows);
uint64_t write_rows(const struct rows *rows, uint64_t budget, struct table *table); /* a refusal leaves the table as it was */

#endif
