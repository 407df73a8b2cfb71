/* A strip chart of a run: who had each slot, in blocks of slots, a row for each task. */
#ifndef CHART_H
#define CHART_H

#include "json.h"

enum { MOST_COLUMNS = 1000 };

struct chart {
    struct course course;
    unsigned long slots;
    int quiet;                    /* nothing is printed */
    unsigned label;               /* columns before the first slot */
    unsigned wide;                /* slots of a block */
    struct yolizadwa_state ended; /* after the last slot */
    char rows[YOLIZADWA_TASKS][MOST_COLUMNS]; /* for each slot the instant before it, then the slot */
    struct late_list late;
    struct press_list pressed;
    uint8_t *log; /* NULL: none is kept */
    size_t log_len;
};

/* How wide the label and a block are, by the terminal's columns and the names. */
void measure_chart(struct chart *chart);
void print_block(const struct chart *chart, unsigned long begin, unsigned long end, unsigned length);

#endif
