/* Prints the blocks of a strip chart. */
#include <stdlib.h>

#include "chart.h"

enum { USUAL_COLUMNS = 80, LEAST_COLUMNS = 20, LABEL_COLUMNS = 8, RULER_STEP = 5, LEAST_BLOCK = 2 * RULER_STEP + 1 };
enum { NAME_COLUMNS = 16, LEAST_NAME = 4 };

static unsigned columns(void)
{
    const char *word = getenv("COLUMNS");
    long told = word == NULL ? USUAL_COLUMNS : strtol(word, NULL, 10);
    if (told <= 0) {
        return USUAL_COLUMNS;
    }
    return told < LEAST_COLUMNS ? LEAST_COLUMNS : told > MOST_COLUMNS ? MOST_COLUMNS : (unsigned)told;
}

static unsigned longest_name(const struct table *table)
{
    struct words words;
    unsigned longest = 0;
    for (unsigned number = 0; number < task_count(table); number++) {
        unsigned letters = table->names[number].len == 0 ? 0 : letters_of(name_of(table, number, NAME_COLUMNS, &words));
        longest = letters > longest ? letters : longest;
    }
    return longest;
}

/* A name and a blank behind the number, where that leaves room for a step of the ruler. */
static unsigned label_columns(const struct table *table)
{
    unsigned room = columns() - LEAST_BLOCK - LABEL_COLUMNS, longest = longest_name(table);
    unsigned name = longest < room ? longest : room - 1;
    return name < LEAST_NAME && name < longest ? LABEL_COLUMNS : LABEL_COLUMNS + name + (name > 0);
}

/* Whole steps of the ruler fit beside the label and the instant after the last slot. */
static unsigned slots_of_a_block(unsigned label)
{
    return (columns() - label - 1) / 2 / RULER_STEP * RULER_STEP;
}

void measure_chart(struct chart *chart)
{
    chart->label = label_columns(chart->course.table);
    chart->wide = slots_of_a_block(chart->label);
}

static void print_ruler(unsigned label, unsigned long begin, unsigned long end)
{
    printf("%-*s", (int)label, "slot");
    for (unsigned long slot = begin; slot < end; slot += RULER_STEP) {
        printf("%-*lu", slot + RULER_STEP < end ? 2 * RULER_STEP : 0, slot);
    }
    putchar('\n');
}

/* Tells how many columns it took. */
static unsigned print_label(const struct chart *chart, unsigned number)
{
    struct words words;
    const struct table *table = chart->course.table;
    if (table->names[number].len == 0 || chart->label == LABEL_COLUMNS) {
        return (unsigned)printf("task %u", number);
    }
    name_of(table, number, chart->label - LABEL_COLUMNS - 1, &words);
    printf("task %-2u %s", number, words.text);
    return LABEL_COLUMNS + letters_of(words.text);
}

static void print_row(const struct chart *chart, unsigned number, unsigned length)
{
    const char *row = chart->rows[number];
    while (length > 0 && row[length - 1] == ' ') {
        length--;
    }
    unsigned taken = print_label(chart, number);
    printf("%*s%.*s\n", length > 0 ? (int)(chart->label - taken) : 0, "", (int)length, row);
}

void print_block(const struct chart *chart, unsigned long begin, unsigned long end, unsigned length)
{
    if (begin > 0) {
        putchar('\n');
    }
    print_ruler(chart->label, begin, end);
    for (unsigned number = 0; number < chart->course.tasks; number++) {
        print_row(chart, number, length);
    }
}
