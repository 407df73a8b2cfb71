/* Takes a table apart into rows, and has the library write one from them. */
#include "rows.h"

void take_rows(const struct table *table, struct rows *rows)
{
    rows->tasks = task_count(table);
    for (unsigned number = 0; number < rows->tasks; number++) {
        struct task task = task_at(table, number);
        uint32_t *row = rows->words + YOLIZADWA_ROW_WORDS * number, *numbers = row + FIRST_NUMBER;
        row[KIND_WORD] = task.button ? YOLIZADWA_KIND_BUTTON : YOLIZADWA_KIND_TASK;
        numbers[0] = (uint32_t)task.offset;
        numbers[1] = (uint32_t)task.cost;
        numbers[2] = (uint32_t)task.deadline;
        numbers[3] = (uint32_t)task.period;
    }
}

uint64_t write_rows(const struct rows *rows, uint64_t budget, struct table *table)
{
    uint64_t result = yolizadwa_write(rows->words, YOLIZADWA_ROW_WORDS * rows->tasks, budget, table->file, sizeof table->file);
    if (!yolizadwa_refused(result)) {
        table->len = (size_t)result;
    }
    return result;
}

/* A row of a button has offset 0 already, and the table of tasks is good where this one is. */
void pressed_often(const struct table *table, struct table *tasks)
{
    struct rows rows;
    take_rows(table, &rows);
    for (unsigned number = 0; number < rows.tasks; number++) {
        rows.words[YOLIZADWA_ROW_WORDS * number + KIND_WORD] = YOLIZADWA_KIND_TASK;
    }
    *tasks = *table;
    write_rows(&rows, budget_of(table), tasks);
}
