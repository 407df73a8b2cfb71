/* A FILE as a table: the library judges its form, and the numbers of one that it does not refuse stand where the header says. */
#include <stdlib.h>
#include <string.h>

#include "json.h"

enum { BUDGET_AT = 1, BUDGET_BYTES = 8, TASKS_AT = 9, TASK_BYTES = 17, BUTTON_BYTES = 13, WORD_BYTES = 4 };

int is_table_file(const struct input *input)
{
    return input->len > 0 && input->bytes[0] < FIRST_OF_A_TEXT;
}

/* Tells a refusal or fills the table. Only a good table file has a text, so asking for the text judges the file. */
uint64_t table_of(const struct input *input, struct table *table)
{
    uint8_t text[YOLIZADWA_LONGEST_TEXT];
    uint64_t result;
    memset(table->names, 0, sizeof table->names);
    table->was = NULL;
    table->bytes = NULL;
    table->was_text = !is_table_file(input);
    if (table->was_text) {
        result = yolizadwa_from_text(input->bytes, input->len, table->file, sizeof table->file);
        table->len = (size_t)result;
        read_names(input->bytes, input->len, table->names);
        return result;
    }
    result = yolizadwa_to_text(input->bytes, input->len, text, sizeof text);
    if (!yolizadwa_refused(result)) {
        table->len = input->len;
        memcpy(table->file, input->bytes, input->len);
    }
    return result;
}

static int is_standard(const char *name)
{
    return name != NULL && strcmp(name, "-") == 0;
}

/* A what-if of two tables is about the new one. */
static int is_changed(const struct request *request, unsigned which)
{
    return (request->settings > 0 || request->budget_told) && (which > 0 || !request->changes_new);
}

static int take_table(struct source *source, const char *what, struct table *table)
{
    const struct request *request = source->request;
    struct yolizadwa_numbers numbers;
    uint64_t result = table_of(&source->input, table);
    if (yolizadwa_refused(result)) {
        return say_refusal(source, result);
    }
    int status = lend_names(request->names, table);
    if (status == DONE && is_changed(request, source->which)) {
        status = change_table(source, table);
    }
    if (status == DONE && what != NULL && button_count(table) > 0) {
        return say_button(source, what, answer_once(table, &numbers));
    }
    return status;
}

void close_table(struct table *table)
{
    free(table->bytes);
}

/* The names of a text stay where they were read, so its bytes are kept. What: the test that takes no buttons; NULL: they are taken. */
static int open_for(const struct request *request, unsigned which, FILE *refusals, const char *what, struct table *table)
{
    struct source source = {.request = request, .which = which, .refusals = refusals};
    int status = DONE;
    if (is_standard(request->names) && is_standard(request->files[which])) {
        status = trouble("only one of table and names can be standard input");
    }
    if (status == DONE) {
        status = read_input(request->files[which], &source.input);
    }
    if (status == DONE) {
        status = take_table(&source, what, table);
        table->bytes = source.input.bytes;
        if (status != DONE) {
            close_table(table);
        }
    }
    return status == TROUBLE ? json_trouble(request, which) : status;
}

int open_table(const struct request *request, unsigned which, FILE *refusals, struct table *table)
{
    return open_for(request, which, refusals, NULL, table);
}

int open_periodic(const struct request *request, unsigned which, FILE *refusals, const char *what, struct table *table)
{
    return open_for(request, which, refusals, what, table);
}

static uint64_t number_at(const uint8_t *bytes, size_t count)
{
    uint64_t number = 0;
    for (size_t at = count; at > 0; at--) {
        number = number << 8 | bytes[at - 1];
    }
    return number;
}

uint64_t budget_of(const struct table *table)
{
    return number_at(table->file + BUDGET_AT, BUDGET_BYTES);
}

static void put_number(uint8_t *bytes, size_t count, uint64_t number)
{
    for (size_t at = 0; at < count; at++) {
        bytes[at] = (uint8_t)(number >> 8 * at);
    }
}

void replace_budget(struct table *table, uint64_t budget)
{
    put_number(table->file + BUDGET_AT, BUDGET_BYTES, budget);
}

static int is_button(const uint8_t *record)
{
    return record[0] == YOLIZADWA_KIND_BUTTON;
}

/* Tells where the record after that of a task or button begins. */
static size_t next_record(const struct table *table, size_t at)
{
    return at + (is_button(table->file + at) ? BUTTON_BYTES : TASK_BYTES);
}

/* Tells where the record of a task or button begins; after the last one comes the end's. */
static size_t record_at(const struct table *table, unsigned number)
{
    size_t at = TASKS_AT;
    for (; number > 0; number--) {
        at = next_record(table, at);
    }
    return at;
}

/* The cost stands behind the offset, which a button does not have. */
void replace_cost(struct table *table, unsigned number, uint64_t cost)
{
    uint8_t *record = table->file + record_at(table, number);
    put_number(record + 1 + (is_button(record) ? 0 : WORD_BYTES), WORD_BYTES, cost);
}

/* Leaves that many tasks, at least one. */
void keep_first(struct table *table, unsigned tasks)
{
    table->len = record_at(table, tasks) + 1;
    table->file[table->len - 1] = YOLIZADWA_KIND_END;
}

unsigned task_count(const struct table *table)
{
    unsigned count = 0;
    for (size_t at = TASKS_AT; table->file[at] != YOLIZADWA_KIND_END; at = next_record(table, at)) {
        count++;
    }
    return count;
}

unsigned button_count(const struct table *table)
{
    unsigned buttons = 0;
    for (size_t at = TASKS_AT; table->file[at] != YOLIZADWA_KIND_END; at = next_record(table, at)) {
        buttons += (unsigned)is_button(table->file + at);
    }
    return buttons;
}

struct task task_at(const struct table *table, unsigned number)
{
    const uint8_t *record = table->file + record_at(table, number), *words = record + 1;
    struct task task = {is_button(record), 0, 0, 0, 0};
    if (!task.button) {
        task.offset = number_at(words, WORD_BYTES);
        words += WORD_BYTES;
    }
    task.cost = number_at(words, WORD_BYTES);
    task.deadline = number_at(words + WORD_BYTES, WORD_BYTES);
    task.period = number_at(words + 2 * WORD_BYTES, WORD_BYTES);
    return task;
}
