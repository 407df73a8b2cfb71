/* What-if: numbers of a table changed by --set and --budget. The library writes the changed table, and refuses a bad one in its words. */
#include <string.h>

#include "rows.h"

static const char *const fields[] = {"offset", "cost", "deadline", "period", "spacing"};
enum { OFFSET, COST, DEADLINE, PERIOD, SPACING, FIELDS };

static int same_name(const struct name *name, const char *who, size_t length)
{
    return name->len == length && memcmp(name->bytes, who, length) == 0;
}

unsigned task_named(const struct table *table, const char *who, int length)
{
    unsigned found = YOLIZADWA_TASKS;
    for (unsigned number = 0; number < task_count(table); number++) {
        if (!same_name(&table->names[number], who, (size_t)length)) {
            continue;
        }
        if (found < YOLIZADWA_TASKS) {
            trouble("tasks %u and %u both have the name %.*s; its number says which is meant", found, number, length, who);
            return YOLIZADWA_TASKS;
        }
        found = number;
    }
    if (found == YOLIZADWA_TASKS) {
        trouble("no task of the table has the name %.*s", length, who);
    }
    return found;
}

unsigned task_meant(const struct table *table, const char *who, int length)
{
    uint64_t number = 0;
    if ((int)strspn(who, "0123456789") < length) {
        return task_named(table, who, length);
    }
    for (int at = 0; at < length && number < YOLIZADWA_TASKS; at++) {
        number = 10 * number + (uint64_t)(who[at] - '0');
    }
    if (number >= task_count(table)) {
        trouble("the table has no task %.*s; its last one is task %u", length, who, task_count(table) - 1);
        return YOLIZADWA_TASKS;
    }
    return (unsigned)number;
}

static unsigned field_named(const char *name, size_t length)
{
    unsigned field = 0;
    while (field < FIELDS && (strlen(fields[field]) != length || memcmp(fields[field], name, length) != 0)) {
        field++;
    }
    return field;
}

/* A button has a spacing for a period, and no offset. */
static int has_field(uint32_t kind, unsigned field)
{
    return kind == YOLIZADWA_KIND_BUTTON ? field != OFFSET && field != PERIOD : field != SPACING;
}

/* TASK.FIELD=NUMBER, cut at the last sign of equality and at the last full stop before it, since a name may have both. */
static int set_number(const struct table *table, const char *setting, struct rows *rows)
{
    const char *equals = strrchr(setting, '='), *stop = equals;
    uint64_t value;
    while (stop != NULL && stop > setting && *stop != '.') {
        stop--;
    }
    if (equals == NULL || *stop != '.' || stop == setting || !read_number(equals + 1, 0, UINT32_MAX, &value)) {
        return trouble("--set needs TASK.FIELD=NUMBER, with a number from 0 to 4294967295, and this is not that: %s", setting);
    }
    unsigned field = field_named(stop + 1, (size_t)(equals - stop - 1));
    if (field == FIELDS) {
        return trouble("a task has no %.*s; it has offset, cost, deadline and period, a button cost, deadline and spacing",
                       (int)(equals - stop - 1), stop + 1);
    }
    unsigned task = task_meant(table, setting, (int)(stop - setting));
    if (task == YOLIZADWA_TASKS) {
        return TROUBLE;
    }
    uint32_t *row = rows->words + YOLIZADWA_ROW_WORDS * task;
    if (!has_field(row[KIND_WORD], field)) {
        return trouble("task %u is %s button and has no %s", task, row[KIND_WORD] == YOLIZADWA_KIND_BUTTON ? "a" : "no", fields[field]);
    }
    row[FIRST_NUMBER + (field == SPACING ? PERIOD : field)] = (uint32_t)value;
    return DONE;
}

static int set_numbers(const struct request *request, const struct table *table, struct rows *rows)
{
    int status = DONE;
    for (unsigned at = 0; at < request->settings && status == DONE; at++) {
        status = set_number(table, request->set[at], rows);
    }
    return status;
}

static void note_change(struct what_if *what_if, unsigned task, const char *field, uint64_t was, uint64_t is)
{
    if (was != is) {
        what_if->changes[what_if->count++] = (struct change){task, field, was, is};
    }
}

/* Finds what the rows and the budget have otherwise than the table as it was. A kind is never changed. */
static void compare(const struct rows *is, uint64_t budget, struct what_if *what_if)
{
    struct rows was;
    take_rows(what_if->table, &was);
    for (unsigned at = 0; at < YOLIZADWA_ROW_WORDS * was.tasks; at++) {
        unsigned task = at / YOLIZADWA_ROW_WORDS, field = at % YOLIZADWA_ROW_WORDS - FIRST_NUMBER;
        int is_spacing = field == PERIOD && was.words[YOLIZADWA_ROW_WORDS * task + KIND_WORD] == YOLIZADWA_KIND_BUTTON;
        note_change(what_if, task, fields[is_spacing ? SPACING : field % FIELDS], was.words[at], is->words[at]);
    }
    note_change(what_if, YOLIZADWA_TASKS, "budget", budget_of(what_if->table), budget);
}

/* The table as it was stands beside the changed one, so that what is changed can be told. */
int change_table(const struct source *source, struct table *table)
{
    static struct table was;
    const struct request *request = source->request;
    struct rows rows;
    uint64_t budget = request->budget_told ? request->budget : budget_of(table);
    was = *table;
    take_rows(table, &rows);
    int status = set_numbers(request, table, &rows);
    if (status != DONE) {
        return status;
    }
    uint64_t result = write_rows(&rows, budget, table);
    if (yolizadwa_refused(result)) {
        struct what_if what_if = {.table = &was};
        compare(&rows, budget, &what_if);
        return say_refused_change(source, &what_if, result);
    }
    table->was = &was;
    return DONE;
}

static void put_change(const struct around *around, const struct table *table, const struct change *change)
{
    struct words words;
    char numbers[80], was[24] = "no bound";
    int of_a_task = change->task < YOLIZADWA_TASKS;
    if (change->was < UINT64_MAX) {
        snprintf(was, sizeof was, "%" PRIu64, change->was);
    }
    around->put(around->before);
    around->put(of_a_task ? name_of(table, change->task, MOST_LETTERS, &words) : "");
    snprintf(numbers, sizeof numbers, "%s%s = %" PRIu64 " (%s in the file)%s", of_a_task ? "." : "", change->field, change->is, was,
             around->after);
    around->put(numbers);
}

void find_changes(const struct table *table, struct what_if *what_if)
{
    struct rows is;
    what_if->count = 0;
    what_if->table = table->was;
    if (table->was != NULL) {
        take_rows(table, &is);
        compare(&is, budget_of(table), what_if);
    }
}

unsigned put_changes(const struct around *around, const struct table *table)
{
    struct what_if what_if;
    find_changes(table, &what_if);
    for (unsigned at = 0; at < what_if.count; at++) {
        put_change(around, table, &what_if.changes[at]);
    }
    return what_if.count;
}

void say_what_if(const struct table *table)
{
    const struct around lines = {"with ", "\n", put_plain};
    if (put_changes(&lines, table) > 0) {
        putchar('\n');
    }
}

static char told[MOST_CHANGES * MOST_OF_A_CHANGE + 1];

static void append(const char *text)
{
    size_t length = strlen(told);
    snprintf(told + length, sizeof told - length, "%s", text);
}

const char *changes_told(const struct table *table)
{
    const struct around parts = {", with ", "", append};
    told[0] = '\0';
    put_changes(&parts, table);
    return told;
}
