/* What would mend a table that does not pass: of each task the share of the slots that it asks for, and the largest cost that fits. */
#include "json.h"

/* Nobody has to wait long while all tests together look at no more jobs than these. The largest cost of a task takes up to so many tests. */
static const uint64_t most_jobs = 50000000;
enum { TESTS = 17 };

static int takes_long(const struct table *table, const struct yolizadwa_numbers *numbers)
{
    uint64_t jobs = 0;
    for (unsigned number = 0; number < task_count(table); number++) {
        jobs += numbers->horizon / task_at(table, number).period + 1;
    }
    return jobs > most_jobs / (TESTS * task_count(table));
}

/* The library's largest cost is of a table that passes. If one with the least cost does, it is what the task may cost. */
static uint64_t fitting_cost(const struct table *table, unsigned number)
{
    struct table least = *table;
    replace_cost(&least, number, 1);
    replace_budget(&least, UINT64_MAX);
    uint64_t answer = yolizadwa_largest(least.file, least.len, number);
    return answer < YOLIZADWA_LARGEST_OVERLOAD ? answer : 0;
}

int find_remedies(const struct table *table, const struct yolizadwa_numbers *numbers, int however_long, uint64_t *costs)
{
    unsigned tasks = task_count(table);
    double began = seconds_now();
    if (!however_long && takes_long(table, numbers)) {
        return 0;
    }
    begin_progress();
    for (unsigned number = 0; number < tasks; number++) {
        costs[number] = fitting_cost(table, number);
        tell_tasks(number + 1, tasks, seconds_now() - began);
    }
    end_progress();
    return 1;
}

static uint64_t asked_by(const struct table *table, unsigned number, uint64_t round)
{
    struct task task = task_at(table, number);
    return round / task.period * task.cost;
}

const char *percent(uint64_t part, uint64_t whole)
{
    static char text[32];
    uint64_t tenths = (1000 * part + whole / 2) / whole;
    snprintf(text, sizeof text, "%" PRIu64 ".%" PRIu64 " %%", tenths / 10, tenths % 10);
    return part > whole && tenths == 1000 ? "over 100 %" : text;
}

void say_load(const struct yolizadwa_numbers *numbers)
{
    printf("the load is %" PRIu64 "/%" PRIu64 ", %s\n", numbers->load, numbers->round, percent(numbers->load, numbers->round));
}

static void print_row(const struct table *table, unsigned number, uint64_t round, const uint64_t *costs, int wide)
{
    uint64_t asked = asked_by(table, number, round);
    printf("  %4u  %5" PRIu64 "  %*" PRIu64 "  %7s", number, task_at(table, number).cost, wide, asked, percent(asked, round));
    if (costs == NULL) {
        printf("      ?");
    } else if (costs[number] == 0) {
        printf("   none");
    } else {
        printf("  %5" PRIu64, costs[number]);
    }
    end_row(table, number, put_plain);
}

/* A column is never narrower than its heading. */
static int columns_asked(const struct yolizadwa_numbers *numbers)
{
    int columns = columns_for(numbers->load);
    return columns < 10 ? 10 : columns;
}

static void print_rows(const struct table *table, const struct yolizadwa_numbers *numbers, const uint64_t *costs)
{
    int wide = columns_asked(numbers);
    printf("  task   cost  %*s    share  mends%s\n", wide, "in a round", name_heading(table));
    for (unsigned number = 0; number < task_count(table); number++) {
        print_row(table, number, numbers->round, costs, wide);
    }
}

static unsigned count_none(const uint64_t *costs, unsigned tasks)
{
    unsigned none = 0;
    for (unsigned number = 0; number < tasks; number++) {
        none += costs[number] == 0;
    }
    return none;
}

void say_remedies(const struct table *table, const struct yolizadwa_numbers *numbers, int however_long)
{
    uint64_t costs[YOLIZADWA_TASKS];
    int found = find_remedies(table, numbers, however_long, costs);
    unsigned none = found ? count_none(costs, task_count(table)) : 0;
    printf("what each task asks for in a round, and the largest cost of it alone with which the table passes:\n");
    print_rows(table, numbers, found ? costs : NULL);
    if (!found) {
        printf("what mends it was not looked for, since that may take long: --mend looks for it\n");
    } else if (none > 0) {
        printf("none: no cost of that task alone mends it\n");
    }
    if (found && none < task_count(table) && budget_of(table) < numbers->horizon) {
        printf("it takes a budget that reaches the horizon, %" PRIu64 ", to see that it passes then\n", numbers->horizon);
    }
}

void json_remedies(const struct table *table, const struct yolizadwa_numbers *numbers, int however_long)
{
    uint64_t costs[YOLIZADWA_TASKS];
    if (!find_remedies(table, numbers, however_long, costs)) {
        json_null("remedies");
        return;
    }
    json_open("remedies", '[');
    for (unsigned number = 0; number < task_count(table); number++) {
        json_open(NULL, '{');
        json_number_and_name(table, number);
        json_number("cost", task_at(table, number).cost);
        json_number("asked", asked_by(table, number, numbers->round));
        if (costs[number] > 0) {
            json_number("mends", costs[number]);
        } else {
            json_null("mends");
        }
        json_close('}');
    }
    json_close(']');
}
