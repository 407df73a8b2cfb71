/* The word largest: how far each cost may grow before the table no longer passes, by the library's answers alone. */
#include <string.h>

#include "json.h"

static void print_heading(const struct table *table)
{
    printf("  task   cost  largest   more  deadline%s\n", name_heading(table));
}

static void print_row(const struct table *table, unsigned number, uint64_t largest)
{
    struct task task = task_at(table, number);
    printf("  %4u  %5" PRIu64 "  %7" PRIu64 "  %5" PRIu64 "  %8" PRIu64, number, task.cost, largest, largest - task.cost, task.deadline);
    end_row(table, number, put_plain);
}

void tell_tasks(unsigned done, unsigned all, double seconds)
{
    char words[64];
    snprintf(words, sizeof words, "tasks done: %u of %u", done, all);
    tell_progress(words, words, seconds / done * (all - done));
}

/* An answer that is no cost is the same for every task of the table, so the first one is enough. With buttons the distance test is asked. */
uint64_t ask_largest(const struct table *table, uint32_t first, unsigned rows, uint64_t *told)
{
    uint64_t (*ask)(const uint8_t *, size_t, uint32_t) = button_count(table) > 0 ? yolizadwa_room : yolizadwa_largest;
    uint64_t answer = 0;
    double began = seconds_now();
    begin_progress();
    for (unsigned row = 0; row < rows && answer < YOLIZADWA_LARGEST_OVERLOAD; row++) {
        answer = ask(table->file, table->len, first + row);
        told[row] = answer;
        tell_tasks(row + 1, rows, seconds_now() - began);
    }
    end_progress();
    return answer;
}

static void say_no_room(uint64_t answer)
{
    if (answer == YOLIZADWA_ROOM_OVERLOAD) {
        printf("largest overload\n\noverload: with every button pressed as often as it may be, more slots are asked for than there are, so no cost\ncan grow\n");
    } else {
        printf("largest none\n\nnone: the distance test has no answer to the table as it is, so no cost is sure; distance tells more\n");
    }
}

static void say_none(const struct table *table, uint64_t answer)
{
    if (answer == YOLIZADWA_LARGEST_UNDECIDED) {
        printf("largest undecided\n\nundecided: the budget, %" PRIu64 ", ended before it was known whether the table passes; the horizon, %" PRIu64 ", is\n"
               "always enough\n",
               budget_of(table), horizon_of(table));
    } else if (answer == YOLIZADWA_LARGEST_OVERLOAD) {
        printf("largest overload\n\noverload: the table does not pass as it is: more slots are asked for than there are, so no cost can grow;\njudge tells what each task asks for and which cost mends it\n");
    } else {
        printf("largest late\n\nlate: the table does not pass as it is, so no cost can grow; judge tells which jobs ask for too much, and\nwhich cost mends it\n");
    }
}

static void say_largest(const struct table *table, uint32_t first, unsigned rows, const uint64_t *told)
{
    print_heading(table);
    for (unsigned row = 0; row < rows; row++) {
        print_row(table, first + row, told[row]);
    }
    if (button_count(table) > 0) {
        printf("\nthe distance test passes, and still does with %s cost at its largest; these costs are sure,\nand larger ones may be kept too\n",
               rows == 1 ? "this" : "any one");
        return;
    }
    printf("\nthe table passes, and still does with %s up to its deadline%s\n",
           rows == 1 ? "this cost at its largest, and with no larger one" : "any one cost at its largest, and with no larger one",
           rows == 1 ? "" : "; with two it may not");
}

static void json_largest(const struct table *table, uint32_t first, unsigned rows, const uint64_t *told)
{
    json_open("largest", '[');
    for (unsigned row = 0; row < rows; row++) {
        struct task task = task_at(table, first + row);
        json_open(NULL, '{');
        json_number_and_name(table, first + row);
        json_number("cost", task.cost);
        json_number("largest", told[row]);
        json_number("more", told[row] - task.cost);
        json_number("deadline", task.deadline);
        json_close('}');
    }
    json_close(']');
}

static int status_of(const struct table *table, uint64_t answer)
{
    if (answer == YOLIZADWA_ROOM_NONE && button_count(table) > 0) {
        return UNDECIDED;
    }
    return answer == YOLIZADWA_LARGEST_UNDECIDED ? UNDECIDED : answer >= YOLIZADWA_LARGEST_OVERLOAD ? LATE : DONE;
}

/* As judge calls it, or with buttons as distance does. */
static const char *verdict_of(const struct table *table, uint64_t answer, int status)
{
    int buttons = button_count(table) > 0;
    if (status == DONE) {
        return buttons ? "pass" : "passes";
    }
    if (buttons && status == UNDECIDED) {
        return "none";
    }
    return verdict_name((uint32_t)(answer - YOLIZADWA_LARGEST_OVERLOAD) + YOLIZADWA_OVERLOAD);
}

static int tell_largest(const struct request *request, const struct table *table, uint32_t first, unsigned rows)
{
    uint64_t told[YOLIZADWA_TASKS];
    uint64_t answer = ask_largest(table, first, rows, told);
    if (yolizadwa_refused(answer)) {
        return say_no_task(request, table, answer);
    }
    int status = status_of(table, answer);
    if (request->json) {
        json_begin(request, 0, status);
        json_changes(table);
        json_text("verdict", verdict_of(table, answer, status));
        json_largest(table, first, status == DONE ? rows : 0, told);
        json_end();
        return status;
    }
    say_what_if(table);
    if (status == DONE) {
        say_largest(table, first, rows, told);
    } else if (button_count(table) > 0) {
        say_no_room(answer);
    } else {
        say_none(table, answer);
    }
    return status;
}

int largest(const struct request *request)
{
    struct table table;
    int status = open_table(request, 0, stdout, &table);
    if (status != DONE) {
        return status;
    }
    uint32_t first = request->task;
    if (request->task_name != NULL) {
        first = task_named(&table, request->task_name, (int)strlen(request->task_name));
    }
    if (request->task_name != NULL && first == YOLIZADWA_TASKS) {
        return json_trouble(request, 0);
    }
    return tell_largest(request, &table, first, request->one_task ? 1 : task_count(&table));
}
