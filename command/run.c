/* The word run: who had each slot and the accounts of it, from the dispatcher's answers and state alone. */
#include <stdlib.h>

#include "chart.h"

enum { MOST_USUAL = 120 };

static char mark_of(const struct course *course, unsigned number)
{
    int came = course->came >> number & 1, due = course->due >> number & 1;
    if (course->state.late >> number & 1) {
        return '!';
    }
    return course->untaken >> number & 1 ? 'x' : came && due ? '|' : came ? '[' : due ? ']' : ' ';
}

static void draw_slot(struct chart *chart, unsigned column)
{
    struct course *course = &chart->course;
    uint64_t owner = take_slot(course);
    for (unsigned number = 0; number < course->tasks; number++) {
        chart->rows[number][column] = mark_of(course, number);
        chart->rows[number][column + 1] = owner == number ? '#' : course->state.left[number] > 0 ? '.' : ' ';
    }
    note_late(&chart->late, course);
    note_presses(&chart->pressed, course);
}

/* Writes what a camera does: the slot just drawn, and the done report that the next step is told. */
static void log_slot(struct chart *chart)
{
    if (chart->log == NULL) {
        return;
    }
    uint8_t *next = chart->log + chart->log_len;
    int empty = chart->course.state.last == YOLIZADWA_TASKS;
    *next++ = empty ? YOLIZADWA_LOG_EMPTY : YOLIZADWA_LOG_SLOT;
    if (!empty) {
        *next++ = (uint8_t)chart->course.state.last;
    }
    if (chart->course.done) {
        *next++ = YOLIZADWA_LOG_DONE;
    }
    chart->log_len = (size_t)(next - chart->log);
}

static void draw_block(struct chart *chart, unsigned long begin)
{
    unsigned long left = chart->slots - begin;
    unsigned slots = left < chart->wide ? (unsigned)left : chart->wide;
    for (unsigned slot = 0; slot < slots; slot++) {
        draw_slot(chart, 2 * slot);
        log_slot(chart);
    }
    /* The chart ends with the instant after the last slot of all. */
    if (left == slots) {
        chart->ended = chart->course.state;
        draw_slot(chart, 2 * slots);
    }
    if (!chart->quiet) {
        print_block(chart, begin, begin + slots, 2 * slots + (left == slots));
    }
}

static void list_late(const struct chart *chart)
{
    if (chart->late.count == 0) {
        printf("no job was closed late from 0 to %lu\n", chart->slots);
        return;
    }
    printf("closed late, with that many slots missing:\n");
    print_late(&chart->late, chart->course.table, chart->slots);
}

/* The share is in percent, rounded to tenths. */
static void print_share(const char *whose, uint64_t had, unsigned long slots, int wide)
{
    printf("  %5s  %*" PRIu64 "  %7s", whose, wide, had, percent(had, slots));
}

static void print_accounts(const struct chart *chart)
{
    char whose[12];
    int wide = columns_for(chart->slots) > 5 ? columns_for(chart->slots) : 5;
    printf("\nwho had the slots, %lu in all:\n   task  %*s    share%s\n", chart->slots, wide, "slots", name_heading(chart->course.table));
    for (unsigned number = 0; number < chart->course.tasks; number++) {
        snprintf(whose, sizeof whose, "%u", number);
        print_share(whose, chart->ended.given[number], chart->slots, wide);
        end_row(chart->course.table, number, put_plain);
    }
    print_share("empty", chart->ended.empty, chart->slots, wide);
    putchar('\n');
}

static void draw_chart(struct chart *chart)
{
    for (unsigned long begin = 0; begin < chart->slots && !ferror(stdout); begin += chart->wide) {
        draw_block(chart, begin);
    }
}

static void sum_up(const struct chart *chart)
{
    putchar('\n');
    list_late(chart);
    print_presses(&chart->pressed, &chart->course);
    printf("\n# has the slot  . waits  [ released  ] due  | due and released  ! closed late\n");
    if (chart->course.has_buttons) {
        printf("of a button: [ pressed, and taken  x pressed too early\n");
    }
    print_accounts(chart);
}

static void run_as_json(const struct request *request, const struct chart *chart, int status)
{
    const struct table *table = chart->course.table;
    json_begin(request, 0, status);
    json_changes(table);
    json_number("slots", chart->slots);
    json_late(&chart->late, table);
    json_open("given", '[');
    for (unsigned number = 0; number < chart->course.tasks; number++) {
        json_open(NULL, '{');
        json_number_and_name(table, number);
        json_number("slots", chart->ended.given[number]);
        json_close('}');
    }
    json_close(']');
    json_number("empty", chart->ended.empty);
    json_presses(&chart->pressed, &chart->course);
    json_end();
}

/* A slot needs at most three bytes, and the end one. */
static int begin_log(struct chart *chart, const char *name)
{
    chart->log = name == NULL ? NULL : malloc(3 * (size_t)chart->slots + 1);
    return name != NULL && chart->log == NULL ? trouble("no memory for the log") : DONE;
}

static int end_log(struct chart *chart, const char *name)
{
    if (name == NULL) {
        return DONE;
    }
    chart->log[chart->log_len++] = YOLIZADWA_LOG_END;
    int status = write_log(name, chart->log, chart->log_len);
    free(chart->log);
    return status;
}

static int tell_run(const struct request *request, struct chart *chart)
{
    if (!request->json) {
        say_what_if(chart->course.table);
    }
    draw_chart(chart);
    if (!request->json) {
        sum_up(chart);
    }
    int status = end_log(chart, request->log);
    status = status != DONE ? status : chart->late.count > 0 ? LATE : DONE;
    if (status == TROUBLE) {
        return json_trouble(request, 0);
    }
    if (request->json) {
        run_as_json(request, chart, status);
    }
    return status;
}

/* A press has no record in a log, so a log of it would not be the table's. */
static int may_have_log(const struct request *request, const struct table *table)
{
    if (request->log == NULL || button_count(table) == 0) {
        return DONE;
    }
    int status = trouble("a table with a button has no log: a log has no record of a press");
    if (request->json) {
        json_trouble(request, 0);
    }
    return status;
}

/* Without --slots every press that is told is in the run, and its job is due there. */
static unsigned long slots_of(const struct request *request, const struct table *table, const struct presses *presses)
{
    if (request->slots > 0) {
        return request->slots;
    }
    unsigned long usual = usual_slots(table, MOST_USUAL);
    return presses->due < usual ? usual : presses->due > MOST_SLOTS ? MOST_SLOTS : (unsigned long)presses->due;
}

int run(const struct request *request)
{
    static struct chart chart;
    static struct presses presses;
    struct table table;
    int status = open_table(request, 0, stderr, &table);
    if (status == DONE) {
        status = may_have_log(request, &table);
    }
    if (status == DONE) {
        status = take_presses(request, &table, &presses);
    }
    if (status != DONE) {
        return status;
    }
    begin_course(&chart.course, &table, request->early);
    chart.course.presses = &presses;
    chart.slots = slots_of(request, &table, &presses);
    chart.quiet = request->json;
    measure_chart(&chart);
    status = begin_log(&chart, request->log);
    return status != DONE ? status : tell_run(request, &chart);
}
