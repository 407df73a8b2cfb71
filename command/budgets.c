/* Checks a table with budgets that grow eightfold up to its own, so that meanwhile it is known how far the check is. */
#include "command.h"

/*
 * First comes a check with a budget of 1, which tells the horizon. Before the one with the table's own budget come some with an eighth of its
 * slots, a sixty-fourth and so on: together at most a seventh of them, so that all take 8/7 of its time. (If the table is late, that check
 * ends at the late deadline, and the others may take 8/7 of its time themselves. Late and undecided tables are checked once more for the
 * text.) But every check makes the quick test anew, whatever its budget: if that is slow, so is the first check, and then only the
 * last one follows.
 */
enum { GROWTH = 8, FIRST_SLOTS = 4096 };
static const double slow_seconds = 0.02;

/* A walk to an idle instant ends by then, whatever the offsets: all costs at once, and what comes in while those are worked off. */
static double idle_within(const struct table *table, double round)
{
    double costs = 0, load = 0;
    for (unsigned number = 0; number < task_count(table); number++) {
        struct task task = task_at(table, number);
        costs += (double)task.cost;
        load += (double)task.cost / (double)task.period;
    }
    return load < 1 && costs / (1 - load) < round ? costs / (1 - load) : round;
}

/* Of the last check: the horizon, that or the budget if it is smaller, and the most slots that are looked at. */
struct way {
    uint64_t horizon, goal, slots;
};

static uint64_t smaller(uint64_t one, uint64_t other)
{
    return one < other ? one : other;
}

/* By leaps a check ends with no job open a round after the largest offset; slot by slot it goes to the horizon. */
static struct way way_of(const struct table *table, const struct yolizadwa_numbers *numbers, int plainly)
{
    uint64_t budget = budget_of(table), end = numbers->horizon;
    if (!plainly) {
        end = numbers->horizon - numbers->round + (uint64_t)idle_within(table, (double)numbers->round);
    }
    return (struct way){numbers->horizon, smaller(budget, numbers->horizon), smaller(budget, end)};
}

static uint64_t first_budget(const struct way *way)
{
    uint64_t budget = way->slots;
    while (budget > FIRST_SLOTS) {
        budget /= GROWTH;
    }
    return budget;
}

/* A check with some budget, and how long it took. */
struct trial {
    uint64_t budget;
    double seconds;
};

/* What is asked for: numbers alone, or the text too, made by leaps or slot by slot. */
enum asked { NUMBERS, TEXT, PLAIN_TEXT };

/* Slot by slot is slower by far, so it alone counts. */
static struct trial try_budget(const struct table *table, uint64_t budget, enum asked asked, struct report *report)
{
    struct table part = *table;
    double began = seconds_now();
    replace_budget(&part, budget);
    answer_once(&part, &report->numbers);
    if (asked == PLAIN_TEXT) {
        began = seconds_now();
        write_report(&part, 1, report);
    }
    return (struct trial){budget, seconds_now() - began};
}

/* What the first check took is not for its slots. By the first alone nothing can be foretold: 0. */
static double seconds_of_last(const struct way *way, const struct trial *first, const struct trial *latest)
{
    double slots = (double)(latest->budget - first->budget), seconds = latest->seconds - first->seconds;
    return slots > 0 && seconds > 0 ? first->seconds + seconds * (double)way->slots / slots : 0;
}

/* An undecided check has settled as many slots as its budget has. */
static void tell_settled(const struct way *way, const struct trial *first, const struct trial *latest)
{
    char now[64], stopped[96];
    snprintf(now, sizeof now, "%.1f %% of the %s is settled", 100 * (double)latest->budget / (double)way->goal,
             way->goal < way->horizon ? "budget" : "horizon");
    snprintf(stopped, sizeof stopped, "%" PRIu64 " slots of the horizon %" PRIu64 " were settled", latest->budget, way->horizon);
    tell_progress(now, stopped, seconds_of_last(way, first, latest));
}

/* Any verdict but undecided is the same with every larger budget, and so are its numbers and its report. Tells the budget that decides, or 0. */
static uint64_t decide_early(const struct table *table, enum asked asked, struct report *report)
{
    struct trial first = try_budget(table, 1, asked, report);
    struct way way = way_of(table, &report->numbers, asked == PLAIN_TEXT);
    uint64_t most = way.slots / GROWTH, tried = 1;
    for (uint64_t budget = first_budget(&way); report->numbers.verdict == YOLIZADWA_UNDECIDED; budget *= GROWTH) {
        if (budget == 0 || budget > most || first.seconds >= slow_seconds) {
            return 0;
        }
        struct trial latest = try_budget(table, budget, asked, report);
        tried = budget;
        tell_settled(&way, &first, &latest);
    }
    return tried;
}

/* A text that passes says all that its word prints, so the numbers are not asked for a second time. */
static void decide_last(const struct table *table, enum asked asked, struct report *report)
{
    if (asked != NUMBERS) {
        write_report(table, asked == PLAIN_TEXT, report);
    }
    if (asked == TEXT && report_passes(report)) {
        report->numbers.verdict = YOLIZADWA_PASSES;
    } else {
        answer_once(table, &report->numbers);
    }
}

static void check_growing(const struct table *table, enum asked asked, struct report *report)
{
    struct table part = *table;
    begin_progress();
    uint64_t budget = decide_early(table, asked, report);
    if (budget == 0) {
        decide_last(table, asked, report);
    } else if (asked == TEXT) {
        replace_budget(&part, budget);
        write_report(&part, 0, report);
    }
    end_progress();
}

void answer_table(const struct table *table, struct yolizadwa_numbers *numbers)
{
    struct report report;
    check_growing(table, NUMBERS, &report);
    *numbers = report.numbers;
}

void check_table(const struct table *table, int plainly, struct report *report)
{
    check_growing(table, plainly ? PLAIN_TEXT : TEXT, report);
}
