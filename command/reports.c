/* Asks the library for numbers and for a report, and says a verdict in a sentence. */
#include "command.h"

uint64_t answer_once(const struct table *table, struct yolizadwa_numbers *numbers)
{
    return yolizadwa_answer(table->file, table->len, (uint8_t *)numbers, sizeof *numbers);
}

void write_report(const struct table *table, int plainly, struct report *report)
{
    uint8_t *text = (uint8_t *)report->text;
    report->length = plainly ? yolizadwa_check_plainly(table->file, table->len, text, YOLIZADWA_REPORT_BYTES)
                             : yolizadwa_check(table->file, table->len, text, YOLIZADWA_REPORT_BYTES);
    report->text[yolizadwa_refused(report->length) ? 0 : report->length] = '\0';
}

int report_passes(const struct report *report)
{
    return !yolizadwa_refused(report->length) && yolizadwa_passes((const uint8_t *)report->text, (size_t)report->length) == 1;
}

const char *verdict_name(uint32_t verdict)
{
    static const char *const names[] = {"overload", "undecided", "late", "passes"};
    return names[verdict - YOLIZADWA_OVERLOAD];
}

int verdict_status(const struct yolizadwa_numbers *numbers)
{
    switch (numbers->verdict) {
    case YOLIZADWA_PASSES: return DONE;
    case YOLIZADWA_UNDECIDED: return UNDECIDED;
    default: return LATE;
    }
}

static void word_late(const struct yolizadwa_numbers *numbers, struct sentence *sentence)
{
    snprintf(sentence->text, sizeof sentence->text,
             "late: the jobs released at %" PRIu64 " or later and due by %" PRIu64 " ask for %" PRIu64 " slots and have %" PRIu64,
             numbers->from, numbers->to, numbers->demand, numbers->to - numbers->from);
}

static void word_overload(const struct yolizadwa_numbers *numbers, struct sentence *sentence)
{
    snprintf(sentence->text, sizeof sentence->text,
             "overload: the jobs ask for %" PRIu64 " slots in every %" PRIu64 ", so some are late sooner or later", numbers->load,
             numbers->round);
}

void foretell(struct sentence *sentence, const char *answer)
{
    snprintf(sentence->more, sizeof sentence->more, "and will give passes, as %s says", answer);
}

static void word_undecided(const struct table *table, const struct yolizadwa_numbers *numbers, struct sentence *sentence)
{
    snprintf(sentence->text, sizeof sentence->text,
             "undecided: the budget, %" PRIu64 ", ended before the answer was known; the horizon, %" PRIu64 ", is always enough",
             budget_of(table), numbers->horizon);
    if (numbers->quick == YOLIZADWA_QUICK_PASS) {
        foretell(sentence, "quick pass");
    }
}

/* Each sentence begins with the verdict. */
void word_verdict(const struct table *table, const struct yolizadwa_numbers *numbers, struct sentence *sentence)
{
    sentence->text[0] = sentence->more[0] = '\0';
    switch (numbers->verdict) {
    case YOLIZADWA_PASSES:
        snprintf(sentence->text, sizeof sentence->text, "passes: every job meets its deadline for ever");
        break;
    case YOLIZADWA_UNDECIDED: word_undecided(table, numbers, sentence); break;
    case YOLIZADWA_OVERLOAD: word_overload(numbers, sentence); break;
    default: word_late(numbers, sentence);
    }
}

/* It does not depend on the budget, so the least will do. Of a table with buttons it is that with these pressed as often as they may be. */
uint64_t horizon_of(const struct table *table)
{
    struct table least;
    struct yolizadwa_numbers numbers;
    pressed_often(table, &least);
    replace_budget(&least, 1);
    begin_progress();
    answer_once(&least, &numbers);
    end_progress();
    return numbers.horizon;
}

/* Tells whether one task alone makes the horizon this long: its first release, and two rounds of one period at least. */
static int reaches(const struct table *table, uint64_t slots)
{
    for (unsigned number = 0; number < task_count(table); number++) {
        struct task task = task_at(table, number);
        if (task.offset + 2 * task.period >= slots) {
            return 1;
        }
    }
    return 0;
}

/* Longer or shorter runs than these are not good to look at. The library is asked only where that matters, since it may take long. */
unsigned long usual_slots(const struct table *table, unsigned long most)
{
    uint64_t horizon = reaches(table, most) ? most : horizon_of(table);
    return horizon < LEAST_USUAL ? LEAST_USUAL : horizon > most ? most : (unsigned long)horizon;
}
