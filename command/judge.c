/* The word judge: the library's report on each table, and for one that does not pass what it means. */
#include <string.h>

#include "json.h"

static void explain(const struct request *request, const struct table *table, const struct report *report)
{
    struct sentence sentence;
    const struct excess_list list = {request->all, "; --all shows them all", put_plain};
    word_verdict(table, &report->numbers, &sentence);
    printf("\n%s%s\n", sentence.text, report->numbers.verdict == YOLIZADWA_LATE ? ":" : "");
    if (sentence.more[0] != '\0') {
        printf("%s\n", sentence.more);
    }
    list_excess(table, &report->numbers, &list);
    if (report->numbers.verdict == YOLIZADWA_UNDECIDED) {
        say_load(&report->numbers);
        return;
    }
    putchar('\n');
    say_load(&report->numbers);
    say_remedies(table, &report->numbers, request->mend);
}

static int judge_in_words(const struct request *request, const struct table *table)
{
    struct report report;
    say_what_if(table);
    check_table(table, request->plainly, &report);
    fputs(report.text, stdout);
    int status = verdict_status(&report.numbers);
    if (status != DONE) {
        explain(request, table, &report);
    }
    return status;
}

static void json_tasks(const struct table *table, const struct yolizadwa_numbers *numbers)
{
    json_open("tasks", '[');
    for (unsigned number = 0; number < task_count(table); number++) {
        json_task(table, number);
        if (numbers->verdict == YOLIZADWA_PASSES) {
            json_number("worst", numbers->worst[number]);
        }
        json_close('}');
    }
    json_close(']');
}

void json_interval(const struct table *table, const struct yolizadwa_numbers *numbers, int all)
{
    json_open("interval", '{');
    json_number("from", numbers->from);
    json_number("to", numbers->to);
    json_number("demand", numbers->demand);
    json_close('}');
    json_excess(table, numbers, all);
}

static void json_numbers(const struct table *table, const struct yolizadwa_numbers *numbers)
{
    json_changes(table);
    json_number("budget", budget_of(table));
    json_open("load", '{');
    json_number("asked", numbers->load);
    json_number("round", numbers->round);
    json_close('}');
    json_text("quick", numbers->quick == YOLIZADWA_QUICK_PASS ? "pass" : "none");
    json_number("horizon", numbers->horizon);
    json_text("verdict", verdict_name(numbers->verdict));
    json_number("settled", numbers->settled);
    json_tasks(table, numbers);
}

static int judge_as_json(const struct request *request, unsigned which, const struct table *table)
{
    struct yolizadwa_numbers numbers;
    answer_table(table, &numbers);
    int status = verdict_status(&numbers);
    json_begin(request, which, status);
    json_numbers(table, &numbers);
    if (numbers.verdict == YOLIZADWA_PASSES) {
        json_number("idle", numbers.idle);
    } else if (numbers.verdict == YOLIZADWA_LATE) {
        json_interval(table, &numbers, request->all);
    }
    if (status == LATE) {
        json_remedies(table, &numbers, request->mend);
    }
    json_end();
    return status;
}

static void print_heading(const struct request *request, unsigned which)
{
    printf("%s%s:\n", which > 0 ? "\n" : "", shown_name(request->files[which]));
    fflush(stdout);
}

/* One of several tables stands under its name. */
static int judge_one(const struct request *request, unsigned which)
{
    struct table table;
    if (request->file_count > 1 && !request->json) {
        print_heading(request, which);
    }
    int status = open_periodic(request, which, stdout, "the exact test", &table);
    if (status != DONE) {
        return status;
    }
    status = request->json ? judge_as_json(request, which, &table) : judge_in_words(request, &table);
    close_table(&table);
    return status;
}

/* Trouble is worse than a refusal, that than late, that than undecided, and that than done. */
static int worse(int one, int other)
{
    return one == DONE || (other != DONE && other < one) ? other : one;
}

int judge(const struct request *request)
{
    int status = DONE;
    unsigned standard = 0;
    for (unsigned which = 0; which < request->file_count; which++) {
        standard += strcmp(request->files[which], "-") == 0;
    }
    if (standard > 1) {
        trouble("only one of the tables can be standard input");
        return json_trouble(request, 0);
    }
    if (request->plainly && request->json) {
        trouble("--plainly is for the text of the report, which --json does not print; leave one of them out");
        return json_trouble(request, 0);
    }
    for (unsigned which = 0; which < request->file_count && !ferror(stdout); which++) {
        status = worse(status, judge_one(request, which));
    }
    return status;
}
