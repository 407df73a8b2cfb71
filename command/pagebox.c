/* The verdict of a page at a glance: a sign, a word, what it means, whom it is about, and what mends it. */
#include <string.h>

#include "page.h"

/* Drawn, since not every font has such signs. */
static const char tick[] =
    "<circle cx=\"24\" cy=\"24\" r=\"22\" fill=\"#14602a\"/>"
    "<path d=\"M12 25l8 9L36 14\" fill=\"none\" stroke=\"#fff\" stroke-width=\"6\"/>";
static const char cross[] =
    "<path d=\"M15 2h18l13 13v18l-13 13h-18l-13 -13v-18z\" fill=\"#a3001b\"/>"
    "<path d=\"M14 14L34 34M34 14L14 34\" stroke=\"#fff\" stroke-width=\"6\"/>";
static const char question_mark[] =
    "<path d=\"M24 1l23 23l-23 23l-23 -23z\" fill=\"#fff\" stroke=\"#6b4e00\" stroke-width=\"2\"/>"
    "<path d=\"M17 19a7 7 0 1 1 10 6c-2 1 -3 2 -3 5v1m0 3v5\" fill=\"none\" stroke=\"#000\" stroke-width=\"4\"/>";

/* A box of this kind, with its sign. */
static void begin_box(int status)
{
    printf("<div class=\"box %s\"><svg xmlns=\"http://www.w3.org/2000/svg\" width=\"48\" height=\"48\" viewBox=\"0 0 48 48\">%s</svg>\n<div>\n",
           status == DONE ? "passes" : status == LATE ? "late" : "undecided", status == DONE ? tick : status == LATE ? cross : question_mark);
}

static void put_name(const struct page *page, unsigned number)
{
    struct words words;
    put_text(name_of(page->table, number, MOST_LETTERS, &words));
}

/* Of a late table each task that has jobs in the interval. */
static void put_late(const struct page *page)
{
    const struct yolizadwa_numbers *numbers = &page->report.numbers;
    unsigned told = 0;
    printf("<p class=\"who\">In this interval: ");
    for (unsigned number = 0; number < task_count(page->table); number++) {
        struct task task = task_at(page->table, number);
        uint64_t jobs = jobs_within(&task, numbers->from, numbers->to);
        if (jobs > 0) {
            printf("%s<b dir=\"auto\">", told++ == 0 ? "" : "; ");
            put_name(page, number);
            printf("</b>, %" PRIu64 " %s of %" PRIu64, jobs, jobs == 1 ? "job" : "jobs", task.cost);
        }
    }
    printf(".</p>\n");
}

/* Of an overload what each task asks for. */
static void put_overload(const struct page *page)
{
    const struct yolizadwa_numbers *numbers = &page->report.numbers;
    printf("<p class=\"who\">Of every %" PRIu64 " slots: ", numbers->round);
    for (unsigned number = 0; number < task_count(page->table); number++) {
        struct task task = task_at(page->table, number);
        uint64_t asked = numbers->round / task.period * task.cost;
        printf("%s<b dir=\"auto\">", number == 0 ? "" : "; ");
        put_name(page, number);
        printf("</b> asks for %" PRIu64 ", %s", asked, percent(asked, numbers->round));
    }
    printf(".</p>\n");
}

static unsigned put_each_remedy(const struct page *page)
{
    unsigned told = 0;
    for (unsigned number = 0; number < task_count(page->table); number++) {
        if (page->costs[number] > 0) {
            printf("%s<b dir=\"auto\">", told++ == 0 ? "One of these mends it, all others as they are: " : "; ");
            put_name(page, number);
            printf("</b> with a cost of %" PRIu64 " instead of %" PRIu64, page->costs[number], task_at(page->table, number).cost);
        }
    }
    return told;
}

static void put_remedies(const struct page *page)
{
    uint64_t horizon = page->report.numbers.horizon;
    printf("<p class=\"mends\">");
    if (!page->knows_costs) {
        printf("What mends it was not looked for, since that may take long: judge --mend looks for it.</p>\n");
        return;
    }
    unsigned told = put_each_remedy(page);
    printf(told == 0 ? "No cost of one task alone mends it." : ".");
    if (told > 0 && budget_of(page->table) < horizon) {
        printf(" It takes a budget that reaches the horizon, %" PRIu64 ", to see that it passes then.", horizon);
    }
    printf("</p>\n");
}

static void put_blame(const struct page *page)
{
    if (page->report.numbers.verdict == YOLIZADWA_LATE) {
        put_late(page);
    } else {
        put_overload(page);
    }
    put_remedies(page);
}

void put_box(const struct page *page, const char *verdict, const char *more)
{
    size_t word = strcspn(verdict, ":");
    begin_box(page->status);
    printf("<p class=\"verdict\"><b>%.*s</b>", (int)word, verdict);
    put_lines(verdict + word);
    printf("%s%s</p>\n", more[0] == '\0' ? "" : " ", more);
    if (page->status == LATE && button_count(page->table) == 0) {
        put_blame(page);
    }
    printf("</div></div>\n");
}
