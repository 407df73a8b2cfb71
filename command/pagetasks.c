/* The table of a page: of each task a sentence, and its numbers. */
#include "page.h"

enum { BAR = 120 };

static const char *slots_of(uint64_t count)
{
    return count == 1 ? "slot" : "slots";
}

/* The whole width is the deadline. */
static void put_bar(uint64_t worst, uint64_t deadline)
{
    printf("<td class=\"bar\"><svg xmlns=\"http://www.w3.org/2000/svg\" width=\"%d\" height=\"14\" viewBox=\"0 0 %d 14\" preserveAspectRatio=\"none\">"
           "<title>%" PRIu64 " of %" PRIu64 "</title><rect x=\".5\" y=\".5\" width=\"%d\" height=\"13\" fill=\"#fff\" stroke=\"#000\"/>"
           "<rect x=\"1\" y=\"3\" width=\"%u\" height=\"8\" fill=\"#1c3f5e\"/></svg></td>",
           BAR, BAR, worst, deadline, BAR - 1, (unsigned)((BAR - 2) * worst / deadline));
}

static void put_room(const struct page *page, unsigned number, const struct task *task)
{
    uint64_t more = page->costs[number] - task->cost;
    printf(" is ready within %" PRIu32 " of %" PRIu64 " %s and may take ", page->report.numbers.worst[number], task->deadline,
           slots_of(task->deadline));
    if (more > 0) {
        printf("%" PRIu64 " more.", more);
    } else {
        printf("no more.");
    }
}

/* What mends a table is told only of one that does not pass. */
static void put_need(const struct page *page, unsigned number, const struct task *task)
{
    printf(" asks for %" PRIu64 " %s in every %" PRIu64, task->cost, slots_of(task->cost), task->period);
    if (!page->knows_costs) {
        printf(", within %" PRIu64 " of its release.", task->deadline);
    } else if (page->costs[number] > 0) {
        printf("; with %" PRIu64 " the table passes.", page->costs[number]);
    } else {
        printf("; no cost of it alone mends the table.");
    }
}

static void put_press(const struct task *task)
{
    printf(" asks for %" PRIu64 " %s within %" PRIu64 " of a press, and is pressed at most once in %" PRIu64 ".", task->cost,
           slots_of(task->cost), task->deadline, task->period);
}

static void put_sentence(const struct page *page, unsigned number, const struct task *task)
{
    struct words words;
    printf("<td class=\"says\"><b dir=\"auto\">");
    if (page->table->names[number].len > 0) {
        put_whole_name(page->table, number);
    } else {
        put_text(task_words(page->table, number, &words));
    }
    printf("</b>");
    if (task->button) {
        put_press(task);
    } else if (page->status == DONE && button_count(page->table) == 0) {
        put_room(page, number, task);
    } else {
        put_need(page, number, task);
    }
    printf("</td>");
}

static void put_number(const char *what, uint64_t number)
{
    printf("<td data-is=\"%s\">%" PRIu64 "</td>", what, number);
}

static void put_task(const struct page *page, unsigned number, int has_room)
{
    struct task task = task_at(page->table, number);
    printf("<tr><td>%u</td>", number);
    put_sentence(page, number, &task);
    if (has_room) {
        put_bar(page->report.numbers.worst[number], task.deadline);
    }
    if (task.button) {
        printf("<td></td>");
    } else {
        put_number("offset", task.offset);
    }
    put_number("cost", task.cost);
    put_number("deadline", task.deadline);
    put_number(task.button ? "spacing" : "period", task.period);
    printf("</tr>\n");
}

static void put_budget(uint64_t budget)
{
    if (budget == UINT64_MAX) {
        printf("The budget has no bound.");
    } else {
        printf("The budget is %" PRIu64 ".", budget);
    }
}

/* Only a table that passes has worst responses and room for larger costs. */
void put_tasks(const struct page *page)
{
    int buttons = button_count(page->table) > 0, has_room = page->status == DONE && !buttons;
    printf("<section><h2>Task by task</h2>\n<table>\n<thead><tr><th>task</th><th class=\"says\"></th>%s<th>offset</th><th>cost</th>"
           "<th>deadline</th><th>%s</th></tr></thead>\n<tbody>\n",
           has_room ? "<th>ready</th>" : "", buttons ? "period or spacing" : "period");
    for (unsigned number = 0; number < task_count(page->table); number++) {
        put_task(page, number, has_room);
    }
    printf("</tbody></table>\n<p>All numbers are slots. ");
    put_budget(budget_of(page->table));
    if (has_room) {
        printf(" No job of a task ends later after its release than it is said to be ready. A task may take that many slots more, all others\n"
               "as they are; raise one cost, and ask again before the next.");
    }
    printf("</p></section>\n");
}
