/* The word page: all that the library says of a table, on one page of HTML to hand over. */
#include <string.h>

#include "page.h"

enum { BYTES_OF_A_ROW = 16, LONG_REPORT = 4, MOST_SHOWN = 110 };

/* An empty line parts an answer from what it means. */
static const char *meaning_of(const char *words)
{
    return strchr(words, '\n') + 2;
}

static void put_answer(const char *words)
{
    printf("<b>%.*s</b>", (int)(strchr(words, '\n') - words), words);
}

static void put_words(const char *words, const char *tail)
{
    printf("<p>");
    put_answer(words);
    printf(" &#8212; ");
    put_lines(meaning_of(words));
    printf("%s</p>\n", tail);
}

static void put_short(const struct page *page)
{
    int told = page->report.numbers.verdict != YOLIZADWA_UNDECIDED, is_none = page->distance == YOLIZADWA_DISTANCE_NONE;
    printf("<section><h2>In short</h2>\n");
    put_words(quick_words(page->report.numbers.quick), "");
    put_words(distance_words(page->table, page->distance), !is_none ? "" : told ? ": the verdict tells" : ": judge tells");
    printf("</section>\n");
}

static const char proved_of_tasks[] =
    "<li>Proved by machine, for every table: the answers above are right, for ever and not only for the slots that are drawn, and the\n"
    "dispatcher gives out the slots by its rule.</li>\n"
    "<li>Assumed of the camera: no job needs more slots than its cost; it makes one step for every slot with this table file, and says\n"
    "done only of the slot just before.</li>\n";

static const char proved_of_buttons[] =
    "<li>Proved by machine, for every table: pass and overload are right, whenever the buttons are pressed. Where it is pass, the dispatcher\n"
    "for buttons keeps every deadline; it does not take a press that comes too early, and says so. Where it is late, the exact test says so\n"
    "of the table with tasks in place of the buttons, which this program made.</li>\n"
    "<li>Assumed of the camera: no job needs more slots than its cost; it makes one step for every slot with this table file, by\n"
    "yolizadwa_press_step, tells each press in the step of its slot, and says done only of the slot just before.</li>\n";

static void put_assumed(const struct table *table)
{
    const char *proved = button_count(table) > 0 ? proved_of_buttons : proved_of_tasks;
    printf("<section><h2>What was proved, and what is assumed</h2>\n<ol>\n%s"
           "<li>Assumed beneath: the prover and its logic, the compiler, the processor. This page was made by " PROGRAM ", which is\n"
           "tested and not proved, and shows what the proved calls said.</li>\n</ol></section>\n",
           proved);
}

/* A row stays together, and as many stand side by side as there is room for. */
static void put_bytes(const struct table *table)
{
    printf("<section><h2>The table file</h2>\n<p>Its bytes, which a camera hands to the library, in hexadecimal:</p>\n<p class=\"hex\">");
    for (size_t at = 0; at < table->len; at++) {
        if (at % BYTES_OF_A_ROW == 0) {
            printf("%s<span>%04lx ", at == 0 ? "" : "</span>\n", (unsigned long)at);
        }
        printf(" %02x", table->file[at]);
    }
    printf("</span></p></section>\n");
}

static void put_report(const struct page *page)
{
    printf("<section><h2>The report</h2>\n<pre%s>", task_count(page->table) > LONG_REPORT ? " class=\"long\"" : "");
    put_lines(page->report.text);
    printf("</pre></section>\n");
}

/* It stands last, since it may be long. */
static void put_jobs(const struct table *table, const struct yolizadwa_numbers *numbers, const char *hint)
{
    const struct excess_list list = {0, hint, put_text};
    if (numbers->verdict == YOLIZADWA_LATE) {
        printf("<section class=\"list\"><h2>The jobs of the late interval</h2>\n<pre>");
        list_excess(table, numbers, &list);
        printf("</pre></section>\n");
    }
}

static void put_answer_for_buttons(const struct page *page, const struct certain *certain)
{
    printf("<section><h2>The answer</h2>\n<p>");
    put_answer(certain_words(page->table, page->distance, certain));
    printf(": what it means stands above. No other answer is for a table with a button. A camera starts it with\n"
           "<b>yolizadwa_press_start</b> and gives out each slot with <b>yolizadwa_press_step</b>, which is told the buttons that are pressed.</p>"
           "</section>\n");
}

static void put_run_of(const struct picture *picture)
{
    printf("<section><h2>The run</h2>\n");
    put_run(picture);
    printf("</section>\n<div class=\"pair\">\n<div>\n");
}

/* The distance test is what there is for buttons, and no report is made. */
static void page_with_buttons(struct page *page, const struct presses *presses)
{
    static struct picture picture = {.most = MOST_SHOWN};
    struct certain certain;
    page->distance = ask_distance(page->table);
    ask_certain(page->table, page->distance, &certain);
    page->status = certain_status(page->table, page->distance, &certain);
    take_answer(&picture, page->table, presses);
    trace_run(&picture, page->table, presses, 0);
    put_head(page);
    put_box(page, meaning_of(certain_words(page->table, page->distance, &certain)), "");
    put_tasks(page);
    put_run_of(&picture);
    put_answer_for_buttons(page, &certain);
    put_bytes(page->table);
    printf("</div>\n<div>\n");
    put_assumed(page->table);
    printf("</div>\n</div>\n");
    if (certain.is_asked) {
        put_jobs(&certain.tasks, &certain.numbers, "");
    }
}

/* A distance pass foretells an undecided verdict, unless the quick answer has done so already. */
static void take_distance(struct page *page, struct sentence *verdict)
{
    page->distance = ask_distance(page->table);
    if (page->status == UNDECIDED && page->distance == YOLIZADWA_DISTANCE_PASS && verdict->more[0] == '\0') {
        foretell(verdict, "distance pass");
    }
}

static void take_costs(struct page *page)
{
    if (page->status == DONE) {
        ask_largest(page->table, 0, task_count(page->table), page->costs);
    } else if (page->status == LATE) {
        page->knows_costs = find_remedies(page->table, &page->report.numbers, 0, page->costs);
    }
}

static void put_answers(const struct page *page, const struct picture *picture)
{
    put_head(page);
    put_box(page, picture->verdict.text, picture->verdict.more);
    put_tasks(page);
    put_run_of(picture);
    put_report(page);
    put_bytes(page->table);
    printf("</div>\n<div>\n");
    put_short(page);
    put_assumed(page->table);
    printf("</div>\n</div>\n");
    put_jobs(page->table, &page->report.numbers, ": judge --all lists them");
}

static void page_of_tasks(struct page *page)
{
    static struct picture picture = {.most = MOST_SHOWN};
    answer_table(page->table, &page->report.numbers);
    write_report(page->table, 0, &page->report);
    page->status = verdict_status(&page->report.numbers);
    take_costs(page);
    take_verdict(&picture, page->table, &page->report.numbers);
    take_distance(page, &picture.verdict);
    trace_run(&picture, page->table, NULL, 0);
    put_answers(page, &picture);
}

static int write_page(const struct request *request)
{
    static struct table table;
    static struct page page;
    static struct presses presses;
    int status = open_table(request, 0, stderr, &table);
    if (status == DONE) {
        status = take_presses(request, &table, &presses);
    }
    if (status != DONE) {
        return status;
    }
    page.file = request->files[0];
    page.table = &table;
    if (button_count(&table) > 0) {
        page_with_buttons(&page, &presses);
    } else {
        page_of_tasks(&page);
    }
    printf("</body>\n</html>\n");
    close_table(&table);
    return page.status;
}

int page(const struct request *request)
{
    return into_file(request, write_page);
}
