/* The one list of words, in the order in which help and errors name them. */
#include <string.h>

#include "words.h"

static const struct word words[] = {
    {.name = "judge", .form = "judge FILE.. [--all] [--mend] [--plainly]", .sums_up = "whether every job is in time",
     .files = 1, .many = 1, .options = {"--all", "--mend", "--plainly", "--json", "--names", "--set", "--budget"}, .act = judge,
     .page = page_judge},
    {.name = "quick", .form = "quick FILE", .sums_up = "an answer or none, in microseconds",
     .sums_up_more = "for nearly every table",
     .files = 1, .options = {"--json", "--names", "--set", "--budget"}, .act = quick, .page = page_quick},
    {.name = "distance", .form = "distance FILE", .sums_up = "an answer by the offsets and for", .sums_up_more = "buttons, or none",
     .files = 1, .options = {"--json", "--names", "--set", "--budget"}, .act = distance, .page = page_distance},
    {.name = "eased", .form = "eased OLD NEW", .sums_up = "whether NEW is OLD made easier",
     .files = 2, .changes_new = 1, .options = {"--json", "--names", "--set", "--budget"}, .act = eased, .page = page_eased},
    {.name = "largest", .form = "largest FILE [TASK]", .sums_up = "how far a cost may grow",
     .files = 1, .takes_task = 1, .options = {"--json", "--names", "--set", "--budget"}, .act = largest, .page = page_largest},
    {.name = "run", .form = "run FILE [--slots N] [--early] [--log LOG] [--press P]", .sums_up = "a chart of who has each slot",
     .files = 1, .options = {"--slots", "--early", "--log", "--press", "--json", "--names", "--set", "--budget"}, .act = run, .page = page_run},
    {.name = "draw", .form = "draw FILE [--from A] [--to B] [--early] [--press P] [--output OUT]", .sums_up = "the run as a picture, in SVG",
     .files = 1, .options = {"--from", "--to", "--early", "--press", "--output", "--names", "--set", "--budget"}, .act = draw, .page = page_draw},
    {.name = "page", .form = "page FILE [--press P] [--output OUT]", .sums_up = "all of it on a page, in HTML",
     .files = 1, .options = {"--press", "--output", "--names", "--set", "--budget"}, .act = page, .page = page_page},
    {.name = "log", .form = "log TABLE LOG [--dump]", .sums_up = "whether a camera's log is the table's",
     .files = 2, .options = {"--dump", "--json", "--names", "--set", "--budget"}, .act = judge_log, .page = page_log},
    {.name = "show", .form = "show FILE", .sums_up = "the table as plain text",
     .files = 1, .options = {"--names", "--set", "--budget"}, .act = show, .page = page_show},
    {.name = "make", .form = "make TEXT FILE", .sums_up = "the table file of a text",
     .files = 2, .options = {"--set", "--budget"}, .act = make, .page = page_make},
};

const struct word *word_after(const struct word *word)
{
    const struct word *next = word == NULL ? words : word + 1;
    return next < words + sizeof words / sizeof words[0] ? next : NULL;
}

const struct word *word_named(const char *name)
{
    const struct word *word = word_after(NULL);
    while (word != NULL && strcmp(word->name, name) != 0) {
        word = word_after(word);
    }
    return word;
}

static int has_option(const struct word *word, const char *option)
{
    int at = 0;
    while (at < MOST_OPTIONS && word->options[at] != NULL && strcmp(word->options[at], option) != 0) {
        at++;
    }
    return at < MOST_OPTIONS && word->options[at] != NULL;
}

const char *use_of(const struct word *word, const char *between)
{
    static const char *const common[][2] = {
        {"--json", ""}, {"--names", " TEXT"}, {"--set", " TASK.FIELD=NUMBER"}, {"--budget", " N"}};
    static char use[256];
    int len = snprintf(use, sizeof use, "yolizadwa %s%s", word->form, between);
    for (size_t at = 0; at < sizeof common / sizeof common[0]; at++) {
        if (has_option(word, common[at][0])) {
            len += snprintf(use + len, sizeof use - (size_t)len, " [%s%s]", common[at][0], common[at][1]);
        }
    }
    return use;
}

const char *word_names(void)
{
    static char names[256];
    size_t len = 0;
    for (const struct word *word = word_after(NULL); word != NULL && len < sizeof names; word = word_after(word)) {
        len += (size_t)snprintf(names + len, sizeof names - len, "%s%s", len == 0 ? "" : ", ", word->name);
    }
    return names;
}
