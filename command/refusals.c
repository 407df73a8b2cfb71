/* Refusals in words, with the line of a text that is meant, or as JSON. */
#include <string.h>

#include "json.h"

/* What a number means. The place, or the line for a text's own faults, stands between the two parts. */
struct meaning {
    uint32_t number;
    const char *before, *after;
};

static const struct meaning meanings[] = {
    {YOLIZADWA_NO_TASK, "the table has no task", NULL},
    {YOLIZADWA_BAD_PERIOD, "the period of task ", ", or as a button its spacing, is not between 1 and 60,000"},
    {YOLIZADWA_BAD_DEADLINE, "the deadline of task ", " is not between 1 and its period, or as a button its spacing"},
    {YOLIZADWA_BAD_COST, "the cost of task ", " is not between 1 and its deadline"},
    {YOLIZADWA_BAD_OFFSET, "the offset of task ", " is above 60,000"},
    {YOLIZADWA_LONG_ROUND, "the least common multiple of the periods and spacings is above 1,000,000,000,000", NULL},
    {YOLIZADWA_FILE_CUT_SHORT, "the file ends inside the record that begins at byte ", ""},
    {YOLIZADWA_FILE_UNKNOWN_KIND, "the record that begins at byte ", " is of no known kind"},
    {YOLIZADWA_FILE_NO_BUDGET, "the file does not begin with a budget", NULL},
    {YOLIZADWA_FILE_SECOND_BUDGET, "a second budget begins at byte ", ""},
    {YOLIZADWA_FILE_AFTER_END, "the file goes on at byte ", ", after its end"},
    {YOLIZADWA_FILE_TOO_MANY_TASKS, "a thirty-third task or button begins at byte ", ""},
    {YOLIZADWA_FILE_NO_END, "the file stops at byte ", " without an end"},
    {YOLIZADWA_ZERO_BUDGET, "a budget of 0 tests nothing; the least is 1", NULL},
    {YOLIZADWA_TEXT_UNKNOWN_WORD, "line ", " begins with a word that is none of budget, task and button"},
    {YOLIZADWA_TEXT_NOT_A_NUMBER, "line ", " has a word that is no decimal number"},
    {YOLIZADWA_TEXT_LARGE_NUMBER, "line ", " has a number that is too large to be read"},
    {YOLIZADWA_TEXT_WRONG_COUNT, "line ", " has too few numbers or too many: budget slots, task offset cost deadline period, button cost deadline spacing"},
    {YOLIZADWA_TEXT_BUDGET_NOT_FIRST, "line ", " is a budget behind a task or button; a budget comes before all of them, or is left out"},
    {YOLIZADWA_TEXT_SECOND_BUDGET, "line ", " is a second budget"},
    {YOLIZADWA_TEXT_TOO_MANY_TASKS, "line ", " is a thirty-third task or button, and 32 is the most"},
};

static const struct meaning *meaning_of(uint32_t number)
{
    static const struct meaning none = {0, "see the numbers in include/yolizadwa.h", NULL};
    for (size_t at = 0; at < sizeof meanings / sizeof meanings[0]; at++) {
        if (meanings[at].number == number) {
            return &meanings[at];
        }
    }
    return &none;
}

/* What is said of a refusal. Line 0: none is to blame. */
struct refusal {
    uint64_t result;
    unsigned long line;
    size_t begin; /* of the line */
    char words[400];
    const struct what_if *what_if; /* that is refused, or NULL */
};

static void word_refusal(struct refusal *refusal, unsigned long meant)
{
    const struct meaning *meaning = meaning_of(yolizadwa_number(refusal->result));
    if (meaning->after == NULL) {
        snprintf(refusal->words, sizeof refusal->words, "%s", meaning->before);
    } else {
        snprintf(refusal->words, sizeof refusal->words, "%s%lu%s", meaning->before, meant, meaning->after);
    }
}

static void tell_as_json(const struct source *source, const struct refusal *refusal)
{
    json_begin(source->request, source->which, REFUSED);
    json_open("refused", '{');
    json_text("file", source->request->files[source->which]);
    json_number("number", yolizadwa_number(refusal->result));
    json_number("place", yolizadwa_place(refusal->result));
    json_text("words", refusal->words);
    if (refusal->line > 0) {
        json_number("line", refusal->line);
    }
    json_close('}');
    if (refusal->what_if != NULL) {
        json_what_if(refusal->what_if);
    }
    json_end();
}

/* More is empty, or a line that follows. */
static int tell(const struct source *source, const struct refusal *refusal, const char *more)
{
    if (source->request->json) {
        tell_as_json(source, refusal);
        return REFUSED;
    }
    fprintf(source->refusals, "refused %u at %u: %s\n", (unsigned)yolizadwa_number(refusal->result),
            (unsigned)yolizadwa_place(refusal->result), refusal->words);
    if (refusal->line > 0 && refusal->begin < source->input.len) {
        show_line(source->refusals, &source->input, refusal->begin);
    }
    fputs(more, source->refusals);
    return REFUSED;
}

/* A table file has no lines, and the faults of the whole table have none. */
static int has_a_line(const struct source *source, uint64_t result)
{
    uint32_t number = yolizadwa_number(result);
    if (is_table_file(&source->input)) {
        return 0;
    }
    return (number >= YOLIZADWA_BAD_PERIOD && number <= YOLIZADWA_BAD_OFFSET) || number == YOLIZADWA_ZERO_BUDGET ||
           number == YOLIZADWA_HAS_BUTTON || number >= YOLIZADWA_TEXT_UNKNOWN_WORD;
}

static void find_line(const struct source *source, struct refusal *refusal)
{
    if (has_a_line(source, refusal->result)) {
        refusal->begin = refused_line(&source->input, refusal->result);
        refusal->line = line_number(&source->input, refusal->begin);
    }
}

/* Names the word that is no number. */
static void add_word(const struct source *source, struct refusal *refusal)
{
    struct words shown;
    size_t length = strlen(refusal->words);
    struct name word = not_a_number(&source->input, refusal->begin);
    if (yolizadwa_number(refusal->result) == YOLIZADWA_TEXT_NOT_A_NUMBER && refusal->line > 0 && word.len > 0) {
        snprintf(refusal->words + length, sizeof refusal->words - length, ": %s", shown_bytes(&word, MOST_LETTERS, &shown));
    }
}

/* Some editors write two bytes for each letter and put a byte order mark in front, which nobody sees. No text begins as a log does. */
static const char *hint(const struct source *source)
{
    const struct input *input = &source->input;
    int is_log = strcmp(source->request->word, "log") == 0;
    if (is_table_file(input) || input->len == 0) {
        return "";
    }
    if (input->bytes[0] >= YOLIZADWA_LOG_SLOT && input->bytes[0] <= YOLIZADWA_LOG_END) {
        return is_log ? "the file begins as a log does; the table comes first, and then the log: yolizadwa log TABLE LOG\n"
                      : "the file begins as a log does; a log is judged with its table: yolizadwa log TABLE LOG\n";
    }
    return input->bytes[0] >= 0xFE ? "the file may begin with a byte order mark; save it as plain text, in UTF-8\n" : "";
}

int say_refusal(const struct source *source, uint64_t result)
{
    struct refusal refusal = {.result = result};
    find_line(source, &refusal);
    word_refusal(&refusal, yolizadwa_number(result) >= YOLIZADWA_TEXT_UNKNOWN_WORD && refusal.line > 0 ? refusal.line : yolizadwa_place(result));
    add_word(source, &refusal);
    return tell(source, &refusal, hint(source));
}

/* No line of a text has the number that is refused. */
int say_refused_change(const struct source *source, const struct what_if *what_if, uint64_t result)
{
    struct refusal refusal = {.result = result, .what_if = what_if};
    word_refusal(&refusal, yolizadwa_place(result));
    return tell(source, &refusal, "that is the table with what --set and --budget change\n");
}

/* As it is given to a word, where - is standard input. */
static const char *shown_given(const struct source *source)
{
    const char *given = source->input.given;
    return strcmp(given, "-") == 0 ? given : shown_name(given);
}

/* Shows the line of the first button, and which words take it. */
int say_button(const struct source *source, const char *what, uint64_t result)
{
    struct refusal refusal = {.result = result};
    char test[8400];
    find_line(source, &refusal);
    snprintf(refusal.words, sizeof refusal.words, "task %u is a button, and %s is for tables without buttons",
             (unsigned)yolizadwa_place(result), what);
    const char *given = shown_given(source);
    snprintf(test, sizeof test, "the test for it is: yolizadwa distance %s\nand its slots are shown by: yolizadwa run %s --press %u@0\n",
             given, given, (unsigned)yolizadwa_place(result));
    return tell(source, &refusal, test);
}

/* Says the number as it was asked for, since a place ends at 65,535. No line of the table is wrong. */
int say_no_task(const struct request *request, const struct table *table, uint64_t result)
{
    const struct source source = {.request = request, .refusals = stdout};
    struct refusal refusal = {.result = result};
    unsigned tasks = task_count(table);
    int length = snprintf(refusal.words, sizeof refusal.words, "the table has no task %lu; ", (unsigned long)request->task);
    snprintf(refusal.words + length, sizeof refusal.words - (size_t)length,
             tasks == 1 ? "its one task is task 0" : "its tasks are numbered from 0 to %u", tasks - 1);
    return tell(&source, &refusal, "");
}
