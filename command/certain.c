/* Where the distance test has no answer for buttons: whether a table is late for certain, by the exact test of one way to press them. */
#include "json.h"

#define ONE_WAY "with every button pressed at 0 and every spacing after"

/* Overload is the distance test's own answer, so the exact test says late, passes or undecided here. */
void ask_certain(const struct table *table, uint64_t answer, struct certain *certain)
{
    certain->is_asked = answer == YOLIZADWA_DISTANCE_NONE && button_count(table) > 0;
    if (certain->is_asked) {
        pressed_often(table, &certain->tasks);
        answer_table(&certain->tasks, &certain->numbers);
    }
}

int is_late_for_certain(const struct certain *certain)
{
    return certain->is_asked && verdict_status(&certain->numbers) == LATE;
}

/* Buttons alone may all come at once, so for these alone no answer is late too. */
static int buttons_alone(const struct table *table)
{
    return button_count(table) == task_count(table);
}

int certain_status(const struct table *table, uint64_t answer, const struct certain *certain)
{
    return certain->is_asked && (buttons_alone(table) || is_late_for_certain(certain)) ? LATE : distance_status(answer);
}

static void word_late(const struct yolizadwa_numbers *numbers, char *text, size_t room)
{
    snprintf(text, room,
             "distance none\n\nlate: " ONE_WAY ", the jobs released at %" PRIu64 " or later\nand due by %" PRIu64 " ask for %" PRIu64
             " slots and have %" PRIu64 ", so no way to give out the slots keeps every deadline",
             numbers->from, numbers->to, numbers->demand, numbers->to - numbers->from);
}

static void word_unknown(const struct table *table, const struct certain *certain, char *text, size_t room)
{
    const char *none = distance_words(table, YOLIZADWA_DISTANCE_NONE);
    if (certain->numbers.verdict == YOLIZADWA_PASSES) {
        snprintf(text, room, "%s;\n" ONE_WAY ", every job is in time;\nwhether it is with any presses is not known", none);
    } else if (buttons_alone(table)) {
        snprintf(text, room, "%s;\nthe budget, %" PRIu64 ", ended before it was known which presses do that", none, budget_of(table));
    } else {
        snprintf(text, room, "%s;\n" ONE_WAY ", the budget, %" PRIu64 ", ended before it was known\nwhether a job is late", none,
                 budget_of(table));
    }
}

const char *certain_words(const struct table *table, uint64_t answer, const struct certain *certain)
{
    static char text[1024];
    if (!certain->is_asked) {
        return distance_words(table, answer);
    }
    if (is_late_for_certain(certain)) {
        word_late(&certain->numbers, text, sizeof text);
    } else {
        word_unknown(table, certain, text, sizeof text);
    }
    return text;
}

void word_certain(const struct table *table, uint64_t answer, const struct certain *certain, struct sentence *sentence)
{
    int status = certain_status(table, answer, certain);
    const char *words = "no answer: whether every job is in time whenever the buttons are pressed is not known";
    if (status == DONE) {
        words = "pass: whenever the buttons are pressed, every job is in time";
    } else if (answer == YOLIZADWA_DISTANCE_OVERLOAD) {
        words = "overload: with every button pressed as often as it may be, more slots are asked for than there are";
    } else if (status == LATE) {
        words = is_late_for_certain(certain) ? "late: " ONE_WAY ", no way to give out the slots keeps every deadline"
                                             : "late: the buttons can be pressed so that no way to give out the slots keeps every deadline";
    }
    snprintf(sentence->text, sizeof sentence->text, "%s", words);
    sentence->more[0] = '\0';
}

void json_certain(const struct certain *certain)
{
    if (!certain->is_asked) {
        return;
    }
    json_open("pressed_often", '{');
    json_text("verdict", verdict_name(certain->numbers.verdict));
    if (certain->numbers.verdict == YOLIZADWA_LATE) {
        json_interval(&certain->tasks, &certain->numbers, 0);
    }
    json_close('}');
}
