/* The word distance: the library's answer from the smallest distances of the tasks, and what it means, for tasks and for buttons. */
#include "json.h"

static const char *overload_words(int buttons)
{
    return buttons ? "distance overload\n\noverload: with every button pressed as often as it may be, more slots are asked for than there "
                     "are, so\nsome jobs are late sooner or later"
                   : "distance overload\n\noverload: more slots are asked for than there are, so some jobs are late sooner or later";
}

static const char *pass_words(int buttons)
{
    return buttons ? "distance pass\n\npass: whenever the buttons are pressed, every job is in time; a press that comes too early is not "
                     "taken"
                   : "distance pass\n\npass: every job is in time";
}

/* Buttons alone may all come at once, so for these alone none means late. */
static const char *none_words(int buttons, int tasks)
{
    if (!buttons) {
        return "distance none\n\nno answer: the test starts each task in turn at 0 and releases every other task as soon after it as the "
               "offsets\never allow, and one of these runs has a late job; the table may never have such a run, so it may\n"
               "pass or be late";
    }
    return tasks ? "distance none\n\nno answer: the test starts each task in turn at 0, with every button, and releases every other task as "
                   "soon after\nit as the offsets ever allow, and one of these runs has a late job; the table may never have such a run"
                 : "distance none\n\nnone: the buttons can be pressed so that no way to give out the slots keeps every deadline; of buttons "
                   "alone the\ntest is exact";
}

uint64_t ask_distance(const struct table *table)
{
    begin_progress();
    uint64_t answer = yolizadwa_distance(table->file, table->len);
    end_progress();
    return answer;
}

const char *distance_words(const struct table *table, uint64_t answer)
{
    unsigned buttons = button_count(table), tasks = task_count(table) - buttons;
    switch (answer) {
    case YOLIZADWA_DISTANCE_OVERLOAD: return overload_words(buttons > 0);
    case YOLIZADWA_DISTANCE_PASS: return pass_words(buttons > 0);
    default: return none_words(buttons > 0, tasks > 0);
    }
}

int distance_status(uint64_t answer)
{
    switch (answer) {
    case YOLIZADWA_DISTANCE_OVERLOAD: return LATE;
    case YOLIZADWA_DISTANCE_PASS: return DONE;
    default: return UNDECIDED;
    }
}

/* Says which buttons are meant, if they have names. */
static void say_buttons(const struct table *table)
{
    struct words words;
    unsigned said = 0;
    for (unsigned number = 0; any_name(table) && number < task_count(table); number++) {
        if (task_at(table, number).button) {
            printf("%s%s", said++ == 0 ? "the table has " : ", ", task_words(table, number, &words));
        }
    }
    fputs(said == 0 ? "" : "\n", stdout);
}

static void distance_as_json(const struct request *request, const struct table *table, uint64_t answer, const struct certain *certain)
{
    static const char *const names[] = {"none", "pass", "overload"};
    json_begin(request, 0, certain_status(table, answer, certain));
    json_changes(table);
    json_text("distance", names[answer]);
    json_number("buttons", button_count(table));
    json_certain(certain);
    json_end();
}

static void say_distance(const struct table *table, uint64_t answer, const struct certain *certain)
{
    const struct excess_list list = {0, "", put_plain};
    int judge_tells = answer == YOLIZADWA_DISTANCE_NONE && button_count(table) == 0;
    say_what_if(table);
    printf("%s%s\n", certain_words(table, answer, certain), is_late_for_certain(certain) ? ":" : judge_tells ? ": judge tells" : "");
    if (certain->is_asked) {
        list_excess(&certain->tasks, &certain->numbers, &list);
    }
    say_buttons(table);
}

int distance(const struct request *request)
{
    struct table table;
    struct certain certain;
    int status = open_table(request, 0, stdout, &table);
    if (status != DONE) {
        return status;
    }
    uint64_t answer = ask_distance(&table);
    ask_certain(&table, answer, &certain);
    if (request->json) {
        distance_as_json(request, &table, answer, &certain);
    } else {
        say_distance(&table, answer, &certain);
    }
    return certain_status(&table, answer, &certain);
}
