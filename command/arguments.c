/* Reads the arguments of a word into a request. */
#include <string.h>

#include "words.h"

static int misuse(const struct word *word, const char *what, const char *which)
{
    return trouble("%s%s; use: %s", what, which, use_of(word, ""));
}

/* Not strtoul, which would take a sign, and nothing at all as 0. */
int read_number(const char *digits, uint64_t least, uint64_t most, uint64_t *number)
{
    int some = *digits != '\0', fits = 1;
    *number = 0;
    for (; *digits >= '0' && *digits <= '9' && fits; digits++) {
        uint64_t digit = (uint64_t)(*digits - '0');
        fits = *number <= most / 10 && digit <= most - 10 * *number;
        *number = 10 * *number + digit;
    }
    return some && fits && *digits == '\0' && *number >= least;
}

/* The chart has standard output, so the log needs a file with a name. */
static int take_log(const struct word *word, const char *name, struct request *request)
{
    if (strcmp(name, "-") == 0) {
        misuse(word, "--log needs the name of a file", "");
        return 0;
    }
    request->log = name;
    return 1;
}

static int take_names(const struct word *word, const char *name, struct request *request)
{
    (void)word;
    request->names = name;
    return 1;
}

static int take_output(const struct word *word, const char *name, struct request *request)
{
    (void)word;
    request->output = name;
    return 1;
}

/* An option that may stand there several times, and its list. */
static int take_one_more(const struct word *word, const char *option, const char *value, const char **list, unsigned *count)
{
    if (*count == MOST_SETTINGS) {
        misuse(word, option, " stands there too often");
        return 0;
    }
    list[(*count)++] = value;
    return 1;
}

static int take_setting(const struct word *word, const char *setting, struct request *request)
{
    return take_one_more(word, "--set", setting, request->set, &request->settings);
}

static int take_press(const struct word *word, const char *press, struct request *request)
{
    return take_one_more(word, "--press", press, request->press, &request->presses);
}

/* The library says that a budget of 0 is none. */
static int take_budget(const struct word *word, const char *digits, struct request *request)
{
    if (!read_number(digits, 0, UINT64_MAX, &request->budget)) {
        misuse(word, "--budget needs a number from 1 to 18446744073709551615", "");
        return 0;
    }
    request->budget_told = 1;
    return 1;
}

/* A number of slots or an instant, and where it goes. */
static int take_count(const struct word *word, const char *option, const char *digits, uint64_t least, uint64_t most, unsigned long *place)
{
    char needs[64];
    uint64_t count;
    if (!read_number(digits, least, most, &count)) {
        snprintf(needs, sizeof needs, "%s needs a number from %" PRIu64 " to %" PRIu64, option, least, most);
        misuse(word, needs, "");
        return 0;
    }
    *place = (unsigned long)count;
    return 1;
}

static int take_slots(const struct word *word, const char *digits, struct request *request)
{
    return take_count(word, "--slots", digits, 1, MOST_SLOTS, &request->slots);
}

static int take_from(const struct word *word, const char *digits, struct request *request)
{
    request->from_told = 1;
    return take_count(word, "--from", digits, 0, MOST_SLOTS - 1, &request->from);
}

static int take_to(const struct word *word, const char *digits, struct request *request)
{
    return take_count(word, "--to", digits, 1, MOST_SLOTS, &request->to);
}

/* An option has a value and takes it, or is a switch that sets a number of the request. */
struct option {
    const char *name, *needs;
    int (*take)(const struct word *word, const char *value, struct request *request);
    size_t sets;
};

static const struct option options[] = {
    {"--log", "the name of a file", take_log, 0},
    {"--names", "the name of a text", take_names, 0},
    {"--output", "the name of a file", take_output, 0},
    {"--set", "a change, as in lens.cost=9 or 0.cost=9", take_setting, 0},
    {"--press", "a button and slots, as in shutter@3,60 or 3@3,60", take_press, 0},
    {"--budget", "a number from 1 to 18446744073709551615", take_budget, 0},
    {"--slots", "a number from 1 to 1000000", take_slots, 0},
    {"--from", "a number from 0 to 999999", take_from, 0},
    {"--to", "a number from 1 to 1000000", take_to, 0},
    {"--all", NULL, NULL, offsetof(struct request, all)},
    {"--early", NULL, NULL, offsetof(struct request, early)},
    {"--plainly", NULL, NULL, offsetof(struct request, plainly)},
    {"--json", NULL, NULL, offsetof(struct request, json)},
    {"--dump", NULL, NULL, offsetof(struct request, dump)},
    {"--mend", NULL, NULL, offsetof(struct request, mend)},
};

/* Tells whether the argument is this option, with or without a value behind a sign of equality. */
static int is(const char *argument, const char *option)
{
    size_t length = strlen(option);
    return strncmp(argument, option, length) == 0 && (argument[length] == '\0' || argument[length] == '=');
}

static int takes(const struct word *word, const char *argument)
{
    for (int at = 0; at < MOST_OPTIONS && word->options[at] != NULL; at++) {
        if (is(argument, word->options[at])) {
            return 1;
        }
    }
    return 0;
}

static const struct option *option_of(const struct word *word, const char *argument)
{
    for (size_t at = 0; takes(word, argument) && at < sizeof options / sizeof options[0]; at++) {
        if (is(argument, options[at].name)) {
            return &options[at];
        }
    }
    misuse(word, "there is no such option here: ", argument);
    return NULL;
}

static int needs_value(const struct word *word, const struct option *option)
{
    char needs[96];
    snprintf(needs, sizeof needs, "%s needs %s", option->name, option->needs);
    misuse(word, needs, "");
    return 0;
}

/* Tells how many arguments the option is, or 0 if it cannot be taken. */
static int take_option(const struct word *word, char **arguments, struct request *request)
{
    const struct option *option = option_of(word, arguments[0]);
    const char *equals = strchr(arguments[0], '=');
    if (option == NULL) {
        return 0;
    }
    if (option->take == NULL && equals != NULL) {
        misuse(word, option->name, " takes no value");
        return 0;
    }
    if (option->take == NULL) {
        *(int *)((char *)request + option->sets) = 1;
        return 1;
    }
    const char *value = equals != NULL ? equals + 1 : arguments[1];
    if (value == NULL) {
        return needs_value(word, option);
    }
    return option->take(word, value, request) ? 1 + (equals == NULL) : 0;
}

/* The library says whether the table has such a task, so any number that it can be asked for will do. What is no number is a name. */
static int take_task(const struct word *word, const char *argument, struct request *request)
{
    uint64_t task = 0;
    int is_number = strspn(argument, "0123456789") == strlen(argument);
    if (is_number && !read_number(argument, 0, UINT32_MAX, &task)) {
        misuse(word, "a TASK is a name or a number from 0 to 4294967295, and this is neither: ", argument);
        return 0;
    }
    request->task = (uint32_t)task;
    request->task_name = is_number ? NULL : argument;
    request->one_task = 1;
    return 1;
}

static int is_option(const char *argument)
{
    return argument[0] == '-' && argument[1] != '\0';
}

/* Tells how many arguments were taken, or 0 if one cannot be. */
static int take(const struct word *word, char **arguments, struct request *request)
{
    if (is_option(arguments[0])) {
        return take_option(word, arguments, request);
    }
    int all_there = request->file_count >= word->files && !word->many;
    if (all_there && word->takes_task && !request->one_task) {
        return take_task(word, arguments[0], request);
    }
    if (all_there) {
        misuse(word, "one argument too many: ", arguments[0]);
        return 0;
    }
    request->files[request->file_count++] = arguments[0];
    return 1;
}

/* The files are put together at the front of the arguments, which have been read up to there. */
int do_word(const struct word *word, char **arguments)
{
    struct request request = {.word = word->name, .files = (const char **)arguments, .changes_new = word->changes_new};
    while (*arguments != NULL) {
        if (strcmp(*arguments, "--help") == 0 || strcmp(*arguments, "-h") == 0) {
            print_page(stdout, word->name);
            return DONE;
        }
        int taken = take(word, arguments, &request);
        if (taken == 0) {
            return TROUBLE;
        }
        arguments += taken;
    }
    if (request.file_count < word->files) {
        return misuse(word, "a file is missing", "");
    }
    return word->act(&request);
}
