/* The word eased: whether a table is an easing of another, and in words what has become of each task. */
#include <string.h>

#include "easing.h"

/* Tells how many changes have been said, with those before. */
static int say_change(const char *name, uint64_t was, uint64_t is, int others)
{
    if (was == is) {
        return others;
    }
    printf("%s %s %" PRIu64 " -> %" PRIu64, others > 0 ? "," : "", name, was, is);
    return others + 1;
}

static void say_kept(const struct table *after, unsigned now, const struct table *before, unsigned then)
{
    struct task is = task_at(after, now), was = task_at(before, then);
    struct words new_words, old_words;
    printf("%s was old %s:", task_words(after, now, &new_words), task_words(before, then, &old_words));
    int changes = say_change("cost", was.cost, is.cost, 0);
    changes = say_change("deadline", was.deadline, is.deadline, changes);
    puts(changes == 0 ? " unchanged" : "");
}

/* Tells how many costs are lower, or 0 if something else changed too. */
static unsigned lowered_alone(const struct table *before, const struct table *after)
{
    unsigned lower = 0;
    if (task_count(before) != task_count(after)) {
        return 0;
    }
    for (unsigned number = 0; number < task_count(before); number++) {
        struct task was = task_at(before, number), is = task_at(after, number);
        if (was.deadline != is.deadline) {
            return 0;
        }
        lower += was.cost != is.cost;
    }
    return lower;
}

static void say_eased(const struct table *before, const struct table *after, uint64_t kept)
{
    unsigned now = 0;
    struct words words;
    printf("eased yes\n\nyes: if the old table passes, so does the new one with any budget that reaches its horizon, and needs no new test\n");
    if (lowered_alone(before, after) > 0) {
        printf("with costs alone lowered no worst response grows\n");
    }
    for (unsigned then = 0; then < task_count(before); then++) {
        if (kept >> then & 1) {
            say_kept(after, now++, before, then);
        } else {
            printf("old %s is left out\n", task_words(before, then, &words));
        }
    }
}

static void say_number(const struct table *before, const struct obstacle *found, const struct task *is)
{
    static const char *const rules[] = {"a period has to stay", "an offset has to stay", "a cost may only be lowered",
                                        "a deadline may only be lengthened"};
    static const char *const ends[] = {" has its name", " stands at its place", " is nearest"};
    struct task was = task_at(before, found->old);
    struct words words;
    printf("old %s%s: %s %" PRIu64 " -> %" PRIu64 ", but %s\n", task_words(before, found->old, &words), ends[found->why],
           field_names[found->way], field_of(&was, found->way), field_of(is, found->way), rules[found->way]);
}

static void say_too_early(const struct table *before, const struct obstacle *found, const struct task *is, unsigned task)
{
    struct words words;
    if (found->way == ALIKE) {
        printf("it could be old %s, but task %u was old task %u, and tasks have to keep their order\n",
               task_words(before, found->old, &words), task - 1, found->last);
    } else {
        say_number(before, found, is);
        printf("and task %u was old task %u already: tasks have to keep their order\n", task - 1, found->last);
    }
}

static void say_not_eased(const struct table *before, const struct table *after, unsigned task)
{
    struct task is = task_at(after, task);
    struct words words;
    struct obstacle found = obstacle_of(before, after, task);
    printf("eased no\n\nno: %s is no old task made easier, so the new table needs a test: judge tells\n", task_words(after, task, &words));
    if (found.too_early) {
        say_too_early(before, &found, &is, task);
    } else if (found.way >= 0) {
        say_number(before, &found, &is);
    } else {
        printf("no task of the old table is left for it\n");
    }
}

static void json_old(const struct table *before, unsigned old)
{
    json_number("old", old);
    json_name("old_name", &before->names[old]);
}

static void json_was_and_is(const char *key, uint64_t was, uint64_t is)
{
    json_open(key, '{');
    json_number("was", was);
    json_number("is", is);
    json_close('}');
}

static void json_kept(const struct table *before, const struct table *after, uint64_t kept)
{
    unsigned now = 0;
    json_open("tasks", '[');
    for (unsigned then = 0; then < task_count(before); then++) {
        struct task was = task_at(before, then);
        json_open(NULL, '{');
        json_old(before, then);
        json_truth("kept", kept >> then & 1);
        if (kept >> then & 1) {
            struct task is = task_at(after, now);
            json_number_and_name(after, now++);
            json_was_and_is("cost", was.cost, is.cost);
            json_was_and_is("deadline", was.deadline, is.deadline);
        }
        json_close('}');
    }
    json_close(']');
}

static void json_in_the_way(const struct table *before, const struct table *after, unsigned task)
{
    struct task is = task_at(after, task);
    struct obstacle found = obstacle_of(before, after, task);
    json_number_and_name(after, task);
    if (found.way < 0) {
        json_null("in_the_way");
        return;
    }
    struct task was = task_at(before, found.old);
    json_open("in_the_way", '{');
    json_old(before, found.old);
    json_truth("too_early", found.too_early);
    if (found.way != ALIKE) {
        json_was_and_is(field_names[found.way], field_of(&was, found.way), field_of(&is, found.way));
    }
    json_close('}');
}

static void eased_as_json(const struct request *request, const struct table *before, const struct table *after, uint64_t answer)
{
    int yes = yolizadwa_eased_case(answer) == YOLIZADWA_EASED;
    json_begin(request, 0, yes ? DONE : UNDECIDED);
    json_changes(after);
    json_truth("eased", yes);
    if (yes) {
        json_kept(before, after, yolizadwa_eased_value(answer));
    } else {
        json_in_the_way(before, after, (unsigned)yolizadwa_eased_value(answer));
    }
    json_end();
}

static int open_one(const struct request *request, unsigned which, struct table *table)
{
    int status = open_periodic(request, which, stdout, "eased", table);
    if (status == REFUSED && !request->json) {
        printf("that is the %s table, %s\n", which == 0 ? "old" : "new", shown_name(request->files[which]));
    }
    return status;
}

int eased(const struct request *request)
{
    struct table before, after;
    if (strcmp(request->files[0], "-") == 0 && strcmp(request->files[1], "-") == 0) {
        trouble("only one of the two tables can be standard input");
        return json_trouble(request, 0);
    }
    int status = open_one(request, 0, &before);
    if (status == DONE) {
        status = open_one(request, 1, &after);
    }
    if (status != DONE) {
        return status;
    }
    uint64_t answer = yolizadwa_eased(before.file, before.len, after.file, after.len);
    int yes = yolizadwa_eased_case(answer) == YOLIZADWA_EASED;
    if (request->json) {
        eased_as_json(request, &before, &after, answer);
        return yes ? DONE : UNDECIDED;
    }
    say_what_if(&after);
    if (yes) {
        say_eased(&before, &after, yolizadwa_eased_value(answer));
    } else {
        say_not_eased(&before, &after, (unsigned)yolizadwa_eased_value(answer));
    }
    return yes ? DONE : UNDECIDED;
}
