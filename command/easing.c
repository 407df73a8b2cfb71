/* Finds what keeps a new task from being an old one made easier: its own old task comes first, then the nearest. */
#include <string.h>

#include "easing.h"

const char *const field_names[] = {"period", "offset", "cost", "deadline"};

uint64_t field_of(const struct task *task, int way)
{
    const uint64_t numbers[] = {task->period, task->offset, task->cost, task->deadline};
    return numbers[way];
}

/* Tells which old tasks the new tasks before this one were: the library says that of a table of these alone. */
static uint64_t kept_before(const struct table *before, const struct table *after, unsigned task)
{
    struct table first = *after;
    if (task == 0) {
        return 0;
    }
    keep_first(&first, task);
    return yolizadwa_eased_value(yolizadwa_eased(before->file, before->len, first.file, first.len));
}

static unsigned after_last(uint64_t set)
{
    unsigned after = 0;
    while (set >> after != 0) {
        after++;
    }
    return after;
}

static int in_the_way(const struct table *before, unsigned old, const struct task *is)
{
    struct task was = task_at(before, old);
    if (was.period != is->period) {
        return PERIOD;
    }
    if (was.offset != is->offset) {
        return OFFSET;
    }
    if (was.cost < is->cost) {
        return COST;
    }
    return was.deadline > is->deadline ? DEADLINE : ALIKE;
}

/* Of the old tasks that are not taken yet finds the one in which the most numbers fit, the first of several. */
static struct obstacle nearest(const struct table *before, unsigned from, unsigned to, uint64_t taken, const struct task *is)
{
    struct obstacle found = {.why = IS_NEAREST, .way = -1};
    for (unsigned old = from; old < to; old++) {
        int way = in_the_way(before, old, is);
        if (!(taken >> old & 1) && way > found.way) {
            found.old = old;
            found.way = way;
        }
    }
    return found;
}

/* Tells the one old task that has this name, or YOLIZADWA_TASKS if there is none or more than one. */
static unsigned old_named(const struct table *before, const struct name *name)
{
    unsigned found = YOLIZADWA_TASKS, count = 0;
    for (unsigned old = 0; name->len > 0 && old < task_count(before); old++) {
        const struct name *other = &before->names[old];
        if (other->len == name->len && memcmp(other->bytes, name->bytes, name->len) == 0) {
            found = old;
            count++;
        }
    }
    return count == 1 ? found : YOLIZADWA_TASKS;
}

/* By its name, else by its place: but where tasks were left out or added, another period there is another task. */
static struct obstacle own(const struct table *before, const struct table *after, unsigned task, unsigned from)
{
    struct task is = task_at(after, task);
    struct obstacle found = {.old = old_named(before, &after->names[task]), .why = HAS_ITS_NAME, .way = -1};
    if (found.old == YOLIZADWA_TASKS) {
        found.old = task;
        found.why = HAS_ITS_PLACE;
    }
    if (found.old < from || found.old >= task_count(before)) {
        return found;
    }
    int way = in_the_way(before, found.old, &is);
    int may_be_another = found.why == HAS_ITS_PLACE && task_count(before) != task_count(after);
    found.way = way == PERIOD && may_be_another ? -1 : way;
    return found;
}

/* Only old tasks behind those that were found for the new tasks before this one can be it. */
struct obstacle obstacle_of(const struct table *before, const struct table *after, unsigned task)
{
    struct task is = task_at(after, task);
    uint64_t kept = kept_before(before, after, task);
    unsigned from = after_last(kept);
    struct obstacle found = own(before, after, task, from);
    if (found.way >= 0) {
        return found;
    }
    struct obstacle earlier = nearest(before, 0, from, kept, &is), later = nearest(before, from, task_count(before), kept, &is);
    if (earlier.way > later.way) {
        earlier.too_early = 1;
        earlier.last = from - 1;
        return earlier;
    }
    return later;
}
