/* Jobs that the dispatcher closed late: which, and how many slots each was missing. */
#include "json.h"

/* The job that the step closes late came before the one that comes now, and was missing what it had left before the step. */
void note_late(struct late_list *list, const struct course *course)
{
    for (unsigned number = 0; number < course->tasks; number++) {
        const struct task *task = &course->task[number];
        if (!(course->state.late >> number & 1)) {
            continue;
        }
        if (list->count < JOBS_SHOWN) {
            uint64_t due = course->slots - 1, job = course->jobs[number] - 1 - (course->came >> number & 1);
            list->jobs[list->count] = (struct job){number, job, due - task->deadline, due, course->before.left[number]};
        }
        list->count++;
    }
}

static unsigned long listed(const struct late_list *list)
{
    return list->count < JOBS_SHOWN ? list->count : JOBS_SHOWN;
}

void print_late(const struct late_list *list, const struct table *table, uint64_t slots)
{
    const struct jobs jobs = {table, put_plain, columns_for(slots)};
    print_jobs_heading(&jobs, "missing");
    for (unsigned long at = 0; at < listed(list); at++) {
        print_job(&jobs, &list->jobs[at]);
    }
    if (listed(list) < list->count) {
        printf("  and %lu more\n", list->count - listed(list));
    }
}

void json_late(const struct late_list *list, const struct table *table)
{
    json_open("late", '[');
    for (unsigned long at = 0; at < listed(list); at++) {
        json_job(table, &list->jobs[at], "missing");
    }
    json_close(']');
    json_number("late_left", list->count - listed(list));
}
