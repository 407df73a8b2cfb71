/* Lists of jobs, and the jobs of a late interval. */
#include <string.h>

#include "json.h"

int columns_for(uint64_t largest)
{
    int columns = 1;
    for (; largest >= 10; largest /= 10) {
        columns++;
    }
    return columns;
}

/* A column is never narrower than its heading. */
static int at_least(int columns, const char *heading)
{
    int length = (int)strlen(heading);
    return columns < length ? length : columns;
}

void put_plain(const char *text)
{
    fputs(text, stdout);
}

const char *name_heading(const struct table *table)
{
    return any_name(table) ? "  name" : "";
}

/* The name stands last, so that it needs no room of its own. */
void end_row(const struct table *table, unsigned task, void (*put)(const char *text))
{
    struct words words;
    if (table->names[task].len > 0) {
        printf("  ");
        put(name_of(table, task, MOST_LETTERS, &words));
    }
    putchar('\n');
}

void print_jobs_heading(const struct jobs *jobs, const char *amount)
{
    int columns = jobs->columns;
    printf("  task  %*s  %*s  %*s  %7s%s\n", at_least(columns, "job"), "job", at_least(columns, "release"), "release",
           at_least(columns, "due"), "due", amount, name_heading(jobs->table));
}

void print_job(const struct jobs *jobs, const struct job *job)
{
    int columns = jobs->columns;
    printf("  %4u  %*" PRIu64 "  %*" PRIu64 "  %*" PRIu64 "  %7" PRIu64, job->task, at_least(columns, "job"), job->number,
           at_least(columns, "release"), job->release, at_least(columns, "due"), job->due, job->amount);
    end_row(jobs->table, job->task, jobs->put);
}

/* The jobs released at start or later and due by end, in the order of their releases. */
struct interval {
    const struct table *table;
    uint64_t start, end;
    uint64_t next[YOLIZADWA_TASKS]; /* for each task the number of the next job to be listed */
};

static struct job job_of(const struct table *table, unsigned number, uint64_t which)
{
    struct task task = task_at(table, number);
    struct job job;
    job.task = number;
    job.number = which;
    job.release = task.offset + which * task.period;
    job.due = job.release + task.deadline;
    job.amount = task.cost;
    return job;
}

static uint64_t first_from(const struct task *task, uint64_t start)
{
    return start <= task->offset ? 0 : (start - task->offset + task->period - 1) / task->period;
}

/* Counts the jobs from the first on that are due by the end. */
static uint64_t due_by(const struct task *task, uint64_t first, uint64_t end)
{
    uint64_t earliest = task->offset + first * task->period + task->deadline;
    return earliest > end ? 0 : (end - earliest) / task->period + 1;
}

uint64_t jobs_within(const struct task *task, uint64_t start, uint64_t end)
{
    return due_by(task, first_from(task, start), end);
}

/* Tells how many jobs there are. */
static uint64_t begin(struct interval *interval)
{
    uint64_t jobs = 0;
    for (unsigned number = 0; number < task_count(interval->table); number++) {
        struct task task = task_at(interval->table, number);
        interval->next[number] = first_from(&task, interval->start);
        jobs += due_by(&task, interval->next[number], interval->end);
    }
    return jobs;
}

static struct job take_next(struct interval *interval)
{
    struct job taken = {0, 0, UINT64_MAX, 0, 0};
    for (unsigned number = 0; number < task_count(interval->table); number++) {
        struct job job = job_of(interval->table, number, interval->next[number]);
        if (job.due <= interval->end && job.release < taken.release) {
            taken = job;
        }
    }
    interval->next[taken.task]++;
    return taken;
}

static void list_jobs(struct interval *interval, const struct excess_list *list)
{
    uint64_t count = begin(interval), listed = list->all || count < JOBS_SHOWN ? count : JOBS_SHOWN;
    struct jobs jobs = {interval->table, list->put, columns_for(interval->end)};
    print_jobs_heading(&jobs, "cost");
    for (uint64_t at = 0; at < listed && !ferror(stdout); at++) {
        struct job job = take_next(interval);
        print_job(&jobs, &job);
    }
    if (listed < count) {
        printf("  and %" PRIu64 " more%s\n", count - listed, list->hint);
    }
}

void list_excess(const struct table *table, const struct yolizadwa_numbers *numbers, const struct excess_list *list)
{
    struct interval interval = {.table = table, .start = numbers->from, .end = numbers->to};
    if (numbers->verdict == YOLIZADWA_LATE) {
        list_jobs(&interval, list);
    }
}

void json_excess(const struct table *table, const struct yolizadwa_numbers *numbers, int all)
{
    struct interval interval = {.table = table, .start = numbers->from, .end = numbers->to};
    uint64_t count = begin(&interval), listed = all || count < JOBS_SHOWN ? count : JOBS_SHOWN;
    json_open("jobs", '[');
    for (uint64_t at = 0; at < listed && !ferror(stdout); at++) {
        struct job job = take_next(&interval);
        json_job(table, &job, "cost");
    }
    json_close(']');
    json_number("jobs_left", count - listed);
}
