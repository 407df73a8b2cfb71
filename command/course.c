/* A run of the table, slot by slot, as the dispatcher gives it: what the words run and draw show. */
#include "course.h"

void begin_course(struct course *course, const struct table *table, int early)
{
    uint8_t *state = (uint8_t *)&course->state;
    *course = (struct course){.table = table, .tasks = task_count(table), .has_buttons = button_count(table) > 0, .early = early};
    for (unsigned number = 0; number < course->tasks; number++) {
        course->task[number] = task_at(table, number);
    }
    if (course->has_buttons) {
        yolizadwa_press_start(table->file, table->len, state, sizeof course->state);
    } else {
        yolizadwa_start(table->file, table->len, state, sizeof course->state);
    }
}

/* With --early a job says done after half its cost, rounded up. */
static uint32_t says_done(const struct course *course, uint64_t owner)
{
    if (!course->early || owner >= course->tasks) {
        return 0;
    }
    uint64_t cost = course->task[owner].cost;
    return cost - course->state.left[owner] >= (cost + 1) / 2;
}

static uint32_t pressed_now(const struct course *course)
{
    return course->presses == NULL || course->slots >= MOST_SLOTS ? 0 : course->presses->at[course->slots];
}

/* Tells whose slot it is. */
static uint64_t step(struct course *course, uint32_t pressed)
{
    const struct table *table = course->table;
    uint8_t *state = (uint8_t *)&course->state;
    if (!course->has_buttons) {
        return yolizadwa_step(table->file, table->len, state, sizeof course->state, course->done);
    }
    uint64_t result = yolizadwa_press_step(table->file, table->len, state, sizeof course->state, course->done, pressed);
    course->untaken = yolizadwa_untaken(result);
    return yolizadwa_owner(result);
}

/* A wait of 0 is a release of a task. A press that is taken makes a button's job come. */
static void note_jobs(struct course *course, uint32_t taken)
{
    course->came = course->due = 0;
    for (unsigned number = 0; number < course->tasks; number++) {
        const struct task *task = &course->task[number];
        if (course->jobs[number] > 0 && course->slots == course->release[number] + task->deadline) {
            course->due |= UINT32_C(1) << number;
        }
        if (task->button ? taken >> number & 1 : course->before.wait[number] == 0) {
            course->came |= UINT32_C(1) << number;
            course->jobs[number]++;
            course->release[number] = course->slots;
        }
    }
}

uint64_t take_slot(struct course *course)
{
    uint32_t pressed = pressed_now(course);
    course->before = course->state;
    uint64_t owner = step(course, pressed);
    note_jobs(course, pressed & ~course->untaken);
    course->done = says_done(course, owner);
    course->slots++;
    return owner;
}

/* No job is open before the next step, counting the done report that it will be told. */
int is_idle(const struct course *course)
{
    unsigned open = 0;
    for (unsigned number = 0; number < course->tasks; number++) {
        open += course->state.left[number] > 0 && !(course->done && course->state.last == number);
    }
    return course->slots > 0 && open == 0;
}
