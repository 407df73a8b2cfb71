/* What each slot and instant of the window shows, from the dispatcher's answers and states alone. */
#include "picture.h"

/* Whether the task's last job is one of those that ask for too much. */
static int is_meant(const struct picture *picture, const struct lane *lane)
{
    return picture->is_late && lane->released && lane->release >= picture->excess.start &&
           lane->release + lane->task.deadline <= picture->excess.end;
}

static int has_bit(uint32_t set, unsigned number)
{
    return set >> number & 1;
}

/* The job before the instant is due or closed late first, then one is released. */
static uint16_t look_at_instant(const struct picture *picture, struct lane *lane, const struct course *course, unsigned number)
{
    uint64_t now = course->slots - 1;
    uint16_t signs = has_bit(course->untaken, number) ? TOO_EARLY : 0;
    if (has_bit(course->due, number)) {
        signs |= DUE;
    }
    if (has_bit(course->state.late, number)) {
        signs |= CLOSED;
        lane->lack.due = (uint32_t)now;
        lane->lack.missing = course->before.left[number];
        lane->blamed = is_meant(picture, lane);
    }
    if (has_bit(course->came, number)) {
        signs |= lane->task.button ? RELEASED | PRESSED : RELEASED;
        lane->released = 1;
        lane->release = now;
    }
    return signs;
}

static uint16_t look_at_slot(const struct picture *picture, const struct lane *lane, const struct course *course, unsigned number)
{
    uint16_t signs = 0;
    if (course->state.last == number) {
        signs |= HAS;
    } else if (course->state.left[number] > 0) {
        signs |= WAITS;
    }
    if (signs != 0 && is_meant(picture, lane)) {
        signs |= MEANT;
    }
    if (course->slots - 1 < (uint64_t)lane->lack.due + lane->lack.missing) {
        signs |= lane->blamed ? MISSED | BLAMED : MISSED;
    }
    return signs;
}

static void look_at_lane(struct picture *picture, const struct course *course, unsigned number)
{
    struct lane *lane = &picture->lanes[number];
    uint64_t now = course->slots - 1;
    uint16_t signs = look_at_instant(picture, lane, course, number);
    if (now < picture->from) {
        return;
    }
    unsigned long at = (unsigned long)now - picture->from;
    if (now < picture->to) {
        signs |= look_at_slot(picture, lane, course, number);
    }
    lane->signs[at] = signs;
    lane->lacks[at] = lane->lack;
    picture->seen[signs] = 1;
}

/* An empty slot tells that the instants at its two ends are idle. */
static void note_idle(struct picture *picture, uint64_t now, int is_idle, int is_empty)
{
    uint8_t *idle = picture->idle + (now - picture->from);
    if (is_empty && now < picture->to) {
        *idle = EMPTY;
    } else if (is_idle && !(now > picture->from && idle[-1] == EMPTY)) {
        *idle = INSTANT;
    }
    picture->any_idle |= *idle;
}

static void trace_slot(struct picture *picture, struct course *course)
{
    uint64_t now = course->slots;
    int idle = is_idle(course), empty = take_slot(course) >= course->tasks;
    if (now >= picture->from) {
        note_idle(picture, now, idle, empty);
    }
    note_presses(&picture->pressed, course);
    for (unsigned number = 0; number < picture->tasks; number++) {
        look_at_lane(picture, course, number);
    }
}

/* The instant after the last slot is shown too, so one more step is taken. */
void trace_run(struct picture *picture, const struct table *table, const struct presses *presses, int early)
{
    struct course course;
    begin_course(&course, table, early);
    course.presses = presses;
    picture->early = early;
    picture->table = table;
    picture->tasks = course.tasks;
    for (unsigned number = 0; number < course.tasks; number++) {
        picture->lanes[number].task = course.task[number];
    }
    while (course.slots <= picture->to) {
        trace_slot(picture, &course);
    }
    if (presses != NULL) {
        picture->pressed_later = presses->count - picture->pressed.taken - picture->pressed.untaken;
    }
}
