/* Which window of the run is drawn: what the request asks for, the late interval, or the first slots. */
#include "picture.h"

enum { USUAL_WINDOW = 200, AROUND = 10 };

static unsigned long within_run(uint64_t instant)
{
    return instant > MOST_SLOTS ? MOST_SLOTS : (unsigned long)instant;
}

static unsigned long shortly_before(uint64_t instant)
{
    return (unsigned long)(instant > AROUND ? instant - AROUND : 0);
}

static unsigned long usual_window(const struct picture *picture)
{
    return picture->most > 0 ? picture->most : USUAL_WINDOW;
}

/* Shows the end of a long interval, since a job is late there. */
static void show_excess(struct picture *picture)
{
    unsigned long usual = usual_window(picture);
    picture->from = shortly_before(picture->excess.start);
    picture->to = within_run(picture->excess.end + AROUND);
    if (picture->to - picture->from > usual) {
        picture->from = picture->to - usual;
    }
    if (picture->to - picture->from < LEAST_USUAL) {
        picture->to = within_run(picture->from + LEAST_USUAL);
        picture->from = picture->to - LEAST_USUAL;
    }
}

static uint64_t first_release(const struct table *table)
{
    uint64_t first = UINT64_MAX;
    for (unsigned number = 0; number < task_count(table); number++) {
        struct task task = task_at(table, number);
        first = task.offset < first ? task.offset : first;
    }
    return first;
}

/* Shows shortly before the first release up to the horizon, within what is good to look at. */
static void show_first(struct picture *picture, const struct table *table)
{
    uint64_t from = shortly_before(first_release(table)), slots = picture->horizon > from ? picture->horizon - from : 0;
    uint64_t usual = usual_window(picture);
    picture->from = (unsigned long)from;
    picture->to = (unsigned long)(from + (slots < LEAST_USUAL ? LEAST_USUAL : slots > usual ? usual : slots));
}

int take_window(struct picture *picture, const struct request *request)
{
    unsigned long from = request->from, to = request->to > 0 ? request->to : from + USUAL_WINDOW;
    if (!request->from_told && request->to == 0) {
        return DONE;
    }
    if (from >= to) {
        return trouble("there is no slot from %lu to %lu: --from is the first slot, --to the instant after the last", from, to);
    }
    if (to - from > MOST_WINDOW) {
        return trouble("from %lu to %lu there are more slots than the 2000 that can be drawn", from, to);
    }
    picture->from = from;
    picture->to = within_run(to);
    return DONE;
}

void take_verdict(struct picture *picture, const struct table *table, const struct yolizadwa_numbers *numbers)
{
    picture->is_late = numbers->verdict == YOLIZADWA_LATE;
    picture->excess = (struct excess){numbers->from, numbers->to, numbers->demand};
    picture->horizon = numbers->horizon;
    word_verdict(table, numbers, &picture->verdict);
    if (picture->to > 0) {
        return;
    }
    if (picture->is_late && picture->excess.end <= MOST_SLOTS) {
        show_excess(picture);
    } else {
        show_first(picture, table);
    }
}

/* Shows every press that is told, or those from the first on that there is room for. */
void take_answer(struct picture *picture, const struct table *table, const struct presses *presses)
{
    unsigned long usual = usual_window(picture);
    picture->horizon = UINT64_MAX;
    if (picture->to > 0) {
        return;
    }
    picture->to = usual_slots(table, usual);
    if (presses->due > usual) {
        picture->from = shortly_before(presses->first);
        picture->to = within_run(picture->from + usual);
    } else if (presses->due > picture->to) {
        picture->to = (unsigned long)presses->due;
    }
}
