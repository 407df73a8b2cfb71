/* What keeps a new task from being an old one made easier. */
#ifndef EASING_H
#define EASING_H

#include "json.h"

/* The numbers of a task in the order in which they are looked at; ALIKE: none stands in the way. */
enum { PERIOD, OFFSET, COST, DEADLINE, ALIKE };

/* The old task that the new one is compared with, and why with that one; way -1: there is none. */
enum why { HAS_ITS_NAME, HAS_ITS_PLACE, IS_NEAREST };
struct obstacle {
    unsigned old;
    enum why why;
    int way;
    int too_early; /* a new task before this one was a later old task, this one: */
    unsigned last;
};
struct obstacle obstacle_of(const struct table *before, const struct table *after, unsigned task);

extern const char *const field_names[];
uint64_t field_of(const struct task *task, int way);

#endif
