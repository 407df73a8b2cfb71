/* A run of a table, with presses of its buttons, the jobs that were late in it and the presses that came too early. */
#ifndef COURSE_H
#define COURSE_H

#include "command.h"

/* A press at every slot that has its button's bit, how many that are, when the first one is and when the last job of them is due. */
struct presses {
    uint32_t at[MOST_SLOTS];
    unsigned long count, first;
    uint64_t due;
};
int take_presses(const struct request *request, const struct table *table, struct presses *presses); /* or tells TROUBLE */

/* A run, slot by slot: how many slots were taken, and the states before and after the last of them. Without presses no button is pressed. */
struct course {
    const struct table *table;
    const struct presses *presses;
    unsigned tasks;
    int has_buttons;
    struct task task[YOLIZADWA_TASKS];
    int early;
    uint32_t done; /* what the next step is told */
    uint64_t slots;
    struct yolizadwa_state before, state;
    /* In the last step, a bit for each task: whose job came, whose was due, and whose press was told and not taken. */
    uint32_t came, due, untaken;
    uint64_t jobs[YOLIZADWA_TASKS], release[YOLIZADWA_TASKS]; /* how many came, and when the latest did */
};
void begin_course(struct course *course, const struct table *table, int early);
uint64_t take_slot(struct course *course);
int is_idle(const struct course *course);

/* The jobs that the steps of a course closed late: the first 100, and how many in all. */
struct late_list {
    struct job jobs[JOBS_SHOWN];
    unsigned long count;
};
void note_late(struct late_list *list, const struct course *course); /* in the last step */
void print_late(const struct late_list *list, const struct table *table, uint64_t slots);

/* The presses of a course: how many were taken, and of those that came too early the first 100 and how many in all. */
struct early_press {
    unsigned task;
    uint64_t slot, again; /* again: when it may be pressed again */
};
struct press_list {
    struct early_press early[JOBS_SHOWN];
    unsigned long taken, untaken;
};
void note_presses(struct press_list *list, const struct course *course); /* in the last step */
void print_presses(const struct press_list *list, const struct course *course);

#endif
