/* A window of a run as it is drawn: the words draw and page share it. */
#ifndef PICTURE_H
#define PICTURE_H

#include "../course.h"

enum { MOST_WINDOW = 2000 };

/* What a lane shows of a slot and of the instant before it. */
enum sign {
    HAS = 1,      /* the task has the slot */
    WAITS = 2,    /* its job is open and waits */
    MEANT = 4,    /* its job is one of those that ask for too much */
    MISSED = 8,   /* its job was closed late, and this is counted as missing */
    RELEASED = 16,
    DUE = 32,
    CLOSED = 64,  /* closed late */
    BLAMED = 128, /* one of the jobs that ask for too much is missing this */
    PRESSED = 256, /* a press releases the job */
    TOO_EARLY = 512, /* a press that was not taken */
    ALL_SIGNS = 1024
};

/* A job closed late: when it was due, and how many slots were missing then. */
struct lack {
    uint32_t due, missing;
};

struct lane {
    struct task task;
    uint16_t signs[MOST_WINDOW + 1];
    struct lack lacks[MOST_WINDOW + 1]; /* where the signs say CLOSED or MISSED */
    /* While the run goes by. */
    int released, blamed;
    uint64_t release;
    struct lack lack;
};

/* The interval of a late verdict asks for more slots than it has. */
struct excess {
    uint64_t start, end, demand;
};

/* What the band below the axis shows of a slot, and of the instant before it where no empty slot tells the same. */
enum idleness { EMPTY = 1, INSTANT = 2 };

struct picture {
    const struct table *table; /* which has the names of the lanes */
    const char *name;          /* of the table, above a drawing */
    const char *changes;       /* behind it, or empty */
    unsigned tasks;
    unsigned long from, to; /* to 0: not chosen yet */
    int early, is_late; /* is_late: there is an excess */
    unsigned long most; /* slots that are shown without being asked for; 0: as many as are usual */
    uint8_t any_idle;   /* in the window */
    uint8_t seen[ALL_SIGNS]; /* which sums of signs the window has */
    struct excess excess;
    uint64_t horizon; /* a table with buttons has none: UINT64_MAX */
    struct press_list pressed;
    unsigned long pressed_later; /* presses behind the window */
    struct sentence verdict;
    uint8_t idle[MOST_WINDOW + 1];
    struct lane lanes[YOLIZADWA_TASKS];
};

/* Call them in this order. take_window tells TROUBLE if the window of the request cannot be drawn. */
int take_window(struct picture *picture, const struct request *request);
void take_verdict(struct picture *picture, const struct table *table, const struct yolizadwa_numbers *numbers);
void take_answer(struct picture *picture, const struct table *table, const struct presses *presses); /* with buttons, the verdict is told */
void trace_run(struct picture *picture, const struct table *table, const struct presses *presses, int early);

/* The drawing as one element of SVG; or for a page as a caption, blocks whose labels can stay in view, and a legend. */
void put_drawing(const struct picture *picture);
void put_run(const struct picture *picture);
void put_verdict(const struct sentence *verdict);

/* Any bytes as a text of XML: a question mark stands for what cannot be shown; put_lines keeps line feeds. */
void put_text(const char *text);
void put_lines(const char *text);
void put_whole_name(const struct table *table, unsigned number);

#endif
