/* A block of a drawing: some slots of the window, each task's lane below the one before it, and an axis below them. */
#ifndef BLOCK_H
#define BLOCK_H

#include "picture.h"

/* The drawing's width, that of its labels, where the lanes begin, and how high the captions above a block's lanes are. Half of the longest
 * number of the axis has room between labels and lanes. */
enum { WIDE = 1020, LABELS = 190, LEFT = 216, CAPTIONS = 22, BAND_HEIGHT = 8 };

/* The band below the axis, and what it says. */
#define BAND "#5f9469"
#define EMPTY_WORDS "idle: no job is open"
#define INSTANT_WORDS "idle for an instant: every earlier job is finished, or was closed late before"

/* Slots from begin to end of the window, drawn below this height. */
struct block {
    const struct picture *picture;
    unsigned long begin, end;
    unsigned slot, lane; /* how wide a slot is, how high a lane */
    unsigned top;
};

struct block first_block(const struct picture *picture, unsigned top);
struct block block_after(const struct block *block);
unsigned block_height(const struct block *block);
void put_block(const struct block *block); /* but for the labels */
void put_labels(const struct block *block);

/* Places in it. A lane's floor is what its boxes stand on. */
unsigned x_of(const struct block *block, uint64_t instant);
unsigned lane_top(const struct block *block, unsigned number);
unsigned floor_of(const struct block *block, unsigned number);
unsigned axis_of(const struct block *block);

/* What stands in the lanes: boxes, waits, what was missed, arrows. */
void put_lanes(const struct block *block);
void put_slots(unsigned long from, unsigned long to);

/* The caption of a picture without its element. The legend below a drawing tells where its last row stands, which the caller asks for before it
 * is put; the legend of a page flows as its text does. */
void put_caption(const struct picture *picture);
void put_patterns(void);
unsigned legend_end(const struct picture *picture, unsigned y);
void put_legend(const struct picture *picture, unsigned y);
void put_legend_of_page(const struct picture *picture);

#endif
