/* A block of a drawing: where things stand in it, its axis and shades. */
#include "block.h"

/* Half of the longest number of the axis has room to the right of the lanes. */
enum { ROOM = 770, MOST_OF_A_BLOCK = 110, MOST_OF_A_SLOT = 40 };
enum { AXIS = 30, HORIZON = 16, GAP = 18, DIGIT = 8, BOLD = 9 };

/* Lanes of many tasks are lower; a name above the numbers of a label needs more. */
enum { FEW = 4, SOME = 8, MANY = 16, HIGH_LANE = 36, LOWER_LANE = 32, LOW_LANE = 28, LOWEST_LANE = 18 };

unsigned x_of(const struct block *block, uint64_t instant)
{
    return LEFT + (unsigned)(instant - block->begin) * block->slot;
}

unsigned lane_top(const struct block *block, unsigned number)
{
    return block->top + CAPTIONS + number * block->lane;
}

unsigned floor_of(const struct block *block, unsigned number)
{
    return lane_top(block, number) + block->lane - block->lane / 9;
}

unsigned axis_of(const struct block *block)
{
    return lane_top(block, block->picture->tasks) + 6;
}

/* The instant after the last slot belongs to the last block, any other to the block whose slot follows it. */
static int has_instant(const struct block *block, uint64_t instant)
{
    return instant >= block->begin && (instant < block->end || (instant == block->end && instant == block->picture->to));
}

unsigned block_height(const struct block *block)
{
    return CAPTIONS + block->picture->tasks * block->lane + AXIS + (has_instant(block, block->picture->horizon) ? HORIZON : 0) + GAP;
}

/* Blocks of a long window are equally long, but for the last, and begin at round numbers after the first. */
static unsigned long slots_of_a_block(const struct picture *picture)
{
    unsigned long slots = picture->to - picture->from, blocks = (slots + MOST_OF_A_BLOCK - 1) / MOST_OF_A_BLOCK;
    unsigned long even = (slots + blocks - 1) / blocks;
    return blocks == 1 ? even : (even + 9) / 10 * 10;
}

static unsigned lane_of(const struct picture *picture)
{
    int is_low = picture->tasks <= MANY || any_name(picture->table);
    return picture->tasks <= FEW ? HIGH_LANE : picture->tasks <= SOME ? LOWER_LANE : is_low ? LOW_LANE : LOWEST_LANE;
}

struct block first_block(const struct picture *picture, unsigned top)
{
    unsigned long slots = slots_of_a_block(picture);
    unsigned wide = (unsigned)(ROOM / slots);
    struct block block = {picture, picture->from, picture->from + slots, wide > MOST_OF_A_SLOT ? MOST_OF_A_SLOT : wide, lane_of(picture), top};
    return block;
}

struct block block_after(const struct block *block)
{
    struct block next = *block;
    unsigned long slots = block->end - block->begin, left = block->picture->to - block->end;
    next.top += block_height(block);
    next.begin = block->end;
    next.end = block->end + (left < slots ? left : slots);
    return next;
}

/* The border stands where the late interval begins or ends, not where another block goes on with it. */
static void put_border(const struct block *block, unsigned x, int is_border)
{
    if (is_border) {
        printf("<path d=\"M%u %uV%u\" stroke=\"#000\" stroke-dasharray=\"6 3\"/>\n", x, block->top + CAPTIONS - 2, axis_of(block));
    }
}

/* The part of the late interval that this block shows, under its sum. */
static void put_excess(const struct block *block)
{
    const struct excess *excess = &block->picture->excess;
    uint64_t from = excess->start > block->begin ? excess->start : block->begin, to = excess->end < block->end ? excess->end : block->end;
    if (!block->picture->is_late || from >= to) {
        return;
    }
    unsigned left = x_of(block, from), right = x_of(block, to), top = block->top + CAPTIONS - 2, middle = (left + right) / 2;
    unsigned half = BOLD * (unsigned)(15 + columns_for(excess->demand) + columns_for(excess->end - excess->start)) / 2;
    printf("<g class=\"late\"><rect x=\"%u\" y=\"%u\" width=\"%u\" height=\"%u\" fill=\"#e4e4e4\"/>\n", left, top, right - left,
           axis_of(block) - top);
    put_border(block, left, excess->start == from);
    put_border(block, right, excess->end == to);
    printf("<text x=\"%u\" y=\"%u\" text-anchor=\"middle\" font-weight=\"bold\">asks for %" PRIu64 ", has %" PRIu64 "</text></g>\n",
           middle < LEFT + half ? LEFT + half : middle > WIDE - half ? WIDE - half : middle, top - 5, excess->demand,
           excess->end - excess->start);
}

/* Numbers of the axis stand this many slots apart, so that none runs into the next. */
static unsigned long ruler_step(const struct block *block)
{
    static const unsigned long steps[] = {1, 2, 5, 10, 20, 50};
    unsigned room = DIGIT * (unsigned)columns_for(block->picture->to) + DIGIT;
    unsigned at = 0;
    while (at < 5 && steps[at] * block->slot < room) {
        at++;
    }
    return steps[at];
}

static void put_grid(const struct block *block)
{
    unsigned top = block->top + CAPTIONS, axis = axis_of(block);
    unsigned long step = ruler_step(block);
    printf("<path class=\"grid\" stroke=\"#ddd\" d=\"");
    for (unsigned long instant = (block->begin + step - 1) / step * step; instant <= block->end; instant += step) {
        printf("M%u %uV%u", x_of(block, instant), top, axis);
    }
    printf("\"/>\n");
}

static void put_ticks(const struct block *block)
{
    unsigned axis = axis_of(block);
    unsigned long step = ruler_step(block);
    printf("<path d=\"M%u %uH%u", LEFT, axis, x_of(block, block->end));
    for (unsigned long instant = block->begin; instant <= block->end; instant++) {
        printf("M%u %uv%u", x_of(block, instant), axis, instant % step == 0 ? 7 : 4);
    }
    printf("\" stroke=\"#000\"/>\n");
}

static void put_numbers(const struct block *block)
{
    unsigned long step = ruler_step(block);
    printf("<g class=\"ruler\" text-anchor=\"middle\">");
    for (unsigned long instant = (block->begin + step - 1) / step * step; instant <= block->end; instant += step) {
        printf("<text x=\"%u\" y=\"%u\">%lu</text>", x_of(block, instant), axis_of(block) + 23, instant);
    }
    printf("</g>\n");
}

static unsigned long empty_end(const struct block *block, unsigned long from)
{
    unsigned long to = from;
    while (to < block->end && block->picture->idle[to - block->picture->from] == EMPTY) {
        to++;
    }
    return to;
}

static void put_empty(const struct block *block)
{
    unsigned long to;
    printf("<g class=\"empty\" fill=\"" BAND "\">\n");
    for (unsigned long from = block->begin; from < block->end; from = to + 1) {
        to = empty_end(block, from);
        if (to > from) {
            printf("<rect x=\"%u\" y=\"%u\" width=\"%u\" height=\"%u\"><title>" EMPTY_WORDS ": ", x_of(block, from), axis_of(block),
                   (unsigned)(to - from) * block->slot, (unsigned)BAND_HEIGHT);
            put_slots(from, to);
            printf("</title></rect>\n");
        }
    }
    printf("</g>\n");
}

/* An instant between two jobs, as narrow as it is. */
static void put_instants(const struct block *block)
{
    const struct picture *picture = block->picture;
    printf("<g class=\"instants\" fill=\"" BAND "\"><title>" INSTANT_WORDS "</title>\n");
    for (unsigned long instant = block->begin; has_instant(block, instant); instant++) {
        if (picture->idle[instant - picture->from] == INSTANT) {
            printf("<rect x=\"%u\" y=\"%u\" width=\"2\" height=\"%u\"/>", x_of(block, instant) - 1, axis_of(block), (unsigned)BAND_HEIGHT);
        }
    }
    printf("</g>\n");
}

static void put_horizon(const struct block *block)
{
    uint64_t horizon = block->picture->horizon;
    if (has_instant(block, horizon)) {
        unsigned x = x_of(block, horizon), axis = axis_of(block), wide = 90 + DIGIT * (unsigned)columns_for(horizon);
        printf("<g class=\"horizon\"><path d=\"M%u %uV%u\" stroke=\"#000\" stroke-width=\"2\" stroke-dasharray=\"2 4\"/>", x,
               block->top + CAPTIONS - 4, axis);
        printf("<text x=\"%u\" y=\"%u\" text-anchor=\"%s\">horizon %" PRIu64 "</text></g>\n", x, axis + 40,
               x + wide / 2 > WIDE ? "end" : x < LABELS + wide / 2 ? "start" : "middle", horizon);
    }
}

static void put_floors(const struct block *block)
{
    printf("<path class=\"floors\" stroke=\"#aaa\" d=\"");
    for (unsigned number = 0; number < block->picture->tasks; number++) {
        printf("M%u %uH%u", LEFT, floor_of(block, number), x_of(block, block->end));
    }
    printf("\"/>\n");
}

void put_block(const struct block *block)
{
    put_excess(block);
    put_grid(block);
    put_floors(block);
    put_lanes(block);
    put_empty(block);
    put_instants(block);
    put_ticks(block);
    put_numbers(block);
    put_horizon(block);
}
