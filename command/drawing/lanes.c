/* The lanes of a block: boxes, waits, what was missed, and the arrows of releases and deadlines. */
#include "block.h"

static unsigned box_height(const struct block *block)
{
    return block->lane * 4 / 9;
}

static uint16_t signs_at(const struct block *block, unsigned number, unsigned long instant)
{
    return block->picture->lanes[number].signs[instant - block->picture->from];
}

/* A layer draws stretches of slots that have these of the signs that it looks at; a break ends a stretch. */
struct layer {
    const char *group;
    uint16_t looks, signs, breaks;
    void (*put)(const struct block *block, unsigned number, unsigned long from, unsigned long to);
};

static unsigned long stretch_end(const struct block *block, unsigned number, unsigned long from, const struct layer *layer)
{
    unsigned long to = from + 1;
    while (to < block->end && (signs_at(block, number, to) & layer->looks) == layer->signs &&
           (signs_at(block, number, to) & layer->breaks) == 0) {
        to++;
    }
    return to;
}

static void put_stretches(const struct block *block, unsigned number, const struct layer *layer)
{
    unsigned long to;
    for (unsigned long from = block->begin; from < block->end; from = to) {
        to = from + 1;
        if ((signs_at(block, number, from) & layer->looks) == layer->signs) {
            to = stretch_end(block, number, from, layer);
            layer->put(block, number, from, to);
        }
    }
}

static void put_layer(const struct block *block, const struct layer *layer)
{
    printf("<g %s>\n", layer->group);
    for (unsigned number = 0; number < block->picture->tasks; number++) {
        put_stretches(block, number, layer);
    }
    printf("</g>\n");
}

void put_slots(unsigned long from, unsigned long to)
{
    if (to - from == 1) {
        printf("slot %lu", from);
    } else {
        printf("slots %lu to %lu", from, to - 1);
    }
}

/* The beginning of what a browser says where the pointer rests. */
static void put_task(const struct block *block, unsigned number)
{
    struct words words;
    printf("<title>");
    put_text(task_words(block->picture->table, number, &words));
}

static void put_box(const struct block *block, unsigned number, unsigned long from, unsigned long to)
{
    unsigned height = box_height(block);
    printf("<rect x=\"%u\" y=\"%u\" width=\"%u\" height=\"%u\">", x_of(block, from), floor_of(block, number) - height,
           (unsigned)(to - from) * block->slot, height);
    put_task(block, number);
    printf(": ");
    put_slots(from, to);
    printf("</title></rect>\n");
}

static void put_wait(const struct block *block, unsigned number, unsigned long from, unsigned long to)
{
    printf("<path d=\"M%u %uH%u\">", x_of(block, from), floor_of(block, number) - box_height(block) / 2, x_of(block, to));
    put_task(block, number);
    printf(" waits: ");
    put_slots(from, to);
    printf("</title></path>\n");
}

/* Says how many slots the job that is closed late here is missing. */
static void put_lack(const struct block *block, unsigned number, unsigned long instant)
{
    struct lack lack = block->picture->lanes[number].lacks[instant - block->picture->from];
    put_task(block, number);
    printf(", due at %lu: late, and %lu missing</title>", (unsigned long)lack.due, (unsigned long)lack.missing);
}

/* It stands above the boxes, so that the next job's can still be seen. */
static void put_missed(const struct block *block, unsigned number, unsigned long from, unsigned long to)
{
    unsigned top = lane_top(block, number) + 2, height = floor_of(block, number) - box_height(block) - 2 - top;
    printf("<rect x=\"%u\" y=\"%u\" width=\"%u\" height=\"%u\">", x_of(block, from), top, (unsigned)(to - from) * block->slot,
           height);
    put_lack(block, number, from);
    printf("</rect>\n");
}

static const struct layer layers[] = {
    {"class=\"waits\" stroke=\"#555\" stroke-width=\"2\" stroke-dasharray=\"1 2\"", WAITS | MEANT, WAITS, RELEASED, put_wait},
    {"class=\"waits meant\" stroke=\"#000\" stroke-width=\"3\" stroke-dasharray=\"6 3\"", WAITS | MEANT, WAITS | MEANT, RELEASED, put_wait},
    {"class=\"boxes\" fill=\"#c5d8ea\" stroke=\"#1c3f5e\"", HAS | MEANT, HAS, RELEASED, put_box},
    {"class=\"boxes meant\" fill=\"url(#meant)\" stroke=\"#000\" stroke-width=\"1.6\"", HAS | MEANT, HAS | MEANT, RELEASED, put_box},
    {"class=\"missed\" fill=\"url(#missed)\" stroke=\"#c00\" stroke-width=\"1.4\"", MISSED | BLAMED, MISSED, CLOSED, put_missed},
    {"class=\"missed meant\" fill=\"#c00\" stroke=\"#000\" stroke-width=\"1.4\"", MISSED | BLAMED, MISSED | BLAMED, CLOSED, put_missed},
};

/* An arrow up where a job is released, with a button at its foot where it is pressed, down where it is due; a crossed line where it is pressed
 * too early. */
static void put_mark(const struct block *block, unsigned number, unsigned long instant, uint16_t sign)
{
    unsigned x = x_of(block, instant), top = lane_top(block, number) + 1, floor = floor_of(block, number);
    switch (sign) {
    case RELEASED: printf("M%u %uV%um0 -4l-3 5h6z", x, floor, top + 4); break;
    case PRESSED: printf("M%u %uV%um0 -4l-3 5h6zm-3 %ua3 3 0 1 0 6 0a3 3 0 1 0 -6 0", x, floor - 2, top + 4, floor - 2 - top); break;
    case TOO_EARLY: printf("M%u %uV%um-4 %ul8 8m0 -8l-8 8", x, floor, top, (floor - top) / 2 - 4); break;
    default: printf("M%u %uV%um0 4l-3 -5h6z", x, top, floor - 4);
    }
}

static unsigned long marks_end(const struct block *block)
{
    return block->end == block->picture->to ? block->end + 1 : block->end;
}

/* One path has all marks of a lane with this one of the signs that are looked at. */
static void put_marks(const struct block *block, unsigned number, const char *what, uint16_t looks, uint16_t sign)
{
    unsigned long marks = 0;
    for (unsigned long instant = block->begin; instant < marks_end(block); instant++) {
        if ((signs_at(block, number, instant) & looks) == sign) {
            printf("%s", marks++ == 0 ? "<path d=\"" : "");
            put_mark(block, number, instant, sign);
        }
    }
    if (marks > 0) {
        printf("\">");
        put_task(block, number);
        printf(" %s</title></path>\n", what);
    }
}

static void put_all_marks(const struct block *block, const char *group, const char *what, uint16_t looks, uint16_t sign)
{
    printf("<g %s>\n", group);
    for (unsigned number = 0; number < block->picture->tasks; number++) {
        put_marks(block, number, what, looks, sign);
    }
    printf("</g>\n");
}

/* Each has a path of its own, since each is missing another number of slots. */
static void put_closed(const struct block *block, unsigned number)
{
    for (unsigned long instant = block->begin; instant < marks_end(block); instant++) {
        if (signs_at(block, number, instant) & CLOSED) {
            printf("<path d=\"");
            put_mark(block, number, instant, DUE);
            printf("\">");
            put_lack(block, number, instant);
            printf("</path>\n");
        }
    }
}

static void put_all_closed(const struct block *block)
{
    printf("<g class=\"closed\" fill=\"#c00\" stroke=\"#c00\" stroke-width=\"2\">\n");
    for (unsigned number = 0; number < block->picture->tasks; number++) {
        put_closed(block, number);
    }
    printf("</g>\n");
}

static void put_layers(const struct block *block)
{
    for (size_t at = 0; at < sizeof layers / sizeof layers[0]; at++) {
        put_layer(block, &layers[at]);
    }
}

void put_lanes(const struct block *block)
{
    put_layers(block);
    put_all_marks(block, "class=\"released\" stroke=\"#000\"", "is released", RELEASED | PRESSED, RELEASED);
    if (button_count(block->picture->table) > 0) {
        put_all_marks(block, "class=\"pressed\" stroke=\"#000\"", "is pressed", PRESSED, PRESSED);
        put_all_marks(block, "class=\"early\" stroke=\"#000\" stroke-width=\"2\" fill=\"none\"", "is pressed too early", TOO_EARLY, TOO_EARLY);
    }
    put_all_marks(block, "class=\"due\" stroke=\"#000\"", "is due", DUE | CLOSED, DUE);
    put_all_closed(block);
}
