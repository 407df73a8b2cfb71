/* The legend: the signs that a picture has, and what they say. */
#include <string.h>

#include "block.h"

/* Places of a drawing's legend: its edge, from a row to the next, from a sign to its words, and up to the next sign. */
enum { EDGE = 12, ROW = 20, SIGN = 34, LETTER = 7, WIDE_LETTER = 8, APART = 20 };

static int has_empty(const struct picture *picture)
{
    return picture->any_idle & EMPTY;
}

static int has_instants(const struct picture *picture)
{
    return picture->any_idle & INSTANT;
}

static int has_horizon(const struct picture *picture)
{
    return picture->horizon >= picture->from && picture->horizon <= picture->to;
}

static int has_excess(const struct picture *picture)
{
    return picture->is_late && picture->excess.start < picture->to && picture->excess.end > picture->from;
}

/* A sign of the legend and its words. It is shown if `when` says so or, without a `when`, if a lane has these signs. */
struct key {
    uint16_t looks, signs;
    int (*when)(const struct picture *picture);
    const char *sign, *words;
};

static const struct key keys[] = {
    {HAS | MEANT, HAS, NULL, "<rect x=\"0\" y=\"-11\" width=\"26\" height=\"13\" fill=\"#c5d8ea\" stroke=\"#1c3f5e\"/>",
     "has these slots"},
    {WAITS | MEANT, WAITS, NULL, "<path d=\"M0 -4H26\" stroke=\"#555\" stroke-width=\"2\" stroke-dasharray=\"1 2\"/>", "waits"},
    {RELEASED | PRESSED, RELEASED, NULL, "<path d=\"M13 2V-8m0 -4l-3 5h6z\" stroke=\"#000\"/>", "is released"},
    {PRESSED, PRESSED, NULL, "<path d=\"M13 0V-8m0 -4l-3 5h6zM10 0a3 3 0 1 0 6 0a3 3 0 1 0 -6 0\" stroke=\"#000\"/>", "is pressed"},
    {TOO_EARLY, TOO_EARLY, NULL,
     "<path d=\"M13 2V-11M9 -9l8 8m0 -8l-8 8\" stroke=\"#000\" stroke-width=\"2\"/>",
     "is pressed too early: not taken"},
    {DUE | CLOSED, DUE, NULL, "<path d=\"M13 -12V-2m0 4l-3 -5h6z\" stroke=\"#000\"/>", "is due"},
    {CLOSED, CLOSED, NULL,
     "<path d=\"M13 -12V-2m0 4l-3 -5h6z\" fill=\"#c00\" stroke=\"#c00\" stroke-width=\"2\"/>",
     "is due, and closed late"},
    {MISSED | BLAMED, MISSED, NULL,
     "<rect x=\"0\" y=\"-9\" width=\"26\" height=\"9\" fill=\"url(#missed)\" stroke=\"#c00\" stroke-width=\"1.4\"/>",
     "late: that many slots are missing"},
    {HAS | MEANT, HAS | MEANT, NULL,
     "<rect x=\"0\" y=\"-11\" width=\"26\" height=\"13\" fill=\"url(#meant)\" stroke=\"#000\" stroke-width=\"1.6\"/>",
     "of the late interval: has these slots"},
    {WAITS | MEANT, WAITS | MEANT, NULL, "<path d=\"M0 -4H26\" stroke=\"#000\" stroke-width=\"3\" stroke-dasharray=\"6 3\"/>",
     "of the late interval: waits"},
    {MISSED | BLAMED, MISSED | BLAMED, NULL,
     "<rect x=\"0\" y=\"-9\" width=\"26\" height=\"9\" fill=\"#c00\" stroke=\"#000\" stroke-width=\"1.4\"/>",
     "of the late interval: that many slots are missing"},
    {0, 0, has_excess,
     "<path d=\"M0 -12h26v15h-26z\" fill=\"#e4e4e4\"/><path d=\"M0 -12v15m26 0v-15\" stroke=\"#000\" stroke-dasharray=\"6 3\"/>",
     "the late interval"},
    {0, 0, has_horizon, "<path d=\"M13 -12V3\" stroke=\"#000\" stroke-width=\"2\" stroke-dasharray=\"2 4\"/>", "the horizon"},
    {0, 0, has_empty, "<path d=\"M0 -8H26\" stroke=\"#000\"/><rect x=\"0\" y=\"-8\" width=\"26\" height=\"8\" fill=\"" BAND "\"/>", EMPTY_WORDS},
    {0, 0, has_instants, "<path d=\"M0 -8H26\" stroke=\"#000\"/><rect x=\"12\" y=\"-8\" width=\"2\" height=\"8\" fill=\"" BAND "\"/>", INSTANT_WORDS},
};

static int is_seen(const struct picture *picture, const struct key *key)
{
    unsigned signs = 0;
    while (signs < sizeof picture->seen && !(picture->seen[signs] && (signs & key->looks) == key->signs)) {
        signs++;
    }
    return key->when != NULL ? key->when(picture) : signs < sizeof picture->seen;
}

static void put_key(unsigned x, unsigned y, const struct key *key)
{
    printf("<g transform=\"translate(%u %u)\">%s<text class=\"key\" x=\"%u\" y=\"0\">%s</text></g>\n", x, y, key->sign, (unsigned)SIGN, key->words);
}

/* Tells where its last row stands; the first stands at y. */
static unsigned lay_legend(const struct picture *picture, unsigned y, void (*put)(unsigned x, unsigned y, const struct key *key))
{
    unsigned x = EDGE;
    for (size_t at = 0; at < sizeof keys / sizeof keys[0]; at++) {
        unsigned letters = (unsigned)strlen(keys[at].words);
        if (!is_seen(picture, &keys[at])) {
            continue;
        }
        if (x + SIGN + WIDE_LETTER * letters > WIDE) {
            x = EDGE;
            y += ROW;
        }
        put(x, y, &keys[at]);
        x += SIGN + LETTER * letters + APART;
    }
    return y;
}

static void put_no_key(unsigned x, unsigned y, const struct key *key)
{
    (void)x, (void)y, (void)key;
}

unsigned legend_end(const struct picture *picture, unsigned y)
{
    return lay_legend(picture, y, put_no_key);
}

void put_legend(const struct picture *picture, unsigned y)
{
    printf("<g class=\"legend\">\n");
    lay_legend(picture, y, put_key);
    printf("</g>\n");
}

static void put_key_of_page(unsigned x, unsigned y, const struct key *key)
{
    (void)x, (void)y;
    printf("<span><svg xmlns=\"http://www.w3.org/2000/svg\" width=\"30\" height=\"18\" viewBox=\"-2 -14 30 18\">%s</svg> "
           "<span class=\"key\">%s</span></span>\n",
           key->sign, key->words);
}

void put_legend_of_page(const struct picture *picture)
{
    printf("<p class=\"legend\">\n");
    lay_legend(picture, 0, put_key_of_page);
    printf("</p>\n");
}
