/* A picture on a page: each block is two drawings side by side, so that the labels stay in view while the lanes are pushed to and fro. */
#include "block.h"

static void begin_part(const struct block *block, const char *part, unsigned left, unsigned right)
{
    unsigned height = block_height(block);
    printf("<svg xmlns=\"http://www.w3.org/2000/svg\" version=\"1.1\" class=\"%s\" width=\"%u\" height=\"%u\" viewBox=\"%u %u %u %u\" "
           "font-family=\"sans-serif\" font-size=\"13\">\n",
           part, right - left, height, left, block->top, right - left, height);
}

static void put_strip(const struct block *block)
{
    printf("<div class=\"strip\">\n");
    begin_part(block, "side", 0, LABELS);
    put_labels(block);
    printf("</svg>\n");
    begin_part(block, "lanes", LABELS, WIDE);
    if (block->begin == block->picture->from) {
        put_patterns();
    }
    printf("<g transform=\"translate(.5 .5)\">\n");
    put_block(block);
    printf("</g>\n</svg>\n</div>\n");
}

void put_run(const struct picture *picture)
{
    struct block block = first_block(picture, 0);
    printf("<div class=\"run\">\n<p>");
    put_caption(picture);
    printf("</p>\n<div class=\"wide\">\n");
    put_strip(&block);
    while (block.end < picture->to && !ferror(stdout)) {
        block = block_after(&block);
        put_strip(&block);
    }
    printf("</div>\n");
    put_legend_of_page(picture);
    printf("</div>\n");
}
