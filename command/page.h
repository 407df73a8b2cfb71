/* A page to hand over: what was asked about its table, and the parts of it. */
#ifndef PAGE_H
#define PAGE_H

#include "drawing/picture.h"

struct page {
    const char *file; /* as it was given */
    const struct table *table;
    struct report report; /* of a table with buttons there is none */
    int status;
    uint64_t costs[YOLIZADWA_TASKS]; /* of a table that passes the largest, of another what mends it, if that is known */
    int knows_costs;
    uint64_t distance;
};

/* The head has the style, the title, the checksum and the line to be filled in. The verdict is words up to a colon and what they mean. */
void put_head(const struct page *page);
void put_box(const struct page *page, const char *verdict, const char *more);
void put_tasks(const struct page *page);

/* CRC-32 as zip and Ethernet use it. */
uint32_t checksum_of(const uint8_t *bytes, size_t len);

#endif
