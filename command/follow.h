/* Follows the records of a log: prints them, and steps the library's dispatcher as the camera did. */
#ifndef FOLLOW_H
#define FOLLOW_H

#include "json.h"

/* Whether each is wanted, and what was read so far. The slot just read waits for its done report. */
struct follower {
    int prints, steps;
    struct course course;
    struct late_list late;
    int opened, ended; /* ended: by the end, or by what is no record */
    int waits, done;
    unsigned who; /* YOLIZADWA_TASKS and more: nobody that the table has; NOBODY: an empty slot */
    uint64_t slots;
};
void begin_following(struct follower *follower, const struct table *table, int prints);
void follow(struct follower *follower, const uint8_t *piece, size_t len);
void end_following(struct follower *follower);

#endif
