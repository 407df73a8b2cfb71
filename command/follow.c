/* Follows the records of a log. The library judges them; here they are shown, and the dispatcher's steps tell which jobs were late. */
#include "follow.h"

enum { NOBODY = 256 };

/* Of a table that the quick test passes no job is ever late, so there is nothing to step for. */
void begin_following(struct follower *follower, const struct table *table, int prints)
{
    begin_course(&follower->course, table, 0);
    begin_progress();
    follower->steps = yolizadwa_quick(table->file, table->len) != YOLIZADWA_QUICK_PASS;
    end_progress();
    follower->prints = prints;
    if (prints) {
        printf("        slot   task  done%s\n", name_heading(table));
    }
}

static void print_slot(const struct follower *follower)
{
    const struct table *table = follower->course.table;
    char who[8] = "empty";
    if (follower->who != NOBODY) {
        snprintf(who, sizeof who, "%u", follower->who);
    }
    int is_named = follower->who < follower->course.tasks && table->names[follower->who].len > 0;
    printf("  %10" PRIu64 "  %5s%s", follower->slots - 1, who, follower->done ? "  done" : is_named ? "      " : "");
    if (follower->who < follower->course.tasks) {
        end_row(table, follower->who, put_plain);
    } else {
        putchar('\n');
    }
}

/* The step before this slot is told what was reported of the one before it. */
static void step(struct follower *follower)
{
    if (follower->steps) {
        follower->course.done = (uint32_t)follower->done;
        take_slot(&follower->course);
        note_late(&follower->late, &follower->course);
    }
}

static void end_slot(struct follower *follower)
{
    if (follower->waits && follower->prints) {
        print_slot(follower);
    }
}

static void take_owner(struct follower *follower, unsigned who)
{
    end_slot(follower);
    step(follower);
    follower->opened = follower->done = 0;
    follower->waits = 1;
    follower->who = who;
    follower->slots++;
}

static void take_byte(struct follower *follower, uint8_t byte)
{
    if (follower->opened) {
        take_owner(follower, byte);
    } else if (byte == YOLIZADWA_LOG_SLOT) {
        follower->opened = 1;
    } else if (byte == YOLIZADWA_LOG_EMPTY) {
        take_owner(follower, NOBODY);
    } else if (byte == YOLIZADWA_LOG_DONE && follower->waits && !follower->done) {
        follower->done = 1;
    } else {
        follower->ended = 1;
    }
}

void follow(struct follower *follower, const uint8_t *piece, size_t len)
{
    for (size_t at = 0; at < len && !follower->ended && !ferror(stdout); at++) {
        take_byte(follower, piece[at]);
    }
}

/* The instant after the last slot has deadlines too. */
void end_following(struct follower *follower)
{
    end_slot(follower);
    step(follower);
    if (follower->prints) {
        putchar('\n');
    }
}
