/*
 * A camera stand's host: judges a table file, prints its report, and if it passes runs the camera's loop for some slots and
 * says where they went.
 *
 *   host [--anyway] TABLE [SLOTS]
 *
 * --anyway runs a table that does not pass too, as a camera must not, to show how late jobs are told; no job then ends early,
 * which would hide them. What a refusal's number means stands in yolizadwa.h.
 *
 * Ends with 0 if the loop was run, 1 if the table is refused, 2 if the host itself could not do its work, and 3 if the
 * table does not pass and so was not run.
 */
#include <errno.h>
#include <stdio.h>
#include <stdlib.h>
#include <string.h>

#include "yolizadwa.h"

/* One byte more than a good file has, so that a longer one is seen to be longer. */
enum { FILE_ROOM = YOLIZADWA_LONGEST_FILE + 1, USUAL_SLOTS = 20 };

enum { RAN = 0, REFUSED = 1, NO_WORK = 2, NOT_RUN = 3 };

static int refused(uint64_t result)
{
    printf("refused %u at %u\n", (unsigned)yolizadwa_number(result), (unsigned)yolizadwa_place(result));
    return REFUSED;
}

static int read_file(const char *path, uint8_t *file, size_t *len)
{
    FILE *in = fopen(path, "rb");
    if (in == NULL) {
        return 0;
    }
    *len = fread(file, 1, FILE_ROOM, in);
    int whole = !ferror(in);
    fclose(in);
    return whole;
}

/* Digits alone: strtoul would take a sign, and nothing at all as 0. */
static int read_slots(const char *word, unsigned long *slots)
{
    char *end;
    errno = 0;
    *slots = strtoul(word, &end, 10);
    return word[0] >= '0' && word[0] <= '9' && *end == '\0' && errno == 0;
}

static void print_late(const struct yolizadwa_state *state)
{
    if (state->closed == 0) {
        return;
    }
    printf(", closed late:");
    for (uint32_t task = 0; task < YOLIZADWA_TASKS; task++) {
        if (state->late >> task & 1) {
            printf(" %u", (unsigned)task);
        }
    }
}

static void print_slot(unsigned long slot, uint64_t owner, const struct yolizadwa_state *state, int done)
{
    printf("slot %lu ", slot);
    if (owner == YOLIZADWA_TASKS) {
        printf("none");
    } else {
        printf("task %u", (unsigned)owner);
    }
    if (done) {
        printf(", says done");
    }
    print_late(state);
    printf("\n");
}

/* What the service desk asks: where the slots went. A file that can be run has no button: 9 bytes of budget, 17 for each task, 1 of end. */
static void print_accounts(const struct yolizadwa_state *state, size_t len)
{
    const unsigned tasks = (unsigned)((len - 9 - 1) / 17);
    for (unsigned task = 0; task < tasks; task++) {
        printf("slots of task %u: %llu\n", task, (unsigned long long)state->given[task]);
    }
    printf("empty slots: %llu\n", (unsigned long long)state->empty);
}

/* Where a camera would do the owner's work. Here the work of every third slot ends its job, early or not. */
static int work(unsigned long slot, uint64_t owner)
{
    return owner != YOLIZADWA_TASKS && slot % 3 == 2;
}

static int run(const uint8_t *file, size_t len, int anyway, unsigned long slots)
{
    struct yolizadwa_state state;
    uint64_t result = yolizadwa_start(file, len, (uint8_t *)&state, sizeof state);
    int done = 0;
    if (yolizadwa_refused(result)) {
        return refused(result);
    }
    for (unsigned long slot = 0; slot < slots; slot++) {
        result = yolizadwa_step(file, len, (uint8_t *)&state, sizeof state, (uint32_t)done);
        if (yolizadwa_refused(result)) {
            return refused(result);
        }
        done = !anyway && work(slot, result);
        print_slot(slot, result, &state, done);
    }
    print_accounts(&state, len);
    return RAN;
}

static int judge_and_run(const uint8_t *file, size_t len, int anyway, unsigned long slots)
{
    uint8_t report[YOLIZADWA_REPORT_BYTES];
    uint64_t result = yolizadwa_check(file, len, report, sizeof report);
    if (yolizadwa_refused(result)) {
        return refused(result);
    }
    fwrite(report, 1, (size_t)result, stdout);
    if (!anyway && !yolizadwa_passes(report, (size_t)result)) {
        printf("not run: the table does not pass\n");
        return NOT_RUN;
    }
    return run(file, len, anyway, slots);
}

int main(int argc, char **argv)
{
    uint8_t file[FILE_ROOM];
    size_t len = 0;
    unsigned long slots = USUAL_SLOTS;
    int anyway = argc > 1 && strcmp(argv[1], "--anyway") == 0;
    char **words = argv + 1 + anyway;
    int count = argc - 1 - anyway;
    if (count < 1 || count > 2 || (count == 2 && !read_slots(words[1], &slots))) {
        fprintf(stderr, "usage: host [--anyway] TABLE [SLOTS]\n");
        return NO_WORK;
    }
    if (!read_file(words[0], file, &len)) {
        fprintf(stderr, "host: cannot read %s\n", words[0]);
        return NO_WORK;
    }
    int status = judge_and_run(file, len, anyway, slots);
    if (fflush(stdout) != 0 || ferror(stdout)) {
        fprintf(stderr, "host: cannot write\n");
        return NO_WORK;
    }
    return status;
}
