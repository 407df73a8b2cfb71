/*
 * The library's calls for a native program on another processor than x86-64: each is sent to the bridge under the emulator, so
 * that the command can be run under this processor's sanitizers. EMULATOR names the emulator, BRIDGE the bridge.
 */
#define _POSIX_C_SOURCE 200809L

#include <stdio.h>
#include <stdlib.h>
#include <string.h>
#include <unistd.h>

#include "bridge.h"
#include "stack.h"
#include "yolizadwa.h"

enum { MOST_WORDS = 16, RESULT_BYTES = 9 };

static FILE *to_bridge, *from_bridge;

static void fail(const char *what)
{
    fprintf(stderr, "proxy: %s\n", what);
    abort();
}

static void become_bridge(void)
{
    char *words[MOST_WORDS + 2], *line = getenv("EMULATOR");
    int count = 0;
    for (char *word = strtok(line, " "); word != NULL && count < MOST_WORDS; word = strtok(NULL, " ")) {
        words[count++] = word;
    }
    words[count++] = getenv("BRIDGE");
    words[count] = NULL;
    execv(words[0], words);
    _exit(2);
}

static void start_bridge(void)
{
    int there[2], back[2];
    if (getenv("EMULATOR") == NULL || getenv("BRIDGE") == NULL || pipe(there) != 0 || pipe(back) != 0) {
        fail("no bridge");
    }
    if (fork() == 0) {
        dup2(there[0], STDIN_FILENO);
        dup2(back[1], STDOUT_FILENO);
        close(there[0]);
        close(there[1]);
        close(back[0]);
        close(back[1]);
        become_bridge();
    }
    close(there[0]);
    close(back[1]);
    to_bridge = fdopen(there[1], "wb");
    from_bridge = fdopen(back[0], "rb");
}

static void send(const void *bytes, size_t len)
{
    if (fwrite(bytes, 1, len, to_bridge) != len) {
        fail("the bridge does not listen");
    }
}

static void receive(void *bytes, size_t len)
{
    if (fread(bytes, 1, len, from_bridge) != len) {
        fail("the bridge does not answer");
    }
}

static uint64_t forward(enum call call, const void *file, size_t file_len, uint8_t *buffer, size_t buffer_len, uint64_t number)
{
    struct head head = {number, call, 0, (uint32_t)file_len, (uint32_t)buffer_len};
    uint32_t len = (uint32_t)(sizeof head + file_len + buffer_len);
    uint8_t told[RESULT_BYTES];
    uint64_t result;
    if (to_bridge == NULL) {
        start_bridge();
    }
    send(&len, sizeof len);
    send(&head, sizeof head);
    send(file, file_len);
    send(buffer, buffer_len);
    fflush(to_bridge);
    receive(told, sizeof told);
    receive(buffer, buffer_len);
    memcpy(&result, told, sizeof result);
    return result;
}

static uint8_t nothing;

/* A call of each shape that several have; calls of another shape stand below. */
#define READS(name, function) \
    uint64_t function(const uint8_t *file, size_t file_len) { return forward(name, file, file_len, &nothing, 0, 0); }
#define ASKS(name, function) \
    uint64_t function(const uint8_t *file, size_t file_len, uint32_t task) { return forward(name, file, file_len, &nothing, 0, task); }
#define FILLS(name, function)                                                                   \
    uint64_t function(const uint8_t *file, size_t file_len, uint8_t *buffer, size_t buffer_len) \
    {                                                                                           \
        return forward(name, file, file_len, buffer, buffer_len, 0);                            \
    }
#define LISTENS(name, function)
#define COMPARES(name, function)
#define STEPS(name, function)
#define PRESSES(name, function)
#define FEEDS(name, function)
#define WRITES(name, function)

#define FORWARD(shape, name, function) shape(name, function)
CALLS(FORWARD)

/* No report is longer, so of a longer one no byte is read here either. */
uint64_t yolizadwa_passes(const uint8_t *report, size_t length)
{
    return forward(PASSES, report, length > YOLIZADWA_REPORT_BYTES ? 0 : length, &nothing, 0, length);
}

uint64_t yolizadwa_step(const uint8_t *file, size_t file_len, uint8_t *state, size_t state_len, uint32_t done)
{
    return forward(STEP, file, file_len, state, state_len, done);
}

/* What is pressed goes above what is done. */
uint64_t yolizadwa_press_step(const uint8_t *file, size_t file_len, uint8_t *state, size_t state_len, uint32_t done, uint32_t pressed)
{
    return forward(PRESS_STEP, file, file_len, state, state_len, (uint64_t)pressed << 32 | done);
}

uint64_t yolizadwa_write(const uint32_t *words, size_t count, uint64_t budget, uint8_t *file, size_t file_len)
{
    return forward(WRITE, words, count * sizeof words[0], file, file_len, budget);
}

/* One behind the other, in memory of its own. */
static uint8_t *joined(const uint8_t *one, size_t one_len, const uint8_t *other, size_t other_len)
{
    uint8_t *both = malloc(one_len + other_len + 1);
    if (both == NULL) {
        fail("no memory");
    }
    memcpy(both, one, one_len);
    memcpy(both + one_len, other, other_len);
    return both;
}

/* The bridge reads one row of bytes, so the piece goes behind the table's file. */
uint64_t yolizadwa_log_feed(const uint8_t *file, size_t file_len, uint8_t *state, size_t state_len, const uint8_t *piece,
                            size_t piece_len)
{
    uint8_t *both = joined(file, file_len, piece, piece_len);
    uint64_t result = forward(LOG_FEED, both, file_len + piece_len, state, state_len, file_len);
    free(both);
    return result;
}

/* The bridge hands every buffer back, so the file that is only read goes there as a copy. */
uint64_t yolizadwa_eased(const uint8_t *before, size_t before_len, const uint8_t *after, size_t after_len)
{
    uint8_t *copy = joined(after, after_len, &nothing, 0);
    uint64_t result = forward(EASED, before, before_len, copy, after_len, 0);
    free(copy);
    return result;
}
