/*
 * Makes the calls for a host test that runs on another processor than x86-64.
 *
 * A batch on standard input is its length and then requests; a request is a head, the file and the buffer. For each of them
 * come back eight bytes of result or depth, one byte that is 1 if nothing but the buffer has changed, and the buffer. All
 * little-endian.
 */
#include <stdio.h>
#include <stdlib.h>
#include <string.h>

#include "bridge.h"
#include "stack.h"

/* An odd guard, so that file and buffer lie at no even address. */
enum { GUARD = 61, GUARD_BYTE = 0xC3 };

struct guarded {
    uint8_t *room;
    uint8_t *bytes;
    size_t len;
};

static void *memory(size_t len)
{
    void *got = malloc(len);
    if (got == NULL) {
        fprintf(stderr, "bridge: no memory\n");
        exit(2);
    }
    return got;
}

static struct guarded guard(const uint8_t *bytes, size_t len)
{
    struct guarded made;
    made.room = memory(len + 2 * GUARD);
    made.bytes = made.room + GUARD;
    made.len = len;
    memset(made.room, GUARD_BYTE, len + 2 * GUARD);
    memcpy(made.bytes, bytes, len);
    return made;
}

static int guards_hold(const struct guarded *guarded)
{
    for (size_t i = 0; i < GUARD; i++) {
        if (guarded->room[i] != GUARD_BYTE || guarded->bytes[guarded->len + i] != GUARD_BYTE) {
            return 0;
        }
    }
    return 1;
}

static void answer(const struct head *head, const uint8_t *file_bytes, const uint8_t *buffer_bytes)
{
    struct guarded file = guard(file_bytes, head->file_len);
    struct guarded buffer = guard(buffer_bytes, head->buffer_len);
    call_maker *make = head->measure ? stack_depth : plain_call;
    uint64_t result = make(head->call, file.bytes, file.len, buffer.bytes, buffer.len, head->number);
    uint8_t intact = guards_hold(&file) && guards_hold(&buffer) && memcmp(file.bytes, file_bytes, file.len) == 0;
    fwrite(&result, 1, sizeof result, stdout);
    fwrite(&intact, 1, 1, stdout);
    fwrite(buffer.bytes, 1, buffer.len, stdout);
    free(file.room);
    free(buffer.room);
}

static void answer_batch(const uint8_t *batch, size_t len)
{
    struct head head;
    size_t at = 0;
    while (at < len) {
        memcpy(&head, batch + at, sizeof head);
        at += sizeof head;
        answer(&head, batch + at, batch + at + head.file_len);
        at += (size_t)head.file_len + head.buffer_len;
    }
    fflush(stdout);
}

int main(void)
{
    uint32_t len;
    while (fread(&len, 1, sizeof len, stdin) == sizeof len) {
        uint8_t *batch = memory(len);
        if (fread(batch, 1, len, stdin) != len) {
            return 2;
        }
        answer_batch(batch, len);
        free(batch);
    }
    return 0;
}
