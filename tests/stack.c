/*
 * Every call of the host tests, made through the header's prototypes, and how deep a call writes into the stack.
 * For x86-64, as the library itself.
 */
#include "stack.h"

#include <stdlib.h>
#include <string.h>

#include "yolizadwa.h"

_Static_assert(YOLIZADWA_LONGEST_FILE == 554 && YOLIZADWA_LONGEST_TEXT == 956 && YOLIZADWA_ROW_WORDS == 5, "as the tests have it");
_Static_assert(YOLIZADWA_KIND_BUTTON == 4 && YOLIZADWA_HAS_BUTTON == 11 && YOLIZADWA_NO_SUCH_TASK == 12, "as the tests have it");
_Static_assert(YOLIZADWA_FILE_CUT_SHORT == 20 && YOLIZADWA_ZERO_BUDGET == 27, "as the tests have it");
_Static_assert(YOLIZADWA_TEXT_UNKNOWN_WORD == 60 && YOLIZADWA_TEXT_TOO_MANY_TASKS == 66, "as the tests have it");
_Static_assert(YOLIZADWA_QUICK_NONE == 0 && YOLIZADWA_QUICK_PASS == 1, "as the tests have it");
_Static_assert(YOLIZADWA_DISTANCE_NONE == 0 && YOLIZADWA_DISTANCE_PASS == 1 && YOLIZADWA_DISTANCE_OVERLOAD == 2, "as the tests have it");
_Static_assert(YOLIZADWA_LARGEST_OVERLOAD == 60001 && YOLIZADWA_LARGEST_UNDECIDED == 60002 && YOLIZADWA_LARGEST_LATE == 60003, "as the tests have it");
_Static_assert(YOLIZADWA_OVERLOAD == 1 && YOLIZADWA_UNDECIDED == 2 && YOLIZADWA_LATE == 3 && YOLIZADWA_PASSES == 4, "as the tests have it");
_Static_assert(sizeof(struct yolizadwa_numbers) == YOLIZADWA_ANSWER_BYTES && offsetof(struct yolizadwa_numbers, idle) == 32 && offsetof(struct yolizadwa_numbers, demand) == 56, "as the library lays an answer out");
_Static_assert(offsetof(struct yolizadwa_numbers, tasks) == 64 && offsetof(struct yolizadwa_numbers, verdict) == 72 && offsetof(struct yolizadwa_numbers, worst) == 80, "as the library lays an answer out");
_Static_assert(sizeof(struct yolizadwa_state) == YOLIZADWA_STATE_BYTES && offsetof(struct yolizadwa_state, given) == 272, "as the library lays a state out");
_Static_assert(sizeof(struct yolizadwa_log) == YOLIZADWA_LOG_BYTES, "as the library lays a log out");
_Static_assert(offsetof(struct yolizadwa_log, opened) == YOLIZADWA_STATE_BYTES && offsetof(struct yolizadwa_log, slots) == 552, "as the library lays a log out");

enum { STACK_BYTES = 1 << 18, MOST_WORDS = 400000 };

static _Alignas(16) uint8_t room[STACK_BYTES];
static uint32_t words[MOST_WORDS];

static struct {
    uint32_t call;
    const uint8_t *file;
    size_t file_len;
    uint8_t *buffer;
    size_t buffer_len;
    uint64_t number;
} wanted;

/* From a copy, since words are aligned and the bytes of a request are not. */
static uint64_t write_words(const uint8_t *bytes, size_t len, uint64_t budget, uint8_t *file, size_t file_len)
{
    uint64_t result;
    if (len > sizeof words || len % sizeof words[0] != 0) {
        abort();
    }
    memcpy(words, bytes, len);
    result = yolizadwa_write(words, len / sizeof words[0], budget, file, file_len);
    return memcmp(words, bytes, len) == 0 ? result : UINT64_MAX;
}

/* How a request becomes a call of each shape. */
#define READS(function) function(file, file_len)
#define LISTENS(function) function(file, (size_t)number)
#define ASKS(function) function(file, file_len, (uint32_t)number)
#define FILLS(function) function(file, file_len, buffer, buffer_len)
#define COMPARES(function) function(file, file_len, buffer, buffer_len)
#define STEPS(function) function(file, file_len, buffer, buffer_len, (uint32_t)number)
#define PRESSES(function) function(file, file_len, buffer, buffer_len, (uint32_t)number, (uint32_t)(number >> 32))
#define FEEDS(function) function(file, (size_t)number, buffer, buffer_len, file + number, file_len - (size_t)number)
#define WRITES(function) write_words(file, file_len, number, buffer, buffer_len)

#define MAKE(shape, name, function) \
    case name: return shape(function);

uint64_t plain_call(uint32_t call, const uint8_t *file, size_t file_len, uint8_t *buffer, size_t buffer_len,
                    uint64_t number)
{
    switch (call) {
        CALLS(MAKE)
    default: abort();
    }
}

static void make_wanted_call(void)
{
    plain_call(wanted.call, wanted.file, wanted.file_len, wanted.buffer, wanted.buffer_len, wanted.number);
}

static void on_own_stack(void (*run)(void))
{
    __asm__ volatile("movq %%rsp, %%rbx\n\t"
                     "movq %[top], %%rsp\n\t"
                     "call *%[run]\n\t"
                     "movq %%rbx, %%rsp"
                     :
                     : [top] "r"(room + STACK_BYTES), [run] "r"(run)
                     : "rax", "rbx", "rcx", "rdx", "rsi", "rdi", "r8", "r9", "r10", "r11", "xmm0", "xmm1", "xmm2", "xmm3",
                       "xmm4", "xmm5", "xmm6", "xmm7", "xmm8", "xmm9", "xmm10", "xmm11", "xmm12", "xmm13", "xmm14",
                       "xmm15", "cc", "memory");
}

static uint64_t depth_over(int paint)
{
    size_t untouched = 0;
    memset(room, paint, STACK_BYTES);
    on_own_stack(make_wanted_call);
    while (untouched < STACK_BYTES && room[untouched] == paint) {
        untouched++;
    }
    return STACK_BYTES - untouched;
}

static uint8_t *copy_of(const uint8_t *bytes, size_t len)
{
    uint8_t *copy = malloc(len + 1);
    if (copy == NULL) {
        abort();
    }
    memcpy(copy, bytes, len);
    return copy;
}

/*
 * Over two paints, since a byte may be written that equals one of them. The buffer is put back between them, so that both
 * measure the same call: a step would otherwise begin the second time from the state that the first has left.
 */
uint64_t stack_depth(uint32_t call, const uint8_t *file, size_t file_len, uint8_t *buffer, size_t buffer_len,
                     uint64_t number)
{
    uint64_t one, other;
    uint8_t *before = copy_of(buffer, buffer_len);
    wanted.call = call;
    wanted.file = file;
    wanted.file_len = file_len;
    wanted.buffer = buffer;
    wanted.buffer_len = buffer_len;
    wanted.number = number;
    one = depth_over(0xA5);
    memcpy(buffer, before, buffer_len);
    other = depth_over(0x5A);
    free(before);
    return one > other ? one : other;
}
