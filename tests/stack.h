/* One call of the library, plain or on a painted stack. */
#ifndef STACK_H
#define STACK_H

#include <stddef.h>
#include <stdint.h>

#include "calls.h"

/*
 * What is read, what is written or read too, and a number besides: a step's done, the budget to write, a task, where in what is read the
 * table's file ends and the piece of a log begins, or the length that is told of a report, which may be a refusal.
 */
typedef uint64_t call_maker(uint32_t call, const uint8_t *file, size_t file_len, uint8_t *buffer, size_t buffer_len,
                            uint64_t number);

/*
 * Tells the call's result. The file is whatever is read: a file, a text, or to write the bytes of the words; if the call
 * changed those words, tells UINT64_MAX.
 */
call_maker plain_call;

/*
 * Makes the call twice on the same bytes, each time on a stack of its own in another paint, and tells by how many bytes it
 * wrote down into that. The buffer is left as one call leaves it.
 */
call_maker stack_depth;

#endif
