/*
 * The one list of exported calls: shape, name in a request, function. Enum, dispatch and proxy are made from it. calls.rs and
 * bench/calls.rs declare the calls once more, since Rust cannot read it; papers.rs holds calls.rs to it.
 */
#ifndef CALLS_H
#define CALLS_H

#define CALLS(CALL)                                     \
    CALL(FILLS, CHECK, yolizadwa_check)                 \
    CALL(FILLS, START, yolizadwa_start)                 \
    CALL(STEPS, STEP, yolizadwa_step)                   \
    CALL(FILLS, PRESS_START, yolizadwa_press_start)     \
    CALL(PRESSES, PRESS_STEP, yolizadwa_press_step)     \
    CALL(WRITES, WRITE, yolizadwa_write)                \
    CALL(FILLS, FROM_TEXT, yolizadwa_from_text)         \
    CALL(FILLS, TO_TEXT, yolizadwa_to_text)             \
    CALL(READS, QUICK, yolizadwa_quick)                 \
    CALL(READS, DISTANCE, yolizadwa_distance)           \
    CALL(FILLS, CHECK_PLAINLY, yolizadwa_check_plainly) \
    CALL(COMPARES, EASED, yolizadwa_eased)              \
    CALL(ASKS, LARGEST, yolizadwa_largest)              \
    CALL(ASKS, ROOM, yolizadwa_room)                    \
    CALL(FILLS, LOG_START, yolizadwa_log_start)         \
    CALL(FEEDS, LOG_FEED, yolizadwa_log_feed)           \
    CALL(FILLS, LOG_FINISH, yolizadwa_log_finish)       \
    CALL(LISTENS, PASSES, yolizadwa_passes)             \
    CALL(FILLS, ANSWER, yolizadwa_answer)

#define NAME(shape, name, function) name,
enum call { CALLS(NAME) };
#undef NAME

#endif
