// The exported calls on any bytes, under AddressSanitizer and libFuzzer. Built and run by fuzz/run.
// Every buffer is a heap block of exactly its size. A property that fails ends the run.
#include <stddef.h>
#include <stdint.h>
#include <stdio.h>
#include <stdlib.h>
#include <string.h>

#include "yolizadwa.h"

enum { REPORT = YOLIZADWA_REPORT_BYTES, ANSWER = YOLIZADWA_ANSWER_BYTES, STATE = YOLIZADWA_STATE_BYTES, LOG = YOLIZADWA_LOG_BYTES, REFUSED = 65536, NONE = YOLIZADWA_TASKS };

// Where the words behind the waits and the slots left stand in a state.
enum { LAST = 8 * NONE, LATE = LAST + 4, CLOSED = LAST + 8, LOWEST = LAST + 12, COUNTS = LAST + 16 };

#define HOLDS(fact)                                                       \
    do {                                                                  \
        if (!(fact)) {                                                    \
            fprintf(stderr, "line %d does not hold: %s\n", __LINE__, #fact); \
            abort();                                                      \
        }                                                                 \
    } while (0)

static uint8_t *block(size_t bytes, int with) {
    uint8_t *b = malloc(bytes ? bytes : 1);
    HOLDS(b);
    memset(b, with, bytes);
    return b;
}

static int all(const uint8_t *b, size_t from, size_t to, int with) {
    for (size_t i = from; i < to; i++)
        if (b[i] != with) return 0;
    return 1;
}

static uint32_t word(const uint8_t *b, size_t at) {
    return b[at] | (uint32_t)b[at + 1] << 8 | (uint32_t)b[at + 2] << 16 | (uint32_t)b[at + 3] << 24;
}

// The slots of task i, or of none.
static uint64_t count(const uint8_t *state, size_t i) {
    return word(state, COUNTS + 8 * i) | (uint64_t)word(state, COUNTS + 8 * i + 4) << 32;
}

static void put_word(uint8_t *b, size_t at, uint32_t w) {
    for (int i = 0; i < 4; i++) b[at + i] = w >> 8 * i;
}

// Whether a line of so few bytes says so, looked for here.
static int says_passes(const uint8_t *b, size_t len) {
    static const char line[] = "verdict passes";
    const size_t line_len = sizeof line - 1;
    for (size_t at = 0; at + line_len <= len && len <= REPORT; at++) {
        int begins = at == 0 || b[at - 1] == '\n', ends = at + line_len == len || b[at + line_len] == '\n';
        if (begins && ends && memcmp(b + at, line, line_len) == 0) return 1;
    }
    return 0;
}

// A report buffer of this size, filled with this byte: the result, and the report in `out`.
static uint64_t check(const uint8_t *file, size_t len, size_t bytes, int with, uint8_t *out) {
    uint8_t *report = block(bytes, with);
    uint64_t r = yolizadwa_check(file, len, report, bytes);
    if (bytes < REPORT) HOLDS(r == (uint64_t)YOLIZADWA_SHORT_REPORT * REFUSED + bytes);
    if (r < REFUSED) {
        HOLDS(r <= REPORT && r > 0);
        HOLDS(all(report, r, bytes, with));
        HOLDS(report[r - 1] == '\n');
        HOLDS(yolizadwa_passes(report, r) == (uint64_t)says_passes(report, r));
        if (out) memcpy(out, report, r);
    } else {
        HOLDS(all(report, 0, bytes, with));
        HOLDS(r >> 16 <= YOLIZADWA_SHORT_REPORT && r >> 16 != YOLIZADWA_TOO_MANY_TASKS);
        HOLDS(yolizadwa_passes(report, r) == 0);
    }
    free(report);
    return r;
}

// A step on a copy of the state, twice: the result, and the next state in place.
static uint64_t step(const uint8_t *file, size_t len, uint8_t *state, uint32_t done) {
    uint8_t *before = block(STATE, 0), *again = block(STATE, 0);
    memcpy(before, state, STATE);
    memcpy(again, state, STATE);
    uint64_t r = yolizadwa_step(file, len, state, STATE, done);
    HOLDS(yolizadwa_step(file, len, again, STATE, done) == r);
    HOLDS(memcmp(state, again, STATE) == 0);
    if (r < REFUSED) {
        uint32_t late = word(state, LATE), closed = word(state, CLOSED), lowest = word(state, LOWEST);
        HOLDS(r <= NONE && word(state, LAST) == r);
        HOLDS((uint64_t)late >> NONE == 0 && closed == (uint32_t)__builtin_popcount(late));
        HOLDS(lowest == (late ? (uint32_t)__builtin_ctz(late) : NONE));
        for (size_t i = 0; i <= NONE; i++) HOLDS(count(state, i) == count(before, i) + (i == r));
    } else {
        HOLDS(memcmp(state, before, STATE) == 0);
    }
    free(before);
    free(again);
    return r;
}

// Any bytes as a report, and a report with bytes of theirs put in.
static void try_report(const char *text, const uint8_t *more, size_t more_len) {
    size_t len = strlen(text), at = more_len ? more[0] % (len + 1) : 0, some = more_len > 1 ? more[1] % 4 : 0;
    if (some > more_len) some = more_len;
    uint8_t *any = block(more_len, 0), *changed = block(len + some, 0);
    memcpy(any, more, more_len);
    memcpy(changed, text, at);
    memcpy(changed + at, more + more_len - some, some);
    memcpy(changed + at + some, text + at, len - at);
    HOLDS(yolizadwa_passes(any, more_len) == (uint64_t)says_passes(any, more_len));
    HOLDS(yolizadwa_passes(changed, len + some) == (uint64_t)says_passes(changed, len + some));
    HOLDS(yolizadwa_passes(changed, at) == (uint64_t)says_passes(changed, at));
    free(changed);
    free(any);
}

static int passes(const uint8_t *file, size_t len, size_t cost_at, uint32_t cost) {
    uint8_t *changed = block(len, 0), text[REPORT + 1] = {0};
    memcpy(changed, file, len);
    put_word(changed, cost_at, cost);
    uint64_t r = check(changed, len, REPORT, 0xa5, text);
    free(changed);
    return yolizadwa_passes(text, r) == 1;
}

// Of a table that passes a cost that does too, and no larger one that is tried; of any other what its report says.
static void try_largest(const uint8_t *file, size_t len, uint64_t checked, const char *text, uint32_t task, uint32_t some) {
    uint64_t r = yolizadwa_largest(file, len, task);
    if (checked >= REFUSED) HOLDS(r == checked);
    else if (task >= (len - 10) / 17) HOLDS(r == (uint64_t)YOLIZADWA_NO_SUCH_TASK * REFUSED + (task < 65535 ? task : 65535));
    else if (strstr(text, "verdict overload\n")) HOLDS(r == YOLIZADWA_LARGEST_OVERLOAD);
    else if (strstr(text, "verdict late\n")) HOLDS(r == YOLIZADWA_LARGEST_LATE);
    else if (strstr(text, "verdict undecided\n")) HOLDS(r == YOLIZADWA_LARGEST_UNDECIDED);
    else {
        size_t at = 9 + 17 * (size_t)task + 5;
        uint32_t deadline = word(file, at + 4);
        HOLDS(r >= word(file, at) && r <= deadline && passes(file, len, at, r));
        if (r < deadline) HOLDS(!passes(file, len, at, r + 1) && !passes(file, len, at, r + 1 + some % (deadline - r)));
    }
}

// The bytes of the record at a place if it is a whole task or button, else 0.
static size_t record(const uint8_t *file, size_t len, size_t at) {
    size_t bytes = at >= len ? 0 : file[at] == 2 ? 17 : file[at] == 4 ? 13 : 0;
    return at + bytes <= len ? bytes : 0;
}

// No budget bounds the quick test and the distance test, so a round that is neither short nor refused is passed over.
static int affordable(const uint8_t *file, size_t len) {
    uint64_t round = 1, short_enough = 1 << 18, longest = 1000000000000;
    for (size_t at = 9, bytes; (bytes = record(file, len, at)) != 0 && round <= longest; at += bytes) {
        uint64_t a = round, b = word(file, at + bytes - 4), period = b;
        if (period == 0 || period > 60000) return 1;
        while (b) {
            uint64_t rest = a % b;
            a = b;
            b = rest;
        }
        round = round / a * period;
    }
    return round <= short_enough || round > longest;
}

// A table with buttons, which a check refuses at the first: each made a task from some offset on is one way that they may come.
static void try_buttons(const uint8_t *file, size_t len, uint64_t checked, uint64_t d, const uint8_t *more, size_t more_len) {
    uint8_t *tasks = block(len + 4 * NONE, 0), text[REPORT + 1] = {0};
    size_t to = 9, at = 9, number = 0, first = NONE;
    memcpy(tasks, file, 9);
    for (size_t bytes; (bytes = record(file, len, at)) != 0; at += bytes, to += 17, number++) {
        int button = file[at] == 4;
        if (button && first == NONE) first = number;
        tasks[to] = 2;
        if (button) put_word(tasks, to + 1, more_len ? more[number % more_len] : 0);
        memcpy(tasks + to + (button ? 5 : 1), file + at + 1, bytes - 1);
    }
    tasks[to] = 3;
    HOLDS(checked == (uint64_t)YOLIZADWA_HAS_BUTTON * REFUSED + first && d <= YOLIZADWA_DISTANCE_OVERLOAD);
    HOLDS(check(tasks, to + 1, REPORT, 0xa5, text) < REFUSED);
    HOLDS((d == YOLIZADWA_DISTANCE_OVERLOAD) == (strstr((char *)text, "verdict overload\n") != 0));
    if (d == YOLIZADWA_DISTANCE_PASS) HOLDS(!strstr((char *)text, "verdict late\n"));
    free(tasks);
}

// A log's calls: whole, cut once, and on any bytes as a state. All cuts say the same, and a refusal changes no byte.
static void try_log(const uint8_t *file, size_t len, uint64_t checked, const uint8_t *more, size_t more_len) {
    uint8_t *log = block(LOG, 0xee), *cut = block(LOG, 0), *piece = block(more_len, 0);
    size_t first = more_len ? more[0] % (more_len + 1) : 0;
    uint64_t r = yolizadwa_log_start(file, len, log, LOG), told;
    // mostly kinds, so that records come up
    for (size_t i = 0; i < more_len; i++) piece[i] = more[i] & 64 ? more[i] : 16 + (more[i] & 3);
    HOLDS(r == (checked < REFUSED ? 0 : checked));
    if (r != 0) {
        HOLDS(all(log, 0, LOG, 0xee));
        HOLDS(yolizadwa_log_feed(file, len, log, LOG, piece, more_len) == r && yolizadwa_log_finish(file, len, log, LOG) == r);
        HOLDS(all(log, 0, LOG, 0xee));
    } else {
        memcpy(cut, log, LOG);
        told = yolizadwa_log_feed(file, len, log, LOG, piece, more_len);
        yolizadwa_log_feed(file, len, cut, LOG, piece, first);
        HOLDS(yolizadwa_log_feed(file, len, cut, LOG, piece + first, more_len - first) == told);
        HOLDS(memcmp(log, cut, LOG) == 0 && (told == 0 || yolizadwa_log_answered(told)));
        r = yolizadwa_log_finish(file, len, log, LOG);
        HOLDS(yolizadwa_log_answered(r) && yolizadwa_log_finish(file, len, log, LOG) == r && (told == 0 || told == r));
    }
    memcpy(log, more, more_len < LOG ? more_len : LOG);
    memcpy(cut, log, LOG);
    r = yolizadwa_log_feed(file, len, log, LOG, piece, more_len);
    if (r != 0 && !yolizadwa_log_answered(r)) HOLDS(memcmp(log, cut, LOG) == 0);
    free(piece);
    free(cut);
    free(log);
}

// A buffer of this size, filled with this byte: the check's refusal, or the lines of its report once more.
static void try_answer(const uint8_t *file, size_t len, size_t bytes, int with, uint64_t checked, const char *report) {
    static const char *const verdicts[] = {"", "overload", "undecided", "late", "passes"};
    struct yolizadwa_numbers n;
    char lines[200];
    uint8_t *answer = block(bytes, with);
    uint64_t r = yolizadwa_answer(file, len, answer, bytes);
    if (bytes < ANSWER) HOLDS(r == (uint64_t)YOLIZADWA_SHORT_REPORT * REFUSED + bytes);
    else HOLDS(r == (checked < REFUSED ? 0 : checked));
    HOLDS(all(answer, r == 0 ? ANSWER : 0, bytes, with));
    if (r == 0) {
        memcpy(&n, answer, sizeof n);
        HOLDS(n.verdict >= YOLIZADWA_OVERLOAD && n.verdict <= YOLIZADWA_PASSES && n.quick <= YOLIZADWA_QUICK_PASS && n.spare == 0);
        snprintf(lines, sizeof lines, "tasks %u\nload %llu/%llu\nquick %s\nhorizon %llu\nverdict %s\nsettled %llu\n", n.tasks,
                 (unsigned long long)n.load, (unsigned long long)n.round, n.quick ? "pass" : "none", (unsigned long long)n.horizon,
                 verdicts[n.verdict], (unsigned long long)n.settled);
        HOLDS(strncmp(report, lines, strlen(lines)) == 0);
    }
    free(answer);
}

// A step with presses on a state; without buttons it is yolizadwa_step, with every press told.
static uint64_t press(const uint8_t *file, size_t len, int periodic, uint8_t *state, uint32_t done, uint32_t pressed) {
    uint8_t *before = block(STATE, 0), *plain = block(STATE, 0);
    memcpy(before, state, STATE);
    memcpy(plain, state, STATE);
    uint64_t r = yolizadwa_press_step(file, len, state, STATE, done, pressed);
    if (yolizadwa_refused(yolizadwa_owner(r))) {
        HOLDS(yolizadwa_untaken(r) == 0 && memcmp(state, before, STATE) == 0);
    } else {
        HOLDS(yolizadwa_owner(r) <= NONE && word(state, LAST) == yolizadwa_owner(r));
        HOLDS((yolizadwa_untaken(r) & ~pressed) == 0);
    }
    if (periodic) {
        uint64_t s = yolizadwa_step(file, len, plain, STATE, done);
        HOLDS(r == (s < REFUSED ? (uint64_t)pressed << 32 | s : s) && memcmp(state, plain, STATE) == 0);
    }
    free(before);
    free(plain);
    return r;
}

// The room is refused as the distance test is, or for its task, and is a number exactly where that passes.
static void try_room(const uint8_t *file, size_t len, uint64_t d, uint32_t task) {
    uint64_t r = yolizadwa_room(file, len, task);
    if (d >= REFUSED) HOLDS(r == d);
    else if (r >= REFUSED) HOLDS(r == (uint64_t)YOLIZADWA_NO_SUCH_TASK * REFUSED + (task < 65535 ? task : 65535));
    else if (d == YOLIZADWA_DISTANCE_PASS) HOLDS(r > 0 && r <= 60000);
    else HOLDS(r == (d == YOLIZADWA_DISTANCE_OVERLOAD ? YOLIZADWA_ROOM_OVERLOAD : YOLIZADWA_ROOM_NONE));
}

// The calls that take presses: refused as the distance test is; where that passes no step is late, whatever is pressed.
static void try_presses(const uint8_t *file, size_t len, int periodic, uint64_t d, const uint8_t *more, size_t more_len) {
    uint8_t *state = block(STATE, 0xee);
    uint64_t r = yolizadwa_press_start(file, len, state, STATE);
    HOLDS(r == (d < REFUSED ? 0 : d));
    if (r != 0) HOLDS(all(state, 0, STATE, 0xee));
    for (size_t i = 0; r == 0 && i < 100; i++) {
        uint32_t some = more_len ? more[i % more_len] : 0;
        HOLDS(yolizadwa_owner(press(file, len, periodic, state, some & 1, some * 0x01010101)) <= NONE);
        if (d == YOLIZADWA_DISTANCE_PASS) HOLDS(word(state, LATE) == 0);
    }
    memcpy(state, more, more_len < STATE ? more_len : STATE);
    press(file, len, periodic, state, more_len & 1, UINT32_MAX);
    free(state);
}

static void try_file(const uint8_t *bytes, size_t len, const uint8_t *more, size_t more_len) {
    if (!affordable(bytes, len)) return;
    uint8_t *file = block(len, 0);
    memcpy(file, bytes, len);
    // a budget below 2^16, so that a run is short
    if (len >= 9 && file[0] == 1) {
        int some = file[3] | file[4] | file[5] | file[6] | file[7] | file[8];
        memset(file + 3, 0, 6);
        if (some && !(file[1] | file[2])) file[1] = 1;
    }
    uint8_t *kept = block(len, 0);
    memcpy(kept, file, len);

    uint8_t text[REPORT + 1] = {0}, second[REPORT] = {0};
    uint64_t r = check(file, len, REPORT, 0xa5, text);
    HOLDS(check(file, len, REPORT, 0x3c, second) == r);
    HOLDS(memcmp(text, second, REPORT) == 0);
    HOLDS(check(file, len, REPORT + 88, 0x77, second) == r);
    HOLDS(memcmp(text, second, REPORT) == 0);
    // the plain engine says the same
    memset(second, 0xa5, REPORT);
    HOLDS(yolizadwa_check_plainly(file, len, second, REPORT) == r);
    HOLDS(r >= REFUSED || memcmp(text, second, r) == 0);
    check(file, len, REPORT - 1, 0xa5, 0);
    check(file, len, more_len ? more[0] : 0, 0xa5, 0);

    try_report((char *)text, more, more_len);
    try_answer(file, len, ANSWER, 0xa5, r, (char *)text);
    try_answer(file, len, ANSWER + 9, 0x3c, r, (char *)text);
    try_answer(file, len, more_len ? more[0] % ANSWER : 0, 0xa5, r, (char *)text);

    // the quick test refuses alike, and says what the report says
    uint64_t q = yolizadwa_quick(file, len);
    if (r >= REFUSED) HOLDS(q == r);
    else {
        HOLDS(q <= YOLIZADWA_QUICK_PASS);
        HOLDS((q == YOLIZADWA_QUICK_PASS) == (strstr((char *)text, "\nquick pass\n") != 0));
        HOLDS((q == YOLIZADWA_QUICK_NONE) == (strstr((char *)text, "\nquick none\n") != 0));
    }

    // so does the distance test, but for buttons, which passes what the quick test passes, and nothing that is late or overloaded
    uint64_t d = yolizadwa_distance(file, len);
    if (r >> 16 == YOLIZADWA_HAS_BUTTON) try_buttons(file, len, r, d, more, more_len);
    else if (r >= REFUSED) HOLDS(d == r);
    else {
        HOLDS(d <= YOLIZADWA_DISTANCE_OVERLOAD);
        HOLDS(q != YOLIZADWA_QUICK_PASS || d == YOLIZADWA_DISTANCE_PASS);
        HOLDS((d == YOLIZADWA_DISTANCE_OVERLOAD) == (strstr((char *)text, "verdict overload\n") != 0));
        if (d == YOLIZADWA_DISTANCE_PASS) HOLDS(!strstr((char *)text, "verdict late\n"));
    }

    // a table is an easing of itself, with every task kept; of any bytes as the other file no number means two things
    uint64_t self = yolizadwa_eased(file, len, file, len);
    if (r >= REFUSED) HOLDS(self == 4 * r + YOLIZADWA_OLD_REFUSED);
    else HOLDS(self == 4 * ((UINT64_C(1) << (len - 10) / 17) - 1) + YOLIZADWA_EASED);
    uint8_t *other = block(more_len, 0);
    memcpy(other, more, more_len);
    uint64_t to = yolizadwa_eased(file, len, other, more_len), from = yolizadwa_eased(other, more_len, file, len);
    HOLDS((yolizadwa_eased_case(to) == YOLIZADWA_OLD_REFUSED) == (r >= REFUSED));
    if (yolizadwa_eased_case(to) == YOLIZADWA_NEW_REFUSED) HOLDS(from == to - YOLIZADWA_NEW_REFUSED + YOLIZADWA_OLD_REFUSED);
    HOLDS(memcmp(other, more, more_len) == 0);
    free(other);

    // a task of the table or one behind it, and one that no table has
    try_largest(file, len, r, (char *)text, more_len ? more[0] % (len / 17 + 1) : 0, more_len > 1 ? more[1] : 0);
    try_largest(file, len, r, (char *)text, more_len > 3 ? NONE + word(more, 0) % 100000 : UINT32_MAX, 0);

    try_presses(file, len, r < REFUSED, d, more, more_len);
    try_room(file, len, d, more_len ? more[0] % 8 : 0);
    try_log(file, len, r, more, more_len);

    size_t strange = more_len ? more[0] : STATE - 1;
    uint8_t *odd = block(strange, 0x5a);
    if (strange != STATE) {
        HOLDS(yolizadwa_start(file, len, odd, strange) == (uint64_t)YOLIZADWA_STATE_LENGTH * REFUSED + strange);
        HOLDS(yolizadwa_step(file, len, odd, strange, 1) == (uint64_t)YOLIZADWA_STATE_LENGTH * REFUSED + strange);
        HOLDS(all(odd, 0, strange, 0x5a));
    }
    free(odd);

    // any bytes as a state, and then with no slot counted
    uint8_t *state = block(STATE, 0);
    memcpy(state, more, more_len < STATE ? more_len : STATE);
    step(file, len, state, more_len & 1);
    memset(state + COUNTS, 0, STATE - COUNTS);
    HOLDS(step(file, len, state, more_len & 1) >> 16 != YOLIZADWA_FULL_STATE);

    // the start, and steps from it; where the report says passes none is late, whichever steps have a done report
    memset(state, 0xee, STATE);
    uint64_t s = yolizadwa_start(file, len, state, STATE);
    HOLDS((s == 0) == (r < REFUSED));
    if (s != 0) {
        HOLDS(s == r);
        HOLDS(all(state, 0, STATE, 0xee));
    } else {
        int passes = yolizadwa_passes(text, r) == 1;
        size_t tasks = (len - 10) / 17;
        uint64_t slots = 0;
        for (int i = 0; i < 200; i++) {
            uint32_t done = more_len ? more[i % more_len] & 1 : 0;
            uint64_t owner = step(file, len, state, done);
            HOLDS(owner == NONE || owner < tasks);
            if (passes) HOLDS(word(state, LATE) == 0);
        }
        for (size_t i = 0; i <= NONE; i++) slots += count(state, i);
        HOLDS(slots == 200);
    }
    HOLDS(memcmp(file, kept, len) == 0);
    free(state);
    free(kept);
    free(file);
}

int LLVMFuzzerTestOneInput(const uint8_t *data, size_t size) {
    if (size < 2) return 0;
    uint8_t form = data[0], cut = data[1];
    data += 2;
    size -= 2;
    if (form & 1) {
        // the bytes as they are: the first as the file, the rest for what else is asked
        size_t len = size * (cut + 1) / 256;
        try_file(data, len, data + len, size - len);
        return 0;
    }
    // the bytes as the numbers of a table that is mostly well-formed
    uint8_t file[YOLIZADWA_LONGEST_FILE];
    size_t at = 0, used = 0, tasks = 1 + (form >> 1) % NONE;
    uint32_t longest = 1u << (cut % 12);
    file[at++] = 1;
    for (int i = 0; i < 8; i++) file[at++] = i < 2 ? (used < size ? data[used++] : 0xff) : 0;
    for (size_t i = 0; i < tasks; i++) {
        uint32_t n[4] = {0};
        for (int k = 0; k < 4; k++)
            for (int b = 0; b < 2; b++) n[k] = n[k] << 8 | (used < size ? data[used++] : 1);
        uint32_t period = 1 + n[0] % longest, deadline = period - (n[1] & 7 ? n[1] % period / 4 : 0), cost = 1 + n[2] % deadline;
        if (tasks > 1 && cost > 1 + period / tasks) cost = 1 + period / tasks;
        int button = cut & 64 && n[3] % 3 == 0;
        file[at++] = button ? 4 : 2;
        if (!button) put_word(file, at, n[3] % 300);
        at += button ? 0 : 4;
        put_word(file, at, cost);
        put_word(file, at + 4, deadline);
        put_word(file, at + 8, period);
        at += 12;
    }
    file[at++] = 3;
    try_file(file, at, data + used, size - used);
    return 0;
}
