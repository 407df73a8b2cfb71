/*
 * Yolizadwa for C (from C99 on) and C++: judge a table of tasks, then give out time slot by slot.
 * The rules are those of docs/SPECIFICATION.md; its section 9 has the calls.
 *
 * The calls, in the static library that `command/library` writes for x86-64:
 *
 *   yolizadwa_write          writes a table file from the numbers of its tasks
 *   yolizadwa_from_text      writes the table file of a table in plain text
 *   yolizadwa_to_text        writes the plain text of a table file
 *   yolizadwa_check          judges a table file and writes its report as text
 *   yolizadwa_check_plainly  does the same slot by slot
 *   yolizadwa_answer         does the same and gives the answer as numbers
 *   yolizadwa_passes         tells whether a report says that the table passes
 *   yolizadwa_quick          judges it in short, with all tasks started at once: pass, or no answer
 *   yolizadwa_distance       judges it in short, with its offsets and with buttons: pass, overload, or no answer
 *   yolizadwa_eased          tells whether a table file is an easing of another one, and so needs no new test
 *   yolizadwa_largest        tells how much the cost of one task may grow before the table no longer passes
 *   yolizadwa_room           tells how much the cost of a task or button may grow before yolizadwa_distance no longer passes
 *   yolizadwa_start          makes the dispatcher's first state for a table file
 *   yolizadwa_step           gives out one slot and makes the next state
 *   yolizadwa_press_start    makes the first state for a table file that may have buttons
 *   yolizadwa_press_step     gives out one slot and takes the presses of buttons
 *   yolizadwa_log_start      begins to judge the log that a camera brings home
 *   yolizadwa_log_feed       judges the next piece of it, cut anywhere
 *   yolizadwa_log_finish     says what is found of the whole log
 *
 * What holds for all of them:
 *   - They keep nothing between calls, allocate nothing, and may run in several threads at once on different buffers.
 *   - Of the C library they need memcpy and memset alone. The host tests hold the stack of each call to 16 KiB.
 *   - A result below 65,536 is an answer. Any other is a refusal: 65,536 x number + place. A refusal changes no byte.
 *     (yolizadwa_eased takes two files, and its results have another form: yolizadwa_refused does not fit them. For a log's calls
 *     yolizadwa_refused takes only a result below 2^32: a result from there on tells what is found. For yolizadwa_press_step it takes
 *     the low word, yolizadwa_owner of the result.)
 *   - No pointer may be NULL, not even with length 0.
 *   - What a call only reads (the const pointer: file, report, text or words) is read where it lies and never written, and must not
 *     overlap what the call writes. Words lie aligned, as a uint32_t does; nothing else needs to.
 *   - Any bytes may be handed over as a file, a state or a report. What is no good file is refused. A state is refused only for
 *     what refusals 8 and 9 list: a state of another table may be taken. No report is refused: see yolizadwa_passes.
 */
#ifndef YOLIZADWA_H
#define YOLIZADWA_H

#include <stddef.h>
#include <stdint.h>

#ifdef __cplusplus
extern "C" {
#endif

#define YOLIZADWA_TASKS 32          /* the most tasks and buttons a table may have; as a task number: none */
#define YOLIZADWA_REPORT_BYTES 1024 /* the least length of a report buffer; no report is longer */
#define YOLIZADWA_ANSWER_BYTES 208  /* the least length of a buffer for an answer as numbers; it takes these bytes */
#define YOLIZADWA_STATE_BYTES 536   /* the only length of a state buffer */
#define YOLIZADWA_LOG_BYTES 568     /* the only length of a log's state buffer */
#define YOLIZADWA_LONGEST_FILE 554  /* bytes of the longest file that is not refused */

/*
 * A table file is a row of records; a record is one byte of kind and a body. Numbers are little-endian.
 *
 *   kind 1, budget   8 bytes: how many slots the test may look at, 1 or more. First in the file, once.
 *   kind 2, task    16 bytes: offset, cost, deadline, period, four bytes each.
 *   kind 4, button  12 bytes: cost, deadline, least spacing, four bytes each. Tasks and buttons stand in any order, 0 to 32 in all,
 *                   and are numbered together from 0.
 *   kind 3, end      0 bytes. Nothing comes after it.
 *
 * A task has a job every period from its offset on. A button has a job whenever it is pressed, if ever, but never two less than its
 * spacing apart: it has no offset. Wherever a period is spoken of, in refusals 3, 4 and 7, in the round and in the load, a button's is
 * its spacing, and as a task it is counted and named by its number.
 *
 * Files and texts with buttons are read and written by yolizadwa_write, yolizadwa_from_text and yolizadwa_to_text, judged by
 * yolizadwa_distance and yolizadwa_room, and run by yolizadwa_press_start and yolizadwa_press_step. Every other call that reads a file needs
 * a table without buttons, and refuses any other with number 11.
 */
enum yolizadwa_kind {
    YOLIZADWA_KIND_BUDGET = 1,
    YOLIZADWA_KIND_TASK = 2,
    YOLIZADWA_KIND_END = 3,
    YOLIZADWA_KIND_BUTTON = 4
};

/*
 * What a refusal's number says, and what its place is. If several hold, the first of this order is told: the length of a
 * report or state buffer (30, 50, of a log too); the first fault of what is read (20 to 27 of a file, 51 then 52 of words, 60 to 66 or
 * 27 of a text); the number of tasks (1, 2); then task by task 3, 4, 5, 6; then 7; then a button where none is taken (11); then the
 * state (8, 9), the task that is asked for (12), or the budget that is written (27) and the length of the buffer for it (31).
 */
enum yolizadwa_refusal {
    YOLIZADWA_NO_TASK = 1,              /* the table has no task; place 0 */
    YOLIZADWA_TOO_MANY_TASKS = 2,       /* more than 32 tasks and buttons; place 32. A file with that many is refused with 25, a text with 66 */
    YOLIZADWA_BAD_PERIOD = 3,           /* a period, or a button's spacing, outside 1 to 60,000; place: the task */
    YOLIZADWA_BAD_DEADLINE = 4,         /* a deadline outside 1 to the period or spacing; place: the task */
    YOLIZADWA_BAD_COST = 5,             /* a cost outside 1 to the deadline; place: the task */
    YOLIZADWA_BAD_OFFSET = 6,           /* an offset above 60,000; place: the task, which is no button */
    YOLIZADWA_LONG_ROUND = 7,           /* the least common multiple of periods and spacings is above 1,000,000,000,000; place 0 */
    YOLIZADWA_STRANGE_STATE = 8,        /* the state does not fit the table; place: the first task that does not, 32: last,
                                           33: it counts 2^64 slots or more, 34: a log's slots are not those that the
                                           state counts, or are more than its bytes, or its bytes are 2^32 or more */
    YOLIZADWA_FULL_STATE = 9,           /* the state counts 2^64 - 1 slots, and no more can be counted; place 0 */
    YOLIZADWA_HAS_BUTTON = 11,          /* the table has a button, and this call takes none; place: the first button */
    YOLIZADWA_NO_SUCH_TASK = 12,        /* the table has no task of this number; place: the number, 65,535 if it is larger */
    YOLIZADWA_FILE_CUT_SHORT = 20,      /* the file ends inside a record; place: where the record begins */
    YOLIZADWA_FILE_UNKNOWN_KIND = 21,   /* a record of no known kind; place: where it begins */
    YOLIZADWA_FILE_NO_BUDGET = 22,      /* the first record is a task, a button or the end, or the file is empty; place 0 */
    YOLIZADWA_FILE_SECOND_BUDGET = 23,  /* a second budget; place: where it begins */
    YOLIZADWA_FILE_AFTER_END = 24,      /* bytes after the end record; place: the first of them */
    YOLIZADWA_FILE_TOO_MANY_TASKS = 25, /* a thirty-third task or button; place: where it begins */
    YOLIZADWA_FILE_NO_END = 26,         /* the file ends after a whole record, without an end record; place: its length */
    YOLIZADWA_ZERO_BUDGET = 27,         /* the budget is 0; place 0, in a text its line */
    YOLIZADWA_SHORT_REPORT = 30,        /* the report buffer has fewer than 1,024 bytes, or the buffer for an answer fewer than 208;
                                           place: its length */
    YOLIZADWA_SHORT_BUFFER = 31,        /* the buffer is shorter than what is to be written; place: its length */
    YOLIZADWA_STATE_LENGTH = 50,        /* the state buffer is not 536 bytes long, or a log's not 568; place: its length, at most 65,535 */
    YOLIZADWA_BROKEN_ROWS = 51,         /* the words of a table are not a whole number of rows; place: how many words, at most 65,535 */
    YOLIZADWA_STRANGE_ROW = 52,         /* a row of a table is neither a task nor a button, or is a button with an offset, which is any
                                           second word but 0; place: the first such row, at most 65,535 */
    /* Of a text; place: the line, counted from 1, at most 65,535. */
    YOLIZADWA_TEXT_UNKNOWN_WORD = 60,   /* a line's first word is none of `budget`, `task` and `button` */
    YOLIZADWA_TEXT_NOT_A_NUMBER = 61,   /* a word that should be a number has a byte that is no digit */
    YOLIZADWA_TEXT_LARGE_NUMBER = 62,   /* a number of a task or button is 2^32 or more, or the budget 2^64 or more */
    YOLIZADWA_TEXT_WRONG_COUNT = 63,    /* a line has too few numbers or too many */
    YOLIZADWA_TEXT_BUDGET_NOT_FIRST = 64, /* a budget behind a task or button, in a text that has none before them */
    YOLIZADWA_TEXT_SECOND_BUDGET = 65,  /* a second budget */
    YOLIZADWA_TEXT_TOO_MANY_TASKS = 66  /* a thirty-third task or button */
};

/*
 * Whether a result is a refusal, and then its number and its place. They are for every call but three kinds: a result of yolizadwa_eased
 * goes through yolizadwa_eased_case and yolizadwa_eased_value first, for a log's call yolizadwa_log_answered is asked first, and of
 * yolizadwa_press_step they take yolizadwa_owner of the result.
 */
static inline int yolizadwa_refused(uint64_t result) { return result >= 65536; }
static inline uint32_t yolizadwa_number(uint64_t result) { return (uint32_t)(result / 65536); }
static inline uint32_t yolizadwa_place(uint64_t result) { return (uint32_t)(result % 65536); }

/*
 * Writes the table file of a table and a budget at the beginning of a buffer. The result is the file's length, at most
 * YOLIZADWA_LONGEST_FILE; the bytes behind it stay as they were. The table is handed over as rows of YOLIZADWA_ROW_WORDS
 * words, one row for each task: YOLIZADWA_KIND_TASK, offset, cost, deadline, period; or for each button: YOLIZADWA_KIND_BUTTON, 0,
 * cost, deadline, spacing. `count` is the number of words.
 *
 *   const uint32_t table[] = {2, 8, 5, 7, 15,
 *                             2, 0, 2, 2, 5};
 *   uint8_t file[YOLIZADWA_LONGEST_FILE];
 *   uint64_t length = yolizadwa_write(table, 10, 1000, file, sizeof file);
 *
 * writes the 44 bytes of a file with budget 1,000. What was written is read as the same budget and tasks, and what was
 * read from a file that is not refused is written as the same bytes.
 *
 * Refusals, in this order: 51; 52; 1 to 7; 27 for a budget of 0; 31.
 */
#define YOLIZADWA_ROW_WORDS 5
uint64_t yolizadwa_write(const uint32_t *words, size_t count, uint64_t budget, uint8_t *file, size_t file_len);

/*
 * A table in plain text: one line for the budget, first and once, or none, then a line for each task and each button. Without a budget it
 * is 2^64 - 1, so that a check looks as far as it must.
 *
 *   # the bench, Tuesday
 *   budget 1000
 *   task 8 5 7 15     # offset, cost, deadline, period
 *   task 0 2 2 5
 *   button 1 9 30     # cost, deadline, least spacing
 *
 * Line feeds part lines: what follows the last one is a line too, even if it is empty. A carriage return at a line's end is ignored.
 * `#` begins a comment up to the line's end. Words are parted by blanks and tabs. A line without a word says nothing. Numbers
 * are decimal. Any bytes of any length may be handed over: (const uint8_t *)text, strlen(text) for a string of C.
 *
 * yolizadwa_from_text writes the table file of a text at the beginning of a buffer; the result is the file's length, at most
 * YOLIZADWA_LONGEST_FILE. Refusals: the text's first fault (60 to 66; in a line from left to right; 27 for a budget of 0 in a
 * line that has no other fault), then 1 and 3 to 7, then 31.
 *
 * yolizadwa_to_text writes the text of a table file, without comments and with one blank between words; the result is the
 * text's length, at most YOLIZADWA_LONGEST_TEXT, with no zero byte at its end. Refusals: 20 to 27; 1 and 3 to 7; 31.
 * The file of that text is the same file, byte for byte.
 *
 * Bytes behind what is written stay as they were.
 */
#define YOLIZADWA_LONGEST_TEXT 956
uint64_t yolizadwa_from_text(const uint8_t *text, size_t text_len, uint8_t *file, size_t file_len);
uint64_t yolizadwa_to_text(const uint8_t *file, size_t file_len, uint8_t *text, size_t text_len);

/*
 * Judges a table file. The result is the length of the report, 1 to 1,024. The report stands at the beginning of the
 * buffer, in lines that each end with one line feed and with no zero byte at its end; the bytes behind it stay as they
 * were.
 *
 *   tasks 2            how many tasks
 *   load 11/15         slots asked for in every round / slots of the round (least common multiple of the periods)
 *   quick none         the quick test's answer, pass or none: see yolizadwa_quick
 *   horizon 38         slots that decide for ever: the largest offset and two rounds
 *   verdict passes     or: overload, late, undecided
 *   settled 38         slots up to which the answer is known
 *   worst 0 7          passes only, one line for each task: no job of task 0 ends later than 7 slots after its release
 *   idle 2             passes only: the first instant after 0 by which every job released before it is finished
 *
 * Late has in place of the last two `interval 8 15 demand 8`: the jobs that are released at 8 or later and due by 15 ask
 * for 8 slots. Undecided: the budget ended before the answer was known; `settled` is the budget.
 *
 * A camera runs a table only if the report has the line `verdict passes`, which yolizadwa_passes tells; only then does
 * what is said of the worst responses hold.
 *
 * The budget bounds the time of a check, with one exception: the quick test takes no notice of it. The quick test takes microseconds for
 * nearly every table, and on the slowest one that was found 45 s: see yolizadwa_quick. All else in a check takes a time that grows with the
 * releases and finishes up to `settled`, which is at most the budget and at most 2,000,000,060,000; for a table that passes, only with those
 * up to about the largest offset and one round. The time of start and step does not depend on the budget.
 *
 * No call can stop a check. Who wants to know how far it is, or to end it halfway, checks the same table with smaller budgets first: with an
 * eighth of the horizon, or of the budget if that is smaller, before that with a sixty-fourth, and so on; and at last with its own. As long
 * as a check says undecided, its budget is what is settled. Any other verdict is the same with every larger budget, and so is the whole
 * report. All the smaller checks together take a seventh of the time of the last one, or two sevenths if the table passes. If the table is
 * late, the last check ends at the late deadline, and the smaller ones may take up to eight sevenths of its time. Each check repeats the
 * quick test.
 *
 * Measured on an x86-64 machine (AMD EPYC; docs/PERFORMANCE.md has all figures): a whole check took 0.3 microseconds with one task of
 * period 1, 10 with 16 tasks and 28 with 32 (periods 9,600 to 60,000), 1.0 second for tables/slow.txt, and 28 to 95 seconds for tables of
 * 32 tasks with a round near its limit. A release or finish took 2 to 15 ns. A step took 0.23 microseconds with 1 task and 0.48 with 32.
 *
 * Refusals: 30; 20 to 27; 1 and 3 to 7; 11.
 */
uint64_t yolizadwa_check(const uint8_t *file, size_t file_len, uint8_t *report, size_t report_len);

/*
 * The same check by the plain engine, which walks slot by slot where yolizadwa_check leaps from one release or finish to the
 * next. For every file and report buffer the two return the same number and leave the same bytes: that is proved, so this call
 * is there for comparison alone. The quick test in it is the same. A slot took 2 ns with 1 task and 42 with 32 on that machine.
 */
uint64_t yolizadwa_check_plainly(const uint8_t *file, size_t file_len, uint8_t *report, size_t report_len);

/*
 * The answer of a check as numbers, so that no host takes the text of a report apart. They take 208 bytes, little-endian, at the buffer's
 * beginning; the bytes behind them stay as they were. On x86-64 this struct is that layout. It needs no alignment:
 *
 *   struct yolizadwa_numbers numbers;
 *   if (yolizadwa_answer(file, file_len, (uint8_t *)&numbers, sizeof numbers) == 0 && numbers.verdict == YOLIZADWA_PASSES) {
 *       run(file, file_len);
 *   }
 *
 * The result is 0. For every file, with buffers that are long enough, both calls tell one answer or refuse alike; this is proved. A number of
 * which the verdict tells nothing is 0. The time is that of yolizadwa_check.
 *
 * Refusals: 30; 20 to 27; 1 and 3 to 7; 11.
 */
enum yolizadwa_verdict {
    YOLIZADWA_OVERLOAD = 1,
    YOLIZADWA_UNDECIDED = 2,
    YOLIZADWA_LATE = 3,
    YOLIZADWA_PASSES = 4
};
struct yolizadwa_numbers {
    uint64_t round;                  /* slots of the round, and */
    uint64_t load;                   /* slots asked for in it: `load 11/15` is load 11 and round 15 */
    uint64_t horizon;                /* as in the report, as are all below */
    uint64_t settled;
    uint64_t idle;                   /* passes only */
    uint64_t from, to, demand;       /* late only: the interval and what it asks for */
    uint32_t tasks;
    uint32_t quick;                  /* an enum yolizadwa_quick_answer */
    uint32_t verdict;                /* an enum yolizadwa_verdict */
    uint32_t spare;                  /* 0 */
    uint32_t worst[YOLIZADWA_TASKS]; /* passes only: the worst response of each task; 0 behind the last task */
};
uint64_t yolizadwa_answer(const uint8_t *file, size_t file_len, uint8_t *answer, size_t answer_len);

/*
 * Whether a report says that the table passes, so that no host searches its text by itself. The result is 1 if the bytes are at
 * most 1,024 and one of their lines is `verdict passes`, and 0 if not. Line feeds part lines: what follows the last one is a line
 * too. The line is these 14 bytes and no other: a blank before them or a carriage return behind them makes it another line.
 *
 * Ask it of a report, with the length that the check returned:
 *
 *   uint8_t report[YOLIZADWA_REPORT_BYTES];
 *   uint64_t length = yolizadwa_check(file, file_len, report, sizeof report);
 *   if (!yolizadwa_refused(length) && yolizadwa_passes(report, length)) {
 *       run(file, file_len);
 *   }
 *
 * A check that is refused leaves in the buffer what it finds there, even the report on another table. A refusal that is handed
 * over for the length all the same is longer than any report: the length is looked at first, and the result is 0 (which is
 * tested, and not proved: no buffer is so long).
 *
 * It never refuses: of any bytes the result is 1 or 0. Who wrote them it cannot tell.
 */
uint64_t yolizadwa_passes(const uint8_t *report, size_t length);

/*
 * The quick test: lets all tasks start at 0, whatever their offsets, and run up to the first instant after 0 by which every job
 * released before it is finished. The result is YOLIZADWA_QUICK_PASS if no deadline is missed by then, and YOLIZADWA_QUICK_NONE for no
 * answer. On overload there is no answer, and late is never said.
 *
 * Pass: a check of the file, with any budget that reaches the horizon, says `verdict passes`. No answer says nothing about
 * that. The budget must stand in the file, 1 or more, and plays no other part.
 *
 * No slot is walked. What the jobs due by an instant ask for is one sum over the tasks. Mostly some ten instants are looked at, and none
 * where every deadline is the period. They may be many, here and in a check whatever its budget, only if the load is 1 to within a
 * millionth, the round is long and some deadlines are shorter than their periods. The slowest table that was found has 14 tasks with
 * periods from 70 to 1,582 and a round of 450,838,288,810 slots, and takes 45 s on an x86-64 machine (AMD EPYC; docs/PERFORMANCE.md). No
 * call can stop it.
 *
 * Refusals: 20 to 27; 1 and 3 to 7; 11.
 */
enum yolizadwa_quick_answer {
    YOLIZADWA_QUICK_NONE = 0,
    YOLIZADWA_QUICK_PASS = 1
};
uint64_t yolizadwa_quick(const uint8_t *file, size_t file_len);

/*
 * The distance test, for tables with a long round and for tables with buttons: lets each task in turn start at 0 and every other at
 * its distance from it, and looks at the slots of each such pattern up to its first instant after 0 by which every job released before
 * it is finished. The distance of task k from task i is the least time from a release of i to one of k at the same instant or later:
 * offset of k - offset of i, reduced upward into 0 to g - 1, with g the greatest common divisor of their periods. In every pattern each
 * button starts at 0 and comes as early as it may again; no button is the one that the others start from. For buttons alone there is
 * one pattern, with all of them at 0.
 *
 * The result is YOLIZADWA_DISTANCE_OVERLOAD; else YOLIZADWA_DISTANCE_PASS, if no pattern misses a deadline, and YOLIZADWA_DISTANCE_NONE
 * for no answer. Late is never said.
 *
 * Pass of a table without buttons means what it means of the quick test, for the offsets in the file, and wherever that one passes, so
 * does this one. Pass of a table with buttons: whenever they are pressed, as long as each keeps its spacing, there is a way to give out
 * the slots with every job in time, and yolizadwa_press_step gives them out so. No answer says nothing, with one exception: of buttons
 * alone it means that there are presses with which no way keeps every deadline.
 *
 * The quick test comes first, and takes its time here too. Where it passes, nothing else is looked at. Where it does not, there is a walk
 * for each task, mostly short, but with a load near 1 of up to a round, up to 32 times 1,000,000,000,000 slots in all. No budget bounds
 * these, and no call can stop them.
 *
 * Refusals: 20 to 27; 1 and 3 to 7; not 11.
 */
enum yolizadwa_distance_answer {
    YOLIZADWA_DISTANCE_NONE = 0,
    YOLIZADWA_DISTANCE_PASS = 1,
    YOLIZADWA_DISTANCE_OVERLOAD = 2
};
uint64_t yolizadwa_distance(const uint8_t *file, size_t file_len);

/*
 * Whether one table is an easing of another: whether it is that one with costs lowered, deadlines made longer, tasks left out, or
 * several of these. Offsets, periods and the order of the tasks stay. `before` is the file of the old table, `after` that of the
 * new one; both are only read, and may overlap.
 *
 * The result is 4 x value + case, told by the two functions below:
 *
 *   YOLIZADWA_EASED        an easing; value: the old table's tasks that are kept, as a set, bit i for task i. The kept ones, in
 *                          their order, are the tasks 0, 1, .. of the new table.
 *   YOLIZADWA_NOT_EASED    no easing; value: the first task of the new table for which the search below finds no old task
 *   YOLIZADWA_OLD_REFUSED  value: the refusal of the old file, as the other calls return it
 *   YOLIZADWA_NEW_REFUSED  value: the refusal of the new file; the old one has none
 *
 * If several sets of kept tasks fit, the first in order is told. The search goes through the new tasks in order. For each it takes the
 * first old task that the new one eases and that stands behind the old task taken before. If there is any set at all, this finds one.
 *
 * An easing of a table that passes passes: a check of the new file, with any budget that reaches its horizon, says `verdict passes`.
 * Whether the old table does is not looked at, and the budgets in the files play no part. With costs alone lowered no worst
 * response grows; a longer deadline may make one grow. A longer period is no easing: (1,1,1,2),(0,1,1,2)
 * passes, and if the second period is 3, a job is late.
 *
 * No slot is looked at: the time does not depend on the tables' rounds. Refusals, of either file: 20 to 27; 1 and 3 to 7; 11.
 */
enum yolizadwa_easing {
    YOLIZADWA_NOT_EASED = 0,
    YOLIZADWA_EASED = 1,
    YOLIZADWA_OLD_REFUSED = 2,
    YOLIZADWA_NEW_REFUSED = 3
};
static inline uint32_t yolizadwa_eased_case(uint64_t result) { return (uint32_t)(result % 4); }
static inline uint64_t yolizadwa_eased_value(uint64_t result) { return result / 4; }
uint64_t yolizadwa_eased(const uint8_t *before, size_t before_len, const uint8_t *after, size_t after_len);

/*
 * How much lens it can take: the largest cost of one task, up to its deadline, at which the table with that one cost changed still
 * passes. Tasks are numbered from 0. For (8,5,7,15),(0,2,2,5) it is 5 for task 0 and 2 for task 1.
 *
 * If the table passes, the result is that cost, 1 to 60,000, and never below the one that it has. A check of the table with that cost,
 * and the same budget, says `verdict passes`, and with no larger one up to the deadline does it. Each cost is raised alone: two
 * largest ones together may not pass.
 *
 * If the table does not pass, the result is what a check of it says, and there is no number:
 *
 *   YOLIZADWA_LARGEST_OVERLOAD   more slots are asked for than there are; said first, whatever the budget
 *   YOLIZADWA_LARGEST_UNDECIDED  the budget ends before the answer is known; a longer one would tell
 *   YOLIZADWA_LARGEST_LATE       a job is late, at a deadline that the budget reaches
 *
 * Neither the round nor the horizon depends on a cost, so a budget that decides the table decides every trial. The cost is found by
 * halving, in at most 17 tests of the table, each about as long as a check. No call can stop it.
 *
 * Refusals: 20 to 27; 1 and 3 to 7; 11; 12 for a task that the table does not have, whether it passes or not.
 */
enum yolizadwa_no_largest {
    YOLIZADWA_LARGEST_OVERLOAD = 60001,
    YOLIZADWA_LARGEST_UNDECIDED = 60002,
    YOLIZADWA_LARGEST_LATE = 60003
};
uint64_t yolizadwa_largest(const uint8_t *file, size_t file_len, uint32_t task);

/*
 * The room of a table, with buttons or without: the largest cost of one task or button, from its own up to its deadline, with which
 * yolizadwa_distance still passes, all else as it is. A cost that is lower passes too. The result is that cost, 1 to 60,000. If the table
 * itself does not pass there is no number: YOLIZADWA_ROOM_OVERLOAD, or YOLIZADWA_ROOM_NONE where the distance test has no answer.
 *
 * The cost is found by halving, in at most 17 distance tests. No budget bounds it.
 *
 * Refusals: 20 to 27; 1 and 3 to 7; 12 for a task that the table does not have, whether it passes or not.
 */
enum yolizadwa_no_room {
    YOLIZADWA_ROOM_OVERLOAD = 60001,
    YOLIZADWA_ROOM_NONE = 60003
};
uint64_t yolizadwa_room(const uint8_t *file, size_t file_len, uint32_t task);

/*
 * The dispatcher's state: 536 bytes, 68 little-endian words of 32 bits and then 33 of 64 bits. On x86-64 this struct is that
 * layout; hand over (uint8_t *)&state and sizeof state. It needs no alignment.
 *
 * given and empty say where the slots went: after n steps from a start, given[i] is how many of them returned i, empty how
 * many returned none, and together they are n.
 */
struct yolizadwa_state {
    uint32_t wait[YOLIZADWA_TASKS];  /* slots until the task's next release */
    uint32_t left[YOLIZADWA_TASKS];  /* slots that its open job may still use; 0: no job is open */
    uint32_t last;                   /* the task that had the last slot; 32: none */
    uint32_t late;                   /* bit i: task i's job was closed late in the last step */
    uint32_t closed;                 /* how many jobs were closed late in the last step */
    uint32_t lowest;                 /* the lowest task among them; 32: none */
    uint64_t given[YOLIZADWA_TASKS]; /* the slots that the task had since the start */
    uint64_t empty;                  /* the slots since the start that no task had */
};

/*
 * Writes the first state of the table: waits are the offsets, no job is open, no task ran, no slot is counted. Any table that
 * is not refused may be started, also one that does not pass: its jobs may be closed late. The budget must stand in the file,
 * 1 or more, and plays no other part.
 *
 * The result is 0. Refusals: 50; 20 to 27; 1 and 3 to 7; 11.
 */
uint64_t yolizadwa_start(const uint8_t *file, size_t file_len, uint8_t *state, size_t state_len);

/*
 * Gives out one slot: takes the state and writes the next one in its place. The result is the task that has this slot, 0
 * to 31, or 32 for none. In this order:
 *
 *   1. If `done` is not 0, the open job of the task that ran last is finished; if there is none, `done` means nothing.
 *   2. An open job at its deadline is closed as late: see late, closed and lowest of the new state.
 *   3. A task whose wait is 0 has a job released.
 *   4. The open job with the earliest deadline has the slot; of equal ones that of the task with the shortest period, and of
 *      these that of the lowest task.
 *
 * Call it once at the beginning of every slot, slot 0 first, empty slots too. `done` is about the slot just before and
 * about no other: handed over later it ends the job that had the slot in between, if one had. At the first step hand
 * over 0.
 *
 * A job that has had its cost gets no more slots, ended or not, and no call tells: the costs in the table must be true.
 *
 * A step reads wait, left and given of the table's tasks, last and empty. It does not read late, closed and lowest. What
 * stands in wait, left and given behind the last task of the table stays.
 *
 * Hand over the file that the state was started with. Refusals: 50; 20 to 27; 1 and 3 to 7; 11; 8 for a wait above both
 * offset and period, for an open job with more slots left than its cost, or with a wait below period - deadline or above
 * period - 1, for a last that is neither 32 nor a task, for counts that add up to 2^64 or more, and for nothing else; 9 for
 * counts that add up to 2^64 - 1. So from a start 2^64 - 1 steps are taken, and none of them is refused.
 */
uint64_t yolizadwa_step(const uint8_t *file, size_t file_len, uint8_t *state, size_t state_len, uint32_t done);

/*
 * The dispatcher of tables with buttons: start and step on any table, with the same state buffer. A button's wait is the slots until it
 * may be pressed again, 0: now. `pressed` has bit i set if a press of button i began since the last step: a press, and not a contact that
 * is held. The step goes as yolizadwa_step, and in 3. a press of a button whose wait is 0 is taken too: a job of it comes, and its wait
 * becomes the spacing.
 *
 * yolizadwa_press_start returns 0. yolizadwa_press_step returns in its low word the task that has this slot, 0 to 31, or 32 for none,
 * and in its high word the presses that were not taken, as bits: those of a button pressed too early, of a periodic task and of no task.
 * A refusal is below 2^32, with no press in its high word. It takes none and changes nothing: ask yolizadwa_refused of the low word first.
 *
 * On a table that yolizadwa_distance passes every job, of tasks and of presses that were taken, is finished by its deadline, whenever
 * the buttons are pressed; late, closed and lowest then say of every step that none was late. On a table without buttons the calls do
 * what yolizadwa_start and yolizadwa_step do. Refusals are theirs, but for 11: a table with buttons is taken. In 8 a button has offset 0 and
 * its spacing for a period.
 */
static inline uint32_t yolizadwa_owner(uint64_t result) { return (uint32_t)result; }
static inline uint32_t yolizadwa_untaken(uint64_t result) { return (uint32_t)(result >> 32); }
uint64_t yolizadwa_press_start(const uint8_t *file, size_t file_len, uint8_t *state, size_t state_len);
uint64_t yolizadwa_press_step(const uint8_t *file, size_t file_len, uint8_t *state, size_t state_len, uint32_t done, uint32_t pressed);

/*
 * The log that a camera brings home is a row of records: a kind, and of kind 16 one byte more.
 *
 *   kind 16, slot    1 byte: the task that had the slot
 *   kind 17, empty   0 bytes: a slot that no task had
 *   kind 18, done    0 bytes: what ran in the slot just before said that it was done. At most once for a slot; after an empty slot it
 *                    means nothing
 *   kind 19, end     0 bytes. Nothing comes after it.
 *
 * A camera that steps with yolizadwa_step writes for each slot what the step returned, and 18 behind it if the next step is told done.
 *
 * The log is judged in pieces cut anywhere, of any length, empty ones too: start, feed, feed, .., finish, all with the same file and the
 * same state buffer. However it is cut, the answer is the same. Each call returns
 *
 *   0                      nothing is found yet (never by a finish)
 *   below 2^32             a refusal, as by the other calls; it changes no byte
 *   2^32 x number + place  what is found: yolizadwa_log_answered, yolizadwa_log_number, yolizadwa_log_place
 *
 * What is found stands in the state buffer too. Good is said for certain only by the finish: until then a byte behind the end makes it
 * 42. Any other answer stays, whatever follows: no byte behind it is looked at or counted.
 *
 * Good, of a table that a check passes: every job whose reported worst response ends within the logged slots had its whole cost, or was
 * said to be done, by then; an 18 behind the last slot counts. A slot differs: it is the first whose task is not the one that
 * yolizadwa_step gives it, under the log's own done reports before it. A task that the table does not have is such a slot.
 */
enum yolizadwa_log_kind {
    YOLIZADWA_LOG_SLOT = 16,
    YOLIZADWA_LOG_EMPTY = 17,
    YOLIZADWA_LOG_DONE = 18,
    YOLIZADWA_LOG_END = 19
};

enum yolizadwa_log_answer {
    YOLIZADWA_LOG_GOOD = 1,          /* the log is what a camera writes that runs this table; place 0 */
    YOLIZADWA_LOG_DIFFERS = 2,       /* place: the first slot that differs, counted from 0 */
    YOLIZADWA_LOG_UNKNOWN_KIND = 40, /* a record of no known kind; place: its byte, counted from 0, as of those below */
    YOLIZADWA_LOG_BAD_DONE = 41,     /* a done report with no slot before it, or a second one for a slot; place: its byte */
    YOLIZADWA_LOG_AFTER_END = 42,    /* a byte after the end; place: that byte */
    YOLIZADWA_LOG_NO_END = 43,       /* the log is finished and has no end; place: its length */
    YOLIZADWA_LOG_TOO_LONG = 44      /* the log has more than 2^32 - 1 bytes; place: 2^32 - 1 */
};
static inline int yolizadwa_log_answered(uint64_t result) { return result >> 32 != 0; }
static inline uint32_t yolizadwa_log_number(uint64_t result) { return (uint32_t)(result >> 32); }
static inline uint32_t yolizadwa_log_place(uint64_t result) { return (uint32_t)result; }

/*
 * The state of a log: 568 bytes, little-endian; on x86-64 this struct is that layout. It needs no alignment. Its front is a dispatcher's
 * state, with late, closed and lowest as after a start. A piece may be judged by another process than the one before: the 568 bytes are
 * all that is kept.
 */
struct yolizadwa_log {
    struct yolizadwa_state state; /* after the slots that were read; given and empty say where they went */
    uint32_t opened;              /* 0, or 16 was read and its task is still to come */
    uint32_t done;                /* 0, or a done report waits for the next slot */
    uint32_t number;              /* what is found: 0 for nothing, or an enum yolizadwa_log_answer; any other is kept and told as it is */
    uint32_t place;               /* and its place */
    uint64_t slots;               /* the slots that were read */
    uint64_t bytes;               /* the bytes that were read */
};

/*
 * Begins a log: the dispatcher's first state, and nothing read. Any table that is not refused will do; the budget plays no part.
 * The result is 0. Refusals: 50; 20 to 27; 1, 3 to 7 and 11.
 */
uint64_t yolizadwa_log_start(const uint8_t *file, size_t file_len, uint8_t *state, size_t state_len);

/*
 * Judges the next bytes of a log. The table is judged once a call, so that longer pieces cost less a byte. Hand over the file that the
 * log was started with. Refusals: 50; 20 to 27; 1, 3 to 7 and 11; 8, of the dispatcher's state as by a step, and then at 34. The piece is only
 * read, and must not overlap the state.
 */
uint64_t yolizadwa_log_feed(const uint8_t *file, size_t file_len, uint8_t *state, size_t state_len, const uint8_t *piece,
                            size_t piece_len);

/*
 * Finishes a log: the result is the answer. It stays in the state, so that a second finish says the same. Refusals: as by a feed.
 */
uint64_t yolizadwa_log_finish(const uint8_t *file, size_t file_len, uint8_t *state, size_t state_len);

#ifdef __cplusplus
}
#endif

#endif
