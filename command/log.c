/* The word log: whether a camera's log is what a camera writes that runs the table, by the library's answers alone. */
#include <errno.h>
#include <string.h>

#include "follow.h"

enum { PIECE_BYTES = 1 << 16 };

/* The log so far, the byte at which the answer was found, and whether the log is a table. */
struct judging {
    const struct table *table;
    struct follower follower;
    struct yolizadwa_log log;
    uint64_t result;
    uint8_t byte;
    int is_a_table;
};

/* Good may still become a fault; any other answer stays. */
static int is_final(uint64_t result)
{
    return yolizadwa_log_answered(result) && yolizadwa_log_number(result) != YOLIZADWA_LOG_GOOD;
}

/* No table begins as a log does. Who reads a pipe cannot read it again, so only what is whole in one piece is looked at. */
static int is_a_table(uint8_t *piece, size_t len)
{
    struct input input = {.bytes = piece, .len = len};
    struct table table;
    skip_mark(&input);
    return len < PIECE_BYTES && !yolizadwa_refused(table_of(&input, &table));
}

static void feed(struct judging *judging, uint8_t *piece, size_t len)
{
    struct yolizadwa_log *log = &judging->log;
    uint64_t before = log->bytes;
    judging->result = yolizadwa_log_feed(judging->table->file, judging->table->len, (uint8_t *)log, sizeof *log, piece, len);
    if (is_final(judging->result)) {
        judging->byte = piece[log->bytes - before];
        judging->is_a_table = log->bytes == 0 && is_a_table(piece, len);
    }
}

/* Pieces let a log of any length need no more memory than one of them. Tells whether all could be read. */
static int feed_all(FILE *in, struct judging *judging)
{
    static uint8_t piece[PIECE_BYTES];
    size_t len;
    errno = 0;
    while ((!is_final(judging->result) || judging->follower.prints) && (len = fread(piece, 1, sizeof piece, in)) > 0) {
        follow(&judging->follower, piece, len);
        if (!is_final(judging->result)) {
            feed(judging, piece, len);
        }
    }
    return !ferror(in);
}

static int read_log(const char *name, struct judging *judging)
{
    int standard = strcmp(name, "-") == 0;
    FILE *in = standard ? stdin : fopen(name, "rb");
    if (in == NULL) {
        return cannot("read", name);
    }
    int status = feed_all(in, judging) ? DONE : cannot("read", shown_name(name));
    if (!standard) {
        fclose(in);
    }
    return status;
}

static const char *ending(uint64_t count)
{
    return count == 1 ? "" : "s";
}

/* Only a table that does not pass has late jobs. */
static void say_late(const struct judging *judging)
{
    unsigned long late = judging->follower.late.count;
    printf(", and %lu job%s closed late\nby instant %" PRIu64 ", so the table does not pass; with that many slots missing:\n", late,
           late == 1 ? " was" : "s were", judging->log.slots);
    print_late(&judging->follower.late, judging->table, judging->log.slots);
}

static void say_good(const struct judging *judging)
{
    const struct yolizadwa_log *log = &judging->log;
    printf("log good\n\ngood: every slot went as the table has it, %" PRIu64 " slot%s in %" PRIu64 " byte%s", log->slots, ending(log->slots),
           log->bytes, ending(log->bytes));
    if (judging->follower.late.count > 0) {
        say_late(judging);
    } else {
        printf(", and no job was closed late; if the\ntable passes, as judge tells, every job whose worst response ends by instant %" PRIu64
               " was in time\n", log->slots);
    }
}

/* A camera may have named a task that the table does not have. */
static void say_owner(const struct table *table, uint64_t owner, unsigned tasks)
{
    struct words words;
    printf("%s", owner < tasks ? task_words(table, (unsigned)owner, &words) : "no task");
}

static uint64_t wanted(struct judging *judging)
{
    struct yolizadwa_log *log = &judging->log;
    return yolizadwa_step(judging->table->file, judging->table->len, (uint8_t *)&log->state, sizeof log->state, log->done);
}

/* The log says what the camera did, and a step of the dispatcher what the table wanted. */
static void say_difference(struct judging *judging)
{
    struct yolizadwa_log *log = &judging->log;
    unsigned long slot = (unsigned long)yolizadwa_log_place(judging->result);
    unsigned tasks = task_count(judging->table);
    uint64_t owner = wanted(judging);
    printf("log differs at slot %lu\n\ndiffers: slot %lu went to ", slot, slot);
    say_owner(judging->table, log->opened ? judging->byte : YOLIZADWA_TASKS, log->opened ? UINT8_MAX + 1 : tasks);
    if (log->opened && judging->byte >= tasks) {
        printf(", which the table does not have");
    }
    printf(", and the table gives it to ");
    say_owner(judging->table, owner, tasks);
    printf("\n");
}

/* The place stands between the two parts. */
static const char *const faults[][2] = {
    {"the record at byte ", " is of no known kind"},
    {"the done report at byte ", " is the second one for its slot"},
    {"the log goes on at byte ", ", after its end"},
    {"the log stops at byte ", " without an end"},
    {"the log goes on at byte ", ", and that is the first that is too many"},
};

static void say_fault(const struct judging *judging, const char *name)
{
    unsigned number = yolizadwa_log_number(judging->result);
    unsigned long place = (unsigned long)yolizadwa_log_place(judging->result), slots = (unsigned long)judging->log.slots;
    const char *const *words = faults[number - YOLIZADWA_LOG_UNKNOWN_KIND];
    const char *end = number == YOLIZADWA_LOG_BAD_DONE && slots == 0 ? " has no slot before it" : words[1];
    printf("log fault %u at %lu\n\nfault: %s%lu%s; up to there %lu slot%s went as the table has it\n", number, place, words[0], place, end,
           slots, ending(slots));
    if (judging->is_a_table) {
        printf("%s is a table; the table comes first, and then the log: yolizadwa log TABLE LOG\n", shown_name(name));
    }
}

static int status_of(const struct judging *judging)
{
    switch (yolizadwa_log_number(judging->result)) {
    case YOLIZADWA_LOG_GOOD: return judging->follower.late.count > 0 ? LATE : DONE;
    case YOLIZADWA_LOG_DIFFERS: return LATE;
    default: return UNDECIDED;
    }
}

static void json_owner(const char *key, uint64_t owner, unsigned most)
{
    if (owner < most) {
        json_number(key, owner);
    } else {
        json_null(key);
    }
}

static void json_found(struct judging *judging)
{
    static const char *const names[] = {"good", "differs"};
    unsigned number = yolizadwa_log_number(judging->result);
    json_text("log", number <= YOLIZADWA_LOG_DIFFERS ? names[number - YOLIZADWA_LOG_GOOD] : "fault");
    json_number("slots", judging->log.slots);
    json_number("bytes", judging->log.bytes);
    if (number == YOLIZADWA_LOG_GOOD) {
        json_late(&judging->follower.late, judging->table);
    } else if (number == YOLIZADWA_LOG_DIFFERS) {
        json_number("slot", yolizadwa_log_place(judging->result));
        json_owner("went", judging->log.opened ? judging->byte : YOLIZADWA_TASKS, judging->log.opened ? UINT8_MAX + 1 : 0);
        json_owner("wanted", wanted(judging), task_count(judging->table));
    } else {
        json_number("fault", number);
        json_number("place", yolizadwa_log_place(judging->result));
    }
}

static int tell_found(const struct request *request, struct judging *judging)
{
    if (request->json) {
        json_begin(request, 0, status_of(judging));
        json_text("log_file", request->files[1]);
        json_changes(judging->table);
        json_found(judging);
        json_end();
        return status_of(judging);
    }
    switch (yolizadwa_log_number(judging->result)) {
    case YOLIZADWA_LOG_GOOD: say_good(judging); break;
    case YOLIZADWA_LOG_DIFFERS: say_difference(judging); break;
    default: say_fault(judging, request->files[1]);
    }
    return status_of(judging);
}

/* Two of the files cannot be standard input at once. */
static int are_standard(const char *one, const char *other)
{
    return one != NULL && strcmp(one, "-") == 0 && strcmp(other, "-") == 0;
}

int judge_log(const struct request *request)
{
    static struct judging judging;
    struct table table;
    if (are_standard(request->files[0], request->files[1]) || are_standard(request->names, request->files[1])) {
        trouble("only one of table, log and names can be standard input");
        return json_trouble(request, 0);
    }
    int status = open_periodic(request, 0, stdout, "log", &table);
    if (status != DONE) {
        return status;
    }
    if (!request->json) {
        say_what_if(&table);
    }
    judging.table = &table;
    judging.result = yolizadwa_log_start(table.file, table.len, (uint8_t *)&judging.log, sizeof judging.log);
    begin_following(&judging.follower, &table, request->dump && !request->json);
    status = read_log(request->files[1], &judging);
    if (status != DONE) {
        return json_trouble(request, 0);
    }
    end_following(&judging.follower);
    judging.result = yolizadwa_log_finish(table.file, table.len, (uint8_t *)&judging.log, sizeof judging.log);
    return tell_found(request, &judging);
}
