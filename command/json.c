/* Writes JSON: UTF-8 on one line, with numbers of 64 bits as integers. */
#include <string.h>

#include "json.h"

/* Whether something stands before the next value that a comma has to part it from. */
static int comma;

/* A letter above U+FFFF is a pair of escapes. */
static void put_escaped(uint32_t code)
{
    if (code > 0xFFFF) {
        printf("\\u%04x", (unsigned)(0xD800 + ((code - 0x10000) >> 10)));
        code = 0xDC00 + (code & 0x3FF);
    }
    printf("\\u%04x", (unsigned)code);
}

static void put_letter(const uint8_t *bytes, const struct letter *letter)
{
    if (letter->length == 0) {
        printf("\\ufffd");
    } else if (letter->code == '"' || letter->code == '\\') {
        printf("\\%c", (int)letter->code);
    } else if (is_hidden(letter->code)) {
        put_escaped(letter->code);
    } else {
        fwrite(bytes, 1, letter->length, stdout);
    }
}

/* A byte that is no UTF-8 becomes one letter that says so. */
static void put_string(const uint8_t *bytes, size_t len)
{
    putchar('"');
    for (size_t at = 0; at < len;) {
        struct letter letter = letter_at(bytes + at, len - at);
        put_letter(bytes + at, &letter);
        at += letter.length > 0 ? letter.length : 1;
    }
    putchar('"');
}

static void put_key(const char *key)
{
    printf("%s", comma ? "," : "");
    if (key != NULL) {
        printf("\"%s\":", key);
    }
    comma = 1;
}

void json_open(const char *key, char bracket)
{
    put_key(key);
    putchar(bracket);
    comma = 0;
}

void json_close(char bracket)
{
    putchar(bracket);
    comma = 1;
}

void json_number(const char *key, uint64_t number)
{
    put_key(key);
    printf("%" PRIu64, number);
}

void json_truth(const char *key, int truth)
{
    put_key(key);
    fputs(truth ? "true" : "false", stdout);
}

void json_null(const char *key)
{
    put_key(key);
    fputs("null", stdout);
}

void json_text(const char *key, const char *text)
{
    put_key(key);
    put_string((const uint8_t *)text, strlen(text));
}

void json_name(const char *key, const struct name *name)
{
    if (name->len == 0) {
        json_null(key);
        return;
    }
    put_key(key);
    put_string(name->bytes, name->len);
}

/* Of two tables both are named. */
void json_begin(const struct request *request, unsigned which, int status)
{
    comma = 0;
    json_open(NULL, '{');
    json_text("word", request->word);
    if (request->changes_new) {
        json_text("old", request->files[0]);
        json_text("new", request->files[1]);
    } else {
        json_text("file", request->files[which]);
    }
    json_number("status", (uint64_t)status);
}

void json_end(void)
{
    json_close('}');
    putchar('\n');
}

int json_trouble(const struct request *request, unsigned which)
{
    if (request->json) {
        json_begin(request, which, TROUBLE);
        json_text("trouble", last_trouble());
        json_end();
    }
    return TROUBLE;
}

void json_number_and_name(const struct table *table, unsigned number)
{
    json_number("task", number);
    json_name("name", &table->names[number]);
}

void json_job(const struct table *table, const struct job *job, const char *amount)
{
    json_open(NULL, '{');
    json_number_and_name(table, job->task);
    json_number("job", job->number);
    json_number("release", job->release);
    json_number("due", job->due);
    json_number(amount, job->amount);
    json_close('}');
}

void json_what_if(const struct what_if *what_if)
{
    json_open("what_if", '[');
    for (unsigned at = 0; at < what_if->count; at++) {
        const struct change *change = &what_if->changes[at];
        json_open(NULL, '{');
        if (change->task < YOLIZADWA_TASKS) {
            json_number_and_name(what_if->table, change->task);
        }
        json_text("field", change->field);
        json_number("was", change->was);
        json_number("is", change->is);
        json_close('}');
    }
    json_close(']');
}

void json_changes(const struct table *table)
{
    struct what_if what_if;
    find_changes(table, &what_if);
    json_what_if(&what_if);
}

void json_task(const struct table *table, unsigned number)
{
    struct task task = task_at(table, number);
    json_open(NULL, '{');
    json_number_and_name(table, number);
    json_text("kind", task.button ? "button" : "task");
    if (!task.button) {
        json_number("offset", task.offset);
    }
    json_number("cost", task.cost);
    json_number("deadline", task.deadline);
    json_number(task.button ? "spacing" : "period", task.period);
}
