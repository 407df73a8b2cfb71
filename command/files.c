/* Reads a FILE whole and writes one in one piece. */
#define _POSIX_C_SOURCE 200809L

#include <errno.h>
#include <fcntl.h>
#include <stdarg.h>
#include <stdlib.h>
#include <string.h>
#include <unistd.h>

#include "command.h"

static char last[512];

const char *last_trouble(void)
{
    return last;
}

/* What is shown is never longer than the text. */
static const char *shown_text(const char *text)
{
    static char *shown;
    const struct name name = {(const uint8_t *)text, strlen(text)};
    char *to = realloc(shown, name.len + 5);
    if (to == NULL) {
        return "no memory";
    }
    shown = to;
    *to = '\0';
    for (size_t at = 0; at < name.len; to += strlen(to)) {
        at += show_letter(&name, at, to);
    }
    return shown;
}

/* The words may have any bytes of an argument in them, and an argument may be long. */
int trouble(const char *format, ...)
{
    va_list words;
    va_start(words, format);
    int len = vsnprintf(last, sizeof last, format, words);
    va_end(words);
    char *whole = len < 0 ? NULL : malloc((size_t)len + 1);
    if (whole != NULL) {
        va_start(words, format);
        vsnprintf(whole, (size_t)len + 1, format, words);
        va_end(words);
    }
    fprintf(stderr, "yolizadwa: %s\n", shown_text(whole != NULL ? whole : last));
    free(whole);
    return TROUBLE;
}

int cannot(const char *what, const char *name)
{
    return trouble("cannot %s %s: %s", what, name, strerror(errno));
}

/* A file opened later must not become a standard one that the caller has closed: what is said would go into it. */
void keep_standard_files_apart(void)
{
    for (int number = 0; number <= 2; number++) {
        if (fcntl(number, F_GETFD) < 0) {
            open("/dev/null", number == 0 ? O_WRONLY : O_RDONLY);
        }
    }
}

const char *shown_name(const char *name)
{
    return strcmp(name, "-") == 0 ? "standard input" : shown_text(name);
}

/* Some editors put a byte order mark in front of a text, which nobody sees. */
void skip_mark(struct input *input)
{
    static const uint8_t mark[] = {0xEF, 0xBB, 0xBF};
    if (input->len >= sizeof mark && memcmp(input->bytes, mark, sizeof mark) == 0) {
        input->len -= sizeof mark;
        memmove(input->bytes, input->bytes + sizeof mark, input->len);
    }
}

static int read_all(FILE *in, struct input *input)
{
    uint8_t *bytes = malloc((size_t)MOST_INPUT + 1);
    if (bytes == NULL) {
        return cannot("read", shown_name(input->given));
    }
    errno = 0;
    input->len = fread(bytes, 1, (size_t)MOST_INPUT + 1, in);
    uint8_t *shorter = realloc(bytes, input->len + 1);
    input->bytes = shorter != NULL ? shorter : bytes;
    if (ferror(in)) {
        return cannot("read", shown_name(input->given));
    }
    if (input->len > MOST_INPUT) {
        return trouble("%s is longer than 16 MiB, so it is no table", shown_name(input->given));
    }
    skip_mark(input);
    return DONE;
}

int read_input(const char *name, struct input *input)
{
    int standard = strcmp(name, "-") == 0;
    FILE *in = standard ? stdin : fopen(name, "rb");
    input->given = name;
    input->bytes = NULL;
    input->len = 0;
    if (in == NULL) {
        return cannot("read", name);
    }
    int status = read_all(in, input);
    if (!standard) {
        fclose(in);
    }
    if (status != DONE) {
        free(input->bytes);
    }
    return status;
}

static int is_terminal(const char *name)
{
    return trouble("%s is a terminal, and what is written is no text; name a file instead", name);
}

/* main says at the end whether standard output could be written. */
static int write_standard(const uint8_t *bytes, size_t len)
{
    if (isatty(STDOUT_FILENO)) {
        return is_terminal("standard output");
    }
    fwrite(bytes, 1, len, stdout);
    return DONE;
}

/* A pipe without a writer must not make us wait. */
int begins_otherwise(const char *name, uint8_t low, uint8_t high)
{
    uint8_t first;
    int number = open(name, O_RDONLY | O_NONBLOCK);
    int found = number >= 0 && read(number, &first, 1) == 1 && (first < low || first > high);
    if (number >= 0) {
        close(number);
    }
    return found;
}

/* A signal that comes before the first byte is written is no failure. */
static ssize_t write_some(int number, const uint8_t *bytes, size_t len)
{
    ssize_t wrote;
    do {
        wrote = write(number, bytes, len);
    } while (wrote < 0 && errno == EINTR);
    return wrote;
}

/* A long log may go out in several parts. */
int write_all(int number, const uint8_t *bytes, size_t len)
{
    while (len > 0) {
        ssize_t wrote = write_some(number, bytes, len);
        if (wrote <= 0) {
            return 0;
        }
        bytes += wrote;
        len -= (size_t)wrote;
    }
    return 1;
}

/* Writes in place, so that links, modes and devices stay what they are. */
static int write_over(int number, const char *name, const uint8_t *bytes, size_t len)
{
    if (isatty(number)) {
        return is_terminal(name);
    }
    if (!write_all(number, bytes, len)) {
        return cannot("write", name);
    }
    /* A device cannot be cut and need not be. */
    if (ftruncate(number, (off_t)len) != 0 && lseek(number, 0, SEEK_END) > (off_t)len) {
        return cannot("write", name);
    }
    return DONE;
}

/* Takes a new file away again if it cannot be written. */
static int write_new(int number, const char *name, const uint8_t *bytes, size_t len)
{
    int status = write_over(number, name, bytes, len);
    if (status != DONE) {
        unlink(name);
    }
    return status;
}

static int write_file(const char *name, const uint8_t *bytes, size_t len)
{
    int number = open(name, O_WRONLY | O_CREAT | O_EXCL, 0666), fresh = number >= 0;
    if (!fresh && errno == EEXIST) {
        number = open(name, O_WRONLY);
    }
    if (number < 0) {
        return cannot("write", name);
    }
    int status = fresh ? write_new(number, name, bytes, len) : write_over(number, name, bytes, len);
    return close(number) == 0 || status != DONE ? status : cannot("write", name);
}

int write_output(const char *name, const uint8_t *bytes, size_t len)
{
    if (strcmp(name, "-") == 0) {
        return write_standard(bytes, len);
    }
    if (begins_otherwise(name, 0, FIRST_OF_A_TEXT - 1)) {
        return trouble("%s is there and is no table file; it is not written over", name);
    }
    return write_file(name, bytes, len);
}

int write_log(const char *name, const uint8_t *bytes, size_t len)
{
    if (begins_otherwise(name, YOLIZADWA_LOG_SLOT, YOLIZADWA_LOG_END)) {
        return trouble("%s is there and is no log; it is not written over", name);
    }
    return write_file(name, bytes, len);
}
