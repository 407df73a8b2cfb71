/* yolizadwa: judges tables of periodic tasks and of buttons, and shows who has each slot. docs/COMMAND.md promises what it says here. */
#define _POSIX_C_SOURCE 200809L

#include <signal.h>
#include <string.h>

#include "words.h"

#ifndef KIT
#define KIT "an unknown kit"
#endif

#define VERSION PROGRAM "\nbuilt with " KIT "\n"

static int help(const char *name)
{
    if (print_page(stdout, name)) {
        return DONE;
    }
    return trouble("no help for %s; there is help for %s and text", name, word_names());
}

static int version(void)
{
    fputs(VERSION, stdout);
    return DONE;
}

static int too_many(const char *argument)
{
    return trouble("one argument too many: %s", argument);
}

static int obey(char **arguments)
{
    const char *first = arguments[0];
    if (first == NULL) {
        print_page(stderr, NULL);
        return TROUBLE;
    }
    const struct word *word = word_named(first);
    if (word != NULL) {
        return do_word(word, arguments + 1);
    }
    if (strcmp(first, "--help") == 0 || strcmp(first, "-h") == 0 || strcmp(first, "help") == 0) {
        return arguments[1] != NULL && arguments[2] != NULL ? too_many(arguments[2]) : help(arguments[1]);
    }
    if (strcmp(first, "--version") == 0 || strcmp(first, "version") == 0) {
        return arguments[1] != NULL ? too_many(arguments[1]) : version();
    }
    const char *meant = word_like(first);
    if (meant != NULL) {
        return trouble("%s is none of %s, help, version; did you mean %s?", first, word_names(), meant);
    }
    return trouble("%s is none of %s, help, version; to judge a table: yolizadwa judge FILE", first, word_names());
}

/* A reader that goes away is an output that cannot be written, not a reason to be killed. */
static void outlive_readers(void)
{
    struct sigaction ignore = {.sa_handler = SIG_IGN};
    sigemptyset(&ignore.sa_mask);
    sigaction(SIGPIPE, &ignore, NULL);
}

int main(int argc, char **argv)
{
    stop_when_interrupted();
    outlive_readers();
    keep_standard_files_apart();
    int status = obey(argv + (argc > 0));
    if (fflush(stdout) != 0 || ferror(stdout)) {
        return trouble("cannot write to standard output");
    }
    return status;
}
