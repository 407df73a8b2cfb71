/* The option --output: what a word prints goes to a file, whole or not at all. */
#define _XOPEN_SOURCE 700

#include <errno.h>
#include <fcntl.h>
#include <signal.h>
#include <stdlib.h>
#include <string.h>
#include <sys/stat.h>
#include <unistd.h>

#include "command.h"

/* Every drawing and every page begins so. */
enum { FIRST_OF_MARKUP = '<' };

/* What a file may take the place of: what a link leads to, with its mode. */
struct place {
    char *name;
    mode_t mode;
};

static mode_t usual_mode(void)
{
    mode_t mask = umask(0);
    umask(mask);
    return 0666 & ~mask;
}

/* A new file needs only the right to its folder, so the right to the old one is asked for. */
static int may_replace(const char *name, mode_t mode)
{
    if (S_ISDIR(mode)) {
        errno = EISDIR;
        return cannot("write", name);
    }
    if (!S_ISREG(mode)) {
        return trouble("%s is there and is no file; --output writes only files", name);
    }
    int number = open(name, O_RDWR);
    if (number < 0) {
        return cannot("write", name);
    }
    close(number);
    if (begins_otherwise(name, FIRST_OF_MARKUP, FIRST_OF_MARKUP)) {
        return trouble("%s is there and is no drawing and no page; it is not written over", name);
    }
    return DONE;
}

/* Before anything is printed, since /dev/stdout is then another file. */
static int find_place(const char *name, struct place *place)
{
    struct stat there;
    if (stat(name, &there) == 0) {
        int status = may_replace(name, there.st_mode);
        if (status != DONE) {
            return status;
        }
        place->name = realpath(name, NULL);
        place->mode = there.st_mode & 0777;
    } else {
        place->name = strdup(name);
        place->mode = usual_mode();
    }
    return place->name == NULL ? cannot("write", name) : DONE;
}

/* Who stops the command now would leave the new file beside the old one. */
static void hold_back(sigset_t *kept)
{
    sigset_t all;
    sigfillset(&all);
    sigprocmask(SIG_BLOCK, &all, kept);
}

/* A name of its own in the same folder, since a file cannot be renamed into another file system. */
static char *name_beside(const char *name)
{
    static const char own[] = ".yolizadwa.XXXXXX";
    const char *slash = strrchr(name, '/');
    size_t folder = slash == NULL ? 0 : (size_t)(slash - name) + 1;
    char *beside = malloc(folder + sizeof own);
    if (beside != NULL) {
        memcpy(beside, name, folder);
        memcpy(beside + folder, own, sizeof own);
    }
    return beside;
}

/* Tells whether the new file has taken the place of the old one. */
static int put_in_place(char *beside, const struct place *place, const uint8_t *bytes, size_t len)
{
    int number = mkstemp(beside);
    if (number < 0) {
        return 0;
    }
    int good = write_all(number, bytes, len) && fchmod(number, place->mode) == 0;
    good = close(number) == 0 && good && rename(beside, place->name) == 0;
    if (!good) {
        int why = errno;
        unlink(beside);
        errno = why;
    }
    return good;
}

static int replace(const struct place *place, const uint8_t *bytes, size_t len)
{
    sigset_t kept;
    char *beside = name_beside(place->name);
    hold_back(&kept);
    int good = beside != NULL && put_in_place(beside, place, bytes, len);
    int status = good ? DONE : cannot("write", place->name);
    sigprocmask(SIG_SETMASK, &kept, NULL);
    free(beside);
    return status;
}

static int take_back(FILE *printed, const struct place *place)
{
    off_t len = lseek(fileno(printed), 0, SEEK_END);
    uint8_t *bytes = len < 0 ? NULL : malloc((size_t)len + 1);
    rewind(printed);
    int good = bytes != NULL && fread(bytes, 1, (size_t)len, printed) == (size_t)len;
    int status = good ? replace(place, bytes, (size_t)len) : cannot("write", place->name);
    free(bytes);
    return status;
}

/* What is printed is kept in a file without a name until it is whole. */
static int into_place(const struct request *request, int (*act)(const struct request *request), const struct place *place)
{
    FILE *printed = tmpfile();
    if (printed == NULL || dup2(fileno(printed), STDOUT_FILENO) < 0) {
        return cannot("write", place->name);
    }
    int status = act(request);
    if (status == TROUBLE || status == REFUSED) {
        return status;
    }
    int written = fflush(stdout) != 0 || ferror(stdout) ? cannot("write", place->name) : take_back(printed, place);
    return written == DONE ? status : written;
}

int into_file(const struct request *request, int (*act)(const struct request *request))
{
    struct place place = {NULL, 0};
    if (request->output == NULL || strcmp(request->output, "-") == 0) {
        return act(request);
    }
    int status = find_place(request->output, &place);
    if (status == DONE) {
        status = into_place(request, act, &place);
    }
    free(place.name);
    return status;
}
