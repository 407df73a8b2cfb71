/* On a terminal one line says how far a long call is. Ctrl-C ends the command at any time, inside a call of the library too. */
#define _POSIX_C_SOURCE 200809L

#include <errno.h>
#include <signal.h>
#include <string.h>
#include <sys/time.h>
#include <time.h>
#include <unistd.h>

#include "command.h"

/* A tick is half a second. The line is as wide as this, and where Ctrl-C is pressed a terminal shows two signs behind it. */
enum { TICKS_A_SECOND = 2, MICROSECONDS_A_TICK = 500000, WIDE = 70, ECHOED = 2, DIGITS = 20, MOST_SECONDS = 100000000 };

#define STOPPED_WORDS "yolizadwa: stopped"

/* What the signal handlers read. The texts are made anew only while both signals are held back. */
static volatile sig_atomic_t ticks, ends_at, is_shown; /* ends_at: in ticks; 0: nobody knows */
static char how_far[64], unit[16], parting[160] = STOPPED_WORDS "\n";

static void hold_signals(sigset_t *kept)
{
    sigset_t both;
    sigemptyset(&both);
    sigaddset(&both, SIGALRM);
    sigaddset(&both, SIGINT);
    sigprocmask(SIG_BLOCK, &both, kept);
}

static void let_signals(const sigset_t *kept)
{
    sigprocmask(SIG_SETMASK, kept, NULL);
}

/* Handlers call this, so it may call write and not printf. What cannot be written stays unsaid. */
static void say(const char *text, size_t length)
{
    while (length > 0) {
        ssize_t wrote = write(STDERR_FILENO, text, length);
        if (wrote > 0) {
            text += wrote;
            length -= (size_t)wrote;
        } else if (wrote == 0 || errno != EINTR) {
            return;
        }
    }
}

/* Puts a text into the line and tells where it ends, at most at the line's own end. */
static char *put(char *at, const char *end, const char *text)
{
    while (at < end && *text != '\0') {
        *at++ = *text++;
    }
    return at;
}

static char *put_seconds(char *at, const char *end, unsigned long seconds)
{
    char digits[DIGITS + 1], *first = digits + DIGITS;
    *first = '\0';
    do {
        *--first = (char)('0' + seconds % 10);
        seconds /= 10;
    } while (seconds > 0);
    return put(at, end, first);
}

/* Those that are left, at least one, or if nobody knows those that have gone by; rounded up. */
static unsigned long seconds_shown(void)
{
    int left = ends_at > ticks ? ends_at - ticks : 1;
    return (unsigned long)((ends_at == 0 ? ticks : left) + TICKS_A_SECOND - 1) / TICKS_A_SECOND;
}

/* Interrupts anything, so errno is left as it was. */
static void tick(int which)
{
    int kept = errno;
    char line[1 + WIDE], *at = line, *end = line + sizeof line;
    (void)which;
    ticks++;
    memset(line, ' ', sizeof line);
    at = put(at, end, "\r");
    at = put(at, end, how_far);
    at = put_seconds(at, end, seconds_shown());
    put(at, end, unit);
    is_shown = 1;
    say(line, sizeof line);
    errno = kept;
}

static void wipe(void)
{
    char line[1 + WIDE + ECHOED + 1];
    memset(line, ' ', sizeof line);
    line[0] = line[sizeof line - 1] = '\r';
    if (is_shown) {
        say(line, sizeof line);
    }
}

/* No call of the library can be asked to end, so the handler ends the command. */
static void stop(int which)
{
    (void)which;
    wipe();
    say(parting, strlen(parting));
    _exit(STOPPED);
}

/* Who started the command so that Ctrl-C does not reach it meant that. */
void stop_when_interrupted(void)
{
    struct sigaction stopping = {.sa_handler = stop}, was;
    sigemptyset(&stopping.sa_mask);
    sigaddset(&stopping.sa_mask, SIGALRM);
    if (sigaction(SIGINT, NULL, &was) == 0 && was.sa_handler != SIG_IGN) {
        sigaction(SIGINT, &stopping, NULL);
    }
}

static void set_timer(long microseconds)
{
    struct itimerval timer = {{0, microseconds}, {0, microseconds}};
    setitimer(ITIMER_REAL, &timer, NULL);
}

/* Nothing is known yet, or no longer. */
static void know_nothing(void)
{
    sigset_t kept;
    hold_signals(&kept);
    ticks = ends_at = is_shown = 0;
    snprintf(how_far, sizeof how_far, "judging: ");
    snprintf(unit, sizeof unit, " s");
    snprintf(parting, sizeof parting, STOPPED_WORDS "\n");
    let_signals(&kept);
}

/* Only a terminal is told, and only there is a timer set. */
void begin_progress(void)
{
    struct sigaction ticking = {.sa_handler = tick, .sa_flags = SA_RESTART};
    sigemptyset(&ticking.sa_mask);
    know_nothing();
    if (isatty(STDERR_FILENO)) {
        sigaction(SIGALRM, &ticking, NULL);
        set_timer(MICROSECONDS_A_TICK);
    }
}

void tell_progress(const char *now, const char *stopped, double seconds_left)
{
    sigset_t kept;
    double left = seconds_left < MOST_SECONDS ? seconds_left : MOST_SECONDS;
    hold_signals(&kept);
    ends_at = left > 0 ? ticks + (sig_atomic_t)(TICKS_A_SECOND * left) + 1 : 0;
    snprintf(how_far, sizeof how_far, "judging: %s; %s", now, left > 0 ? "about " : "");
    snprintf(unit, sizeof unit, "%s", left > 0 ? " s more" : " s");
    snprintf(parting, sizeof parting, STOPPED_WORDS "; %s\n", stopped);
    let_signals(&kept);
}

/* The handler of ticks stays: one on its way must not end the command. */
void end_progress(void)
{
    if (isatty(STDERR_FILENO)) {
        set_timer(0);
        wipe();
    }
    know_nothing();
}

double seconds_now(void)
{
    struct timespec time = {0, 0};
    clock_gettime(CLOCK_MONOTONIC, &time);
    return (double)time.tv_sec + (double)time.tv_nsec / 1e9;
}
