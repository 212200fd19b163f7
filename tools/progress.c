/* progress.c: how far a long run is, on one line that is written over, at most ten times a second. */
#define _POSIX_C_SOURCE 200809L
#include <string.h>
#include <time.h>
#include <unistd.h>

#include "checking.h"

#define BEGIN_LINE "\r\033[K"
#define PAUSE 100

static bool is_displayed;

static long long milliseconds(void)
{
    struct timespec time;
    clock_gettime(CLOCK_MONOTONIC, &time);
    return (long long)time.tv_sec * 1000 + time.tv_nsec / 1000000;
}

void show_progress(size_t done, size_t count, const char *file)
{
    static long long last = -PAUSE;
    const char *slash = strrchr(file, '/');
    if (count < 2 || !isatty(STDERR_FILENO))
        return;
    long long now = milliseconds();
    if (now - last < PAUSE)
        return;
    last = now;
    /* what is printed already stands above it */
    fflush(stdout);
    fprintf(stderr, BEGIN_LINE "[%zu/%zu] %s", done, count, shown_in_short(slash == NULL ? file : slash + 1));
    fflush(stderr);
    is_displayed = true;
}

void clear_progress(void)
{
    if (!is_displayed)
        return;
    fputs(BEGIN_LINE, stderr);
    fflush(stderr);
    is_displayed = false;
}

void clear_for_output(void)
{
    if (is_displayed && isatty(STDOUT_FILENO))
        clear_progress();
}
