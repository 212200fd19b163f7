/* prompt.c: a session at a terminal. A line that is refused is told, and the next one taken. */
#define _POSIX_C_SOURCE 200809L
#include <editline/readline.h>
#include <errno.h>
#include <locale.h>
#include <signal.h>
#include <stdlib.h>
#include <string.h>
#include <time.h>

#include "tool.h"

/* An interrupt ends the read that it comes to. One that comes just before a read would be lost: a timer ends that read. */
static volatile sig_atomic_t reading, interrupted;
static timer_t repeat;

static void set_repeat(long nanoseconds)
{
    struct timespec every = {.tv_nsec = nanoseconds};
    struct itimerspec setting = {.it_interval = every, .it_value = every};
    timer_settime(repeat, 0, &setting, NULL);
}

static void note_interrupt(int signal)
{
    int before = errno;
    (void)signal;
    interrupted = 1;
    if (reading)
        set_repeat(20000000);
    errno = before;
}

static void end_read(int signal)
{
    (void)signal;
}

static void begin(void)
{
    struct sigaction note = {.sa_handler = note_interrupt, .sa_flags = SA_RESTART};
    struct sigaction end = {.sa_handler = end_read};
    sigemptyset(&note.sa_mask);
    sigemptyset(&end.sa_mask);
    timer_create(CLOCK_MONOTONIC, NULL, &repeat);
    sigaction(SIGALRM, &end, NULL);
    sigaction(SIGINT, &note, NULL);
    /* what started the tool may have had them blocked */
    sigset_t both;
    sigemptyset(&both);
    sigaddset(&both, SIGALRM);
    sigaddset(&both, SIGINT);
    sigprocmask(SIG_UNBLOCK, &both, NULL);
    /* names may be typed in UTF-8 */
    setlocale(LC_CTYPE, "C.UTF-8");
    begin_completion();
    load_history();
    /* an answer is seen before the next prompt, through a pipe too */
    setvbuf(stdout, NULL, _IOLBF, 0);
}

/* A line; NULL at the end of input. Where it was interrupted it is dropped. */
static char *next_line(void)
{
    interrupted = 0;
    reading = 1;
    char *line = readline("snapshot> ");
    reading = 0;
    set_repeat(0);
    return line;
}

/* The end of input is as a quit. */
static void run_typed(struct editing *session, char *line)
{
    if (line == NULL) {
        fputs("\n", stdout);
        session->ended = true;
        return;
    }
    if (line[0] != 0)
        add_history(line);
    run_line(session, session->words->file, line);
}

/* A quit with changes that are not saved is warned, unless the line before was a quit that was. */
enum status from_prompt(struct editing *session)
{
    bool warned = false;
    begin();
    while (!session->ended) {
        char *line = next_line();
        if (interrupted) {
            free(line);
            fputs("\n", stdout);
            warned = false;
            continue;
        }
        run_typed(session, line);
        free(line);
        bool warn_now = session->ended && session->unsaved > 0 && !warned;
        if (warn_now) {
            warn(session->words->file, "%u change%s not saved: 'save', or 'quit' again", session->unsaved,
                 session->unsaved == 1 ? " is" : "s are");
            session->ended = false;
        }
        warned = warn_now;
    }
    keep_history();
    return ACCEPTED;
}
