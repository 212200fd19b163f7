/* check.c: many files looked through one after the other, each explained in a line, and a summary of them. */
#define _POSIX_C_SOURCE 200809L
#include <signal.h>
#include <string.h>

#include "checking.h"

struct check_counts {
    size_t good, refused, unread;
};

static volatile sig_atomic_t is_interrupted;

static void interrupt(int number)
{
    (void)number;
    is_interrupted = 1;
}

/* The first Ctrl-C ends the run after the file that it comes in, the second at once. What was told to ignore it goes on. */
static void heed_interrupt(void)
{
    struct sigaction before, action = {.sa_handler = interrupt, .sa_flags = (int)(SA_RESETHAND | SA_RESTART)};
    sigemptyset(&action.sa_mask);
    if (sigaction(SIGINT, NULL, &before) == 0 && before.sa_handler != SIG_IGN)
        sigaction(SIGINT, &action, NULL);
}

static void check_file(const char *path, bool quiet, struct check_counts *counts)
{
    struct taking taken;
    if (take_input(path, NULL, &taken) != ACCEPTED) {
        counts->unread++;
        return;
    }
    bool is_good = is_accepted(&taken);
    *(is_good ? &counts->good : &counts->refused) += 1;
    if (!is_good || !quiet)
        explained_file(input_name(path), &taken);
}

/* Files and folders that could not be read count too. */
static void print_summary(const struct check_counts *counts, size_t count)
{
    char all[GROUPED_SIZE], done[GROUPED_SIZE], good[GROUPED_SIZE], refused[GROUPED_SIZE], unread[GROUPED_SIZE];
    if (is_interrupted)
        printf("interrupted after %s of ", grouped(counts->good + counts->refused + counts->unread, done));
    printf("%s %s: %s good, %s refused", grouped(count, all), count == 1 ? "file" : "files", grouped(counts->good, good),
           grouped(counts->refused, refused));
    if (counts->unread > 0)
        printf(", %s not read", grouped(counts->unread, unread));
    putchar('\n');
}

static void check_list(const struct file_list *list, bool quiet, struct check_counts *counts)
{
    for (size_t at = 0; at < list->count && !is_interrupted; at++) {
        show_progress(at, list->count, list->paths[at]);
        check_file(list->paths[at], quiet, counts);
    }
    clear_progress();
}

/* Ends as Ctrl-C ends a program, with all that is printed. */
static void end_interrupted(void)
{
    fflush(stdout);
    signal(SIGINT, SIG_DFL);
    raise(SIGINT);
}

enum status check_files(char *const *names, bool json, bool quiet)
{
    struct file_list list = {0};
    unsigned streams = 0;
    for (size_t at = 0; names[at] != NULL; at++)
        streams += is_stream(names[at]);
    if (streams > 1)
        return misused("'-' is given twice");
    if (json)
        tell_in_json();
    for (size_t at = 0; names[at] != NULL; at++)
        add_files(&list, names[at]);
    struct check_counts counts = {.unread = list.unread};
    /* a read of standard input ends at once */
    if (streams == 0)
        heed_interrupt();
    check_list(&list, quiet, &counts);
    bool is_one_file = names[1] == NULL && list.count == 1 && strcmp(list.paths[0], names[0]) == 0;
    if (!json && !is_one_file)
        print_summary(&counts, list.count + list.unread);
    drop_files(&list);
    if (is_interrupted)
        end_interrupted();
    return counts.refused > 0 ? REFUSED : counts.unread > 0 ? SYSTEM : ACCEPTED;
}
