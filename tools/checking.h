/* checking.h: what the parts of the tool share that look through many files and explain each. */
#ifndef CHECKING_H
#define CHECKING_H

#include "tool.h"

/* folders.c: the files to look at: those that are named, and in folders those whose names are a snapshot's. */
struct file_list {
    char **paths;
    /* unread: folders and what is in them that could not be read, which is told */
    size_t count, room, unread;
};
/* Adds what a name stands for: a file, or a folder's files in the order of their names. */
void add_files(struct file_list *list, const char *name);
void drop_files(struct file_list *list);

/* explain.c: a file that was looked through, as one sentence with its figures, without its number. */
#define EXPLANATION_SIZE 500u
void explain(const struct taking *taken, char text[EXPLANATION_SIZE]);

/* unread.c: a file that was looked through, good or not, as a line of a report on standard output. */
void explained_file(const char *file, const struct taking *taken);

/* progress.c: how far a long run is, on one line of standard error where that is a terminal. */
void show_progress(size_t done, size_t count, const char *file);
void clear_progress(void);
/* Before a line of standard output, which may be the same terminal. */
void clear_for_output(void);

/* check.c: every file that is named or in a folder, explained; NULL ends the names. */
enum status check_files(char *const *names, bool json, bool quiet);

#endif
