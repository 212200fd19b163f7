/* session.c: an editing session: its places are checked when it begins, and again at each save. */
#define _XOPEN_SOURCE 700
#include <stdlib.h>
#include <string.h>
#include <sys/stat.h>

#include "tool.h"

/* The log's name beside a file, or beside what a link leads to. */
static enum status log_beside_target(const char *file, char name[PATH_ROOM])
{
    struct stat about;
    char target[PATH_ROOM];
    bool link = lstat(file, &about) == 0 && S_ISLNK(about.st_mode) && realpath(file, target) != NULL;
    return log_beside(link ? target : file, name);
}

/* Where the log of the input or of the output is kept: beside it, or where --log says. */
static enum status log_name(const struct editing *session, const char *file, char name[PATH_ROOM])
{
    if (session->words->log == NULL)
        return log_beside_target(file, name);
    if (snprintf(name, PATH_ROOM, "%s", session->words->log) >= PATH_ROOM)
        return cannot(session->words->log, "the name is too long");
    return ACCEPTED;
}

static enum status check_and_know(struct editing *session, const char *name, enum file_kind kind, char target[PATH_ROOM])
{
    struct file_state state;
    enum status status = target_of(name, target);
    if (status == ACCEPTED)
        status = check_target(name, target, kind, session->words->force, &state);
    if (status == ACCEPTED)
        know(&session->known, target, state);
    return status;
}

static enum status check_places(struct editing *session)
{
    const char *output = session->words->output;
    char log[PATH_ROOM], target[PATH_ROOM], *log_target = session->log_target;
    enum status status = check_and_know(session, output, session->words->kind, target);
    if (status == ACCEPTED)
        status = log_name(session, output, log);
    if (status == ACCEPTED)
        status = target_of(log, log_target);
    if (status == ACCEPTED && (strcmp(target, log_target) == 0 || same_file(target, log_target)))
        return misused("-o and --log name the same file");
    if (status == ACCEPTED && same_file(session->words->file, log_target))
        return misused("%s: is the snapshot itself, and the log would go there", log);
    return status == ACCEPTED ? check_and_know(session, log, LOG_FILE, log_target) : status;
}

enum status begin_session(struct editing *session, const struct edit_words *words)
{
    char log[PATH_ROOM];
    struct log *kept = &session->log;
    session->words = words;
    snap_log_start(kept->steps, sizeof kept->steps, &kept->standing, &kept->total);
    /* known first, then read: what changes between the two is told at the save */
    enum status status = check_places(session);
    if (status == ACCEPTED)
        status = log_name(session, words->file, log);
    if (status != ACCEPTED)
        return status;
    know_input(&session->known, words->file);
    know_input(&session->known, log);
    status = open_to_save(words->file, words->kind, words->format_asked, &session->opened);
    if (status == ACCEPTED && !words->new_log)
        status = load_log(log, &session->opened, words->log != NULL, kept);
    return status;
}

/* A name that is saved under is not the place of a log that --log names, if there is a file or not. */
static enum status check_name(const struct editing *session, const char *name)
{
    char target[PATH_ROOM];
    if (session->words->log == NULL)
        return ACCEPTED;
    enum status status = target_of(name, target);
    if (status == ACCEPTED && (strcmp(target, session->log_target) == 0 || same_file(target, session->log_target)))
        return misused("%s: is the place of the log", name);
    return status;
}

enum status save_session(struct editing *session, const char *name, bool force)
{
    static uint8_t file[SNAP_FILE_MOST], log_file[LOG_FILE_MOST];
    static struct output outputs[2];
    static struct snapshot kept;
    char log[PATH_ROOM];
    enum file_kind kind = session->words->kind;
    enum status status = name != NULL ? check_name(session, name) : ACCEPTED;
    if (status != ACCEPTED)
        return status;
    status = name != NULL ? log_beside_target(name, log) : log_name(session, session->words->output, log);
    name = name != NULL ? name : session->words->output;
    force = force || session->words->force;
    outputs[0] = (struct output){.name = name, .kind = kind, .force = force, .bytes = file};
    outputs[1] = (struct output){.name = log, .kind = LOG_FILE, .force = force, .bytes = log_file};
    /* the log belongs to what the file will be opened as */
    kept_in(kind, &session->opened, &kept);
    outputs[1].length = log_bytes(&kept, &session->log, log_file);
    if (status == ACCEPTED)
        status = snapshot_bytes(name, &session->opened, kind, file, &outputs[0].length);
    if (status == ACCEPTED)
        status = save_files(outputs, 2, &session->known);
    if (outputs[0].renamed)
        session->unsaved = 0;
    if (status == ACCEPTED)
        printf("saved: %s, log: %s\n", shown(name), shown(log));
    return status;
}
