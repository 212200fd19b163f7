/* saving.c: files are written under temporary names, synced, and renamed together while their folders are locked: until
 * then, and if it fails, what stood there is whole. */
#define _XOPEN_SOURCE 700
#include <errno.h>
#include <fcntl.h>
#include <signal.h>
#include <stdlib.h>
#include <string.h>
#include <sys/file.h>
#include <sys/stat.h>
#include <time.h>
#include <unistd.h>

#include "tool.h"

static bool write_all(int to, const uint8_t *bytes, size_t length)
{
    while (length > 0) {
        ssize_t put = write(to, bytes, length);
        if (put < 0 && errno != EINTR)
            return false;
        if (put > 0) {
            bytes += put;
            length -= (size_t)put;
        }
    }
    return true;
}

/* The owner, group and permissions of a pattern, or where it is not there those of a new file. Where they cannot be set, as on
   a FAT disk or by another user, they stay as they are made. Set-id bits are not kept. */
static void set_owner_and_permissions(int to, const char *pattern)
{
    struct stat about;
    mode_t mask = umask(0);
    umask(mask);
    if (stat(pattern, &about) != 0) {
        fchmod(to, 0666 & ~mask);
        return;
    }
    if (fchown(to, about.st_uid, about.st_gid) == 0 || fchown(to, (uid_t)-1, about.st_gid) == 0)
        errno = 0;
    fchmod(to, about.st_mode & 0777);
}

/* What is replaced; for a new log it is the snapshot that it is saved with. */
static const char *pattern_of(const struct output *outputs, unsigned at)
{
    struct stat about;
    bool new_log = at > 0 && outputs[at].kind == LOG_FILE && stat(outputs[at].target, &about) != 0;
    return new_log ? outputs[0].temporary : outputs[at].target;
}

static enum status make_temporary(struct output *output, const char *pattern)
{
    char folder[PATH_ROOM];
    folder_of(output->target, folder);
    if (snprintf(output->temporary, PATH_ROOM, "%s/snapshot.XXXXXX", folder) >= PATH_ROOM)
        return cannot(output->name, "the name is too long");
    int to = mkstemp(output->temporary);
    if (to < 0)
        return cannot_write(output->name);
    set_owner_and_permissions(to, pattern);
    bool there = write_all(to, output->bytes, output->length) && fsync(to) == 0;
    int why = errno;
    if (close(to) != 0 && there) {
        there = false;
        why = errno;
    }
    if (there)
        return ACCEPTED;
    unlink(output->temporary);
    errno = why;
    return cannot_write(output->name);
}

/* False where another program keeps the lock; where a folder cannot be locked at all, as on some disks, it goes without. */
static bool lock(int folder)
{
    const struct timespec pause = {.tv_nsec = 50000000};
    for (unsigned tries = 0; folder >= 0 && flock(folder, LOCK_EX | LOCK_NB) != 0; tries++) {
        if (errno != EWOULDBLOCK)
            return true;
        if (tries == 20)
            return false;
        nanosleep(&pause, NULL);
    }
    return true;
}

static int open_folder(const struct output *output, struct stat *about)
{
    char folder[PATH_ROOM];
    folder_of(output->target, folder);
    int opened = open(folder, O_RDONLY | O_DIRECTORY | O_CLOEXEC);
    if (opened >= 0 && fstat(opened, about) == 0)
        return opened;
    if (opened >= 0)
        close(opened);
    return -1;
}

/* Opens the folders of one or two files, each folder once, in an order that is the same in every run; -1 for none. */
static void open_folders(const struct output *outputs, unsigned count, int folders[2])
{
    struct stat first, second;
    folders[0] = open_folder(&outputs[0], &first);
    folders[1] = count == 2 ? open_folder(&outputs[1], &second) : -1;
    if (folders[0] < 0 || folders[1] < 0)
        return;
    if (first.st_dev == second.st_dev && first.st_ino == second.st_ino) {
        close(folders[1]);
        folders[1] = -1;
    } else if (second.st_dev < first.st_dev || (second.st_dev == first.st_dev && second.st_ino < first.st_ino)) {
        int later = folders[0];
        folders[0] = folders[1];
        folders[1] = later;
    }
}

/* A name is on the disk only when its folder is; where a folder cannot be synced, the file is still whole. */
static void close_folders(const int folders[2])
{
    for (unsigned at = 0; at < 2; at++) {
        if (folders[at] < 0)
            continue;
        flock(folders[at], LOCK_UN);
        fsync(folders[at]);
        close(folders[at]);
    }
}

static enum status check_unchanged(const struct output *output, struct known_file **known)
{
    struct file_state state;
    enum status status = check_target(output->name, output->target, output->kind, output->force, &state);
    const char *sentence = NULL;
    if (status == ACCEPTED && known != NULL && !output->force)
        sentence = changed(*known, output->target, &state);
    return sentence == NULL ? status : cannot(output->name, sentence);
}

static enum status rename_all(struct output *outputs, unsigned count, struct known_file **known)
{
    for (unsigned at = 0; at < count; at++) {
        struct output *output = &outputs[at];
        if (rename(output->temporary, output->target) != 0) {
            enum status status = cannot_write(output->name);
            if (at > 0)
                warn(outputs[0].name, "is saved, but %s is still as it was", shown(output->name));
            return status;
        }
        output->renamed = true;
        if (known != NULL)
            know(known, output->target, state_of_bytes(output->bytes, output->length));
    }
    return ACCEPTED;
}

static enum status put_in_place(struct output *outputs, unsigned count, struct known_file **known)
{
    int folders[2];
    enum status status = ACCEPTED;
    open_folders(outputs, count, folders);
    if (!lock(folders[0]) || !lock(folders[1]))
        status = cannot(outputs[0].name, "cannot be written: another program is saving there; try again");
    for (unsigned at = 0; at < count && status == ACCEPTED; at++)
        status = check_unchanged(&outputs[at], known);
    if (status == ACCEPTED)
        status = rename_all(outputs, count, known);
    close_folders(folders);
    return status;
}

enum status save_files(struct output *outputs, unsigned count, struct known_file **known)
{
    enum status status = ACCEPTED;
    for (unsigned at = 0; at < count && status == ACCEPTED; at++)
        status = target_of(outputs[at].name, outputs[at].target);
    if (status == ACCEPTED && count == 2 && strcmp(outputs[0].target, outputs[1].target) == 0)
        status = misused("%s: the log cannot be in the same file", outputs[0].name);
    if (status != ACCEPTED)
        return status;
    /* an interrupt waits until the temporary files are renamed or gone */
    sigset_t all, before;
    unsigned made = 0;
    sigfillset(&all);
    sigprocmask(SIG_BLOCK, &all, &before);
    for (; made < count && status == ACCEPTED; made += status == ACCEPTED)
        status = make_temporary(&outputs[made], pattern_of(outputs, made));
    if (status == ACCEPTED)
        status = put_in_place(outputs, count, known);
    while (made-- > 0)
        if (!outputs[made].renamed)
            unlink(outputs[made].temporary);
    sigprocmask(SIG_SETMASK, &before, NULL);
    return status;
}

enum status snapshot_bytes(const char *path, const struct snapshot *opened, enum file_kind kind, uint8_t file[SNAP_FILE_MOST],
                           size_t *length)
{
    uint64_t written;
    uint32_t number = (kind == SCS_FILE ? snap_scs_write : snap_z80_write)(
        opened->header, sizeof opened->header, opened->area, sizeof opened->area, file, SNAP_FILE_MOST, &written);
    *length = (size_t)written;
    return number == SNAP_ACCEPTED ? ACCEPTED : refused(path, number);
}
