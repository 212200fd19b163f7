/* places.c: where files are saved: the file that a name leads to, what stands there, and whether it may be replaced. */
#define _XOPEN_SOURCE 700
#include <errno.h>
#include <fcntl.h>
#include <limits.h>
#include <stdlib.h>
#include <string.h>
#include <sys/stat.h>
#include <unistd.h>
#include <zlib.h>

#include "tool.h"

#if PATH_MAX > PATH_ROOM
#error "PATH_ROOM is the longest path of the system"
#endif

void folder_of(const char *target, char folder[PATH_ROOM])
{
    const char *slash = strrchr(target, '/');
    snprintf(folder, PATH_ROOM, "%.*s", slash == target ? 1 : (int)(slash - target), target);
}

/* The place of a file that is not there, in a folder that is. */
static enum status new_target(const char *name, char target[PATH_ROOM])
{
    const char *slash = strrchr(name, '/'), *last = slash == NULL ? name : slash + 1;
    char folder[PATH_ROOM];
    if (last[0] == 0)
        return cannot(name, "is the name of a directory");
    if (snprintf(folder, sizeof folder, "%.*s", (int)(last - name), name) >= (int)sizeof folder)
        return cannot(name, "the name is too long");
    if (realpath(slash == NULL ? "." : folder, target) == NULL)
        return cannot_write(name);
    size_t length = strlen(target), room = PATH_ROOM - length;
    if (snprintf(target + length, room, "%s%s", length > 1 ? "/" : "", last) >= (int)room)
        return cannot(name, "the name is too long");
    return ACCEPTED;
}

/* What is no regular file is never replaced. */
static enum status check_regular(const char *name, const char *target)
{
    struct stat about;
    if (stat(target, &about) != 0)
        return errno == ENOENT ? ACCEPTED : cannot_write(name);
    if (S_ISREG(about.st_mode))
        return ACCEPTED;
    return cannot(name, S_ISDIR(about.st_mode) ? "is a directory" : "is a pipe or a device, not a file");
}

enum status target_of(const char *name, char target[PATH_ROOM])
{
    struct stat about;
    if (name[0] == 0)
        return cannot("''", "cannot be written: the name is empty");
    if (realpath(name, target) == NULL) {
        if (errno != ENOENT)
            return cannot_write(name);
        if (lstat(name, &about) == 0)
            return cannot(name, "cannot be written: it is a link that leads to nothing");
        return new_target(name, target);
    }
    return check_regular(name, target);
}

bool same_file(const char *one, const char *other)
{
    struct stat first, second;
    return stat(one, &first) == 0 && stat(other, &second) == 0 && first.st_dev == second.st_dev
        && first.st_ino == second.st_ino;
}

/* What stood at the target that was looked at last; of a file that is longer than any that is opened, the beginning. */
static uint8_t seen[INPUT_MOST + 1];
static size_t seen_length;

struct file_state state_of_bytes(const uint8_t *bytes, size_t length)
{
    return (struct file_state){.present = true, .length = length, .sum = (uint32_t)crc32(0, bytes, (uInt)length)};
}

bool look_at(const char *target, struct file_state *state)
{
    struct stat about;
    *state = (struct file_state){0};
    int from = open(target, O_RDONLY | O_NONBLOCK | O_CLOEXEC);
    if (from < 0)
        return errno == ENOENT;
    long got = fstat(from, &about) == 0 && S_ISREG(about.st_mode) ? read_up_to(from, seen, sizeof seen) : -1;
    close(from);
    if (got < 0)
        return false;
    seen_length = (size_t)got;
    *state = state_of_bytes(seen, seen_length);
    state->length = (uint64_t)about.st_size;
    return true;
}

/* Of the two formats neither replaces the other: a name would no longer fit, and an SCS file holds less. What is saved is not
   wrapped, so it does not replace what is. */
static enum status check_format(const char *name, enum file_kind kind)
{
    static struct snapshot found;
    if (seen_length == 0)
        return ACCEPTED;
    struct taking taken = take_snapshot(seen, seen_length, &found);
    if (!is_accepted(&taken))
        return cannot(name, "is there and is no snapshot; only --force replaces it");
    if (found.kind == kind && found.unwrapped == 0)
        return ACCEPTED;
    if (found.kind == kind)
        return cannot(name, "is there and is in gzip; what is saved is not, so only --force replaces it");
    return cannot(name, kind == SCS_FILE ? "is there and is a .Z80 file; only --force replaces it by an SCS file"
                                         : "is there and is an SCS file; '--format scs' saves one, and only --force"
                                           " replaces it by a .Z80 file");
}

static bool is_picture(void)
{
    return seen_length == 0 || (seen_length >= 8 && memcmp(seen, "\x89PNG\r\n\x1A\n", 8) == 0);
}

static bool is_screen(void)
{
    return seen_length == 0 || seen_length == SCREEN_SIZE;
}

/* The permission bits decide for root too, by the owner's bit. */
static bool may_write(const char *target)
{
    struct stat about;
    if (geteuid() == 0 && stat(target, &about) == 0 && (about.st_mode & S_IWUSR) == 0)
        return false;
    return faccessat(AT_FDCWD, target, W_OK, AT_EACCESS) == 0;
}

static enum status check_kind(const char *name, enum file_kind kind, bool force)
{
    if (kind == LOG_FILE)
        return check_log(name, seen, seen_length);
    if ((kind == Z80_FILE || kind == SCS_FILE) && !force)
        return check_format(name, kind);
    if (kind == PICTURE_FILE && !force && !is_picture())
        return cannot(name, "is there and is no PNG; only --force replaces it");
    if (kind == SCREEN_FILE && !force && !is_screen())
        return cannot(name, "is there and is no screen of 6,912 bytes; only --force replaces it");
    return ACCEPTED;
}

/* In a folder with the sticky bit a file is replaced by its owner, or by the folder's. */
static bool may_rename_over(const char *folder, const char *target)
{
    struct stat around, about;
    uid_t user = geteuid();
    if (user == 0 || stat(folder, &around) != 0 || stat(target, &about) != 0)
        return true;
    return (around.st_mode & S_ISVTX) == 0 || user == around.st_uid || user == about.st_uid;
}

enum status check_target(const char *name, const char *target, enum file_kind kind, bool force, struct file_state *state)
{
    char folder[PATH_ROOM];
    folder_of(target, folder);
    if (faccessat(AT_FDCWD, folder, W_OK | X_OK, AT_EACCESS) != 0)
        return cannot_write(name);
    if (!may_rename_over(folder, target))
        return cannot(name, "cannot be written: it is another user's, in a folder where only owners replace files");
    enum status status = check_regular(name, target);
    if (status == ACCEPTED && !look_at(target, state) && (!force || kind == LOG_FILE))
        status = cannot_errno(name, "cannot be read");
    if (status == ACCEPTED && state->present)
        status = check_kind(name, kind, force);
    if (status == ACCEPTED && state->present && !force && !may_write(target))
        status = cannot(name, "may not be written, by its permissions; only --force replaces it");
    return status;
}
