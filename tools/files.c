/* files.c: bounded reading. */
#define _XOPEN_SOURCE 700
#include <errno.h>
#include <fcntl.h>
#include <sys/stat.h>
#include <unistd.h>

#include "tool.h"

long read_up_to(int from, uint8_t *bytes, size_t room)
{
    size_t length = 0;
    while (length < room) {
        ssize_t got = read(from, bytes + length, room - length);
        if (got == 0)
            break;
        if (got < 0 && errno != EINTR)
            return -1;
        if (got > 0)
            length += (size_t)got;
    }
    return (long)length;
}

static enum status read_stream(int from, const char *name, uint8_t *bytes, size_t room, size_t *length)
{
    long got = read_up_to(from, bytes, room);
    *length = got < 0 ? 0 : (size_t)got;
    return got < 0 ? unread_errno(name, "cannot be read") : ACCEPTED;
}

static enum status read_regular(const char *path, uint8_t *bytes, size_t room, size_t *length)
{
    struct stat about;
    *length = 0;
    /* not blocking, so that a pipe without a writer is answered too */
    int from = open(path, O_RDONLY | O_NONBLOCK | O_CLOEXEC);
    if (from < 0)
        return unread_errno(path, "cannot be opened");
    enum status status;
    if (fstat(from, &about) != 0)
        status = unread_errno(path, "cannot be read");
    else if (S_ISDIR(about.st_mode))
        status = unread(path, "is a directory");
    else if (!S_ISREG(about.st_mode))
        status = unread(path, "is a pipe or a device, not a file");
    else
        status = read_stream(from, path, bytes, room, length);
    close(from);
    return status;
}

enum status read_bounded(const char *path, uint8_t *bytes, size_t most, size_t *length)
{
    enum status status = read_regular(path, bytes, most + 1, length);
    return status == ACCEPTED && *length > most ? unread(path, "longer than any file of its kind") : status;
}

enum status take_input(const char *path, struct snapshot *opened, struct taking *taken)
{
    static uint8_t file[INPUT_MOST + 1];
    size_t length;
    const char *name = input_name(path);
    enum status status = name != path ? read_stream(STDIN_FILENO, name, file, sizeof file, &length)
                                      : read_regular(path, file, sizeof file, &length);
    if (status != ACCEPTED)
        return status;
    *taken = take_snapshot(file, length, opened);
    return taken->fault != NULL ? unread(name, taken->fault) : ACCEPTED;
}

enum status open_to_look(const char *path, struct snapshot *opened)
{
    struct taking taken;
    enum status status = take_input(path, opened, &taken);
    if (status != ACCEPTED)
        return status;
    return is_accepted(&taken) ? ACCEPTED : refused_file(input_name(path), &taken);
}

enum status open_to_save(const char *path, enum file_kind kind, bool format_asked, struct snapshot *opened)
{
    static struct snapshot kept;
    enum status status = open_to_look(path, opened);
    if (status != ACCEPTED)
        return status;
    if (opened->says_16k)
        warn(input_name(path), "says 16K; it is written as a 48K");
    if (opened->kind == SCS_FILE && !format_asked)
        warn(input_name(path), "is an SCS file; it is saved as a .Z80 file, and '--format scs' keeps it one");
    kept_in(kind, opened, &kept);
    tell_changes(input_name(path), opened, &kept);
    return ACCEPTED;
}
