/* streams.c: standard input and standard output, which a - stands for; a file called - is ./-. */
#define _POSIX_C_SOURCE 200809L
#include <string.h>
#include <unistd.h>

#include "tool.h"

bool is_stream(const char *path)
{
    return strcmp(path, "-") == 0;
}

const char *input_name(const char *path)
{
    return is_stream(path) ? "standard input" : path;
}

enum status check_output(const char *path)
{
    if (is_stream(path) && isatty(STDOUT_FILENO))
        return misused("standard output: is a terminal, and what is written is not text");
    return ACCEPTED;
}

enum status output_bytes(const char *path, enum file_kind kind, bool force, const uint8_t *bytes, size_t length)
{
    struct output output = {.name = path, .kind = kind, .force = force, .bytes = bytes, .length = length};
    if (!is_stream(path))
        return save_files(&output, 1, NULL);
    /* a failure is told when standard output is flushed */
    fwrite(bytes, 1, length, stdout);
    return ACCEPTED;
}

enum status output_snapshot(const char *path, const struct snapshot *opened, enum file_kind kind, bool force)
{
    static uint8_t file[SNAP_FILE_MOST];
    size_t length;
    enum status status = snapshot_bytes(is_stream(path) ? "standard output" : path, opened, kind, file, &length);
    return status == ACCEPTED ? output_bytes(path, kind, force, file, length) : status;
}
