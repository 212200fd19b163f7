/* failing_disk.c: put under the tool with LD_PRELOAD. The calls that save a file are counted; at number FAULT_AT the disk is full
 * (FAULT=full) or the program is killed (FAULT=kill). With FAULT=rename only renames are counted, and that one fails. */
#define _GNU_SOURCE
#include <dlfcn.h>
#include <errno.h>
#include <signal.h>
#include <stdlib.h>
#include <string.h>
#include <sys/types.h>

static int faulty(int is_rename)
{
    static int count;
    const char *at = getenv("FAULT_AT"), *fault = getenv("FAULT");
    if (at == NULL || fault == NULL || (!is_rename && strcmp(fault, "rename") == 0) || ++count != atoi(at))
        return 0;
    if (strcmp(fault, "kill") == 0)
        raise(SIGKILL);
    errno = ENOSPC;
    return 1;
}

#define NEXT(type, name) ((type)dlsym(RTLD_NEXT, name))

int mkstemp(char *name)
{
    return faulty(0) ? -1 : NEXT(int (*)(char *), "mkstemp")(name);
}

/* Half of what is to be written fits before the disk is full. */
ssize_t write(int to, const void *bytes, size_t length)
{
    ssize_t (*next)(int, const void *, size_t) = NEXT(ssize_t (*)(int, const void *, size_t), "write");
    size_t half = length / 2 + 1;
    if (faulty(0))
        return -1;
    return next(to, bytes, half < length ? half : length);
}

int fchmod(int file, mode_t mode)
{
    return faulty(0) ? -1 : NEXT(int (*)(int, mode_t), "fchmod")(file, mode);
}

int fsync(int file)
{
    return faulty(0) ? -1 : NEXT(int (*)(int), "fsync")(file);
}

int rename(const char *from, const char *to)
{
    return faulty(1) ? -1 : NEXT(int (*)(const char *, const char *), "rename")(from, to);
}
