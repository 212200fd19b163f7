/* late_reads.c: put under the tool with LD_PRELOAD. A read from standard input that would have to wait begins a fifth of a second
   late, as on a machine with much to do. */
#define _GNU_SOURCE
#include <dlfcn.h>
#include <errno.h>
#include <poll.h>
#include <time.h>
#include <unistd.h>

typedef ssize_t reads(int from, void *bytes, size_t most);

ssize_t read(int from, void *bytes, size_t most)
{
    reads *next = (reads *)dlsym(RTLD_NEXT, "read");
    struct pollfd input = {.fd = from, .events = POLLIN};
    struct timespec left = {.tv_nsec = 200000000};
    if (from == STDIN_FILENO && poll(&input, 1, 0) == 0)
        while (nanosleep(&left, &left) != 0 && errno == EINTR)
            continue;
    return next(from, bytes, most);
}
