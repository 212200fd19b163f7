/*
 * soak SECONDS FILE.., soak --requests N FILE..: requests of many kinds in four slots that are used in turn and never
 * cleared. After each one every byte that it can read out is compared with what its own seed says.
 */
#define _POSIX_C_SOURCE 199309L
#include "soak.h"
#include <stdio.h>
#include <stdlib.h>
#include <string.h>
#include <time.h>

#define SLOTS 4

static struct server_slot slots[SLOTS];
static unsigned long runs[REQUEST_KINDS];

static double now(void)
{
    struct timespec time;
    clock_gettime(CLOCK_MONOTONIC, &time);
    return (double)time.tv_sec + (double)time.tv_nsec / 1e9;
}

static void run_one(void)
{
    uint64_t seed = request.number * 0x2545F4914F6CDD1Du;
    unsigned kind = next(&seed) % REQUEST_KINDS;
    request.kind = kinds[kind].name;
    request.slot = (unsigned)(request.number % SLOTS);
    kinds[kind].run(&slots[request.slot], &seed);
    runs[kind]++;
    request.number++;
}

static void report(double seconds)
{
    printf("%lu requests in %.1f s, %.0f a second, in %d slots\n", request.number, seconds,
           (double)request.number / seconds, SLOTS);
    for (unsigned kind = 0; kind < REQUEST_KINDS; kind++)
        printf("    %-14s%lu\n", kinds[kind].name, runs[kind]);
    printf("%llu bytes checked\n", (unsigned long long)bytes_checked);
    printf("no byte of one request was seen by another\n");
}

int main(int argc, char **argv)
{
    int is_counted = argc > 2 && strcmp(argv[1], "--requests") == 0;
    int first = is_counted ? 3 : 2;
    if (argc <= first) {
        printf("soak SECONDS FILE.. or soak --requests N FILE..\n");
        return 2;
    }
    unsigned long limit = strtoul(argv[first - 1], NULL, 10);
    for (int at = first; at < argc; at++)
        store(argv[at]);
    memset(slots, 0xA5, sizeof slots);
    double start = now();
    while (is_counted ? request.number < limit : now() - start < (double)limit)
        run_one();
    report(now() - start);
    if (is_counted)
        printf("1 passed, 0 failed\n");
    return 0;
}
