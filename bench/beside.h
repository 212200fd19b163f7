/* beside.h: what the programs that time two builds share: the clock, and the median of some rounds. */
#ifndef BESIDE_H
#define BESIDE_H

#include <stdlib.h>
#include <time.h>

enum { ROUNDS = 41 };

static double now(void)
{
    struct timespec t;
    clock_gettime(CLOCK_MONOTONIC, &t);
    return t.tv_sec + t.tv_nsec * 1e-9;
}

static int less(const void *a, const void *b)
{
    double x = *(const double *)a, y = *(const double *)b;
    return (x > y) - (x < y);
}

static double median(double ratio[ROUNDS])
{
    qsort(ratio, ROUNDS, sizeof *ratio, less);
    return ratio[ROUNDS / 2];
}

#endif
