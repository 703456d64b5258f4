/*
 * What the measurements against plain C have in common: seeded numbers, and the
 * rounds in which two implementations are timed in turn.
 */
#ifndef ROUNDS_H
#define ROUNDS_H

#define _POSIX_C_SOURCE 199309L
#include <stdint.h>
#include <stdio.h>
#include <stdlib.h>
#include <string.h>
#include <time.h>

#define ROUNDS 41

/* splitmix64 */
static uint64_t next(uint64_t *state)
{
    uint64_t z = *state += UINT64_C(0x9e3779b97f4a7c15);
    z = (z ^ z >> 30) * UINT64_C(0xbf58476d1ce4e5b9);
    z = (z ^ z >> 27) * UINT64_C(0x94d049bb133111eb);
    return z ^ z >> 31;
}

/* Calls one implementation as often as a round has calls. */
typedef void calls(void);

/* Nanoseconds of one call, the mean of a round. */
static double time_round(calls *f, int count)
{
    struct timespec from, to;

    clock_gettime(CLOCK_MONOTONIC, &from);
    f();
    clock_gettime(CLOCK_MONOTONIC, &to);
    return ((double)(to.tv_sec - from.tv_sec) * 1e9 + (double)(to.tv_nsec - from.tv_nsec)) / count;
}

static int ascending(const void *a, const void *b)
{
    double x = *(const double *)a, y = *(const double *)b;
    return (x > y) - (x < y);
}

static double median(double *times)
{
    qsort(times, ROUNDS, sizeof times[0], ascending);
    return times[ROUNDS / 2];
}

/*
 * Times rounds of both in turn, of so many calls each, and prints the median
 * time of one call by each and their ratio, behind what the caller has printed
 * of the call.
 */
static void compare_rounds(int inputs, int count, const char *name,
                           calls *ours, calls *plain)
{
    static double our_times[ROUNDS], plain_times[ROUNDS];

    time_round(ours, count);
    time_round(plain, count);
    for (int i = 0; i < ROUNDS; i++) {
        /* Each goes first in every other round. */
        if (i % 2 == 0)
            our_times[i] = time_round(ours, count);
        plain_times[i] = time_round(plain, count);
        if (i % 2 != 0)
            our_times[i] = time_round(ours, count);
    }

    double a = median(our_times), b = median(plain_times);
    printf("median of %d rounds of %d, %d inputs\n", ROUNDS, count, inputs);
    printf("%-8s   %8.1f ns\n", name, a);
    printf("%-8s   %8.1f ns\n", "plain C", b);
    printf("%s / plain C = %.2f\n", name, a / b);
}

#endif
