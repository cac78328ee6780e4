/* What the measures share. A file that includes this defines _POSIX_C_SOURCE first. */
#ifndef MEASURE_H
#define MEASURE_H

#include <stdint.h>
#include <stdio.h>
#include <stdlib.h>
#include <time.h>

/* Nanoseconds since some point in time. */
static inline double now(void)
{
    struct timespec t;
    clock_gettime(CLOCK_MONOTONIC, &t);
    return (double)t.tv_sec * 1e9 + (double)t.tv_nsec;
}

/* Nanoseconds for which this process had a processor: a system call, so what is measured by it takes many times as long. */
static inline double used(void)
{
    struct timespec t;
    clock_gettime(CLOCK_PROCESS_CPUTIME_ID, &t);
    return (double)t.tv_sec * 1e9 + (double)t.tv_nsec;
}

/* Keeps the least of several times, since others use the machine too. */
static inline void keep_least(double *least, double spent)
{
    if (spent < *least)
        *least = spent;
}

/* The number that an argument is, or another one where there is none. */
static inline int number_of(int words, char **word, int at, int otherwise)
{
    return words > at ? atoi(word[at]) : otherwise;
}

#endif
