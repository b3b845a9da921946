/* The time, for benchmarks. */
#ifndef CLOCK_H
#define CLOCK_H

#include <stdio.h>
#include <stdlib.h>
#include <time.h>

#define MOST_REPETITIONS 101

static inline double microseconds(void) {
    struct timespec t;
    clock_gettime(CLOCK_MONOTONIC, &t);
    return 1e6 * (double)t.tv_sec + 1e-3 * (double)t.tv_nsec;
}

/* how long a side takes */
static inline double took(void (*side)(void)) {
    double from = microseconds();
    side();
    return microseconds() - from;
}

static inline int by_size(const void *a, const void *b) {
    double x = *(const double *)a, y = *(const double *)b;
    return (x > y) - (x < y);
}

static inline double median(double *times, unsigned n) {
    qsort(times, n, sizeof *times, by_size);
    return times[n / 2];
}

/* the repetitions that an argument asks for */
static inline unsigned medians_of(int argc, char **argv, unsigned otherwise) {
    unsigned long n = argc > 1 ? strtoul(argv[1], NULL, 10) : otherwise;
    unsigned repetitions = n == 0 || n > MOST_REPETITIONS ? 1 : (unsigned)n;
    printf("median of %u\n", repetitions);
    return repetitions;
}

#endif
