/* What the benchmarks share: the clock, the end of a run whose results differ, and tables. */
#ifndef MEASURE_H
#define MEASURE_H

#include <stdint.h>
#include <stdio.h>
#include <stdlib.h>
#include <string.h>
#include <time.h>

/* The processor time that the program has taken so far. */
static inline double seconds(void) {
    struct timespec t;
    clock_gettime(CLOCK_PROCESS_CPUTIME_ID, &t);
    return t.tv_sec + 1e-9 * t.tv_nsec;
}

static inline void must(int holds) {
    if (!holds) {
        printf("the results differ\n");
        exit(1);
    }
}

/* Xorshift. */
static inline uint64_t next(void) {
    static uint64_t x = 88172645463325252u;
    x ^= x << 13;
    x ^= x >> 7;
    x ^= x << 17;
    return x;
}

/* A table of n items whose times are all different. */
static inline void fill(uint64_t *times, uint8_t *ids, size_t n) {
    for (size_t i = 0; i < n; i++) {
        times[i] = 1700000000 + 1000 * i + next() % 1000;
        for (size_t j = 0; j < 32; j += 8) {
            uint64_t word = next();
            memcpy(ids + 32 * i + j, &word, 8);
        }
    }
}

#endif
