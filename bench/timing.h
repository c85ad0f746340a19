/* Times calls: nanoseconds of processor time, the least of 31 rounds in turn. Its includer asks for clock_gettime. */
#ifndef TIMING_H
#define TIMING_H

#include <stdbool.h>
#include <stddef.h>
#include <stdio.h>
#include <time.h>

enum { ROUNDS = 31 };

static inline double now(void) {
    struct timespec at;
    clock_gettime(CLOCK_PROCESS_CPUTIME_ID, &at);
    return (double)at.tv_sec * 1e9 + (double)at.tv_nsec;
}

/* A call that says whether it did what it had to. */
struct timed {
    const char *name;
    bool (*call)(void);
};

/* The least times of these calls, each made so often in a round; false where one fails, which is named. */
static inline bool time_each(const struct timed *calls, size_t count, size_t repeats, double *least) {
    size_t round, each, repeat;
    for (each = 0; each < count; each++) least[each] = 1e18;
    for (round = 0; round < ROUNDS; round++) {
        for (each = 0; each < count; each++) {
            double taken = now();
            for (repeat = 0; repeat < repeats; repeat++) {
                if (!calls[each].call()) {
                    fprintf(stderr, "%s: another answer\n", calls[each].name);
                    return false;
                }
            }
            taken = (now() - taken) / (double)repeats;
            if (taken < least[each]) least[each] = taken;
        }
    }
    return true;
}

#endif
