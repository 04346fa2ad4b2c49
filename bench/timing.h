/*
 * Timing of several implementations of the same work, in rounds: each round
 * times every row, and within a row each implementation in turn.
 */
#ifndef BENCH_TIMING_H
#define BENCH_TIMING_H

#include <stddef.h>

#define ROUNDS 41
#define RIVALS 3 /* implementations in a row at most */

/* Does the work on the inputs as many times as `passes` says. */
typedef void (*timed_work)(const void *inputs, size_t passes);

/* One line of a table. */
struct row {
    const char *name;
    timed_work work[RIVALS]; /* NULL where there is none; the first is ours */
    const void *inputs;      /* the same for all of them */
    double units;            /* headers or bytes in one pass */
    size_t passes[RIVALS];   /* chosen so that one timing takes long enough */
    double ns[RIVALS][ROUNDS]; /* nanoseconds per unit */
};

/* Times all rows in all rounds. */
void time_rows(struct row *rows, size_t count);

/* The least of an implementation's rounds, in nanoseconds per unit: the round that
 * other work on the machine got into least. */
double least_ns(const struct row *row, size_t rival);

/* Between which ratios of the first implementation to the second the middle half
 * of the rounds lies. */
void middle_ratios(const struct row *row, double *low, double *high);

#endif
