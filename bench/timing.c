#define _POSIX_C_SOURCE 200809L
#include "timing.h"

#include <stdlib.h>
#include <time.h>

#define ENOUGH_NS 3e6 /* how long one timing takes at least */

/* Processor time used so far, in nanoseconds. */
static double now_ns(void)
{
    struct timespec t;
    clock_gettime(CLOCK_PROCESS_CPUTIME_ID, &t);
    return (double)t.tv_sec * 1e9 + (double)t.tv_nsec;
}

static double elapsed_ns(const struct row *row, size_t rival)
{
    double start = now_ns();
    row->work[rival](row->inputs, row->passes[rival]);
    return now_ns() - start;
}

/* The shortest of a few timings: one that nothing else got into. */
static double undisturbed_ns(const struct row *row, size_t rival)
{
    double shortest = elapsed_ns(row, rival);
    int more;
    for (more = 0; more < 4; more++) {
        double ns = elapsed_ns(row, rival);
        if (ns < shortest)
            shortest = ns;
    }
    return shortest;
}

/* Doubles the passes until a timing is long enough. */
static void choose_passes(struct row *row, size_t rival)
{
    row->passes[rival] = 1;
    while (undisturbed_ns(row, rival) < ENOUGH_NS)
        row->passes[rival] *= 2;
}

static void time_row(struct row *row, size_t round)
{
    size_t i;
    for (i = 0; i < RIVALS; i++) {
        size_t rival = (i + round) % RIVALS; /* another one first each round */
        if (row->work[rival] == NULL)
            continue;
        row->ns[rival][round] =
            elapsed_ns(row, rival) / ((double)row->passes[rival] * row->units);
    }
}

void time_rows(struct row *rows, size_t count)
{
    size_t round, i, rival;
    for (i = 0; i < count; i++)
        for (rival = 0; rival < RIVALS; rival++)
            if (rows[i].work[rival] != NULL)
                choose_passes(&rows[i], rival);
    for (round = 0; round < ROUNDS; round++)
        for (i = 0; i < count; i++)
            time_row(&rows[i], round);
}

static int compare(const void *x, const void *y)
{
    double a = *(const double *)x, b = *(const double *)y;
    return (a > b) - (a < b);
}

static void sort(double *values)
{
    qsort(values, ROUNDS, sizeof values[0], compare);
}

double least_ns(const struct row *row, size_t rival)
{
    double least = row->ns[rival][0];
    size_t round;
    for (round = 1; round < ROUNDS; round++)
        if (row->ns[rival][round] < least)
            least = row->ns[rival][round];
    return least;
}

void middle_ratios(const struct row *row, double *low, double *high)
{
    double ratios[ROUNDS];
    size_t round;
    for (round = 0; round < ROUNDS; round++)
        ratios[round] = row->ns[0][round] / row->ns[1][round];
    sort(ratios);
    *low = ratios[ROUNDS / 4];
    *high = ratios[ROUNDS - 1 - ROUNDS / 4];
}
