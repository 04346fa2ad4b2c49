/*
 * Tests of the C library's bench for latency settings (document 02, Ask 7): runs
 * by hand, both refusals at their edges and in their order, the buffer of packets
 * that wait, and random counts held to a bench that is worked out here tick by
 * tick.
 *
 * Counts and buffers lie between guards, and after each call they are compared
 * whole with what they should hold.
 */
#include "barzhilup.h"

#include <stdio.h>
#include <string.h>

#define COUNTS BARZHILUP_COUNTS_MAX
#define MOST_TICKS (32 * COUNTS)
#define GUARD 5

/* ---- Counting ------------------------------------------------------------ */

static unsigned long checks, failed, checks_before;

/* One check; `which` tells the cases of one kind apart. */
static void check(int holds, const char *what, unsigned long which)
{
    checks++;
    if (holds)
        return;
    failed++;
    if (failed <= 20)
        printf("  WRONG: %s, case %lu\n", what, which);
}

/* Says how many checks were made since the last call. */
static void report(const char *what)
{
    printf("  %s: %lu checks\n", what, checks - checks_before);
    checks_before = checks;
}

/* ---- Repeatable random numbers ------------------------------------------- */

static uint32_t state = 521288629u;

static uint32_t random_below(uint32_t n)
{
    state ^= state << 13;
    state ^= state >> 17;
    state ^= state << 5;
    return state % n;
}

/* ---- What is lent -------------------------------------------------------- */

/* Counts between guards, and as they were before a call. */
static uint32_t lent[COUNTS + 1 + 2 * GUARD], before[COUNTS + 1 + 2 * GUARD];

/* The counts that are lent. */
static uint32_t *const counts = lent + GUARD;

/* Keeps what is lent, for the comparison after the calls. */
static void keep(void)
{
    size_t i;
    for (i = 0; i < GUARD; i++) {
        lent[i] = random_below(1000);
        lent[GUARD + COUNTS + 1 + i] = random_below(1000);
    }
    memcpy(before, lent, sizeof lent);
}

/* Whether what was lent is as it was. */
static int kept(void)
{
    return memcmp(before, lent, sizeof lent) == 0;
}

/* ---- The bench, tick by tick --------------------------------------------- */

static uint32_t waits[MOST_TICKS];

/* A run of `count` counts, n ticks apart: what a call has to answer; the packets
 * that wait at each tick go to `waits`. */
static barzhilup_latency_trial bench(size_t count, uint32_t n, uint32_t latency)
{
    barzhilup_latency_trial trial = {0, 0, 0, 0, 0};
    uint32_t waiting = 0;
    for (; trial.ticks < count * n; trial.ticks++) {
        if (trial.ticks % n == 0)
            waiting += counts[trial.ticks / n];
        waits[trial.ticks] = waiting;
        if (trial.most_waiting < waiting)
            trial.most_waiting = waiting;
        if (trial.ticks >= 2 * latency) {
            if (waiting > 0)
                waiting--;
            else if (trial.dry++ == 0)
                trial.first_dry = trial.ticks;
        }
    }
    return trial;
}

static int same(barzhilup_latency_trial a, barzhilup_latency_trial b)
{
    return a.refusal == b.refusal && a.ticks == b.ticks && a.dry == b.dry
           && a.first_dry == b.first_dry && a.most_waiting == b.most_waiting;
}

/* Compares all calls on the counts that are lent; the mode and stream have N n. */
static void compare(uint8_t mode, uint8_t stream, size_t count, uint32_t n, unsigned long which)
{
    barzhilup_latency_answer answer;
    uint32_t smallest = 8, v;
    keep();
    answer = barzhilup_smallest_latency(mode, stream, counts, count);
    for (v = 0; v < 8; v++) {
        const barzhilup_latency_trial wanted = bench(count, n, v);
        if (wanted.dry == 0 && v < smallest)
            smallest = v;
        check(same(wanted, barzhilup_try_latency(mode, stream, counts, count, (uint8_t)v)), "a trial", which);
    }
    check(answer.refusal == 0, "taken", which);
    check(answer.found == (smallest < 8), "whether one is found", which);
    check(answer.latency == (smallest < 8 ? smallest : 0), "the smallest latency", which);
    check(kept(), "the counts stay", which);
}

/* ---- The tests ----------------------------------------------------------- */

/* Runs by hand: mode, stream, N, counts up to an entry over 63, and the smallest
 * latency, 8 for none. */
static const struct {
    uint8_t mode, stream;
    uint32_t n, counts[6], smallest;
} runs[] = {
    {1, 0, 4, {0, 99}, 2},
    {1, 0, 4, {3, 99}, 1},
    {13, 0, 4, {4, 4, 99}, 0},
    {10, 1, 4, {3, 5, 99}, 1},
    {2, 0, 4, {0, 0, 0, 99}, 6},
    {3, 0, 4, {0, 0, 0, 2, 99}, 7},
    {3, 0, 4, {0, 0, 0, 0, 99}, 8},
    {0, 0, 32, {0, 99}, 8},
    {10, 0, 32, {31, 33, 99}, 1},
    {1, 1, 32, {31, 33, 99}, 1},
    {1, 0, 4, {63, 99}, 0},
};

static void by_hand(void)
{
    unsigned long i;
    for (i = 0; i < sizeof runs / sizeof runs[0]; i++) {
        size_t count = 0;
        barzhilup_latency_answer answer;
        for (; runs[i].counts[count] <= 63; count++)
            counts[count] = runs[i].counts[count];
        answer = barzhilup_smallest_latency(runs[i].mode, runs[i].stream, counts, count);
        check(answer.refusal == 0 && answer.found == (runs[i].smallest < 8), "a run by hand", i);
        check(answer.latency == (runs[i].smallest < 8 ? runs[i].smallest : 0), "its latency", i);
        compare(runs[i].mode, runs[i].stream, count, runs[i].n, i);
    }
    report("runs by hand");
}

/* Checks that all three calls refuse the counts that are lent, and change
 * nothing. */
static void refuses(uint8_t mode, uint8_t stream, size_t count, uint32_t number, unsigned long which)
{
    uint32_t waiting[3] = {7, 8, 9};
    barzhilup_latency_answer answer;
    barzhilup_latency_trial trial;
    barzhilup_waiting_answer shown;
    const barzhilup_latency_trial refused = {number, 0, 0, 0, 0};
    keep();
    answer = barzhilup_smallest_latency(mode, stream, counts, count);
    trial = barzhilup_try_latency(mode, stream, counts, count, 3);
    shown = barzhilup_waiting_packets(mode, stream, counts, count, 3, 0, waiting, 3);
    check(answer.refusal == number && !answer.found && answer.latency == 0, "refused, the smallest", which);
    check(same(trial, refused), "refused, a trial", which);
    check(shown.refusal == number && shown.count == 0, "refused, packets that wait", which);
    check(waiting[0] == 7 && waiting[1] == 8 && waiting[2] == 9, "refused, the buffer", which);
    check(kept(), "refused, the counts", which);
}

static void refusals(void)
{
    unsigned long mode, stream;
    memset(lent, 0, sizeof lent);
    for (mode = 0; mode < 256; mode++)
        for (stream = 0; stream < 256; stream++) {
            const int sevens = (stream == 0 && ((mode >= 1 && mode <= 3) || mode == 13)) || (stream == 1 && mode == 10);
            const int ones = (stream == 0 && (mode == 0 || mode == 10)) || (stream == 1 && mode >= 1 && mode <= 3);
            const barzhilup_latency_trial trial = barzhilup_try_latency((uint8_t)mode, (uint8_t)stream, counts, 2, 0);
            check(trial.refusal == (sevens || ones ? 0u : 5u), "5", mode * 256 + stream);
            check(trial.ticks == (sevens ? 8u : ones ? 64u : 0u), "N", mode * 256 + stream);
        }
    refuses(0, 0, 0, BARZHILUP_REFUSED_COUNTS, 0);
    refuses(0, 0, COUNTS + 1, BARZHILUP_REFUSED_COUNTS, 1);
    refuses(4, 0, 0, BARZHILUP_REFUSED_MODE, 2);
    refuses(4, 0, COUNTS + 1, BARZHILUP_REFUSED_MODE, 3);
    counts[0] = 64;
    refuses(1, 0, 1, BARZHILUP_REFUSED_COUNTS, 4);
    refuses(13, 1, 1, BARZHILUP_REFUSED_MODE, 5);
    counts[0] = 0xffffffff;
    refuses(1, 0, 1, BARZHILUP_REFUSED_COUNTS, 6);
    counts[0] = 63;
    counts[COUNTS - 1] = 64;
    refuses(10, 1, COUNTS, BARZHILUP_REFUSED_COUNTS, 7);
    check(barzhilup_smallest_latency(10, 1, counts, COUNTS - 1).refusal == 0, "the count after the last", 0);
    counts[COUNTS - 1] = 63;
    compare(10, 1, COUNTS, 4, 8);
    compare(10, 0, COUNTS, 32, 9);
    report("refusals 5 and 21");
}

/* The packets that wait, for every first tick and room around the ends of a run. */
static void shown(void)
{
    static uint32_t row[MOST_TICKS + 2 * GUARD], wanted[MOST_TICKS + 2 * GUARD];
    unsigned long cases = 0;
    uint32_t v;
    size_t first, room, i;
    counts[0] = 3;
    counts[1] = 5;
    counts[2] = 0;
    for (v = 0; v < 8; v++)
        for (first = 0; first < 15; first++)
            for (room = 0; room < 15; room++, cases++) {
                barzhilup_waiting_answer answer;
                size_t some = first < 12 ? 12 - first : 0;
                if (room < some)
                    some = room;
                bench(3, 4, v);
                for (i = 0; i < 15 + 2 * GUARD; i++)
                    row[i] = wanted[i] = random_below(1000);
                for (i = 0; i < some; i++)
                    wanted[GUARD + i] = waits[first + i];
                keep();
                answer = barzhilup_waiting_packets(1, 0, counts, 3, (uint8_t)v, first, row + GUARD, room);
                check(answer.refusal == 0 && answer.count == some, "how many ticks", cases);
                check(memcmp(row, wanted, (15 + 2 * GUARD) * sizeof row[0]) == 0, "packets that wait", cases);
                check(kept(), "the counts stay", cases);
            }
    for (i = 0; i < COUNTS; i++)
        counts[i] = random_below(64);
    bench(COUNTS, 32, 5);
    check(barzhilup_waiting_packets(0, 0, counts, COUNTS, 5, 0, row, MOST_TICKS).count == MOST_TICKS, "all ticks", 0);
    check(memcmp(row, waits, sizeof waits) == 0, "packets that wait at all ticks", 0);
    check(barzhilup_waiting_packets(0, 0, counts, COUNTS, 5, (size_t)-1, row, 9).count == 0, "a tick far past the end", 0);
    report("packets that wait");
}

static void at_random(void)
{
    unsigned long i;
    for (i = 0; i < 300; i++) {
        const int sevens = random_below(2) == 0;
        const uint32_t n = sevens ? 4 : 32;
        const size_t count = 1 + random_below(40);
        const uint32_t mean = n - 1 + random_below(3);
        size_t k;
        for (k = 0; k < count; k++)
            counts[k] = mean + random_below(5) - 2;
        compare(sevens ? 2 : 0, 0, count, n, i);
    }
    report("random counts");
}

int main(void)
{
    by_hand();
    refusals();
    shown();
    at_random();
    printf("  latency: %lu checks, %lu failed\n", checks, failed);
    return failed > 0;
}
