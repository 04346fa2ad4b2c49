/*
 * Tests of the counts of packets delivered and missing (document 02, Ask 14): by each
 * receiving call, with receivers whose counts are small or near 4,294,967,295 and whose
 * last number is any; number 27 with 13 before it, and number 1; PDUs that deliver no
 * packet, at the limit; batches that stop at 27; copies of which each has pieces of its
 * own; marking lost; and whole lists of packets, lost and damaged, over which delivered
 * and missing are together the packets from the first delivered to the last.
 *
 * The counts that are expected are worked out here, in 64 bits, from the numbers of the
 * packets alone.
 */
#include "barzhilup.h"

#include <stdio.h>
#include <string.h>

#define CARRY BARZHILUP_CARRY_BYTES
#define LENGTH 120 /* bytes of a PDU */
#define WORDS 400  /* words of a log */
#define MOST 4294967295u

/* ---- Counting ------------------------------------------------------------ */

static unsigned long checks, failed, checks_before;

/* One check; `which` tells the cases of one kind apart. */
static void check(int holds, const char *what, unsigned long which)
{
    checks++;
    if (holds)
        return;
    failed++;
    if (failed <= 20)
        printf("  WRONG: %s, case %lu\n", what, which);
}

/* Says how many checks were made since the last call. */
static void report(const char *what)
{
    printf("  %s: %lu checks\n", what, checks - checks_before);
    checks_before = checks;
}

/* ---- Repeatable random numbers ------------------------------------------- */

static uint32_t state = 2463534242u;

static uint32_t random_below(uint32_t n)
{
    state ^= state << 13;
    state ^= state >> 17;
    state ^= state << 5;
    return state % n;
}

static void random_bytes(uint8_t *bytes, size_t length)
{
    size_t i;
    for (i = 0; i < length; i++)
        bytes[i] = (uint8_t)random_below(256);
}

/* ---- PDUs ---------------------------------------------------------------- */

static const uint8_t table[10][2] = {{0, 0}, {1, 0}, {2, 0},  {3, 0},  {1, 1},
                                     {2, 1}, {3, 1}, {10, 0}, {10, 1}, {13, 0}};
static const barzhilup_settings none; /* all 0 */

/* Writes a PDU of sequence 0 in which `count` packets of one byte end, the first with
 * this number; `part` more bytes are the beginning of another. */
static void make(unsigned line, unsigned number, size_t count, unsigned part, uint8_t *pdu)
{
    static uint8_t bytes[64 + 4096];
    static uint16_t lengths[64];
    barzhilup_writer w = barzhilup_open_writer(table[line][0], table[line][1]).writer;
    barzhilup_written a;
    size_t k;
    w.number = (uint8_t)number;
    for (k = 0; k < count; k++)
        lengths[k] = 1;
    lengths[count] = 4096;
    random_bytes(bytes, 64);
    a = barzhilup_write(w, none, bytes, 0, lengths, count + (part > 0), bytes,
                        count + (part > 0 ? 4096 : 0), pdu, LENGTH);
    check(a.refusal == 0 && a.ended == count && (a.writer.sent > 0) == (part > 0), "written",
          number);
}

/* ---- The counts again ---------------------------------------------------- */

/* Adds packets with numbers from `number` on; answers whether a count passes. */
static int adds(barzhilup_receiver *r, unsigned number, size_t count)
{
    uint64_t delivered = r->delivered, missing = r->missing;
    for (; count > 0; count--, number = (number + 1) % 64) {
        if (delivered > 0) {
            unsigned next = (r->last + 1u) % 64;
            while (next != number) {
                missing++;
                next = (next + 1) % 64;
            }
        }
        delivered++;
        r->last = (uint8_t)number;
    }
    r->delivered = (uint32_t)delivered;
    r->missing = (uint32_t)missing;
    return delivered > MOST || missing > MOST;
}

static int same_counts(barzhilup_receiver one, barzhilup_receiver other)
{
    return one.delivered == other.delivered && one.missing == other.missing
           && one.last == other.last;
}

static int same_receiver(barzhilup_receiver one, barzhilup_receiver other)
{
    return one.mode == other.mode && one.stream == other.stream
           && one.crc_start == other.crc_start && one.entitled == other.entitled
           && one.known == other.known && one.sequence == other.sequence
           && one.held == other.held && one.number == other.number
           && one.serviced == other.serviced && one.services == other.services
           && same_counts(one, other);
}

/* ---- Each receiving call ------------------------------------------------- */

#define CALLS 5 /* single, with marks, batch, pair, in place */

static struct lent {
    uint8_t carry[CARRY];
    uint8_t pdu[LENGTH], copy[LENGTH];
    uint32_t log[WORDS];
} is, was;

/* Lends a PDU, twice for a pair, with a byte of each header altered. */
static void lend(const uint8_t *pdu)
{
    memcpy(is.pdu, pdu, LENGTH);
    memcpy(is.copy, pdu, LENGTH);
    is.pdu[random_below(96)] ^= (uint8_t)random_below(256);
    is.copy[random_below(96)] ^= (uint8_t)random_below(256);
    memcpy(&was, &is, sizeof is);
}

static barzhilup_received call(unsigned which, barzhilup_receiver r, size_t words)
{
    static const uint8_t marks[2] = {30, 95};
    static const size_t lengths[1] = {LENGTH};
    barzhilup_received a;
    memset(&a, 0, sizeof a);
    switch (which) {
    case 0:
        return barzhilup_receive(r, is.carry, CARRY, is.pdu, LENGTH, is.log, words);
    case 1:
        return barzhilup_receive_marked(r, is.carry, CARRY, is.pdu, LENGTH, marks, 2, is.log,
                                        words);
    case 2: {
        barzhilup_batch b = barzhilup_receive_batch(r, is.carry, CARRY, is.pdu, LENGTH, lengths, 1,
                                                    is.log, words);
        check(b.taken == (b.refusal == 0), "taken", b.refusal);
        a.refusal = b.refusal;
        a.wrong_locator = b.wrong_locator;
        a.words = (uint32_t)b.words;
        a.receiver = b.receiver;
        return a;
    }
    case 3:
        return barzhilup_receive_pair(r, is.carry, CARRY, is.pdu, LENGTH, is.copy, LENGTH, is.log,
                                      words);
    default: {
        barzhilup_stepped s =
            barzhilup_receive_in_place(&r, is.carry, CARRY, is.pdu, LENGTH, is.log, words);
        a.refusal = s.refusal;
        a.wrong_locator = s.wrong_locator;
        a.words = s.words;
        a.receiver = r;
        return a;
    }
    }
}

static unsigned long refused[CALLS], accepted[CALLS], log_first[CALLS];

/* A call with this receiver is refused with a number, and changes nothing. */
static void refuses(unsigned which, const uint8_t *pdu, barzhilup_receiver r, size_t words,
                    uint32_t number)
{
    barzhilup_received a;
    lend(pdu);
    a = call(which, r, words);
    check(a.refusal == number && a.words == 0 && a.wrong_locator == 0, "refused with", number);
    check(same_receiver(a.receiver, r), "refused, receiver", number);
    check(memcmp(&is, &was, sizeof is) == 0, "refused, all that is lent", number);
}

/* Receives a PDU with `count` packets from `number` on, of which each takes two words, by
 * each call: 27 or the counts, and 13 before either. */
static void counts(const uint8_t *pdu, barzhilup_receiver r, unsigned number, size_t count,
                   unsigned long which)
{
    barzhilup_receiver next = r;
    int passes = adds(&next, number, count);
    unsigned c;
    for (c = 0; c < CALLS; c++) {
        if (count > 0) {
            refuses(c, pdu, r, 2 * count - 1, BARZHILUP_REFUSED_LOG_LENGTH);
            log_first[c] += (unsigned long)passes;
        }
        if (passes) {
            refuses(c, pdu, r, 2 * count, BARZHILUP_REFUSED_COUNT_LIMIT);
            refused[c]++;
        } else {
            barzhilup_received a;
            lend(pdu);
            a = call(c, r, 2 * count);
            check(a.refusal == 0 && a.words == 2 * count, "received", which);
            check(same_counts(a.receiver, next), "counts", which);
            accepted[c]++;
        }
    }
}

/* A receiver of a line of the table, with these counts. */
static barzhilup_receiver counted(unsigned line, uint32_t delivered, uint32_t missing,
                                  unsigned last)
{
    barzhilup_receiver r = barzhilup_open_receiver(table[line][0], table[line][1]).receiver;
    check(r.delivered == 0 && r.missing == 0 && r.last == 0, "opened with nothing counted", line);
    r.delivered = delivered;
    r.missing = missing;
    r.last = (uint8_t)last;
    return r;
}

/* ---- Numbers ------------------------------------------------------------- */

/* Each number after each other: 0 to 63 are missing. */
static void test_numbers(void)
{
    static uint8_t pdu[LENGTH];
    unsigned last, number;
    for (number = 0; number < 64; number++) {
        make(0, number, 1, 0, pdu);
        counts(pdu, counted(0, 0, 0, 0), number, 1, number);
        lend(pdu);
        check(call(0, counted(0, 0, 0, 0), 2).receiver.missing == 0, "the first adds nothing",
              number);
        for (last = 0; last < 64; last++) {
            barzhilup_received a;
            counts(pdu, counted(0, 1, 0, last), number, 1, last * 64 + number);
            lend(pdu);
            a = call(0, counted(0, 7, 100, last), 2);
            check(a.receiver.missing == 100 + (number + 63 - last) % 64, "missing",
                  last * 64 + number);
            check(number != last || a.receiver.missing == 163, "the same number adds 63", number);
            check(a.receiver.delivered == 8 && a.receiver.last == number, "delivered", number);
        }
    }
    report("each number after each");
}

/* ---- Near the limits ----------------------------------------------------- */

static uint32_t near_limit(uint32_t below)
{
    return MOST - random_below(below);
}

static void test_limits(void)
{
    static uint8_t pdu[LENGTH];
    unsigned long n;
    for (n = 0; n < 6000; n++) {
        unsigned line = (unsigned)(n % 10), number = random_below(64), last = random_below(64);
        size_t count = random_below(7);
        uint32_t delivered = random_below(3) == 0 ? 1 + random_below(5) : near_limit(8);
        uint32_t missing = random_below(3) == 0 ? random_below(200) : near_limit(70);
        make(line, number, count, random_below(2), pdu);
        counts(pdu, counted(line, delivered, missing, last), number, count, n);
    }
    for (n = 0; n < CALLS; n++) {
        check(refused[n] > 1000 && accepted[n] > 1000 && log_first[n] > 1000, "both came", n);
        printf("  call %lu: 27 %lu times, accepted %lu times, 13 before 27 %lu times\n", n + 1,
               refused[n], accepted[n], log_first[n]);
    }
    report("counts near their limits");
}

/* The very edges: a count that just reaches its limit, and one that would pass it. */
static void test_edges(void)
{
    static uint8_t pdu[LENGTH];
    unsigned line, c;
    for (line = 0; line < 10; line++) {
        make(line, 10, 3, 0, pdu);
        for (c = 0; c < CALLS; c++) {
            barzhilup_received a;
            lend(pdu);
            a = call(c, counted(line, MOST - 3, 0, 9), WORDS);
            check(a.refusal == 0 && a.receiver.delivered == MOST && a.receiver.missing == 0,
                  "delivered reaches its limit", line);
            refuses(c, pdu, counted(line, MOST - 2, 0, 9), WORDS, BARZHILUP_REFUSED_COUNT_LIMIT);
            refuses(c, pdu, counted(line, MOST, 0, 9), WORDS, BARZHILUP_REFUSED_COUNT_LIMIT);
            lend(pdu);
            a = call(c, counted(line, 1, MOST - 5, 4), WORDS);
            check(a.refusal == 0 && a.receiver.delivered == 4 && a.receiver.missing == MOST,
                  "missing reaches its limit", line);
            refuses(c, pdu, counted(line, 1, MOST - 4, 4), WORDS, BARZHILUP_REFUSED_COUNT_LIMIT);
            lend(pdu);
            a = call(c, counted(line, 1, MOST, 9), WORDS);
            check(a.refusal == 0 && a.receiver.missing == MOST, "none missing at the limit", line);
            refuses(c, pdu, counted(line, 1, MOST - 62, 10), WORDS,
                    BARZHILUP_REFUSED_COUNT_LIMIT);
        }
    }
    report("the edges of 27");
}

/* PDUs that deliver nothing: accepted at the limit, and the counts stay. */
static void test_nothing_delivered(void)
{
    static uint8_t pdu[LENGTH];
    unsigned line, c;
    for (line = 0; line < 10; line++)
        for (c = 0; c < CALLS; c++) {
            barzhilup_receiver r = counted(line, MOST, MOST, 9), full = r;
            barzhilup_received a;
            make(line, 3, 0, 0, pdu); /* no piece */
            lend(pdu);
            a = call(c, r, 0);
            check(a.refusal == 0 && same_counts(a.receiver, full), "no piece", line);
            make(line, 3, 0, 1, pdu); /* a beginning, which is held */
            lend(pdu);
            a = call(c, r, 0);
            check(a.refusal == 0 && a.receiver.held > 0 && same_counts(a.receiver, full),
                  "a beginning", line);
            make(line, 3, 1, 0, pdu); /* a wrong CRC, and one in both copies */
            pdu[pdu[13] + 2] ^= 1;
            check(barzhilup_write_parity(pdu, LENGTH) == 0, "parity", line);
            lend(pdu);
            a = call(c, r, 1);
            check(a.refusal == 0 && a.words == 1 && is.log[0] == 0xc0020000u
                      && same_counts(a.receiver, full),
                  "a wrong CRC", line);
        }
    report("PDUs that deliver nothing");
}

/* ---- Number 1 ------------------------------------------------------------ */

static void turned_down(barzhilup_receiver r, unsigned long which)
{
    static uint8_t pdu[LENGTH];
    static uint32_t words[BARZHILUP_SNAPSHOT_WORDS];
    barzhilup_receiver place = r;
    unsigned c;
    make(0, 0, 1, 0, pdu);
    for (c = 0; c < CALLS; c++)
        refuses(c, pdu, r, 0, BARZHILUP_REFUSED_STATE);
    check(barzhilup_mark_lost(r, is.log, 0).refusal == BARZHILUP_REFUSED_STATE, "lost", which);
    check(barzhilup_mark_lost_in_place(&place, is.log, 1).refusal == BARZHILUP_REFUSED_STATE
              && same_receiver(place, r),
          "lost in place", which);
    check(barzhilup_save_receiver(r, is.carry, 0, words, 0).refusal == BARZHILUP_REFUSED_STATE,
          "saved", which);
}

static void test_state(void)
{
    static const uint32_t values[5] = {1, 2, 63, 64, MOST};
    unsigned value, d;
    for (value = 0; value < 256; value++) {
        for (d = 0; d < 5; d++)
            if (value > 63)
                turned_down(counted(0, values[d], values[4 - d], value), value);
        if (value > 0)
            turned_down(counted(0, 0, 0, value), value);
    }
    for (d = 0; d < 5; d++) {
        turned_down(counted(0, 0, values[d], 0), d);
        turned_down(counted(0, 0, values[d], 63), d);
        check(barzhilup_mark_lost(counted(0, 1, values[d], 63), is.log, 1).refusal == 0, "right",
              d);
    }
    report("number 1");
}

/* ---- Marking lost -------------------------------------------------------- */

static void test_lost(void)
{
    unsigned n, line;
    for (line = 0; line < 10; line++)
        for (n = 0; n < 200; n++) {
            barzhilup_receiver r =
                n % 4 == 0 ? counted(line, 0, 0, 0)
                           : counted(line, near_limit(2), near_limit(2), random_below(64));
            barzhilup_receiver place = r;
            barzhilup_received a = barzhilup_mark_lost(r, is.log, 1);
            check(a.refusal == 0 && same_receiver(a.receiver, r), "marked lost, counts kept", n);
            check(barzhilup_mark_lost_in_place(&place, is.log, 1).refusal == 0
                      && same_receiver(place, r),
                  "in place", n);
        }
    report("marking lost");
}

/* ---- Batches ------------------------------------------------------------- */

#define BATCH 5

/* Batches of PDUs, each of any packets: it stops at the first PDU that would pass a count,
 * as single calls do, and what comes behind keeps its bytes. */
static void test_batches(void)
{
    static uint8_t pdus[BATCH * LENGTH], one_by_one[BATCH * LENGTH], carries[2][CARRY];
    static uint32_t logs[2][BATCH * WORDS];
    static const size_t lengths[BATCH] = {LENGTH, LENGTH, LENGTH, LENGTH, LENGTH};
    unsigned long n, stopped[BATCH + 1] = {0, 0, 0, 0, 0, 0};
    for (n = 0; n < 20000; n++) {
        unsigned line = random_below(10), number = random_below(64);
        barzhilup_receiver r =
            counted(line, near_limit(10), near_limit(random_below(2) == 0 ? 10 : 300), number);
        barzhilup_receiver next = r;
        barzhilup_batch b;
        size_t k, words = 0, taken = 0, room = BATCH * WORDS;
        uint32_t refusal = 0;
        if (random_below(2) == 0)
            r.delivered = next.delivered = 1 + random_below(3);
        for (k = 0; k < BATCH; k++) {
            number = (number + (random_below(2) == 0 ? 1 : random_below(64))) % 64;
            make(line, number, 1 + random_below(3), 0, pdus + k * LENGTH);
        }
        if (random_below(4) == 0)
            room = random_below(20);
        memcpy(one_by_one, pdus, sizeof pdus);
        memset(logs, 0, sizeof logs);
        memset(carries, 0, sizeof carries);
        while (taken < BATCH && refusal == 0) {
            barzhilup_received a =
                barzhilup_receive(next, carries[0], CARRY, one_by_one + taken * LENGTH, LENGTH,
                                  logs[0] + words, room - words);
            refusal = a.refusal;
            next = a.receiver;
            words += a.words;
            taken += refusal == 0;
        }
        b = barzhilup_receive_batch(r, carries[1], CARRY, pdus, sizeof pdus, lengths, BATCH,
                                    logs[1], room);
        check(b.refusal == refusal && b.taken == taken && b.words == words, "batch", n);
        check(same_receiver(b.receiver, next), "batch, receiver", n);
        check(memcmp(logs[0], logs[1], sizeof logs[0]) == 0, "batch, log", n);
        check(memcmp(pdus, one_by_one, sizeof pdus) == 0, "batch, PDUs", n);
        check(refusal == 0 || refusal == 13 || refusal == 27, "batch, number", refusal);
        stopped[taken] += refusal == 27;
    }
    printf("  batches stopped by 27 after 0, 1, 2, 3 and 4 PDUs: %lu %lu %lu %lu %lu\n",
           stopped[0], stopped[1], stopped[2], stopped[3], stopped[4]);
    for (n = 0; n < BATCH; n++)
        check(stopped[n] > 100, "stopped at each", n);
    report("batches");
}

/* ---- Pairs --------------------------------------------------------------- */

/* Copies with wrong CRCs of their own: a piece counts if it is right in one of them. */
static void test_pairs(void)
{
    static uint8_t pdu[LENGTH];
    unsigned long n, limits = 0, joined = 0;
    for (n = 0; n < 20000; n++) {
        unsigned number = random_below(64), k, wrong[2];
        barzhilup_receiver r = counted(0, near_limit(5), random_below(100), random_below(64));
        barzhilup_receiver next = r;
        barzhilup_received a;
        int passes = 0;
        if (n % 3 == 0) {
            r.delivered = next.delivered = 1;
            r.missing = next.missing = near_limit(100);
        }
        make(0, number, 4, 0, pdu);
        memcpy(is.pdu, pdu, LENGTH);
        memcpy(is.copy, pdu, LENGTH);
        for (k = 0; k < 2; k++)
            wrong[k] = random_below(16);
        for (k = 0; k < 4; k++) {
            /* Pieces of one byte, each with its CRC, from La on. */
            if (wrong[0] >> k & 1)
                is.pdu[pdu[13] + 2 + 2 * k] ^= 0x20;
            if (wrong[1] >> k & 1)
                is.copy[pdu[13] + 2 + 2 * k] ^= 0x40;
            if ((wrong[0] & wrong[1]) >> k & 1)
                continue;
            passes = passes || adds(&next, (number + k) % 64, 1);
        }
        check(barzhilup_write_parity(is.pdu, LENGTH) == 0
                  && barzhilup_write_parity(is.copy, LENGTH) == 0,
              "parity", n);
        memcpy(&was, &is, sizeof is);
        a = call(3, r, WORDS);
        if (passes) {
            limits++;
            check(a.refusal == BARZHILUP_REFUSED_COUNT_LIMIT && same_receiver(a.receiver, r)
                      && memcmp(&is, &was, sizeof is) == 0,
                  "pair, 27", n);
        } else {
            joined += wrong[0] != 0 && wrong[1] != 0;
            check(a.refusal == 0 && same_counts(a.receiver, next), "pair, counts", n);
        }
    }
    printf("  pairs: 27 %lu times, counted from two damaged copies %lu times\n", limits, joined);
    check(limits > 1000 && joined > 1000, "both came", limits);
    report("pairs");
}

/* ---- Whole lists --------------------------------------------------------- */

#define PACKETS 200

/* Packets of two to 60 bytes, whose first two bytes tell which they are;
 * some PDUs are lost, some pieces damaged. Answers whether the sum is due. */
static int run(unsigned line, unsigned lost, unsigned long which)
{
    static uint8_t bytes[PACKETS * 60];
    static uint16_t lengths[PACKETS];
    static size_t starts[PACKETS + 1];
    barzhilup_writer writer = barzhilup_open_writer(table[line][0], table[line][1]).writer;
    barzhilup_receiver r = counted(line, 0, 0, 0);
    size_t at = 0, i, first = 0, last = 0, seen = 0;
    int near = 1;
    for (i = 0; i < PACKETS; i++) {
        lengths[i] = (uint16_t)(2 + random_below(59));
        starts[i + 1] = starts[i] + lengths[i];
        bytes[starts[i]] = (uint8_t)(i / 256);
        bytes[starts[i] + 1] = (uint8_t)i;
    }
    while (at < PACKETS) {
        uint8_t pdu[LENGTH];
        barzhilup_received a;
        barzhilup_written w =
            barzhilup_write(writer, none, bytes, 0, lengths + at, PACKETS - at, bytes + starts[at],
                            starts[PACKETS] - starts[at], pdu, LENGTH);
        check(w.refusal == 0, "written", which);
        writer = w.writer;
        at += w.ended;
        if (random_below(100) < lost) {
            a = barzhilup_mark_lost(r, is.log, 1);
        } else {
            memcpy(is.pdu, pdu, LENGTH);
            if (random_below(8) == 0)
                is.pdu[96 + random_below(LENGTH - 96)] ^= 8;
            memcpy(is.copy, is.pdu, LENGTH);
            a = call(random_below(CALLS), r, WORDS);
        }
        check(a.refusal == 0, "accepted", which);
        r = a.receiver;
        for (i = 0; i < a.words; i++)
            if (is.log[i] >> 30 == BARZHILUP_LOG_PACKET) {
                size_t packet = (is.log[i + 1] >> 16 & 255) * 256 + (is.log[i + 1] >> 8 & 255);
                first = seen == 0 ? packet : first;
                near = near && (seen == 0 || packet - last <= 64);
                last = packet;
                seen++;
            }
        check(r.delivered == seen && (seen == 0 || r.last == last % 64), "delivered", which);
        check(seen == 0 || !near || r.delivered + r.missing == last + 1 - first, "sum", which);
        check(near || r.delivered + r.missing < last + 1 - first, "short of the sum", which);
    }
    return near;
}

static void test_runs(void)
{
    unsigned long n, due = 0, far = 0;
    for (n = 0; n < 3000; n++)
        if (run((unsigned)(n % 10), n % 7 == 0 ? 95 : random_below(60), n))
            due++;
        else
            far++;
    printf("  %lu lists in which the sum is due, %lu with 64 or more missing at once\n", due, far);
    check(due > 1000 && far > 50, "both came", due);
    report("whole lists of packets");
}

int main(void)
{
    random_bytes(is.carry, sizeof is.carry);
    test_numbers();
    test_limits();
    test_edges();
    test_nothing_delivered();
    test_state();
    test_lost();
    test_batches();
    test_pairs();
    test_runs();
    printf("%lu checks, %lu wrong\n", checks, failed);
    return failed == 0 ? 0 : 1;
}
