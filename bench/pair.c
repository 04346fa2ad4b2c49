/*
 * What receiving a pair of PDUs costs, two copies of one (document 02, Ask 5),
 * beside the same in plain C and beside two single calls of the library, one for
 * each copy; and what choosing the better copy costs. Before anything is measured,
 * the library and the plain C program are compared on these pairs and on random
 * ones; if they disagree, the program stops with a message and status 1.
 */
#include "drives.h"
#include "peers.h"
#include "plain.h"
#include "timing.h"

#include <stdio.h>
#include <stdlib.h>
#include <string.h>

#define HEADER BARZHILUP_HEADER_BYTES
#define LENGTHS 3
#define CHOICES 2
#define ROWS (3 * LENGTHS - 1) /* in 96 bytes no piece begins after the header */

/* Both copies of a drive's PDUs as they arrive. */
struct pairs {
    struct drive drive;
    uint8_t *copies[2];
    uint8_t headers[2][PDUS][HEADER];
};

static uint8_t carry[BARZHILUP_CARRY_BYTES];
static uint32_t words[BARZHILUP_LOG_WORDS];
static volatile unsigned sink; /* keeps the answers used */

static void fail(const char *what)
{
    fprintf(stderr, "bench: the library and the plain C program disagree: %s\n", what);
    exit(1);
}

/* ---- Making pairs -------------------------------------------------------- */

/* Damages every piece that begins after the header, each in one copy: the copies in
 * turns. */
static void damage_pieces(struct pairs *p, size_t i)
{
    size_t length = p->drive.pdu_length, k;
    uint8_t *first = p->copies[0] + i * length;
    barzhilup_reading r = barzhilup_read(first, length);
    for (k = 0; k < r.control.nop; k++)
        if (r.starts[k] >= HEADER)
            p->copies[k % 2][i * length + r.starts[k]] ^= 0x55;
}

static void make_pairs(struct pairs *p, size_t length, size_t psd, uint16_t most, unsigned wrong,
                       int damaged)
{
    size_t i, copy, place;
    make_drive(&p->drive, length, psd, (uint16_t)(most / 3), most, 0);
    for (copy = 0; copy < 2; copy++) {
        p->copies[copy] = malloc(PDUS * length);
        if (p->copies[copy] == NULL)
            exit(1);
        memcpy(p->copies[copy], p->drive.pdus, PDUS * length);
    }
    for (i = 0; i < PDUS; i++) {
        if (damaged)
            damage_pieces(p, i);
        for (copy = 0; copy < 2; copy++) {
            memcpy(p->headers[copy][i], p->copies[copy] + i * length, HEADER);
            for (place = 0; place < wrong; place++)
                p->headers[copy][i][(7 * i + 13 * copy + 23 * place) % HEADER] ^=
                    (uint8_t)(1 + random_below(255));
        }
    }
}

/* A pair as it arrives. */
static void arrive(const struct pairs *p, size_t i)
{
    size_t length = p->drive.pdu_length;
    memcpy(p->copies[0] + i * length, p->headers[0][i], HEADER);
    memcpy(p->copies[1] + i * length, p->headers[1][i], HEADER);
}

/* ---- Work ---------------------------------------------------------------- */

typedef barzhilup_received pair_call(barzhilup_receiver, uint8_t *, size_t, uint8_t *, size_t,
                                     uint8_t *, size_t, uint32_t *, size_t);

static void receive_pairs(const struct pairs *p, size_t passes, pair_call *receive)
{
    size_t length = p->drive.pdu_length, i;
    while (passes-- > 0) {
        barzhilup_receiver receiver = {0, 0, BARZHILUP_CRC_START, 255, false, 0, 0, 0, false, 0, 0, 0, 0};
        for (i = 0; i < PDUS; i++) {
            arrive(p, i);
            receiver = receive(receiver, carry, sizeof carry, p->copies[0] + i * length, length,
                               p->copies[1] + i * length, length, words, BARZHILUP_LOG_WORDS)
                           .receiver;
        }
        sink = receiver.held;
    }
}

static void library(const void *pairs, size_t passes)
{
    receive_pairs(pairs, passes, barzhilup_receive_pair);
}

static void plain(const void *pairs, size_t passes)
{
    receive_pairs(pairs, passes, plain_receive_pair);
}

/* Each copy by a call of its own, with a receiver and a carry for each. */
static void two_calls(const void *pairs, size_t passes)
{
    static uint8_t carries[2][BARZHILUP_CARRY_BYTES];
    const struct pairs *p = pairs;
    size_t length = p->drive.pdu_length, i, copy;
    while (passes-- > 0) {
        barzhilup_receiver receivers[2] = {
            {0, 0, BARZHILUP_CRC_START, 255, false, 0, 0, 0, false, 0, 0, 0, 0},
            {0, 0, BARZHILUP_CRC_START, 255, false, 0, 0, 0, false, 0, 0, 0, 0}};
        for (i = 0; i < PDUS; i++) {
            arrive(p, i);
            for (copy = 0; copy < 2; copy++)
                receivers[copy] = barzhilup_receive(receivers[copy], carries[copy],
                                                    sizeof carries[copy],
                                                    p->copies[copy] + i * length, length, words,
                                                    BARZHILUP_LOG_WORDS)
                                      .receiver;
        }
        sink = receivers[0].held;
    }
}

static void chooses(const void *pairs, size_t passes)
{
    const struct pairs *p = pairs;
    size_t i;
    while (passes-- > 0)
        for (i = 0; i < PDUS; i++)
            sink = barzhilup_choose(p->headers[0][i], HEADER, p->headers[1][i], HEADER);
}

static void plain_chooses(const void *pairs, size_t passes)
{
    const struct pairs *p = pairs;
    size_t i;
    while (passes-- > 0)
        for (i = 0; i < PDUS; i++)
            sink = plain_choose(p->headers[0][i], HEADER, p->headers[1][i], HEADER);
}

/* ---- Agreement ----------------------------------------------------------- */

/* What a call is lent, for the library and for the plain C program. */
static struct loan {
    uint8_t carry[BARZHILUP_CARRY_BYTES];
    uint8_t first[BARZHILUP_PDU_MAX], second[BARZHILUP_PDU_MAX];
    uint32_t log[BARZHILUP_LOG_WORDS];
} ours, theirs;

static int same_receiver(barzhilup_receiver x, barzhilup_receiver y)
{
    return x.known == y.known && x.sequence == y.sequence && x.held == y.held
           && x.number == y.number && x.entitled == y.entitled && x.serviced == y.serviced
           && x.services == y.services && x.delivered == y.delivered && x.missing == y.missing
           && x.last == y.last;
}

/* One pair with both; the library's answer. */
static barzhilup_received same_pair(barzhilup_receiver receiver, const uint8_t *first,
                                    size_t first_length, const uint8_t *second,
                                    size_t second_length, size_t log)
{
    barzhilup_received one, other;
    memcpy(ours.first, first, first_length);
    memcpy(ours.second, second, second_length);
    theirs = ours;
    one = barzhilup_receive_pair(receiver, ours.carry, sizeof ours.carry, ours.first, first_length,
                                 ours.second, second_length, ours.log, log);
    other = plain_receive_pair(receiver, theirs.carry, sizeof theirs.carry, theirs.first,
                               first_length, theirs.second, second_length, theirs.log, log);
    if (one.refusal != other.refusal || one.wrong_locator != other.wrong_locator
        || one.words != other.words || !same_receiver(one.receiver, other.receiver))
        fail("answer to a pair");
    if (memcmp(&ours, &theirs, sizeof ours) != 0)
        fail("what a pair leaves");
    if (barzhilup_choose(first, first_length, second, second_length)
        != plain_choose(first, first_length, second, second_length))
        fail("the better copy");
    return one;
}

static void agree_on_row(const struct pairs *p)
{
    barzhilup_receiver receiver = barzhilup_open_receiver(0, 0).receiver;
    size_t length = p->drive.pdu_length, i;
    for (i = 0; i < PDUS; i++) {
        barzhilup_received a;
        arrive(p, i);
        a = same_pair(receiver, p->copies[0] + i * length, length, p->copies[1] + i * length,
                      length, BARZHILUP_LOG_WORDS);
        if (a.refusal != BARZHILUP_ACCEPTED)
            fail("whether a pair can be received");
        receiver = a.receiver;
    }
}

/* Random pairs: pieces, control bytes and lengths altered. */
static unsigned agree_at_random(const struct pairs *p, unsigned count)
{
    static uint8_t copies[2][BARZHILUP_PDU_MAX];
    barzhilup_receiver receiver = barzhilup_open_receiver(0, 0).receiver;
    size_t length = p->drive.pdu_length, copy;
    unsigned accepted = 0, turn;
    for (turn = 0; turn < count; turn++) {
        size_t i = turn % PDUS, lengths[2] = {length, length};
        barzhilup_received a;
        for (copy = 0; copy < 2; copy++) {
            uint32_t altered = random_below(6);
            memcpy(copies[copy], p->drive.pdus + i * length, length);
            if (random_below(3) == 0)
                copies[copy][random_below((uint32_t)length)] ^= (uint8_t)(1 + random_below(255));
            if (random_below(6) == 0)
                copies[copy][8 + random_below(20)] ^= (uint8_t)(1 << random_below(8));
            barzhilup_write_parity(copies[copy], length);
            if (random_below(20) == 0)
                lengths[copy] = random_below((uint32_t)length + 1);
            for (; altered > 0; altered--)
                copies[copy][random_below(HEADER)] = (uint8_t)random_below(256);
        }
        a = same_pair(receiver, copies[0], lengths[0], copies[1], lengths[1],
                      random_below(10) == 0 ? random_below(60) : BARZHILUP_LOG_WORDS);
        receiver = a.receiver;
        accepted += a.refusal == BARZHILUP_ACCEPTED;
    }
    return accepted;
}

/* ---- Rows ---------------------------------------------------------------- */

static struct pairs pairs[ROWS];
static struct row rows[ROWS + CHOICES];
static char names[ROWS + CHOICES][40];

static void make_row(size_t i, const char *name, const struct pairs *p, timed_work ours_,
                     timed_work plain_, timed_work two)
{
    snprintf(names[i], sizeof names[i], "%s", name);
    rows[i].name = names[i];
    rows[i].work[0] = ours_;
    rows[i].work[1] = fec_open() ? plain_ : NULL;
    rows[i].work[2] = two;
    rows[i].inputs = p;
    rows[i].units = PDUS;
}

static void make_rows(void)
{
    static const size_t lengths[LENGTHS] = {96, 1024, 20480}, psd[LENGTHS] = {8, 32, 128};
    static const uint16_t most[LENGTHS] = {60, 192, 768};
    static const char *const bytes[LENGTHS] = {"96", "1,024", "20,480"};
    static const char *const kinds[3] = {"", ", 4 wrong in each", ", pieces damaged"};
    size_t row;
    for (row = 0; row < ROWS; row++) {
        size_t kind = row / LENGTHS, i = row % LENGTHS + (kind == 2);
        char name[40];
        make_pairs(&pairs[row], lengths[i], psd[i], most[i],
                   kind == 1 ? BARZHILUP_CORRECTED_MAX : 0, kind == 2);
        snprintf(name, sizeof name, "receive, %s bytes%s", bytes[i], kinds[kind]);
        make_row(row, name, &pairs[row], library, plain, two_calls);
    }
    make_row(ROWS, "choose", &pairs[0], chooses, plain_chooses, NULL);
    make_row(ROWS + 1, "choose, 4 wrong in each", &pairs[LENGTHS], chooses, plain_chooses, NULL);
}

int main(void)
{
    size_t i;
    int peer = fec_open();
    table_crc8_open();
    make_rows();
    if (peer) {
        unsigned accepted = 0;
        for (i = 0; i < ROWS; i++)
            agree_on_row(&pairs[i]);
        for (i = 0; i < 2; i++)
            accepted += agree_at_random(&pairs[i], 10000);
        printf("\nThe library and the plain C program agree on these pairs and on 20000 random ones, "
               "%u accepted.\n", accepted);
    }
    time_rows(rows, ROWS + CHOICES);
    printf("\n%-40s %10s %10s %8s   %15s %10s\n", "a pair of PDUs, ns", "library",
           peer ? "plain C" : "", peer ? "ratio" : "", peer ? "middle half" : "", "two calls");
    for (i = 0; i < ROWS + CHOICES; i++) {
        double low, high;
        printf("%-40s %10.0f", rows[i].name, least_ns(&rows[i], 0));
        if (peer) {
            middle_ratios(&rows[i], &low, &high);
            printf(" %10.0f %8.2f   %6.2f - %6.2f", least_ns(&rows[i], 1),
                   least_ns(&rows[i], 0) / least_ns(&rows[i], 1), low, high);
        }
        if (rows[i].work[2] != NULL)
            printf(" %10.0f\n", least_ns(&rows[i], 2));
        else
            printf(" %10s\n", "-");
    }
    return 0;
}
