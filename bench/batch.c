/*
 * What receiving eight PDUs in one call costs beside eight calls, on the same PDUs
 * (document 02, Ask 1). Before anything is measured, both are compared on them; if
 * they disagree, the program stops with a message and status 1.
 */
#include "drives.h"
#include "timing.h"

#include <stdio.h>
#include <string.h>

#define EIGHT 8
#define HEADER BARZHILUP_HEADER_BYTES
#define LENGTHS 4
#define ROWS (2 * LENGTHS)

static uint8_t carry[BARZHILUP_CARRY_BYTES];
static uint32_t words[EIGHT * BARZHILUP_LOG_WORDS];
static volatile unsigned sink; /* keeps the answers used */

/* The first eight PDUs as they arrive. */
static void arrive(const struct drive *d)
{
    size_t i;
    for (i = 0; i < EIGHT; i++)
        memcpy(d->pdus + i * d->pdu_length, d->headers[i], HEADER);
}

/* Eight PDUs in one call. */
static barzhilup_batch in_one_call(const struct drive *d, barzhilup_receiver receiver)
{
    size_t lengths[EIGHT], i;
    for (i = 0; i < EIGHT; i++)
        lengths[i] = d->pdu_length;
    return barzhilup_receive_batch(receiver, carry, sizeof carry, d->pdus, EIGHT * d->pdu_length,
                                   lengths, EIGHT, words, sizeof words / sizeof words[0]);
}

/* Eight calls, each log following the last. */
static barzhilup_batch in_eight_calls(const struct drive *d, barzhilup_receiver receiver)
{
    barzhilup_batch b = {0, 0, 0, 0, receiver};
    for (; b.taken < EIGHT; b.taken++) {
        barzhilup_received a = barzhilup_receive(
            b.receiver, carry, sizeof carry, d->pdus + b.taken * d->pdu_length, d->pdu_length,
            words + b.words, sizeof words / sizeof words[0] - b.words);
        b.receiver = a.receiver;
        b.words += a.words;
        b.refusal = a.refusal;
    }
    return b;
}

static void batches(const void *drive, size_t passes)
{
    barzhilup_receiver receiver = {0, 0, BARZHILUP_CRC_START, 255, false, 0, 0, 0, false, 0, 0, 0, 0};
    while (passes-- > 0) {
        arrive(drive);
        sink = (unsigned)in_one_call(drive, receiver).words;
    }
}

static void singles(const void *drive, size_t passes)
{
    barzhilup_receiver receiver = {0, 0, BARZHILUP_CRC_START, 255, false, 0, 0, 0, false, 0, 0, 0, 0};
    while (passes-- > 0) {
        arrive(drive);
        sink = (unsigned)in_eight_calls(drive, receiver).words;
    }
}

/* Both give the same answer, log, carry and PDUs. */
static int agree(const struct drive *d)
{
    static uint32_t log[EIGHT * BARZHILUP_LOG_WORDS];
    static uint8_t kept[BARZHILUP_CARRY_BYTES], pdus[EIGHT * BARZHILUP_PDU_MAX];
    barzhilup_receiver receiver = barzhilup_open_receiver(0, 0).receiver;
    barzhilup_batch one, eight;
    memset(words, 0, sizeof words);
    memset(carry, 0, sizeof carry);
    arrive(d);
    one = in_one_call(d, receiver);
    memcpy(log, words, sizeof words);
    memcpy(kept, carry, sizeof carry);
    memcpy(pdus, d->pdus, EIGHT * d->pdu_length);
    memset(words, 0, sizeof words);
    memset(carry, 0, sizeof carry);
    arrive(d);
    eight = in_eight_calls(d, receiver);
    return one.refusal == 0 && eight.refusal == 0 && one.taken == EIGHT && one.words == eight.words
           && one.receiver.held == eight.receiver.held && memcmp(log, words, sizeof words) == 0
           && memcmp(kept, carry, sizeof carry) == 0
           && memcmp(pdus, d->pdus, EIGHT * d->pdu_length) == 0;
}

static struct drive drives[ROWS];
static struct row rows[ROWS];
static char names[ROWS][40];

static void make_row(size_t i, size_t length, size_t psd, uint16_t most, unsigned wrong)
{
    make_drive(&drives[i], length, psd, (uint16_t)(most / 3), most, wrong);
    snprintf(names[i], sizeof names[i], "%u bytes%s", (unsigned)length, wrong > 0 ? ", 4 wrong" : "");
    rows[i].name = names[i];
    rows[i].work[0] = batches;
    rows[i].work[1] = singles;
    rows[i].inputs = &drives[i];
    rows[i].units = EIGHT;
}

int main(void)
{
    static const size_t lengths[LENGTHS] = {96, 256, 1024, 20480}, psd[LENGTHS] = {8, 16, 32, 128};
    static const uint16_t most[LENGTHS] = {60, 120, 192, 768};
    size_t i;
    double low, high;
    for (i = 0; i < LENGTHS; i++) {
        make_row(i, lengths[i], psd[i], most[i], 0);
        make_row(i + LENGTHS, lengths[i], psd[i], most[i], BARZHILUP_CORRECTED_MAX);
    }
    for (i = 0; i < ROWS; i++)
        if (!agree(&drives[i])) {
            fprintf(stderr, "bench: one call and eight disagree on %s\n", rows[i].name);
            return 1;
        }
    time_rows(rows, ROWS);
    printf("\n%-26s %10s %10s %8s   %15s\n", "eight PDUs, ns per PDU", "one call", "eight", "ratio",
           "middle half");
    for (i = 0; i < ROWS; i++) {
        middle_ratios(&rows[i], &low, &high);
        printf("%-26s %10.0f %10.0f %8.2f   %6.2f - %6.2f\n", rows[i].name, least_ns(&rows[i], 0),
               least_ns(&rows[i], 1), least_ns(&rows[i], 0) / least_ns(&rows[i], 1), low, high);
    }
    return 0;
}
