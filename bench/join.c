/*
 * What joining two logs costs beside the same in plain C (document 02, Ask 11).
 * Before anything is measured, both are compared on the logs; if they disagree, the
 * program stops with a message and status 1.
 */
#include "barzhilup.h"
#include "timing.h"

#include <stdio.h>
#include <string.h>

#define ROWS 4
#define WORDS 40000

/* Two logs of one frame. */
struct logs {
    uint32_t core[WORDS], enhanced[WORDS];
    size_t core_words, enhanced_words;
};

static struct logs inputs[ROWS];
static uint32_t result[2 * WORDS];
static volatile size_t sink; /* keeps the answers used */

/* ---- Plain C ------------------------------------------------------------- */

/* How many words the entry at a place has, 0 if it is none. */
static size_t entry(const uint32_t *log, size_t words, size_t at)
{
    const uint32_t first = log[at], kind = first >> 30, length = first & 0xffff;
    size_t count = (length + 2) / 3, i;
    if (kind == BARZHILUP_LOG_NOTE)
        return 1;
    if (kind == BARZHILUP_LOG_PACKET ? first >> 22 != 0 || length > BARZHILUP_PACKET_MAX
                                     : first >> 16 != 0x8000)
        return 0;
    if (length == 0 || count > words - at - 1)
        return 0;
    for (i = 1; i < count; i++)
        if (log[at + i] >> 24 != 0x43)
            return 0;
    i = length - 3 * (count - 1);
    if (log[at + count] >> 24 != 0x40 + i || (log[at + count] & ((1u << (24 - 8 * i)) - 1)) != 0)
        return 0;
    return 1 + count;
}

/* Where the packets of a log stand. */
struct packets {
    size_t place[64], count[64]; /* by number; count 0 if there is none */
    uint8_t order[65];
    size_t packets;
};

/* Reads a log: 0, 23, or 24 where its numbers do not rise. */
static uint32_t read_log(const uint32_t *log, size_t words, struct packets *p)
{
    size_t at = 0, n;
    uint32_t refusal = 0, last = 0;
    p->packets = 0;
    memset(p->count, 0, sizeof p->count);
    for (; at < words; at += n) {
        n = entry(log, words, at);
        if (n == 0)
            return BARZHILUP_REFUSED_LOG_WORDS;
        if (log[at] >> 30 == BARZHILUP_LOG_PACKET) {
            const uint32_t number = log[at] >> 16 & 63;
            const uint32_t counted = p->packets > 0 ? (number - p->order[0]) & 63 : 0;
            if (p->packets > 0 && counted <= last)
                refusal = BARZHILUP_REFUSED_NUMBERS;
            last = counted;
            if (refusal == 0) {
                p->place[number] = at;
                p->count[number] = n;
                p->order[p->packets++] = (uint8_t)number;
            }
        }
    }
    return refusal;
}

static barzhilup_joined plain_join(const uint32_t *core, size_t core_words,
                                   const uint32_t *enhanced, size_t enhanced_words,
                                   uint32_t *to, size_t room)
{
    struct packets c, e;
    const uint32_t first = read_log(core, core_words, &c);
    const uint32_t second = read_log(enhanced, enhanced_words, &e);
    barzhilup_joined answer = {0, 0};
    size_t i, words = 0;
    if (first == BARZHILUP_REFUSED_LOG_WORDS || second == BARZHILUP_REFUSED_LOG_WORDS)
        answer.refusal = BARZHILUP_REFUSED_LOG_WORDS;
    else if (c.packets > 0 && (first != 0 || second != 0))
        answer.refusal = BARZHILUP_REFUSED_NUMBERS;
    for (i = 0; i < c.packets; i++)
        words += c.count[c.order[i]] + e.count[c.order[i]];
    if (answer.refusal == 0 && words > room)
        answer.refusal = BARZHILUP_REFUSED_LOG_LENGTH;
    if (answer.refusal != 0)
        return answer;
    for (i = 0; i < c.packets; i++) {
        const size_t n = c.order[i];
        memcpy(to, core + c.place[n], c.count[n] * sizeof *to);
        to += c.count[n];
        memcpy(to, enhanced + e.place[n], e.count[n] * sizeof *to);
        if (e.count[n] > 0)
            to[0] |= BARZHILUP_JOINED_ENHANCED;
        to += e.count[n];
    }
    answer.words = words;
    return answer;
}

/* ---- Both, on the same logs ---------------------------------------------- */

static void library(const void *logs, size_t passes)
{
    const struct logs *l = logs;
    while (passes-- > 0)
        sink = barzhilup_join(l->core, l->core_words, l->enhanced, l->enhanced_words, result,
                              2 * WORDS)
                   .words;
}

static void plain(const void *logs, size_t passes)
{
    const struct logs *l = logs;
    while (passes-- > 0)
        sink = plain_join(l->core, l->core_words, l->enhanced, l->enhanced_words, result,
                          2 * WORDS)
                   .words;
}

/* A log of so many packets of a length from a number on, every fourth left out from
 * one on, with a note after each eighth. Answers how many words. */
static size_t make_log(uint32_t *log, size_t packets, uint32_t length, uint32_t number, size_t lost)
{
    size_t at = 0, i;
    for (i = 0; i < packets; i++, number = (number + 1) & 63) {
        uint32_t left;
        if (i % 4 == lost)
            continue;
        log[at++] = number << 16 | length;
        for (left = length; left > 0; left -= left < 3 ? left : 3)
            log[at++] = left < 3 ? 0x40000000u | left << 24 : 0x43000000u + left * 7919 % 0x1000000;
        if (i % 8 == 7)
            log[at++] = 0xc0020000u;
    }
    return at;
}

static struct row rows[ROWS];
static char names[ROWS][40];

static void make_row(size_t i, size_t packets, uint32_t length)
{
    struct logs *l = &inputs[i];
    l->core_words = make_log(l->core, packets, length, 50, 1);
    l->enhanced_words = make_log(l->enhanced, packets, length, 50, 2);
    snprintf(names[i], sizeof names[i], "%u packets of %u bytes", (unsigned)packets,
             (unsigned)length);
    rows[i].name = names[i];
    rows[i].work[0] = library;
    rows[i].work[1] = plain;
    rows[i].inputs = l;
    rows[i].units = 1;
}

/* Both give the same answer and result, with room and without. */
static int agree(const struct logs *l)
{
    static uint32_t other[2 * WORDS];
    size_t room;
    for (room = 0; room < 2 * WORDS; room += 997) {
        barzhilup_joined a, b;
        memset(result, 0, sizeof result);
        memset(other, 0, sizeof other);
        a = barzhilup_join(l->core, l->core_words, l->enhanced, l->enhanced_words, result, room);
        b = plain_join(l->core, l->core_words, l->enhanced, l->enhanced_words, other, room);
        if (a.refusal != b.refusal || a.words != b.words || memcmp(result, other, sizeof other) != 0)
            return 0;
    }
    return 1;
}

int main(void)
{
    size_t i;
    double low, high;
    make_row(0, 4, 100);
    make_row(1, 16, 200);
    make_row(2, 32, 300);
    make_row(3, 64, 300);
    for (i = 0; i < ROWS; i++)
        if (!agree(&inputs[i])) {
            fprintf(stderr, "bench: the library and plain C disagree on %s\n", rows[i].name);
            return 1;
        }
    time_rows(rows, ROWS);
    printf("\n%-26s %10s %10s %8s   %15s\n", "two logs joined, ns", "library", "plain C", "ratio",
           "middle half");
    for (i = 0; i < ROWS; i++) {
        middle_ratios(&rows[i], &low, &high);
        printf("%-26s %10.0f %10.0f %8.2f   %6.2f - %6.2f\n", rows[i].name, least_ns(&rows[i], 0),
               least_ns(&rows[i], 1), least_ns(&rows[i], 0) / least_ns(&rows[i], 1), low, high);
    }
    return 0;
}
