/*
 * Tests of the C library's writer against document 01: its examples (j) to (m),
 * refusals that change nothing, as many pieces as a PDU gets at most (document
 * 02, Ask 9), and whole lists of packets that are written, with CRCs from any
 * starting value (document 02, Ask 2), damaged in up to four header bytes of each
 * PDU, read back and joined.
 */
#include "barzhilup.h"

#include <stdio.h>
#include <string.h>

static unsigned long checks, failed;

static void check(int holds, const char *what, unsigned long which)
{
    checks++;
    if (holds)
        return;
    failed++;
    if (failed <= 20)
        printf("  WRONG: %s, case %lu\n", what, which);
}

static uint32_t state = 88172645u;

static uint32_t random_below(uint32_t n)
{
    state ^= state << 13;
    state ^= state >> 17;
    state ^= state << 5;
    return state % n;
}

static const barzhilup_settings none; /* all 0 */
static uint8_t zeros[4096];

static int same_writer(barzhilup_writer one, barzhilup_writer other)
{
    return one.mode == other.mode && one.stream == other.stream
           && one.crc_start == other.crc_start && one.sequence == other.sequence
           && one.number == other.number && one.sent == other.sent;
}

/* Offers packets of zeros in mode 0 with PDUs of 96 bytes. */
static barzhilup_written offer(barzhilup_writer writer, size_t psd, const uint16_t *lengths,
                               size_t count, uint8_t *pdu)
{
    size_t i, sum = 0;
    for (i = 0; i < count; i++)
        sum += lengths[i];
    return barzhilup_write(writer, none, zeros, psd, lengths, count, zeros, sum, pdu, 96);
}

static void test_examples(void)
{
    const uint16_t one[1] = {100}, fifty[2] = {100, 50}, more[2] = {100, 56};
    uint8_t pdu[96], before[96];
    barzhilup_reading r;
    barzhilup_written w;
    barzhilup_writer fresh = barzhilup_open_writer(0, 0).writer, next;

    w = offer(fresh, 0, one, 1, pdu); /* (j) */
    r = barzhilup_read(pdu, 96);
    check(w.refusal == 0 && w.ended == 0 && w.writer.sent == 79, "(j)", 0);
    check(r.refusal == 0 && r.control.nop == 1 && r.control.plast == 1 && !r.control.pfirst, "(j)", 1);
    check(r.starts[0] + r.lengths[0] == 95 && r.lengths[0] == 79, "(j)", 2);
    next = w.writer;

    w = offer(next, 0, fifty, 2, pdu); /* (k) */
    r = barzhilup_read(pdu, 96);
    check(w.refusal == 0 && w.ended == 2 && w.writer.sent == 0 && w.writer.number == 2, "(k)", 0);
    check(r.starts[0] + r.lengths[0] == 39 && r.starts[1] + r.lengths[1] == 90, "(k)", 1);
    check(r.control.start == 1 && r.control.pfirst == 1 && r.control.plast == 0, "(k)", 2);

    w = offer(next, 0, more, 2, pdu); /* (l) */
    check(w.refusal == 0 && w.ended == 1 && w.writer.sent == 55, "(l)", 0);

    w = offer(fresh, 78, one, 1, pdu); /* (m) */
    check(w.refusal == 0, "(m)", 78);
    memset(pdu, 0xA5, sizeof pdu);
    memcpy(before, pdu, sizeof pdu);
    w = offer(fresh, 79, one, 1, pdu);
    check(w.refusal == BARZHILUP_REFUSED_ROOM && w.ended == 0, "(m)", 79);
    check(memcmp(pdu, before, sizeof pdu) == 0, "(m) changes nothing", 79);
    check(same_writer(w.writer, fresh), "(m) leaves the writer", 79);
}

/* A call that is refused with a number, and changes nothing. */
static void refused(uint32_t number, barzhilup_writer writer, barzhilup_settings settings,
                    size_t psd, uint16_t length, size_t bytes, size_t pdu_length)
{
    static uint8_t pdu[BARZHILUP_PDU_MAX + 1], before[BARZHILUP_PDU_MAX + 1];
    barzhilup_written w;
    memset(pdu, 0x5A, sizeof pdu);
    memcpy(before, pdu, sizeof pdu);
    w = barzhilup_write(writer, settings, zeros, psd, &length, 1, zeros, bytes, pdu, pdu_length);
    check(w.refusal == number && w.ended == 0, "refused with", number);
    check(memcmp(pdu, before, sizeof pdu) == 0, "refused, PDU unchanged", number);
    check(same_writer(w.writer, writer), "refused, writer unchanged", number);
}

static void test_refusals(void)
{
    barzhilup_writer core = barzhilup_open_writer(1, 0).writer;
    barzhilup_writer enhanced = barzhilup_open_writer(1, 1).writer;
    barzhilup_writer bad = core;
    barzhilup_settings s = none;

    check(barzhilup_open_writer(4, 0).refusal == BARZHILUP_REFUSED_MODE, "opening", 4);
    check(barzhilup_open_writer(13, 1).refusal == BARZHILUP_REFUSED_MODE, "opening", 13);
    bad.sequence = 8;
    refused(BARZHILUP_REFUSED_STATE, bad, none, 0, 1, 1, 96);
    refused(BARZHILUP_REFUSED_PDU_LENGTH, core, none, 0, 1, 1, 95);
    refused(BARZHILUP_REFUSED_PDU_LENGTH, core, none, 0, 1, 1, 4097);
    refused(BARZHILUP_REFUSED_PDU_LENGTH, enhanced, none, 0, 1, 1, 20481);
    s.classed = true;
    s.class_code = 1;
    refused(BARZHILUP_REFUSED_EXPANSION, core, s, 0, 1, 1, 96);
    s = none;
    s.gain = 7;
    refused(BARZHILUP_REFUSED_VALUE, core, s, 0, 1, 1, 96);
    refused(BARZHILUP_REFUSED_PACKETS, core, none, 0, 0, 0, 96);
    refused(BARZHILUP_REFUSED_PACKETS, core, none, 0, 4097, 4096, 96);
    refused(BARZHILUP_REFUSED_PACKETS, core, none, 0, 2, 1, 96);
    refused(BARZHILUP_REFUSED_PSD, core, none, 22, 1, 1, 96);
    refused(BARZHILUP_REFUSED_PSD, enhanced, none, 1, 1, 1, 96);
}

/* ---- As many pieces as there can be (document 02, Ask 9) ----------------- */

struct line {
    uint8_t mode, stream;
    unsigned bits;
    size_t psd; /* the most bytes of PSD */
};

static const struct line lines[10] = {{0, 0, 16, 128}, {1, 0, 12, 21}, {2, 0, 12, 21},
                                      {3, 0, 12, 21},  {1, 1, 16, 0},  {2, 1, 16, 0},
                                      {3, 1, 16, 0},   {10, 0, 12, 128}, {10, 1, 12, 0},
                                      {13, 0, 12, 21}};

/* La with so many pieces and bytes of PSD. */
static size_t la_of(const struct line *l, unsigned pieces, size_t psd)
{
    return 13 + (pieces * l->bits + 7) / 8 + psd;
}

/* The largest k up to 63 for which La is at most 255. */
static unsigned limit_of(const struct line *l, size_t psd)
{
    unsigned k = BARZHILUP_PIECES_MAX;
    while (la_of(l, k, psd) > 255)
        k--;
    return k;
}

/* Offers so many packets of a byte for a PDU of a length, which gets so many
 * pieces; the PDU is damaged in up to four header bytes and read. */
static void bytes_of_one(const struct line *l, size_t psd, unsigned offered, size_t length,
                         unsigned pieces, unsigned long which)
{
    static uint8_t pdu[BARZHILUP_PDU_MAX];
    uint16_t lengths[70] = {0};
    uint8_t bytes[70] = {0};
    barzhilup_writer writer = barzhilup_open_writer(l->mode, l->stream).writer;
    barzhilup_written w;
    barzhilup_reading r;
    unsigned k, n;

    for (k = 0; k < offered; k++) {
        lengths[k] = 1;
        bytes[k] = (uint8_t)random_below(256);
    }
    w = barzhilup_write(writer, none, zeros, psd, lengths, offered, bytes, offered, pdu, length);
    check(w.refusal == 0 && w.ended == pieces, "as many as the limit end", which);
    check(w.writer.sent == 0 && w.writer.number == pieces % 64, "the next packet waits", which);
    for (n = random_below(5); n > 0; n--)
        pdu[random_below(96)] = (uint8_t)random_below(256);
    r = barzhilup_read(pdu, length);
    check(r.refusal == 0 && r.control.nop == pieces, "count of pieces", which);
    check(r.control.la == la_of(l, pieces, psd), "La", which);
    for (k = 0; k < BARZHILUP_READING_PIECES; k++) {
        size_t start = k < pieces ? r.control.la + 1u + 2 * k : 0;
        check(r.starts[k] == start && r.lengths[k] == (k < pieces), "a piece's place", k);
        check(k >= pieces || pdu[start] == bytes[k], "a piece's byte", k);
    }
}

/* Each mode and stream with each length of PSD: at the limit, one past it, and
 * without room for the last one. */
static void test_limits(void)
{
    static const size_t psd_of[6] = {0, 116, 117, 118, 127, 128};
    static const unsigned limits[6] = {63, 63, 62, 62, 57, 57};
    unsigned i;
    size_t psd;

    for (i = 0; i < 6; i++) {
        check(limit_of(&lines[0], psd_of[i]) == limits[i], "the limit, 16 bits", psd_of[i]);
        check(limit_of(&lines[7], psd_of[i]) == 63, "the limit, 12 bits", psd_of[i]);
    }
    for (i = 0; i < 10; i++) {
        const struct line *l = &lines[i];
        for (psd = 0; psd <= l->psd; psd++) {
            unsigned limit = limit_of(l, psd);
            size_t near = la_of(l, limit, psd) + 1 + 2 * limit;
            bytes_of_one(l, psd, limit, near, limit, psd);
            bytes_of_one(l, psd, limit + 1, near, limit, psd);
            bytes_of_one(l, psd, limit + 1, near + 60, limit, psd);
            bytes_of_one(l, psd, 70, 4096, limit, psd);
            bytes_of_one(l, psd, limit, near - 1, limit - 1, psd);
            bytes_of_one(l, psd, limit - 1, near, limit - 1, psd);
        }
    }
}

#define PACKETS 40

/* Writes a list of packets in one mode, with CRCs from one starting value,
 * damages each header, and reads it. */
static void run(uint8_t mode, uint8_t stream, uint8_t start_value, unsigned long which)
{
    static uint8_t bytes[PACKETS * 4096], pdu[BARZHILUP_PDU_MAX], clean[BARZHILUP_PDU_MAX];
    static uint8_t back[PACKETS * 4096];
    uint16_t lengths[PACKETS];
    barzhilup_writer writer = barzhilup_open_writer_with(mode, stream, start_value).writer;
    size_t first = 0, start = 0, total = 0, got = 0, i, k;

    for (i = 0; i < PACKETS; i++) {
        lengths[i] = (uint16_t)(1 + random_below(random_below(4) == 0 ? 4096 : 200));
        total += lengths[i];
    }
    for (i = 0; i < total; i++)
        bytes[i] = (uint8_t)random_below(256);
    while (first < PACKETS) {
        size_t length = 96 + random_below(random_below(2) == 0 ? 100 : 4001);
        size_t offered = 1 + random_below((uint32_t)(PACKETS - first)), sum = 0;
        barzhilup_written w;
        barzhilup_reading r;
        for (i = 0; i < offered; i++)
            sum += lengths[first + i];
        w = barzhilup_write(writer, none, zeros, 0, lengths + first, offered, bytes + start, sum,
                            pdu, length);
        check(w.refusal == 0, "accepted", which);
        memcpy(clean, pdu, length);
        for (i = random_below(5); i > 0; i--)
            pdu[random_below(96)] = (uint8_t)random_below(256);
        r = barzhilup_read(pdu, length);
        check(r.refusal == 0 && memcmp(pdu, clean, length) == 0, "read back", which);
        check(r.control.pfirst == (writer.sent > 0) && r.control.plast == (w.writer.sent > 0),
              "flags", which);
        for (k = 0; k < r.control.nop; k++) {
            check(barzhilup_crc8_from(start_value, pdu + r.starts[k], r.lengths[k])
                      == pdu[r.starts[k] + r.lengths[k]],
                  "CRC", which);
            memcpy(back + got, pdu + r.starts[k], r.lengths[k]);
            got += r.lengths[k];
        }
        for (i = 0; i < w.ended; i++)
            start += lengths[first + i];
        first += w.ended;
        writer = w.writer;
        check(writer.crc_start == start_value, "starting value kept", which);
    }
    check(got == total && memcmp(back, bytes, total) == 0, "all bytes, joined", which);
}

int main(void)
{
    static const uint8_t table[10][2] = {{0, 0}, {1, 0}, {2, 0}, {3, 0}, {1, 1},
                                         {2, 1}, {3, 1}, {10, 0}, {10, 1}, {13, 0}};
    unsigned long n;

    test_examples();
    test_refusals();
    test_limits();
    for (n = 0; n < 200; n++) {
        uint8_t start_value = (uint8_t)(n < 100 ? BARZHILUP_CRC_START : random_below(256));
        run(table[n % 10][0], table[n % 10][1], start_value, n);
    }
    printf("  writer: %lu checks, %lu failed\n", checks, failed);
    return failed == 0 ? 0 : 1;
}
