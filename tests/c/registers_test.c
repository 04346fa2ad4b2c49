/*
 * Tests of the C library where the CRC's register starts at another value than 0
 * (document 02, Ask 2): known CRCs, by themselves and in whole PDUs that are
 * written, received and listed; the CRC from every start beside one worked out
 * bit by bit; opening with every value; every call keeps it; and PDUs of each
 * value received and listed with each.
 *
 * Every buffer lent to the library lies between guards, and after each call all
 * of them with their guards are compared whole with what they should hold.
 */
#include "barzhilup.h"

#include <stdio.h>
#include <string.h>

#define HEADER BARZHILUP_HEADER_BYTES
#define CARRY BARZHILUP_CARRY_BYTES
#define LOG 60   /* words of a lent log */
#define GUARD 33 /* odd, so that lent bytes are not aligned */
#define STARTS 256
#define OFF_AIR BARZHILUP_CRC_START_OFF_AIR

/* ---- Counting ------------------------------------------------------------ */

static unsigned long checks, failed, checks_before;

/* One check; `which` tells the cases of one kind apart. */
static void check(int holds, const char *what, unsigned long which)
{
    checks++;
    if (holds)
        return;
    failed++;
    if (failed <= 20)
        printf("  WRONG: %s, case %lu\n", what, which);
}

/* Says how many checks were made since the last call. */
static void report(const char *what)
{
    printf("  %s: %lu checks\n", what, checks - checks_before);
    checks_before = checks;
}

/* ---- Repeatable random numbers ------------------------------------------- */

static uint32_t state = 123456789u;

static uint32_t random_below(uint32_t n)
{
    state ^= state << 13;
    state ^= state >> 17;
    state ^= state << 5;
    return state % n;
}

static void random_bytes(uint8_t *bytes, size_t length)
{
    size_t i;
    for (i = 0; i < length; i++)
        bytes[i] = (uint8_t)random_below(256);
}

/* ---- The CRC again ------------------------------------------------------- */

/* The CRC-8 from a start, bit by bit. */
static uint8_t crc_of(unsigned start, const uint8_t *bytes, size_t length)
{
    unsigned r = start;
    size_t i;
    int bit;
    for (i = 0; i < length; i++) {
        r ^= bytes[i];
        for (bit = 0; bit < 8; bit++)
            r = r & 0x80 ? (r << 1 ^ 0x31) & 0xff : r << 1;
    }
    return (uint8_t)r;
}

static void check_crc(unsigned start, const uint8_t *bytes, size_t length, uint8_t crc,
                      const char *what)
{
    static uint8_t room[GUARD + BARZHILUP_PDU_MAX + GUARD], before[sizeof room];
    size_t whole = GUARD + length + GUARD;
    memset(room, 0xa5, whole);
    memcpy(room + GUARD, bytes, length);
    memcpy(before, room, whole);
    check(barzhilup_crc8_from((uint8_t)start, room + GUARD, length) == crc, what, start);
    check(memcmp(room, before, whole) == 0, "crc8_from only reads", start);
}

/* Known pieces, and their CRCs from 0 and from 255. */
static const uint8_t known_bytes[13] = {0x01, 0x80, 0x01, 0x00, '1', '2', '3',
                                        '4',  '5',  '6',  '7',  '8', '9'};
static const uint16_t known_lengths[4] = {1, 1, 2, 9};
static const uint8_t known_crcs[2][4] = {{0x31, 0x7a, 0xf4, 0xa2}, {0x9d, 0xd6, 0x75, 0xf7}};

static void test_known(void)
{
    const uint8_t *piece = known_bytes;
    unsigned k;
    for (k = 0; k < 4; k++) {
        check_crc(0, piece, known_lengths[k], known_crcs[0][k], "known CRC from 0");
        check_crc(OFF_AIR, piece, known_lengths[k], known_crcs[1][k], "known CRC from 255");
        check(barzhilup_crc8(piece, known_lengths[k]) == known_crcs[0][k], "crc8 is from 0", k);
        piece += known_lengths[k];
    }
    report("known CRCs: 01, 80, 01 00, 123456789");
}

static void test_crc(void)
{
    static const size_t long_ones[4] = {4095, 4096, 16385, BARZHILUP_PDU_MAX};
    static uint8_t piece[BARZHILUP_PDU_MAX];
    uint8_t crc;
    unsigned start;
    size_t length;
    random_bytes(piece, sizeof piece);
    for (start = 0; start < STARTS; start++) {
        for (length = 0; length <= 140; length++)
            check_crc(start, piece + start, length, crc_of(start, piece + start, length), "CRC");
        length = long_ones[start % 4];
        check_crc(start, piece, length, crc_of(start, piece, length), "CRC, long");
        check(barzhilup_crc8_from((uint8_t)start, piece, 0) == start, "CRC of no bytes", start);
        /* The start is added to the first byte. */
        crc = barzhilup_crc8_from((uint8_t)start, piece, 50);
        piece[0] ^= (uint8_t)start;
        check(barzhilup_crc8(piece, 50) == crc, "start in the first byte", start);
    }
    report("CRC-8 from every start, lengths 0 to 140, 4,095, 4,096, 16,385, 20,480");
}

/* ---- Opening ------------------------------------------------------------- */

static const uint8_t table[10][2] = {{0, 0}, {1, 0}, {2, 0}, {3, 0}, {1, 1},
                                     {2, 1}, {3, 1}, {10, 0}, {10, 1}, {13, 0}};

static int in_table(unsigned mode, unsigned stream)
{
    unsigned i;
    for (i = 0; i < 10; i++)
        if (table[i][0] == mode && table[i][1] == stream)
            return 1;
    return 0;
}

static int same_writer(barzhilup_writer one, barzhilup_writer other)
{
    return one.mode == other.mode && one.stream == other.stream
           && one.crc_start == other.crc_start && one.sequence == other.sequence
           && one.number == other.number && one.sent == other.sent;
}

static int same_receiver(barzhilup_receiver one, barzhilup_receiver other)
{
    return one.mode == other.mode && one.stream == other.stream
           && one.crc_start == other.crc_start && one.entitled == other.entitled
           && one.known == other.known && one.sequence == other.sequence
           && one.held == other.held && one.number == other.number
           && one.serviced == other.serviced && one.services == other.services
           && one.delivered == other.delivered && one.missing == other.missing
           && one.last == other.last;
}

/* Opens a writer and a receiver with each start. A mode and stream that the table
 * has not are refused with 5, and what comes back is of mode 255. */
static void check_opening(uint8_t mode, uint8_t stream)
{
    int there = in_table(mode, stream), writers = 1, receivers = 1;
    uint32_t refusal = there ? BARZHILUP_ACCEPTED : BARZHILUP_REFUSED_MODE;
    barzhilup_writer w = {255, 0, 0, 0, 0, 0};
    barzhilup_receiver r = {255, 0, 0, 0, false, 0, 0, 0, false, 0, 0, 0, 0};
    barzhilup_writer_opened of_writer = barzhilup_open_writer(mode, stream);
    barzhilup_receiver_opened of_receiver = barzhilup_open_receiver(mode, stream);
    unsigned start;

    if (there) {
        w.mode = r.mode = mode;
        w.stream = r.stream = stream;
        r.entitled = 255;
    }
    check(of_writer.refusal == refusal && same_writer(of_writer.writer, w), "writer", mode);
    check(of_receiver.refusal == refusal && same_receiver(of_receiver.receiver, r), "receiver",
          mode);
    for (start = 0; start < STARTS; start++) {
        of_writer = barzhilup_open_writer_with(mode, stream, (uint8_t)start);
        of_receiver = barzhilup_open_receiver_with(mode, stream, (uint8_t)start);
        w.crc_start = r.crc_start = (uint8_t)(there ? start : 0);
        writers &= of_writer.refusal == refusal && same_writer(of_writer.writer, w);
        receivers &= of_receiver.refusal == refusal && same_receiver(of_receiver.receiver, r);
    }
    check(writers, "writers, each start", mode);
    check(receivers, "receivers, each start", mode);
}

static void test_opening(void)
{
    unsigned mode, stream;
    for (mode = 0; mode < 256; mode++)
        for (stream = 0; stream < 256; stream++)
            check_opening((uint8_t)mode, (uint8_t)stream);
    report("opening: every mode and stream, each with all 256 starts");
}

/* ---- What is lent to a call ---------------------------------------------- */

struct lent {
    uint8_t carry[GUARD + CARRY + GUARD];
    uint8_t pdu[GUARD + HEADER + GUARD];
    uint32_t log[GUARD + LOG + GUARD];
    uint8_t before[GUARD];
    barzhilup_piece list[6];
    uint8_t after[GUARD];
};

static struct lent is, should;

/* All that is lent, filled with bytes of all kinds, guards too. */
static void fill(void)
{
    size_t k;
    random_bytes((uint8_t *)&is, sizeof is);
    for (k = 0; k < 6; k++)
        is.list[k].right = random_below(2) == 0;
}

/* Lends a PDU with so many bytes of its header altered; it is expected to be left
 * as it was sent, and all else as it is. */
static void lend(const uint8_t *pdu, unsigned altered)
{
    memcpy(is.pdu + GUARD, pdu, HEADER);
    memcpy(&should, &is, sizeof is);
    for (; altered > 0; altered--)
        is.pdu[GUARD + random_below(HEADER)] = (uint8_t)random_below(256);
}

/* Everything but the entries of the list is as expected. */
static int as_expected(void)
{
    return memcmp(is.carry, should.carry, sizeof is.carry) == 0
           && memcmp(is.pdu, should.pdu, sizeof is.pdu) == 0
           && memcmp(is.log, should.log, sizeof is.log) == 0
           && memcmp(is.before, should.before, sizeof is.before) == 0
           && memcmp(is.after, should.after, sizeof is.after) == 0;
}

static int list_as_expected(void)
{
    size_t k;
    for (k = 0; k < 6; k++)
        if (is.list[k].start != should.list[k].start || is.list[k].length != should.list[k].length
            || is.list[k].right != should.list[k].right)
            return 0;
    return 1;
}

static barzhilup_received receive(barzhilup_receiver receiver)
{
    return barzhilup_receive(receiver, is.carry + GUARD, CARRY, is.pdu + GUARD, HEADER,
                             is.log + GUARD, LOG);
}

static barzhilup_stepped receive_in_place(barzhilup_receiver *receiver)
{
    return barzhilup_receive_in_place(receiver, is.carry + GUARD, CARRY, is.pdu + GUARD, HEADER,
                                      is.log + GUARD, LOG);
}

/* ---- Log words again ----------------------------------------------------- */

static size_t words; /* that the next call has to write */

static void want(uint32_t word)
{
    should.log[GUARD + words++] = word;
}

static void want_note(uint32_t cause, uint32_t piece)
{
    want((uint32_t)BARZHILUP_LOG_NOTE << 30 | cause << 16 | piece);
}

static void want_packet(uint32_t number, const uint8_t *bytes, size_t length)
{
    size_t i, n;
    want(number << 16 | (uint32_t)length);
    for (i = 0; i < length; i += 3) {
        n = length - i < 3 ? length - i : 3;
        want((uint32_t)BARZHILUP_LOG_DATA << 30 | (uint32_t)n << 24 | (uint32_t)bytes[i] << 16
             | (uint32_t)(n > 1 ? bytes[i + 1] : 0) << 8 | (uint32_t)(n > 2 ? bytes[i + 2] : 0));
    }
}

/* ---- Two PDUs ------------------------------------------------------------ */

/*
 * The known pieces, a packet of 100 bytes and one of 20, in two PDUs of 96 bytes
 * in mode 0, core: the first has the four known pieces and 54 bytes of the
 * hundred, the second the other 46 and the twenty.
 */
#define PART 54

static const barzhilup_settings none; /* all 0 */
static const uint16_t lengths[6] = {1, 1, 2, 9, 100, 20};
static uint8_t bytes[13 + 100 + 20];
static uint8_t sent[STARTS][2][HEADER]; /* by the start that they were written with */

static void write_both(unsigned start)
{
    barzhilup_writer_opened o = barzhilup_open_writer_with(0, 0, (uint8_t)start);
    barzhilup_written w;
    w = barzhilup_write(o.writer, none, bytes, 0, lengths, 6, bytes, sizeof bytes, sent[start][0],
                        HEADER);
    check(w.refusal == 0 && w.ended == 4 && w.writer.sent == PART, "first written", start);
    check(w.writer.crc_start == start, "first written, start kept", start);
    w = barzhilup_write(w.writer, none, bytes, 0, lengths + 4, 2, bytes + 13, 120, sent[start][1],
                        HEADER);
    check(w.refusal == 0 && w.ended == 2 && w.writer.sent == 0, "second written", start);
    check(w.writer.crc_start == start, "second written, start kept", start);
}

/* The CRC byte of each piece; from another start nothing else is different. */
static void check_both(unsigned start)
{
    static const unsigned ends[2][5] = {{25, 27, 30, 40, 95}, {64, 85, 0, 0, 0}};
    unsigned n, k, pieces;
    for (n = 0; n < 2; n++) {
        uint8_t like[HEADER];
        const uint8_t *pdu = sent[start][n];
        size_t piece = n == 0 ? 24 : 18;
        pieces = n == 0 ? 5 : 2;
        memcpy(like, sent[0][n], HEADER);
        for (k = 0; k < pieces; k++) {
            size_t end = ends[n][k];
            check(pdu[end] == crc_of(start, pdu + piece, end - piece), "CRC of a piece", start);
            like[end] = pdu[end];
            piece = end + 1;
        }
        memcpy(like, pdu, BARZHILUP_PARITY_BYTES);
        check(memcmp(like, pdu, HEADER) == 0, "all but CRCs and parity as from 0", start);
    }
}

static void test_written(void)
{
    static const unsigned ends[4] = {25, 27, 30, 40};
    unsigned start, k;
    memcpy(bytes, known_bytes, sizeof known_bytes);
    random_bytes(bytes + 13, 120);
    for (start = 0; start < STARTS; start++)
        write_both(start);
    for (start = 0; start < STARTS; start++)
        check_both(start);
    for (k = 0; k < 4; k++) {
        check(sent[0][0][ends[k]] == known_crcs[0][k], "known CRC written from 0", k);
        check(sent[OFF_AIR][0][ends[k]] == known_crcs[1][k], "known CRC written from 255", k);
    }
    report("two PDUs written from each start");
}

/* What the first PDU logs and leaves held where all CRCs are right, or all
 * wrong. */
static void want_first(int right)
{
    const uint8_t *piece = bytes;
    unsigned k;
    words = 0;
    for (k = 0; k < 5; k++) {
        if (!right)
            want_note(BARZHILUP_NOTE_CRC, k);
        else if (k < 4)
            want_packet(k, piece, lengths[k]);
        piece += lengths[k];
    }
    if (right)
        memcpy(should.carry + GUARD, bytes + 13, PART);
}

/* The receiver after the first PDU. */
static barzhilup_receiver after_first(unsigned start, int right)
{
    barzhilup_receiver r = {0, 0, 0, 255, true, 0, 0, 0, false, 0, 0, 0, 0};
    r.crc_start = (uint8_t)start;
    r.held = (uint16_t)(right ? PART : 0);
    r.number = (uint8_t)(right ? 4 : 0);
    r.delivered = right ? 4 : 0;
    r.last = (uint8_t)(right ? 3 : 0);
    return r;
}

/* Receives the first PDU, by value and in place, with the receiver's start. */
static void check_received(unsigned written, unsigned start, unsigned long which)
{
    int right = written == start;
    barzhilup_receiver opened = barzhilup_open_receiver_with(0, 0, (uint8_t)start).receiver;
    barzhilup_receiver place = opened, next = after_first(start, right);
    barzhilup_received a;
    barzhilup_stepped s;

    lend(sent[written][0], random_below(5));
    want_first(right);
    a = receive(opened);
    check(a.refusal == 0 && a.wrong_locator == 0 && a.words == words, "received", which);
    check(same_receiver(a.receiver, next), "received, receiver", which);
    check(as_expected(), "received, all that is lent", which);
    lend(sent[written][0], random_below(5));
    want_first(right);
    s = receive_in_place(&place);
    check(s.refusal == 0 && s.wrong_locator == 0 && s.words == words, "in place", which);
    check(same_receiver(place, next), "in place, receiver", which);
    check(as_expected(), "in place, all that is lent", which);
}

/* Lists the first PDU's pieces with a start. */
static void check_listed(unsigned written, unsigned start, unsigned long which)
{
    static const uint16_t starts[5] = {24, 26, 28, 31, 41};
    barzhilup_reading r;
    unsigned k;

    lend(sent[written][0], random_below(5));
    for (k = 0; k < 5; k++) {
        should.list[k].start = starts[k];
        should.list[k].length = k < 4 ? lengths[k] : PART;
        should.list[k].right = written == start;
    }
    r = barzhilup_list_pieces(is.pdu + GUARD, HEADER, (uint8_t)start, is.list, 6);
    check(r.refusal == 0 && r.control.nop == 5 && r.control.plast == 1, "listed", which);
    check(as_expected() && list_as_expected(), "listed, all that is lent", which);
    /* A list too short is refused whatever the start. */
    lend(sent[written][0], 0);
    r = barzhilup_list_pieces(is.pdu + GUARD, HEADER, (uint8_t)start, is.list, 4);
    check(r.refusal == BARZHILUP_REFUSED_LIST_LENGTH && r.control.nop == 0, "too short", which);
    check(as_expected() && list_as_expected(), "too short, all that is lent", which);
}

/* Equal starts: everything is right. Unequal ones: note 2 for each piece, nothing
 * held, and no verdict is right. */
static void test_pairs(void)
{
    unsigned written, start;
    fill();
    for (written = 0; written < STARTS; written++)
        for (start = 0; start < STARTS; start++) {
            unsigned long which = written * STARTS + start;
            check_received(written, start, which);
            check_listed(written, start, which);
        }
    report("a PDU of each start received and listed with each, all 65,536 pairs");
}

/* Both PDUs at one start: the packet of 100 bytes is joined. */
static void test_both(void)
{
    unsigned start;
    fill();
    for (start = 0; start < STARTS; start++) {
        barzhilup_receiver opened = barzhilup_open_receiver_with(0, 0, (uint8_t)start).receiver;
        barzhilup_receiver next = opened;
        barzhilup_received a;
        lend(sent[start][0], random_below(5));
        want_first(1);
        a = receive(opened);
        check(a.refusal == 0 && a.words == words && as_expected(), "first of two", start);
        lend(sent[start][1], random_below(5));
        words = 0;
        want_packet(4, bytes + 13, 100);
        want_packet(5, bytes + 113, 20);
        a = receive(a.receiver);
        next.known = true;
        next.sequence = 1;
        next.delivered = 6;
        next.last = 5;
        check(a.refusal == 0 && a.words == words, "second of two", start);
        check(same_receiver(a.receiver, next), "second of two, receiver", start);
        check(as_expected(), "second of two, all that is lent", start);
    }
    report("both PDUs from each start: joined");
}

/* ---- The start is kept --------------------------------------------------- */

/* Writing: accepted, with no packets, and refused. */
static void check_writer_keeps(const uint8_t *line, unsigned start)
{
    barzhilup_writer writer = barzhilup_open_writer_with(line[0], line[1], (uint8_t)start).writer;
    barzhilup_written w;
    uint8_t pdu[HEADER];
    unsigned n;
    for (n = 0; n < 10; n++) {
        w = barzhilup_write(writer, none, bytes, 0, lengths, n % 2, bytes, n % 2, pdu, HEADER);
        check(w.refusal == 0 && w.writer.crc_start == start, "written, start kept", start);
        writer = w.writer;
    }
    w = barzhilup_write(writer, none, bytes, 0, lengths, 1, bytes, 1, pdu, HEADER - 1);
    check(w.refusal == BARZHILUP_REFUSED_PDU_LENGTH && same_writer(w.writer, writer),
          "refused, writer as it came", start);
}

/* Receiving and marking lost, by value, with marks and in place; accepted and
 * refused. */
static void check_receiver_keeps(const uint8_t *line, unsigned start)
{
    static const uint8_t marks[2] = {3, 95};
    barzhilup_writer writer = barzhilup_open_writer_with(line[0], line[1], (uint8_t)start).writer;
    barzhilup_receiver opened =
        barzhilup_open_receiver_with(line[0], line[1], (uint8_t)start).receiver;
    barzhilup_receiver known = opened, place = opened, lost = opened;
    barzhilup_received a;
    barzhilup_stepped s;
    uint8_t pdu[HEADER];
    uint32_t one;

    known.known = true;
    known.delivered = lost.delivered = 1;
    /* Core PDUs of sequence range 0-7 take their applied services with sequence 0. */
    known.serviced =
        line[1] == 0 && (line[0] == 1 || line[0] == 2 || line[0] == 3 || line[0] == 13);
    check(barzhilup_write(writer, none, bytes, 0, lengths, 1, bytes, 1, pdu, HEADER).refusal == 0,
          "written", start);
    lend(pdu, 0);
    a = receive(opened);
    check(a.refusal == 0 && same_receiver(a.receiver, known), "received, start kept", start);
    a = barzhilup_receive_marked(opened, is.carry + GUARD, CARRY, is.pdu + GUARD, HEADER, marks, 2,
                                 is.log + GUARD, LOG);
    check(a.refusal == 0 && same_receiver(a.receiver, known), "with marks, start kept", start);
    s = receive_in_place(&place);
    check(s.refusal == 0 && same_receiver(place, known), "in place, start kept", start);
    a = barzhilup_receive(known, is.carry + GUARD, CARRY, pdu, HEADER - 1, is.log + GUARD, LOG);
    check(a.refusal == BARZHILUP_REFUSED_PDU_LENGTH && same_receiver(a.receiver, known),
          "refused, receiver as it came", start);
    a = barzhilup_mark_lost(known, &one, 1);
    check(a.refusal == 0 && same_receiver(a.receiver, lost), "marked lost, start kept", start);
    s = barzhilup_mark_lost_in_place(&place, &one, 0);
    check(s.refusal == BARZHILUP_REFUSED_LOG_LENGTH && same_receiver(place, known),
          "marking lost refused, receiver as it came", start);
    s = barzhilup_mark_lost_in_place(&place, &one, 1);
    check(s.refusal == 0 && same_receiver(place, lost), "lost in place, start kept", start);
}

static void test_kept(void)
{
    unsigned line, start;
    fill();
    for (line = 0; line < 10; line++)
        for (start = 0; start < STARTS; start++) {
            check_writer_keeps(table[line], start);
            check_receiver_keeps(table[line], start);
        }
    report("every call keeps the start: all 256 in each mode and stream");
}

int main(void)
{
    test_known();
    test_crc();
    test_opening();
    test_written();
    test_pairs();
    test_both();
    test_kept();
    printf("  registers: %lu checks, %lu failed\n", checks, failed);
    return failed == 0 ? 0 : 1;
}
