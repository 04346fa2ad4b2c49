/*
 * Tests of pairs of PDUs, two copies of one (document 02, Ask 5): which copy is
 * chosen; pieces that are right, wrong or differing in each copy, in each mode and
 * stream; each refusal on each copy; every bit before the pieces altered in one
 * copy; logs one word short; what comes before all that; and whole lists of packets
 * that come in pairs with damaged pieces, among single calls and lost PDUs.
 *
 * What a pair has to answer and to leave is worked out from how it was made, with
 * barzhilup_receive on a PDU that has each piece as it has to be taken. Every buffer
 * lent to the library lies between guards. After each call all buffers with their
 * guards are compared whole with what they should hold, and so is each field of the
 * answer.
 */
#include "barzhilup.h"

#include <stdio.h>
#include <string.h>

#define CARRY BARZHILUP_CARRY_BYTES
#define LONGEST 20481 /* bytes of a PDU here */
#define WORDS 9000    /* of a log that is longer than needed */
#define GUARD 33      /* odd, so that lent bytes are not aligned */

/* ---- Counting ------------------------------------------------------------ */

static unsigned long checks, failed, checks_before;

/* One check; `which` tells the cases of one kind apart. */
static void check(int holds, const char *what, unsigned long which)
{
    checks++;
    if (holds)
        return;
    failed++;
    if (failed <= 20)
        printf("  WRONG: %s, case %lu\n", what, which);
}

/* Says how many checks were made since the last call. */
static void report(const char *what)
{
    printf("  %s: %lu checks\n", what, checks - checks_before);
    checks_before = checks;
}

/* ---- Repeatable random numbers ------------------------------------------- */

static uint32_t state = 362436069u;

static uint32_t random_below(uint32_t n)
{
    state ^= state << 13;
    state ^= state >> 17;
    state ^= state << 5;
    return state % n;
}

static void random_bytes(uint8_t *bytes, size_t length)
{
    size_t i;
    for (i = 0; i < length; i++)
        bytes[i] = (uint8_t)random_below(256);
}

/* ---- PDUs of one writer -------------------------------------------------- */

static const uint8_t table[10][2] = {{0, 0}, {1, 0}, {2, 0},  {3, 0},  {1, 1},
                                     {2, 1}, {3, 1}, {10, 0}, {10, 1}, {13, 0}};

#define PACKETS 60

/* A list of packets, and how many of them a writer has sent to their ends. */
static uint8_t bytes[PACKETS * 400];
static uint16_t packets[PACKETS];
static size_t ended, ended_bytes;
static barzhilup_writer writer;

static void new_list(unsigned line, uint8_t crc_start)
{
    unsigned k;
    random_bytes(bytes, sizeof bytes);
    for (k = 0; k < PACKETS; k++)
        packets[k] = (uint16_t)(1 + random_below(k % 5 == 0 ? 400 : 60));
    ended = ended_bytes = 0;
    writer = barzhilup_open_writer_with(table[line][0], table[line][1], crc_start).writer;
}

/* Writes the next PDU, with a displacement; answers its length. */
static size_t next_pdu(uint8_t *pdu)
{
    size_t length = 96 + random_below(605), k, all = 0;
    barzhilup_settings settings;
    barzhilup_written w;

    memset(&settings, 0, sizeof settings);
    settings.displaced = true;
    for (k = ended; k < PACKETS; k++)
        all += packets[k];
    w = barzhilup_write(writer, settings, bytes, writer.stream == 0 ? random_below(9) : 0,
                        packets + ended, PACKETS - ended, bytes + ended_bytes, all, pdu, length);
    check(w.refusal == 0, "written", length);
    for (k = 0; k < w.ended; k++)
        ended_bytes += packets[ended++];
    writer = w.writer;
    return length;
}

/* ---- What is lent to a call ---------------------------------------------- */

struct lent {
    uint8_t carry[GUARD + CARRY + GUARD];
    uint8_t first[GUARD + LONGEST + GUARD];
    uint8_t second[GUARD + LONGEST + GUARD];
    uint32_t log[GUARD + WORDS + GUARD];
};

static struct lent is, should;
static size_t carry_length, first_length, second_length, log_length;

#define FIRST (is.first + GUARD)
#define SECOND (is.second + GUARD)

/* Everything that is lent, guards too, with bytes of all kinds; those of the PDUs
 * as they are between calls. */
static void fill(void)
{
    random_bytes(is.carry, sizeof is.carry);
    random_bytes((uint8_t *)is.log, sizeof is.log);
    random_bytes(is.first, GUARD);
    random_bytes(is.second, GUARD);
    carry_length = CARRY;
    log_length = WORDS;
}

/* The same PDU as both copies. */
static void both(const uint8_t *pdu, size_t length)
{
    memcpy(FIRST, pdu, length);
    memcpy(SECOND, pdu, length);
    first_length = second_length = length;
}

static int same_receiver(barzhilup_receiver one, barzhilup_receiver other)
{
    return one.mode == other.mode && one.stream == other.stream
           && one.crc_start == other.crc_start && one.entitled == other.entitled
           && one.known == other.known && one.sequence == other.sequence
           && one.held == other.held && one.number == other.number
           && one.serviced == other.serviced && one.services == other.services
           && one.delivered == other.delivered && one.missing == other.missing
           && one.last == other.last;
}

/* Receives the pair, and compares all with what should come out. */
static barzhilup_received compare(barzhilup_receiver receiver, barzhilup_received wanted,
                                  const char *what, unsigned long which)
{
    barzhilup_received a =
        barzhilup_receive_pair(receiver, is.carry + GUARD, carry_length, FIRST, first_length,
                               SECOND, second_length, is.log + GUARD, log_length);
    check(a.refusal == wanted.refusal && a.wrong_locator == wanted.wrong_locator, what, which);
    check(a.words == wanted.words, "words written", which);
    check(same_receiver(a.receiver, wanted.receiver), "receiver afterwards", which);
    check(memcmp(is.carry, should.carry, sizeof is.carry) == 0, "carry afterwards", which);
    check(memcmp(is.first, should.first, GUARD + first_length + GUARD) == 0,
          "first copy afterwards", which);
    check(memcmp(is.second, should.second, GUARD + second_length + GUARD) == 0,
          "second copy afterwards", which);
    check(memcmp(is.log, should.log, sizeof is.log) == 0, "log afterwards", which);
    return a;
}

/* Receives the pair, which is refused with a number. */
static void refused(barzhilup_receiver receiver, uint32_t number, uint32_t k, const char *what,
                    unsigned long which)
{
    barzhilup_received wanted = {0, 0, 0, receiver};
    wanted.refusal = number;
    wanted.wrong_locator = k;
    should = is;
    compare(receiver, wanted, what, which);
}

/* Receives the pair, which has to come out as this PDU alone does: `taken` has each
 * piece as it has to be taken, or with a wrong CRC. Bit k of `differing` is set where
 * piece k's note is 7 in place of 2. Each copy that can be corrected is left so. */
static barzhilup_received accepted(barzhilup_receiver receiver, uint8_t *taken, size_t length,
                                   uint64_t differing, const char *what, unsigned long which)
{
    barzhilup_received wanted;
    uint32_t k;

    should = is;
    wanted = barzhilup_receive(receiver, should.carry + GUARD, carry_length, taken, length,
                               should.log + GUARD, log_length);
    check(wanted.refusal == 0, "the PDU alone", which);
    for (k = 0; k < wanted.words; k++) {
        uint32_t *word = should.log + GUARD + k, piece = *word & 0xffff;
        if (*word >> 16 == 0xc002 && piece < 64 && (differing >> piece & 1) != 0)
            *word = 0xc0070000 | piece;
    }
    barzhilup_correct_header(should.first + GUARD, first_length);
    barzhilup_correct_header(should.second + GUARD, second_length);
    return compare(receiver, wanted, what, which);
}

static barzhilup_receiver opened(unsigned line, uint8_t crc_start)
{
    return barzhilup_open_receiver_with(table[line][0], table[line][1], crc_start).receiver;
}

static void alter_header(uint8_t *pdu, unsigned many)
{
    for (; many > 0; many--)
        pdu[random_below(96)] = (uint8_t)random_below(256);
}

/* Alters so many bytes of a header, at most four, none twice. */
static void alter_bytes(uint8_t *pdu, unsigned many)
{
    unsigned place = random_below(20);
    for (; many > 0; many--, place += 19)
        pdu[place] ^= (uint8_t)(1 + random_below(255));
}

/* Alters one to four bytes of each header: one that a refusal left corrected would
 * not be as it was lent. */
static void alter_both(void)
{
    alter_bytes(FIRST, 1 + random_below(4));
    alter_bytes(SECOND, 1 + random_below(4));
}

/* Makes a header one that can't be corrected. */
static void spoil_header(uint8_t *pdu)
{
    uint8_t copy[96];
    unsigned k;
    do {
        memcpy(copy, pdu, 96);
        for (k = 0; k < 12; k++)
            copy[random_below(96)] ^= (uint8_t)(1 + random_below(255));
        k = (unsigned)barzhilup_correct_header(copy, 96).refusal;
    } while (k != BARZHILUP_REFUSED_UNCORRECTABLE);
    memcpy(pdu, copy, 96);
}

/* ---- Choosing ------------------------------------------------------------ */

/* Chooses, and checks the number, the part, and that no byte has changed. */
static void chosen(uint32_t number, unsigned long which)
{
    barzhilup_part part;
    should = is;
    check(barzhilup_choose(FIRST, first_length, SECOND, second_length) == number, "chosen", which);
    part = barzhilup_chosen(FIRST, first_length, SECOND, second_length);
    check(part.bytes == (number == 2 ? SECOND : FIRST), "the buffer itself", which);
    check(part.length == (number == 0 ? 0 : number == 1 ? first_length : second_length),
          "the whole buffer", which);
    check(memcmp(&is, &should, sizeof is) == 0, "both PDUs as lent", which);
}

/* So many bytes of a code word altered, none twice; with more than four, a header
 * that can't be corrected. */
static void altered_word(uint8_t *pdu, unsigned many)
{
    random_bytes(pdu, 96);
    barzhilup_write_parity(pdu, 96);
    if (many > 4)
        spoil_header(pdu);
    else
        alter_bytes(pdu, many);
}

static void test_choosing(void)
{
    static const size_t lengths[] = {96, 97, 700, 20480};
    static const size_t wrong[] = {0, 1, 95, 20481};
    unsigned one, other, turn, k;

    fill();
    for (turn = 0; turn < 40; turn++)
        for (one = 0; one <= 5; one++)
            for (other = 0; other <= 5; other++) {
                altered_word(FIRST, one);
                altered_word(SECOND, other);
                first_length = lengths[turn % 4];
                second_length = lengths[turn / 4 % 4];
                chosen(one == 5 && other == 5 ? 0 : other < one ? 2 : 1, one * 10 + other);
            }
    for (turn = 0; turn < 4; turn++)
        for (k = 0; k < 5; k++) {
            altered_word(FIRST, k);
            altered_word(SECOND, 0);
            first_length = lengths[turn];
            second_length = wrong[k % 4];
            chosen(1, 100 + k);
            first_length = wrong[k % 4];
            second_length = lengths[turn];
            chosen(2, 200 + k);
            second_length = wrong[turn];
            chosen(0, 300 + k);
            spoil_header(SECOND);
            second_length = lengths[turn];
            chosen(0, 400 + k);
        }
    /* One buffer twice, and two that overlap. */
    altered_word(FIRST, 3);
    check(barzhilup_chosen(FIRST, 96, FIRST, 96).bytes == FIRST, "one buffer twice", 0);
    check(barzhilup_choose(FIRST, 96, FIRST, 200) == 1, "one buffer twice", 1);
    check(barzhilup_choose(FIRST, 95, FIRST, 96) == 2, "one buffer twice", 2);
    report("which copy is chosen");
}

/* ---- Pieces -------------------------------------------------------------- */

/* A piece with its bytes altered, or with another CRC. */
static void damage(uint8_t *pdu, size_t start, size_t end, uint8_t crc_start, int right)
{
    pdu[start + random_below((uint32_t)(end - start))] ^= (uint8_t)(1 + random_below(255));
    pdu[end] = barzhilup_crc8_from(crc_start, pdu + start, end - start);
    if (!right)
        pdu[end] ^= (uint8_t)(1 + random_below(255));
}

/* Damages pieces of the copies, and makes `taken` what has to come of it. The fate of
 * each piece is one of six. Answers the pieces that are right in both and differ. */
static uint64_t some_fates(uint8_t *taken, size_t length, uint8_t crc_start, unsigned fates)
{
    barzhilup_reading r = barzhilup_read(taken, length);
    uint64_t differing = 0;
    unsigned k;

    for (k = 0; k < r.control.nop; k++) {
        size_t start = r.starts[k], end = start + r.lengths[k];
        switch (fates == 6 ? random_below(6) : fates) {
        case 0: /* right in both */
            break;
        case 1: /* right in the first alone */
            damage(SECOND, start, end, crc_start, 0);
            break;
        case 2: /* right in the second alone */
            damage(FIRST, start, end, crc_start, 0);
            break;
        case 3: /* wrong in both, and equal */
            damage(taken, start, end, crc_start, 0);
            memcpy(FIRST + start, taken + start, end + 1 - start);
            memcpy(SECOND + start, taken + start, end + 1 - start);
            break;
        case 4: /* wrong in both, and not equal */
            damage(taken, start, end, crc_start, 0);
            memcpy(FIRST + start, taken + start, end + 1 - start);
            damage(SECOND, start, end, crc_start, 0);
            break;
        default: /* right in both, and not equal */
            taken[end] ^= 1;
            damage(SECOND, start, end, crc_start, 1);
            differing |= (uint64_t)1 << k;
        }
    }
    barzhilup_write_parity(taken, length);
    barzhilup_write_parity(FIRST, length);
    barzhilup_write_parity(SECOND, length);
    return differing;
}

static void test_pieces(void)
{
    static uint8_t taken[LONGEST];
    unsigned line, turn;
    for (line = 0; line < 10; line++)
        for (turn = 0; turn < 70; turn++) {
            uint8_t start = (uint8_t)random_below(256);
            barzhilup_receiver receiver = opened(line, start);
            new_list(line, start);
            fill();
            while (ended < PACKETS) {
                uint64_t differing;
                size_t length = next_pdu(taken);
                both(taken, length);
                random_bytes(FIRST + length, GUARD);
                random_bytes(SECOND + length, GUARD);
                differing = some_fates(taken, length, start, turn % 7);
                alter_header(FIRST, random_below(5));
                alter_header(SECOND, random_below(5));
                receiver =
                    accepted(receiver, taken, length, differing, "pieces", turn % 7).receiver;
                random_bytes((uint8_t *)is.log, sizeof is.log);
            }
        }
    report("pieces right, wrong and differing, in each mode and stream");
}

/* Only one copy can be corrected, or has a length of PDUs: it is received alone. */
static void test_alone(void)
{
    static uint8_t taken[LONGEST];
    unsigned turn;
    for (turn = 0; turn < 400; turn++) {
        size_t length;
        new_list(turn % 10, 0);
        length = next_pdu(taken);
        fill();
        both(taken, length);
        random_bytes(FIRST + length, GUARD);
        random_bytes(SECOND + length, GUARD);
        alter_header(turn % 2 == 0 ? FIRST : SECOND, random_below(5));
        if (turn % 8 < 2)
            spoil_header(turn % 2 == 0 ? SECOND : FIRST);
        else
            *(turn % 2 == 0 ? &second_length : &first_length) =
                turn % 8 < 4 ? 95 : turn % 8 < 6 ? 0 : 20481;
        accepted(opened(turn % 10, 0), taken, length, 0, "one copy alone", turn % 8);
    }
    report("pairs of which one copy can be corrected");
}

/* A PDU of mode 0, core, with two pieces of one byte and both flags; starting number
 * 5. */
static void two_bytes(uint8_t *pdu, uint8_t one, uint8_t other)
{
    memset(pdu, 0, 96);
    pdu[11] = 5 << 3 | 6;
    pdu[12] = 4;
    pdu[13] = 17;
    pdu[14] = 19;
    pdu[16] = 21;
    pdu[18] = one;
    pdu[19] = barzhilup_crc8(&one, 1);
    pdu[20] = other;
    pdu[21] = barzhilup_crc8(&other, 1);
    barzhilup_write_parity(pdu, 96);
}

/* Note 7 comes before notes 3 and 5, and what was held is dropped. */
static void test_note_7(void)
{
    static const uint32_t differ[2] = {0xc0070000, 0xc0070001};
    unsigned held;
    for (held = 0; held < 2; held++) {
        barzhilup_receiver receiver = opened(0, 0);
        barzhilup_received a;
        uint8_t taken[96];
        if (held) {
            receiver.held = CARRY;
            receiver.number = 4;
        }
        fill();
        first_length = second_length = 96;
        two_bytes(FIRST, 1, 3);
        two_bytes(SECOND, 2, 4);
        two_bytes(taken, 1, 3);
        taken[19] ^= 1;
        taken[21] ^= 1;
        barzhilup_write_parity(taken, 96);
        a = accepted(receiver, taken, 96, 3, "note 7", held);
        check(a.words == 2 && memcmp(is.log + GUARD, differ, sizeof differ) == 0, "note 7", held);
        check(a.receiver.held == 0 && a.receiver.number == 0, "nothing held", held);
        /* Equal copies: note 3 or 5, and the second piece is held. */
        fill();
        two_bytes(FIRST, 1, 3);
        two_bytes(SECOND, 1, 3);
        two_bytes(taken, 1, 3);
        a = accepted(receiver, taken, 96, 0, "equal copies", held);
        check(is.log[GUARD] == (held ? 0xc0050000 : 0xc0030000), "note 3 or 5", held);
        check(a.words == 1 && a.receiver.held == 1 && is.carry[GUARD] == 3, "held", held);
    }
    report("note 7");
}

/* ---- Refusals ------------------------------------------------------------ */

/* Makes a PDU of mode 0, core, with pieces and a displacement one that is refused
 * with this number, 5 to 12, or 4; with 0 it is left as it is. */
static void spoil(uint8_t *pdu, size_t length, uint32_t number)
{
    size_t expansion = 14 + 2 * (size_t)(pdu[12] >> 1 & 63);
    switch (number) {
    case 0:
        return;
    case BARZHILUP_REFUSED_UNCORRECTABLE:
        spoil_header(pdu);
        return;
    case BARZHILUP_REFUSED_MODE:
        pdu[8] |= 15;
        break;
    case BARZHILUP_REFUSED_OTHER_MODE:
        pdu[8] |= 1;
        break;
    case BARZHILUP_REFUSED_SEQUENCE:
        pdu[9] |= 1;
        break;
    case BARZHILUP_REFUSED_PIECES:
        pdu[12] &= 0x81;
        pdu[11] |= 2;
        break;
    case BARZHILUP_REFUSED_LA:
        pdu[13] = 13;
        break;
    case BARZHILUP_REFUSED_EXPANSION:
        pdu[expansion] = 0;
        break;
    case BARZHILUP_REFUSED_LOCATOR:
        pdu[expansion - 2] = pdu[expansion - 1] = 0;
        break;
    default: /* a displacement of 0 */
        pdu[expansion + 1] = 0x80;
        pdu[expansion + 2] = 0;
    }
    barzhilup_write_parity(pdu, length);
}

/* The least number over the copies that can be corrected, 3 for a wrong length;
 * where none is refused, 20 or 0. */
static uint32_t least(uint32_t one, uint32_t other)
{
    int mends = one != 3 && one != 4, other_mends = other != 3 && other != 4;
    if (!mends && !other_mends)
        return 4;
    if (!mends || (other_mends && other != 0 && (one == 0 || other < one)))
        return other;
    return one;
}

/* The k of a wrong locator, told by reading. */
static uint32_t wrong_locator(const uint8_t *pdu, size_t length)
{
    static uint8_t copy[LONGEST];
    memcpy(copy, pdu, length);
    return barzhilup_read(copy, length).wrong_locator;
}

/* Each number on each copy. */
static void test_numbers(void)
{
    static uint8_t taken[LONGEST];
    uint32_t one, other, number, k;
    unsigned turn;

    for (turn = 0; turn < 25; turn++)
        for (one = 2; one <= 12; one++)
            for (other = 2; other <= 12; other++) {
                uint32_t numbers[2] = {one == 2 ? 0 : one, other == 2 ? 0 : other};
                size_t length;
                number = least(numbers[0], numbers[1]);
                new_list(0, 0);
                length = next_pdu(taken);
                fill();
                both(taken, length);
                random_bytes(FIRST + length, GUARD);
                random_bytes(SECOND + length, GUARD);
                if (one == 3)
                    first_length = turn % 2 == 0 ? 95 : 20481;
                else
                    spoil(FIRST, length, numbers[0]);
                if (other == 3)
                    second_length = turn % 3 == 0 ? 95 : 0;
                else
                    spoil(SECOND, length, numbers[1]);
                k = 0;
                if (number == 11) {
                    uint32_t in_first = wrong_locator(FIRST, length),
                             in_second = wrong_locator(SECOND, length);
                    k = numbers[0] != 11                              ? in_second
                        : numbers[1] != 11 || in_first < in_second ? in_first
                                                                      : in_second;
                }
                if (one != 3 && one != 4)
                    alter_bytes(FIRST, turn % 5);
                if (other != 3 && other != 4)
                    alter_bytes(SECOND, turn / 5);
                if (number == 0)
                    accepted(opened(0, 0), taken, length, 0, "accepted", one * 100 + other);
                else
                    refused(opened(0, 0), number, k, "least number", one * 100 + other);
            }
    report("each number on each copy, and the least of them");
}

/* Three pieces of one byte in 96, mode 0, core, from byte 20 on. */
static void three_pieces(uint8_t *pdu)
{
    unsigned k;
    memset(pdu, 0, 96);
    pdu[12] = 6;
    pdu[13] = 19;
    for (k = 0; k < 3; k++)
        pdu[14 + 2 * k] = (uint8_t)(21 + 2 * k);
}

/* Of wrong locators in both copies the smallest k. */
static void test_smallest_k(void)
{
    unsigned one, other;
    for (one = 0; one < 3; one++)
        for (other = 0; other < 3; other++) {
            fill();
            first_length = second_length = 96;
            three_pieces(FIRST);
            three_pieces(SECOND);
            FIRST[14 + 2 * one] = SECOND[14 + 2 * other] = 200;
            barzhilup_write_parity(FIRST, 96);
            barzhilup_write_parity(SECOND, 96);
            alter_both();
            refused(opened(0, 0), 11, one < other ? one : other, "smallest k", one * 3 + other);
        }
    report("the smallest k over both copies");
}

/* A bit of one copy altered, and its parity written: 20 if it is before the pieces and
 * the copy is not refused itself, otherwise nothing of 20. */
static void check_bit(unsigned line, const uint8_t *pdu, size_t length, unsigned place,
                      unsigned bit)
{
    static uint8_t copy[LONGEST];
    uint32_t alone, k;
    fill();
    both(pdu, length);
    random_bytes(FIRST + length, GUARD);
    random_bytes(SECOND + length, GUARD);
    SECOND[place] ^= (uint8_t)(1 << bit);
    barzhilup_write_parity(SECOND, length);
    memcpy(copy, SECOND, length);
    log_length = (place + bit) % 3 == 0 ? 0 : WORDS; /* 20 comes before 13 */
    {
        barzhilup_received a = barzhilup_receive(opened(line, 0), should.carry + GUARD, CARRY,
                                                 copy, length, should.log, WORDS);
        alone = a.refusal;
        k = a.wrong_locator;
    }
    if ((place + bit) % 2 == 0) { /* the copies change places */
        memcpy(copy, FIRST, length);
        memcpy(FIRST, SECOND, length);
        memcpy(SECOND, copy, length);
    }
    alter_both();
    if (alone != 0)
        refused(opened(line, 0), alone, k, "a copy that is refused", place * 8 + bit);
    else
        refused(opened(line, 0), 20, 0, "copies that differ", place * 8 + bit);
}

static void test_copies_that_differ(void)
{
    static uint8_t taken[LONGEST];
    unsigned line, place, bit;
    for (line = 0; line < 10; line++) {
        size_t length;
        do { /* an odd count of locators */
            new_list(line, 0);
            length = next_pdu(taken);
        } while (length < 300 || (taken[12] >> 1 & 1) == 0);
        for (place = 8; place <= taken[13]; place++)
            for (bit = 0; bit < 8; bit++)
                check_bit(line, taken, length, place, bit);
        /* Lengths: a byte more, or one less, which is reserved. */
        for (bit = 0; bit < 2; bit++) {
            fill();
            both(taken, length);
            FIRST[length] = SECOND[length] = 0;
            *(bit == 0 ? &first_length : &second_length) = length + 1;
            alter_both();
            refused(opened(line, 0), 20, 0, "lengths that differ", line);
            log_length = 0;
            refused(opened(line, 0), 20, 0, "lengths that differ, and no log", line);
        }
    }
    report("every bit before the pieces altered in one copy, and lengths");
}

/* Bytes after La may differ: those of pieces, and reserved ones. */
static void test_after_la(void)
{
    uint8_t taken[96];
    unsigned place;
    for (place = 20; place < 96; place++) {
        fill();
        first_length = second_length = 96;
        three_pieces(FIRST);
        three_pieces(SECOND);
        SECOND[place] ^= 0x55;
        three_pieces(taken);
        barzhilup_write_parity(FIRST, 96);
        barzhilup_write_parity(SECOND, 96);
        barzhilup_write_parity(taken, 96);
        accepted(opened(0, 0), taken, 96, 0, "a byte after La", place);
    }
    report("bytes after La that differ");
}

/* 1 and 2 come first, whatever is wrong with the PDUs; 13 comes last. Each copy that
 * can be corrected has altered bytes. */
static void test_order(void)
{
    barzhilup_receiver right = opened(0, 0), wrong = right;
    static uint8_t taken[LONGEST];
    unsigned turn;

    wrong.number = 1; /* though nothing is held */
    for (turn = 0; turn < 200; turn++) {
        size_t length, words;
        new_list(0, 0);
        length = next_pdu(taken);
        fill();
        both(taken, length);
        random_bytes(FIRST + length, GUARD);
        random_bytes(SECOND + length, GUARD);
        alter_both();
        if (turn % 4 == 1)
            second_length = 95;
        if (turn % 4 == 2)
            spoil_header(FIRST);
        should = is;
        words = barzhilup_receive(right, should.carry + GUARD, CARRY, taken, length,
                                  should.log, WORDS).words;
        if (words == 0)
            continue;
        log_length = words - 1;
        refused(right, BARZHILUP_REFUSED_LOG_LENGTH, 0, "a word short", turn);
        log_length = 0;
        refused(right, BARZHILUP_REFUSED_LOG_LENGTH, 0, "no log", turn);
        if (turn % 4 == 3) {
            memcpy(SECOND, taken, length);
            spoil(SECOND, length, 5 + turn / 4 % 8);
            alter_bytes(SECOND, 1 + random_below(4));
        }
        if (turn % 8 == 0)
            first_length = second_length = 95;
        refused(wrong, BARZHILUP_REFUSED_STATE, 0, "state", turn);
        carry_length = turn % 3 == 0 ? CARRY - 1 : 0;
        refused(wrong, BARZHILUP_REFUSED_STATE, 0, "state and carry", turn);
        refused(right, BARZHILUP_REFUSED_CARRY_LENGTH, 0, "carry", turn);
        if (turn % 4 != 3 && turn % 8 != 0) {
            carry_length = CARRY;
            log_length = words;
            accepted(right, taken, length, 0, "just long enough", turn);
        }
    }
    report("what comes before and after the copies");
}

/* ---- The longest log ----------------------------------------------------- */

/* 63 pieces in 20,480 bytes: of 1, 61 times 325 and 450 bytes, with PSD of one byte;
 * the first continues 4,095 held bytes. */
static void longest_pdu(uint8_t *pdu)
{
    size_t start = 141, k;
    memset(pdu, 0, 20480);
    random_bytes(pdu + 140, 20480 - 140);
    pdu[11] = 10 << 3 | 2;
    pdu[12] = 63 << 1;
    pdu[13] = 140;
    for (k = 0; k < 63; k++) {
        size_t length = k == 0 ? 1 : k == 62 ? 450 : 325, end = start + length;
        pdu[14 + 2 * k] = (uint8_t)end;
        pdu[15 + 2 * k] = (uint8_t)(end >> 8);
        pdu[end] = barzhilup_crc8(pdu + start, length);
        start = end + 1;
    }
    check(start == 20480, "the longest PDU", 0);
    barzhilup_write_parity(pdu, 20480);
}

static void test_longest_log(void)
{
    static uint8_t taken[LONGEST];
    barzhilup_receiver receiver = opened(0, 0);
    barzhilup_received a;

    receiver.held = 4095;
    receiver.number = 9;
    longest_pdu(taken);
    fill();
    both(taken, 20480);
    random_bytes(FIRST + 20480, GUARD);
    random_bytes(SECOND + 20480, GUARD);
    alter_both();
    log_length = 8229;
    refused(receiver, BARZHILUP_REFUSED_LOG_LENGTH, 0, "8,229 words", 0);
    /* The first two pieces are right in one copy alone. */
    FIRST[141 + 1] ^= 1;
    SECOND[143 + 325] ^= 1;
    log_length = BARZHILUP_LOG_WORDS;
    a = accepted(receiver, taken, 20480, 0, "8,400 words", 0);
    check(a.words == 8230, "the longest log", a.words);
    report("the longest log");
}

/* ---- Whole lists --------------------------------------------------------- */

/* Two receivers on one list: the first gets pairs, in which each piece is right in one
 * copy at least, the second the PDUs as they were sent. */
static struct road {
    barzhilup_receiver receiver;
    uint8_t carry[CARRY];
    uint32_t log[400 * 800];
    size_t words;
} roads[2];

static void go_on(struct road *road, barzhilup_received a)
{
    check(a.refusal == 0, "accepted", a.refusal);
    road->receiver = a.receiver;
    road->words += a.words;
}

static void lose(struct road *road)
{
    go_on(road, barzhilup_mark_lost(road->receiver, road->log + road->words, 1));
}

static void receive_pair(struct road *road)
{
    go_on(road, barzhilup_receive_pair(road->receiver, road->carry, CARRY, FIRST, first_length,
                                       SECOND, second_length, road->log + road->words, WORDS));
}

static void receive_alone(struct road *road, uint8_t *pdu, size_t length)
{
    go_on(road, barzhilup_receive(road->receiver, road->carry, CARRY, pdu, length,
                                  road->log + road->words, WORDS));
}

/* A pair that is refused, with the receiver and carry of the road. */
static void refuse(struct road *road, size_t length)
{
    barzhilup_received a;
    spoil_header(FIRST);
    second_length = 95;
    a = barzhilup_receive_pair(road->receiver, road->carry, CARRY, FIRST, length, SECOND, 95,
                               road->log + road->words, WORDS);
    check(a.refusal == 4 && same_receiver(a.receiver, road->receiver), "refused on a list", 0);
}

/* Damages each piece, past byte 95, in one copy or in none. */
static void damage_pieces(const uint8_t *pdu, size_t length, uint8_t crc_start)
{
    static uint8_t copy[LONGEST];
    barzhilup_reading r;
    unsigned k;
    memcpy(copy, pdu, length);
    r = barzhilup_read(copy, length);
    for (k = 0; k < r.control.nop; k++) {
        size_t start = r.starts[k], end = start + r.lengths[k];
        if (start >= 96 && random_below(3) > 0)
            damage(random_below(2) == 0 ? FIRST : SECOND, start, end, crc_start, 0);
    }
}

static void test_lists(void)
{
    static uint8_t sent[LONGEST];
    unsigned turn, k;
    fill();
    for (turn = 0; turn < 500; turn++) {
        uint8_t start = (uint8_t)turn;
        new_list(turn % 10, start);
        for (k = 0; k < 2; k++) {
            roads[k].receiver = opened(turn % 10, start);
            roads[k].words = 0;
        }
        while (ended < PACKETS) {
            size_t length = next_pdu(sent);
            if (random_below(6) == 0) {
                both(sent, length);
                refuse(&roads[0], length);
            }
            if (random_below(8) == 0) {
                lose(&roads[0]);
                lose(&roads[1]);
                continue;
            }
            both(sent, length);
            if (random_below(4) == 0) {
                alter_header(FIRST, random_below(5));
                receive_alone(&roads[0], FIRST, length);
            } else {
                damage_pieces(sent, length, start);
                alter_header(FIRST, random_below(5));
                alter_header(SECOND, random_below(5));
                receive_pair(&roads[0]);
            }
            receive_alone(&roads[1], sent, length);
        }
        check(same_receiver(roads[0].receiver, roads[1].receiver), "receivers of a list", turn);
        check(memcmp(roads[0].carry, roads[1].carry, roads[0].receiver.held) == 0,
              "held on a list", turn);
        check(roads[0].words == roads[1].words, "words of a list", turn);
        check(memcmp(roads[0].log, roads[1].log, roads[0].words * sizeof roads[0].log[0]) == 0,
              "logs of a list", turn);
    }
    report("lists of packets in pairs with damaged pieces, and as sent");
}

int main(void)
{
    test_choosing();
    test_pieces();
    test_alone();
    test_note_7();
    test_numbers();
    test_smallest_k();
    test_copies_that_differ();
    test_after_la();
    test_order();
    test_longest_log();
    test_lists();
    printf("  pairs: %lu checks, %lu failed\n", checks, failed);
    return failed == 0 ? 0 : 1;
}
