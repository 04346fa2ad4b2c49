/*
 * Tests of the C library's header code and CRC-8 against document 01: its
 * examples (d) to (i), its refusals 3 and 4, and the rules worked out a second
 * time in the plainest way (byte products bit by bit, syndromes as sums, "no
 * code word is near enough" by trying every set of places).
 *
 * Every buffer lent to the library lies between guard bytes, and after each call
 * the buffer and both guards are compared whole with what they should hold.
 */
#include "barzhilup.h"

#include <stdio.h>
#include <string.h>

#define HEADER BARZHILUP_HEADER_BYTES
#define PARITY BARZHILUP_PARITY_BYTES
#define GUARD 33 /* odd, so that lent buffers are not aligned */
#define ROOM (GUARD + BARZHILUP_PDU_MAX + 1 + GUARD)

/* ---- Counting ------------------------------------------------------------ */

static unsigned long checks, failed, checks_before;

/* One check; `which` tells the cases of one kind apart. */
static void check(int holds, const char *what, unsigned long which)
{
    checks++;
    if (holds)
        return;
    failed++;
    if (failed <= 20)
        printf("  WRONG: %s, case %lu\n", what, which);
}

/* Says how many checks were made since the last call. */
static void report(const char *what)
{
    printf("  %s: %lu checks\n", what, checks - checks_before);
    checks_before = checks;
}

/* ---- Repeatable random numbers ------------------------------------------- */

static uint32_t state = 2463534242u;

static uint32_t random_below(uint32_t n)
{
    state ^= state << 13;
    state ^= state >> 17;
    state ^= state << 5;
    return state % n;
}

static void random_bytes(uint8_t *bytes, size_t length)
{
    size_t i;
    for (i = 0; i < length; i++)
        bytes[i] = (uint8_t)random_below(256);
}

/* ---- The rules again ----------------------------------------------------- */

static uint8_t products[256][256]; /* products in GF(256) */
static uint8_t powers[255];        /* powers[n] is a^n */
static uint8_t generator[HEADER];  /* the generator polynomial as a header */

/* The product of two bytes, bit by bit. */
static uint8_t times(unsigned x, unsigned y)
{
    unsigned r = 0;
    for (; y != 0; y >>= 1) {
        if (y & 1)
            r ^= x;
        x <<= 1;
        if (x & 0x100)
            x ^= 0x11d;
    }
    return (uint8_t)r;
}

static void make_tables(void)
{
    static const uint8_t exponents[9] = {36, 203, 3, 220, 253, 211, 240, 176, 0};
    unsigned x, y;
    for (x = 0; x < 256; x++)
        for (y = 0; y < 256; y++)
            products[x][y] = times(x, y);
    powers[0] = 1;
    for (x = 1; x < 255; x++)
        powers[x] = times(powers[x - 1], 2);
    for (x = 0; x < 9; x++)
        generator[x] = powers[exponents[x]];
}

/* S1 to S8 of a header. */
static void sums_of(const uint8_t *header, uint8_t *sums)
{
    unsigned i, j;
    for (j = 1; j <= PARITY; j++) {
        sums[j - 1] = 0;
        for (i = 0; i < HEADER; i++)
            sums[j - 1] ^= products[header[i]][powers[i * j % 255]];
    }
}

static int all_zero(const uint8_t *bytes, size_t length)
{
    size_t i;
    for (i = 0; i < length; i++)
        if (bytes[i] != 0)
            return 0;
    return 1;
}

/*
 * Whether n syndromes in a row come from errors at no more than `places` of the
 * bytes first to 95. An error at byte p adds v times x^j to Sj, with x = a^p, so
 * the row of S(j+1) + x Sj is free of it, and an error elsewhere stays. After
 * four places four values are left, which are zero only if those places explain
 * all eight.
 */
static int explained(const uint8_t *row, size_t n, unsigned first, unsigned places)
{
    uint8_t next[PARITY];
    unsigned p;
    size_t i;
    if (all_zero(row, n))
        return 1;
    if (places == 0)
        return 0;
    for (p = first; p < HEADER; p++) {
        for (i = 0; i + 1 < n; i++)
            next[i] = row[i + 1] ^ products[row[i]][powers[p]];
        if (explained(next, n - 1, p + 1, places - 1))
            return 1;
    }
    return 0;
}

/* The remainder of X^n divided by the generator. */
static void remainder_of_power(unsigned n, uint8_t *r)
{
    memset(r, 0, PARITY);
    r[0] = 1;
    while (n-- > 0) {
        uint8_t top = r[PARITY - 1];
        unsigned i;
        for (i = PARITY - 1; i > 0; i--)
            r[i] = r[i - 1] ^ products[top][generator[i]];
        r[0] = products[top][generator[0]];
    }
}

/* The CRC-8, bit by bit. */
static uint8_t crc_of(const uint8_t *bytes, size_t length)
{
    unsigned r = 0;
    size_t i;
    int bit;
    for (i = 0; i < length; i++) {
        r ^= bytes[i];
        for (bit = 0; bit < 8; bit++)
            r = r & 0x80 ? (r << 1 ^ 0x31) & 0xff : r << 1;
    }
    return (uint8_t)r;
}

/* ---- Lent buffers -------------------------------------------------------- */

static uint8_t room[ROOM];     /* guard, buffer, guard */
static uint8_t expected[ROOM]; /* what `room` should hold after the call */

/* A copy of the bytes between guards, expected to stay as it is. */
static uint8_t *lend(const uint8_t *bytes, size_t length)
{
    memset(room, 0xa5, ROOM);
    memcpy(room + GUARD, bytes, length);
    memcpy(expected, room, ROOM);
    return room + GUARD;
}

/* Expects these bytes at the buffer's start instead. */
static void expect(const uint8_t *bytes, size_t length)
{
    memcpy(expected + GUARD, bytes, length);
}

static int as_expected(void)
{
    return memcmp(room, expected, ROOM) == 0;
}

/* Corrects a PDU: accepted, with this count and this header. */
static void check_corrected(const uint8_t *pdu, size_t length, const uint8_t *header,
                            uint32_t count, const char *what, unsigned long which)
{
    uint8_t *lent = lend(pdu, length);
    barzhilup_correction_answer answer;
    expect(header, HEADER);
    answer = barzhilup_correct_header(lent, length);
    check(answer.refusal == BARZHILUP_ACCEPTED, what, which);
    check(answer.corrected == count, what, which);
    check(as_expected(), what, which);
}

/* Corrects a PDU: refused with this number, no byte changed. */
static void check_refused(const uint8_t *pdu, size_t length, uint32_t refusal,
                          const char *what, unsigned long which)
{
    uint8_t *lent = lend(pdu, length);
    barzhilup_correction_answer answer = barzhilup_correct_header(lent, length);
    check(answer.refusal == refusal, what, which);
    check(answer.corrected == 0, what, which);
    check(as_expected(), what, which);
}

/* A random PDU with the parity written by the library. */
static void make_pdu(uint8_t *pdu, size_t length)
{
    uint8_t sums[PARITY];
    uint8_t *lent;
    random_bytes(pdu, length);
    lent = lend(pdu, length);
    check(barzhilup_write_parity(lent, length) == BARZHILUP_ACCEPTED, "write_parity", length);
    expect(lent, PARITY);
    check(as_expected(), "write_parity beyond byte 7", length);
    sums_of(lent, sums);
    check(all_zero(sums, PARITY), "write_parity gives a code word", length);
    memcpy(pdu, lent, length);
}

/* Alters this many bytes of the header, each at another place. */
static void alter(uint8_t *header, unsigned count)
{
    uint8_t altered[HEADER] = {0};
    while (count > 0) {
        uint32_t place = random_below(HEADER);
        if (altered[place])
            continue;
        altered[place] = 1;
        header[place] ^= (uint8_t)(1 + random_below(255));
        count--;
    }
}

/* ---- The tests ----------------------------------------------------------- */

static void test_products(void)
{
    unsigned x, y;
    for (x = 0; x < 256; x++) {
        int right = 1;
        for (y = 0; y < 256; y++)
            right &= barzhilup_product((uint8_t)x, (uint8_t)y) == products[x][y];
        check(right, "products with x", x);
    }
    report("products, all 65,536");
}

static void check_crc(const uint8_t *bytes, size_t length, uint8_t crc, const char *what)
{
    const uint8_t *lent = lend(bytes, length);
    check(barzhilup_crc8(lent, length) == crc, what, length);
    check(as_expected(), "crc8 only reads", length);
}

static void test_crc_examples(void)
{
    static const uint8_t d[1] = {0x01}, e[1] = {0x80}, f[2] = {0x01, 0x00};
    check_crc(d, 1, 0x31, "(d)");
    check_crc(e, 1, 0x7a, "(e)");
    check_crc(f, 2, 0xf4, "(f)");
    report("(d), (e), (f), CRC-8 of 01, 80, 01 00");
}

static void test_crc(void)
{
    static uint8_t bytes[4096];
    size_t length;
    random_bytes(bytes, sizeof bytes);
    for (length = 0; length <= 300; length++)
        check_crc(bytes, length, crc_of(bytes, length), "crc8");
    check_crc(bytes, 4095, crc_of(bytes, 4095), "crc8");
    check_crc(bytes, 4096, crc_of(bytes, 4096), "crc8");
    report("CRC-8, lengths 0 to 300, 4,095, 4,096");
}

static void check_syndromes(const uint8_t *header, const uint8_t *sums, const char *what,
                            unsigned long which)
{
    const uint8_t *lent = lend(header, HEADER);
    barzhilup_syndromes_answer answer = barzhilup_syndromes(lent);
    check(memcmp(answer.values, sums, PARITY) == 0, what, which);
    check(as_expected(), "syndromes only reads", which);
}

static void check_parity(const uint8_t *header, const uint8_t *parity, const char *what,
                         unsigned long which)
{
    const uint8_t *lent = lend(header, HEADER);
    barzhilup_parity_answer answer = barzhilup_parity(lent);
    check(memcmp(answer.values, parity, PARITY) == 0, what, which);
    check(as_expected(), "parity only reads", which);
}

/* (g) The generator's coefficients in bytes 0 to 8 are a code word. */
static void test_generator(void)
{
    static const uint8_t zero[PARITY] = {0};
    uint8_t top[HEADER] = {0};
    top[8] = 1;
    check_syndromes(generator, zero, "(g) syndromes", 0);
    check_parity(generator, generator, "(g) parity", 0);
    check_parity(top, generator, "(g) parity from byte 8 alone", 0);
    check_corrected(generator, HEADER, generator, 0, "(g) corrected", 0);
    report("(g), the generator is a code word");
}

/* Zeroes the generator at every choice of `count` of its nine bytes; each
 * corrects to `header`, in four bytes. */
static unsigned zero_generator(unsigned count, const uint8_t *header, const char *what)
{
    unsigned choice, choices = 0;
    for (choice = 0; choice < 512; choice++) {
        uint8_t word[HEADER];
        unsigned i, zeroed = 0;
        memcpy(word, generator, HEADER);
        for (i = 0; i < 9; i++)
            if (choice >> i & 1) {
                word[i] = 0;
                zeroed++;
            }
        if (zeroed != count)
            continue;
        choices++;
        check_corrected(word, HEADER, header, 4, what, choice);
    }
    return choices;
}

static void test_zeroed_generator(void)
{
    static const uint8_t zero[HEADER] = {0};
    check(zero_generator(4, generator, "(h)") == 126, "(h) choices", 0);
    report("(h), four of the nine zeroed, all 126 choices");
    check(zero_generator(5, zero, "(i)") == 126, "(i) choices", 0);
    report("(i), five of the nine zeroed, all 126 choices");
}

static void test_syndromes_and_parity(void)
{
    unsigned n;
    for (n = 0; n < 100; n++) {
        uint8_t header[HEADER], sums[PARITY], parity[PARITY];
        random_bytes(header, HEADER);
        sums_of(header, sums);
        check_syndromes(header, sums, "syndromes", n);
        make_pdu(header, HEADER);
        memcpy(parity, header, PARITY);
        random_bytes(header, PARITY);
        check_parity(header, parity, "parity", n);
    }
    report("syndromes and parity of 100 random headers");
}

/* A PDU of a length that is not allowed, whatever its header. */
static void check_length_refused(const uint8_t *pdu, size_t length)
{
    uint8_t *lent = lend(pdu, length);
    uint32_t refusal = barzhilup_write_parity(lent, length);
    check(refusal == BARZHILUP_REFUSED_PDU_LENGTH, "write_parity, length refused", length);
    check(as_expected(), "write_parity, refused and changed", length);
    check_refused(pdu, length, BARZHILUP_REFUSED_PDU_LENGTH, "length refused", length);
}

static void test_lengths(void)
{
    static const size_t accepted[] = {96, 97, 1000, 4096, 4097, 20479, 20480};
    static uint8_t pdu[BARZHILUP_PDU_MAX + 1];
    uint8_t header[HEADER];
    size_t i;
    for (i = 0; i <= 95; i++) {
        random_bytes(pdu, i);
        check_length_refused(pdu, i);
    }
    check_length_refused(generator, 95);
    random_bytes(pdu, sizeof pdu);
    check_length_refused(pdu, sizeof pdu);
    memcpy(pdu, generator, HEADER);
    check_length_refused(pdu, sizeof pdu);
    report("lengths 0 to 95 and 20,481 refused with 3");
    for (i = 0; i < sizeof accepted / sizeof accepted[0]; i++) {
        make_pdu(pdu, accepted[i]);
        memcpy(header, pdu, HEADER);
        check_corrected(pdu, accepted[i], header, 0, "length accepted", accepted[i]);
        alter(pdu, 4);
        check_corrected(pdu, accepted[i], header, 4, "length, four altered", accepted[i]);
    }
    report("lengths 96 to 20,480: parity written, four bytes altered, corrected");
}

static void test_corrections(void)
{
    uint8_t pdu[200], header[HEADER];
    unsigned n, count, place;
    for (count = 0; count <= BARZHILUP_CORRECTED_MAX; count++)
        for (n = 0; n < 200; n++) {
            make_pdu(pdu, sizeof pdu);
            memcpy(header, pdu, HEADER);
            alter(pdu, count);
            check_corrected(pdu, sizeof pdu, header, count, "random places", count);
        }
    for (place = 0; place < HEADER; place++) {
        memcpy(pdu, header, HEADER);
        pdu[place] ^= (uint8_t)(1 + random_below(255));
        check_corrected(pdu, sizeof pdu, header, 1, "one place", place);
    }
    report("0 to 4 bytes altered, 200 times each, and each of the 96 alone");
}

/*
 * Code words plus v times the remainder of X^p, p from 96 to 254: one byte away
 * from a word of the long code that is not zero at place p. Words of the long
 * code differ in nine bytes or more, so every code word of 96 bytes is at least
 * eight bytes away, and with `more` other bytes altered at least 8 - more.
 */
static void check_places_beyond(unsigned more)
{
    unsigned p, i;
    for (p = HEADER; p < 255; p++) {
        uint8_t pdu[120], rest[PARITY], v = (uint8_t)(1 + random_below(255));
        make_pdu(pdu, sizeof pdu);
        remainder_of_power(p, rest);
        for (i = 0; i < PARITY; i++)
            pdu[i] ^= products[v][rest[i]];
        alter(pdu, more);
        check_refused(pdu, sizeof pdu, BARZHILUP_REFUSED_UNCORRECTABLE, "place beyond 95", p);
    }
}

static void test_uncorrectable(void)
{
    unsigned n, count, more;
    for (more = 0; more <= 3; more++)
        check_places_beyond(more);
    report("uncorrectable: an error at place 96 to 254, with 0 to 3 within");
    for (n = 0; n < 8; n++) {
        uint8_t pdu[150], sums[PARITY];
        count = 5 + n / 2;
        make_pdu(pdu, sizeof pdu);
        alter(pdu, count);
        sums_of(pdu, sums);
        check(!explained(sums, PARITY, 0, 4), "no code word within four bytes", count);
        check_refused(pdu, sizeof pdu, BARZHILUP_REFUSED_UNCORRECTABLE, "altered bytes", count);
    }
    report("uncorrectable: 5 to 8 bytes altered, no code word near by search");
}

/* A PDU of 701 bytes with these bytes from byte 8 on, and its parity; up to four
 * bytes of the header are altered. Reading answers it and corrects the header. */
static barzhilup_reading read_altered(const uint8_t *words, size_t n, unsigned count)
{
    static uint8_t pdu[701], right[701];
    uint8_t *lent;
    barzhilup_reading answer;
    memset(right, 0, sizeof right);
    memcpy(right + 8, words, n);
    barzhilup_write_parity(right, sizeof right);
    memcpy(pdu, right, sizeof pdu);
    alter(pdu, count);
    lent = lend(pdu, sizeof pdu);
    answer = barzhilup_read(lent, sizeof pdu);
    check(memcmp(lent, right, sizeof right) == 0, "read corrects the header", count);
    return answer;
}

/* (a) to (c): the control word, and the same pieces by locators of 16 and of 12 bits. */
static void test_reading(void)
{
    static const uint8_t ab[] = {0x40, 0x04, 0x05, 0x0B, 0x05, 0x11, 0x2C, 0x01, 0xBC, 0x02};
    static const uint8_t c[] = {0x41, 0x04, 0x05, 0x0B, 0x05, 0x11, 0x2C, 0xC1, 0x2B};
    unsigned count;
    for (count = 0; count <= BARZHILUP_CORRECTED_MAX; count++) {
        barzhilup_reading a = read_altered(ab, sizeof ab, count);
        barzhilup_reading b = read_altered(c, sizeof c, count);
        check(a.refusal == BARZHILUP_ACCEPTED && b.refusal == BARZHILUP_ACCEPTED, "read", count);
        check(a.control.mode == 0 && a.control.stream == 0 && a.control.sequence == 1, "(a)", 1);
        check(a.control.blend == 2 && a.control.gain == 0, "(a)", 2);
        check(a.control.common_delay == 5 && a.control.latency == 4, "(a)", 3);
        check(a.control.pfirst == 1 && a.control.plast == 0, "(a)", 4);
        check(a.control.start == 33 && a.control.nop == 2 && a.control.la == 17, "(a)", 5);
        check(a.starts[0] == 18 && a.lengths[0] == 282, "(b) first piece", count);
        check(a.starts[1] == 301 && a.lengths[1] == 399, "(b) second piece", count);
        check(a.psd_start == 18 && a.psd_length == 0, "(b) PSD", count);
        check(b.psd_start == 17 && b.psd_length == 1, "(c) PSD", count);
        check(memcmp(a.starts, b.starts, sizeof a.starts) == 0, "(c) starts", count);
        check(memcmp(a.lengths, b.lengths, sizeof a.lengths) == 0, "(c) lengths", count);
    }
    report("reading, (a) to (c), 0 to 4 bytes altered");
}

/* Refused: a length, a header, a mode; no byte changes. */
static void check_reading_refused(const uint8_t *pdu, size_t length, uint32_t refusal)
{
    uint8_t *lent = lend(pdu, length);
    barzhilup_reading answer = barzhilup_read(lent, length);
    check(answer.refusal == refusal, "reading refused", refusal);
    check(answer.control.la == 0 && answer.starts[0] == 0, "reading refused, fields", refusal);
    check(as_expected(), "reading refused and changed", refusal);
}

static void test_reading_refused(void)
{
    static uint8_t pdu[200];
    make_pdu(pdu, sizeof pdu);
    check_reading_refused(pdu, 95, 3);
    memset(pdu, 0, sizeof pdu);
    pdu[8] = 0x3F;
    barzhilup_write_parity(pdu, sizeof pdu);
    pdu[50] ^= 0x11;
    check_reading_refused(pdu, sizeof pdu, 5);
    report("reading refused, and the header left damaged");
}

int main(void)
{
    make_tables();
    test_products();
    test_crc_examples();
    test_crc();
    test_generator();
    test_zeroed_generator();
    test_syndromes_and_parity();
    test_lengths();
    test_corrections();
    test_uncorrectable();
    test_reading();
    test_reading_refused();
    printf("C: %lu checks, %lu failed\n", checks, failed);
    return failed != 0;
}
