/*
 * Tests of the C library where places of a header are marked (document 02, Ask
 * 3): correcting with every count of marks and of other altered bytes on both
 * sides of the bound, number 19 in each of its reasons and in its place between 3
 * and 4, and receiving with marks. "No code word is within the bound" is worked
 * out a second time by trying every set of unmarked places; what receiving has to
 * log and to hold is what it logs and holds of the PDU that was sent.
 *
 * Every buffer lent to the library lies between guard bytes, and after each call
 * the buffers and their guards are compared whole with what they should hold.
 */
#include "barzhilup.h"

#include <stdio.h>
#include <string.h>

#define HEADER BARZHILUP_HEADER_BYTES
#define PARITY BARZHILUP_PARITY_BYTES
#define MOST BARZHILUP_MARKS_MAX
#define CARRY BARZHILUP_CARRY_BYTES
#define LOG BARZHILUP_LOG_WORDS
#define LISTED 300 /* places of the longest list of marks */
#define GUARD 33   /* odd, so that lent bytes are not aligned */

/* ---- Counting ------------------------------------------------------------ */

static unsigned long checks, failed, checks_before;

/* One check; `which` tells the cases of one kind apart. */
static void check(int holds, const char *what, unsigned long which)
{
    checks++;
    if (holds)
        return;
    failed++;
    if (failed <= 20)
        printf("  WRONG: %s, case %lu\n", what, which);
}

/* Says how many checks were made since the last call. */
static void report(const char *what)
{
    printf("  %s: %lu checks\n", what, checks - checks_before);
    checks_before = checks;
}

/* ---- Repeatable random numbers ------------------------------------------- */

static uint32_t state = 88675123u;

static uint32_t random_below(uint32_t n)
{
    state ^= state << 13;
    state ^= state >> 17;
    state ^= state << 5;
    return state % n;
}

static void random_bytes(uint8_t *bytes, size_t length)
{
    size_t i;
    for (i = 0; i < length; i++)
        bytes[i] = (uint8_t)random_below(256);
}

/* So many different places of a header. */
static void random_places(uint8_t *places, size_t count)
{
    uint8_t taken[HEADER] = {0};
    size_t n = 0;
    while (n < count) {
        uint32_t place = random_below(HEADER);
        if (!taken[place])
            places[n++] = (uint8_t)place;
        taken[place] = 1;
    }
}

/* ---- The rules again ----------------------------------------------------- */

static uint8_t products[256][256]; /* products in GF(256) */
static uint8_t powers[255];        /* powers[n] is a^n */
static uint8_t generator[HEADER];  /* the generator polynomial as a header */

/* The product of two bytes, bit by bit. */
static uint8_t times(unsigned x, unsigned y)
{
    unsigned r = 0;
    for (; y != 0; y >>= 1) {
        if (y & 1)
            r ^= x;
        x <<= 1;
        if (x & 0x100)
            x ^= 0x11d;
    }
    return (uint8_t)r;
}

static void make_tables(void)
{
    static const uint8_t exponents[9] = {36, 203, 3, 220, 253, 211, 240, 176, 0};
    unsigned x, y;
    for (x = 0; x < 256; x++)
        for (y = 0; y < 256; y++)
            products[x][y] = times(x, y);
    powers[0] = 1;
    for (x = 1; x < 255; x++)
        powers[x] = times(powers[x - 1], 2);
    for (x = 0; x < 9; x++)
        generator[x] = powers[exponents[x]];
}

/* S1 to S8 of a header. */
static void sums_of(const uint8_t *header, uint8_t *sums)
{
    unsigned i, j;
    for (j = 1; j <= PARITY; j++) {
        sums[j - 1] = 0;
        for (i = 0; i < HEADER; i++)
            sums[j - 1] ^= products[header[i]][powers[i * j % 255]];
    }
}

static int all_zero(const uint8_t *bytes, size_t length)
{
    size_t i;
    for (i = 0; i < length; i++)
        if (bytes[i] != 0)
            return 0;
    return 1;
}

static int is_code_word(const uint8_t *header)
{
    uint8_t sums[PARITY];
    sums_of(header, sums);
    return all_zero(sums, PARITY);
}

/* The row of n sums without what an error at this place adds: it adds v times x^j
 * to Sj, with x = a^place, so the row of S(j+1) + x Sj is free of it, and an error
 * elsewhere stays. */
static void strike_out(const uint8_t *row, size_t n, unsigned place, uint8_t *next)
{
    size_t i;
    for (i = 0; i + 1 < n; i++)
        next[i] = row[i + 1] ^ products[row[i]][powers[place]];
}

static uint8_t is_marked[HEADER]; /* of the header that is searched */

/* Whether n sums in a row come from errors at no more than `places` of the
 * unmarked bytes first to 95. */
static int explained(const uint8_t *row, size_t n, unsigned first, unsigned places)
{
    uint8_t next[PARITY];
    unsigned p;
    if (all_zero(row, n))
        return 1;
    if (places == 0)
        return 0;
    for (p = first; p < HEADER; p++) {
        if (is_marked[p])
            continue;
        strike_out(row, n, p, next);
        if (explained(next, n - 1, p + 1, places - 1))
            return 1;
    }
    return 0;
}

/* Whether some code word is within the bound: errors at the marked places, which
 * are struck out, and at (8 - count) / 2 others explain the sums. */
static int within_bound(const uint8_t *header, const uint8_t *marks, size_t count)
{
    uint8_t row[PARITY], next[PARITY];
    size_t i;
    sums_of(header, row);
    memset(is_marked, 0, sizeof is_marked);
    for (i = 0; i < count; i++) {
        is_marked[marks[i]] = 1;
        strike_out(row, PARITY - i, marks[i], next);
        memcpy(row, next, PARITY - i - 1);
    }
    return explained(row, PARITY - count, 0, (unsigned)(MOST - count) / 2);
}

/* The remainder of X^n divided by the generator. */
static void remainder_of_power(unsigned n, uint8_t *r)
{
    memset(r, 0, PARITY);
    r[0] = 1;
    while (n-- > 0) {
        uint8_t top = r[PARITY - 1];
        unsigned i;
        for (i = PARITY - 1; i > 0; i--)
            r[i] = r[i - 1] ^ products[top][generator[i]];
        r[0] = products[top][generator[0]];
    }
}

/* ---- Headers with marks -------------------------------------------------- */

/* A list of marked places. */
struct marks {
    uint8_t places[LISTED];
    size_t count;
};

static void make_code_word(uint8_t *header)
{
    random_bytes(header, HEADER);
    check(barzhilup_write_parity(header, HEADER) == BARZHILUP_ACCEPTED, "parity written", 0);
    check(is_code_word(header), "a code word", 0);
}

static void alter(uint8_t *header, uint8_t place)
{
    header[place] ^= (uint8_t)(1 + random_below(255));
}

/* Marks so many places, alters `wrong` of these bytes and `others` unmarked ones. */
static struct marks mark(uint8_t *header, size_t count, size_t wrong, size_t others)
{
    struct marks marks;
    size_t i;
    random_places(marks.places, count + others);
    marks.count = count;
    for (i = 0; i < wrong; i++)
        alter(header, marks.places[i]);
    for (i = count; i < count + others; i++)
        alter(header, marks.places[i]);
    return marks;
}

/* ---- Lent buffers -------------------------------------------------------- */

struct lent {
    uint8_t pdu[GUARD + BARZHILUP_PDU_MAX + 1 + GUARD];
    uint8_t marks[GUARD + LISTED + GUARD];
    uint8_t carry[GUARD + CARRY + GUARD];
    uint32_t log[GUARD + LOG + GUARD];
};

static struct lent is, should;

/* Lends a PDU and marks, between guards, and expects all to stay as it is. */
static void lend(const uint8_t *pdu, size_t length, const struct marks *marks)
{
    memset(is.pdu, 0xa5, sizeof is.pdu);
    memset(is.marks, 0xa5, sizeof is.marks);
    memcpy(is.pdu + GUARD, pdu, length);
    memcpy(is.marks + GUARD, marks->places, marks->count);
    memcpy(&should, &is, sizeof is);
}

static int as_expected(void)
{
    return memcmp(&is, &should, sizeof is) == 0;
}

/* Corrects a PDU: accepted, with this count and this header. */
static void corrected(const uint8_t *pdu, size_t length, const struct marks *marks,
                      const uint8_t *header, size_t count, const char *what, unsigned long which)
{
    barzhilup_correction_answer answer;
    lend(pdu, length, marks);
    memcpy(should.pdu + GUARD, header, HEADER);
    answer = barzhilup_correct_header_marked(is.pdu + GUARD, length, is.marks + GUARD,
                                             marks->count);
    check(answer.refusal == BARZHILUP_ACCEPTED, what, which);
    check(answer.corrected == count, what, which);
    check(as_expected(), what, which);
}

/* Corrects a PDU: refused with this number, no byte changed. */
static void refused(const uint8_t *pdu, size_t length, const struct marks *marks, uint32_t number,
                    const char *what, unsigned long which)
{
    barzhilup_correction_answer answer;
    lend(pdu, length, marks);
    answer = barzhilup_correct_header_marked(is.pdu + GUARD, length, is.marks + GUARD,
                                             marks->count);
    check(answer.refusal == number, what, which);
    check(answer.corrected == 0, what, which);
    check(as_expected(), what, which);
}

/* ---- Correcting ---------------------------------------------------------- */

/* The generator with up to eight of its nine bytes zeroed and marked comes back. */
static void test_generator(void)
{
    unsigned choice;
    for (choice = 0; choice < 511; choice++) {
        uint8_t header[HEADER];
        struct marks marks;
        uint8_t i;
        memcpy(header, generator, HEADER);
        marks.count = 0;
        for (i = 0; i < 9; i++)
            if (choice >> i & 1) {
                header[i] = 0;
                marks.places[marks.count++] = i;
            }
        corrected(header, HEADER, &marks, generator, marks.count, "generator", choice);
    }
    report("the generator with up to eight marked bytes zeroed, all 511 choices");
}

/* Every count of marks with as many other bytes altered as the bound allows, and
 * with fewer; none, some and all of the marked bytes are wrong. */
static void test_within_bound(void)
{
    size_t count, others, wrong, n;
    for (count = 0; count <= MOST; count++)
        for (others = 0; 2 * others + count <= 8; others++)
            for (wrong = 0; wrong <= count; wrong++)
                for (n = 0; n < 20; n++) {
                    uint8_t word[HEADER], header[HEADER];
                    struct marks marks;
                    make_code_word(word);
                    memcpy(header, word, HEADER);
                    marks = mark(header, count, wrong, others);
                    corrected(header, HEADER, &marks, word, wrong + others, "within the bound",
                              count * 10 + others);
                }
    report("every count of marks and other bytes within the bound, 20 times each");
}

/* One byte more than the bound allows: of an odd count of marks it is always too
 * much, because code words differ in nine bytes or more; of an even one another
 * code word may be within the bound, which the search tells. */
static void test_beyond_bound(void)
{
    unsigned long others_found = 0;
    size_t count, n;
    for (count = 1; count < MOST; count++)
        for (n = 0; n < (count < 3 ? 4u : 60u); n++) {
            uint8_t word[HEADER], header[HEADER];
            struct marks marks;
            make_code_word(word);
            memcpy(header, word, HEADER);
            marks = mark(header, count, random_below((uint32_t)count + 1), (8 - count) / 2 + 1);
            if (within_bound(header, marks.places, count)) {
                check(count % 2 == 0, "another code word within the bound", count);
                lend(header, HEADER, &marks);
                check(barzhilup_correct_header_marked(is.pdu + GUARD, HEADER, is.marks + GUARD,
                                                      count).refusal == BARZHILUP_ACCEPTED,
                      "corrected to another code word", count);
                check(is_code_word(is.pdu + GUARD), "another code word", count);
                others_found++;
            } else {
                refused(header, HEADER, &marks, BARZHILUP_REFUSED_UNCORRECTABLE,
                        "beyond the bound", count);
            }
        }
    check(others_found > 0, "another code word within the bound was met", 0);
    report("one byte beyond the bound, none within it by search");
}

/* Marks cost also where their bytes are right. */
static void test_right_bytes(void)
{
    size_t n;
    for (n = 0; n < 200; n++) {
        uint8_t word[HEADER], header[HEADER];
        struct marks four = {{0}, 0}, one;
        size_t i;
        make_code_word(word);
        memcpy(header, word, HEADER);
        one = mark(header, 1, 0, 4);
        refused(header, HEADER, &one, BARZHILUP_REFUSED_UNCORRECTABLE,
                "four altered and a right one marked", n);
        corrected(header, HEADER, &four, word, 4, "four altered and none marked", n);
        /* The four themselves marked leave room for two more. */
        for (i = 0; i < 4; i++)
            four.places[four.count++] = one.places[1 + i];
        corrected(header, HEADER, &four, word, 4, "four altered and marked", n);
    }
    report("marks on right bytes");
}

/* Eight marks: whatever the bytes are, the unmarked ones stay. */
static void test_eight(void)
{
    size_t n, i;
    for (n = 0; n < 1000; n++) {
        uint8_t header[HEADER];
        barzhilup_correction_answer answer;
        struct marks marks;
        unsigned differing = 0;
        random_bytes(header, HEADER);
        marks = mark(header, MOST, 0, 0);
        lend(header, HEADER, &marks);
        answer = barzhilup_correct_header_marked(is.pdu + GUARD, HEADER, is.marks + GUARD, MOST);
        check(answer.refusal == BARZHILUP_ACCEPTED, "eight marks", n);
        check(is_code_word(is.pdu + GUARD), "eight marks, a code word", n);
        for (i = 0; i < MOST; i++) {
            uint8_t place = marks.places[i];
            differing += is.pdu[GUARD + place] != header[place];
            should.pdu[GUARD + place] = is.pdu[GUARD + place];
        }
        check(answer.corrected == differing, "eight marks, count", n);
        check(as_expected(), "eight marks, other bytes", n);
    }
    report("eight marks on random bytes");
}

/* No marks: as barzhilup_correct_header. */
static void test_no_marks(void)
{
    static const struct marks none = {{0}, 0};
    size_t n;
    for (n = 0; n < 1400; n++) {
        uint8_t header[HEADER], pdu[HEADER];
        barzhilup_correction_answer answer;
        make_code_word(header);
        mark(header, 0, 0, n % 7);
        memcpy(pdu, header, HEADER);
        answer = barzhilup_correct_header(pdu, HEADER);
        if (answer.refusal == BARZHILUP_ACCEPTED)
            corrected(header, HEADER, &none, pdu, answer.corrected, "no marks", n);
        else
            refused(header, HEADER, &none, answer.refusal, "no marks", n);
    }
    report("no marks, 0 to 6 bytes altered");
}

/*
 * Code words plus v times the remainder of X^p, p from 96 to 254: one byte away
 * from a word of the long code that is not zero at place p. Words of the long
 * code differ in nine bytes or more, so no code word of 96 bytes is within the
 * bound, as long as the marks leave room for one byte.
 */
static void test_places_beyond(void)
{
    unsigned p, i;
    for (p = HEADER; p < 255; p++) {
        size_t count = p % 7;
        uint8_t header[HEADER], rest[PARITY], v = (uint8_t)(1 + random_below(255));
        struct marks marks;
        make_code_word(header);
        remainder_of_power(p, rest);
        for (i = 0; i < PARITY; i++)
            header[i] ^= products[v][rest[i]];
        marks = mark(header, count, random_below((uint32_t)count + 1), (8 - count) / 2 - 1);
        refused(header, HEADER, &marks, BARZHILUP_REFUSED_UNCORRECTABLE, "place beyond 95", p);
    }
    report("uncorrectable: an error at place 96 to 254, with 0 to 6 marks");
}

/* The lengths of a PDU. */
static void test_lengths(void)
{
    static const size_t right[] = {96, 97, 1000, 4097, 20479, 20480}, wrong[] = {0, 1, 94, 95, 20481};
    static uint8_t pdu[BARZHILUP_PDU_MAX + 1];
    size_t i;
    for (i = 0; i < sizeof right / sizeof right[0]; i++) {
        uint8_t header[HEADER];
        struct marks marks;
        random_bytes(pdu, sizeof pdu);
        make_code_word(header);
        memcpy(pdu, header, HEADER);
        marks = mark(pdu, 4, 4, 2);
        corrected(pdu, right[i], &marks, header, 6, "length accepted", right[i]);
    }
    for (i = 0; i < sizeof wrong / sizeof wrong[0]; i++) {
        struct marks marks = {{1, 2, 1}, 0};
        for (; marks.count <= 3; marks.count++) /* the third mark is the first again */
            refused(pdu, wrong[i], &marks, BARZHILUP_REFUSED_PDU_LENGTH, "length refused", wrong[i]);
    }
    report("lengths, refused with 3 before the marks are looked at");
}

/* ---- Number 19 ----------------------------------------------------------- */

/* A list that is refused, whatever the header: a code word, one that can be
 * corrected, and one that can't. */
static void list_refused(const struct marks *marks, const char *what, unsigned long which)
{
    uint8_t header[HEADER];
    make_code_word(header);
    refused(header, HEADER, marks, BARZHILUP_REFUSED_MARKS, what, which);
    refused(header, 95, marks, BARZHILUP_REFUSED_PDU_LENGTH, what, which);
    mark(header, 0, 0, 2);
    refused(header, HEADER, marks, BARZHILUP_REFUSED_MARKS, what, which);
    random_bytes(header, HEADER);
    refused(header, HEADER, marks, BARZHILUP_REFUSED_MARKS, what, which);
}

static struct marks some_marks(size_t count)
{
    struct marks marks;
    random_places(marks.places, count);
    marks.count = count;
    return marks;
}

static void test_too_many(void)
{
    size_t count, i;
    for (count = 9; count <= HEADER; count++) {
        struct marks marks = some_marks(count);
        list_refused(&marks, "so many marks", count);
    }
    for (count = 250; count <= LISTED; count++) {
        struct marks marks;
        for (i = 0; i < count; i++)
            marks.places[i] = (uint8_t)(i % HEADER);
        marks.count = count;
        list_refused(&marks, "so many marks", count);
    }
    report("19: nine marks and more");
}

static void test_over_95(void)
{
    static const uint8_t over[] = {96, 97, 127, 128, 192, 224, 254, 255};
    size_t count, at, i;
    for (count = 1; count <= MOST; count++)
        for (at = 0; at < count; at++)
            for (i = 0; i < sizeof over; i++) {
                struct marks marks = some_marks(count);
                marks.places[at] = over[i];
                list_refused(&marks, "a place over 95", over[i]);
            }
    report("19: a place over 95, anywhere in a list of each length");
}

static void test_repeated(void)
{
    size_t count, first, second;
    for (count = 2; count <= MOST; count++)
        for (second = 1; second < count; second++)
            for (first = 0; first < second; first++) {
                struct marks marks = some_marks(count);
                marks.places[second] = marks.places[first];
                list_refused(&marks, "a place twice", count);
                marks.places[first] = marks.places[second] = 0;
                list_refused(&marks, "place 0 twice", count);
                marks.places[first] = marks.places[second] = 95;
                list_refused(&marks, "place 95 twice", count);
            }
    report("19: a place twice, anywhere in a list of each length");
}

/* ---- Receiving ----------------------------------------------------------- */

#define SENT 300 /* the length of a PDU that is sent */

static uint8_t sent[SENT];
static barzhilup_receiver opened;

/* What a call answers and leaves. */
struct result {
    barzhilup_received answer;
    uint8_t pdu[SENT], carry[CARRY];
    uint32_t log[LOG];
};

static struct result clean, noisy;

/* Sends a part of a packet of 250 bytes, a packet of 40 before it, and PSD. */
static void send(void)
{
    static const barzhilup_settings none;
    static const uint16_t lengths[2] = {40, 250};
    uint8_t bytes[290], psd[20];
    barzhilup_writer writer = barzhilup_open_writer(0, 0).writer;
    random_bytes(bytes, sizeof bytes);
    random_bytes(psd, sizeof psd);
    check(barzhilup_write(writer, none, psd, sizeof psd, lengths, 2, bytes, sizeof bytes, sent,
                          SENT).refusal == BARZHILUP_ACCEPTED,
          "sent", 0);
}

static int same_receiver(barzhilup_receiver one, barzhilup_receiver other)
{
    return one.mode == other.mode && one.stream == other.stream
           && one.crc_start == other.crc_start && one.entitled == other.entitled
           && one.known == other.known && one.sequence == other.sequence
           && one.held == other.held && one.number == other.number
           && one.serviced == other.serviced && one.services == other.services
           && one.delivered == other.delivered && one.missing == other.missing
           && one.last == other.last;
}

/* Receives this PDU with these marks, all of it between guards. */
static void receive(const uint8_t *pdu, const struct marks *marks, struct result *result)
{
    lend(pdu, SENT, marks);
    result->answer = barzhilup_receive_marked(opened, is.carry + GUARD, CARRY, is.pdu + GUARD, SENT,
                                              is.marks + GUARD, marks->count, is.log + GUARD, LOG);
    memcpy(result->pdu, is.pdu + GUARD, SENT);
    memcpy(result->carry, is.carry + GUARD, CARRY);
    memcpy(result->log, is.log + GUARD, sizeof result->log);
    memcpy(should.pdu + GUARD, result->pdu, SENT);
    memcpy(should.carry + GUARD, result->carry, CARRY);
    memcpy(should.log + GUARD, result->log, sizeof result->log);
    check(as_expected(), "guards and marks", marks->count);
}

/* What is received of the PDU as it was sent, without a list. */
static void receive_clean(void)
{
    memcpy(clean.pdu, sent, SENT);
    memcpy(clean.carry, is.carry + GUARD, CARRY);
    memcpy(clean.log, is.log + GUARD, sizeof clean.log);
    clean.answer = barzhilup_receive(opened, clean.carry, CARRY, clean.pdu, SENT, clean.log, LOG);
    check(clean.answer.refusal == BARZHILUP_ACCEPTED && clean.answer.words > 20, "clean", 0);
    check(clean.answer.receiver.held > 0, "clean, a beginning held", 0);
}

/* Every count of marks with as many other bytes altered as the bound allows:
 * answer, carry, PDU and log are those of the PDU as it was sent. */
static void test_receiving(void)
{
    size_t count, n;
    opened = barzhilup_open_receiver(0, 0).receiver;
    for (count = 0; count <= MOST; count++)
        for (n = 0; n < 300; n++) {
            uint8_t pdu[SENT];
            struct marks marks;
            send();
            random_bytes((uint8_t *)&is, sizeof is);
            receive_clean();
            memcpy(pdu, sent, SENT);
            marks = mark(pdu, count, random_below((uint32_t)count + 1), (8 - count) / 2);
            receive(pdu, &marks, &noisy);
            check(noisy.answer.refusal == BARZHILUP_ACCEPTED, "received", count);
            check(noisy.answer.words == clean.answer.words, "received, words", count);
            check(same_receiver(noisy.answer.receiver, clean.answer.receiver),
                  "received, receiver", count);
            check(memcmp(noisy.pdu, sent, SENT) == 0, "received, PDU left corrected", count);
            check(memcmp(noisy.carry, clean.carry, CARRY) == 0, "received, carry", count);
            check(memcmp(noisy.log, clean.log, sizeof clean.log) == 0, "received, log", count);
        }
    report("receiving with 0 to 8 marks, 300 times each");
}

/* What a call that is refused is lent. */
struct call {
    barzhilup_receiver receiver;
    size_t carry_length, pdu_length, log_length;
    uint8_t pdu[SENT];
    struct marks marks;
};

/* The call is refused with this number and changes nothing. */
static void call_refused(const struct call *c, uint32_t number, unsigned long which)
{
    barzhilup_received a;
    random_bytes((uint8_t *)&is, sizeof is);
    lend(c->pdu, c->pdu_length, &c->marks);
    a = barzhilup_receive_marked(c->receiver, is.carry + GUARD, c->carry_length, is.pdu + GUARD,
                                 c->pdu_length, is.marks + GUARD, c->marks.count, is.log + GUARD,
                                 c->log_length);
    check(a.refusal == number, "refused", which);
    check(a.words == 0 && a.wrong_locator == 0, "refused, answer", which);
    check(same_receiver(a.receiver, c->receiver), "refused, receiver", which);
    check(as_expected(), "refused, all that is lent", which);
}

/* Alters a byte of the PDU and writes its parity; the header is altered then. */
static void spoil(struct call *c, size_t place, uint8_t byte, size_t others)
{
    memcpy(c->pdu, sent, SENT);
    c->pdu[place] = byte;
    check(barzhilup_write_parity(c->pdu, SENT) == BARZHILUP_ACCEPTED, "spoiled", place);
    c->marks = mark(c->pdu, 3, 2, others);
}

/* All is wrong at first, and one thing after another is set right: 1, 2, 3, 19,
 * 4, 5, 6, 13. */
static void test_order(void)
{
    unsigned n;
    for (n = 0; n < 60; n++) {
        struct marks repeated = {{9, 10, 9}, 3}, over = {{95, 96}, 2}, nine = some_marks(9);
        struct call c;
        send();
        c.receiver = opened;
        c.receiver.number = 64;
        c.carry_length = CARRY - 1;
        c.pdu_length = 95;
        c.log_length = 0;
        spoil(&c, 8, 4, 3); /* no such mode, and three other bytes with three marks */
        c.marks = repeated;
        call_refused(&c, BARZHILUP_REFUSED_STATE, n);
        c.receiver.number = 0;
        call_refused(&c, BARZHILUP_REFUSED_CARRY_LENGTH, n);
        c.carry_length = CARRY;
        call_refused(&c, BARZHILUP_REFUSED_PDU_LENGTH, n);
        c.pdu_length = SENT;
        call_refused(&c, BARZHILUP_REFUSED_MARKS, n);
        c.marks = over;
        call_refused(&c, BARZHILUP_REFUSED_MARKS, n);
        c.marks = nine;
        call_refused(&c, BARZHILUP_REFUSED_MARKS, n);
        spoil(&c, 8, 4, 3);
        call_refused(&c, BARZHILUP_REFUSED_UNCORRECTABLE, n);
        spoil(&c, 8, 4, 2);
        call_refused(&c, BARZHILUP_REFUSED_MODE, n);
        spoil(&c, 8, 1, 2);
        call_refused(&c, BARZHILUP_REFUSED_OTHER_MODE, n);
        spoil(&c, 8, 0, 2);
        call_refused(&c, BARZHILUP_REFUSED_LOG_LENGTH, n);
        c.marks = over; /* where all else is right too */
        c.log_length = LOG;
        call_refused(&c, BARZHILUP_REFUSED_MARKS, n);
    }
    report("receiving refused: 1, 2, 3, 19, 4, 5, 6, 13 in this order");
}

int main(void)
{
    make_tables();
    test_generator();
    test_within_bound();
    test_beyond_bound();
    test_right_bytes();
    test_eight();
    test_no_marks();
    test_places_beyond();
    test_lengths();
    test_too_many();
    test_over_95();
    test_repeated();
    test_receiving();
    test_order();
    printf("  marks: %lu checks, %lu failed\n", checks, failed);
    return failed == 0 ? 0 : 1;
}
