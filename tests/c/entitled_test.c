/*
 * Tests of receivers with entitled programs (document 02, Ask 10): opening with
 * lists of programs; the receiver's fields that number 1 is about; which applied
 * services withhold a PDU; the value that core PDUs of sequence range 0-7 keep, and
 * what forgets it; what a withheld PDU logs and leaves; and the same PDUs by each of
 * the receiving calls.
 *
 * PDUs are put together here byte by byte, and what a call has to log is written
 * down word by word. After each call carry, PDU and log are compared whole with what
 * they should hold, and so is each field of the receiver.
 */
#include "barzhilup.h"

#include <stdio.h>
#include <string.h>

#define CARRY BARZHILUP_CARRY_BYTES
#define LENGTH 120 /* bytes of each PDU */
#define WORDS 64   /* of a log */

/* ---- Counting ------------------------------------------------------------ */

static unsigned long checks, failed, checks_before;

/* One check; `which` tells the cases of one kind apart. */
static void check(int holds, const char *what, unsigned long which)
{
    checks++;
    if (holds)
        return;
    failed++;
    if (failed <= 20)
        printf("  WRONG: %s, case %lu\n", what, which);
}

/* Says how many checks were made since the last call. */
static void report(const char *what)
{
    printf("  %s: %lu checks\n", what, checks - checks_before);
    checks_before = checks;
}

/* ---- Repeatable random numbers ------------------------------------------- */

static uint32_t state = 88675123u;

static uint32_t random_below(uint32_t n)
{
    state ^= state << 13;
    state ^= state >> 17;
    state ^= state << 5;
    return state % n;
}

static void random_bytes(uint8_t *bytes, size_t length)
{
    size_t i;
    for (i = 0; i < length; i++)
        bytes[i] = (uint8_t)random_below(256);
}

/* ---- PDUs, byte by byte -------------------------------------------------- */

static const uint8_t table[10][2] = {{0, 0}, {1, 0}, {2, 0},  {3, 0},  {1, 1},
                                     {2, 1}, {3, 1}, {10, 0}, {10, 1}, {13, 0}};

static int in_table(unsigned mode, unsigned stream)
{
    size_t i;
    for (i = 0; i < 10; i++)
        if (table[i][0] == mode && table[i][1] == stream)
            return 1;
    return 0;
}

/* The core streams of sequence range 0-7, which keep the applied services. */
static int keeps(unsigned mode, unsigned stream)
{
    return stream == 0 && (mode == 1 || mode == 2 || mode == 3 || mode == 13);
}

static int sixteen_bits(unsigned mode, unsigned stream)
{
    return mode == 0 || (stream == 1 && mode != 10);
}

/* What is not sent. */
#define NONE 255

struct parts {
    uint8_t mode, stream, sequence;
    uint8_t program, services; /* NONE: the field is not sent */
    uint8_t stop;              /* a byte before the services at which interpretation stops; NONE */
    int pfirst, plast;
    uint8_t start;
    unsigned nop;   /* pieces, each of two bytes: its number and 0xA0 plus k */
    unsigned wrong; /* bit k: piece k's CRC is wrong */
    unsigned psd;   /* bytes of PSD, all 0x77 */
};

static struct parts some_parts(unsigned mode, unsigned stream)
{
    struct parts p;
    memset(&p, 0, sizeof p);
    p.mode = (uint8_t)mode;
    p.stream = (uint8_t)stream;
    p.program = p.services = p.stop = NONE;
    return p;
}

/* Puts the expansion at a place; answers the place after it. */
static size_t put_expansion(const struct parts *p, uint8_t *made, size_t place)
{
    size_t first = place, i;
    if (p->program != NONE)
        made[place++] = (uint8_t)(0x10 | p->program << 1);
    if (p->stop != NONE)
        made[place++] = p->stop;
    if (p->services != NONE) {
        made[place++] = (uint8_t)(0x48 | p->services);
        made[place++] = 1;
        made[place++] = 2;
        made[place++] = 3;
    }
    for (i = first; i + 1 < place; i++)
        made[i] |= 0x80;
    return place;
}

static void make(const struct parts *p, uint8_t *made)
{
    int wide = sixteen_bits(p->mode, p->stream);
    size_t locators = 14, expansion = 14 + (wide ? 2 * p->nop : (3 * p->nop + 1) / 2);
    size_t la, end, psd_at;
    unsigned k;

    memset(made, 0, LENGTH);
    psd_at = put_expansion(p, made, expansion);
    la = psd_at + p->psd - 1;
    memset(made + psd_at, 0x77, p->psd);
    made[8] = (uint8_t)(p->mode | p->stream << 4 | (p->sequence & 3) << 6);
    made[9] = (uint8_t)(p->sequence >> 2);
    made[11] = (uint8_t)(p->pfirst << 1 | p->plast << 2 | (p->start & 31) << 3);
    made[12] = (uint8_t)(p->start >> 5 | p->nop << 1 | (psd_at > expansion ? 0x80 : 0));
    made[13] = (uint8_t)la;
    for (k = 0, end = la; k < p->nop; k++) {
        uint8_t *piece = made + end + 1;
        piece[0] = (uint8_t)((p->start + k + (p->pfirst ? 63 : 0)) % 64);
        piece[1] = (uint8_t)(0xa0 + k);
        end += 3;
        made[end] = (uint8_t)(barzhilup_crc8(piece, 2) ^ (p->wrong >> k & 1));
        if (wide) {
            made[locators + 2 * k] = (uint8_t)end;
        } else if (k % 2 == 0) {
            made[locators + k / 2 * 3] = (uint8_t)end;
        } else {
            made[locators + k / 2 * 3 + 1] |= (uint8_t)((end & 15) << 4);
            made[locators + k / 2 * 3 + 2] = (uint8_t)(end >> 4);
        }
    }
    check(barzhilup_write_parity(made, LENGTH) == 0, "parity written", 0);
}

/* ---- A receiver with what is lent to it ---------------------------------- */

static barzhilup_receiver receiver;
static uint8_t carry[CARRY], pdu[LENGTH];
static uint32_t log_words[WORDS];

static int same_receiver(barzhilup_receiver one, barzhilup_receiver other)
{
    return one.mode == other.mode && one.stream == other.stream
           && one.crc_start == other.crc_start && one.entitled == other.entitled
           && one.known == other.known && one.sequence == other.sequence
           && one.held == other.held && one.number == other.number
           && one.serviced == other.serviced && one.services == other.services
           && one.delivered == other.delivered && one.missing == other.missing
           && one.last == other.last;
}

static void open_for(unsigned mode, unsigned stream, const uint8_t *programs, size_t count)
{
    barzhilup_receiver_opened o =
        barzhilup_open_receiver_entitled((uint8_t)mode, (uint8_t)stream, 0, programs, count);
    check(o.refusal == 0, "opened", mode);
    receiver = o.receiver;
    random_bytes(carry, sizeof carry);
}

/* Words of a log. */
static uint32_t note(uint32_t cause, uint32_t piece)
{
    return (uint32_t)BARZHILUP_LOG_NOTE << 30 | cause << 16 | piece;
}

#define WITHHELD note(BARZHILUP_NOTE_WITHHELD, 0)

/* Receives a PDU, which logs these words and no more; the carry behind what is held
 * and the log behind its words stay. */
static void logs(const struct parts *p, const uint32_t *words, size_t count, const char *what,
                 unsigned long which)
{
    uint8_t clean[LENGTH], carry_was[CARRY];
    uint32_t log_was[WORDS];
    barzhilup_received a;

    make(p, clean);
    memcpy(pdu, clean, LENGTH);
    pdu[random_below(96)] ^= (uint8_t)random_below(256);
    random_bytes((uint8_t *)log_words, sizeof log_words);
    memcpy(carry_was, carry, sizeof carry);
    memcpy(log_was, log_words, sizeof log_words);
    a = barzhilup_receive(receiver, carry, CARRY, pdu, LENGTH, log_words, WORDS);
    check(a.refusal == 0 && a.words == count, what, which);
    memcpy(log_was, words, count * sizeof words[0]);
    check(memcmp(log_words, log_was, sizeof log_words) == 0, what, which);
    check(memcmp(pdu, clean, LENGTH) == 0, "left corrected", which);
    check(memcmp(carry + a.receiver.held, carry_was + a.receiver.held, CARRY - a.receiver.held) == 0,
          "carry behind what is held", which);
    check(a.receiver.entitled == receiver.entitled, "programs kept", which);
    check(a.receiver.known && a.receiver.sequence == p->sequence, "sequence", which);
    receiver = a.receiver;
}

/* The same where the PDU has no piece and no PSD: it is withheld, or logs nothing. */
static void is_withheld(const struct parts *p, int withheld, const char *what, unsigned long which)
{
    uint32_t word = WITHHELD;
    logs(p, &word, withheld ? 1 : 0, what, which);
}

/* ---- Opening ------------------------------------------------------------- */

static void check_opened(unsigned mode, unsigned stream, const uint8_t *programs, size_t count,
                         uint32_t refusal)
{
    barzhilup_receiver_opened o =
        barzhilup_open_receiver_entitled((uint8_t)mode, (uint8_t)stream, 9, programs, count);
    barzhilup_receiver r = {255, 0, 0, 0, false, 0, 0, 0, false, 0, 0, 0, 0};
    size_t i;
    if (refusal == 0) {
        r.mode = (uint8_t)mode;
        r.stream = (uint8_t)stream;
        r.crc_start = 9;
        for (i = 0; i < count; i++)
            r.entitled |= (uint8_t)(1 << programs[i]);
    }
    check(o.refusal == refusal, "opening", mode * 256 + stream);
    check(same_receiver(o.receiver, r), "opened, receiver", mode * 256 + stream);
}

static void test_opening(void)
{
    static const uint8_t all[9] = {0, 1, 2, 3, 4, 5, 6, 7, 0};
    static const uint8_t backwards[8] = {7, 6, 5, 4, 3, 2, 1, 0};
    unsigned mode, stream, set, p;

    for (mode = 0; mode < 256; mode++)
        for (stream = 0; stream < 4; stream++) {
            uint32_t there = in_table(mode, stream) ? 0 : BARZHILUP_REFUSED_MODE;
            uint32_t wrong = there != 0 ? there : BARZHILUP_REFUSED_PROGRAMS;
            uint8_t programs[10];
            for (set = 0; set < 256; set += there == 0 ? 1 : 51) {
                size_t count = 0;
                for (p = 0; p < 8; p++)
                    if ((set >> p & 1) != 0)
                        programs[count++] = (uint8_t)p;
                check_opened(mode, stream, programs, count, there);
                programs[count] = (uint8_t)(8 + random_below(248));
                check_opened(mode, stream, programs, count + 1, wrong);
                if (count > 0) {
                    programs[count] = programs[random_below((uint32_t)count)];
                    check_opened(mode, stream, programs, count + 1, wrong);
                }
            }
            check_opened(mode, stream, all, 0, there);
            check_opened(mode, stream, all, 8, there);
            check_opened(mode, stream, backwards, 8, there);
            check_opened(mode, stream, all, 9, wrong);
        }
    /* 5 before 22, and 22 with numbers at their edges. */
    {
        static const uint8_t nine[1] = {9}, eight[1] = {8}, most[1] = {255}, seven[1] = {7};
        static const uint8_t twice[2] = {0, 0}, apart[3] = {7, 1, 7};
        check_opened(4, 0, nine, 1, BARZHILUP_REFUSED_MODE);
        check_opened(0, 1, twice, 2, BARZHILUP_REFUSED_MODE);
        check_opened(0, 0, eight, 1, BARZHILUP_REFUSED_PROGRAMS);
        check_opened(0, 0, most, 1, BARZHILUP_REFUSED_PROGRAMS);
        check_opened(0, 0, seven, 1, 0);
        check_opened(0, 0, twice, 2, BARZHILUP_REFUSED_PROGRAMS);
        check_opened(0, 0, apart, 3, BARZHILUP_REFUSED_PROGRAMS);
    }
    /* The openings without a list are entitled to 0 to 7. */
    for (mode = 0; mode < 10; mode++) {
        uint8_t m = table[mode][0], s = table[mode][1];
        barzhilup_receiver r = barzhilup_open_receiver_entitled(m, s, 7, all, 8).receiver;
        check(same_receiver(barzhilup_open_receiver_with(m, s, 7).receiver, r), "with", mode);
        r.crc_start = 0;
        check(same_receiver(barzhilup_open_receiver(m, s).receiver, r), "plain", mode);
        check(r.entitled == 255 && !r.serviced && r.services == 0, "all, unknown", mode);
    }
    report("opening");
}

/* ---- Number 1 ------------------------------------------------------------ */

/* Every call refuses this receiver with 1, and changes nothing. */
static void check_state(barzhilup_receiver r, unsigned long which)
{
    static uint8_t carry_was[CARRY], second[LENGTH], was[LENGTH];
    uint32_t log_was[WORDS];
    size_t length = LENGTH;
    struct parts p = some_parts(r.mode, r.stream);
    barzhilup_received a[4];
    barzhilup_batch b;
    unsigned k;

    make(&p, was);
    memcpy(pdu, was, LENGTH);
    memcpy(second, was, LENGTH);
    random_bytes((uint8_t *)log_words, sizeof log_words);
    memcpy(carry_was, carry, CARRY);
    memcpy(log_was, log_words, sizeof log_words);
    a[0] = barzhilup_receive(r, carry, CARRY, pdu, LENGTH, log_words, WORDS);
    a[1] = barzhilup_receive_marked(r, carry, CARRY, pdu, LENGTH, was, 0, log_words, WORDS);
    a[2] = barzhilup_receive_pair(r, carry, CARRY, pdu, LENGTH, second, LENGTH, log_words, WORDS);
    a[3] = barzhilup_mark_lost(r, log_words, WORDS);
    b = barzhilup_receive_batch(r, carry, CARRY, pdu, LENGTH, &length, 1, log_words, WORDS);
    for (k = 0; k < 4; k++)
        check(a[k].refusal == BARZHILUP_REFUSED_STATE && a[k].words == 0
                  && same_receiver(a[k].receiver, r),
              "number 1", which);
    check(b.refusal == BARZHILUP_REFUSED_STATE && b.taken == 0 && b.words == 0
              && same_receiver(b.receiver, r),
          "number 1, batch", which);
    check(memcmp(pdu, was, LENGTH) == 0 && memcmp(second, was, LENGTH) == 0
              && memcmp(carry, carry_was, CARRY) == 0
              && memcmp(log_words, log_was, sizeof log_words) == 0,
          "number 1, nothing changed", which);
}

static void test_state(void)
{
    unsigned n, value;
    for (n = 0; n < 10; n++) {
        uint8_t mode = table[n][0], stream = table[n][1];
        struct parts p = some_parts(mode, stream);
        open_for(mode, stream, pdu, 0);
        for (value = 0; value < 256; value++) {
            barzhilup_receiver r = receiver;
            r.services = (uint8_t)value;
            if (value != 0)
                check_state(r, n * 256 + value);
            r.serviced = true;
            if (value > 7 || !keeps(mode, stream))
                check_state(r, 4096 + n * 256 + value);
            else
                check(barzhilup_mark_lost(r, log_words, WORDS).refusal == 0, "a value kept", value);
        }
        is_withheld(&p, 0, "a right one", n);
    }
    report("number 1: the value kept");
}

/* ---- What is withheld ---------------------------------------------------- */

/* Applied services exactly 1, and a program that is not listed. */
static void test_services(void)
{
    static const uint8_t listed[2] = {3, 5};
    unsigned n, services, program;
    for (n = 0; n < 10; n++) {
        uint8_t mode = table[n][0], stream = table[n][1];
        for (services = 0; services < 8; services++)
            for (program = 0; program < 8; program++) {
                struct parts p = some_parts(mode, stream);
                int not_listed = program != 3 && program != 5;
                p.program = (uint8_t)program;
                p.services = (uint8_t)services;
                open_for(mode, stream, listed, 2);
                is_withheld(&p, services == 1 && not_listed, "services and program", services);
                /* Behind ID 3, and with bit 3 of ID 4 clear, they are not interpreted. */
                p.stop = 0x30;
                open_for(mode, stream, listed, 2);
                is_withheld(&p, 0, "not interpreted", services);
                p.stop = 0x47;
                p.services = NONE;
                open_for(mode, stream, listed, 2);
                is_withheld(&p, 0, "bit 3 clear", services);
            }
        /* Without ID 1 the program is 0. */
        for (services = 0; services < 8; services++) {
            static const uint8_t zero[1] = {0};
            struct parts p = some_parts(mode, stream);
            p.services = (uint8_t)services;
            open_for(mode, stream, listed, 2);
            is_withheld(&p, services == 1, "program 0, not listed", services);
            open_for(mode, stream, zero, 1);
            is_withheld(&p, 0, "program 0, listed", services);
        }
    }
    report("applied services and programs");
}

/* The value of sequence 0 stands until the next; others are not taken. */
static void test_kept(void)
{
    static const uint8_t listed[1] = {2};
    unsigned n, first, other, sequence;
    for (n = 0; n < 10; n++) {
        uint8_t mode = table[n][0], stream = table[n][1];
        struct parts p = some_parts(mode, stream);
        if (!keeps(mode, stream))
            continue;
        for (first = 0; first < 8; first++)
            for (other = 0; other < 8; other++) {
                open_for(mode, stream, listed, 1);
                for (sequence = 0; sequence < 17; sequence++) {
                    unsigned in_force = sequence < 8 ? first : sequence < 16 ? other : 0;
                    p.sequence = (uint8_t)(sequence % 8);
                    p.services = (uint8_t)(sequence % 8 == 0 ? in_force : (in_force ^ 1));
                    if (sequence == 16)
                        p.services = NONE;
                    p.program = 4;
                    is_withheld(&p, in_force == 1, "kept", sequence);
                    check(receiver.serviced && receiver.services == in_force, "value", sequence);
                }
                p.sequence = 1;
                p.program = 2;
                is_withheld(&p, 0, "listed", first);
            }
    }
    report("the value of sequence 0 kept");
}

/* Unknown at the opening, after a lost mark and after note 1. */
static void test_unknown(void)
{
    static const uint8_t listed[1] = {2};
    unsigned n, sequence, value;
    for (n = 0; n < 10; n++) {
        uint8_t mode = table[n][0], stream = table[n][1];
        struct parts p = some_parts(mode, stream);
        uint32_t both[2];
        both[0] = note(BARZHILUP_NOTE_SEQUENCE, 0);
        both[1] = WITHHELD;
        if (!keeps(mode, stream))
            continue;
        for (sequence = 1; sequence < 8; sequence++)
            for (value = 0; value < 8; value++) {
                p.sequence = (uint8_t)sequence;
                p.services = (uint8_t)value;
                p.program = NONE;
                open_for(mode, stream, listed, 1);
                is_withheld(&p, 1, "unknown, program 0", sequence);
                check(!receiver.serviced && receiver.services == 0, "not taken", sequence);
                p.program = 2;
                open_for(mode, stream, listed, 1);
                is_withheld(&p, 0, "unknown, listed", sequence);
            }
        /* A lost mark: services 0 known before. */
        p = some_parts(mode, stream);
        open_for(mode, stream, listed, 1);
        is_withheld(&p, 0, "sequence 0", n);
        check(receiver.serviced && receiver.services == 0, "sequence 0, known", n);
        receiver = barzhilup_mark_lost(receiver, log_words, WORDS).receiver;
        check(!receiver.serviced && receiver.entitled == 4, "marked lost", n);
        p.sequence = 2;
        is_withheld(&p, 1, "behind a lost one", n);
        /* Note 1 forgets; with sequence 0 the PDU's own value is taken then. */
        p.sequence = 0;
        open_for(mode, stream, listed, 1);
        is_withheld(&p, 0, "sequence 0", n);
        p.sequence = 5;
        logs(&p, both, 2, "note 1, then 8", n);
        check(!receiver.serviced, "forgotten", n);
        p.sequence = 0;
        p.services = 3;
        logs(&p, both, 1, "note 1, then the new value", n);
        check(receiver.serviced && receiver.services == 3, "taken behind a gap", n);
        p.services = 1;
        p.sequence = 1;
        is_withheld(&p, 0, "3 in force", n);
        p.sequence = 0;
        logs(&p, both, 2, "note 1, then 1 taken", n);
    }
    report("the value unknown");
}

/* ---- What a withheld PDU leaves ------------------------------------------ */

/* A receiver of this mode and stream that knows sequence 0 and holds a packet, number
 * 9, of the byte 0x5A; nothing is listed. */
static void hold(unsigned mode, unsigned stream)
{
    open_for(mode, stream, pdu, 0);
    receiver.known = true;
    receiver.held = 1;
    receiver.number = 9;
    if (keeps(mode, stream)) {
        receiver.serviced = true;
        receiver.services = 1;
    }
    carry[0] = 0x5a;
}

static void test_withheld(void)
{
    unsigned n, psd, plast;
    for (n = 0; n < 10; n++) {
        uint8_t mode = table[n][0], stream = table[n][1];
        uint32_t words[4];
        struct parts p = some_parts(mode, stream);
        barzhilup_received a;
        p.program = 6;
        p.services = 1;
        p.sequence = 1;
        for (psd = 0; psd < 4; psd += 3)
            for (plast = 0; plast < 2; plast++) {
                /* Nothing held: note 8 alone, whatever the pieces are. */
                p.psd = psd;
                p.nop = 3;
                p.start = 10;
                p.pfirst = 1;
                p.plast = (int)plast;
                p.wrong = 7;
                hold(mode, stream);
                receiver.held = receiver.number = 0;
                words[0] = WITHHELD;
                logs(&p, words, 1, "nothing held", n);
                check(receiver.held == 0, "nothing held afterwards", n);
                p.pfirst = 0;
                p.wrong = 0;
                hold(mode, stream);
                words[0] = note(BARZHILUP_NOTE_NOT_CONTINUED, 0);
                words[1] = WITHHELD;
                logs(&p, words, 2, "note 4, then 8", n);
                check(receiver.held == 0 && receiver.number == 0, "dropped", n);
                /* A continuing piece with a right CRC, then with a wrong one. */
                p.pfirst = 1;
                p.wrong = 6;
                hold(mode, stream);
                words[0] = WITHHELD;
                words[1] = 9u << 16 | 3;
                words[2] = 0x435a09a0;
                logs(&p, words, 3, "continuing, right", n);
                check(receiver.held == 0, "delivered", n);
                p.wrong = 7;
                hold(mode, stream);
                words[1] = note(BARZHILUP_NOTE_CRC, 0);
                logs(&p, words, 2, "continuing, wrong", n);
                check(receiver.held == 0, "dropped", n);
                /* Both flags on one piece: held on. */
                p.nop = 1;
                p.plast = 1;
                p.wrong = 0;
                hold(mode, stream);
                logs(&p, words, 1, "held on", n);
                check(receiver.held == 3 && receiver.number == 9, "held on", n);
                check(memcmp(carry, "\x5a\x09\xa0", 3) == 0, "held on, bytes", n);
                /* Over 4,096 bytes with what was held. */
                hold(mode, stream);
                receiver.held = 4095;
                words[1] = note(BARZHILUP_NOTE_TOO_LONG, 0);
                logs(&p, words, 2, "too long", n);
                /* Delivered in a later PDU that is not withheld; one that began in a
                 * withheld PDU is not. */
                hold(mode, stream);
                logs(&p, words, 1, "held on again", n);
                receiver.entitled = 255;
                p.sequence = (uint8_t)(keeps(mode, stream) || (mode == 10 && stream == 1) ? 2 : 0);
                p.plast = 0;
                p.psd = 0;
                words[0] = 9u << 16 | 5;
                words[1] = 0x435a09a0;
                words[2] = 0x4209a000;
                logs(&p, words, 3, "delivered later", n);
                p.sequence = 1;
                p.psd = psd;
                p.pfirst = 0;
                p.plast = 1;
                hold(mode, stream);
                receiver.held = receiver.number = 0;
                words[0] = WITHHELD;
                logs(&p, words, 1, "begins withheld", n);
                receiver.entitled = 255;
                p.sequence = (uint8_t)(keeps(mode, stream) || (mode == 10 && stream == 1) ? 2 : 0);
                p.pfirst = 1;
                p.plast = 0;
                p.psd = 0;
                words[0] = note(BARZHILUP_NOTE_NOTHING_HELD, 0);
                logs(&p, words, 1, "not joined", n);
                p.sequence = 1;
            }
        /* 13: note 8 needs its word, and PSD needs none. */
        p = some_parts(mode, stream);
        p.program = 6;
        p.services = 1;
        p.sequence = 1;
        p.psd = 5;
        hold(mode, stream);
        receiver.held = receiver.number = 0;
        make(&p, pdu);
        a = barzhilup_receive(receiver, carry, CARRY, pdu, LENGTH, log_words, 0);
        check(a.refusal == BARZHILUP_REFUSED_LOG_LENGTH && same_receiver(a.receiver, receiver),
              "no word", n);
        a = barzhilup_receive(receiver, carry, CARRY, pdu, LENGTH, log_words, 1);
        check(a.refusal == 0 && a.words == 1 && log_words[0] == WITHHELD, "one word", n);
    }
    report("what a withheld PDU leaves");
}

/* ---- Each call ----------------------------------------------------------- */

/* Any PDUs by each of the receiving calls: words, receivers and carries are equal. */
static void test_calls(void)
{
    static uint8_t carries[4][CARRY], pdus[5][LENGTH];
    static uint32_t logs_of[4][WORDS];
    barzhilup_receiver r[4];
    unsigned long n, withheld = 0;
    unsigned line = 0, k;

    for (n = 0; n < 20000; n++) {
        size_t length = LENGTH;
        struct parts p;
        barzhilup_received a[3];
        barzhilup_batch b;
        if (n % 100 == 0) {
            static const uint8_t programs[3] = {1, 6, 0};
            line = (unsigned)(n / 100 % 10);
            open_for(table[line][0], table[line][1], programs, random_below(4));
            for (k = 0; k < 4; k++) {
                r[k] = receiver;
                memcpy(carries[k], carry, CARRY);
            }
        }
        p = some_parts(table[line][0], table[line][1]);
        p.sequence = (uint8_t)(r[0].sequence + (r[0].known && random_below(12) > 0));
        p.sequence %= keeps(p.mode, p.stream) || (p.mode == 10 && p.stream == 1) ? 8 : 2;
        if (random_below(8) > 0)
            p.program = (uint8_t)random_below(8);
        if (random_below(4) > 0)
            p.services = (uint8_t)(random_below(8) == 0 ? random_below(8) : random_below(2));
        p.nop = random_below(6);
        p.pfirst = p.nop > 0 && random_below(2) == 0;
        p.plast = p.nop > 0 && random_below(2) == 0;
        p.start = (uint8_t)(random_below(4) == 0 ? random_below(64) : (r[0].number + 1u) % 64);
        p.wrong = random_below(4) == 0 ? random_below(64) : 0;
        p.psd = random_below(5);
        for (k = 0; k < 5; k++)
            make(&p, pdus[k]);
        memset(logs_of, 0, sizeof logs_of);
        a[0] = barzhilup_receive(r[0], carries[0], CARRY, pdus[0], LENGTH, logs_of[0], WORDS);
        a[1] = barzhilup_receive_marked(r[1], carries[1], CARRY, pdus[1], LENGTH,
                                        (const uint8_t *)"\x08\x0c", 2, logs_of[1], WORDS);
        a[2] = barzhilup_receive_pair(r[2], carries[2], CARRY, pdus[2], LENGTH, pdus[3], LENGTH,
                                      logs_of[2], WORDS);
        b = barzhilup_receive_batch(r[3], carries[3], CARRY, pdus[4], LENGTH, &length, 1, logs_of[3],
                                    WORDS);
        check(a[0].refusal == 0 && a[1].refusal == 0 && a[2].refusal == 0 && b.refusal == 0,
              "accepted", n);
        check(a[1].words == a[0].words && a[2].words == a[0].words && b.words == a[0].words,
              "words", n);
        r[0] = a[0].receiver;
        r[1] = a[1].receiver;
        r[2] = a[2].receiver;
        r[3] = b.receiver;
        for (k = 1; k < 4; k++) {
            check(same_receiver(r[k], r[0]), "receivers", n);
            check(memcmp(logs_of[k], logs_of[0], sizeof logs_of[0]) == 0, "logs", n);
            check(memcmp(carries[k], carries[0], CARRY) == 0, "carries", n);
        }
        for (k = 0; k < a[0].words; k++)
            withheld += logs_of[0][k] == WITHHELD;
    }
    printf("  20,000 PDUs by four calls, %lu of them withheld\n", withheld);
    check(withheld > 3000, "enough of them withheld", withheld);
    report("each call");
}

int main(void)
{
    random_bytes(carry, sizeof carry);
    test_opening();
    test_state();
    test_services();
    test_kept();
    test_unknown();
    test_withheld();
    test_calls();
    printf("%lu checks, %lu wrong\n", checks, failed);
    return failed == 0 ? 0 : 1;
}
