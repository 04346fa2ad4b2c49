/*
 * Tests of the C library's receiver and packet log against document 01: opening,
 * example (n), each note, each refusal at its edges, and whole lists of packets
 * that are written, lost in part, damaged in up to four header bytes of each
 * PDU, received and joined. PDUs of all kinds and lists of packets have CRCs from
 * any starting value too (document 02, Ask 2).
 *
 * PDUs are put together here byte by byte, and what a call has to log and to
 * hold is worked out a second time. Every buffer lent to the library lies
 * between guards. After each call all buffers with their guards are compared
 * whole with what they should hold, and so is each field of the receiver.
 */
#include "barzhilup.h"

#include <stdio.h>
#include <string.h>

#define CARRY BARZHILUP_CARRY_BYTES
#define LOG BARZHILUP_LOG_WORDS
#define MORE 1000 /* how much longer than needed a lent carry or log may be */
#define GUARD 33  /* odd, so that lent bytes are not aligned */

/* ---- Counting ------------------------------------------------------------ */

static unsigned long checks, failed, checks_before;

/* One check; `which` tells the cases of one kind apart. */
static void check(int holds, const char *what, unsigned long which)
{
    checks++;
    if (holds)
        return;
    failed++;
    if (failed <= 20)
        printf("  WRONG: %s, case %lu\n", what, which);
}

/* Says how many checks were made since the last call. */
static void report(const char *what)
{
    printf("  %s: %lu checks\n", what, checks - checks_before);
    checks_before = checks;
}

/* ---- Repeatable random numbers ------------------------------------------- */

static uint32_t state = 521288629u;

static uint32_t random_below(uint32_t n)
{
    state ^= state << 13;
    state ^= state >> 17;
    state ^= state << 5;
    return state % n;
}

static void random_bytes(uint8_t *bytes, size_t length)
{
    size_t i;
    for (i = 0; i < length; i++)
        bytes[i] = (uint8_t)random_below(256);
}

/* ---- The table of modes -------------------------------------------------- */

struct line {
    uint8_t mode, stream;
    unsigned bits, sequences;
    size_t psd; /* the most bytes of PSD that the writer takes */
};

static const struct line lines[10] = {{0, 0, 16, 2, 128}, {1, 0, 12, 8, 21}, {2, 0, 12, 8, 21},
                                      {3, 0, 12, 8, 21},  {1, 1, 16, 2, 0},  {2, 1, 16, 2, 0},
                                      {3, 1, 16, 2, 0},   {10, 0, 12, 2, 128}, {10, 1, 12, 8, 0},
                                      {13, 0, 12, 8, 21}};

/* The line of a mode and stream, or NULL. */
static const struct line *line_of(unsigned mode, unsigned stream)
{
    size_t i;
    for (i = 0; i < 10; i++)
        if (lines[i].mode == mode && lines[i].stream == stream)
            return &lines[i];
    return NULL;
}

/* ---- PDUs, byte by byte -------------------------------------------------- */

struct parts {
    uint8_t mode, stream, sequence;
    int pfirst, plast;
    uint8_t start;
    unsigned nop;
    size_t lengths[64];   /* of the pieces, without their CRC bytes */
    const uint8_t *bytes; /* the pieces, joined */
    int wrong[64];        /* whether a piece's CRC is wrong */
    const uint8_t *expansion;
    size_t expansion_length;
    const uint8_t *psd;
    size_t psd_length;
    size_t length; /* of the PDU */
};

static uint8_t some[BARZHILUP_PDU_MAX];     /* bytes to make packets of */
static uint8_t made[BARZHILUP_PDU_MAX + 1]; /* the PDU that `make` makes */
static size_t made_length;

/* The starting value of the CRCs that are made, and of receivers. */
static uint8_t crc_start = BARZHILUP_CRC_START;

static void put_locator(unsigned bits, unsigned k, size_t value)
{
    uint8_t *at = made + 14 + (bits == 16 ? 2 * k : k / 2 * 3);
    if (bits == 16) {
        at[0] = (uint8_t)(value & 0xff);
        at[1] = (uint8_t)(value >> 8);
    } else if (k % 2 == 0) {
        at[0] = (uint8_t)(value & 0xff);
        at[1] = (uint8_t)((at[1] & 0xf0) | value >> 8);
    } else {
        at[1] = (uint8_t)((at[1] & 0x0f) | (value & 0x0f) << 4);
        at[2] = (uint8_t)(value >> 4);
    }
}

static void parity(void)
{
    check(barzhilup_write_parity(made, made_length) == 0, "parity written", made_length);
}

/* The first place after the locators. */
static size_t after_locators(const struct parts *p)
{
    return 14 + (p->nop * line_of(p->mode, p->stream)->bits + 7) / 8;
}

/* The place after the last piece. */
static size_t end_of(const struct parts *p)
{
    size_t place = after_locators(p) + p->expansion_length + p->psd_length;
    unsigned k;
    for (k = 0; k < p->nop; k++)
        place += p->lengths[k] + 1;
    return place;
}

static void make(const struct parts *p)
{
    unsigned bits = line_of(p->mode, p->stream)->bits, k;
    const uint8_t *bytes = p->bytes;
    size_t place = after_locators(p);

    check(end_of(p) <= p->length && p->length <= BARZHILUP_PDU_MAX, "the parts fit", p->length);
    made_length = p->length;
    memset(made, 0, sizeof made);
    made[8] = (uint8_t)(p->mode | p->stream << 4 | (p->sequence & 3) << 6);
    made[9] = (uint8_t)(p->sequence >> 2);
    made[11] = (uint8_t)((p->pfirst ? 2 : 0) | (p->plast ? 4 : 0) | (p->start & 31) << 3);
    made[12] = (uint8_t)(p->start >> 5 | p->nop << 1 | (p->expansion_length > 0 ? 0x80 : 0));
    if (p->expansion_length > 0)
        memcpy(made + place, p->expansion, p->expansion_length);
    place += p->expansion_length;
    if (p->psd_length > 0)
        memcpy(made + place, p->psd, p->psd_length);
    place += p->psd_length;
    made[13] = (uint8_t)(place - 1);
    for (k = 0; k < p->nop; k++) {
        memcpy(made + place, bytes, p->lengths[k]);
        bytes += p->lengths[k];
        place += p->lengths[k];
        made[place] = barzhilup_crc8_from(crc_start, made + place - p->lengths[k], p->lengths[k]);
        if (p->wrong[k])
            made[place] ^= 0x10;
        put_locator(bits, k, place);
        place++;
    }
    memset(made + place, 0x3c, p->length - place); /* reserved: ignored */
    parity();
}

/* A PDU of 96 bytes in mode 0, core, with n pieces of two bytes. */
static struct parts simple(unsigned n)
{
    struct parts p;
    unsigned k;
    memset(&p, 0, sizeof p);
    p.bytes = some;
    p.start = 4;
    p.nop = n;
    for (k = 0; k < n; k++)
        p.lengths[k] = 2;
    p.length = 96;
    return p;
}

/* ---- Log words again ----------------------------------------------------- */

static uint32_t wanted[LOG + MORE];
static size_t wanted_count;

static void want(uint32_t word)
{
    if (wanted_count < LOG + MORE)
        wanted[wanted_count] = word;
    wanted_count++;
}

static void want_note(uint32_t cause, uint32_t piece)
{
    want((uint32_t)BARZHILUP_LOG_NOTE << 30 | cause << 16 | piece);
}

static void want_data(const uint8_t *bytes, size_t length)
{
    size_t i, n;
    for (i = 0; i < length; i += 3) {
        n = length - i < 3 ? length - i : 3;
        want((uint32_t)BARZHILUP_LOG_DATA << 30 | (uint32_t)n << 24 | (uint32_t)bytes[i] << 16
             | (uint32_t)(n > 1 ? bytes[i + 1] : 0) << 8 | (uint32_t)(n > 2 ? bytes[i + 2] : 0));
    }
}

static void want_packet(unsigned number, const uint8_t *bytes, size_t length)
{
    want((uint32_t)BARZHILUP_LOG_PACKET << 30 | (uint32_t)number << 16 | (uint32_t)length);
    want_data(bytes, length);
}

static void want_psd(const uint8_t *bytes, size_t length)
{
    want((uint32_t)BARZHILUP_LOG_PSD << 30 | (uint32_t)length);
    want_data(bytes, length);
}

/* ---- The receiver's rules again ------------------------------------------ */

/* What a receiver has to remember. */
static struct {
    int known;
    unsigned sequence;
    size_t held;
    unsigned number;
    int serviced;
    unsigned services;
    uint32_t delivered, missing;
    unsigned last;
    uint8_t bytes[CARRY];
} memory;

static void drop(void)
{
    memory.held = 0;
    memory.number = 0;
}

/* Counts a packet that is delivered, and those missing before it (document 02, Ask
 * 14). */
static void count_delivered(unsigned number)
{
    if (memory.delivered > 0)
        memory.missing += (number + 127 - memory.last) % 64;
    memory.delivered++;
    memory.last = number;
}

static void want_piece(const struct parts *p, unsigned k, const uint8_t *bytes)
{
    unsigned number = (p->start + k + (p->pfirst ? 63 : 0)) % 64;
    int continues = p->pfirst && k == 0, ends = !(p->plast && k + 1 == p->nop);

    if (p->wrong[k]) {
        want_note(BARZHILUP_NOTE_CRC, k);
        drop();
    } else if (continues && memory.held == 0) {
        want_note(BARZHILUP_NOTE_NOTHING_HELD, k);
    } else {
        if (!continues)
            drop();
        if (memory.held + p->lengths[k] > BARZHILUP_PACKET_MAX) {
            want_note(BARZHILUP_NOTE_TOO_LONG, k);
            drop();
            return;
        }
        memcpy(memory.bytes + memory.held, bytes, p->lengths[k]);
        memory.held += p->lengths[k];
        memory.number = number;
        if (ends) {
            want_packet(number, memory.bytes, memory.held);
            count_delivered(number);
            drop();
        }
    }
}

/* The applied services that a PDU sends; 0 where they are not sent or not
 * interpreted. */
static unsigned services_sent(const struct parts *p)
{
    size_t i = 0;
    while (i < p->expansion_length) {
        unsigned first = p->expansion[i] & 0x7f, id = first >> 4;
        if (id == 4 && (first & 8) != 0)
            return first & 7;
        if (id > 2)
            return 0;
        i += id == 0 ? 1 : id == 2 ? 2 : (first & 1) != 0 ? 3 : 1;
    }
    return 0;
}

/* Core PDUs of sequence range 0-7 keep the value that is sent with sequence 0
 * (document 02, Ask 10). */
static void keep_services(const struct parts *p)
{
    if (p->stream == 0 && line_of(p->mode, p->stream)->sequences == 8 && p->sequence == 0) {
        memory.serviced = 1;
        memory.services = services_sent(p);
    }
}

/* Works out what a PDU that is accepted makes the receiver log and remember. */
static void want_all(const struct parts *p)
{
    unsigned sequences = line_of(p->mode, p->stream)->sequences, k;
    const uint8_t *bytes = p->bytes;

    wanted_count = 0;
    if (memory.known && p->sequence != (memory.sequence + 1) % sequences) {
        want_note(BARZHILUP_NOTE_SEQUENCE, 0);
        drop();
        memory.serviced = 0;
        memory.services = 0;
    }
    keep_services(p);
    if (memory.held > 0 && (!p->pfirst || memory.number != (p->start + 63u) % 64)) {
        want_note(BARZHILUP_NOTE_NOT_CONTINUED, 0);
        drop();
    }
    if (p->psd_length > 0)
        want_psd(p->psd, p->psd_length);
    for (k = 0; k < p->nop; k++) {
        want_piece(p, k, bytes);
        bytes += p->lengths[k];
    }
    memory.known = 1;
    memory.sequence = p->sequence;
}

/* ---- What is lent to a call ---------------------------------------------- */

struct lent {
    uint8_t carry[GUARD + CARRY + MORE + GUARD];
    uint8_t pdu[GUARD + BARZHILUP_PDU_MAX + 1 + GUARD];
    uint32_t log[GUARD + LOG + MORE + GUARD];
};

static struct lent is, was, should;
static size_t carry_length = CARRY, log_length = LOG;
static barzhilup_receiver receiver;

static int same_receiver(barzhilup_receiver one, barzhilup_receiver other)
{
    return one.mode == other.mode && one.stream == other.stream
           && one.crc_start == other.crc_start && one.entitled == other.entitled
           && one.known == other.known && one.sequence == other.sequence
           && one.held == other.held && one.number == other.number
           && one.serviced == other.serviced && one.services == other.services
           && one.delivered == other.delivered && one.missing == other.missing
           && one.last == other.last;
}

/* Fills everything that is lent, guards too, with bytes of all kinds. */
static void fill(void)
{
    random_bytes(is.carry, sizeof is.carry);
    random_bytes(is.pdu, sizeof is.pdu);
    random_bytes((uint8_t *)is.log, sizeof is.log);
}

/* A receiver that was just opened, and buffers with anything in them. */
static void fresh(unsigned mode, unsigned stream)
{
    barzhilup_receiver_opened o =
        barzhilup_open_receiver_with((uint8_t)mode, (uint8_t)stream, crc_start);
    check(o.refusal == 0 && o.receiver.crc_start == crc_start, "opened", mode * 256 + stream);
    receiver = o.receiver;
    memset(&memory, 0, sizeof memory);
    carry_length = CARRY;
    log_length = LOG;
    fill();
}

/* A receiver in any state that is allowed; what it holds is in the carry. */
static void put_state(int known, unsigned sequence, size_t held, unsigned number)
{
    receiver.known = known != 0;
    receiver.sequence = (uint8_t)sequence;
    receiver.held = (uint16_t)held;
    receiver.number = (uint8_t)number;
    memory.known = known;
    memory.sequence = sequence;
    memory.held = held;
    memory.number = number;
    memory.serviced = receiver.serviced;
    memory.services = receiver.services;
    memory.delivered = receiver.delivered;
    memory.missing = receiver.missing;
    memory.last = receiver.last;
    memcpy(memory.bytes, is.carry + GUARD, held);
}

/* Lends `made` with so many bytes of its header altered. */
static void lend_made(unsigned altered)
{
    memcpy(is.pdu + GUARD, made, made_length);
    for (; altered > 0; altered--)
        is.pdu[GUARD + random_below(96)] = (uint8_t)random_below(256);
}

static barzhilup_received receive_lent(barzhilup_receiver r)
{
    memcpy(&was, &is, sizeof is);
    return barzhilup_receive(r, is.carry + GUARD, carry_length, is.pdu + GUARD, made_length,
                             is.log + GUARD, log_length);
}

/* The call was refused with a number and changed nothing. */
static void check_refused(barzhilup_received a, barzhilup_receiver r, uint32_t number,
                          const char *what, unsigned long which)
{
    check(a.refusal == number, what, which);
    check(a.words == 0, "refused, no words", number);
    check(a.wrong_locator == 0 || number == BARZHILUP_REFUSED_LOCATOR, "refused, no k", number);
    check(same_receiver(a.receiver, r), "refused, receiver unchanged", number);
    check(memcmp(&is, &was, sizeof is) == 0, "refused, all that is lent unchanged", number);
}

/* Receives `made` with any receiver, which is refused; answers the k of 11. The
 * header is altered where it can be corrected, and has to stay altered. */
static uint32_t refused_for(barzhilup_receiver r, uint32_t number, const char *what,
                            unsigned long which)
{
    int whole = made_length >= 96 && number != BARZHILUP_REFUSED_UNCORRECTABLE;
    barzhilup_received a;
    lend_made(whole ? random_below(5) : 0);
    a = receive_lent(r);
    check_refused(a, r, number, what, which);
    return a.wrong_locator;
}

static uint32_t refused(uint32_t number, const char *what, unsigned long which)
{
    return refused_for(receiver, number, what, which);
}

/* The call was accepted: it logged what is wanted, holds what it has to hold,
 * left the PDU as `made`, and changed nothing else. */
static void check_accepted(barzhilup_received a, const char *what, unsigned long which)
{
    barzhilup_receiver next = receiver;
    next.known = memory.known != 0;
    next.sequence = (uint8_t)memory.sequence;
    next.held = (uint16_t)memory.held;
    next.number = (uint8_t)memory.number;
    next.serviced = memory.serviced != 0;
    next.services = (uint8_t)memory.services;
    next.delivered = memory.delivered;
    next.missing = memory.missing;
    next.last = (uint8_t)memory.last;
    check(a.refusal == 0 && a.wrong_locator == 0, what, which);
    check(a.words == wanted_count && wanted_count <= LOG, "count of words", which);
    check(same_receiver(a.receiver, next), "receiver afterwards", which);
    if (wanted_count > LOG)
        return;
    memcpy(&should, &was, sizeof was);
    memcpy(should.carry + GUARD, memory.bytes, memory.held);
    memcpy(should.log + GUARD, wanted, wanted_count * sizeof wanted[0]);
    check(memcmp(is.carry, should.carry, sizeof is.carry) == 0, "carry afterwards", which);
    check(memcmp(is.log, should.log, sizeof is.log) == 0, "log afterwards", which);
    receiver = a.receiver;
}

/* Receives `made` with up to four header bytes altered. */
static void accepted(const struct parts *p, unsigned altered, const char *what, unsigned long which)
{
    barzhilup_received a;
    want_all(p);
    lend_made(altered);
    a = receive_lent(receiver);
    check_accepted(a, what, which);
    memcpy(should.pdu, was.pdu, sizeof was.pdu);
    memcpy(should.pdu + GUARD, made, made_length);
    check(memcmp(is.pdu, should.pdu, sizeof is.pdu) == 0, "PDU left corrected", which);
}

static void receive(const struct parts *p, const char *what, unsigned long which)
{
    make(p);
    accepted(p, 0, what, which);
}

/* The last call's words are just these. */
static void logged(size_t count, const uint32_t *words, const char *what, unsigned long which)
{
    check(wanted_count == count, what, which);
    check(memcmp(is.log + GUARD, words, count * sizeof words[0]) == 0, what, which);
}

static void mark_lost(unsigned long which)
{
    barzhilup_received a;
    wanted_count = 0;
    want_note(BARZHILUP_NOTE_LOST, 0);
    drop();
    memory.known = 0;
    memory.sequence = 0;
    memory.serviced = 0;
    memory.services = 0;
    memcpy(&was, &is, sizeof is);
    a = barzhilup_mark_lost(receiver, is.log + GUARD, log_length);
    check_accepted(a, "marked lost", which);
    check(memcmp(is.pdu, was.pdu, sizeof is.pdu) == 0, "marked lost, PDU unchanged", which);
}

/* ---- Opening ------------------------------------------------------------- */

static void test_opening(void)
{
    unsigned mode, stream;
    for (mode = 0; mode < 256; mode++)
        for (stream = 0; stream < 256; stream++) {
            barzhilup_receiver_opened o =
                barzhilup_open_receiver((uint8_t)mode, (uint8_t)stream);
            const struct line *l = line_of(mode, stream);
            barzhilup_receiver r = {255, 0, 0, 0, false, 0, 0, 0, false, 0, 0, 0, 0};
            if (l != NULL) {
                r.mode = l->mode;
                r.stream = l->stream;
                r.entitled = 255;
            }
            check(o.refusal == (l == NULL ? BARZHILUP_REFUSED_MODE : 0), "opening",
                  mode * 256 + stream);
            check(same_receiver(o.receiver, r), "opened, receiver", mode * 256 + stream);
        }
    report("opening");
}

/* ---- Log words and notes ------------------------------------------------- */

/* Example (n), and a PSD before packets. */
static void test_words(void)
{
    static const uint8_t bytes[6] = {0x11, 0x22, 0x33, 0x44, 0x55, 0x66}, psd[2] = {0xaa, 0xbb};
    static const uint32_t n[3] = {0x00050004, 0x43112233, 0x41440000};
    static const uint32_t more[7] = {0x80000002, 0x42aabb00, 0x003f0002, 0x42112200,
                                     0x00000003, 0x43334455, 0xc0020002};
    struct parts p = simple(1);

    fresh(0, 0);
    p.bytes = bytes;
    p.start = 5;
    p.lengths[0] = 4;
    receive(&p, "(n)", 0);
    logged(3, n, "(n)", 1);

    /* The numbers wrap at 64. */
    p.sequence = 1;
    p.start = 63;
    p.psd = psd;
    p.psd_length = 2;
    p.nop = 3;
    p.lengths[0] = 2;
    p.lengths[1] = 3;
    p.lengths[2] = 1;
    p.wrong[2] = 1;
    receive(&p, "PSD, packets 63 and 0, wrong CRC", 0);
    logged(7, more, "PSD, packets 63 and 0, wrong CRC", 1);

    /* Nothing to log: a log of no words is enough. */
    p = simple(0);
    log_length = 0;
    receive(&p, "no piece, no PSD", 0);
    check(wanted_count == 0, "no piece, no PSD", 1);
    report("log words");
}

/* Note 1: a beginning is dropped where the sequence is not the next. What would
 * continue it finds nothing held. */
static void test_note_1(void)
{
    static const uint32_t note1[2] = {0xc0010000, 0xc0030000};
    struct parts p;
    unsigned k;

    fresh(1, 0);
    put_state(1, 0, 2, 3);
    p = simple(1);
    p.mode = 1;
    p.sequence = 2;
    p.pfirst = 1;
    receive(&p, "note 1", 0);
    logged(2, note1, "note 1", 1);
    /* It stands alone where note 4 would be due as well. */
    fresh(1, 0);
    put_state(1, 0, 2, 9);
    p = simple(0);
    p.mode = 1;
    p.sequence = 0;
    receive(&p, "note 1 alone", 0);
    logged(1, note1, "note 1 alone", 1);
    /* Each sequence after each, in each mode. */
    for (k = 0; k < 10; k++) {
        unsigned last, next;
        for (last = 0; last < lines[k].sequences; last++)
            for (next = 0; next < lines[k].sequences; next++) {
                fresh(lines[k].mode, lines[k].stream);
                put_state(1, last, 0, 0);
                p = simple(0);
                p.mode = lines[k].mode;
                p.stream = lines[k].stream;
                p.sequence = (uint8_t)next;
                receive(&p, "sequences", last * 8 + next);
                check(wanted_count == ((last + 1) % lines[k].sequences != next), "sequences noted",
                      last * 8 + next);
            }
    }
    report("note 1");
}

/* Note 2: a wrong CRC, alone and among others. */
static void test_note_2(void)
{
    static const uint32_t note2[1] = {0xc0020000};
    struct parts p;

    fresh(0, 0);
    p = simple(1);
    p.wrong[0] = 1;
    receive(&p, "note 2", 0);
    logged(1, note2, "note 2", 1);
    p = simple(3);
    p.sequence = 1;
    p.wrong[1] = 1;
    receive(&p, "note 2 of three", 0);
    check(wanted_count == 5 && is.log[GUARD] == 0x00040002 && is.log[GUARD + 2] == 0xc0020001
              && is.log[GUARD + 3] == 0x00060002,
          "note 2 of three", 1);
    /* It goes before note 3. */
    fresh(0, 0);
    p = simple(1);
    p.pfirst = 1;
    p.wrong[0] = 1;
    receive(&p, "note 2, not 3", 0);
    logged(1, note2, "note 2, not 3", 1);
    /* What was held goes with a piece whose CRC is wrong. */
    fresh(0, 0);
    put_state(1, 1, 5, 3);
    p.plast = 1;
    receive(&p, "note 2 drops what was held", 0);
    logged(1, note2, "note 2 drops what was held", 1);
    check(receiver.held == 0 && receiver.number == 0, "note 2 drops what was held", 2);
    report("note 2");
}

/* Note 3: nothing is held. */
static void test_note_3(void)
{
    static const uint32_t note3[1] = {0xc0030000};
    struct parts p;

    fresh(0, 0);
    p = simple(1);
    p.pfirst = 1;
    receive(&p, "note 3", 0);
    logged(1, note3, "note 3", 1);
    /* With Plast too, nothing is held afterwards. */
    fresh(0, 0);
    p.plast = 1;
    receive(&p, "note 3 with Plast", 0);
    logged(1, note3, "note 3 with Plast", 1);
    check(receiver.held == 0, "note 3 with Plast", 2);
    report("note 3");
}

/* Note 4: the number is not the one before the starting number, or Pfirst is
 * clear. */
static void test_note_4(void)
{
    static const uint32_t note4[2] = {0xc0040000, 0xc0030000};
    struct parts p;
    unsigned k;

    for (k = 0; k < 64; k++) {
        fresh(0, 0);
        put_state(1, 1, 2, k);
        p = simple(1);
        p.pfirst = 1;
        receive(&p, "note 4 by number", k);
        if (k != 3)
            logged(2, note4, "note 4 by number", k);
        else
            check((is.log[GUARD] & 0xffff0000) == 0x00030000, "joined by number", k);
    }
    /* Pfirst is clear, with the right number. */
    fresh(0, 0);
    put_state(1, 1, 2, 3);
    p = simple(0);
    receive(&p, "note 4 by Pfirst", 0);
    logged(1, note4, "note 4 by Pfirst", 1);
    /* The sequence need not be known. */
    fresh(0, 0);
    put_state(0, 0, 2, 3);
    receive(&p, "note 4, sequence not known", 0);
    logged(1, note4, "note 4, sequence not known", 1);
    report("note 4");
}

/* Note 5: 4,096 bytes are delivered or held, 4,097 are not. */
static void test_note_5(void)
{
    static const uint32_t note5[1] = {0xc0050000};
    struct parts p;
    unsigned k;

    for (k = 0; k < 4; k++) {
        fresh(0, 0);
        put_state(1, 1, 4000, 3);
        p = simple(1);
        p.pfirst = 1;
        p.plast = (int)(k / 2);
        p.lengths[0] = 96 + k % 2;
        p.length = 200;
        receive(&p, "4,000 held", k);
        if (k % 2 == 1)
            logged(1, note5, "note 5", k);
        else
            check(wanted_count == (k == 0 ? 1367u : 0) && receiver.held == (k == 0 ? 0 : 4096),
                  "4,096 bytes", k);
    }
    for (k = 0; k < 4; k++) {
        fresh(0, 0);
        p = simple(1);
        p.plast = (int)(k / 2);
        p.lengths[0] = 4096 + k % 2;
        p.length = 5000;
        receive(&p, "a piece of 4,096 and more", k);
        if (k % 2 == 1)
            logged(1, note5, "note 5, one piece", k);
        else
            check(wanted_count == (k == 0 ? 1367u : 0) && receiver.held == (k == 0 ? 0 : 4096),
                  "4,096 bytes in one piece", k);
    }
    fresh(0, 0);
    put_state(1, 1, 4096, 3);
    p = simple(1);
    p.pfirst = 1;
    p.lengths[0] = 1;
    receive(&p, "4,096 held and one more", 0);
    logged(1, note5, "4,096 held and one more", 1);
    report("note 5");
}

/* Note 6: marked lost, with something held and the sequence known, and without. */
static void test_note_6(void)
{
    static const uint32_t note6[1] = {0xc0060000};

    fresh(0, 0);
    put_state(1, 1, 7, 3);
    mark_lost(0);
    logged(1, note6, "note 6", 0);
    mark_lost(1);
    logged(1, note6, "note 6", 1);
    report("note 6");
}

/* ---- Joining ------------------------------------------------------------- */

static void test_joining(void)
{
    static const uint32_t note3[1] = {0xc0030000};
    struct parts p;
    unsigned k;

    /* A packet over four PDUs. Its beginning is held; what the carry has past it
     * stays. */
    fresh(1, 0);
    carry_length = CARRY + MORE;
    for (k = 0; k < 4; k++) {
        p = simple(1);
        p.mode = 1;
        p.sequence = (uint8_t)k;
        p.start = (uint8_t)(k == 0 ? 63 : 0);
        p.pfirst = k > 0;
        p.plast = k < 3;
        p.bytes = some + 2 * k;
        receive(&p, "over four PDUs", k);
        if (k < 3)
            check(wanted_count == 0 && receiver.held == 2 * (k + 1) && receiver.number == 63,
                  "held", k);
    }
    check(wanted_count == 4 && is.log[GUARD] == 0x003f0008, "packet 63 over four PDUs", 0);

    /* The same, with two pieces in each PDU: one ends and one begins. */
    fresh(0, 0);
    for (k = 0; k < 200; k++) {
        p = simple(2);
        p.sequence = (uint8_t)(k % 2);
        p.start = (uint8_t)(k % 64);
        p.pfirst = k > 0;
        p.plast = 1;
        p.bytes = some + 4 * k;
        if (k == 0)
            p.nop = 1;
        receive(&p, "ends and begins", k);
        check(receiver.number == k % 64 && receiver.held == 2, "numbers wrap at 64", k);
        check(k == 0 || is.log[GUARD] == ((k - 1) % 64 << 16 | 4), "packets wrap at 64", k);
    }

    /* With one bit of sequence, the PDU after two lost ones fits, and its number
     * too; nothing is joined. */
    fresh(0, 0);
    p = simple(1);
    p.plast = 1;
    receive(&p, "beginning", 0);
    check(receiver.held == 2, "beginning", 1);
    mark_lost(0);
    check(!receiver.known && receiver.sequence == 0 && receiver.held == 0, "one lost", 0);
    mark_lost(1);
    p.sequence = 1;
    p.start = 5;
    p.pfirst = 1;
    p.plast = 0;
    receive(&p, "after two lost", 0);
    logged(1, note3, "after two lost", 1);
    report("joining");
}

/* ---- Refusals ------------------------------------------------------------ */

static void test_state(void)
{
    struct parts p = simple(1);
    barzhilup_receiver r;
    barzhilup_received a;
    unsigned mode, stream, n;

    fresh(0, 0);
    make(&p);
    for (mode = 0; mode < 256; mode++)
        for (stream = 0; stream < 4; stream++) {
            r = receiver;
            r.mode = (uint8_t)mode;
            r.stream = (uint8_t)stream;
            n = line_of(mode, stream) == NULL ? BARZHILUP_REFUSED_STATE
                                              : BARZHILUP_REFUSED_OTHER_MODE;
            if (mode > 0 || stream > 0)
                refused_for(r, n, "state: mode and stream", mode * 4 + stream);
        }
    for (n = 0; n < 10; n++) {
        p.mode = lines[n].mode;
        p.stream = lines[n].stream;
        fresh(p.mode, p.stream);
        make(&p);
        r = receiver;
        r.known = true;
        r.sequence = (uint8_t)lines[n].sequences;
        refused_for(r, BARZHILUP_REFUSED_STATE, "state: sequence past its range", n);
        r.sequence = 255;
        refused_for(r, BARZHILUP_REFUSED_STATE, "state: sequence 255", n);
        r.known = false;
        r.sequence = 1;
        refused_for(r, BARZHILUP_REFUSED_STATE, "state: sequence not known", n);
        put_state(1, lines[n].sequences - 1, 0, 0);
        accepted(&p, 0, "state: the last sequence", n);
    }
    p = simple(1);
    fresh(0, 0);
    make(&p);
    r = receiver;
    r.held = 4097;
    refused_for(r, BARZHILUP_REFUSED_STATE, "state: held", 4097);
    r.held = 65535;
    refused_for(r, BARZHILUP_REFUSED_STATE, "state: held", 65535);
    r.held = 1;
    r.number = 64;
    refused_for(r, BARZHILUP_REFUSED_STATE, "state: number", 64);
    r.number = 255;
    refused_for(r, BARZHILUP_REFUSED_STATE, "state: number", 255);
    r.held = 0;
    r.number = 1;
    refused_for(r, BARZHILUP_REFUSED_STATE, "state: number, nothing held", 1);
    put_state(0, 0, 4096, 63);
    accepted(&p, 0, "state: held 4,096, number 63", 0);
    put_state(0, 0, 1, 0);
    accepted(&p, 0, "state: held 1, number 0", 0);

    /* Marking lost looks at the state, and for room of one word. */
    fresh(0, 0);
    r = receiver;
    r.number = 1;
    log_length = 0;
    memcpy(&was, &is, sizeof is);
    a = barzhilup_mark_lost(r, is.log + GUARD, log_length);
    check_refused(a, r, BARZHILUP_REFUSED_STATE, "marking lost: state", 0);
    a = barzhilup_mark_lost(receiver, is.log + GUARD, log_length);
    check_refused(a, receiver, BARZHILUP_REFUSED_LOG_LENGTH, "marking lost: log", 0);
    log_length = 1;
    mark_lost(2);
    report("refusal 1");
}

/* Alters five header bytes so that no code word is near enough. */
static void damage(void)
{
    uint8_t copy[96], clean[96];
    memcpy(clean, made, 96);
    do {
        unsigned n;
        memcpy(copy, clean, 96);
        for (n = 0; n < 5; n++)
            copy[random_below(96)] = (uint8_t)random_below(256);
        memcpy(made, copy, 96);
    } while (barzhilup_correct_header(copy, 96).refusal != BARZHILUP_REFUSED_UNCORRECTABLE);
}

static void test_lengths_and_header(void)
{
    static const size_t short_or_long[4] = {0, 1, 95, 20481};
    struct parts p = simple(1);
    unsigned n, q, mode, stream;

    /* 2: the carry. */
    fresh(0, 0);
    make(&p);
    carry_length = 4095;
    refused(BARZHILUP_REFUSED_CARRY_LENGTH, "carry", 4095);
    carry_length = 0;
    refused(BARZHILUP_REFUSED_CARRY_LENGTH, "carry", 0);
    carry_length = 4096;
    accepted(&p, 0, "carry", 4096);

    /* 3: the PDU's length. For a receiver, 12 bits set no other bound. */
    fresh(0, 0);
    for (n = 0; n < 4; n++) {
        make(&p);
        made_length = short_or_long[n];
        refused(BARZHILUP_REFUSED_PDU_LENGTH, "PDU length", made_length);
    }
    receive(&p, "PDU length", 96);
    p.sequence = 1;
    p.length = 20480;
    receive(&p, "PDU length", 20480);
    for (n = 0; n < 2; n++) {
        p = simple(1);
        p.mode = 1;
        p.length = n == 0 ? 4097 : 20480;
        fresh(1, 0);
        receive(&p, "PDU length, 12 bits", p.length);
    }

    /* 4: four bytes are corrected, five are not. */
    p = simple(1);
    for (n = 0; n < 200; n++) {
        fresh(0, 0);
        make(&p);
        accepted(&p, 4, "up to four bytes altered", n);
        damage();
        refused(BARZHILUP_REFUSED_UNCORRECTABLE, "five bytes altered", n);
    }

    /* 5 and 6: the PDU's mode and stream. */
    for (mode = 0; mode < 16; mode++)
        for (stream = 0; stream < 4; stream++) {
            if (mode == 10 && stream == 1)
                continue;
            fresh(10, 1);
            make(&p);
            made[8] = (uint8_t)(mode | stream << 4);
            parity();
            refused(line_of(mode, stream) == NULL ? BARZHILUP_REFUSED_MODE
                                                  : BARZHILUP_REFUSED_OTHER_MODE,
                    "PDU's mode and stream", mode * 4 + stream);
        }

    /* 7: the PDU's sequence. */
    for (n = 0; n < 10; n++)
        for (q = 0; q < 8; q++) {
            p = simple(1);
            p.mode = lines[n].mode;
            p.stream = lines[n].stream;
            p.sequence = (uint8_t)q;
            fresh(p.mode, p.stream);
            make(&p);
            if (q < lines[n].sequences)
                accepted(&p, 0, "sequence", n * 8 + q);
            else
                refused(BARZHILUP_REFUSED_SEQUENCE, "sequence", n * 8 + q);
        }
    report("refusals 2 to 7");
}

/* Sets NOP in `made` and leaves all else. */
static void set_nop(unsigned n)
{
    made[12] = (uint8_t)((made[12] & 0x81) | n << 1);
    parity();
}

static void set_la(unsigned la)
{
    made[13] = (uint8_t)la;
    parity();
}

/* Every count of pieces is received (document 02, Ask 9); one for which the PDU
 * is too short is refused with 9, whatever La is. */
static void test_counts(void)
{
    struct parts p;
    unsigned n, k, la;

    for (n = 0; n < 10; n++)
        for (k = 0; k <= BARZHILUP_PIECES_MAX; k++) {
            p = simple(k);
            p.mode = lines[n].mode;
            p.stream = lines[n].stream;
            p.length = 400;
            fresh(p.mode, p.stream);
            receive(&p, "a count of pieces", k);
            check(wanted_count == 2 * k, "a count of pieces", k);
            p.length = end_of(&p) < 96 ? 96 : end_of(&p);
            fresh(p.mode, p.stream);
            receive(&p, "a count of pieces that just fit", k);
        }
    for (n = 0; n < 10; n++) {
        p = simple(3);
        p.mode = lines[n].mode;
        p.stream = lines[n].stream;
        fresh(p.mode, p.stream);
        for (k = 4; k <= BARZHILUP_PIECES_MAX; k++) {
            make(&p);
            set_nop(k);
            refused(BARZHILUP_REFUSED_LA, "La before the last of more locators", k);
        }
        for (la = 0; la < 256; la++) {
            set_la(la);
            refused(BARZHILUP_REFUSED_LA, "63 pieces in 96 bytes, whatever La is", la);
        }
    }
    report("counts of pieces");
}

static void test_pieces_and_la(void)
{
    struct parts p;
    unsigned n, k;

    /* 8: Pfirst or Plast with NOP 0. */
    p = simple(0);
    fresh(0, 0);
    for (n = 1; n < 4; n++) {
        make(&p);
        made[11] |= (uint8_t)(n << 1);
        parity();
        refused(BARZHILUP_REFUSED_PIECES, "Pfirst or Plast with no piece", n);
    }
    receive(&p, "no piece", 0);

    /* 9: La. */
    fresh(0, 0);
    make(&p);
    for (n = 0; n < 13; n++) {
        set_la(n);
        refused(BARZHILUP_REFUSED_LA, "La with no piece", n);
    }
    for (n = 96; n < 256; n++) {
        set_la(n);
        refused(BARZHILUP_REFUSED_LA, "La past the PDU", n);
    }
    p.psd = some;
    p.psd_length = 82;
    receive(&p, "La 95: PSD to the end", 95);
    for (n = 0; n < 2; n++)
        for (k = 1; k < 4; k++) {
            p = simple(k);
            p.mode = (uint8_t)n;
            fresh(n, 0);
            receive(&p, "La at the last locator byte", k);
            make(&p);
            set_la((unsigned)after_locators(&p) - 2);
            refused(BARZHILUP_REFUSED_LA, "La before the last locator byte", k);
        }
    report("refusals 8 and 9");
}

/* A PDU of mode 0 with no piece, these expansion bytes and no PSD. */
static void expansion(uint32_t number, size_t length, const uint8_t *bytes, unsigned long which)
{
    struct parts p = simple(0);
    p.expansion = bytes;
    p.expansion_length = length;
    fresh(0, 0);
    make(&p);
    if (number == 0)
        accepted(&p, 0, "expansion", which);
    else
        refused(number, "expansion", which);
}

static void test_expansion(void)
{
    static const uint8_t class_1[1] = {0x01}, class_0[1] = {0x00};
    static const uint8_t rising[2] = {0x81, 0x10}, falling[2] = {0x90, 0x01};
    static const uint8_t program_twice[2] = {0x90, 0x10}, type_twice[3] = {0xa0, 0x85, 0x20};
    static const uint8_t no_displacement[1] = {0x11}, half_displacement[2] = {0x91, 0x00};
    static const uint8_t type[2] = {0xa0, 0x05}, half_type[1] = {0x20};
    static const uint8_t services[4] = {0xc8, 0x80, 0x80, 0x01};
    static const uint8_t part_services[3] = {0xc8, 0x80, 0x01};
    static const uint8_t reserved[3] = {0xb0, 0x90, 0x11}, clear_4[2] = {0xc0, 0x01};
    static const uint8_t type_reserved[4] = {0xa0, 0x85, 0xb0, 0x00};
    static const uint8_t services_5[5] = {0xc8, 0x80, 0x80, 0x81, 0x50};
    static const uint8_t services_3[5] = {0xc8, 0x80, 0x80, 0x81, 0x30};
    uint8_t many[17];
    struct parts p;

    expansion(0, 1, class_1, 0);
    expansion(10, 1, class_0, 1);
    expansion(0, 2, rising, 2);
    expansion(10, 2, falling, 3);
    expansion(10, 2, program_twice, 4);
    expansion(10, 3, type_twice, 5);
    expansion(10, 1, no_displacement, 6);
    expansion(10, 2, half_displacement, 7);
    expansion(0, 2, type, 8);
    expansion(10, 1, half_type, 9);
    expansion(0, 4, services, 10);
    expansion(10, 3, part_services, 11);
    /* After a reserved ID, or ID 4 with bit 3 clear, bytes are only counted; the
     * order of that ID is looked at. */
    expansion(0, 3, reserved, 12);
    expansion(0, 4, type_reserved, 13);
    expansion(0, 2, clear_4, 14);
    expansion(0, 5, services_5, 15);
    expansion(10, 5, services_3, 16);
    memset(many, 0x80, sizeof many);
    many[0] = 0xb0;
    many[15] = 0x00;
    expansion(0, 16, many, 17);
    many[15] = 0x80;
    many[16] = 0x00;
    expansion(10, 17, many, 18);

    /* Past La, and PSD after it. */
    p = simple(0);
    p.expansion = type;
    p.expansion_length = 2;
    fresh(0, 0);
    make(&p);
    set_la(14);
    refused(BARZHILUP_REFUSED_EXPANSION, "expansion past La", 14);
    set_la(13);
    refused(BARZHILUP_REFUSED_EXPANSION, "expansion past La", 13);
    p.psd = some;
    p.psd_length = 3;
    receive(&p, "PSD after the expansion", 0);
    check(wanted_count == 2 && is.log[GUARD] == 0x80000003, "PSD after the expansion", 1);
    report("refusal 10");
}

static void test_locators(void)
{
    struct parts p;
    unsigned n, k;

    /* 11: a locator under its piece's start plus 1, or past the PDU. */
    for (n = 0; n < 2; n++) {
        unsigned bits = n == 0 ? 16 : 12;
        for (k = 0; k < 3; k++) {
            p = simple(3);
            p.mode = (uint8_t)n;
            p.lengths[k] = 1;
            fresh(n, 0);
            receive(&p, "a piece of one byte", k);
            fresh(n, 0);
            make(&p);
            put_locator(bits, k, after_locators(&p) + 3 * k);
            parity();
            check(refused(BARZHILUP_REFUSED_LOCATOR, "a piece of no byte", k) == k, "its k", k);
        }
        p = simple(2);
        p.mode = (uint8_t)n;
        p.lengths[1] = 92 - after_locators(&p);
        fresh(n, 0);
        receive(&p, "a locator at the last byte", n);
        check(end_of(&p) == 96, "a locator at the last byte", n);
        fresh(n, 0);
        make(&p);
        put_locator(bits, 1, 96);
        parity();
        check(refused(BARZHILUP_REFUSED_LOCATOR, "a locator past the PDU", n) == 1, "its k", 1);
        put_locator(bits, 1, bits == 16 ? 65535 : 4095);
        parity();
        check(refused(BARZHILUP_REFUSED_LOCATOR, "a locator far past", n) == 1, "its k", 1);
        put_locator(bits, 0, 0);
        parity();
        check(refused(BARZHILUP_REFUSED_LOCATOR, "both wrong", n) == 0, "the first k", 2);
    }
    report("refusal 11");
}

static void test_displacement(void)
{
    uint8_t bytes[3] = {0x91, 0x80, 0x00};
    struct parts p;
    unsigned n, d, first;

    /* 12: from the last locator, La if there is none, to the PDU's last byte. */
    for (n = 0; n < 3; n++)
        for (d = 0; d < 200; d++) {
            bytes[1] = (uint8_t)(0x80 | d >> 7);
            bytes[2] = (uint8_t)(d & 0x7f);
            p = simple(n);
            p.expansion = bytes;
            p.expansion_length = 3;
            first = (unsigned)end_of(&p) - 1;
            fresh(0, 0);
            make(&p);
            if (first <= d && d < 96)
                accepted(&p, 0, "displacement", n * 1000 + d);
            else
                refused(BARZHILUP_REFUSED_DISPLACEMENT, "displacement", n * 1000 + d);
        }
    report("refusal 12");
}

static void test_log(void)
{
    struct parts p = simple(3);
    size_t needed, n;

    /* 13: a word too few, with each kind of word the last one. */
    fresh(0, 0);
    put_state(1, 1, 7, 3);
    p.pfirst = 1;
    p.psd = some + 50;
    p.psd_length = 4;
    p.wrong[1] = 1;
    make(&p);
    needed = 3 + 4 + 1 + 2; /* PSD, a packet of 9 bytes, note 2, a packet of 2 */
    for (n = 0; n < needed; n++) {
        log_length = n;
        refused(BARZHILUP_REFUSED_LOG_LENGTH, "log", n);
    }
    log_length = needed;
    accepted(&p, 0, "log of just enough words", needed);
    check(wanted_count == needed, "log of just enough words", needed);

    /* 4,096 bytes held and a PDU of the greatest length. */
    fresh(0, 0);
    put_state(1, 1, 4095, 63);
    p = simple(41);
    p.start = 0;
    p.pfirst = 1;
    p.psd = some;
    p.psd_length = 160;
    p.lengths[0] = 1;
    for (n = 1; n < 5; n++)
        p.lengths[n] = 4096;
    for (n = 5; n < 41; n++)
        p.lengths[n] = 100;
    p.length = 20480;
    p.lengths[40] += p.length - end_of(&p);
    make(&p);
    accepted(&p, 4, "a PDU of 20,480 bytes", 0);

    /* As many words as a call can write: 4,095 bytes held and 63 pieces. */
    fresh(0, 0);
    put_state(1, 1, 4095, 63);
    p = simple(BARZHILUP_PIECES_MAX);
    p.start = 0;
    p.pfirst = 1;
    p.psd = some;
    p.psd_length = 1;
    p.lengths[0] = 1;
    for (n = 1; n < 62; n++)
        p.lengths[n] = 325;
    p.lengths[62] = 450;
    p.length = 20480;
    check(end_of(&p) == p.length, "the most words: the PDU is full", end_of(&p));
    make(&p);
    log_length = 8229;
    refused(BARZHILUP_REFUSED_LOG_LENGTH, "the most words, a word too few", 8229);
    log_length = 8230;
    accepted(&p, 4, "the most words", 8230);
    check(wanted_count == 8230, "the most words", wanted_count);
    report("refusal 13");
}

/* Of several causes the lowest is returned: everything is wrong at first, and
 * the causes are taken away one by one. */
static void test_lowest(void)
{
    static const uint8_t displaced[3] = {0x91, 0x80, 0x00};
    barzhilup_receiver bad;
    struct parts p = simple(0);

    fresh(0, 0);
    bad = receiver;
    bad.number = 1;
    make(&p);
    damage();
    made_length = 95;
    carry_length = 4095;
    log_length = 0;
    refused_for(bad, 1, "lowest", 1);
    refused(2, "lowest", 2);
    carry_length = 4096;
    refused(3, "lowest", 3);
    made_length = 96;
    refused(4, "lowest", 4);

    make(&p);
    made[8] = 4 | 2 << 6; /* mode 4, sequence 2 */
    made[11] = 2;         /* Pfirst */
    made[13] = 12;        /* La */
    parity();
    refused(5, "lowest", 5);
    made[8] = 10 | 2 << 6;
    parity();
    refused(6, "lowest", 6);
    made[8] = 2 << 6;
    parity();
    refused(7, "lowest", 7);
    made[8] = 0;
    parity();
    refused(8, "lowest", 8);
    made[11] = 0;
    made[12] = 0x80; /* expansion bytes */
    parity();
    refused(9, "lowest", 9);
    set_la(13);
    refused(10, "lowest", 10);

    p = simple(1);
    p.lengths[0] = 1;
    p.expansion = displaced;
    p.expansion_length = 3;
    make(&p);
    put_locator(16, 0, 19);
    made[18] |= 0x80; /* the expansion runs past La */
    parity();
    refused(10, "lowest", 110);
    made[18] = 0;
    parity();
    check(refused(11, "lowest", 11) == 0, "its k", 0);
    put_locator(16, 0, 20);
    parity();
    refused(12, "lowest", 12);
    made[18] = 95;
    parity();
    refused(13, "lowest", 13);
    log_length = 2;
    accepted(&p, 0, "lowest: none is left", 0);
    report("the lowest number");
}

/* ---- PDUs of all kinds --------------------------------------------------- */

/* Pieces of any length, as many as fit. */
static void random_pieces(struct parts *p, unsigned bits)
{
    unsigned n;
    size_t room = bits == 16 ? 20000 : 3800; /* locators of 12 bits are below 4,096 */
    p->nop = 0;
    for (n = random_below(random_below(3) == 0 ? BARZHILUP_PIECES_MAX + 1 : 5); n > 0; n--) {
        size_t length = 1 + random_below(random_below(4) == 0 ? 4200 : 60);
        p->lengths[p->nop++] = length;
        if (end_of(p) > room)
            p->lengths[p->nop - 1] = 1;
        p->wrong[p->nop - 1] = random_below(10) == 0;
    }
}

static void test_random(void)
{
    unsigned long n;
    unsigned i = 0;

    for (n = 0; n < 20000; n++) {
        const struct line *l = &lines[i];
        struct parts p;
        size_t words;
        if (n % 200 == 0) {
            i = (unsigned)(n / 200 % 10);
            l = &lines[i];
            crc_start = (uint8_t)(n < 10000 ? BARZHILUP_CRC_START : random_below(256));
            fresh(l->mode, l->stream);
        }
        memset(&p, 0, sizeof p);
        p.mode = l->mode;
        p.stream = l->stream;
        p.sequence = (uint8_t)(random_below(12) == 0 ? random_below(l->sequences)
                                                     : (memory.sequence + 1) % l->sequences);
        p.start = (uint8_t)(random_below(12) == 0 ? random_below(64) : (memory.number + 1) % 64);
        p.bytes = some + random_below(200);
        p.psd = some + random_below(200);
        p.psd_length = random_below(2) == 0 ? 0 : random_below(90);
        random_pieces(&p, l->bits);
        if (p.nop > 0) {
            p.pfirst = random_below(8) == 0 ? random_below(2) == 0 : memory.held > 0;
            p.plast = random_below(2) == 0;
        }
        p.length = end_of(&p);
        p.length = p.length < 96 ? 96 : p.length;
        p.length += random_below(2) == 0 ? 0 : random_below(100);
        make(&p);
        carry_length = CARRY + random_below(MORE + 1);
        log_length = LOG + random_below(MORE + 1);
        if (random_below(20) == 0)
            mark_lost(n);
        if (random_below(10) == 0) {
            damage();
            refused(BARZHILUP_REFUSED_UNCORRECTABLE, "any PDU, damaged", n);
            make(&p);
        }
        if (random_below(4) == 0) {
            /* A log with no word to spare, and one with a word too few. */
            want_all(&p);
            words = wanted_count;
            put_state(receiver.known, receiver.sequence, receiver.held, receiver.number);
            if (words > 0) {
                log_length = words - 1;
                refused(BARZHILUP_REFUSED_LOG_LENGTH, "any PDU, a word too few", n);
            }
            log_length = words;
        }
        accepted(&p, random_below(5), "any PDU", n);
    }
    report("PDUs of all kinds");
}

/* ---- Whole lists of packets ---------------------------------------------- */

#define PACKETS 150 /* so that numbers wrap at 64 */
#define WORDS (PACKETS * 1367)

static uint8_t list[PACKETS * 4096]; /* the packets, joined */
static uint16_t sizes[PACKETS];
static size_t starts[PACKETS + 1]; /* where each packet starts in the list */
static int gone[PACKETS];          /* whether a byte of it was in a lost PDU */
static uint32_t got[WORDS];        /* the packets' words in all logs, joined */
static size_t got_count;

static const barzhilup_settings none; /* all 0 */

/* The kind 0 words of a log, each with its data words; the packets are counted. */
static void collect(const uint32_t *words, size_t count)
{
    int in_packet = 0;
    size_t i;
    for (i = 0; i < count; i++) {
        uint32_t kind = words[i] >> 30;
        if (kind == BARZHILUP_LOG_PACKET)
            count_delivered(words[i] >> 16 & 63);
        in_packet = kind == BARZHILUP_LOG_PACKET || (kind == BARZHILUP_LOG_DATA && in_packet);
        if (in_packet && got_count < WORDS)
            got[got_count++] = words[i];
    }
}

/* Calls that are refused, in the midst of a run. */
static void refused_calls(size_t length, unsigned long which)
{
    barzhilup_receiver bad = receiver;
    made_length = length;
    carry_length = random_below(4096);
    refused(BARZHILUP_REFUSED_CARRY_LENGTH, "run, carry", which);
    carry_length = CARRY;
    made_length = random_below(96);
    refused(BARZHILUP_REFUSED_PDU_LENGTH, "run, PDU length", which);
    bad.held = (uint16_t)(4097 + random_below(1000));
    refused_for(bad, BARZHILUP_REFUSED_STATE, "run, state", which);
    made_length = length;
}

/* Receives the written PDU in `made`. What is sent of the list ends at `end`;
 * `packet` is the first unfinished one then. */
static void receive_written(size_t packet, size_t end, unsigned long which)
{
    size_t held = packet < PACKETS && !gone[packet] ? end - starts[packet] : 0;
    barzhilup_received a;

    lend_made(random_below(5));
    a = receive_lent(receiver);
    check(a.refusal == 0 && a.words <= LOG, "run, accepted", which);
    if (a.refusal != 0 || a.words > LOG)
        return;
    check(a.receiver.held == held && a.receiver.number == (held > 0 ? packet % 64 : 0), "run, held",
          which);
    memcpy(&should, &was, sizeof was);
    memcpy(should.carry + GUARD, list + starts[packet], held);
    memcpy(should.pdu + GUARD, made, made_length);
    memcpy(should.log + GUARD, is.log + GUARD, a.words * sizeof is.log[0]);
    check(memcmp(is.carry, should.carry, sizeof is.carry) == 0, "run, carry afterwards", which);
    check(memcmp(is.pdu, should.pdu, sizeof is.pdu) == 0, "run, PDU left corrected", which);
    check(memcmp(is.log, should.log, sizeof is.log) == 0, "run, log afterwards", which);
    collect(is.log + GUARD, a.words);
    check(a.receiver.delivered == memory.delivered && a.receiver.missing == memory.missing
              && a.receiver.last == memory.last,
          "run, counts", which);
    receiver = a.receiver;
}

static void make_list(void)
{
    size_t i;
    starts[0] = 0;
    for (i = 0; i < PACKETS; i++) {
        sizes[i] = (uint16_t)(1 + random_below(random_below(8) == 0 ? 4096 : 120));
        starts[i + 1] = starts[i] + sizes[i];
        gone[i] = 0;
    }
    random_bytes(list, starts[PACKETS]);
    got_count = 0;
}

/* The logs' packets are those with every byte in a received PDU, in order. */
static void check_list(unsigned long which)
{
    size_t at = 0, i;
    for (i = 0; i < PACKETS; i++) {
        if (gone[i])
            continue;
        wanted_count = 0;
        want_packet((unsigned)(i % 64), list + starts[i], sizes[i]);
        check(at + wanted_count <= got_count
                  && memcmp(got + at, wanted, wanted_count * sizeof wanted[0]) == 0,
              "run, packet", which);
        at += wanted_count;
    }
    check(at == got_count, "run, no other packet", which);
}

/* Where fewer than 64 packets are missing between one delivered and the next,
 * delivered and missing are together those from the first delivered to the last. */
static void check_sum(unsigned long which)
{
    size_t i, first = PACKETS, last = 0;
    int near = 1;
    for (i = 0; i < PACKETS; i++) {
        if (gone[i])
            continue;
        if (first == PACKETS)
            first = i;
        else if (i - last > 64)
            near = 0;
        last = i;
    }
    check(!near || receiver.delivered + receiver.missing == (first < PACKETS ? last + 1 - first : 0),
          "run, delivered and missing", which);
    check((receiver.delivered == 0) == (first == PACKETS), "run, delivered", which);
}

/* Writes a list of packets in one mode. Of a hundred PDUs so many are marked
 * lost; the others are received, altered. */
static void run(const struct line *l, unsigned lost, unsigned long which)
{
    barzhilup_writer writer = barzhilup_open_writer_with(l->mode, l->stream, crc_start).writer;
    size_t first = 0, from = 0, i;

    make_list();
    fresh(l->mode, l->stream);
    while (first < PACKETS) {
        size_t length = 96 + random_below(random_below(2) == 0 ? 100 : 4001), end;
        size_t offered = 1 + random_below((uint32_t)(PACKETS - first));
        size_t psd = random_below((uint32_t)(l->psd < 60 ? l->psd : 60) + 1);
        barzhilup_written w =
            barzhilup_write(writer, none, some, psd, sizes + first, offered, list + starts[first],
                            starts[first + offered] - starts[first], made, length);
        check(w.refusal == 0, "run, written", which);
        if (w.refusal != 0)
            return;
        made_length = length;
        writer = w.writer;
        end = starts[first + w.ended] + writer.sent;
        if (random_below(8) == 0)
            refused_calls(length, which);
        if (random_below(100) < lost) {
            for (i = first; i < PACKETS && starts[i] < end; i++)
                if (starts[i + 1] > from)
                    gone[i] = 1;
            mark_lost(which);
            collect(is.log + GUARD, 1);
        } else {
            receive_written(first + w.ended, end, which);
        }
        first += w.ended;
        from = end;
    }
    check_list(which);
    check_sum(which);
}

int main(void)
{
    unsigned long n;

    random_bytes(some, sizeof some);
    test_opening();
    test_words();
    test_note_1();
    test_note_2();
    test_note_3();
    test_note_4();
    test_note_5();
    test_note_6();
    test_joining();
    test_state();
    test_lengths_and_header();
    test_counts();
    test_pieces_and_la();
    test_expansion();
    test_locators();
    test_displacement();
    test_log();
    test_lowest();
    test_random();
    for (n = 0; n < 120; n++) {
        crc_start = (uint8_t)(n < 60 ? BARZHILUP_CRC_START : random_below(256));
        run(&lines[n % 10], n / 10 % 3 * 10, n);
    }
    report("whole lists of packets");
    printf("  receiver: %lu checks, %lu failed\n", checks, failed);
    return failed == 0 ? 0 : 1;
}
