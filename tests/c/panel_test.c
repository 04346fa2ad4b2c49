/*
 * Tests of the panel's functions against document 01, "After that, for the
 * panel": the list of a PDU's pieces, and the receiver stepped in place.
 *
 * Lists are made of written PDUs of every mode and stream, with CRCs from any
 * starting value (document 02, Ask 2), and compared with what barzhilup_read and
 * barzhilup_crc8_from say and with the packets that were written; some have wrong
 * CRCs, and some are refused. Stepping in place is compared with the same call by
 * value on an equal copy of all that is lent.
 *
 * Every buffer lent to the library lies between guards. After each call all
 * buffers with their guards are compared whole with what they should hold, and
 * so is each field of an entry and of the receiver.
 */
#include "barzhilup.h"

#include <stdio.h>
#include <string.h>

#define CARRY BARZHILUP_CARRY_BYTES
#define LOG BARZHILUP_LOG_WORDS
#define MORE 3   /* how many entries more than needed a list has */
#define MOST 67  /* entries of the longest list that is lent */
#define GUARD 33 /* odd, so that lent bytes are not aligned */

/* ---- Counting ------------------------------------------------------------ */

static unsigned long checks, failed, checks_before;

/* One check; `which` tells the cases of one kind apart. */
static void check(int holds, const char *what, unsigned long which)
{
    checks++;
    if (holds)
        return;
    failed++;
    if (failed <= 20)
        printf("  WRONG: %s, case %lu\n", what, which);
}

/* Says how many checks were made since the last call. */
static void report(const char *what)
{
    printf("  %s: %lu checks\n", what, checks - checks_before);
    checks_before = checks;
}

/* ---- Repeatable random numbers ------------------------------------------- */

static uint32_t state = 362436069u;

static uint32_t random_below(uint32_t n)
{
    state ^= state << 13;
    state ^= state >> 17;
    state ^= state << 5;
    return state % n;
}

static void random_bytes(uint8_t *bytes, size_t length)
{
    size_t i;
    for (i = 0; i < length; i++)
        bytes[i] = (uint8_t)random_below(256);
}

/* ---- The table of modes -------------------------------------------------- */

struct line {
    uint8_t mode, stream;
    unsigned bits, sequences;
    size_t psd; /* the most bytes of PSD and expansion that the writer takes */
};

static const struct line lines[10] = {{0, 0, 16, 2, 128}, {1, 0, 12, 8, 21}, {2, 0, 12, 8, 21},
                                      {3, 0, 12, 8, 21},  {1, 1, 16, 2, 0},  {2, 1, 16, 2, 0},
                                      {3, 1, 16, 2, 0},   {10, 0, 12, 2, 128}, {10, 1, 12, 8, 0},
                                      {13, 0, 12, 8, 21}};

/* The first place after n locators. */
static size_t after_locators(const struct line *l, unsigned n)
{
    return 14 + (n * l->bits + 7) / 8;
}

/* The most pieces that a writer places with so many bytes of PSD and expansion:
 * the largest k up to 63 for which La is at most 255 (document 02, Ask 9). */
static unsigned limit_of(const struct line *l, size_t both)
{
    unsigned k = BARZHILUP_PIECES_MAX;
    while (after_locators(l, k) - 1 + both > 255)
        k--;
    return k;
}

/* ---- PDUs ---------------------------------------------------------------- */

static const barzhilup_settings none; /* all 0 */

static uint8_t made[BARZHILUP_PDU_MAX + 1]; /* a PDU with a right header */
static size_t made_length;
#define OFFERED 70                      /* packets at most */
static uint8_t packets[OFFERED * 4096]; /* the packets of the PDU, joined */
static uint16_t sizes[OFFERED];
static size_t sent_before, sent_now; /* how many of their bytes were sent before, and in it */
static unsigned limit;               /* how many pieces it can have at most */

/* The starting value of CRCs, for writers, receivers and lists. */
static uint8_t crc_start = BARZHILUP_CRC_START;

/* Any starting value from here on; the two that have names more often. */
static void any_start(void)
{
    static const uint8_t named[2] = {BARZHILUP_CRC_START, BARZHILUP_CRC_START_OFF_AIR};
    crc_start = random_below(2) == 0 ? named[random_below(2)] : (uint8_t)random_below(256);
}

static barzhilup_writer opened_writer(const struct line *l)
{
    return barzhilup_open_writer_with(l->mode, l->stream, crc_start).writer;
}

static barzhilup_receiver opened_receiver(const struct line *l)
{
    return barzhilup_open_receiver_with(l->mode, l->stream, crc_start).receiver;
}

/* Writes a PDU with so many packets of at most `longest` bytes, the first of
 * them already begun at times. It is just long enough for all of them and
 * `spare` bytes more, or as long as can be. */
static void write_packets(const struct line *l, unsigned count, uint32_t longest, size_t spare)
{
    barzhilup_writer writer = opened_writer(l);
    barzhilup_settings s = none;
    barzhilup_written w;
    size_t psd = l->psd > 8 ? random_below((uint32_t)l->psd - 8) : 0, sum = 0, most;
    unsigned n;

    for (n = 0; n < count; n++) {
        sizes[n] = (uint16_t)(1 + random_below(longest));
        sum += sizes[n];
    }
    writer.sequence = (uint8_t)random_below(l->sequences);
    writer.number = (uint8_t)random_below(64);
    if (count > 0 && random_below(2) == 0)
        writer.sent = (uint16_t)random_below(sizes[0]);
    sent_before = writer.sent;
    s.programmed = random_below(3) == 0;
    s.typed = random_below(3) == 0;
    s.type_code = (uint8_t)random_below(256);
    s.gain = (uint8_t)random_below(7);
    most = l->bits == 16 ? BARZHILUP_PDU_MAX : BARZHILUP_PDU_MAX_12_BITS;
    made_length = after_locators(l, count) + 5 + psd + sum + count + spare;
    made_length = made_length < 96 ? 96 : made_length > most ? most : made_length;
    s.displaced = made_length <= 16384 && random_below(3) == 0;
    limit = limit_of(l, psd + (s.displaced ? 3 : s.programmed || s.typed) + 2 * s.typed);
    w = barzhilup_write(writer, s, packets + 1, psd, sizes, count, packets, sum, made, made_length);
    check(w.refusal == 0, "written", count);
    for (n = 0, sent_now = w.writer.sent; n < w.ended; n++)
        sent_now += sizes[n];
    sent_now -= sent_before;
}

static void parity(void)
{
    check(barzhilup_write_parity(made, made_length) == 0, "parity written", made_length);
}

static unsigned nop_of_made(void)
{
    return made[12] >> 1 & 63;
}

/* A PDU of 96 bytes with n packets of two bytes, and the displacement if asked
 * for. */
static void simple(const struct line *l, unsigned n, bool displaced)
{
    barzhilup_writer writer = opened_writer(l);
    barzhilup_settings s = none;
    barzhilup_written w;
    unsigned k;

    s.displaced = displaced;
    for (k = 0; k < n; k++)
        sizes[k] = 2;
    made_length = 96;
    w = barzhilup_write(writer, s, packets, 0, sizes, n, packets, 2 * n, made, made_length);
    check(w.refusal == 0 && w.ended == n, "a simple PDU", n);
}

static void put_locator(const struct line *l, unsigned k, size_t value)
{
    uint8_t *at = made + 14 + (l->bits == 16 ? 2 * k : k / 2 * 3);
    if (l->bits == 16) {
        at[0] = (uint8_t)(value & 0xff);
        at[1] = (uint8_t)(value >> 8);
    } else if (k % 2 == 0) {
        at[0] = (uint8_t)(value & 0xff);
        at[1] = (uint8_t)((at[1] & 0xf0) | value >> 8);
    } else {
        at[1] = (uint8_t)((at[1] & 0x0f) | (value & 0x0f) << 4);
        at[2] = (uint8_t)(value >> 4);
    }
    parity();
}

/* Alters this many bytes of a header, each at another place. */
static void alter(uint8_t *header, unsigned count)
{
    uint8_t altered[96] = {0};
    while (count > 0) {
        uint32_t place = random_below(96);
        if (altered[place])
            continue;
        altered[place] = 1;
        header[place] ^= (uint8_t)(1 + random_below(255));
        count--;
    }
}

/* Alters five header bytes so that no code word is near enough. */
static void damage(void)
{
    uint8_t copy[96], clean[96];
    memcpy(clean, made, 96);
    do {
        memcpy(made, clean, 96);
        alter(made, 5);
        memcpy(copy, made, 96);
    } while (barzhilup_correct_header(copy, 96).refusal != BARZHILUP_REFUSED_UNCORRECTABLE);
}

/* ---- Lists --------------------------------------------------------------- */

struct list {
    uint8_t before[GUARD];
    barzhilup_piece entries[MOST];
    uint8_t after[GUARD];
};

static struct list list, list_was;
static uint8_t lent[GUARD + BARZHILUP_PDU_MAX + 1 + GUARD]; /* the PDU that is lent */
static uint8_t lent_was[sizeof lent];

static const barzhilup_reading nothing; /* all 0 */

/* Fills the list, guards too, with bytes of all kinds. A bool stays one. */
static void fill_list(void)
{
    unsigned k;
    random_bytes((uint8_t *)&list, sizeof list);
    for (k = 0; k < MOST; k++)
        list.entries[k].right = random_below(2) == 0;
    memcpy(&list_was, &list, sizeof list);
}

/* The byte of an entry's verdict. */
static uint8_t verdict(const barzhilup_piece *piece)
{
    return *((const uint8_t *)piece + offsetof(barzhilup_piece, right));
}

static int same_piece(const barzhilup_piece *one, const barzhilup_piece *other)
{
    return one->start == other->start && one->length == other->length
           && verdict(one) == verdict(other);
}

/* Entries from `first` to before `end` hold what they held. */
static int entries_kept(size_t first, size_t end)
{
    size_t k;
    for (k = first; k < end; k++)
        if (!same_piece(&list.entries[k], &list_was.entries[k]))
            return 0;
    return 1;
}

/* What stands around a lent list of so many entries is as it was, byte by
 * byte. */
static int guards_kept(size_t count)
{
    return memcmp(list.before, list_was.before, sizeof list.before) == 0
           && memcmp(list.entries + count, list_was.entries + count,
                     (MOST - count) * sizeof list.entries[0])
                  == 0
           && memcmp(list.after, list_was.after, sizeof list.after) == 0;
}

static int same_control(const barzhilup_control_word *a, const barzhilup_control_word *b)
{
    return a->mode == b->mode && a->stream == b->stream && a->sequence == b->sequence
           && a->blend == b->blend && a->gain == b->gain && a->common_delay == b->common_delay
           && a->latency == b->latency && a->pfirst == b->pfirst && a->plast == b->plast
           && a->start == b->start && a->nop == b->nop && a->expansion == b->expansion
           && a->la == b->la;
}

static int same_expansion(const barzhilup_expansion *a, const barzhilup_expansion *b)
{
    return a->class_code == b->class_code && a->program == b->program
           && a->displacement == b->displacement && a->access == b->access
           && a->type_code == b->type_code && a->services == b->services && a->marker == b->marker;
}

static int same_reading(const barzhilup_reading *a, const barzhilup_reading *b)
{
    return a->refusal == b->refusal && a->wrong_locator == b->wrong_locator
           && same_control(&a->control, &b->control) && same_expansion(&a->expansion, &b->expansion)
           && a->psd_start == b->psd_start && a->psd_length == b->psd_length
           && memcmp(a->starts, b->starts, sizeof a->starts) == 0
           && memcmp(a->lengths, b->lengths, sizeof a->lengths) == 0;
}

/* The list and the PDU after a call that was accepted; `r` is what reading the
 * PDU says, and `made` is the PDU corrected. */
static void check_filled(const barzhilup_reading *r, size_t count, const char *what,
                         unsigned long which)
{
    unsigned nop = r->control.nop, k;

    for (k = 0; k < nop; k++) {
        size_t end = (size_t)r->starts[k] + r->lengths[k];
        uint8_t right =
            barzhilup_crc8_from(crc_start, made + r->starts[k], r->lengths[k]) == made[end];
        check(list.entries[k].start == r->starts[k], "start of an entry", k);
        check(list.entries[k].length == r->lengths[k], "length of an entry", k);
        check(verdict(&list.entries[k]) == right, "verdict of an entry", k);
    }
    check(entries_kept(nop, count), what, which);
    memcpy(lent_was + GUARD, made, made_length);
    check(memcmp(lent, lent_was, sizeof lent) == 0, "listed, PDU left corrected", which);
}

/* Lists the pieces of `made`, with so many bytes of its header altered, in a
 * list of so many entries. Reading says what the answer has to be. */
static uint32_t list_made(size_t count, unsigned altered, const char *what, unsigned long which)
{
    static uint8_t copy[BARZHILUP_PDU_MAX + 1];
    barzhilup_reading r, a, refused = nothing;

    memcpy(lent + GUARD, made, made_length);
    alter(lent + GUARD, altered);
    memcpy(lent_was, lent, sizeof lent);
    memcpy(copy, lent + GUARD, made_length);
    fill_list();
    r = barzhilup_read(copy, made_length);
    a = barzhilup_list_pieces(lent + GUARD, made_length, crc_start, list.entries, count);
    check(guards_kept(count), "what stands around the list", which);
    if (r.refusal == 0 && r.control.nop <= count) {
        check(same_reading(&a, &r), what, which);
        check_filled(&r, count, what, which);
    } else {
        refused.refusal = r.refusal != 0 ? r.refusal : BARZHILUP_REFUSED_LIST_LENGTH;
        refused.wrong_locator = r.wrong_locator;
        check(same_reading(&a, &refused), what, which);
        check(entries_kept(0, count), "refused, entries unchanged", refused.refusal);
        check(memcmp(lent, lent_was, sizeof lent) == 0, "refused, PDU unchanged", refused.refusal);
    }
    return a.refusal;
}

/* Lists of many lengths: too short ones are refused with 13. */
static void list_lengths(const char *what, unsigned long which)
{
    unsigned nop = nop_of_made(), altered, n;

    for (altered = 0; altered <= BARZHILUP_CORRECTED_MAX; altered += 2) {
        const size_t counts[6] = {nop, nop + 1, nop + MORE, 64, 0, nop > 0 ? nop - 1 : 0};
        for (n = 0; n < 6; n++)
            check(list_made(counts[n], altered, what, which)
                      == (counts[n] < nop ? BARZHILUP_REFUSED_LIST_LENGTH : 0),
                  what, which);
    }
}

/* The entries of the last list are the packets' bytes that were sent. */
static void check_sent(unsigned long which)
{
    unsigned nop = nop_of_made(), k;
    size_t got = 0, place = (size_t)made[13] + 1;

    for (k = 0; k < nop; k++) {
        const barzhilup_piece *piece = &list.entries[k];
        check(piece->start == place, "each piece behind the last one's CRC", which);
        check(got + piece->length <= sent_now, "no more than was sent", which);
        if (piece->start != place || got + piece->length > sent_now)
            return;
        check(memcmp(made + piece->start, packets + sent_before + got, piece->length) == 0,
              "the packets' bytes", which);
        check(verdict(piece) == 1, "written, and its CRC is right", which);
        got += piece->length;
        place += (size_t)piece->length + 1;
    }
    check(got == sent_now, "all bytes that were sent", which);
}

/* Written PDUs of each mode and stream, with no piece, one, and on to the most
 * and more than that offered. */
static void test_written(void)
{
    unsigned i, n;

    for (i = 0; i < 10; i++) {
        for (n = 0; n <= BARZHILUP_PIECES_MAX + 5; n++) {
            unsigned long which = i * 100 + n;
            any_start();
            write_packets(&lines[i], n, 60, random_below(3) * random_below(40));
            check(nop_of_made() == (n < limit ? n : limit), "as many pieces as packets", which);
            list_lengths("a written PDU", which);
            check(list_made(nop_of_made(), 0, "a written PDU", which) == 0, "a list of NOP", which);
            check_sent(which);
        }
        /* Pieces of any length, up to the longest PDU. */
        for (n = 0; n < 30; n++) {
            unsigned long which = i * 100 + n;
            write_packets(&lines[i], 1 + random_below(12), n < 15 ? 4096 : 400, 0);
            list_lengths("longer pieces", which);
            check(list_made(64, 0, "longer pieces", which) == 0, "a list of 64", which);
            check_sent(which);
        }
    }
    report("lists of written PDUs");
}

/* Lists `made`, in which the pieces' CRCs are right but for one, or all are
 * wrong with `wrong` NOP. */
static void check_wrong(unsigned wrong, const char *what)
{
    unsigned nop = nop_of_made(), k;

    parity();
    check(list_made(nop + random_below(MORE + 1), random_below(5), what, wrong) == 0, what, wrong);
    for (k = 0; k < nop; k++)
        check(verdict(&list.entries[k]) == (k != wrong && wrong < nop), what, k);
}

/* Wrong CRCs are verdicts: of each piece alone, by its CRC byte and by a byte of
 * its own, and of all pieces. */
static void test_wrong(void)
{
    static uint8_t right[sizeof made];
    unsigned i, n, k;

    for (i = 0; i < 10; i++) {
        for (n = 1; n <= BARZHILUP_PIECES_MAX; n += n < 5 ? 1 : random_below(7) + 1) {
            barzhilup_reading r;
            unsigned nop;
            any_start();
            write_packets(&lines[i], n, n < 5 ? 900 : 50, 20);
            memcpy(right, made, made_length);
            r = barzhilup_read(made, made_length);
            nop = r.control.nop;
            check(r.refusal == 0 && nop == (n < limit ? n : limit), "written, with pieces", n);
            for (k = 0; k < nop; k++) {
                uint8_t *piece = made + r.starts[k];
                piece[r.lengths[k]] ^= (uint8_t)(1 + random_below(255));
                check_wrong(k, "one CRC byte wrong");
                memcpy(made, right, made_length);
                piece[random_below(r.lengths[k])] ^= (uint8_t)(1 << random_below(8));
                check_wrong(k, "one piece's byte wrong");
                memcpy(made, right, made_length);
            }
            for (k = 0; k < nop; k++)
                made[r.starts[k] + r.lengths[k]] ^= 0x10;
            check_wrong(nop, "all CRC bytes wrong");
        }
    }
    report("wrong CRCs as verdicts");
}

/* ---- Refusals of a list -------------------------------------------------- */

static unsigned long list_refusals[18]; /* how often each number came */

/* Lists `made`, which is refused with a number whatever the list's length; the
 * header is altered where it can be corrected. */
static void refused(uint32_t number, const char *what, unsigned long which)
{
    static const size_t counts[6] = {0, 1, 2, BARZHILUP_PIECES_MAX, 64, MOST};
    int whole = made_length >= 96 && number != BARZHILUP_REFUSED_UNCORRECTABLE;
    unsigned n;

    for (n = 0; n < 6; n++) {
        unsigned altered = whole ? random_below(5) : 0;
        check(list_made(counts[n], altered, what, which) == number, what, which);
        list_refusals[number]++;
    }
}

static void test_refused_headers(void)
{
    static const size_t short_or_long[4] = {0, 1, 95, 20481};
    unsigned n, i, k, mode, stream;

    for (n = 0; n < 4; n++) {
        simple(&lines[0], 2, false);
        made_length = short_or_long[n];
        refused(3, "PDU length", made_length);
    }
    for (n = 0; n < 50; n++) {
        write_packets(&lines[n % 10], n % 40, 60, 0);
        damage();
        refused(4, "five bytes altered", n);
    }
    for (mode = 0; mode < 16; mode++)
        for (stream = 0; stream < 4; stream++) {
            for (i = 0; i < 10; i++)
                if (lines[i].mode == mode && lines[i].stream == stream)
                    break;
            simple(&lines[0], 3, false);
            made[8] = (uint8_t)(mode | stream << 4);
            parity();
            if (i == 10)
                refused(5, "mode and stream", mode * 4 + stream);
        }
    for (i = 0; i < 10; i++) {
        const struct line *l = &lines[i];
        for (n = l->sequences; n < 8; n++) {
            simple(l, 2, false);
            made[8] = (uint8_t)((made[8] & 0x3f) | (n & 3) << 6);
            made[9] = (uint8_t)((made[9] & 0xfe) | n >> 2);
            parity();
            refused(7, "sequence", i * 8 + n);
        }
        /* A count is never wrong by itself: the locators have no room. */
        for (n = 4; n <= BARZHILUP_PIECES_MAX; n++) {
            simple(l, 3, false);
            made[12] = (uint8_t)((made[12] & 0x81) | n << 1);
            parity();
            refused(9, "La before the last of more locators", n);
        }
        for (n = 0; n < 256; n++) {
            simple(l, 3, false);
            made[12] |= 0x7e;
            made[13] = (uint8_t)n;
            parity();
            refused(9, "63 pieces in 96 bytes, whatever La is", n);
        }
        for (n = 1; n < 4; n++) {
            simple(l, 0, false);
            made[11] |= (uint8_t)(n << 1);
            parity();
            refused(8, "Pfirst or Plast with no piece", n);
        }
        for (k = 0; k < 4; k++) {
            simple(l, k, false);
            made[13] = (uint8_t)(after_locators(l, k) - 2);
            parity();
            refused(9, "La before the last locator byte", k);
            made[13] = 96;
            parity();
            refused(9, "La past the PDU", k);
        }
    }
    report("lists refused with 3 to 9");
}

/* A PDU with no piece, these expansion bytes and no PSD. */
static void refused_expansion(size_t length, const uint8_t *bytes, unsigned long which)
{
    simple(&lines[which % 10], 0, false);
    made[12] |= 0x80;
    made[13] = (uint8_t)(13 + length);
    memcpy(made + 14, bytes, length);
    parity();
    refused(10, "expansion", which);
}

static void test_refused_bodies(void)
{
    static const uint8_t class_0[1] = {0x00}, falling[2] = {0x90, 0x01}, cut[1] = {0x20};
    uint8_t many[17];
    unsigned i, k;

    memset(many, 0x80, sizeof many);
    many[0] = 0xb0;
    many[16] = 0x00;
    for (i = 0; i < 10; i++) {
        const struct line *l = &lines[i];
        refused_expansion(1, class_0, i);
        refused_expansion(2, falling, i);
        refused_expansion(1, cut, i);
        refused_expansion(17, many, i);
        for (k = 1; k < 5; k++) {
            simple(l, k, true);
            made[13] = (uint8_t)(after_locators(l, k) + 1);
            parity();
            refused(10, "expansion past La", k);
        }
        for (k = 0; k < 5; k++) {
            size_t start = after_locators(l, 5) + 3 * k; /* of piece k */
            simple(l, 5, false);
            put_locator(l, k, start);
            refused(11, "a piece of no byte", k);
            put_locator(l, k, 0);
            refused(11, "a locator at 0", k);
            put_locator(l, k, 96);
            refused(11, "a locator past the PDU", k);
            put_locator(l, k, l->bits == 16 ? 65535 : 4095);
            refused(11, "a locator far past", k);
        }
        for (k = 0; k < 5; k++) {
            size_t first = after_locators(l, k), end = first + 2 + 3 * k;
            uint8_t *low; /* of the displacement */
            simple(l, k, true);
            low = made + first + 2;
            *low = (uint8_t)(end - 1);
            parity();
            refused(12, "displacement before the last piece's end", k);
            *low = 96;
            parity();
            refused(12, "displacement past the PDU", k);
            *low = (uint8_t)end;
            parity();
            list_lengths("displacement at the last piece's end", k);
        }
    }
    for (k = 3; k <= 12; k++)
        check(k == 6 ? list_refusals[k] == 0 : list_refusals[k] > 0, "each number came", k);
    report("lists refused with 10 to 12");
}

/* ---- The receiver in place ----------------------------------------------- */

struct loan {
    uint8_t carry[GUARD + CARRY + GUARD];
    uint8_t pdu[GUARD + BARZHILUP_PDU_MAX + 1 + GUARD];
    uint32_t log[GUARD + LOG + GUARD];
};

/* A receiver between guards. */
struct place {
    uint8_t before[GUARD];
    barzhilup_receiver receiver;
    uint8_t after[GUARD];
};

static struct loan by_value, in_place, loan_was;
static struct place place, place_was;
static size_t carry_length, pdu_length, log_length;

static unsigned long refusals[18], notes[7]; /* how often each came */

static int same_receiver(barzhilup_receiver one, barzhilup_receiver other)
{
    return one.mode == other.mode && one.stream == other.stream
           && one.crc_start == other.crc_start && one.entitled == other.entitled
           && one.known == other.known && one.sequence == other.sequence
           && one.held == other.held && one.number == other.number
           && one.serviced == other.serviced && one.services == other.services
           && one.delivered == other.delivered && one.missing == other.missing
           && one.last == other.last;
}

/* All that is lent, filled with bytes of all kinds, and a receiver that was just
 * opened. */
static void fresh(const struct line *l)
{
    random_bytes((uint8_t *)&in_place, sizeof in_place);
    random_bytes((uint8_t *)&place, sizeof place);
    place.receiver = opened_receiver(l);
    carry_length = CARRY;
    log_length = LOG;
}

/* Lends `made` with so many bytes of its header altered. */
static void lend_made(unsigned altered)
{
    pdu_length = made_length;
    memcpy(in_place.pdu + GUARD, made, made_length);
    alter(in_place.pdu + GUARD, altered);
}

/* Before both calls: an equal copy of all that is lent. */
static void copy_loan(void)
{
    memcpy(&by_value, &in_place, sizeof in_place);
    memcpy(&loan_was, &in_place, sizeof in_place);
    memcpy(&place_was, &place, sizeof place);
}

/* After both calls: they answered the same and left the same; refused, nothing
 * has changed. */
static void compare_calls(barzhilup_stepped s, barzhilup_received a, const char *what,
                          unsigned long which)
{
    size_t i;

    check(s.refusal == a.refusal, what, which);
    check(s.wrong_locator == a.wrong_locator && s.words == a.words, "k and words in place", which);
    check(same_receiver(place.receiver, a.receiver), "receiver in place", which);
    check(memcmp(place.before, place_was.before, sizeof place.before) == 0
              && memcmp(place.after, place_was.after, sizeof place.after) == 0,
          "what stands around the receiver", which);
    check(memcmp(in_place.carry, by_value.carry, sizeof in_place.carry) == 0, "carry in place",
          which);
    check(memcmp(in_place.pdu, by_value.pdu, sizeof in_place.pdu) == 0, "PDU in place", which);
    check(memcmp(in_place.log, by_value.log, sizeof in_place.log) == 0, "log in place", which);
    refusals[s.refusal < 18 ? s.refusal : 0]++;
    if (s.refusal != 0) {
        check(same_receiver(place.receiver, place_was.receiver), "refused, receiver unchanged",
              s.refusal);
        check(memcmp(&in_place, &loan_was, sizeof in_place) == 0,
              "refused, all that is lent unchanged", s.refusal);
        return;
    }
    for (i = 0; i < s.words && i < LOG; i++) {
        uint32_t word = in_place.log[GUARD + i], cause = word >> 16 & 0x3fff;
        if (word >> 30 == BARZHILUP_LOG_NOTE)
            notes[cause < 7 ? cause : 0]++;
    }
}

/* Receives the PDU that is lent, by value and in place. */
static barzhilup_stepped receive_both(const char *what, unsigned long which)
{
    barzhilup_received a;
    barzhilup_stepped s;

    copy_loan();
    a = barzhilup_receive(place.receiver, by_value.carry + GUARD, carry_length,
                          by_value.pdu + GUARD, pdu_length, by_value.log + GUARD, log_length);
    s = barzhilup_receive_in_place(&place.receiver, in_place.carry + GUARD, carry_length,
                                   in_place.pdu + GUARD, pdu_length, in_place.log + GUARD,
                                   log_length);
    compare_calls(s, a, what, which);
    return s;
}

/* Marks a PDU lost, by value and in place. */
static barzhilup_stepped mark_lost_both(const char *what, unsigned long which)
{
    barzhilup_received a;
    barzhilup_stepped s;

    copy_loan();
    a = barzhilup_mark_lost(place.receiver, by_value.log + GUARD, log_length);
    s = barzhilup_mark_lost_in_place(&place.receiver, in_place.log + GUARD, log_length);
    compare_calls(s, a, what, which);
    return s;
}

/* A PDU of a mode and stream, with wrong CRCs at times. */
static void write_some(const struct line *l)
{
    barzhilup_reading r;
    unsigned k;

    write_packets(l, random_below(random_below(3) == 0 ? OFFERED : 5),
                  random_below(4) == 0 ? 4096 : 50, random_below(2) * random_below(100));
    if (random_below(4) > 0)
        return;
    r = barzhilup_read(made, made_length);
    for (k = 0; k < r.control.nop; k++)
        if (random_below(4) == 0)
            made[r.starts[k] + r.lengths[k]] ^= (uint8_t)(1 + random_below(255));
    parity();
}

/* A state that is allowed; what it holds often fits the PDU in `made`. */
static void put_state(const struct line *l)
{
    static const uint16_t held[6] = {0, 0, 1, 900, 4095, 4096};
    barzhilup_receiver *r = &place.receiver;
    unsigned sequence = (unsigned)made[8] >> 6 | (made[9] & 1u) << 2;
    unsigned start = (unsigned)made[11] >> 3 | (made[12] & 1u) << 5;

    r->known = random_below(4) > 0;
    r->sequence = 0;
    if (r->known && random_below(4) == 0)
        r->sequence = (uint8_t)random_below(l->sequences);
    else if (r->known)
        r->sequence = (uint8_t)((sequence + l->sequences - 1) % l->sequences);
    r->held = held[random_below(6)];
    r->number = 0;
    if (r->held > 0)
        r->number = (uint8_t)(random_below(4) == 0 ? random_below(64) : (start + 63) % 64);
    r->delivered = random_below(3);
    r->missing = r->delivered > 0 ? random_below(1000) : 0;
    r->last = (uint8_t)(r->delivered > 0 ? random_below(64) : 0);
}

/* A state with a field outside its range. */
static void spoil_state(const struct line *l)
{
    barzhilup_receiver *r = &place.receiver;
    switch (random_below(9)) {
    case 0:
        r->mode = 4;
        break;
    case 6:
        r->last = (uint8_t)(64 + random_below(192));
        break;
    case 7:
        r->delivered = 0;
        r->missing = 1 + random_below(100);
        break;
    case 8:
        r->delivered = 0;
        r->last = (uint8_t)(1 + random_below(63));
        break;
    case 1:
        r->known = true;
        r->sequence = (uint8_t)l->sequences;
        break;
    case 2:
        r->known = false;
        r->sequence = 1;
        break;
    case 3:
        r->held = 4097;
        break;
    case 4:
        r->held = 1;
        r->number = 64;
        break;
    default:
        r->held = 0;
        r->number = 1;
        break;
    }
}

/* Makes the PDU in `made`, or what else the call gets, refused with a number. */
static void spoil(const struct line *l, uint32_t number)
{
    switch (number) {
    case 1:
        spoil_state(l);
        return;
    case 2:
        carry_length = random_below(CARRY);
        return;
    case 3:
        made_length = random_below(2) == 0 ? random_below(96) : BARZHILUP_PDU_MAX + 1;
        return;
    case 4:
        damage();
        return;
    case 5:
        made[8] = (uint8_t)((made[8] & 0xc0) | 4);
        break;
    case 6:
        made[8] = (uint8_t)((made[8] & 0xc0) | (l->mode == 13 ? 2 : 13));
        made[9] &= 0xfe;
        break;
    case 7: /* the sequence is one bit wide */
        made[9] |= 1;
        break;
    case 8: /* Plast with no piece */
        made[11] |= 4;
        made[12] &= 0x81;
        break;
    case 9:
        made[13] = 12;
        break;
    case 10:
        made[12] |= 0x80;
        made[after_locators(l, nop_of_made())] = 0;
        break;
    default: /* 11 */
        put_locator(l, nop_of_made() - 1, 14);
        return;
    }
    parity();
}

/* Single calls in all states that are allowed, and refused ones. */
static void test_single_calls(void)
{
    unsigned long n;

    for (n = 0; n < 4000; n++) {
        const struct line *l = &lines[n % 10];
        uint32_t number = 1 + random_below(11);
        barzhilup_stepped s;

        if (n < 10)
            fresh(l);
        any_start();
        place.receiver = opened_receiver(l);
        write_some(l);
        put_state(l);
        lend_made(random_below(5));
        s = receive_both("any PDU", n);
        check(s.refusal == 0, "any PDU", n);
        if (s.words > 0 && s.words <= LOG) {
            /* The same receiver and PDU with a log too short. */
            uint32_t words = s.words;
            memcpy(&in_place, &loan_was, sizeof in_place);
            memcpy(&place, &place_was, sizeof place);
            log_length = random_below(2) == 0 ? words - 1 : random_below(words);
            s = receive_both("log too short", n);
            check(s.refusal == BARZHILUP_REFUSED_LOG_LENGTH, "log too short", n);
            log_length = words;
            check(receive_both("log of just enough words", n).refusal == 0, "log", n);
            log_length = LOG;
        }
        if (number == 7 && l->sequences == 8)
            number = 8;
        if (number == 11)
            simple(l, 1 + random_below(5), false);
        spoil(l, number);
        lend_made(0);
        s = receive_both("refused", n);
        check(s.refusal == number, "refused with", number);
        carry_length = CARRY;
    }
    report("single calls in place");
}

/* Refusal 12, and marking lost with its refusals. */
static void test_others(void)
{
    unsigned long n;

    for (n = 0; n < 500; n++) {
        const struct line *l = &lines[n % 10];
        unsigned k = (unsigned)(n % 5);

        fresh(l);
        simple(l, k, true);
        made[after_locators(l, k) + 2] = (uint8_t)(n % 2 == 0 ? 14 : 96);
        parity();
        lend_made(random_below(5));
        check(receive_both("displacement", n).refusal == 12, "displacement", n);
        put_state(l);
        spoil_state(l);
        log_length = random_below(2);
        check(mark_lost_both("marking lost: state", n).refusal == 1, "marking lost: state", n);
        any_start();
        place.receiver = opened_receiver(l);
        put_state(l);
        log_length = 0;
        check(mark_lost_both("marking lost: log", n).refusal == 13, "marking lost: log", n);
        log_length = 1 + random_below(2);
        check(mark_lost_both("marked lost", n).refusal == 0, "marked lost", n);
        check(!place.receiver.known && place.receiver.held == 0, "marked lost", n);
        check(place.receiver.delivered == place_was.receiver.delivered
                  && place.receiver.missing == place_was.receiver.missing
                  && place.receiver.last == place_was.receiver.last,
              "marked lost, counts kept", n);
        check(place.receiver.crc_start == crc_start, "marked lost, starting value kept", n);
        check(in_place.log[GUARD] == 0xc0060000, "note 6", n);
    }
    report("marking lost in place, and refusal 12");
}

#define PACKETS 59

/* Writes packets in one mode; the receiver stays in its place from the first PDU
 * to the last. Some PDUs are marked lost, some are missing, and some come after
 * a call that is refused. */
static void run(const struct line *l, unsigned lost, unsigned long which)
{
    barzhilup_writer writer = opened_writer(l);
    size_t first = 0, start = 0, i, received = 0;

    for (i = 0; i < PACKETS; i++)
        sizes[i] = (uint16_t)(1 + random_below(random_below(6) == 0 ? 4096 : 120));
    fresh(l);
    while (first < PACKETS) {
        size_t offered = 1 + random_below((uint32_t)(PACKETS - first)), sum = 0;
        barzhilup_written w;
        for (i = 0; i < offered; i++)
            sum += sizes[first + i];
        made_length = 96 + random_below(random_below(2) == 0 ? 100 : 3000);
        w = barzhilup_write(writer, none, packets, 0, sizes + first, offered, packets + start, sum,
                            made, made_length);
        check(w.refusal == 0, "run, written", which);
        if (w.refusal != 0)
            return;
        lend_made(random_below(5));
        if (random_below(6) == 0) {
            carry_length = 4095;
            check(receive_both("run, carry", which).refusal == 2, "run, carry", which);
            carry_length = CARRY;
        }
        if (random_below(100) < lost) {
            if (random_below(2) == 0)
                check(mark_lost_both("run, marked lost", which).refusal == 0, "run, lost", which);
        } else {
            check(receive_both("run, received", which).refusal == 0, "run, received", which);
            received++;
        }
        for (i = 0; i < w.ended; i++)
            start += sizes[first + i];
        first += w.ended;
        writer = w.writer;
    }
    check(received > 0 || lost > 0, "run, something received", which);
    check(place.receiver.crc_start == crc_start, "run, starting value kept", which);
}

/* Each refusal 1 to 13 and each note came in place. */
static void check_seen(void)
{
    unsigned n;
    for (n = 1; n <= 13; n++)
        check(refusals[n] > 0, "each refusal in place", n);
    for (n = 1; n <= 6; n++)
        check(notes[n] > 0, "each note in place", n);
    printf("  in place, accepted %lu; refused by number from 1 on:", refusals[0]);
    for (n = 1; n <= 13; n++)
        printf(" %lu", refusals[n]);
    printf("; notes:");
    for (n = 1; n <= 6; n++)
        printf(" %lu", notes[n]);
    printf("\n");
}

int main(void)
{
    unsigned long n;

    random_bytes(packets, sizeof packets);
    random_bytes(lent, sizeof lent);
    test_written();
    test_wrong();
    test_refused_headers();
    test_refused_bodies();
    test_single_calls();
    test_others();
    for (n = 0; n < 60; n++) {
        any_start();
        run(&lines[n % 10], (unsigned)(n / 10 % 3) * 15, n);
    }
    report("runs with a receiver in its place");
    check_seen();
    printf("  panel: %lu checks, %lu failed\n", checks, failed);
    return failed == 0 ? 0 : 1;
}
