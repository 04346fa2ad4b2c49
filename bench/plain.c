#include "plain.h"

#include "peers.h"

#include <string.h>

#define HEADER BARZHILUP_HEADER_BYTES
#define PARITY BARZHILUP_PARITY_BYTES
#define LOCATORS 14    /* the place of the first locator */
#define PIECES BARZHILUP_PIECES_MAX
#define LAST_LA 255    /* the largest La */
#define EXPANSION 16   /* the most expansion bytes */
#define LAST_SENT 4095 /* the most bytes sent of an unfinished packet */

/* ---- Modes --------------------------------------------------------------- */

struct mode {
    unsigned bits; /* of a locator */
    unsigned sequences;
    size_t limit; /* of PSD plus expansion, for the writer */
    int psd;
};

/* The table's line for a mode and stream, or NULL. */
static const struct mode *mode_of(unsigned mode, unsigned stream)
{
    static const struct mode core_0 = {16, 2, 128, 1}, core = {12, 8, 21, 1},
                             core_10 = {12, 2, 128, 1}, enhanced = {16, 2, 16, 0},
                             enhanced_10 = {12, 8, 16, 0};
    if (stream > 1)
        return NULL;
    switch (mode) {
    case 0:
        return stream == 0 ? &core_0 : NULL;
    case 1:
    case 2:
    case 3:
        return stream == 0 ? &core : &enhanced;
    case 10:
        return stream == 0 ? &core_10 : &enhanced_10;
    case 13:
        return stream == 0 ? &core : NULL;
    default:
        return NULL;
    }
}

static size_t locator_size(const struct mode *m, size_t pieces)
{
    return (pieces * m->bits + 7) / 8;
}

/* ---- Writer: what is turned down ----------------------------------------- */

static unsigned program_of(const barzhilup_settings *s)
{
    return s->programmed ? s->program : 0;
}

/* Refusal 10. */
static int breaks_rules(const barzhilup_settings *s, size_t size)
{
    int class_1 = s->classed && s->class_code == 1, access_1 = s->typed && s->access == 1;
    if (s->classed && (!class_1 || program_of(s) == 0 || !access_1))
        return 1;
    if (s->serviced && (s->services > 1 || (s->services == 1 && !class_1)))
        return 1;
    return (access_1 && !class_1) || (s->displaced && size > 16384);
}

/* Refusal 14. */
static int wrong_values(const barzhilup_settings *s, unsigned stream)
{
    if (s->blend > 2 || (s->blend != 0 && program_of(s) != 0))
        return 1;
    if (s->gain > 31 || (stream == 0 && s->gain >= 7 && s->gain <= 23))
        return 1;
    if (s->common_delay > 63 || s->latency > 7)
        return 1;
    return (s->classed && s->class_code > 15) || (s->programmed && s->program > 7)
           || (s->typed && s->access > 1)
           || (s->serviced && (s->services > 7 || s->marker > 0x1fffff));
}

/* Refusal 15. */
static int wrong_packets(unsigned sent, const uint16_t *lengths, size_t count, size_t bytes)
{
    size_t k;
    if (sent > 0 && (count == 0 || lengths[0] <= sent))
        return 1;
    for (k = 0; k < count; k++) {
        if (lengths[k] == 0 || lengths[k] > BARZHILUP_PACKET_MAX || lengths[k] > bytes)
            return 1;
        bytes -= lengths[k];
    }
    return bytes != 0;
}

/* ---- Writer: expansion, placing, contents -------------------------------- */

/* The expansion bytes; how many. */
static size_t expansion_bytes(const barzhilup_settings *s, size_t size, uint8_t *out)
{
    size_t n = 0, i;
    if (!s->classed && !s->programmed && !s->displaced && !s->typed && !s->serviced)
        return 0;
    if (s->classed)
        out[n++] = s->class_code;
    out[n++] = (uint8_t)(0x10 | program_of(s) << 1 | s->displaced);
    if (s->displaced) {
        out[n++] = (uint8_t)((size - 1) >> 7 & 0x7f);
        out[n++] = (uint8_t)((size - 1) & 0x7f);
    }
    if (s->typed) {
        out[n++] = (uint8_t)(0x20 | s->access << 3 | s->type_code >> 7);
        out[n++] = s->type_code & 0x7f;
    }
    if (s->serviced) {
        out[n++] = (uint8_t)(0x48 | s->services);
        out[n++] = (uint8_t)(s->marker >> 14 & 0x7f);
        out[n++] = (uint8_t)(s->marker >> 7 & 0x7f);
        out[n++] = (uint8_t)(s->marker & 0x7f);
    }
    for (i = 0; i + 1 < n; i++)
        out[i] |= 0x80;
    return n;
}

/* What a PDU takes of the packets offered. */
struct placed {
    size_t pieces, ended;
    size_t part; /* of the packet after those that ended */
    size_t lengths[PIECES];
};

/* The largest count of pieces for which La is at most 255. */
static size_t most_pieces(const struct mode *m, size_t extra)
{
    size_t k = PIECES;
    while (LOCATORS + locator_size(m, k) + extra - 1 > LAST_LA)
        k--;
    return k;
}

static void place(const struct mode *m, size_t extra, size_t size, size_t sent,
                  const uint16_t *lengths, size_t count, struct placed *p)
{
    size_t k, used = LOCATORS + extra, most = most_pieces(m, extra);
    p->part = 0;
    for (k = 0; k < count && k < most; k++) {
        size_t n = lengths[k] - (k == 0 ? sent : 0), before = used + locator_size(m, k + 1);
        if (before + n + 1 > size) {
            if (before + 2 <= size)
                p->part = size - before - 1;
            break;
        }
        p->lengths[k] = n;
        used += n + 1;
    }
    p->ended = p->pieces = k;
    if (p->part > 0)
        p->lengths[p->pieces++] = p->part;
}

static void put_control(uint8_t *pdu, const barzhilup_writer *w, const barzhilup_settings *s,
                        const struct placed *p, int expanded, size_t la)
{
    unsigned first = w->sent > 0, start = (w->number + first) % 64;
    pdu[8] = (uint8_t)(w->mode | w->stream << 4 | (w->sequence & 3) << 6);
    pdu[9] = (uint8_t)(w->sequence >> 2 | s->blend << 1 | s->gain << 3);
    pdu[10] = (uint8_t)(s->common_delay | (s->latency & 3) << 6);
    pdu[11] = (uint8_t)(s->latency >> 2 | first << 1 | (p->part > 0) << 2 | (start & 31) << 3);
    pdu[12] = (uint8_t)(start >> 5 | p->pieces << 1 | (unsigned)expanded << 7);
    pdu[13] = (uint8_t)la;
}

/* The locators must be clear. */
static void put_locator(const struct mode *m, uint8_t *pdu, size_t k, size_t locator)
{
    uint8_t *at = pdu + LOCATORS + k * m->bits / 8;
    if (m->bits == 16 || k % 2 == 0) {
        at[0] = (uint8_t)(locator & 0xff);
        at[1] = (uint8_t)(locator >> 8);
    } else {
        at[0] |= (uint8_t)((locator & 0x0f) << 4);
        at[1] = (uint8_t)(locator >> 4);
    }
}

static void put_parity(uint8_t *pdu)
{
    uint8_t word[HEADER], parity[PARITY];
    size_t i;
    fec_reverse(pdu, word);
    fec_parity(word, parity);
    for (i = 0; i < PARITY; i++)
        pdu[i] = parity[PARITY - 1 - i];
}

/* The pieces with CRC bytes and locators, and zeros after them. */
static void put_pieces(const struct mode *m, uint8_t crc_start, uint8_t *pdu, size_t size,
                       size_t at, const struct placed *p, const uint8_t *bytes)
{
    size_t k;
    for (k = 0; k < p->pieces; k++) {
        size_t n = p->lengths[k];
        memcpy(pdu + at, bytes, n);
        pdu[at + n] = table_crc8(crc_start, bytes, n);
        put_locator(m, pdu, k, at + n);
        at += n + 1;
        bytes += n;
    }
    memset(pdu + at, 0, size - at);
}

/* ---- Writer -------------------------------------------------------------- */

static barzhilup_written write_refused(barzhilup_writer writer, uint32_t number)
{
    barzhilup_written answer = {0, 0, {0, 0, 0, 0, 0, 0}};
    answer.refusal = number;
    answer.writer = writer;
    return answer;
}

static barzhilup_written written(barzhilup_writer writer, const struct mode *m,
                                 const struct placed *p)
{
    barzhilup_written answer = {0, 0, {0, 0, 0, 0, 0, 0}};
    answer.ended = (uint32_t)p->ended;
    answer.writer = writer;
    answer.writer.sequence = (uint8_t)((writer.sequence + 1u) % m->sequences);
    answer.writer.number = (uint8_t)((writer.number + p->ended) % 64);
    answer.writer.sent = (uint16_t)((p->ended == 0 ? writer.sent : 0) + p->part);
    return answer;
}

/* Refusals 1, 3, 10 and 14. */
static uint32_t wrong_call(const barzhilup_writer *w, const struct mode *m,
                           const barzhilup_settings *s, size_t size)
{
    if (m == NULL || w->sequence >= m->sequences || w->number > 63 || w->sent > LAST_SENT)
        return BARZHILUP_REFUSED_STATE;
    if (size < BARZHILUP_PDU_MIN || size > BARZHILUP_PDU_MAX
        || (m->bits == 12 && size > BARZHILUP_PDU_MAX_12_BITS))
        return BARZHILUP_REFUSED_PDU_LENGTH;
    if (breaks_rules(s, size))
        return BARZHILUP_REFUSED_EXPANSION;
    return wrong_values(s, w->stream) ? BARZHILUP_REFUSED_VALUE : BARZHILUP_ACCEPTED;
}

barzhilup_written plain_write(barzhilup_writer writer, barzhilup_settings settings,
                              const uint8_t *psd, size_t psd_length,
                              const uint16_t *lengths, size_t count,
                              const uint8_t *bytes, size_t bytes_length,
                              uint8_t *pdu, size_t pdu_length)
{
    const struct mode *m = mode_of(writer.mode, writer.stream);
    uint32_t refusal = wrong_call(&writer, m, &settings, pdu_length);
    uint8_t expansion[EXPANSION];
    size_t expanded, first;
    struct placed p;
    if (refusal != BARZHILUP_ACCEPTED)
        return write_refused(writer, refusal);
    if (wrong_packets(writer.sent, lengths, count, bytes_length))
        return write_refused(writer, BARZHILUP_REFUSED_PACKETS);
    expanded = expansion_bytes(&settings, pdu_length, expansion);
    if (psd_length > m->limit || psd_length + expanded > m->limit || (psd_length > 0 && !m->psd))
        return write_refused(writer, BARZHILUP_REFUSED_PSD);
    first = LOCATORS + expanded + psd_length;
    if (first + (count > 0 ? locator_size(m, 1) + 2 : 0) > pdu_length)
        return write_refused(writer, BARZHILUP_REFUSED_ROOM);
    place(m, expanded + psd_length, pdu_length, writer.sent, lengths, count, &p);
    first += locator_size(m, p.pieces);
    memset(pdu, 0, first);
    put_control(pdu, &writer, &settings, &p, expanded > 0, first - 1);
    memcpy(pdu + first - psd_length - expanded, expansion, expanded);
    memcpy(pdu + first - psd_length, psd, psd_length);
    put_pieces(m, writer.crc_start, pdu, pdu_length, first, &p, bytes + writer.sent);
    put_parity(pdu);
    return written(writer, m, &p);
}

/* ---- Receiver: reading a corrected PDU ----------------------------------- */

struct reading {
    const struct mode *m;
    unsigned sequence, start;
    int pfirst, plast;
    size_t pieces, psd, la;
    int displaced; /* whether a displacement was sent, and which */
    size_t displacement;
    size_t marks[PIECES + 1]; /* La and each locator */
    uint8_t taken[PIECES];    /* from which copy a piece is taken, or its note */
    uint32_t wrong;           /* k of the first wrong locator */
    unsigned program, services;
};

static size_t locator_at(const struct mode *m, const uint8_t *pdu, size_t k)
{
    const uint8_t *at = pdu + LOCATORS + k * m->bits / 8;
    if (m->bits == 16)
        return at[0] | (size_t)at[1] << 8;
    if (k % 2 == 0)
        return at[0] | (size_t)(at[1] & 0x0f) << 8;
    return at[0] >> 4 | (size_t)at[1] << 4;
}

/* The bytes of the field of an ID, or 0 where interpretation stops. */
static size_t field_size(uint8_t first)
{
    switch (first >> 4 & 7) {
    case 0:
        return 1;
    case 1:
        return first & 1 ? 3 : 1;
    case 2:
        return 2;
    case 4:
        return first & 8 ? 4 : 0;
    default:
        return 0;
    }
}

/* Reads the expansion bytes from `at` on: 0, or refusal 10. */
static uint32_t read_expansion(struct reading *r, const uint8_t *pdu, size_t at)
{
    size_t end = at, size;
    int last = -1;
    while (end <= r->la && end - at < EXPANSION && pdu[end] & 0x80)
        end++;
    if (end > r->la || end - at == EXPANSION)
        return BARZHILUP_REFUSED_EXPANSION;
    r->psd = ++end;
    while (at < end) {
        int id = pdu[at] >> 4 & 7;
        if (id <= last || (id == 0 && (pdu[at] & 0x0f) == 0))
            return BARZHILUP_REFUSED_EXPANSION;
        last = id;
        size = field_size(pdu[at]);
        if (size == 0)
            return BARZHILUP_ACCEPTED;
        if (at + size > end)
            return BARZHILUP_REFUSED_EXPANSION;
        if (id == 1 && size == 3) {
            r->displaced = 1;
            r->displacement = (size_t)(pdu[at + 1] & 0x7f) << 7 | (pdu[at + 2] & 0x7f);
        }
        if (id == 1)
            r->program = pdu[at] >> 1 & 7;
        if (id == 4)
            r->services = pdu[at] & 7;
        at += size;
    }
    return BARZHILUP_ACCEPTED;
}

/* Reads the locators: 0, or refusal 11. */
static uint32_t read_locators(struct reading *r, const uint8_t *pdu, size_t length)
{
    size_t k;
    r->marks[0] = r->la;
    for (k = 0; k < r->pieces; k++) {
        size_t locator = locator_at(r->m, pdu, k);
        if (locator < r->marks[k] + 2 || locator >= length) {
            r->wrong = (uint32_t)k;
            return BARZHILUP_REFUSED_LOCATOR;
        }
        r->marks[k + 1] = locator;
    }
    return BARZHILUP_ACCEPTED;
}

/* Reads what the header says: 0, or refusals 7 to 9. */
static uint32_t read_control(struct reading *r, const uint8_t *pdu, size_t length)
{
    r->sequence = pdu[8] >> 6 | (pdu[9] & 1u) << 2;
    r->pfirst = pdu[11] >> 1 & 1;
    r->plast = pdu[11] >> 2 & 1;
    r->start = pdu[11] >> 3 | (pdu[12] & 1u) << 5;
    r->pieces = pdu[12] >> 1 & 63;
    r->la = pdu[13];
    if (r->sequence >= r->m->sequences)
        return BARZHILUP_REFUSED_SEQUENCE;
    if (r->pieces == 0 && (r->pfirst || r->plast))
        return BARZHILUP_REFUSED_PIECES;
    r->psd = LOCATORS + locator_size(r->m, r->pieces);
    return r->la + 1 < r->psd || r->la >= length ? BARZHILUP_REFUSED_LA : BARZHILUP_ACCEPTED;
}

/* Reads a corrected PDU: 0, or refusals 5 to 12. */
static uint32_t read_pdu(struct reading *r, const barzhilup_receiver *receiver,
                         const uint8_t *pdu, size_t length)
{
    uint32_t refusal;
    r->wrong = 0;
    r->displaced = 0;
    r->program = 0;
    r->services = 0;
    r->m = mode_of(pdu[8] & 15, pdu[8] >> 4 & 3);
    if (r->m == NULL)
        return BARZHILUP_REFUSED_MODE;
    if ((pdu[8] & 15) != receiver->mode || (pdu[8] >> 4 & 3) != receiver->stream)
        return BARZHILUP_REFUSED_OTHER_MODE;
    if ((refusal = read_control(r, pdu, length)) != BARZHILUP_ACCEPTED)
        return refusal;
    if (pdu[12] & 0x80 && (refusal = read_expansion(r, pdu, r->psd)) != BARZHILUP_ACCEPTED)
        return refusal;
    if ((refusal = read_locators(r, pdu, length)) != BARZHILUP_ACCEPTED)
        return refusal;
    if (r->displaced && (r->displacement < r->marks[r->pieces] || r->displacement >= length))
        return BARZHILUP_REFUSED_DISPLACEMENT;
    return BARZHILUP_ACCEPTED;
}

/* Whether piece k's CRC is right. */
static int is_right(const struct reading *r, size_t k, uint8_t crc_start, const uint8_t *pdu)
{
    size_t start = r->marks[k] + 1, end = r->marks[k + 1];
    return table_crc8(crc_start, pdu + start, end - start) == pdu[end];
}

/* From which copy a piece is taken; those after these are notes. */
enum { FROM_FIRST, FROM_SECOND };

static void check_pieces(struct reading *r, uint8_t crc_start, const uint8_t *pdu)
{
    size_t k;
    for (k = 0; k < r->pieces; k++)
        r->taken[k] = is_right(r, k, crc_start, pdu) ? FROM_FIRST : BARZHILUP_NOTE_CRC;
}

/* ---- Receiver: log words ------------------------------------------------- */

static size_t data_words(size_t bytes)
{
    return (bytes + 2) / 3;
}

static uint32_t *put_note(uint32_t *log, unsigned cause, size_t piece)
{
    *log = 0xc0000000u | cause << 16 | (uint32_t)piece;
    return log + 1;
}

/* The data words of bytes that stand together; the last has what is left. */
static uint32_t *put_data(uint32_t *log, const uint8_t *bytes, size_t n)
{
    for (; n >= 3; n -= 3, bytes += 3)
        *log++ = 0x43000000u | (uint32_t)bytes[0] << 16 | (uint32_t)bytes[1] << 8 | bytes[2];
    if (n == 2)
        *log++ = 0x42000000u | (uint32_t)bytes[0] << 16 | (uint32_t)bytes[1] << 8;
    if (n == 1)
        *log++ = 0x41000000u | (uint32_t)bytes[0] << 16;
    return log;
}

/* A packet of two parts; the first may be empty. */
static uint32_t *put_packet(uint32_t *log, unsigned number, const uint8_t *first, size_t n,
                            const uint8_t *second, size_t m)
{
    size_t over = n % 3, borrowed = 3 - over;
    uint8_t seam[3];
    *log++ = (uint32_t)number << 16 | (uint32_t)(n + m);
    log = put_data(log, first, n - over);
    if (over == 0)
        return put_data(log, second, m);
    if (borrowed > m)
        borrowed = m;
    memcpy(seam, first + n - over, over);
    memcpy(seam + over, second, borrowed);
    log = put_data(log, seam, over + borrowed);
    return put_data(log, second + borrowed, m - borrowed);
}

/* ---- Receiver: steps 1 to 4 ---------------------------------------------- */

/* Notes 1 and 4, or 0. */
static unsigned first_note(const barzhilup_receiver *receiver, const struct reading *r)
{
    if (receiver->known && r->sequence != (receiver->sequence + 1u) % r->m->sequences)
        return BARZHILUP_NOTE_SEQUENCE;
    if (receiver->held > 0 && !(r->pfirst && receiver->number == (r->start + 63) % 64))
        return BARZHILUP_NOTE_NOT_CONTINUED;
    return 0;
}

/* The note of piece k, or 0, with so many bytes held. */
static unsigned piece_note(const struct reading *r, size_t k, size_t held)
{
    size_t n = r->marks[k + 1] - r->marks[k] - 1;
    if (r->taken[k] > FROM_SECOND)
        return r->taken[k];
    if (k == 0 && r->pfirst && held == 0)
        return BARZHILUP_NOTE_NOTHING_HELD;
    return held + n > BARZHILUP_PACKET_MAX ? BARZHILUP_NOTE_TOO_LONG : 0;
}

/* Takes the applied services that are kept with this PDU, and says whether it is
 * withheld (document 02, Ask 10). */
static int is_withheld(const struct reading *r, unsigned note, barzhilup_receiver *next)
{
    int keeps = next->stream == 0 && r->m->sequences == 8;
    if (note == BARZHILUP_NOTE_SEQUENCE) {
        next->serviced = false;
        next->services = 0;
    }
    if (keeps && r->sequence == 0) {
        next->serviced = true;
        next->services = (uint8_t)r->services;
    }
    if ((next->entitled >> r->program & 1) != 0)
        return 0;
    return keeps ? !next->serviced || next->services == 1 : r->services == 1;
}

/* The words that steps 1 to 4 will write, with so many pieces looked at. */
static size_t count_words(const struct reading *r, unsigned note, size_t held, int withheld,
                          size_t pieces)
{
    size_t k, psd = r->la + 1 - r->psd, words = note != 0;
    words += withheld ? 1 : psd > 0 ? 1 + data_words(psd) : 0;
    for (k = 0; k < pieces; k++) {
        size_t n = r->marks[k + 1] - r->marks[k] - 1;
        if (piece_note(r, k, held) != 0)
            words++;
        else if (k + 1 < r->pieces || !r->plast)
            words += 1 + data_words(held + n);
        held = 0;
    }
    return words;
}

/* Counts the packets that step 4 delivers, and those missing before them (document
 * 02, Ask 14); answers 0 where a count would pass its limit. */
static int count_packets(const struct reading *r, size_t held, size_t pieces,
                         barzhilup_receiver *next)
{
    uint64_t delivered = next->delivered, missing = next->missing;
    size_t k;
    for (k = 0; k < pieces; k++) {
        unsigned number = (r->start + (unsigned)k + (r->pfirst ? 63 : 0)) % 64;
        if (piece_note(r, k, held) == 0 && (k + 1 < r->pieces || !r->plast)) {
            missing += delivered > 0 ? (number + 127 - next->last) % 64 : 0;
            delivered++;
            next->last = (uint8_t)number;
        }
        held = 0;
    }
    next->delivered = (uint32_t)delivered;
    next->missing = (uint32_t)missing;
    return delivered <= UINT32_MAX && missing <= UINT32_MAX;
}

/* Step 4; the next receiver's held and number are set. */
static uint32_t *take_pieces(const struct reading *r, const uint8_t *pdu, const uint8_t *second,
                             size_t pieces, uint8_t *carry, barzhilup_receiver *next, uint32_t *log)
{
    size_t k, held = next->held;
    next->held = 0;
    next->number = 0;
    for (k = 0; k < pieces; k++) {
        const uint8_t *piece = (r->taken[k] == FROM_SECOND ? second : pdu) + r->marks[k] + 1;
        size_t n = r->marks[k + 1] - r->marks[k] - 1;
        unsigned number = (r->start + (unsigned)k + (r->pfirst ? 63 : 0)) % 64;
        unsigned note = piece_note(r, k, held);
        if (note != 0)
            log = put_note(log, note, k);
        else if (k + 1 < r->pieces || !r->plast)
            log = put_packet(log, number, carry, held, piece, n);
        else {
            memcpy(carry + held, piece, n);
            next->held = (uint16_t)(held + n);
            next->number = (uint8_t)number;
        }
        held = 0;
    }
    return log;
}

/* Steps 1 to 4 on a PDU that was read, or refusal 13 or 27. Pieces may stand in a
 * second copy of it. */
static uint32_t take_pdu(const struct reading *r, const uint8_t *pdu, const uint8_t *second,
                         uint8_t *carry, uint32_t *log, size_t log_length,
                         barzhilup_received *answer)
{
    barzhilup_receiver next = answer->receiver;
    unsigned note = first_note(&next, r);
    size_t psd = r->la + 1 - r->psd, held = note == 0 ? next.held : 0;
    int withheld = is_withheld(r, note, &next);
    size_t pieces = withheld ? held > 0 : r->pieces;
    uint32_t *at = log;
    if (log_length < count_words(r, note, held, withheld, pieces))
        return BARZHILUP_REFUSED_LOG_LENGTH;
    if (!count_packets(r, held, pieces, &next))
        return BARZHILUP_REFUSED_COUNT_LIMIT;
    if (note != 0)
        at = put_note(at, note, 0);
    if (withheld) {
        at = put_note(at, BARZHILUP_NOTE_WITHHELD, 0);
    } else if (psd > 0) {
        *at++ = 0x80000000u | (uint32_t)psd;
        at = put_data(at, pdu + r->psd, psd);
    }
    next.held = (uint16_t)held;
    at = take_pieces(r, pdu, second, pieces, carry, &next, at);
    next.known = true;
    next.sequence = (uint8_t)r->sequence;
    answer->receiver = next;
    answer->words = (uint32_t)(at - log);
    return BARZHILUP_ACCEPTED;
}

/* ---- Receiver ------------------------------------------------------------ */

/* Refusals 1 to 3. */
static uint32_t wrong_reception(const barzhilup_receiver *r, size_t carry_length, size_t length)
{
    const struct mode *m = mode_of(r->mode, r->stream);
    if (m == NULL || r->sequence >= m->sequences || (!r->known && r->sequence != 0)
        || r->held > BARZHILUP_PACKET_MAX || r->number > 63 || (r->held == 0 && r->number != 0)
        || r->services > 7 || (!r->serviced && r->services != 0)
        || (r->serviced && (r->stream != 0 || m->sequences != 8)) || r->last > 63
        || (r->delivered == 0 && (r->missing != 0 || r->last != 0)))
        return BARZHILUP_REFUSED_STATE;
    if (carry_length < BARZHILUP_CARRY_BYTES)
        return BARZHILUP_REFUSED_CARRY_LENGTH;
    return length < BARZHILUP_PDU_MIN || length > BARZHILUP_PDU_MAX ? BARZHILUP_REFUSED_PDU_LENGTH
                                                                    : BARZHILUP_ACCEPTED;
}

/* Corrects the header and keeps it as it was; how many bytes were wrong, or a
 * negative number. */
static int correct(uint8_t *pdu, uint8_t *before)
{
    uint8_t word[HEADER];
    int wrong;
    memcpy(before, pdu, HEADER);
    fec_reverse(pdu, word);
    wrong = fec_correct(word);
    if (wrong > 0)
        fec_reverse(word, pdu);
    return wrong;
}

barzhilup_received plain_receive(barzhilup_receiver receiver,
                                 uint8_t *carry, size_t carry_length,
                                 uint8_t *pdu, size_t pdu_length,
                                 uint32_t *log, size_t log_length)
{
    barzhilup_received answer = {0, 0, 0, {0, 0, 0, 0, false, 0, 0, 0, false, 0, 0, 0, 0}};
    uint8_t before[HEADER];
    struct reading r;
    answer.receiver = receiver;
    answer.refusal = wrong_reception(&receiver, carry_length, pdu_length);
    if (answer.refusal != BARZHILUP_ACCEPTED)
        return answer;
    if (correct(pdu, before) < 0) {
        answer.refusal = BARZHILUP_REFUSED_UNCORRECTABLE;
        return answer;
    }
    answer.refusal = read_pdu(&r, &receiver, pdu, pdu_length);
    if (answer.refusal == BARZHILUP_ACCEPTED) {
        check_pieces(&r, receiver.crc_start, pdu);
        answer.refusal = take_pdu(&r, pdu, pdu, carry, log, log_length, &answer);
    }
    if (answer.refusal != BARZHILUP_ACCEPTED) {
        answer.wrong_locator = answer.refusal == BARZHILUP_REFUSED_LOCATOR ? r.wrong : 0;
        memcpy(pdu, before, HEADER);
    }
    return answer;
}

/* ---- Pairs (document 02, Ask 5) ------------------------------------------ */

/* A copy, with its header as it came. */
struct copy {
    uint8_t *pdu;
    size_t length;
    int wrong; /* bytes of the header; negative where it can't be corrected */
    uint8_t before[HEADER];
    struct reading r;
    uint32_t refusal; /* 5 to 12, or 0 */
};

static void read_copy(struct copy *c, const barzhilup_receiver *receiver)
{
    c->refusal = BARZHILUP_ACCEPTED;
    c->wrong = c->length < BARZHILUP_PDU_MIN || c->length > BARZHILUP_PDU_MAX
                   ? -1
                   : correct(c->pdu, c->before);
    if (c->wrong >= 0)
        c->refusal = read_pdu(&c->r, receiver, c->pdu, c->length);
}

/* Each piece of two copies that agree up to La. */
static void check_pair(struct copy *first, const struct copy *second, uint8_t crc_start)
{
    struct reading *r = &first->r;
    size_t k;
    for (k = 0; k < r->pieces; k++) {
        size_t start = r->marks[k] + 1, n = r->marks[k + 1] - start;
        int one = is_right(r, k, crc_start, first->pdu);
        int other = is_right(r, k, crc_start, second->pdu);
        if (one && other && memcmp(first->pdu + start, second->pdu + start, n) != 0)
            r->taken[k] = BARZHILUP_NOTE_COPIES_DIFFER;
        else
            r->taken[k] = one ? FROM_FIRST : other ? FROM_SECOND : BARZHILUP_NOTE_CRC;
    }
}

/* Refusals 4 to 12 and 20; with 11 the smallest k. */
static uint32_t judge_pair(const struct copy *first, const struct copy *second, uint32_t *k)
{
    const struct copy *low = first;
    if (first->wrong < 0 && second->wrong < 0)
        return BARZHILUP_REFUSED_UNCORRECTABLE;
    if (first->refusal == BARZHILUP_ACCEPTED
        || (second->refusal != BARZHILUP_ACCEPTED && second->refusal < first->refusal)
        || (second->refusal == BARZHILUP_REFUSED_LOCATOR && second->refusal == first->refusal
            && second->r.wrong < first->r.wrong))
        low = second;
    if (low->refusal != BARZHILUP_ACCEPTED) {
        *k = low->refusal == BARZHILUP_REFUSED_LOCATOR ? low->r.wrong : 0;
        return low->refusal;
    }
    if (first->wrong >= 0 && second->wrong >= 0
        && (first->length != second->length
            || memcmp(first->pdu + 8, second->pdu + 8, first->r.la - 7) != 0))
        return BARZHILUP_REFUSED_PAIR;
    return BARZHILUP_ACCEPTED;
}

barzhilup_received plain_receive_pair(barzhilup_receiver receiver,
                                      uint8_t *carry, size_t carry_length,
                                      uint8_t *first, size_t first_length,
                                      uint8_t *second, size_t second_length,
                                      uint32_t *log, size_t log_length)
{
    barzhilup_received answer = {0, 0, 0, {0, 0, 0, 0, false, 0, 0, 0, false, 0, 0, 0, 0}};
    struct copy one, other, *by = &one;
    answer.receiver = receiver;
    answer.refusal = wrong_reception(&receiver, carry_length, BARZHILUP_PDU_MIN);
    if (answer.refusal != BARZHILUP_ACCEPTED)
        return answer;
    one.pdu = first;
    one.length = first_length;
    other.pdu = second;
    other.length = second_length;
    read_copy(&one, &receiver);
    read_copy(&other, &receiver);
    answer.refusal = judge_pair(&one, &other, &answer.wrong_locator);
    if (answer.refusal == BARZHILUP_ACCEPTED) {
        if (one.wrong >= 0 && other.wrong >= 0) {
            check_pair(&one, &other, receiver.crc_start);
        } else {
            by = one.wrong >= 0 ? &one : &other;
            check_pieces(&by->r, receiver.crc_start, by->pdu);
        }
        answer.refusal = take_pdu(&by->r, by->pdu, second, carry, log, log_length, &answer);
    }
    if (answer.refusal != BARZHILUP_ACCEPTED) {
        if (one.wrong >= 0)
            memcpy(first, one.before, HEADER);
        if (other.wrong >= 0)
            memcpy(second, other.before, HEADER);
    }
    return answer;
}

/* How many bytes of a header are wrong; negative where it can't be corrected. */
static int wrong_bytes(const uint8_t *pdu, size_t length)
{
    uint8_t word[HEADER];
    if (length < BARZHILUP_PDU_MIN || length > BARZHILUP_PDU_MAX)
        return -1;
    fec_reverse(pdu, word);
    return fec_correct(word);
}

uint32_t plain_choose(const uint8_t *first, size_t first_length,
                      const uint8_t *second, size_t second_length)
{
    int one = wrong_bytes(first, first_length), other = wrong_bytes(second, second_length);
    if (one < 0 && other < 0)
        return 0;
    return one < 0 || (other >= 0 && other < one) ? 2 : 1;
}
