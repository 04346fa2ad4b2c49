#include "agree.h"

#include <stdio.h>
#include <stdlib.h>
#include <string.h>

#define HEADER BARZHILUP_HEADER_BYTES
#define CARRY BARZHILUP_CARRY_BYTES
#define LOG BARZHILUP_LOG_WORDS
#define SHORT 600 /* the longest PDU of the random calls */
#define OFFERED 80
#define PSD 128 /* the most bytes of it */

static void disagree(const char *name, const char *what)
{
    fprintf(stderr, "bench: the library and %s disagree: %s\n", name, what);
    exit(1);
}

/* ---- Writing ------------------------------------------------------------- */

/* Everything that a writing call is lent, but for the PDU. */
struct lent {
    barzhilup_writer writer;
    barzhilup_settings settings;
    const uint8_t *psd;
    size_t psd_length;
    const uint16_t *lengths;
    size_t count;
    const uint8_t *bytes;
    size_t bytes_length;
};

static barzhilup_written call_write(write_call *write, const struct lent *l, uint8_t *pdu,
                                    size_t length)
{
    return write(l->writer, l->settings, l->psd, l->psd_length, l->lengths, l->count, l->bytes,
                 l->bytes_length, pdu, length);
}

static int same_writer(const barzhilup_writer *x, const barzhilup_writer *y)
{
    return x->mode == y->mode && x->stream == y->stream && x->crc_start == y->crc_start
           && x->sequence == y->sequence && x->number == y->number && x->sent == y->sent;
}

/* Writes a PDU with both; the library's answer. */
static barzhilup_written same_write(const struct implementation *peer, const struct lent *l,
                                    uint8_t *pdu, size_t length)
{
    static uint8_t again[BARZHILUP_PDU_MAX + 1];
    barzhilup_written ours, theirs;
    memcpy(again, pdu, length);
    ours = call_write(barzhilup_write, l, pdu, length);
    theirs = call_write(peer->write, l, again, length);
    if (ours.refusal != theirs.refusal || ours.ended != theirs.ended
        || !same_writer(&ours.writer, &theirs.writer))
        disagree(peer->name, "answer to writing");
    if (memcmp(pdu, again, length) != 0)
        disagree(peer->name, "PDU written");
    return ours;
}

/* ---- Receiving ----------------------------------------------------------- */

/* What a receiver and its caller keep; one for the library, one for the peer. */
struct reception {
    barzhilup_receiver receiver;
    uint8_t carry[CARRY];
    uint8_t pdu[BARZHILUP_PDU_MAX + 1];
    uint32_t log[LOG];
};

static struct reception ours, theirs;

static int same_receiver(const barzhilup_receiver *x, const barzhilup_receiver *y)
{
    return x->mode == y->mode && x->stream == y->stream && x->crc_start == y->crc_start
           && x->entitled == y->entitled && x->known == y->known && x->sequence == y->sequence
           && x->held == y->held && x->number == y->number && x->serviced == y->serviced
           && x->services == y->services && x->delivered == y->delivered
           && x->missing == y->missing && x->last == y->last;
}

static barzhilup_received call_receive(receive_call *receive, struct reception *r, size_t length,
                                       size_t words)
{
    return receive(r->receiver, r->carry, CARRY, r->pdu, length, r->log, words);
}

/* Receives a PDU with both, each with its own buffers; the library's answer. */
static barzhilup_received same_receive(const struct implementation *peer, const uint8_t *pdu,
                                       size_t length, size_t words)
{
    barzhilup_received one, other;
    memcpy(ours.pdu, pdu, length);
    memcpy(theirs.pdu, pdu, length);
    one = call_receive(barzhilup_receive, &ours, length, words);
    other = call_receive(peer->receive, &theirs, length, words);
    if (one.refusal != other.refusal || one.wrong_locator != other.wrong_locator
        || one.words != other.words || !same_receiver(&one.receiver, &other.receiver))
        disagree(peer->name, "answer to receiving");
    if (memcmp(ours.pdu, theirs.pdu, length) != 0)
        disagree(peer->name, "PDU received");
    if (memcmp(ours.log, theirs.log, sizeof ours.log) != 0)
        disagree(peer->name, "log");
    if (memcmp(ours.carry, theirs.carry, sizeof ours.carry) != 0)
        disagree(peer->name, "carry");
    ours.receiver = theirs.receiver = one.receiver;
    return one;
}

/* ---- A drive ------------------------------------------------------------- */

static void agree_on_writing(const struct implementation *peer, const struct drive *d, size_t i)
{
    static uint8_t pdu[BARZHILUP_PDU_MAX];
    const struct offer *o = &d->offers[i];
    struct lent l;
    memset(&l, 0, sizeof l);
    memset(pdu, 0xa5, sizeof pdu);
    l.writer = o->writer;
    l.psd = d->psd;
    l.psd_length = d->psd_length;
    l.lengths = o->lengths;
    l.count = o->count;
    l.bytes = o->bytes;
    l.bytes_length = o->bytes_length;
    if (same_write(peer, &l, pdu, d->pdu_length).refusal != BARZHILUP_ACCEPTED)
        disagree(peer->name, "whether a PDU can be written");
    if (memcmp(pdu, d->pdus + i * d->pdu_length, d->pdu_length) != 0)
        disagree(peer->name, "PDU of the drive");
}

static void agree_on_receiving(const struct implementation *peer, const struct drive *d, size_t i)
{
    static uint8_t pdu[BARZHILUP_PDU_MAX];
    const uint8_t *sent = d->pdus + i * d->pdu_length;
    memcpy(pdu, sent, d->pdu_length);
    memcpy(pdu, d->headers[i], HEADER);
    if (same_receive(peer, pdu, d->pdu_length, LOG).refusal != BARZHILUP_ACCEPTED)
        disagree(peer->name, "whether a PDU can be received");
    if (memcmp(ours.pdu, sent, d->pdu_length) != 0)
        disagree(peer->name, "corrected PDU");
}

void agree_on_drive(const struct implementation *peer, const struct drive *drive)
{
    size_t i;
    ours.receiver = theirs.receiver = barzhilup_open_receiver(0, 0).receiver;
    for (i = 0; i < PDUS; i++) {
        agree_on_writing(peer, drive, i);
        agree_on_receiving(peer, drive, i);
    }
}

/* ---- Random calls -------------------------------------------------------- */

static int seldom(void)
{
    return random_below(40) == 0;
}

/* A value up to `most`, seldom any byte. */
static uint8_t value(unsigned most)
{
    return (uint8_t)random_below(seldom() ? 256 : most + 1);
}

static barzhilup_settings random_settings(void)
{
    barzhilup_settings s;
    memset(&s, 0, sizeof s);
    s.programmed = random_below(2);
    s.program = value(7);
    s.blend = s.programmed && s.program > 0 && !seldom() ? 0 : value(2);
    s.gain = value(6);
    s.common_delay = value(63);
    s.latency = value(7);
    s.classed = s.programmed && s.program > 0 && random_below(2);
    s.class_code = value(1);
    s.displaced = random_below(4) == 0;
    s.typed = s.classed || random_below(4) == 0;
    s.access = (s.classed && s.class_code == 1) || seldom() ? value(1) : 0;
    s.type_code = value(255);
    s.serviced = random_below(4) == 0;
    s.services = s.classed ? value(1) : 0;
    s.marker = random_below(0x200000 + (seldom() ? 100000 : 0));
    return s;
}

/* A writer of any mode and any start of its CRCs, seldom with fields out of
 * range. */
static barzhilup_writer random_writer(void)
{
    static const uint8_t table[10][2] = {{0, 0}, {1, 0}, {2, 0}, {3, 0}, {1, 1},
                                         {2, 1}, {3, 1}, {10, 0}, {10, 1}, {13, 0}};
    const uint8_t *line = table[random_below(10)];
    uint8_t crc_start = (uint8_t)random_below(random_below(2) == 0 ? 1 : 256);
    barzhilup_writer writer = barzhilup_open_writer_with(line[0], line[1], crc_start).writer;
    writer.sequence = value(1);
    writer.number = value(63);
    if (seldom())
        writer.mode = (uint8_t)random_below(16);
    return writer;
}

/* Lengths of packets, seldom a wrong one; their sum. */
static size_t random_lengths(uint16_t *lengths, size_t count)
{
    uint32_t most = 1 + random_below(random_below(3) == 0 ? 4 : 300);
    size_t i, sum = 0;
    for (i = 0; i < count; i++)
        sum += lengths[i] = (uint16_t)(1 + random_below(most));
    if (count > 0 && random_below(200) == 0)
        sum -= lengths[random_below((uint32_t)count)]--;
    return sum;
}

/* Damages a PDU: up to five header bytes, or a field of the header with parity
 * made anew, or a later byte. */
static void spoil(uint8_t *pdu, size_t length)
{
    uint32_t kind = random_below(8), n;
    if (kind == 0 && length > HEADER)
        pdu[HEADER + random_below((uint32_t)(length - HEADER))] ^= 0x10;
    if (kind == 1) {
        pdu[8 + random_below(88)] ^= (uint8_t)(1u << random_below(8));
        barzhilup_write_parity(pdu, length);
    }
    for (n = kind == 2 ? 5 : random_below(5); n > 0; n--)
        pdu[random_below(HEADER)] = (uint8_t)random_below(256);
}

/* A count of packets: small, or near its limit. */
static uint32_t random_count(void)
{
    return random_below(2) == 0 ? random_below(100) : UINT32_MAX - random_below(100);
}

/* Receives a PDU, after it was written for this writer. */
static unsigned random_reception(const struct implementation *peer, barzhilup_writer writer,
                                 const uint8_t *pdu, size_t length)
{
    barzhilup_received received;
    if (writer.mode != ours.receiver.mode || writer.stream != ours.receiver.stream
        || (writer.crc_start != ours.receiver.crc_start && !seldom()))
        ours.receiver = theirs.receiver =
            barzhilup_open_receiver_with(writer.mode, writer.stream, writer.crc_start).receiver;
    if (seldom())
        ours.receiver.sequence = theirs.receiver.sequence = (uint8_t)random_below(9);
    if (seldom())
        ours.receiver.entitled = theirs.receiver.entitled = (uint8_t)random_below(256);
    if (seldom())
        ours.receiver.delivered = theirs.receiver.delivered = random_count();
    if (seldom())
        ours.receiver.missing = theirs.receiver.missing = random_count();
    if (seldom())
        ours.receiver.last = theirs.receiver.last = value(63);
    received = same_receive(peer, pdu, length, seldom() ? random_below(200) : LOG);
    if (received.refusal == BARZHILUP_REFUSED_STATE
        || received.refusal == BARZHILUP_REFUSED_COUNT_LIMIT)
        ours.receiver = theirs.receiver = barzhilup_open_receiver(0, 0).receiver;
    return received.refusal == BARZHILUP_ACCEPTED;
}

/* A random call's arguments. */
static struct lent random_call(barzhilup_writer writer)
{
    static uint8_t bytes[OFFERED * 300], psd[PSD];
    static uint16_t lengths[OFFERED];
    struct lent l;
    size_t i;
    memset(&l, 0, sizeof l);
    l.writer = writer;
    if (random_below(2) == 0)
        l.settings = random_settings();
    l.psd = psd;
    l.psd_length = random_below(3) == 0 ? random_below(30) : 0;
    if (random_below(16) == 0) /* so much that fewer pieces are placed */
        l.psd_length = 100 + random_below(PSD - 99);
    l.lengths = lengths;
    l.count = random_below(OFFERED);
    l.bytes = bytes;
    l.bytes_length = random_lengths(lengths, l.count);
    for (i = 0; i < sizeof bytes; i += 1 + random_below(100))
        bytes[i] = (uint8_t)random_below(256);
    return l;
}

void agree_on_random_calls(const struct implementation *peer, unsigned calls, unsigned accepted[2])
{
    static uint8_t pdu[SHORT];
    barzhilup_writer writer = random_writer();
    while (calls-- > 0) {
        size_t length = (seldom() ? 90 : 96) + random_below(SHORT - 96);
        struct lent l = random_call(writer);
        barzhilup_written written = same_write(peer, &l, pdu, length);
        writer = written.writer;
        if (written.refusal != BARZHILUP_ACCEPTED) {
            writer = random_writer();
            continue;
        }
        accepted[0]++;
        if (seldom())
            continue; /* lost */
        spoil(pdu, length);
        accepted[1] += random_reception(peer, l.writer, pdu, length);
        if (random_below(8) == 0)
            writer = random_writer();
    }
}
