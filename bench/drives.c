#include "drives.h"

#include <stdio.h>
#include <stdlib.h>
#include <string.h>

#define HEADER BARZHILUP_HEADER_BYTES

static uint32_t state = 2463534242u;

uint32_t random_below(uint32_t n)
{
    state ^= state << 13;
    state ^= state >> 17;
    state ^= state << 5;
    return state % n;
}

static void *reserve(size_t count, size_t size)
{
    void *room = calloc(count, size);
    if (room == NULL) {
        fprintf(stderr, "bench: out of memory\n");
        exit(1);
    }
    return room;
}

static void random_bytes(uint8_t *bytes, size_t length)
{
    size_t i;
    for (i = 0; i < length; i++)
        bytes[i] = (uint8_t)random_below(256);
}

/* The bytes of the packets, whose lengths are set, and PSD. */
static void fill(struct drive *drive)
{
    size_t i;
    drive->total = 0;
    for (i = 0; i < drive->packets; i++)
        drive->total += drive->lengths[i];
    drive->bytes = reserve(drive->total, 1);
    random_bytes(drive->bytes, drive->total);
    random_bytes(drive->psd, drive->psd_length);
}

/* The offer that begins with a packet: as many as have this many bytes, or the most. */
static struct offer offer_from(const struct drive *drive, size_t packet, size_t byte, size_t enough)
{
    struct offer offer;
    memset(&offer, 0, sizeof offer);
    offer.lengths = drive->lengths + packet;
    offer.bytes = drive->bytes + byte;
    while (offer.bytes_length < enough && offer.count < drive->most
           && packet + offer.count < drive->packets)
        offer.bytes_length += drive->lengths[packet + offer.count++];
    return offer;
}

/* Writes the PDUs one after the other. */
static void write_pdus(struct drive *drive)
{
    static const barzhilup_settings none;
    barzhilup_writer writer = barzhilup_open_writer(0, 0).writer;
    size_t i, packet = 0, byte = 0, more;
    drive->pdus = reserve(PDUS, drive->pdu_length);
    drive->pieces = 0;
    for (i = 0; i < PDUS; i++) {
        struct offer *o = &drive->offers[i];
        uint8_t *pdu = drive->pdus + i * drive->pdu_length;
        barzhilup_written written;
        *o = offer_from(drive, packet, byte, drive->pdu_length + writer.sent);
        o->writer = writer;
        written = barzhilup_write(writer, none, drive->psd, drive->psd_length, o->lengths, o->count,
                                  o->bytes, o->bytes_length, pdu, drive->pdu_length);
        if (written.refusal != BARZHILUP_ACCEPTED) {
            fprintf(stderr, "bench: a PDU is refused with %u\n", (unsigned)written.refusal);
            exit(1);
        }
        for (more = written.ended; more > 0; more--)
            byte += drive->lengths[packet++];
        writer = written.writer;
        drive->pieces += pdu[12] >> 1 & 63;
    }
}

/* The headers as they arrive: with so many bytes wrong, each at another place. */
static void damage(struct drive *drive, unsigned wrong)
{
    size_t i;
    for (i = 0; i < PDUS; i++) {
        uint8_t altered[HEADER] = {0};
        unsigned left = wrong;
        memcpy(drive->headers[i], drive->pdus + i * drive->pdu_length, HEADER);
        while (left > 0) {
            uint32_t place = random_below(HEADER);
            if (altered[place])
                continue;
            altered[place] = 1;
            drive->headers[i][place] ^= (uint8_t)(1 + random_below(255));
            left--;
        }
    }
}

void make_drive(struct drive *drive, size_t pdu_length, size_t psd_length, uint16_t least,
                uint16_t most, unsigned wrong)
{
    size_t i;
    memset(drive, 0, sizeof *drive);
    drive->pdu_length = pdu_length;
    drive->psd_length = psd_length;
    drive->packets = (PDUS + 1) * pdu_length / least + 2;
    drive->most = drive->packets;
    drive->lengths = reserve(drive->packets, sizeof drive->lengths[0]);
    for (i = 0; i < drive->packets; i++)
        drive->lengths[i] = (uint16_t)(least + random_below((uint32_t)(most - least) + 1));
    fill(drive);
    write_pdus(drive);
    damage(drive, wrong);
}

/* Writes the PDUs of a drive of whole packets, so many in each. */
static void write_whole(struct drive *drive, size_t pieces)
{
    fill(drive);
    write_pdus(drive);
    damage(drive, 0);
    if (drive->pieces != PDUS * pieces) {
        fprintf(stderr, "bench: not %u pieces in each PDU\n", (unsigned)pieces);
        exit(1);
    }
}

void make_even_drive(struct drive *drive, size_t pdu_length, size_t pieces)
{
    size_t room = pdu_length - 14 - 3 * pieces, i; /* without locators and CRC bytes */
    memset(drive, 0, sizeof *drive);
    drive->pdu_length = pdu_length;
    drive->packets = PDUS * pieces;
    drive->most = drive->packets;
    drive->lengths = reserve(drive->packets, sizeof drive->lengths[0]);
    for (i = 0; i < drive->packets; i++)
        drive->lengths[i] = (uint16_t)(room / pieces + (i % pieces < room % pieces));
    write_whole(drive, pieces);
}

void make_short_drive(struct drive *drive, size_t pieces, uint16_t most)
{
    size_t i;
    memset(drive, 0, sizeof *drive);
    drive->pdu_length = 14 + pieces * (most + 3u); /* with locators and CRC bytes */
    drive->packets = PDUS * pieces;
    drive->most = pieces;
    drive->lengths = reserve(drive->packets, sizeof drive->lengths[0]);
    for (i = 0; i < drive->packets; i++)
        drive->lengths[i] = (uint16_t)(1 + random_below(most));
    write_whole(drive, pieces);
}
