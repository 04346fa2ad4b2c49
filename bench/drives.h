/*
 * What the PDU benchmark works on: rows of PDUs in mode 0, core (locators of 16
 * bits), written from random packets by the library's writer.
 */
#ifndef BENCH_DRIVES_H
#define BENCH_DRIVES_H

#include "barzhilup.h"

#define PDUS 16 /* in a drive */

/* What a writing call is offered. */
struct offer {
    barzhilup_writer writer;
    const uint16_t *lengths;
    size_t count;
    const uint8_t *bytes;
    size_t bytes_length;
};

struct drive {
    size_t pdu_length, psd_length;
    uint8_t psd[128];
    uint16_t *lengths; /* of all packets */
    uint8_t *bytes;    /* of all packets, joined */
    size_t packets, total;
    size_t most; /* packets that a call is offered */
    struct offer offers[PDUS];
    uint8_t *pdus;               /* as they were written, joined */
    size_t pieces;               /* in all PDUs */
    uint8_t headers[PDUS][BARZHILUP_HEADER_BYTES]; /* as they arrive */
};

/* The next of a fixed row of random numbers. */
uint32_t random_below(uint32_t n);

/* A drive of packets of `least` to `most` bytes that run on from PDU to PDU; each
 * call is offered as many as fill its PDU. So many header bytes are wrong in each
 * PDU as it arrives. */
void make_drive(struct drive *drive, size_t pdu_length, size_t psd_length, uint16_t least,
                uint16_t most, unsigned wrong);

/* A drive of PDUs without PSD that are each filled by so many whole packets. */
void make_even_drive(struct drive *drive, size_t pdu_length, size_t pieces);

/* A drive of PDUs without PSD that each have so many whole packets of 1 to `most`
 * bytes, and are as long as these are at most. */
void make_short_drive(struct drive *drive, size_t pieces, uint16_t most);

#endif
