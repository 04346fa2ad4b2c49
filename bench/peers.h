/*
 * What the library is measured beside: the Reed-Solomon code of libfec for the
 * header, and two CRC-8s in plain C.
 *
 * libfec takes the coefficient of the highest power first, so a word for it is a
 * header backwards: 88 bytes of payload, then the eight of parity.
 */
#ifndef BENCH_PEERS_H
#define BENCH_PEERS_H

#include <stddef.h>
#include <stdint.h>

/* Makes libfec ready: 1, or 0 where this was built without it. */
int fec_open(void);

/* A header as a word for libfec, or such a word as a header. */
void fec_reverse(const uint8_t from[96], uint8_t to[96]);

/* The parity of a word's first 88 bytes, highest power first. */
void fec_parity(const uint8_t word[96], uint8_t parity[8]);

/* Corrects a word: how many bytes were wrong, or a negative number if it is
 * uncorrectable. */
int fec_correct(uint8_t word[96]);

/* Corrects a word of which some places are erased: as above. `erased` has room
 * for eight places, counted from the word's first byte; those that were wrong
 * stand in it afterwards. */
int fec_correct_erased(uint8_t word[96], int erased[8], int count);

/* Fills the table of table_crc8. */
void table_crc8_open(void);

/* The CRC-8 with a table of 256 bytes, a byte at a time, from a register that
 * starts at `start`. */
uint8_t table_crc8(uint8_t start, const uint8_t *bytes, size_t length);

/* The CRC-8 a bit at a time, from the same. */
uint8_t bit_crc8(uint8_t start, const uint8_t *bytes, size_t length);

#endif
