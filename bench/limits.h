/*
 * What the machine can do at best: copying a PDU, which writing cannot do without,
 * and packing its bytes by threes into log words, which receiving cannot do without.
 */
#ifndef BENCH_LIMITS_H
#define BENCH_LIMITS_H

#include <stddef.h>
#include <stdint.h>

/* Copies bytes, 20,480 at most. */
void copy_bytes(const uint8_t *bytes, size_t length);

/* Packs bytes, 20,480 at most, into log words: 24 bytes a turn as three words of 64 bits. */
void pack_bytes(const uint8_t *bytes, size_t length);

#endif
