#include "peers.h"

void fec_reverse(const uint8_t from[96], uint8_t to[96])
{
    size_t i;
    for (i = 0; i < 96; i++)
        to[95 - i] = from[i];
}

#ifdef WITH_LIBFEC

#include <fec.h>

static void *code;

/* Bytes over x^8 + x^4 + x^3 + x^2 + 1; roots a^1 to a^8; 255 - 96 leading
 * bytes left out. */
int fec_open(void)
{
    code = init_rs_char(8, 0x11d, 1, 1, 8, 159);
    return code != NULL;
}

/* libfec asks for a payload it may write to, and only reads it. */
void fec_parity(const uint8_t word[96], uint8_t parity[8])
{
    encode_rs_char(code, (uint8_t *)word, parity);
}

int fec_correct(uint8_t word[96])
{
    return decode_rs_char(code, word, NULL, 0);
}

int fec_correct_erased(uint8_t word[96], int erased[8], int count)
{
    return decode_rs_char(code, word, erased, count);
}

#else

int fec_open(void)
{
    return 0;
}

void fec_parity(const uint8_t word[96], uint8_t parity[8])
{
    (void)word;
    (void)parity;
}

int fec_correct(uint8_t word[96])
{
    (void)word;
    return -1;
}

int fec_correct_erased(uint8_t word[96], int erased[8], int count)
{
    (void)word;
    (void)erased;
    (void)count;
    return -1;
}

#endif

static uint8_t crc_table[256];

void table_crc8_open(void)
{
    unsigned i;
    for (i = 0; i < 256; i++) {
        uint8_t byte = (uint8_t)i;
        crc_table[i] = bit_crc8(0, &byte, 1);
    }
}

uint8_t table_crc8(uint8_t start, const uint8_t *bytes, size_t length)
{
    uint8_t r = start;
    size_t i;
    for (i = 0; i < length; i++)
        r = crc_table[r ^ bytes[i]];
    return r;
}

uint8_t bit_crc8(uint8_t start, const uint8_t *bytes, size_t length)
{
    unsigned r = start;
    size_t i;
    int bit;
    for (i = 0; i < length; i++) {
        r ^= bytes[i];
        for (bit = 0; bit < 8; bit++)
            r = r & 0x80 ? (r << 1 ^ 0x31) & 0xff : r << 1;
    }
    return (uint8_t)r;
}
