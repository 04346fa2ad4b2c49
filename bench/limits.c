#include "limits.h"

#include <string.h>

static uint8_t copied[20480];
static uint32_t packed[8192];

/* Eight bytes, the first highest. */
static uint64_t word(const uint8_t *bytes)
{
    uint64_t x;
    memcpy(&x, bytes, sizeof x);
    return __builtin_bswap64(x);
}

/* The data word of the lowest three bytes. */
static uint32_t data(uint64_t x)
{
    return 0x43000000u | (uint32_t)(x & 0xffffff);
}

void copy_bytes(const uint8_t *bytes, size_t length)
{
    memcpy(copied, bytes, length);
    __asm__ volatile("" ::"r"(copied) : "memory");
}

void pack_bytes(const uint8_t *bytes, size_t length)
{
    uint32_t *out = packed;
    size_t i;
    for (i = 0; i + 24 <= length; i += 24) {
        uint64_t a = word(bytes + i), b = word(bytes + i + 8), c = word(bytes + i + 16);
        *out++ = data(a >> 40);
        *out++ = data(a >> 16);
        *out++ = data(a << 8 | b >> 56);
        *out++ = data(b >> 32);
        *out++ = data(b >> 8);
        *out++ = data(b << 16 | c >> 48);
        *out++ = data(c >> 24);
        *out++ = data(c);
    }
    __asm__ volatile("" ::"r"(packed) : "memory");
}
