/*
 * Tests of parity as bytes arrive (document 02, Ask 8): every share, worked out a
 * second time as the byte times a power of X modulo the generator; headers
 * filled in any order; bytes that change once their share was added; and every
 * place that is refused.
 */
#include "barzhilup.h"

#include <stdio.h>
#include <string.h>

#define HEADER BARZHILUP_HEADER_BYTES
#define PARITY BARZHILUP_PARITY_BYTES
#define HEADERS 2000 /* headers filled in a random order */

/* ---- Counting ------------------------------------------------------------ */

static unsigned long checks, failed, checks_before;

/* One check; `which` tells the cases of one kind apart. */
static void check(int holds, const char *what, unsigned long which)
{
    checks++;
    if (holds)
        return;
    failed++;
    if (failed <= 20)
        printf("  WRONG: %s, case %lu\n", what, which);
}

/* Says how many checks were made since the last call. */
static void report(const char *what)
{
    printf("  %s: %lu checks\n", what, checks - checks_before);
    checks_before = checks;
}

/* ---- Repeatable random numbers ------------------------------------------- */

static uint32_t state = 2463534242u;

static uint32_t random_below(uint32_t n)
{
    state ^= state << 13;
    state ^= state >> 17;
    state ^= state << 5;
    return state % n;
}

static void random_bytes(uint8_t *bytes, size_t length)
{
    size_t i;
    for (i = 0; i < length; i++)
        bytes[i] = (uint8_t)random_below(256);
}

/* The places 8 to 95 in a random order. */
static void shuffle(size_t *places)
{
    size_t i, k, kept;
    for (i = 0; i < HEADER - PARITY; i++)
        places[i] = PARITY + i;
    for (i = HEADER - PARITY - 1; i > 0; i--) {
        k = random_below((uint32_t)i + 1);
        kept = places[i];
        places[i] = places[k];
        places[k] = kept;
    }
}

/* ---- The rules again ----------------------------------------------------- */

static uint8_t powers_of_x[HEADER][PARITY]; /* X^i modulo the generator */

/* The product of two bytes, bit by bit. */
static uint8_t times(unsigned x, unsigned y)
{
    unsigned r = 0;
    for (; y != 0; y >>= 1) {
        if (y & 1)
            r ^= x;
        x <<= 1;
        if (x & 0x100)
            x ^= 0x11d;
    }
    return (uint8_t)r;
}

/* a to the power n. */
static uint8_t power(unsigned n)
{
    uint8_t r = 1;
    while (n-- > 0)
        r = times(r, 2);
    return r;
}

static void make_powers_of_x(void)
{
    static const uint8_t exponents[PARITY] = {36, 203, 3, 220, 253, 211, 240, 176};
    uint8_t generator[PARITY];
    unsigned i, k;
    for (k = 0; k < PARITY; k++) {
        generator[k] = power(exponents[k]);
        powers_of_x[k][k] = 1;
    }
    for (i = PARITY; i < HEADER; i++) {
        uint8_t top = powers_of_x[i - 1][PARITY - 1];
        for (k = 0; k < PARITY; k++)
            powers_of_x[i][k] = times(top, generator[k]) ^ (k > 0 ? powers_of_x[i - 1][k - 1] : 0);
    }
}

/* ---- Calls --------------------------------------------------------------- */

static const barzhilup_parity_answer zeros;

static int same(barzhilup_parity_answer one, barzhilup_parity_answer other)
{
    return memcmp(one.values, other.values, PARITY) == 0;
}

/* Adds a share that is not refused. */
static barzhilup_parity_answer add(barzhilup_parity_answer parity, size_t place, uint8_t byte)
{
    barzhilup_share_answer answer = barzhilup_add_parity_share(parity, place, byte);
    check(answer.refusal == BARZHILUP_ACCEPTED, "accepted", (unsigned long)place);
    return answer.parity;
}

/* Adds a share that is refused: 14, and the eight bytes as they came. */
static void refused(size_t place, uint8_t byte)
{
    barzhilup_parity_answer parity;
    barzhilup_share_answer answer;
    random_bytes(parity.values, PARITY);
    answer = barzhilup_add_parity_share(parity, place, byte);
    check(answer.refusal == BARZHILUP_REFUSED_PLACE, "refused with 14", (unsigned long)place);
    check(same(answer.parity, parity), "refused, parity unchanged", (unsigned long)place);
}

/* ---- Tests --------------------------------------------------------------- */

/* Every byte at every place: added to eight zero bytes, and to any eight. */
static void test_every_share(void)
{
    size_t place;
    unsigned byte, k;
    for (place = PARITY; place < HEADER; place++)
        for (byte = 0; byte < 256; byte++) {
            barzhilup_parity_answer share, before, after;
            random_bytes(before.values, PARITY);
            for (k = 0; k < PARITY; k++) {
                share.values[k] = times(byte, powers_of_x[place][k]);
                after.values[k] = before.values[k] ^ share.values[k];
            }
            check(same(add(zeros, place, (uint8_t)byte), share), "share", (unsigned long)place);
            check(same(add(before, place, (uint8_t)byte), after), "sum", (unsigned long)place);
        }
    report("every byte at every place, 88 times 256");
}

/* The parity of a header whose shares are added in this order. */
static barzhilup_parity_answer fill(const uint8_t *header, const size_t *places)
{
    barzhilup_parity_answer parity = zeros;
    size_t i;
    for (i = 0; i < HEADER - PARITY; i++)
        parity = add(parity, places[i], header[places[i]]);
    return parity;
}

/* The parity that division gives, whatever the order; and again after a byte has
 * changed. */
static void test_orders(void)
{
    size_t places[HEADER - PARITY], place;
    uint8_t header[HEADER];
    unsigned long n;
    for (n = 0; n < HEADERS; n++) {
        barzhilup_parity_answer parity;
        uint8_t byte = (uint8_t)random_below(256);
        random_bytes(header, HEADER);
        shuffle(places);
        parity = fill(header, places);
        check(same(parity, barzhilup_parity(header)), "any order", n);
        place = PARITY + random_below(HEADER - PARITY);
        parity = add(parity, place, header[place] ^ byte);
        header[place] = byte;
        check(same(parity, barzhilup_parity(header)), "a byte changed", n);
    }
    report("headers filled in a random order, and a byte changed");
}

/* Every place below 8, those from 96 on, and such as would be right if some of
 * their bits were dropped. */
static void test_refused(void)
{
    size_t place, bit;
    for (place = 0; place < 70000; place++)
        if (place < PARITY || place >= HEADER)
            refused(place, (uint8_t)place);
    for (bit = 7; bit < 8 * sizeof(size_t); bit++)
        for (place = 0; place < HEADER; place++)
            refused(((size_t)1 << bit) + place, 1);
    for (place = 0; place < 300; place++)
        refused((size_t)-1 - place, 255);
    report("places refused");
}

int main(void)
{
    make_powers_of_x();
    test_every_share();
    test_orders();
    test_refused();
    printf("  shares: %lu checks, %lu failed\n", checks, failed);
    return failed == 0 ? 0 : 1;
}
