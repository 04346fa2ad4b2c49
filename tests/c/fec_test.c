/* The header code beside libfec, a Reed-Solomon library of other authors' making (document 01, "Conditions of acceptance"): parity of random
 * headers, and correction with 0 to 6 bytes altered; and correction with 0 to 8 places marked (document 02, Ask 3), whether their bytes are
 * wrong or not, and 0 to 6 other bytes altered. */
#include <fec.h>
#include <stdio.h>
#include <stdlib.h>
#include <string.h>

#include "barzhilup.h"

enum { HEADER = 96, PARITY = 8, MOST = 6, HEADERS = 1000000, MARKS = 8, MARKED = 315000 };

static void *code;
static uint64_t state = 1;
static unsigned long corrected[MOST + 1], refused;
static unsigned long corrected_marked[MARKS + 1], refused_marked[MARKS + 1], by_count[MARKS + 1]; /* by marks; by bytes corrected */

static uint32_t draw(uint32_t below)
{
    state = state * 6364136223846793005u + 1442695040888963407u;
    return (uint32_t)(state >> 33) % below;
}

/* libfec has the highest power first. */
static void reverse(const uint8_t from[HEADER], uint8_t to[HEADER])
{
    size_t i;
    for (i = 0; i < HEADER; i++)
        to[HEADER - 1 - i] = from[i];
}

static void differ(const char *what, unsigned long header)
{
    printf("libfec and the library differ: %s, header %lu\n", what, header);
    exit(1);
}

/* A random header with libfec's parity, which has to be the library's. */
static void make(uint8_t header[HEADER], unsigned long which)
{
    uint8_t word[HEADER], parity[PARITY];
    barzhilup_parity_answer answer;
    size_t i;
    for (i = 0; i < HEADER; i++)
        header[i] = (uint8_t)draw(256);
    reverse(header, word);
    encode_rs_char(code, word, parity);
    answer = barzhilup_parity(header);
    for (i = 0; i < PARITY; i++) {
        header[i] = parity[PARITY - 1 - i];
        if (answer.values[i] != header[i])
            differ("parity", which);
    }
}

static unsigned distance(const uint8_t a[HEADER], const uint8_t b[HEADER])
{
    unsigned i, n = 0;
    for (i = 0; i < HEADER; i++)
        n += a[i] != b[i];
    return n;
}

/* libfec's correction to the header; how many bytes, or -1. It may also place an error in the 159 bytes that are left out: then no code word
 * of 96 bytes is near. */
static int correct(const uint8_t header[HEADER], uint8_t fixed[HEADER])
{
    uint8_t word[HEADER], parity[PARITY];
    int n;
    reverse(header, word);
    n = decode_rs_char(code, word, NULL, 0);
    reverse(word, fixed);
    encode_rs_char(code, word, parity);
    if (n < 0 || memcmp(parity, word + HEADER - PARITY, PARITY) != 0 || distance(header, fixed) != (unsigned)n)
        return -1;
    return n;
}

static void compare(const uint8_t header[HEADER], unsigned long which)
{
    uint8_t pdu[HEADER], fixed[HEADER];
    barzhilup_correction_answer answer;
    int n = correct(header, fixed);
    memcpy(pdu, header, HEADER);
    answer = barzhilup_correct_header(pdu, HEADER);
    if (n < 0) {
        if (answer.refusal != BARZHILUP_REFUSED_UNCORRECTABLE || answer.corrected != 0 || memcmp(pdu, header, HEADER) != 0)
            differ("a header that cannot be corrected", which);
        refused++;
        return;
    }
    if (answer.refusal != 0 || answer.corrected != (uint32_t)n || memcmp(pdu, fixed, HEADER) != 0)
        differ("a header that can be corrected", which);
    corrected[n]++;
}

/* A header with so many marked places. */
struct marked {
    uint8_t header[HEADER], marks[MARKS];
    size_t count;
};

static int is_marked(const struct marked *m, size_t place)
{
    return memchr(m->marks, (int)place, m->count) != NULL;
}

/* Marks so many places and alters as many other bytes; each marked byte is right, wrong or anything. */
static void mark(struct marked *m, size_t count, unsigned others)
{
    uint8_t word[HEADER];
    memcpy(word, m->header, HEADER);
    for (m->count = 0; m->count < count; m->count++) {
        uint8_t place;
        do
            place = (uint8_t)draw(HEADER);
        while (is_marked(m, place));
        m->marks[m->count] = place;
        if (draw(3) > 0)
            m->header[place] = (uint8_t)draw(256);
    }
    while (others > 0) {
        size_t place = draw(HEADER);
        if (is_marked(m, place) || m->header[place] != word[place])
            continue;
        m->header[place] ^= (uint8_t)(1 + draw(255));
        others--;
    }
}

/* libfec's correction to a header with marks; how many bytes, or -1. It counts places in the word of 96 bytes, as libfec-dev of Debian has them.
 * It may also place an error in the bytes that are left out, or go beyond the bound: then no code word of 96 bytes is within it. */
static int correct_marked(const struct marked *m, uint8_t fixed[HEADER])
{
    uint8_t word[HEADER], parity[PARITY];
    int erased[MARKS];
    unsigned unmarked = 0;
    size_t i;
    int n;
    for (i = 0; i < m->count; i++)
        erased[i] = HEADER - 1 - m->marks[i];
    reverse(m->header, word);
    n = decode_rs_char(code, word, erased, (int)m->count);
    reverse(word, fixed);
    encode_rs_char(code, word, parity);
    for (i = 0; i < HEADER; i++)
        unmarked += fixed[i] != m->header[i] && !is_marked(m, i);
    if (n < 0 || memcmp(parity, word + HEADER - PARITY, PARITY) != 0 || 2 * unmarked + m->count > MARKS)
        return -1;
    return (int)distance(m->header, fixed);
}

static void compare_marked(const struct marked *m, unsigned long which)
{
    uint8_t pdu[HEADER], fixed[HEADER];
    barzhilup_correction_answer answer;
    int n = correct_marked(m, fixed);
    memcpy(pdu, m->header, HEADER);
    answer = barzhilup_correct_header_marked(pdu, HEADER, m->marks, m->count);
    if (n < 0) {
        if (answer.refusal != BARZHILUP_REFUSED_UNCORRECTABLE || answer.corrected != 0 || memcmp(pdu, m->header, HEADER) != 0)
            differ("a header with marks that cannot be corrected", which);
        refused_marked[m->count]++;
        return;
    }
    if (answer.refusal != 0 || answer.corrected != (uint32_t)n || memcmp(pdu, fixed, HEADER) != 0)
        differ("a header with marks that can be corrected", which);
    corrected_marked[m->count]++;
    by_count[n]++;
}

/* Every count of marks with every count of other bytes altered, in turn, 5,000 times each. */
static void compare_all_marked(void)
{
    unsigned long which;
    unsigned n;
    for (which = 0; which < MARKED; which++) {
        struct marked m;
        make(m.header, which);
        mark(&m, which % (MARKS + 1), which / (MARKS + 1) % (MOST + 1));
        compare_marked(&m, which);
    }
    printf("libfec: %d headers with marks, 0 to %d other bytes altered; by marks 0 to 8, corrected:", MARKED, MOST);
    for (n = 0; n <= MARKS; n++)
        printf(" %lu", corrected_marked[n]);
    printf("; refused:");
    for (n = 0; n <= MARKS; n++)
        printf(" %lu", refused_marked[n]);
    printf("; by bytes corrected, 0 to 8:");
    for (n = 0; n <= MARKS; n++)
        printf(" %lu", by_count[n]);
    printf("\n");
}

int main(void)
{
    unsigned long which;
    unsigned n;
    /* Bytes over x^8 + x^4 + x^3 + x^2 + 1; roots a^1 to a^8; 255 - 96 leading bytes left out. */
    code = init_rs_char(8, 0x11d, 1, 1, PARITY, 159);
    if (code == NULL)
        differ("libfec does not begin", 0);
    for (which = 0; which < HEADERS; which++) {
        uint8_t header[HEADER];
        make(header, which);
        for (n = draw(MOST + 1); n > 0; n--)
            header[draw(HEADER)] = (uint8_t)draw(256);
        compare(header, which);
    }
    printf("libfec: parity of %d headers; corrected by 0 to 4 bytes:", HEADERS);
    for (n = 0; n <= 4; n++)
        printf(" %lu", corrected[n]);
    printf("; refused: %lu\n", refused);
    compare_all_marked();
    return 0;
}
