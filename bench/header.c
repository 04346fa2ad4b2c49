/*
 * How fast the header code, with marked places and without, and the CRC-8 are,
 * beside libfec and a table CRC; the eight sums beside the same with a power of
 * a worked out for each byte; and the parity by the shares of its bytes beside
 * the same by division.
 *
 * Before anything is timed, the library and its peers are compared on random
 * inputs; if they disagree, the program stops with a message and status 1.
 */
#include "barzhilup.h"
#include "peers.h"
#include "timing.h"

#include <stdio.h>
#include <stdlib.h>
#include <string.h>

#define HEADER BARZHILUP_HEADER_BYTES
#define PARITY BARZHILUP_PARITY_BYTES
#define MARKS BARZHILUP_MARKS_MAX
#define POOL 64       /* headers in a row's inputs */
#define COMPARED 1000 /* headers compared for each count of altered bytes */

/* A row's headers, each with as many marked places, and the same ones as words
 * for libfec. */
struct headers {
    uint8_t ours[POOL][HEADER];
    uint8_t fec[POOL][HEADER];
    uint8_t marks[POOL][MARKS];
    int erased[POOL][MARKS];
    unsigned count;
};

/* A piece for the CRC-8. */
struct piece {
    const uint8_t *bytes;
    size_t length;
};

static int with_fec;

/* The eight sums with a power for each byte: crates/power_sums. */
typedef struct {
    uint8_t values[PARITY];
} power_sums_answer;
power_sums_answer power_sums(const uint8_t *header);

/* Stops: the library and a peer disagree. */
static void disagree(const char *what)
{
    fprintf(stderr, "bench: the library and its peer disagree: %s\n", what);
    exit(1);
}

/* ---- Random headers ------------------------------------------------------ */

static uint32_t state = 2463534242u;

static uint32_t random_below(uint32_t n)
{
    state ^= state << 13;
    state ^= state >> 17;
    state ^= state << 5;
    return state % n;
}

/* A random code word with this many bytes altered, each at another place. The
 * first of the places are told, as many as marks are asked for. */
static void draw_marked(uint8_t *header, unsigned wrong, uint8_t *marks, unsigned count)
{
    uint8_t altered[HEADER] = {0};
    unsigned n = 0;
    size_t i;
    for (i = 0; i < HEADER; i++)
        header[i] = (uint8_t)random_below(256);
    barzhilup_write_parity(header, HEADER);
    while (n < wrong) {
        uint32_t place = random_below(HEADER);
        if (altered[place])
            continue;
        altered[place] = 1;
        header[place] ^= (uint8_t)(1 + random_below(255));
        if (n < count)
            marks[n] = (uint8_t)place;
        n++;
    }
}

/* A random code word with this many bytes altered. */
static void draw_header(uint8_t *header, unsigned wrong)
{
    draw_marked(header, wrong, NULL, 0);
}

/* The library's answer for a header, and the header it makes of it. */
static barzhilup_correction_answer ask_ours(const uint8_t *header, uint8_t *corrected)
{
    memcpy(corrected, header, HEADER);
    return barzhilup_correct_header(corrected, HEADER);
}

/* A header with five bytes altered that is uncorrectable, as nearly all are. */
static void draw_uncorrectable(uint8_t *header)
{
    uint8_t corrected[HEADER];
    do
        draw_header(header, 5);
    while (ask_ours(header, corrected).refusal == 0);
}

static void draw_headers(struct headers *headers, unsigned wrong)
{
    size_t i;
    for (i = 0; i < POOL; i++) {
        if (wrong > BARZHILUP_CORRECTED_MAX)
            draw_uncorrectable(headers->ours[i]);
        else
            draw_header(headers->ours[i], wrong);
        fec_reverse(headers->ours[i], headers->fec[i]);
    }
}

/* Where libfec counts these places: from the word's first byte. */
static void erase(const uint8_t *marks, unsigned count, int *erased)
{
    unsigned i;
    for (i = 0; i < count; i++)
        erased[i] = HEADER - 1 - marks[i];
}

/* Headers with this many places marked, all of them wrong, and as many other bytes
 * altered as the marks leave room for: twice these plus the marks is eight. */
static void draw_all_marked(struct headers *headers, unsigned count)
{
    size_t i;
    headers->count = count;
    for (i = 0; i < POOL; i++) {
        draw_marked(headers->ours[i], count + (MARKS - count) / 2, headers->marks[i], count);
        fec_reverse(headers->ours[i], headers->fec[i]);
        erase(headers->marks[i], count, headers->erased[i]);
    }
}

/* ---- The same answers ---------------------------------------------------- */

/* libfec's answer for a header, and the header it makes of it. */
static int ask_fec(const uint8_t *header, uint8_t *corrected)
{
    uint8_t word[HEADER];
    int answer;
    fec_reverse(header, word);
    answer = fec_correct(word);
    fec_reverse(word, corrected);
    return answer;
}

static void compare_parity(const uint8_t *header)
{
    barzhilup_parity_answer ours = barzhilup_parity(header);
    uint8_t word[HEADER], parity[PARITY];
    size_t i;
    fec_reverse(header, word);
    fec_parity(word, parity);
    for (i = 0; i < PARITY; i++)
        if (parity[PARITY - 1 - i] != ours.values[i])
            disagree("parity of a header (libfec)");
}

/* Same answer and same header, be it corrected or refused and unchanged. */
static void compare_correction(const uint8_t *header)
{
    uint8_t ours[HEADER], fec[HEADER];
    barzhilup_correction_answer answer = ask_ours(header, ours);
    int count = ask_fec(header, fec);
    if ((answer.refusal != 0) != (count < 0))
        disagree("whether a header is correctable (libfec)");
    if (count >= 0 && (int)answer.corrected != count)
        disagree("count of corrected bytes (libfec)");
    if (memcmp(ours, fec, HEADER) != 0)
        disagree("corrected header (libfec)");
}

/* Same count and same header, with as many marks, and others altered within their
 * bound. */
static void compare_marked(unsigned count, unsigned others)
{
    uint8_t ours[HEADER], word[HEADER], fec[HEADER], marks[MARKS];
    barzhilup_correction_answer answer;
    int erased[MARKS], corrected;
    draw_marked(ours, count + others, marks, count);
    fec_reverse(ours, word);
    erase(marks, count, erased);
    answer = barzhilup_correct_header_marked(ours, HEADER, marks, count);
    corrected = fec_correct_erased(word, erased, (int)count);
    fec_reverse(word, fec);
    if (answer.refusal != 0 || corrected != (int)answer.corrected)
        disagree("count of corrected bytes with marks (libfec)");
    if (memcmp(ours, fec, HEADER) != 0)
        disagree("corrected header with marks (libfec)");
}

static void compare_sums(void)
{
    uint8_t header[HEADER];
    unsigned wrong, n;
    for (wrong = 0; wrong <= HEADER; wrong += 4)
        for (n = 0; n < COMPARED; n++) {
            barzhilup_syndromes_answer sums;
            draw_header(header, wrong);
            sums = barzhilup_syndromes(header);
            if (memcmp(sums.values, power_sums(header).values, sizeof sums.values) != 0)
                disagree("the eight sums (a power for each byte)");
        }
}

/* The parity of a header, a share at a time. */
static barzhilup_parity_answer parity_by_shares(const uint8_t *header)
{
    barzhilup_parity_answer parity = {{0}};
    size_t place;
    for (place = PARITY; place < HEADER; place++)
        parity = barzhilup_add_parity_share(parity, place, header[place]).parity;
    return parity;
}

static void compare_shares(void)
{
    uint8_t header[HEADER];
    unsigned n;
    for (n = 0; n < COMPARED; n++) {
        barzhilup_parity_answer parity;
        draw_header(header, 4);
        parity = barzhilup_parity(header);
        if (memcmp(parity.values, parity_by_shares(header).values, PARITY) != 0)
            disagree("parity (by shares)");
    }
}

static void compare_headers(void)
{
    uint8_t header[HEADER];
    unsigned wrong, n;
    for (wrong = 0; wrong <= BARZHILUP_CORRECTED_MAX + 1; wrong++)
        for (n = 0; n < COMPARED; n++) {
            draw_header(header, wrong);
            compare_parity(header);
            compare_correction(header);
        }
    for (wrong = 0; wrong <= MARKS; wrong++)
        for (n = 0; n < COMPARED; n++)
            compare_marked(wrong, n % ((MARKS - wrong) / 2 + 1));
}

static void compare_crc(const uint8_t *bytes, size_t most)
{
    size_t length;
    for (length = 0; length <= most; length++) {
        uint8_t crc = barzhilup_crc8(bytes, length), start = (uint8_t)length;
        if (crc != table_crc8(0, bytes, length) || crc != bit_crc8(0, bytes, length)
            || barzhilup_crc8_from(start, bytes, length) != table_crc8(start, bytes, length))
            disagree("CRC-8 (plain C)");
    }
}

/* ---- The work that is timed ---------------------------------------------- */

static volatile unsigned sink; /* keeps the answers used */

static void our_syndromes(const void *inputs, size_t passes)
{
    const struct headers *h = inputs;
    size_t i;
    while (passes-- > 0)
        for (i = 0; i < POOL; i++)
            sink = barzhilup_syndromes(h->ours[i]).values[0];
}

static void power_syndromes(const void *inputs, size_t passes)
{
    const struct headers *h = inputs;
    size_t i;
    while (passes-- > 0)
        for (i = 0; i < POOL; i++)
            sink = power_sums(h->ours[i]).values[0];
}

static void our_parity(const void *inputs, size_t passes)
{
    const struct headers *h = inputs;
    size_t i;
    while (passes-- > 0)
        for (i = 0; i < POOL; i++)
            sink = barzhilup_parity(h->ours[i]).values[0];
}

static void share_parity(const void *inputs, size_t passes)
{
    const struct headers *h = inputs;
    size_t i;
    while (passes-- > 0)
        for (i = 0; i < POOL; i++)
            sink = parity_by_shares(h->ours[i]).values[0];
}

static void peer_parity(const void *inputs, size_t passes)
{
    const struct headers *h = inputs;
    uint8_t parity[PARITY];
    size_t i;
    while (passes-- > 0)
        for (i = 0; i < POOL; i++) {
            fec_parity(h->fec[i], parity);
            sink = parity[0];
        }
}

static void our_correction(const void *inputs, size_t passes)
{
    const struct headers *h = inputs;
    uint8_t work[HEADER];
    size_t i;
    while (passes-- > 0)
        for (i = 0; i < POOL; i++) {
            memcpy(work, h->ours[i], HEADER);
            sink = barzhilup_correct_header(work, HEADER).corrected;
        }
}

static void peer_correction(const void *inputs, size_t passes)
{
    const struct headers *h = inputs;
    uint8_t work[HEADER];
    size_t i;
    while (passes-- > 0)
        for (i = 0; i < POOL; i++) {
            memcpy(work, h->fec[i], HEADER);
            sink = (unsigned)fec_correct(work);
        }
}

static void our_marked(const void *inputs, size_t passes)
{
    const struct headers *h = inputs;
    uint8_t work[HEADER];
    size_t i;
    while (passes-- > 0)
        for (i = 0; i < POOL; i++) {
            memcpy(work, h->ours[i], HEADER);
            sink = barzhilup_correct_header_marked(work, HEADER, h->marks[i], h->count).corrected;
        }
}

static void peer_marked(const void *inputs, size_t passes)
{
    const struct headers *h = inputs;
    uint8_t work[HEADER];
    int erased[MARKS];
    size_t i;
    while (passes-- > 0)
        for (i = 0; i < POOL; i++) {
            memcpy(work, h->fec[i], HEADER);
            memcpy(erased, h->erased[i], sizeof erased);
            sink = (unsigned)fec_correct_erased(work, erased, (int)h->count);
        }
}

static void our_crc(const void *inputs, size_t passes)
{
    const struct piece *piece = inputs;
    while (passes-- > 0)
        sink = barzhilup_crc8(piece->bytes, piece->length);
}

static void peer_table_crc(const void *inputs, size_t passes)
{
    const struct piece *piece = inputs;
    while (passes-- > 0)
        sink = table_crc8(0, piece->bytes, piece->length);
}

static void peer_bit_crc(const void *inputs, size_t passes)
{
    const struct piece *piece = inputs;
    while (passes-- > 0)
        sink = bit_crc8(0, piece->bytes, piece->length);
}

/* ---- Rows and tables ----------------------------------------------------- */

#define SUM_ROWS 2
#define SHARE_ROWS 1
#define HEADER_ROWS 6
#define MARKED_ROWS 4
#define CRC_ROWS 6
#define FIRST_SHARE SUM_ROWS
#define FIRST_HEADER (FIRST_SHARE + SHARE_ROWS)
#define FIRST_MARKED (FIRST_HEADER + HEADER_ROWS)
#define FIRST_CRC (FIRST_MARKED + MARKED_ROWS)
#define ROWS (FIRST_CRC + CRC_ROWS)

static struct headers headers[FIRST_CRC];
static struct piece pieces[CRC_ROWS];
static struct row rows[ROWS];

static void name_row(size_t i, const char *name, timed_work ours, timed_work peer)
{
    rows[i].name = name;
    rows[i].work[0] = ours;
    rows[i].work[1] = peer;
    rows[i].inputs = &headers[i];
    rows[i].units = POOL;
}

static void header_row(size_t i, const char *name, unsigned wrong, timed_work ours,
                       timed_work peer)
{
    draw_headers(&headers[i], wrong);
    name_row(i, name, ours, peer);
}

static void marked_row(size_t i, const char *name, unsigned count)
{
    draw_all_marked(&headers[FIRST_MARKED + i], count);
    name_row(FIRST_MARKED + i, name, our_marked, with_fec ? peer_marked : NULL);
}

static void crc_row(size_t i, const char *name, const uint8_t *bytes, size_t length)
{
    struct row *row = &rows[FIRST_CRC + i];
    pieces[i].bytes = bytes;
    pieces[i].length = length;
    row->name = name;
    row->work[0] = our_crc;
    row->work[1] = peer_table_crc;
    row->work[2] = peer_bit_crc;
    row->inputs = &pieces[i];
    row->units = (double)length;
}

static void make_rows(const uint8_t *bytes)
{
    timed_work parity = with_fec ? peer_parity : NULL;
    timed_work correction = with_fec ? peer_correction : NULL;
    header_row(0, "sums of a code word", 0, our_syndromes, power_syndromes);
    header_row(1, "sums, 4 wrong bytes", 4, our_syndromes, power_syndromes);
    header_row(2, "parity, 88 bytes", 0, share_parity, our_parity);
    header_row(3, "parity", 0, our_parity, parity);
    header_row(4, "correct, 0 wrong bytes", 0, our_correction, correction);
    header_row(5, "correct, 1 wrong byte", 1, our_correction, correction);
    header_row(6, "correct, 2 wrong bytes", 2, our_correction, correction);
    header_row(7, "correct, 4 wrong bytes", 4, our_correction, correction);
    header_row(8, "uncorrectable, 5 altered", 5, our_correction, correction);
    marked_row(0, "0 marks, 4 wrong bytes", 0);
    marked_row(1, "2 marks, 3 others wrong", 2);
    marked_row(2, "4 marks, 2 others wrong", 4);
    marked_row(3, "8 marks, no other wrong", 8);
    crc_row(0, "CRC-8, 15 bytes", bytes, 15);
    crc_row(1, "CRC-8, 63 bytes", bytes, 63);
    crc_row(2, "CRC-8, 64 bytes", bytes, 64);
    crc_row(3, "CRC-8, 1,023 bytes", bytes, 1023);
    crc_row(4, "CRC-8, 1,024 bytes", bytes, 1024);
    crc_row(5, "CRC-8, 4,096 bytes", bytes, 4096);
}

static void print_row(const struct row *row)
{
    double ours = least_ns(row, 0), peer, low, high;
    printf("%-26s %10.2f", row->name, ours);
    if (row->work[1] != NULL) {
        peer = least_ns(row, 1);
        middle_ratios(row, &low, &high);
        printf(" %10.2f %8.2f   %6.2f - %6.2f", peer, ours / peer, low, high);
    } else
        printf(" %10s %8s", "-", "-");
    if (row->work[2] != NULL)
        printf(" %10.2f", least_ns(row, 2));
    printf("\n");
}

static void print_tables(void)
{
    size_t i;
    printf("\n%-26s %10s %10s %8s   %15s\n", "the eight sums, ns", "ours", "by powers", "ratio",
           "middle half");
    for (i = 0; i < FIRST_SHARE; i++)
        print_row(&rows[i]);
    printf("\n%-26s %10s %10s %8s   %15s\n", "parity by shares, ns", "shares", "division", "ratio",
           "middle half");
    for (i = FIRST_SHARE; i < FIRST_HEADER; i++)
        print_row(&rows[i]);
    printf("\n%-26s %10s %10s %8s   %15s\n", "ns per header", "ours", "libfec", "ratio",
           "middle half");
    for (i = FIRST_HEADER; i < FIRST_CRC; i++)
        print_row(&rows[i]);
    printf("\n%-26s %10s %10s %8s   %15s %10s\n", "ns per byte", "ours", "C table", "ratio",
           "middle half", "C bitwise");
    for (i = FIRST_CRC; i < ROWS; i++)
        print_row(&rows[i]);
}

static void print_notes(void)
{
    printf("\nThe least of %d interleaved rounds of processor time. Ratio: ours / peer, above 1 the\n"
           "peer is faster; behind it, between which ratios the middle half of the rounds lies.\n"
           "%d headers per row, the same for both. Buffers are restored before each timed\n"
           "correction; that copy of 96 bytes is in both times.\n",
           ROUNDS, POOL);
    if (!with_fec)
        return;
    printf("libfec gets its headers backwards, as it wants them; turning them is not timed.\n"
           "Marked bytes are all wrong; its list of them, which it writes to, is restored too.\n"
           "Compared before timing, %d headers each of 0 to 5 altered bytes and of 0 to 8 marks:\n"
           "both give the same parity, counts, corrected headers and refusals.\n",
           COMPARED);
}

int main(void)
{
    static uint8_t bytes[4096];
    size_t i;
    with_fec = fec_open();
    table_crc8_open();
    for (i = 0; i < sizeof bytes; i++)
        bytes[i] = (uint8_t)random_below(256);
    if (with_fec)
        compare_headers();
    else
        printf("libfec is not installed: the header code's numbers stand alone.\n");
    compare_sums();
    compare_shares();
    compare_crc(bytes, sizeof bytes);
    make_rows(bytes);
    time_rows(rows, ROWS);
    print_tables();
    print_notes();
    return 0;
}
