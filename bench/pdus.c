/*
 * What writing and receiving a PDU costs: the library, the same job in plain C
 * (plain.c) and the referee, on the same inputs.
 *
 * Before anything is measured, all of them are compared on these inputs, and on
 * random ones; if they disagree, the program stops with a message and status 1.
 *
 *     pdus             times everything and prints the tables
 *     pdus once        does each row's work once with each implementation, for a
 *                      profiler that counts instructions, and names each on a line
 *     pdus counts FILE prints the tables from the counts in a file, one on a line,
 *                      in the order of `once`
 */
#include "agree.h"
#include "limits.h"
#include "peers.h"
#include "plain.h"
#include "timing.h"

#include <stdio.h>
#include <stdlib.h>
#include <string.h>

#define HEADER BARZHILUP_HEADER_BYTES
#define RANDOM_CALLS 20000

/* ---- The work ------------------------------------------------------------ */

static volatile unsigned sink; /* keeps the answers used */

static void write_all(const struct drive *d, size_t passes, write_call *write)
{
    static const barzhilup_settings none;
    static uint8_t pdu[BARZHILUP_PDU_MAX];
    size_t i;
    while (passes-- > 0)
        for (i = 0; i < PDUS; i++) {
            const struct offer *o = &d->offers[i];
            sink = write(o->writer, none, d->psd, d->psd_length, o->lengths, o->count, o->bytes,
                         o->bytes_length, pdu, d->pdu_length)
                       .ended;
        }
}

static void receive_all(const struct drive *d, size_t passes, receive_call *receive)
{
    static uint8_t carry[BARZHILUP_CARRY_BYTES];
    static uint32_t log[BARZHILUP_LOG_WORDS];
    size_t i;
    while (passes-- > 0) {
        barzhilup_receiver receiver = {0, 0, BARZHILUP_CRC_START, 255, false, 0, 0, 0, false, 0, 0, 0, 0};
        for (i = 0; i < PDUS; i++) {
            uint8_t *pdu = d->pdus + i * d->pdu_length;
            memcpy(pdu, d->headers[i], HEADER);
            receiver = receive(receiver, carry, sizeof carry, pdu, d->pdu_length, log,
                               BARZHILUP_LOG_WORDS)
                           .receiver;
        }
        sink = receiver.held;
    }
}

static void library_writes(const void *drive, size_t passes)
{
    write_all(drive, passes, barzhilup_write);
}

static void library_receives(const void *drive, size_t passes)
{
    receive_all(drive, passes, barzhilup_receive);
}

#ifdef WITH_LIBFEC
static void plain_writes(const void *drive, size_t passes)
{
    write_all(drive, passes, plain_write);
}

static void plain_receives(const void *drive, size_t passes)
{
    receive_all(drive, passes, plain_receive);
}

#define PLAIN(function) (function)
#else
#define PLAIN(function) NULL
#endif

#ifdef WITH_REFEREE
write_call referee_write;
receive_call referee_receive;

static void referee_writes(const void *drive, size_t passes)
{
    write_all(drive, passes, referee_write);
}

static void referee_receives(const void *drive, size_t passes)
{
    receive_all(drive, passes, referee_receive);
}

#define REFEREE(function) (function)
#else
#define REFEREE(function) NULL
#endif

static const timed_work writing[RIVALS] = {library_writes, PLAIN(plain_writes),
                                           REFEREE(referee_writes)};
static const timed_work receiving[RIVALS] = {library_receives, PLAIN(plain_receives),
                                             REFEREE(referee_receives)};

static void copies(const void *drive, size_t passes)
{
    const struct drive *d = drive;
    size_t i;
    while (passes-- > 0)
        for (i = 0; i < PDUS; i++)
            copy_bytes(d->pdus + i * d->pdu_length, d->pdu_length);
}

static void packs(const void *drive, size_t passes)
{
    const struct drive *d = drive;
    size_t i;
    while (passes-- > 0)
        for (i = 0; i < PDUS; i++)
            pack_bytes(d->pdus + i * d->pdu_length, d->pdu_length);
}

/* ---- Drives and rows ----------------------------------------------------- */

#define LENGTHS 4
#define MAIN_ROWS (3 * LENGTHS)
#define LENGTH_POINTS 10
#define PIECE_POINTS 9
#define SHORT_POINTS 4
#define PIECES 8          /* in each PDU, where the length grows */
#define FIXED_LENGTH 4096 /* of each PDU, where the pieces grow */
#define SHORT_PIECES 41   /* in each PDU, where they are short */
#define FIRST_LENGTH MAIN_ROWS
#define FIRST_PIECE (FIRST_LENGTH + 2 * LENGTH_POINTS)
#define FIRST_SHORT (FIRST_PIECE + 2 * PIECE_POINTS)
#define ROWS (FIRST_SHORT + 2 * SHORT_POINTS)

static const size_t length_points[LENGTH_POINTS] = {96,   256,  512,   1024,  2048,
                                                    4096, 8192, 12288, 16384, 20480};
static const size_t piece_points[PIECE_POINTS] = {1, 2, 4, 8, 16, 24, 32, 41, 63};
static const uint16_t short_points[SHORT_POINTS] = {5, 10, 20, 40};

static struct drive clean[LENGTHS], damaged[LENGTHS], longer[LENGTH_POINTS], more[PIECE_POINTS],
    shorter[SHORT_POINTS];
static struct row rows[ROWS];
static struct row pairs[MAIN_ROWS];  /* the first rows, without the referee in the rounds */
static struct row limits[MAIN_ROWS]; /* the least that each of them has to do */
static char names[ROWS][40];

static void make_row(size_t i, const char *job, size_t number, const char *unit,
                     const timed_work *work, const struct drive *drive)
{
    snprintf(names[i], sizeof names[i], "%s, %u %s", job, (unsigned)number, unit);
    rows[i].name = names[i];
    memcpy(rows[i].work, work, sizeof rows[i].work);
    rows[i].inputs = drive;
    rows[i].units = PDUS;
}

/* The two jobs on one drive, `apart` rows from each other. */
static void make_rows(size_t i, size_t apart, size_t number, const char *unit,
                      const struct drive *drive)
{
    make_row(i, "write", number, unit, writing, drive);
    make_row(i + apart, "receive", number, unit, receiving, drive);
}

static void make_main_rows(void)
{
    static const struct {
        size_t length, psd;
        uint16_t least, most;
    } kinds[LENGTHS] = {{96, 8, 20, 60}, {1024, 32, 64, 192}, {4096, 64, 64, 192},
                        {20480, 128, 256, 768}};
    size_t i;
    for (i = 0; i < LENGTHS; i++) {
        size_t length = kinds[i].length, psd = kinds[i].psd;
        make_drive(&clean[i], length, psd, kinds[i].least, kinds[i].most, 0);
        make_drive(&damaged[i], length, psd, kinds[i].least, kinds[i].most,
                   BARZHILUP_CORRECTED_MAX);
        make_rows(i, LENGTHS, length, "bytes", &clean[i]);
        make_row(i + 2 * LENGTHS, "receive, 4 wrong", length, "bytes", receiving, &damaged[i]);
    }
}

static void make_pairs_and_limits(void)
{
    size_t i;
    for (i = 0; i < MAIN_ROWS; i++) {
        pairs[i] = rows[i];
        pairs[i].work[2] = NULL;
        limits[i] = rows[i];
        memset(limits[i].work, 0, sizeof limits[i].work);
        limits[i].work[0] = i < LENGTHS ? copies : packs;
    }
}

static void make_all(void)
{
    size_t i;
    make_main_rows();
    make_pairs_and_limits();
    for (i = 0; i < LENGTH_POINTS; i++) {
        make_even_drive(&longer[i], length_points[i], PIECES);
        make_rows(FIRST_LENGTH + i, LENGTH_POINTS, length_points[i], "bytes", &longer[i]);
    }
    for (i = 0; i < PIECE_POINTS; i++) {
        make_even_drive(&more[i], FIXED_LENGTH, piece_points[i]);
        make_rows(FIRST_PIECE + i, PIECE_POINTS, piece_points[i], "piece(s)", &more[i]);
    }
    for (i = 0; i < SHORT_POINTS; i++) {
        make_short_drive(&shorter[i], SHORT_PIECES, short_points[i]);
        make_rows(FIRST_SHORT + i, SHORT_POINTS, short_points[i], "bytes", &shorter[i]);
    }
}

static const struct implementation peers[] = {
#ifdef WITH_LIBFEC
    {"the plain C program", plain_write, plain_receive},
#endif
#ifdef WITH_REFEREE
    {"the referee", referee_write, referee_receive},
#endif
    {NULL, NULL, NULL},
};

static void agree(void)
{
    const struct implementation *peer;
    size_t i;
    for (peer = peers; peer->name != NULL; peer++) {
        unsigned accepted[2] = {0, 0};
        for (i = 0; i < ROWS; i++)
            agree_on_drive(peer, rows[i].inputs);
        agree_on_random_calls(peer, RANDOM_CALLS, accepted);
        printf("The library and %s agree on all inputs below and on %d random calls\n"
               "(%u PDUs written, %u received, the others refused or lost).\n",
               peer->name, RANDOM_CALLS, accepted[0], accepted[1]);
    }
}

/* ---- Tables -------------------------------------------------------------- */

static const char *unit = "ns"; /* or instructions */

static double cost(size_t i, size_t rival)
{
    return least_ns(&rows[i], rival);
}

/* A cost and how many times as much the library's is. */
static void print_rival(size_t i, size_t rival)
{
    if (rows[i].work[rival] == NULL)
        printf(" %10s %7s", "-", "-");
    else
        printf(" %10.0f %7.2f", cost(i, rival), cost(i, 0) / cost(i, rival));
}

static void print_costs(size_t first, size_t count)
{
    size_t i, rival;
    for (i = first; i < first + count; i++) {
        const struct drive *d = rows[i].inputs;
        printf("%-30s %6.1f %10.0f", rows[i].name, (double)d->pieces / PDUS, cost(i, 0));
        for (rival = 1; rival < RIVALS; rival++)
            print_rival(i, rival);
        for (rival = 0; rival < RIVALS; rival++)
            if (rows[i].work[rival] == NULL)
                printf(" %8s", "-");
            else
                printf(" %8.2f", cost(i, rival) / (double)d->pdu_length);
        printf("\n");
    }
}

static void print_table(const char *title, size_t first, size_t count)
{
    printf("\n%s; %s, of the library (L), the plain C program (C) and the referee (R)\n", title,
           unit);
    printf("%-30s %6s %10s %10s %7s %10s %7s %8s %8s %8s\n", "per PDU", "pieces", "L", "C", "L/C",
           "R", "L/R", "L/byte", "C/byte", "R/byte");
    print_costs(first, count);
}

/* The line through the costs of some rows over their x, by least squares. */
static void fit(size_t first, size_t count, size_t rival, const size_t *x, double *start,
                double *slope)
{
    double n = (double)count, sx = 0, sy = 0, sxx = 0, sxy = 0;
    size_t i;
    for (i = 0; i < count; i++) {
        double a = (double)x[i], b = cost(first + i, rival);
        sx += a;
        sy += b;
        sxx += a * a;
        sxy += a * b;
    }
    *slope = (n * sxy - sx * sy) / (n * sxx - sx * sx);
    *start = (sy - *slope * sx) / n;
}

static void print_fit(const char *job, size_t first, size_t count, const size_t *x)
{
    size_t rival;
    printf("%-10s", job);
    for (rival = 0; rival < RIVALS; rival++) {
        double start, slope;
        if (rows[first].work[rival] == NULL) {
            printf(" %12s %12s", "-", "-");
            continue;
        }
        fit(first, count, rival, x, &start, &slope);
        printf(" %12.0f %12.2f", start, slope);
    }
    printf("\n");
}

static void print_fits(const char *per, size_t first, size_t count, const size_t *x)
{
    printf("\nLeast squares, %s: a constant (0) and a slope per %s\n%-10s %12s %12s %12s %12s %12s "
           "%12s\n",
           unit, per, "", "L 0", "L slope", "C 0", "C slope", "R 0", "R slope");
    print_fit("write", first, count, x);
    print_fit("receive", first + count, count, x);
}

static void print_tables(void)
{
    char title[80];
    print_table("PDUs of packets that run on", 0, MAIN_ROWS);
    snprintf(title, sizeof title, "PDUs of %d whole packets", PIECES);
    print_table(title, FIRST_LENGTH, 2 * LENGTH_POINTS);
    print_fits("byte", FIRST_LENGTH, LENGTH_POINTS, length_points);
    snprintf(title, sizeof title, "PDUs of %d bytes, whole packets", FIXED_LENGTH);
    print_table(title, FIRST_PIECE, 2 * PIECE_POINTS);
    print_fits("piece", FIRST_PIECE, PIECE_POINTS, piece_points);
    snprintf(title, sizeof title, "PDUs of %d whole packets of 1 byte up to so many", SHORT_PIECES);
    print_table(title, FIRST_SHORT, 2 * SHORT_POINTS);
}

static void print_ratio(double ours, const struct row *row, size_t rival)
{
    if (row->work[rival] == NULL)
        printf(" %10s", "-");
    else
        printf(" %10.2f", ours / least_ns(row, rival));
}

/* Every ratio of the first rows in one place. */
static void print_ratios(void)
{
    size_t i;
    printf("\nRatios of times, PDUs of packets that run on: the library by the plain C program, with the referee in\n"
           "the rounds and without, and by the referee; and by the limit, copying (writing) or packing (receiving) the PDU\n"
           "%-30s %10s %10s %10s %10s %10s\n",
           "per PDU", "L/C", "L/C alone", "L/R", "limit, ns", "L/limit");
    for (i = 0; i < MAIN_ROWS; i++) {
        printf("%-30s", rows[i].name);
        print_ratio(cost(i, 0), &rows[i], 1);
        print_ratio(least_ns(&pairs[i], 0), &pairs[i], 1);
        print_ratio(cost(i, 0), &rows[i], 2);
        printf(" %10.0f", least_ns(&limits[i], 0));
        print_ratio(cost(i, 0), &limits[i], 0);
        printf("\n");
    }
}

/* ---- Counts of instructions ---------------------------------------------- */

static const char *const rivals[RIVALS] = {"library", "plain C", "referee"};

/* A profiler is told to count while this function runs: `sink` is set so that it
 * does not end before the work does. */
static __attribute__((noinline)) void counted(const struct row *row, size_t rival)
{
    row->work[rival](row->inputs, 1);
    sink = 0;
}

static void run_once(void)
{
    size_t i, rival;
    for (i = 0; i < ROWS; i++)
        for (rival = 0; rival < RIVALS; rival++)
            if (rows[i].work[rival] != NULL) {
                printf("%s, %s\n", rows[i].name, rivals[rival]);
                counted(&rows[i], rival);
            }
}

static void read_counts(const char *name)
{
    FILE *file = fopen(name, "r");
    size_t i, rival, round;
    double count;
    for (i = 0; i < ROWS; i++)
        for (rival = 0; rival < RIVALS; rival++) {
            if (rows[i].work[rival] == NULL)
                continue;
            if (file == NULL || fscanf(file, "%lf", &count) != 1) {
                fprintf(stderr, "bench: no count for %s\n", rows[i].name);
                exit(1);
            }
            for (round = 0; round < ROUNDS; round++)
                rows[i].ns[rival][round] = count / rows[i].units;
        }
    fclose(file);
}

int main(int argc, char **argv)
{
    fec_open();
    table_crc8_open();
    make_all();
    if (argc == 2 && strcmp(argv[1], "once") == 0) {
        run_once();
        return 0;
    }
    if (argc == 3 && strcmp(argv[1], "counts") == 0) {
        unit = "instructions";
        read_counts(argv[2]);
    } else {
        agree();
        time_rows(rows, ROWS);
        time_rows(pairs, MAIN_ROWS);
        time_rows(limits, MAIN_ROWS);
        print_ratios();
    }
    print_tables();
    return 0;
}
