/*
 * How much stack each exported function uses: the call runs in a thread whose
 * stack is painted below the caller's stack pointer, and afterwards the lowest
 * byte that is not as painted tells how deep it went. The most over all inputs,
 * and over two patterns, is printed; the return address and arguments on the
 * stack are in it.
 */
#define _POSIX_C_SOURCE 200809L
#include "drives.h"
#include "peers.h"
#include "plain.h"

#include <pthread.h>
#include <stdio.h>
#include <stdlib.h>
#include <string.h>

#define STACK (256 * 1024)
#define HEADER BARZHILUP_HEADER_BYTES

static uint8_t *stack;
static uint8_t *top; /* the stack pointer of the caller */
static uint8_t pattern;
static size_t deepest;

/* Paints the stack below this function's frame. */
static __attribute__((noinline)) void paint(void)
{
    volatile uint8_t *end = __builtin_frame_address(0), *p;
    for (p = stack; p < end; p++)
        *p = pattern;
}

/* How far below the caller's stack pointer the paint is gone. */
static __attribute__((noinline)) void scan(void)
{
    volatile uint8_t *p = stack;
    while (p < top && *p == pattern)
        p++;
    if ((size_t)(top - p) > deepest)
        deepest = (size_t)(top - p);
}

#define MEASURE(call)                                 \
    do {                                              \
        paint();                                      \
        __asm__ volatile("mov %%rsp, %0" : "=m"(top)); \
        call;                                         \
        scan();                                       \
    } while (0)

/* ---- Inputs -------------------------------------------------------------- */

#define LENGTHS 4
#define DRIVES (3 * LENGTHS)

static struct drive drives[DRIVES]; /* with 0, 4 and 5 wrong header bytes */
static struct drive *drive;         /* those that the call is tried on */
static size_t at;

static uint8_t pdu[BARZHILUP_PDU_MAX], carry[BARZHILUP_CARRY_BYTES];
static uint32_t log_words[BARZHILUP_LOG_WORDS];
static barzhilup_receiver receiver;
static barzhilup_piece pieces[64];
static uint8_t marks[BARZHILUP_MARKS_MAX + 1];
static size_t marked;
static volatile unsigned sink;

/* Every expansion field, for a drive's first PDU. */
static const barzhilup_settings full = {0, 1, 2, 3, true, 1, true, 1, true, true, 1, 200, true, 1,
                                        70000};
static const barzhilup_settings none;

static void make_drives(void)
{
    static const size_t lengths[LENGTHS] = {96, 1024, 4096, 16384};
    size_t i;
    for (i = 0; i < LENGTHS; i++) {
        make_drive(&drives[i], lengths[i], 8, 20, 400, 0);
        make_drive(&drives[i + LENGTHS], lengths[i], 8, 20, 400, 4);
        make_drive(&drives[i + 2 * LENGTHS], lengths[i], 8, 20, 400, 5);
    }
}

/* The PDU as it arrives. */
static void arrive(void)
{
    memcpy(pdu, drive->pdus + at * drive->pdu_length, drive->pdu_length);
    memcpy(pdu, drive->headers[at], HEADER);
}

/* Marks 0 to 9 places, the wrong ones first. Nine are refused. */
static void mark(void)
{
    const uint8_t *sent = drive->pdus + at * drive->pdu_length;
    size_t count = at % (BARZHILUP_MARKS_MAX + 2), place;
    int wrong;
    marked = 0;
    for (wrong = 1; wrong >= 0; wrong--)
        for (place = 0; place < HEADER && marked < count; place++)
            if ((pdu[place] != sent[place]) == wrong)
                marks[marked++] = (uint8_t)place;
}

/* ---- Calls --------------------------------------------------------------- */

static void product(void)
{
    MEASURE(sink = barzhilup_product(200, 77));
}

static void syndromes(void)
{
    MEASURE(sink = barzhilup_syndromes(pdu).values[0]);
}

static void parity(void)
{
    MEASURE(sink = barzhilup_parity(pdu).values[0]);
}

static void write_parity(void)
{
    MEASURE(sink = barzhilup_write_parity(pdu, drive->pdu_length));
}

static void add_parity_share(void)
{
    barzhilup_parity_answer parity = {{0}};
    MEASURE(sink = barzhilup_add_parity_share(parity, 7 + at, pdu[7 + at]).parity.values[0]);
}

static void correct_header(void)
{
    MEASURE(sink = barzhilup_correct_header(pdu, drive->pdu_length).corrected);
}

static void correct_header_marked(void)
{
    mark();
    MEASURE(sink = barzhilup_correct_header_marked(pdu, drive->pdu_length, marks, marked)
                       .corrected);
}

static void crc8(void)
{
    MEASURE(sink = barzhilup_crc8(pdu, drive->pdu_length));
}

static void crc8_from(void)
{
    MEASURE(sink = barzhilup_crc8_from(255, pdu, drive->pdu_length));
}

static void read_pdu(void)
{
    MEASURE(sink = barzhilup_read(pdu, drive->pdu_length).refusal);
}

static void open_writer(void)
{
    MEASURE(sink = barzhilup_open_writer(10, 1).refusal);
}

static void open_writer_with(void)
{
    MEASURE(sink = barzhilup_open_writer_with(10, 1, 255).refusal);
}

static void open_receiver(void)
{
    MEASURE(sink = barzhilup_open_receiver(10, 1).refusal);
}

static void open_receiver_with(void)
{
    MEASURE(sink = barzhilup_open_receiver_with(10, 1, 255).refusal);
}

static void open_receiver_entitled(void)
{
    static const uint8_t programs[8] = {7, 6, 5, 4, 3, 2, 1, 0};
    MEASURE(sink = barzhilup_open_receiver_entitled(10, 1, 255, programs, 8).refusal);
}

static void write_pdu(void)
{
    const struct offer *o = &drive->offers[at];
    MEASURE(sink = barzhilup_write(o->writer, at == 0 ? full : none, drive->psd, drive->psd_length,
                                   o->lengths, o->count, o->bytes, o->bytes_length, pdu,
                                   drive->pdu_length)
                       .ended);
}

static void receive(void)
{
    MEASURE(receiver = barzhilup_receive(receiver, carry, sizeof carry, pdu, drive->pdu_length,
                                         log_words, BARZHILUP_LOG_WORDS)
                           .receiver);
}

static void receive_marked(void)
{
    mark();
    MEASURE(receiver = barzhilup_receive_marked(receiver, carry, sizeof carry, pdu,
                                                drive->pdu_length, marks, marked, log_words,
                                                BARZHILUP_LOG_WORDS)
                           .receiver);
}

/* The PDU twice: the second has the sequence of the first. */
static void receive_batch(void)
{
    static uint8_t twice[2 * BARZHILUP_PDU_MAX];
    static uint32_t words[2 * BARZHILUP_LOG_WORDS];
    const size_t lengths[2] = {drive->pdu_length, drive->pdu_length};
    memcpy(twice, pdu, drive->pdu_length);
    memcpy(twice + drive->pdu_length, pdu, drive->pdu_length);
    MEASURE(receiver = barzhilup_receive_batch(receiver, carry, sizeof carry, twice,
                                               2 * drive->pdu_length, lengths, 2, words,
                                               2 * BARZHILUP_LOG_WORDS)
                           .receiver);
}

/* Two copies: the PDU as it arrives, and as it was sent, with a piece damaged. */
static uint8_t copy[BARZHILUP_PDU_MAX];

static void make_copy(void)
{
    memcpy(copy, drive->pdus + at * drive->pdu_length, drive->pdu_length);
    copy[drive->pdu_length - 1 - at] ^= (uint8_t)(at % 2);
}

static void choose(void)
{
    make_copy();
    MEASURE(sink = barzhilup_choose(pdu, drive->pdu_length, copy, drive->pdu_length));
}

static void receive_pair(void)
{
    make_copy();
    MEASURE(receiver = barzhilup_receive_pair(receiver, carry, sizeof carry, pdu,
                                              drive->pdu_length, copy, drive->pdu_length,
                                              log_words, BARZHILUP_LOG_WORDS)
                           .receiver);
}

static void mark_lost(void)
{
    MEASURE(sink = barzhilup_mark_lost(receiver, log_words, BARZHILUP_LOG_WORDS).words);
}

/* A receiver that has taken the PDU, and often holds bytes of it, and its words. */
static uint32_t snapshot[BARZHILUP_SNAPSHOT_WORDS];

static void take(void)
{
    receiver = barzhilup_receive(receiver, carry, sizeof carry, pdu, drive->pdu_length, log_words,
                                 BARZHILUP_LOG_WORDS)
                   .receiver;
}

static void save_receiver(void)
{
    take();
    MEASURE(sink = barzhilup_save_receiver(receiver, carry, sizeof carry, snapshot,
                                           at % 4 == 3 ? 3 : BARZHILUP_SNAPSHOT_WORDS)
                       .words);
}

static void load_receiver(void)
{
    size_t words;
    take();
    words = barzhilup_save_receiver(receiver, carry, sizeof carry, snapshot,
                                    BARZHILUP_SNAPSHOT_WORDS)
                .words;
    snapshot[words - 1] ^= (uint32_t)(at % 4 == 3) << 27;
    MEASURE(sink = barzhilup_load_receiver(snapshot, words, carry, sizeof carry).refusal);
}

static void list_pieces(void)
{
    MEASURE(sink = barzhilup_list_pieces(pdu, drive->pdu_length, BARZHILUP_CRC_START, pieces, 64)
                       .refusal);
}

static void receive_in_place(void)
{
    MEASURE(sink = barzhilup_receive_in_place(&receiver, carry, sizeof carry, pdu,
                                              drive->pdu_length, log_words, BARZHILUP_LOG_WORDS)
                       .words);
}

static void mark_lost_in_place(void)
{
    MEASURE(sink = barzhilup_mark_lost_in_place(&receiver, log_words, BARZHILUP_LOG_WORDS).words);
}

/* Counts for the latency bench: 0 to 63, by the PDU's bytes. */
static uint32_t counts[HEADER];

static void count(void)
{
    size_t i;
    for (i = 0; i < HEADER; i++)
        counts[i] = pdu[i] % 64;
}

static void smallest_latency(void)
{
    count();
    MEASURE(sink = barzhilup_smallest_latency(0, 0, counts, HEADER).latency);
}

static void try_latency(void)
{
    count();
    MEASURE(sink = barzhilup_try_latency(0, 0, counts, HEADER, 3).dry);
}

static void waiting_packets(void)
{
    count();
    MEASURE(sink = barzhilup_waiting_packets(0, 0, counts, HEADER, 3, 40, log_words, 64).count);
}

/* The log of the PDU before, joined with itself. */
static void join_logs(void)
{
    static uint32_t joined[2 * BARZHILUP_LOG_WORDS];
    barzhilup_received a = barzhilup_receive(receiver, carry, sizeof carry, pdu, drive->pdu_length,
                                             log_words, BARZHILUP_LOG_WORDS);
    MEASURE(sink = (unsigned)barzhilup_join(log_words, a.words, log_words, a.words, joined,
                                            2 * BARZHILUP_LOG_WORDS)
                       .words);
}

#ifdef WITH_LIBFEC
static void plain_writes(void)
{
    const struct offer *o = &drive->offers[at];
    MEASURE(sink = plain_write(o->writer, at == 0 ? full : none, drive->psd, drive->psd_length,
                               o->lengths, o->count, o->bytes, o->bytes_length, pdu,
                               drive->pdu_length)
                       .ended);
}

static void plain_receives(void)
{
    MEASURE(receiver = plain_receive(receiver, carry, sizeof carry, pdu, drive->pdu_length,
                                     log_words, BARZHILUP_LOG_WORDS)
                           .receiver);
}
#endif

static const struct {
    const char *name;
    void (*run)(void);
} calls[] = {
    {"barzhilup_product", product},
    {"barzhilup_syndromes", syndromes},
    {"barzhilup_parity", parity},
    {"barzhilup_write_parity", write_parity},
    {"barzhilup_add_parity_share", add_parity_share},
    {"barzhilup_correct_header", correct_header},
    {"barzhilup_correct_header_marked", correct_header_marked},
    {"barzhilup_crc8", crc8},
    {"barzhilup_crc8_from", crc8_from},
    {"barzhilup_read", read_pdu},
    {"barzhilup_open_writer", open_writer},
    {"barzhilup_open_writer_with", open_writer_with},
    {"barzhilup_write", write_pdu},
    {"barzhilup_open_receiver", open_receiver},
    {"barzhilup_open_receiver_with", open_receiver_with},
    {"barzhilup_open_receiver_entitled", open_receiver_entitled},
    {"barzhilup_receive", receive},
    {"barzhilup_receive_marked", receive_marked},
    {"barzhilup_receive_batch", receive_batch},
    {"barzhilup_mark_lost", mark_lost},
    {"barzhilup_save_receiver", save_receiver},
    {"barzhilup_load_receiver", load_receiver},
    {"barzhilup_choose", choose},
    {"barzhilup_receive_pair", receive_pair},
    {"barzhilup_smallest_latency", smallest_latency},
    {"barzhilup_try_latency", try_latency},
    {"barzhilup_waiting_packets", waiting_packets},
    {"barzhilup_join", join_logs},
    {"barzhilup_list_pieces", list_pieces},
    {"barzhilup_receive_in_place", receive_in_place},
    {"barzhilup_mark_lost_in_place", mark_lost_in_place},
#ifdef WITH_LIBFEC
    {"plain_write", plain_writes},
    {"plain_receive", plain_receives},
#endif
};

/* ---- Trying a call on all inputs, in a thread ---------------------------- */

static void *try_call(void *run)
{
    size_t i;
    for (i = 0; i < DRIVES; i++) {
        drive = &drives[i];
        receiver = barzhilup_open_receiver(0, 0).receiver;
        for (at = 0; at < PDUS; at++) {
            arrive();
            (*(void (*const *)(void))run)();
        }
    }
    return NULL;
}

static void in_thread(void (*const *run)(void))
{
    pthread_t thread;
    pthread_attr_t attributes;
    if (pthread_attr_init(&attributes) != 0 || pthread_attr_setstack(&attributes, stack, STACK) != 0
        || pthread_create(&thread, &attributes, try_call, (void *)run) != 0) {
        fprintf(stderr, "bench: no thread\n");
        exit(1);
    }
    pthread_join(thread, NULL);
    pthread_attr_destroy(&attributes);
}

int main(void)
{
    size_t i;
    void *room;
    fec_open();
    table_crc8_open();
    make_drives();
    if (posix_memalign(&room, 4096, STACK) != 0)
        return 1;
    stack = room;
    printf("\n%-31s %8s\n", "bytes of stack, at most", "");
    for (i = 0; i < sizeof calls / sizeof calls[0]; i++) {
        deepest = 0;
        for (pattern = 0x5a; pattern != 0; pattern = pattern == 0x5a ? 0xa5 : 0)
            in_thread(&calls[i].run);
        printf("%-31s %8u\n", calls[i].name, (unsigned)deepest);
    }
    return 0;
}
