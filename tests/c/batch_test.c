/*
 * Tests of PDUs received in one call (document 02, Ask 1): batches of none to
 * twenty PDUs in each mode and stream, each refusal at each place of a batch,
 * logs one word short at each place, what is judged before the first PDU, and
 * whole lists of packets that come in batches, single calls and lost PDUs.
 *
 * What a batch has to answer and to leave is worked out with one
 * barzhilup_receive after another on buffers of its own. Every buffer lent to the
 * library lies between guards. After each call all buffers with their guards are
 * compared whole with what they should hold, and so is each field of the answer.
 */
#include "barzhilup.h"

#include <stdio.h>
#include <string.h>

#define CARRY BARZHILUP_CARRY_BYTES
#define MOST 20   /* PDUs of a batch */
#define LONGEST 700 /* bytes of a PDU here */
#define BYTES (MOST * LONGEST)
#define WORDS 9000 /* of a log that is longer than needed */
#define GUARD 33   /* odd, so that lent bytes are not aligned */

/* ---- Counting ------------------------------------------------------------ */

static unsigned long checks, failed, checks_before;

/* One check; `which` tells the cases of one kind apart. */
static void check(int holds, const char *what, unsigned long which)
{
    checks++;
    if (holds)
        return;
    failed++;
    if (failed <= 20)
        printf("  WRONG: %s, case %lu\n", what, which);
}

/* Says how many checks were made since the last call. */
static void report(const char *what)
{
    printf("  %s: %lu checks\n", what, checks - checks_before);
    checks_before = checks;
}

/* ---- Repeatable random numbers ------------------------------------------- */

static uint32_t state = 88172645u;

static uint32_t random_below(uint32_t n)
{
    state ^= state << 13;
    state ^= state >> 17;
    state ^= state << 5;
    return state % n;
}

static void random_bytes(uint8_t *bytes, size_t length)
{
    size_t i;
    for (i = 0; i < length; i++)
        bytes[i] = (uint8_t)random_below(256);
}

/* ---- PDUs of one writer -------------------------------------------------- */

static const uint8_t table[10][2] = {{0, 0}, {1, 0}, {2, 0},  {3, 0},  {1, 1},
                                     {2, 1}, {3, 1}, {10, 0}, {10, 1}, {13, 0}};

#define PACKETS 60

/* A list of packets, and how many of them a writer has sent to their ends. */
static uint8_t bytes[PACKETS * 400];
static uint16_t packets[PACKETS];
static size_t ended, ended_bytes;
static barzhilup_writer writer;

static void new_list(unsigned line, uint8_t crc_start)
{
    unsigned k;
    random_bytes(bytes, sizeof bytes);
    for (k = 0; k < PACKETS; k++)
        packets[k] = (uint16_t)(1 + random_below(k % 5 == 0 ? 400 : 60));
    ended = ended_bytes = 0;
    writer = barzhilup_open_writer_with(table[line][0], table[line][1], crc_start).writer;
}

/* Writes the next PDU, with a displacement; answers its length. Where all packets
 * are sent, it has no piece. */
static size_t next_pdu(uint8_t *pdu)
{
    size_t length = 96 + random_below(LONGEST - 95), k, all = 0;
    barzhilup_settings settings;
    barzhilup_written w;

    memset(&settings, 0, sizeof settings);
    settings.displaced = true;
    for (k = ended; k < PACKETS; k++)
        all += packets[k];
    w = barzhilup_write(writer, settings, bytes, writer.stream == 0 ? random_below(9) : 0,
                        packets + ended, PACKETS - ended, bytes + ended_bytes, all, pdu, length);
    check(w.refusal == 0, "written", length);
    for (k = 0; k < w.ended; k++)
        ended_bytes += packets[ended++];
    writer = w.writer;
    return length;
}

/* ---- What is lent to a call ---------------------------------------------- */

struct lent {
    uint8_t carry[GUARD + CARRY + GUARD];
    uint8_t pdus[GUARD + BYTES + GUARD];
    size_t lengths[1 + MOST + 1];
    uint32_t log[GUARD + WORDS + GUARD];
};

static struct lent is, should;
static size_t carry_length = CARRY, pdus_length, count, log_length = WORDS;

/* Everything that is lent, guards too, with bytes of all kinds. */
static void fill(void)
{
    random_bytes((uint8_t *)&is, sizeof is);
    carry_length = CARRY;
    pdus_length = count = 0;
    log_length = WORDS;
}

/* Joins a PDU to the batch. */
static void join(const uint8_t *pdu, size_t length)
{
    memcpy(is.pdus + GUARD + pdus_length, pdu, length);
    is.lengths[1 + count++] = length;
    pdus_length += length;
}

/* Joins so many PDUs of the writer, each with up to four header bytes altered. */
static void join_written(unsigned many)
{
    uint8_t pdu[LONGEST];
    unsigned altered;
    for (; many > 0; many--) {
        size_t length = next_pdu(pdu);
        for (altered = random_below(5); altered > 0; altered--)
            pdu[random_below(96)] = (uint8_t)random_below(256);
        join(pdu, length);
    }
}

static int same_receiver(barzhilup_receiver one, barzhilup_receiver other)
{
    return one.mode == other.mode && one.stream == other.stream
           && one.crc_start == other.crc_start && one.entitled == other.entitled
           && one.known == other.known && one.sequence == other.sequence
           && one.held == other.held && one.number == other.number
           && one.serviced == other.serviced && one.services == other.services
           && one.delivered == other.delivered && one.missing == other.missing
           && one.last == other.last;
}

/* One call after another, on the buffers that should come out. */
static barzhilup_batch one_by_one(barzhilup_receiver receiver)
{
    barzhilup_batch b = {0, 0, 0, 0, receiver};
    uint8_t *pdu = should.pdus + GUARD;
    for (; b.taken < count; b.taken++) {
        size_t length = should.lengths[1 + b.taken];
        barzhilup_received a =
            barzhilup_receive(b.receiver, should.carry + GUARD, carry_length, pdu, length,
                              should.log + GUARD + b.words, log_length - b.words);
        b.receiver = a.receiver;
        b.refusal = a.refusal;
        b.wrong_locator = a.wrong_locator;
        if (a.refusal != 0)
            return b;
        b.words += a.words;
        pdu += length;
    }
    return b;
}

static barzhilup_batch receive_lent(barzhilup_receiver receiver)
{
    return barzhilup_receive_batch(receiver, is.carry + GUARD, carry_length, is.pdus + GUARD,
                                   pdus_length, is.lengths + 1, count, is.log + GUARD, log_length);
}

static void compare(barzhilup_batch is_so, barzhilup_batch wanted, const char *what,
                    unsigned long which)
{
    check(is_so.refusal == wanted.refusal && is_so.wrong_locator == wanted.wrong_locator, what,
          which);
    check(is_so.taken == wanted.taken, "PDUs taken", which);
    check(is_so.words == wanted.words, "words written", which);
    check(same_receiver(is_so.receiver, wanted.receiver), "receiver afterwards", which);
    check(memcmp(is.carry, should.carry, sizeof is.carry) == 0, "carry afterwards", which);
    check(memcmp(is.pdus, should.pdus, sizeof is.pdus) == 0, "PDUs afterwards", which);
    check(memcmp(is.lengths, should.lengths, sizeof is.lengths) == 0, "lengths as lent", which);
    check(memcmp(is.log, should.log, sizeof is.log) == 0, "log afterwards", which);
}

/* Receives the batch, and compares it with one call after another. */
static barzhilup_batch batch(barzhilup_receiver receiver, const char *what, unsigned long which)
{
    barzhilup_batch wanted, b;
    memcpy(&should, &is, sizeof is);
    wanted = one_by_one(receiver);
    b = receive_lent(receiver);
    compare(b, wanted, what, which);
    return b;
}

/* Receives the batch, which is refused with a number before its first PDU. */
static void refused(barzhilup_receiver receiver, uint32_t number, const char *what,
                    unsigned long which)
{
    barzhilup_batch wanted = {0, 0, 0, 0, receiver};
    wanted.refusal = number;
    memcpy(&should, &is, sizeof is);
    compare(receive_lent(receiver), wanted, what, which);
}

static barzhilup_receiver opened(unsigned line, uint8_t crc_start)
{
    return barzhilup_open_receiver_with(table[line][0], table[line][1], crc_start).receiver;
}

/* ---- Batches of none to twenty ------------------------------------------- */

static void test_accepted(void)
{
    unsigned line, many, turn;
    for (line = 0; line < 10; line++)
        for (many = 0; many <= MOST; many++)
            for (turn = 0; turn < 5; turn++) {
                uint8_t start = (uint8_t)random_below(256);
                barzhilup_receiver receiver = opened(line, start);
                barzhilup_batch b;
                new_list(line, start);
                fill();
                join_written(many);
                b = batch(receiver, "batch", many);
                check(b.refusal == 0 && b.taken == many, "accepted", many);
            }
    report("batches of none to twenty PDUs, in each mode and stream");
}

/* A batch of eight in a log of 8,400 words for each, and in one of just as many
 * words as it takes. */
static void test_eight(void)
{
    static uint32_t enough[8 * BARZHILUP_LOG_WORDS];
    barzhilup_batch b;
    size_t words;

    new_list(0, 0);
    fill();
    join_written(8);
    memcpy(&should, &is, sizeof is);
    words = one_by_one(opened(0, 0)).words;
    b = barzhilup_receive_batch(opened(0, 0), is.carry + GUARD, CARRY, is.pdus + GUARD, pdus_length,
                                is.lengths + 1, 8, enough, 8 * BARZHILUP_LOG_WORDS);
    check(b.refusal == 0 && b.taken == 8 && b.words == words, "eight", 0);
    check(memcmp(enough, should.log + GUARD, words * sizeof enough[0]) == 0, "eight", 1);
    report("eight PDUs, 8,400 words for each");
}

/* ---- Each number at each place ------------------------------------------- */

static void spoil_header(uint8_t *pdu)
{
    uint8_t copy[96];
    unsigned k;
    do {
        memcpy(copy, pdu, 96);
        for (k = 0; k < 12; k++)
            copy[random_below(96)] ^= (uint8_t)(1 + random_below(255));
        k = (unsigned)barzhilup_correct_header(copy, 96).refusal;
    } while (k != BARZHILUP_REFUSED_UNCORRECTABLE);
    memcpy(pdu, copy, 96);
}

/* Makes a PDU of mode 0, core, with pieces and a displacement one that is refused
 * with this number, 3 to 12; answers its length. */
static size_t spoil(uint8_t *pdu, size_t length, uint32_t number)
{
    size_t expansion = 14 + 2 * (size_t)(pdu[12] >> 1 & 63);
    switch (number) {
    case BARZHILUP_REFUSED_PDU_LENGTH:
        return random_below(96);
    case BARZHILUP_REFUSED_UNCORRECTABLE:
        spoil_header(pdu);
        return length;
    case BARZHILUP_REFUSED_MODE:
        pdu[8] |= 15;
        break;
    case BARZHILUP_REFUSED_OTHER_MODE:
        pdu[8] |= 1;
        break;
    case BARZHILUP_REFUSED_SEQUENCE:
        pdu[9] |= 1;
        break;
    case BARZHILUP_REFUSED_PIECES:
        pdu[12] &= 0x81;
        pdu[11] |= 2;
        break;
    case BARZHILUP_REFUSED_LA:
        pdu[13] = 13;
        break;
    case BARZHILUP_REFUSED_EXPANSION:
        pdu[expansion] = 0;
        break;
    case BARZHILUP_REFUSED_LOCATOR:
        pdu[expansion - 2] = pdu[expansion - 1] = 0;
        break;
    default: /* a displacement of 0 */
        pdu[expansion + 1] = 0x80;
        pdu[expansion + 2] = 0;
    }
    barzhilup_write_parity(pdu, length);
    return length;
}

/* A batch of mode 0, core, of which one PDU is refused. Its bytes and those after
 * it stay as they came. */
static void check_refused_at(uint32_t number, unsigned place, unsigned many)
{
    unsigned k, which = number * 1000 + place * 30 + many;
    uint8_t pdu[LONGEST];
    barzhilup_batch b;

    new_list(0, 0);
    fill();
    for (k = 0; k < many; k++) {
        size_t length = next_pdu(pdu), nop = pdu[12] >> 1 & 63;
        if (k == place) {
            check(nop > 0, "a PDU with pieces", which);
            length = spoil(pdu, length, number);
        }
        join(pdu, length);
        if (ended > PACKETS / 2)
            new_list(0, 0);
    }
    b = batch(opened(0, 0), "refused", which);
    check(b.refusal == number && b.taken == place, "refused at its place", which);
    check((b.wrong_locator != 0) <= (number == BARZHILUP_REFUSED_LOCATOR), "k", which);
}

static void test_numbers(void)
{
    uint32_t number;
    unsigned place, turn;
    for (number = 3; number <= 12; number++)
        for (place = 0; place < MOST; place++)
            for (turn = 0; turn < 5; turn++)
                check_refused_at(number, place, place + 1 + random_below(MOST - place));
    report("each number, 3 to 12, at each place of a batch");
}

/* ---- Logs ---------------------------------------------------------------- */

/* A log of just as many words as the first PDUs write is long enough for them; one
 * word less, and the last of them is refused with 13. */
static void check_logs(unsigned many)
{
    size_t after[MOST + 1];
    struct lent sent;
    barzhilup_batch b;
    unsigned place;

    new_list(0, 0);
    fill();
    join_written(many);
    sent = is;
    for (place = 0; place <= many; place++) {
        count = place;
        memcpy(&should, &is, sizeof is);
        after[place] = one_by_one(opened(0, 0)).words;
    }
    count = many;
    for (place = 0; place < many; place++) {
        if (after[place + 1] == after[place])
            continue; /* it writes no word */
        is = sent;
        log_length = after[place + 1] - 1;
        b = batch(opened(0, 0), "a word short", place);
        check(b.refusal == BARZHILUP_REFUSED_LOG_LENGTH && b.taken == place
                  && b.words == after[place],
              "a word short at its place", place);
        is = sent;
        log_length = after[many];
        b = batch(opened(0, 0), "just long enough", place);
        check(b.refusal == 0 && b.words == after[many], "just long enough", place);
    }
}

static void test_logs(void)
{
    unsigned many;
    for (many = 1; many <= MOST; many++)
        check_logs(many);
    report("logs a word short at each place");
}

/* ---- Before the first PDU ------------------------------------------------ */

/* 18 where the lengths do not sum to the buffer, whatever else is wrong with
 * PDUs. */
static void test_sums(void)
{
    static const size_t high = (size_t)1 << (8 * sizeof(size_t) - 1);
    barzhilup_receiver receiver = opened(0, 0);
    barzhilup_batch b;
    unsigned many;

    for (many = 1; many <= MOST; many++) {
        new_list(0, 0);
        fill();
        join_written(many);
        pdus_length--;
        refused(receiver, BARZHILUP_REFUSED_LENGTHS, "a byte too few", many);
        pdus_length += 2;
        refused(receiver, BARZHILUP_REFUSED_LENGTHS, "a byte too many", many);
        is.lengths[1] = 95;
        refused(receiver, BARZHILUP_REFUSED_LENGTHS, "first length 95, and a wrong sum", many);
        log_length = 0;
        refused(receiver, BARZHILUP_REFUSED_LENGTHS, "no log, and a wrong sum", many);
    }
    fill();
    pdus_length = 1;
    refused(receiver, BARZHILUP_REFUSED_LENGTHS, "no PDU, one byte", 0);
    /* Sums that would be right if they wrapped. */
    fill();
    pdus_length = 96;
    is.lengths[1] = high;
    is.lengths[2] = high;
    is.lengths[3] = 96;
    count = 3;
    refused(receiver, BARZHILUP_REFUSED_LENGTHS, "a sum past the largest size", 0);
    is.lengths[1] = (size_t)-1;
    is.lengths[2] = 97;
    count = 2;
    refused(receiver, BARZHILUP_REFUSED_LENGTHS, "a sum past the largest size", 1);
    /* Right sums of lengths that no PDU has. */
    fill();
    is.lengths[1] = 0;
    count = 1;
    refused(receiver, BARZHILUP_REFUSED_PDU_LENGTH, "one PDU of no bytes", 0);
    b = batch(receiver, "one PDU of no bytes", 1);
    check(b.refusal == BARZHILUP_REFUSED_PDU_LENGTH, "one PDU of no bytes", 2);
    report("the sum of the lengths");
}

/* 1 and 2 come before 18; the empty list is judged too. */
static void test_order(void)
{
    barzhilup_receiver receiver = opened(0, 0), wrong = receiver;
    unsigned many, sum;

    wrong.number = 1; /* though nothing is held */
    for (many = 0; many <= 3; many++)
        for (sum = 0; sum < 2; sum++) {
            new_list(0, 0);
            fill();
            join_written(many);
            pdus_length += sum;
            refused(wrong, BARZHILUP_REFUSED_STATE, "state", many * 2 + sum);
            carry_length = CARRY - 1;
            refused(wrong, BARZHILUP_REFUSED_STATE, "state and carry", many * 2 + sum);
            refused(receiver, BARZHILUP_REFUSED_CARRY_LENGTH, "carry", many * 2 + sum);
            carry_length = 0;
            refused(receiver, BARZHILUP_REFUSED_CARRY_LENGTH, "no carry", many * 2 + sum);
        }
    fill();
    log_length = 0;
    check(batch(receiver, "no PDU, no byte, no log", 0).refusal == 0, "accepted", 0);
    report("what is judged before the first PDU");
}

/* ---- Whole lists --------------------------------------------------------- */

/* Two receivers on one list, each with its carry and the logs of its calls,
 * joined: the first takes batches, the second one PDU after another. */
static struct road {
    barzhilup_receiver receiver;
    uint8_t carry[CARRY];
    uint32_t log[60 * WORDS];
    size_t words;
} roads[2];

/* Takes over the receiver, and the words that were written. */
static void go_on(struct road *road, barzhilup_receiver receiver, size_t words)
{
    road->receiver = receiver;
    road->words += words;
}

/* Marks a PDU lost. */
static void lose(struct road *road)
{
    barzhilup_received a =
        barzhilup_mark_lost(road->receiver, road->log + road->words, WORDS);
    check(a.refusal == 0, "marked lost", 0);
    go_on(road, a.receiver, a.words);
}

/* The PDUs of the batch one by one; one that is refused is marked lost. */
static void singly(struct road *road, uint8_t *pdus)
{
    size_t place;
    for (place = 0; place < count; place++) {
        size_t length = is.lengths[1 + place];
        barzhilup_received a = barzhilup_receive(road->receiver, road->carry, CARRY, pdus, length,
                                                 road->log + road->words, WORDS);
        if (a.refusal == 0)
            go_on(road, a.receiver, a.words);
        else
            lose(road);
        pdus += length;
    }
}

/* The same in batches: where a PDU is refused, those after it are another one. */
static void in_batches(struct road *road, uint8_t *pdus)
{
    size_t place = 0, left = pdus_length;
    for (;;) {
        barzhilup_batch b = barzhilup_receive_batch(
            road->receiver, road->carry, CARRY, pdus, left, is.lengths + 1 + place, count - place,
            road->log + road->words, WORDS);
        size_t next = place + b.taken + (b.refusal != 0);
        go_on(road, b.receiver, b.words);
        if (b.refusal != 0)
            lose(road);
        for (; place < next; place++) {
            pdus += is.lengths[1 + place];
            left -= is.lengths[1 + place];
        }
        if (b.refusal == 0)
            break;
    }
    check(place == count && left == 0, "all PDUs", count);
}

/* The next PDUs of the writer, of which the third and the last may be spoiled. */
static void some_pdus(unsigned many)
{
    static uint8_t copy[BYTES];
    fill();
    join_written(many);
    if (many > 2 && random_below(3) == 0)
        spoil_header(is.pdus + GUARD + is.lengths[1] + is.lengths[2]);
    if (many > 0 && random_below(6) == 0)
        spoil_header(is.pdus + GUARD + pdus_length - is.lengths[many]);
    memcpy(copy, is.pdus + GUARD, pdus_length);
    singly(&roads[1], copy);
    in_batches(&roads[0], is.pdus + GUARD);
    check(memcmp(copy, is.pdus + GUARD, pdus_length) == 0, "PDUs of a list", many);
}

static void test_lists(void)
{
    unsigned turn, k;
    for (turn = 0; turn < 300; turn++) {
        new_list(turn % 10, (uint8_t)turn);
        for (k = 0; k < 2; k++) {
            roads[k].receiver = opened(turn % 10, (uint8_t)turn);
            roads[k].words = 0;
        }
        while (ended < PACKETS) {
            some_pdus(random_below(9));
            if (random_below(4) == 0)
                for (k = 0; k < 2; k++)
                    lose(&roads[k]);
        }
        check(same_receiver(roads[0].receiver, roads[1].receiver), "receivers of a list", turn);
        check(memcmp(roads[0].carry, roads[1].carry, CARRY) == 0, "carries of a list", turn);
        check(roads[0].words == roads[1].words, "words of a list", turn);
        check(memcmp(roads[0].log, roads[1].log, roads[0].words * sizeof roads[0].log[0]) == 0,
              "logs of a list", turn);
    }
    report("lists of packets, in batches and one by one");
}

int main(void)
{
    test_accepted();
    test_eight();
    test_numbers();
    test_logs();
    test_sums();
    test_order();
    test_lists();
    printf("  batches: %lu checks, %lu failed\n", checks, failed);
    return failed == 0 ? 0 : 1;
}
