/*
 * Tests of receivers that are saved as words and loaded again (document 02, Asks 13 and 14):
 * the words of receivers, written down one by one; every receiver's words, in buffers
 * at their edges; each refusal with the numbers before it; words of older firmware;
 * words with any bit altered, or one too many or too few; and drives that are cut at
 * each PDU, by each of the receiving calls, beside one that is never interrupted.
 *
 * Which words are those of a receiver is told here from the table of kinds: they are
 * taken apart, and have to be just the words that the table gives for the fields found.
 */
#include "barzhilup.h"

#include <stdio.h>
#include <string.h>

#define CARRY BARZHILUP_CARRY_BYTES
#define ROOM (BARZHILUP_SNAPSHOT_WORDS + 8) /* words of a buffer */

/* ---- Counting ------------------------------------------------------------ */

static unsigned long checks, failed, checks_before;

/* One check; `which` tells the cases of one kind apart. */
static void check(int holds, const char *what, unsigned long which)
{
    checks++;
    if (holds)
        return;
    failed++;
    if (failed <= 20)
        printf("  WRONG: %s, case %lu\n", what, which);
}

/* Says how many checks were made since the last call. */
static void report(const char *what)
{
    printf("  %s: %lu checks\n", what, checks - checks_before);
    checks_before = checks;
}

/* ---- Repeatable random numbers ------------------------------------------- */

static uint32_t state = 2463534242u;

static uint32_t random_below(uint32_t n)
{
    state ^= state << 13;
    state ^= state >> 17;
    state ^= state << 5;
    return state % n;
}

static void random_bytes(uint8_t *bytes, size_t length)
{
    size_t i;
    for (i = 0; i < length; i++)
        bytes[i] = (uint8_t)random_below(256);
}

/* ---- Modes and receivers ------------------------------------------------- */

static const uint8_t table[10][2] = {{0, 0}, {1, 0}, {2, 0},  {3, 0},  {1, 1},
                                     {2, 1}, {3, 1}, {10, 0}, {10, 1}, {13, 0}};

static int in_table(unsigned mode, unsigned stream)
{
    size_t i;
    for (i = 0; i < 10; i++)
        if (table[i][0] == mode && table[i][1] == stream)
            return 1;
    return 0;
}

/* The core streams of sequence range 0-7, which keep the applied services. */
static int keeps(unsigned mode, unsigned stream)
{
    return stream == 0 && (mode == 1 || mode == 2 || mode == 3 || mode == 13);
}

static unsigned sequences(unsigned mode, unsigned stream)
{
    return keeps(mode, stream) || (mode == 10 && stream == 1) ? 8 : 2;
}

/* What document 01 and Asks 10 and 14 ask of a receiver's fields. */
static int in_range(barzhilup_receiver r)
{
    return in_table(r.mode, r.stream) && r.sequence < sequences(r.mode, r.stream)
           && (r.known || r.sequence == 0) && r.held <= 4096 && r.number <= 63
           && (r.held > 0 || r.number == 0) && r.services <= 7
           && (r.serviced ? keeps(r.mode, r.stream) : r.services == 0) && r.last <= 63
           && (r.delivered > 0 || (r.missing == 0 && r.last == 0));
}

static int same_receiver(barzhilup_receiver one, barzhilup_receiver other)
{
    return one.mode == other.mode && one.stream == other.stream
           && one.crc_start == other.crc_start && one.entitled == other.entitled
           && one.known == other.known && one.sequence == other.sequence
           && one.held == other.held && one.number == other.number
           && one.serviced == other.serviced && one.services == other.services
           && one.delivered == other.delivered && one.missing == other.missing
           && one.last == other.last;
}

/* What a refused call hands back. */
static barzhilup_receiver nobody(void)
{
    barzhilup_receiver r;
    memset(&r, 0, sizeof r);
    r.mode = 255;
    return r;
}

/* A count of packets: small, near its limit, or any. */
static uint32_t some_count(void)
{
    switch (random_below(4)) {
    case 0:
        return random_below(3);
    case 1:
        return 0xffffffffu - random_below(3);
    case 2:
        return 65535 + random_below(3);
    default:
        return random_below(65536) << 16 | random_below(65536);
    }
}

/* Any receiver of a line of the table that holds so many bytes. */
static barzhilup_receiver some_receiver(unsigned line, unsigned held)
{
    barzhilup_receiver r = nobody();
    r.mode = table[line][0];
    r.stream = table[line][1];
    r.crc_start = (uint8_t)random_below(256);
    r.entitled = (uint8_t)random_below(256);
    r.known = random_below(4) > 0;
    if (r.known)
        r.sequence = (uint8_t)random_below(sequences(r.mode, r.stream));
    r.held = (uint16_t)held;
    if (held > 0)
        r.number = (uint8_t)random_below(64);
    r.serviced = keeps(r.mode, r.stream) && random_below(3) > 0;
    if (r.serviced)
        r.services = (uint8_t)random_below(8);
    r.delivered = some_count();
    if (r.delivered > 0) {
        r.missing = some_count();
        r.last = (uint8_t)random_below(64);
    }
    return r;
}

/* ---- The words of a receiver, by the table of kinds ---------------------- */

#define KIND(kind) ((uint32_t)(kind) << 28)

/* A receiver with the bytes that it holds, and whether words have kinds 3 and 4. */
struct told {
    barzhilup_receiver receiver;
    uint8_t bytes[CARRY];
    int with_3, with_4;
};

/* Its words; answers how many there are. */
static size_t words_of(const struct told *t, uint32_t *words)
{
    const barzhilup_receiver *r = &t->receiver;
    size_t count = 0, i;
    words[count++] = KIND(0) | (uint32_t)r->stream << 4 | r->mode;
    if (r->known)
        words[count++] = KIND(1) | r->sequence;
    if (r->held > 0)
        words[count++] = KIND(2) | (uint32_t)r->number << 16 | r->held;
    if (t->with_3)
        words[count++] = KIND(3) | r->crc_start;
    if (t->with_4)
        words[count++] =
            KIND(4) | (uint32_t)r->serviced << 11 | (uint32_t)r->services << 8 | r->entitled;
    for (i = 0; i < r->held; i++) {
        if (i % 3 == 0)
            words[count++] = KIND(5);
        words[count - 1] += 1u << 24;
        words[count - 1] |= (uint32_t)t->bytes[i] << (16 - 8 * (i % 3));
    }
    if (r->delivered > 0) {
        words[count++] = KIND(6) | r->delivered >> 16;
        words[count++] = KIND(6) | (r->delivered & 0xffff);
        words[count++] = KIND(6) | r->missing >> 16;
        words[count++] = KIND(6) | (r->missing & 0xffff);
        words[count++] = KIND(6) | r->last;
    }
    return count;
}

/* What the word of kind 6 after so many others adds to the counts; answers 0 where it is
 * one too many. */
static int take_count(barzhilup_receiver *r, uint32_t word, unsigned before)
{
    uint32_t half = word & 0xffff;
    switch (before) {
    case 0:
        r->delivered = half << 16;
        return 1;
    case 1:
        r->delivered |= half;
        return 1;
    case 2:
        r->missing = half << 16;
        return 1;
    case 3:
        r->missing |= half;
        return 1;
    case 4:
        r->last = (uint8_t)half;
        return 1;
    }
    return 0;
}

/* What a word adds to the fields; answers 0 where it can add nothing. */
static int take(struct told *t, uint32_t word, size_t *bytes, unsigned *counts)
{
    barzhilup_receiver *r = &t->receiver;
    uint32_t k;
    switch (word >> 28) {
    case 0:
        r->mode = word & 15;
        r->stream = word >> 4 & 3;
        return 1;
    case 1:
        r->known = true;
        r->sequence = word & 7;
        return 1;
    case 2:
        r->number = word >> 16 & 63;
        r->held = (uint16_t)word;
        return 1;
    case 3:
        t->with_3 = 1;
        r->crc_start = (uint8_t)word;
        return 1;
    case 4:
        t->with_4 = 1;
        r->entitled = (uint8_t)word;
        r->services = word >> 8 & 7;
        r->serviced = (word >> 11 & 1) != 0;
        return 1;
    case 5:
        for (k = 0; k < (word >> 24 & 3) && *bytes < CARRY; k++)
            t->bytes[(*bytes)++] = (uint8_t)(word >> (16 - 8 * k));
        return 1;
    case 6:
        return take_count(r, word, (*counts)++);
    }
    return 0;
}

/* Takes words apart; answers whether they are those of a receiver. */
static int told_by(const uint32_t *words, size_t count, struct told *t)
{
    static uint32_t again[ROOM];
    size_t i, bytes = 0;
    unsigned counts = 0;
    memset(t, 0, sizeof *t);
    for (i = 0; i < count; i++)
        if (!take(t, words[i], &bytes, &counts))
            return 0;
    return count > 0 && in_range(t->receiver) && words_of(t, again) == count
           && memcmp(again, words, count * sizeof again[0]) == 0;
}

/* ---- Saving -------------------------------------------------------------- */

static uint8_t carry[CARRY + 5], carry_was[CARRY + 5];
static uint32_t buffer[ROOM], buffer_was[ROOM], words[ROOM];

/* Saves a receiver with a carry and a buffer of these lengths: it has to answer this,
 * and to write these words and no other. */
static void saves(barzhilup_receiver r, size_t carry_length, size_t length, uint32_t refusal,
                  size_t count, const char *what, unsigned long which)
{
    barzhilup_saved a;
    random_bytes((uint8_t *)buffer, sizeof buffer);
    memcpy(buffer_was, buffer, sizeof buffer);
    memcpy(carry_was, carry, sizeof carry);
    a = barzhilup_save_receiver(r, carry, carry_length, buffer, length);
    check(a.refusal == refusal && a.words == (refusal == 0 ? count : 0), what, which);
    if (refusal == 0)
        memcpy(buffer_was, words, count * sizeof words[0]);
    check(memcmp(buffer, buffer_was, sizeof buffer) == 0, "words written, the rest stays", which);
    check(memcmp(carry, carry_was, sizeof carry) == 0, "the carry is only read", which);
}

/* Puts the words of a receiver, with what the carry holds, into `words`. */
static size_t put_words(barzhilup_receiver r, int with_3, int with_4)
{
    static struct told t;
    t.receiver = r;
    t.with_3 = with_3;
    t.with_4 = with_4;
    memcpy(t.bytes, carry, CARRY);
    return words_of(&t, words);
}

/* Counts of held bytes at their edges. */
static const unsigned helds[] = {0, 1, 2, 3, 4, 5, 6, 7, 100, 4093, 4094, 4095, 4096};
#define HELDS (sizeof helds / sizeof helds[0])

static void test_saving(void)
{
    unsigned line, h, round;
    size_t most = 0;
    for (line = 0; line < 10; line++)
        for (h = 0; h < HELDS; h++)
            for (round = 0; round < 12; round++) {
                barzhilup_receiver r = some_receiver(line, helds[h]);
                unsigned long which = line * 100 + h;
                size_t count, length;
                random_bytes(carry, sizeof carry);
                count = put_words(r, 1, 1);
                most = count > most ? count : most;
                saves(r, CARRY, count, 0, count, "just long enough", which);
                saves(r, CARRY + 5, count + 7, 0, count, "longer", which);
                saves(r, CARRY, BARZHILUP_SNAPSHOT_WORDS, 0, count, "always enough", which);
                saves(r, CARRY, count - 1, BARZHILUP_REFUSED_WORD_BUFFER, 0, "one short", which);
                length = random_below((uint32_t)count);
                saves(r, CARRY, length, BARZHILUP_REFUSED_WORD_BUFFER, 0, "short", which);
                saves(r, CARRY, 0, BARZHILUP_REFUSED_WORD_BUFFER, 0, "no word", which);
                saves(r, CARRY - 1, length, BARZHILUP_REFUSED_CARRY_LENGTH, 0, "2 before 26",
                      which);
                saves(r, 0, ROOM, BARZHILUP_REFUSED_CARRY_LENGTH, 0, "no carry", which);
            }
    check(most == BARZHILUP_SNAPSHOT_WORDS && most == 1376, "1,376 words at most", most);
    report("saving");
}

/* A receiver that is not in range: 1, also with a carry and a buffer too short. */
static void saves_not(barzhilup_receiver r, const char *what, unsigned long which)
{
    check(!in_range(r), what, which);
    saves(r, CARRY, ROOM, BARZHILUP_REFUSED_STATE, 0, what, which);
    saves(r, CARRY - 1, ROOM, BARZHILUP_REFUSED_STATE, 0, "1 before 2", which);
    saves(r, CARRY, 0, BARZHILUP_REFUSED_STATE, 0, "1 before 26", which);
}

static void test_state(void)
{
    unsigned line, value, stream;
    for (line = 0; line < 10; line++) {
        barzhilup_receiver right = some_receiver(line, 5), r;
        for (value = sequences(right.mode, right.stream); value < 256; value++) {
            r = right;
            r.known = true;
            r.sequence = (uint8_t)value;
            saves_not(r, "sequence", value);
        }
        for (value = 1; value < 256; value++) {
            r = right;
            r.known = false;
            r.sequence = (uint8_t)value;
            saves_not(r, "sequence while unknown", value);
            r = right;
            r.held = 0;
            r.number = (uint8_t)value;
            saves_not(r, "number with nothing held", value);
            r = right;
            r.serviced = false;
            r.services = (uint8_t)value;
            saves_not(r, "services while unknown", value);
        }
        for (value = 0; value < 256; value++) {
            r = right;
            r.delivered = 1 + random_below(3);
            r.last = (uint8_t)value;
            if (value > 63)
                saves_not(r, "last number", value);
            r.delivered = r.missing = 0;
            if (value > 0)
                saves_not(r, "last number with nothing delivered", value);
            r.last = 0;
            r.missing = 1u << value % 32;
            saves_not(r, "missing with nothing delivered", value);
            r = right;
            r.number = (uint8_t)value;
            if (value > 63)
                saves_not(r, "number", value);
            r = right;
            r.serviced = true;
            r.services = (uint8_t)value;
            if (value > 7 || !keeps(r.mode, r.stream))
                saves_not(r, "services", value);
            r = right;
            r.serviced = false;
            r.services = 0;
            r.known = false;
            r.sequence = 0;
            r.mode = (uint8_t)value;
            for (stream = 0; stream < 256; stream += stream < 4 ? 1 : 63) {
                r.stream = (uint8_t)stream;
                if (!in_table(value, stream))
                    saves_not(r, "mode and stream", value);
            }
        }
        r = right;
        for (value = 4097; value < 65536; value = value < 4100 ? value + 1 : value * 2 - 1) {
            r.held = (uint16_t)value;
            saves_not(r, "held", value);
        }
        r.held = 65535;
        saves_not(r, "held", 65535);
    }
    report("number 1");
}

/* ---- Loading ------------------------------------------------------------- */

static uint8_t loaded_carry[CARRY + 5];

/* Loads so many of the words with a carry of this length: what the table of kinds tells
 * of them has to come. Answers the number. */
static uint32_t loads(size_t count, size_t carry_length, unsigned long which)
{
    static struct told t;
    static uint8_t was[CARRY + 5];
    static uint32_t words_were[ROOM];
    barzhilup_receiver_opened o;
    int right = told_by(words, count, &t);
    uint32_t refusal = carry_length < CARRY ? BARZHILUP_REFUSED_CARRY_LENGTH
                       : right              ? BARZHILUP_ACCEPTED
                                            : BARZHILUP_REFUSED_WORDS;
    random_bytes(loaded_carry, 64);
    random_bytes(loaded_carry + CARRY - 64, 64 + 5);
    memcpy(was, loaded_carry, sizeof was);
    memcpy(words_were, words, sizeof words);
    o = barzhilup_load_receiver(words, count, loaded_carry, carry_length);
    check(o.refusal == refusal, "loading, number", which);
    check(same_receiver(o.receiver, refusal == 0 ? t.receiver : nobody()), "receiver", which);
    if (refusal == 0)
        memcpy(was, t.bytes, t.receiver.held);
    check(memcmp(loaded_carry, was, sizeof was) == 0, "held bytes first, the rest stays", which);
    check(memcmp(words, words_were, sizeof words) == 0, "the words are only read", which);
    return o.refusal;
}

/* Every receiver is loaded as it was saved, and with kinds 3 and 4 absent. */
static void test_loading(void)
{
    unsigned line, h, older;
    for (line = 0; line < 10; line++)
        for (h = 0; h < HELDS; h++)
            for (older = 0; older < 4; older++) {
                barzhilup_receiver r = some_receiver(line, helds[h]), wanted = r;
                unsigned long which = line * 100 + h;
                size_t count;
                random_bytes(carry, sizeof carry);
                if (older % 2 != 0)
                    wanted.crc_start = 0;
                if (older / 2 != 0) {
                    wanted.entitled = wanted.services = 0;
                    wanted.serviced = false;
                }
                count = put_words(r, older % 2 == 0, older / 2 == 0);
                check(loads(count, CARRY, which) == 0, "loaded", which);
                check(same_receiver(barzhilup_load_receiver(words, count, loaded_carry, CARRY + 5)
                                        .receiver,
                                    wanted),
                      "as it was saved", which);
                check(memcmp(loaded_carry, carry, r.held) == 0, "held", which);
                loads(count, CARRY - 1, which);
                loads(count, 0, which);
                check(loads(count - 1, CARRY, which) != 0 || helds[h] == 0, "one less", which);
                words[count] = KIND(5) | 0x01000000u;
                check(loads(count + 1, CARRY, which) != 0, "one more", which);
                words[count] = KIND(6);
                check(loads(count + 1, CARRY, which) != 0, "one more", which);
            }
    report("loading, with words of older firmware");
}

/* Says that these words are refused with 25, and with a carry too short with 2. */
static void not_words(const uint32_t *list, size_t count, unsigned long which)
{
    memcpy(words, list, count * sizeof words[0]);
    check(loads(count, CARRY, which) == BARZHILUP_REFUSED_WORDS, "25", which);
    check(loads(count, CARRY - 1, which) == BARZHILUP_REFUSED_CARRY_LENGTH, "2 before 25", which);
    check(barzhilup_mark_lost(barzhilup_load_receiver(words, count, carry, CARRY).receiver, buffer,
                              1)
                  .refusal
              == BARZHILUP_REFUSED_STATE,
          "turned down with 1", which);
}

#define NOT_WORDS(which, ...)                                      \
    do {                                                           \
        static const uint32_t list[] = {__VA_ARGS__};              \
        not_words(list, sizeof list / sizeof list[0], which);      \
    } while (0)

/* Over 4,096 bytes held, with words for all of them. */
static void test_too_many_held(void)
{
    static uint32_t list[ROOM];
    unsigned held;
    for (held = 4097; held < 4110; held++) {
        size_t count = 0;
        unsigned left;
        list[count++] = 0;
        list[count++] = KIND(2) | held;
        list[count++] = KIND(3);
        list[count++] = KIND(4);
        for (left = held; left >= 3; left -= 3)
            list[count++] = KIND(5) | 0x03112233u;
        if (left > 0)
            list[count++] = KIND(5) | (uint32_t)left << 24;
        not_words(list, count, held);
    }
}

/* Kind 6: any count of words but five and none, in each place; delivered 0; a last number
 * over 63; and each unused bit of each of the five. */
static void test_wrong_counts(void)
{
    static const uint32_t right[] = {0, KIND(3), KIND(4), KIND(6) | 0xffff, KIND(6) | 0xffff,
                                     KIND(6) | 0xffff, KIND(6) | 0xffff, KIND(6) | 63};
    uint32_t list[16];
    unsigned k, bit, count;
    memcpy(words, right, sizeof right);
    check(loads(8, CARRY, 0) == 0, "kind 6 at its most", 0);
    for (count = 4; count < 8; count++)
        not_words(right, count, count);
    for (count = 1; count < 6; count++) {
        memcpy(list, right, sizeof right);
        for (k = 0; k < count; k++)
            list[8 + k] = KIND(6) | k;
        not_words(list, 8 + count, count);
    }
    for (k = 3; k < 8; k++)
        for (bit = k == 7 ? 6 : 16; bit < 32; bit++) {
            memcpy(list, right, sizeof right);
            list[k] ^= 1u << bit;
            not_words(list, 8, k * 100 + bit);
        }
    for (k = 64; k < 65536; k++) {
        memcpy(words, right, sizeof right);
        words[7] = KIND(6) | k;
        if (k < 300 || k % 97 == 0)
            check(loads(8, CARRY, k) == BARZHILUP_REFUSED_WORDS, "a last number over 63", k);
    }
    NOT_WORDS(40, 0, KIND(3), KIND(4), KIND(6), KIND(6), KIND(6), KIND(6), KIND(6));
    NOT_WORDS(41, 0, KIND(3), KIND(4), KIND(6), KIND(6), KIND(6), KIND(6) | 1, KIND(6));
    NOT_WORDS(42, 0, KIND(3), KIND(4), KIND(6), KIND(6), KIND(6), KIND(6), KIND(6) | 1);
    NOT_WORDS(43, 0, KIND(3), KIND(6), KIND(6) | 1, KIND(6), KIND(6), KIND(6), KIND(4));
    NOT_WORDS(44, 0, KIND(2) | 1, KIND(3), KIND(4), KIND(6), KIND(6) | 1, KIND(6), KIND(6),
              KIND(6), 0x51440000);
    NOT_WORDS(45, KIND(6), KIND(6) | 1, KIND(6), KIND(6), KIND(6), 0, KIND(3), KIND(4));
}

/* The header's examples, and each defect of 25 written down. */
static void test_defects(void)
{
    static const uint32_t example[] = {0x00000001, 0x10000005, 0x20090004, 0x300000ff,
                                       0x40000909, 0x53112233, 0x51440000};
    static const uint32_t counted[] = {0x00000001, 0x10000005, 0x20090004, 0x300000ff,
                                       0x40000909, 0x53112233, 0x51440000, 0x60000001,
                                       0x60001170, 0x60000000, 0x60000003, 0x60000008};
    barzhilup_receiver r = {1, 0, 255, 9, true, 5, 4, 9, true, 1, 0, 0, 0};
    size_t count;
    memcpy(carry, "\x11\x22\x33\x44", 4);
    count = put_words(r, 1, 1);
    check(count == 7 && memcmp(words, example, sizeof example) == 0, "the example", 0);
    saves(r, CARRY, 7, 0, 7, "the example saved", 0);
    check(loads(7, CARRY, 0) == 0, "the example loaded", 0);
    r.delivered = 70000;
    r.missing = 3;
    r.last = 8;
    count = put_words(r, 1, 1);
    check(count == 12 && memcmp(words, counted, sizeof counted) == 0, "with counts", 0);
    saves(r, CARRY, 12, 0, 12, "with counts, saved", 0);
    check(loads(12, CARRY, 0) == 0, "with counts, loaded", 0);

    not_words(example, 0, 1);                                  /* no words */
    not_words(example + 1, 6, 2);                              /* no kind 0 */
    NOT_WORDS(3, 0x00000004, 0x30000000, 0x40000000);          /* mode 4 */
    NOT_WORDS(4, 0x00000010, 0x30000000, 0x40000000);          /* mode 0, enhanced */
    NOT_WORDS(5, 0x00000021, 0x30000000, 0x40000000);          /* stream 2 */
    NOT_WORDS(6, 0x00000041, 0x30000000, 0x40000000);          /* an unused bit */
    NOT_WORDS(7, 0, 0, 0x30000000, 0x40000000);                /* kind 0 again */
    NOT_WORDS(8, 0, 0x10000002, 0x30000000, 0x40000000);       /* sequence 2 of 0 to 1 */
    NOT_WORDS(9, 1, 0x10000008, 0x30000000, 0x40000000);       /* sequence 8 */
    NOT_WORDS(10, 0, 0x20000000, 0x30000000, 0x40000000);      /* nothing held */
    NOT_WORDS(11, 0, 0x20000001, 0x30000000, 0x40000000);      /* 2 without 5 */
    NOT_WORDS(12, 0, 0x30000000, 0x40000000, 0x51440000);      /* 5 without 2 */
    NOT_WORDS(13, 0, 0x20000001, 0x30000000, 0x40000000, 0x50000000); /* count 0 */
    NOT_WORDS(14, 0, 0x20000001, 0x30000000, 0x40000000, 0x51440001); /* an unused byte */
    NOT_WORDS(15, 0, 0x20000001, 0x30000000, 0x40000000, 0x55440000); /* an unused bit */
    NOT_WORDS(16, 0, 0x20000001, 0x30000000, 0x40000000, 0x52440000); /* two for one */
    NOT_WORDS(17, 0, 0x20000004, 0x30000000, 0x40000000, 0x52112200, 0x52334400); /* short */
    NOT_WORDS(18, 0, 0x20000004, 0x30000000, 0x40000000, 0x51110000, 0x53223344); /* short */
    NOT_WORDS(19, 0, 0x20400001, 0x30000000, 0x40000000, 0x51440000); /* number 64 */
    NOT_WORDS(20, 0, 0x30000100, 0x40000000);                  /* register 256 */
    NOT_WORDS(21, 1, 0x30000000, 0x40000100);                  /* services while unknown */
    NOT_WORDS(22, 0, 0x30000000, 0x40000800);                  /* known for mode 0 */
    NOT_WORDS(23, 0x1a, 0x30000000, 0x40000800);               /* known for mode 10, enhanced */
    NOT_WORDS(24, 1, 0x30000000, 0x40001000);                  /* an unused bit */
    NOT_WORDS(25, 0, 0x40000000, 0x30000000);                  /* kinds that do not rise */
    NOT_WORDS(26, 0, 0x30000000, 0x30000000, 0x40000000);      /* kind 3 again */
    NOT_WORDS(27, 0, 0x30000000, 0x40000000, 0x70000000);      /* an unknown kind */
    NOT_WORDS(28, 0, 0x30000000, 0x40000000, 0xf0000000);      /* an unknown kind */
    test_too_many_held();
    test_wrong_counts();
    report("the words of 25");
}

/* Any bit of any word altered; words left out, doubled and swapped. */
static void test_damage(void)
{
    unsigned line, h, round;
    unsigned long accepted = 0, refused = 0;
    for (line = 0; line < 10; line++)
        for (h = 0; h < HELDS; h++)
            for (round = 0; round < 400; round++) {
                size_t count, place, other;
                uint32_t word;
                if (round % 100 == 0)
                    random_bytes(carry, sizeof carry);
                count = put_words(some_receiver(line, helds[h]), round % 7 > 0, round % 5 > 0);
                place = random_below((uint32_t)(count > 8 && round % 2 == 0 ? 6 : count));
                if (count > 8 && round % 4 == 3)
                    place = count - 1 - random_below(6);
                other = random_below((uint32_t)count);
                word = words[place];
                switch (round / 4 % 4) {
                case 0:
                case 1:
                    words[place] ^= 1u << random_below(32);
                    break;
                case 2:
                    memmove(words + place, words + place + 1, (count - place) * sizeof words[0]);
                    count--;
                    break;
                default:
                    words[place] = words[other];
                    words[other] = word;
                }
                if (loads(count, CARRY, line * 100 + h) == 0)
                    accepted++;
                else
                    refused++;
            }
    printf("  words with damage: %lu loaded, %lu refused\n", accepted, refused);
    check(accepted > 3000 && refused > 20000, "both came", accepted);
    report("words with damage");
}

/* ---- Drives -------------------------------------------------------------- */

#define PDUS 24
#define LENGTH 150
#define LOG (8 * BARZHILUP_LOG_WORDS)

static uint8_t sent[PDUS][LENGTH];

/* Packets of any lengths, in PDUs of which some are withheld. */
static void write_drive(uint8_t mode, uint8_t stream, uint8_t crc_start)
{
    static uint8_t bytes[64 * 300];
    uint16_t lengths[64];
    size_t first = 0, from = 0, i, total = 0;
    barzhilup_writer writer = barzhilup_open_writer_with(mode, stream, crc_start).writer;
    for (i = 0; i < 64; i++)
        total += lengths[i] = (uint16_t)(1 + random_below(i % 3 == 0 ? 300 : 40));
    random_bytes(bytes, total);
    for (i = 0; i < PDUS; i++) {
        barzhilup_settings settings;
        barzhilup_written a;
        uint32_t n;
        memset(&settings, 0, sizeof settings);
        settings.programmed = settings.typed = settings.serviced = true;
        settings.program = (uint8_t)random_below(4);
        if (settings.program > 0 && random_below(2) == 0) {
            settings.classed = true;
            settings.class_code = settings.access = settings.services = 1;
        }
        a = barzhilup_write(writer, settings, bytes, 0, lengths + first, 64 - first, bytes + from,
                            total - from, sent[i], LENGTH);
        check(a.refusal == 0, "written", i);
        writer = a.writer;
        for (n = 0; n < a.ended; n++) {
            from += lengths[first];
            first++;
        }
    }
}

/* A receiver on its drive. */
struct drive {
    barzhilup_receiver receiver;
    uint8_t carry[CARRY];
    uint32_t log[LOG];
    size_t words;
};

/* Takes PDU i by the call that its turn has; every seventh is lost. */
static void step(struct drive *d, size_t i, unsigned turn)
{
    static uint8_t pdu[LENGTH], copy[LENGTH];
    static const size_t one[1] = {LENGTH};
    static const uint8_t marks[2] = {20, 90};
    uint32_t *log = d->log + d->words;
    size_t left = LOG - d->words;
    barzhilup_received a;
    memcpy(pdu, sent[i], LENGTH);
    memcpy(copy, sent[i], LENGTH);
    pdu[20] ^= (uint8_t)(i + 1);
    copy[LENGTH - 1] ^= (uint8_t)(i % 2);
    memset(&a, 0, sizeof a);
    switch (i % 7 == 6 ? 4 : (i + turn) % 4) {
    case 0:
        a = barzhilup_receive(d->receiver, d->carry, CARRY, pdu, LENGTH, log, left);
        break;
    case 1:
        a = barzhilup_receive_marked(d->receiver, d->carry, CARRY, pdu, LENGTH, marks, 2, log,
                                     left);
        break;
    case 2: {
        barzhilup_batch b = barzhilup_receive_batch(d->receiver, d->carry, CARRY, pdu, LENGTH, one,
                                                    1, log, left);
        a.refusal = b.refusal;
        a.words = (uint32_t)b.words;
        a.receiver = b.receiver;
        break;
    }
    case 3:
        a = barzhilup_receive_pair(d->receiver, d->carry, CARRY, pdu, LENGTH, copy, LENGTH, log,
                                   left);
        break;
    default:
        a = barzhilup_mark_lost(d->receiver, log, left);
    }
    check(a.refusal == 0, "accepted", i);
    d->receiver = a.receiver;
    d->words += a.words;
}

/* Saves the receiver, and loads it with another carry. */
static void interrupt(struct drive *d, unsigned long which)
{
    static uint8_t other[CARRY];
    barzhilup_saved saved = barzhilup_save_receiver(d->receiver, d->carry, CARRY, buffer,
                                                    BARZHILUP_SNAPSHOT_WORDS);
    barzhilup_receiver_opened loaded;
    random_bytes(other, CARRY);
    check(saved.refusal == 0, "saved", which);
    loaded = barzhilup_load_receiver(buffer, saved.words, other, CARRY);
    check(loaded.refusal == 0 && same_receiver(loaded.receiver, d->receiver), "loaded", which);
    check(memcmp(other, d->carry, d->receiver.held) == 0, "held bytes", which);
    d->receiver = loaded.receiver;
    memcpy(d->carry, other, CARRY);
}

/* Goes through the PDUs, interrupted before PDU `cut`; PDUS + 1 is at each of them, and
 * PDUS + 2 never. */
static void go(struct drive *d, barzhilup_receiver r, size_t cut, unsigned turn)
{
    size_t i;
    random_bytes(d->carry, CARRY);
    d->receiver = r;
    d->words = 0;
    for (i = 0; i <= PDUS; i++) {
        if (cut == i || cut == PDUS + 1)
            interrupt(d, i);
        if (i < PDUS)
            step(d, i, turn);
    }
}

static void test_drives(void)
{
    static struct drive plain, cut_up;
    unsigned long held = 0, drives = 0, logged = 0;
    unsigned line, turn;
    size_t cut;
    for (line = 0; line < 10; line++)
        for (turn = 0; turn < 4; turn++) {
            static const uint8_t programs[2] = {0, 2};
            const uint8_t mode = table[line][0], stream = table[line][1];
            const uint8_t crc_start = turn % 2 == 0 ? 255 : (uint8_t)random_below(256);
            barzhilup_receiver r =
                barzhilup_open_receiver_entitled(mode, stream, crc_start, programs, 2).receiver;
            write_drive(mode, stream, crc_start);
            go(&plain, r, PDUS + 2, turn);
            for (cut = 0; cut < PDUS + 2; cut++) {
                go(&cut_up, r, cut, turn);
                check(cut_up.words == plain.words
                          && memcmp(cut_up.log, plain.log, plain.words * sizeof plain.log[0]) == 0,
                      "logs", line * 100 + cut);
                check(same_receiver(cut_up.receiver, plain.receiver), "receivers", cut);
                check(memcmp(cut_up.carry, plain.carry, plain.receiver.held) == 0, "held", cut);
                held += cut_up.receiver.held > 0;
                drives++;
            }
            logged += plain.words;
        }
    printf("  %lu drives of %d PDUs, each cut, beside 40 whole ones, %lu words logged by these\n",
           drives, PDUS, logged);
    check(held > 100 && logged > 10000, "enough held and logged", held);
    report("drives");
}

int main(void)
{
    random_bytes(carry, sizeof carry);
    test_saving();
    test_state();
    test_loading();
    test_defects();
    test_damage();
    test_drives();
    printf("%lu checks, %lu wrong\n", checks, failed);
    return failed == 0 ? 0 : 1;
}
