/*
 * Tests of the C library's joining of two logs (document 02, Ask 11): joins by
 * hand, words that are no log with each cause, lengths at their limits, numbers
 * that do not rise, result buffers of every length, and random logs held to a join
 * that is made here from the packets themselves.
 *
 * Both logs and the result lie between guards, and after each call they are
 * compared whole with what they should hold.
 */
#include "barzhilup.h"

#include <stdio.h>
#include <string.h>

#define MOST 4096
#define GUARD 4

/* ---- Counting ------------------------------------------------------------ */

static unsigned long checks, failed, checks_before;

/* One check; `which` tells the cases of one kind apart. */
static void check(int holds, const char *what, unsigned long which)
{
    checks++;
    if (holds)
        return;
    failed++;
    if (failed <= 20)
        printf("  WRONG: %s, case %lu\n", what, which);
}

/* Says how many checks were made since the last call. */
static void report(const char *what)
{
    printf("  %s: %lu checks\n", what, checks - checks_before);
    checks_before = checks;
}

/* ---- Repeatable random numbers ------------------------------------------- */

static uint32_t state = 777767777u;

static uint32_t random_below(uint32_t n)
{
    state ^= state << 13;
    state ^= state >> 17;
    state ^= state << 5;
    return state % n;
}

/* ---- What is lent -------------------------------------------------------- */

/* Words between guards. */
typedef struct {
    uint32_t words[MOST + 2 * GUARD];
    size_t length;
} row;

static uint32_t *first(row *r)
{
    return r->words + GUARD;
}

/* A row of these words; everything else is random. */
static void lend(row *r, const uint32_t *words, size_t length)
{
    size_t i;
    for (i = 0; i < MOST + 2 * GUARD; i++)
        r->words[i] = random_below(0xffffffffu);
    if (length > 0)
        memcpy(first(r), words, length * sizeof *words);
    r->length = length;
}

static row core, enhanced, result, before[3];

/* Joins what is lent into a result of this room: the answer is as given, the result
 * has these words first, and nothing else has changed. */
static void expect(size_t room, uint32_t refusal, const uint32_t *words, size_t count,
                   const char *what, unsigned long which)
{
    barzhilup_joined answer;
    lend(&result, NULL, 0);
    before[0] = core;
    before[1] = enhanced;
    before[2] = result;
    if (count > 0)
        memcpy(first(&before[2]), words, count * sizeof *words);
    answer = barzhilup_join(first(&core), core.length, first(&enhanced), enhanced.length,
                            first(&result), room);
    check(answer.refusal == refusal, what, which);
    check(answer.words == count, what, which);
    check(memcmp(&core, &before[0], sizeof core) == 0, what, which);
    check(memcmp(&enhanced, &before[1], sizeof enhanced) == 0, what, which);
    check(memcmp(&result, &before[2], sizeof result) == 0, what, which);
}

/* ---- Joins by hand ------------------------------------------------------- */

static const uint32_t core_words[] = {
    0x003e0001, 0x41010000,             /* packet 62 */
    0xc0020001,                         /* a note */
    0x003f0001, 0x41020000,             /* packet 63 */
    0x80000004, 0x43090909, 0x41090000, /* PSD */
    0x00000001, 0x41030000,             /* packet 0 */
};

static const uint32_t enhanced_words[] = {
    0x003f0004, 0x43040506, 0x41070000, /* packet 63 */
    0x00000001, 0x41080000,             /* packet 0 */
    0x00010002, 0x42090900,             /* packet 1, without core */
};

static const uint32_t joined_words[] = {
    0x003e0001, 0x41010000,
    0x003f0001, 0x41020000, 0x203f0004, 0x43040506, 0x41070000,
    0x00000001, 0x41030000, 0x20000001, 0x41080000,
};

#define COUNT(words) (sizeof(words) / sizeof *(words))

static void by_hand(void)
{
    const uint32_t notes[] = {0xc0060000, 0xc0020003, 0xffffffff};
    const uint32_t twice[] = {0x00030001, 0x41010000, 0x00030001, 0x41010000};
    size_t room;

    lend(&core, core_words, COUNT(core_words));
    lend(&enhanced, enhanced_words, COUNT(enhanced_words));
    for (room = 0; room < 11; room++)
        expect(room, BARZHILUP_REFUSED_LOG_LENGTH, NULL, 0, "no room", room);
    for (room = 11; room < 30; room++)
        expect(room, BARZHILUP_ACCEPTED, joined_words, 11, "two pairs", room);

    /* a result with a pair is no log, neither as core nor as enhanced */
    lend(&core, joined_words, COUNT(joined_words));
    expect(40, BARZHILUP_REFUSED_LOG_WORDS, NULL, 0, "a result joined", 0);
    lend(&core, core_words, COUNT(core_words));
    lend(&enhanced, joined_words, COUNT(joined_words));
    expect(40, BARZHILUP_REFUSED_LOG_WORDS, NULL, 0, "a result joined", 1);

    /* no enhanced packet: core packets stand alone. The result, without a pair, is
     * what was joined: a log */
    lend(&enhanced, NULL, 0);
    lend(&core, core_words, 2);
    expect(2, BARZHILUP_ACCEPTED, core_words, 2, "alone", 0);
    expect(1, BARZHILUP_REFUSED_LOG_LENGTH, NULL, 0, "alone", 1);

    /* no core packet: the enhanced log's order makes no difference */
    lend(&enhanced, twice, COUNT(twice));
    lend(&core, notes, COUNT(notes));
    expect(0, BARZHILUP_ACCEPTED, NULL, 0, "notes alone", 0);
    lend(&core, NULL, 0);
    expect(0, BARZHILUP_ACCEPTED, NULL, 0, "no words", 0);

    /* numbers: 24 in either log, before 13 */
    lend(&core, core_words, COUNT(core_words));
    expect(0, BARZHILUP_REFUSED_NUMBERS, NULL, 0, "enhanced twice", 0);
    lend(&core, twice, COUNT(twice));
    lend(&enhanced, NULL, 0);
    expect(0, BARZHILUP_REFUSED_NUMBERS, NULL, 0, "core twice", 0);
    /* 23 in the other log comes before 24 */
    lend(&enhanced, joined_words, COUNT(joined_words));
    expect(0, BARZHILUP_REFUSED_LOG_WORDS, NULL, 0, "23 before 24", 0);
    report("joins by hand");
}

/* ---- Words that are no log ----------------------------------------------- */

static void no_logs(void)
{
    static const struct {
        uint32_t words[4];
        size_t count;
    } wrong[] = {
        {{0x00050004, 0x43112233}, 2},                         /* a data word missing */
        {{0x00050003, 0x43112233, 0x41440000}, 3},             /* one left over */
        {{0xc0060000, 0x41440000}, 2},                         /* after a note */
        {{0x41440000}, 1},                                     /* without an entry */
        {{0x00050004, 0x43112233, 0x42440000}, 3},             /* wrongly counted */
        {{0x00050004, 0x42112200, 0x42334400}, 3},             /* not filled by threes */
        {{0x00050001, 0x40440000}, 2},                         /* a count of 0 */
        {{0x00050004, 0x43112233, 0x41440001}, 3},             /* an unused byte */
        {{0x00050002, 0x42112280}, 2},
        {{0x00050000}, 1},                                     /* a length of 0 */
        {{0x80000000}, 1},
    };
    unsigned long which;
    int bit;

    for (which = 0; which < COUNT(wrong); which++) {
        lend(&core, wrong[which].words, wrong[which].count);
        lend(&enhanced, enhanced_words, COUNT(enhanced_words));
        expect(40, BARZHILUP_REFUSED_LOG_WORDS, NULL, 0, "core no log", which);
        lend(&enhanced, core_words, 0);
        expect(40, BARZHILUP_REFUSED_LOG_WORDS, NULL, 0, "core no log, alone", which);
        lend(&core, core_words, COUNT(core_words));
        lend(&enhanced, wrong[which].words, wrong[which].count);
        expect(40, BARZHILUP_REFUSED_LOG_WORDS, NULL, 0, "enhanced no log", which);
        lend(&core, core_words, 0);
        expect(40, BARZHILUP_REFUSED_LOG_WORDS, NULL, 0, "enhanced no log, no core", which);
    }

    /* bits without meaning, one by one, in words of packet, data and PSD */
    lend(&enhanced, NULL, 0);
    for (bit = 16; bit < 30; bit++) {
        if (bit >= 22) {
            lend(&core, core_words, 2);
            first(&core)[0] |= 1u << bit;
            expect(40, BARZHILUP_REFUSED_LOG_WORDS, NULL, 0, "packet's bit", bit);
        }
        if (bit >= 26) {
            lend(&core, core_words, 2);
            first(&core)[1] |= 1u << bit;
            expect(40, BARZHILUP_REFUSED_LOG_WORDS, NULL, 0, "data word's bit", bit);
        }
        lend(&core, core_words + 5, 3);
        expect(40, BARZHILUP_ACCEPTED, NULL, 0, "PSD", bit);
        first(&core)[0] |= 1u << bit;
        expect(40, BARZHILUP_REFUSED_LOG_WORDS, NULL, 0, "PSD's bit", bit);
    }
    report("words that are no log");
}

/* ---- Limits -------------------------------------------------------------- */

/* The words of an entry of `length` bytes, with its first word: how many. */
static size_t entry(uint32_t *words, uint32_t first_word, uint32_t length)
{
    size_t at = 0;
    uint32_t left;

    words[at++] = first_word;
    for (left = length; left > 0; left -= left < 3 ? left : 3)
        words[at++] = left >= 3 ? 0x43010203u : left == 2 ? 0x42010200u : 0x41010000u;
    return at;
}

/* The longest packet and one that is a byte longer, each with its data words; PSD
 * may be longer. */
static void lengths(void)
{
    static const struct {
        uint32_t length, packet, psd;
    } limits[] = {
        {1, BARZHILUP_ACCEPTED, BARZHILUP_ACCEPTED},
        {4095, BARZHILUP_ACCEPTED, BARZHILUP_ACCEPTED},
        {4096, BARZHILUP_ACCEPTED, BARZHILUP_ACCEPTED},
        {4097, BARZHILUP_REFUSED_LOG_WORDS, BARZHILUP_ACCEPTED},
        {4098, BARZHILUP_REFUSED_LOG_WORDS, BARZHILUP_ACCEPTED},
        {8192, BARZHILUP_REFUSED_LOG_WORDS, BARZHILUP_ACCEPTED},
    };
    uint32_t words[MOST];
    size_t which;

    for (which = 0; which < COUNT(limits); which++) {
        const uint32_t length = limits[which].length;
        size_t count = entry(words, 0x00050000u | length, length);
        const size_t written = limits[which].packet == BARZHILUP_ACCEPTED ? count : 0;
        lend(&core, words, count);
        lend(&enhanced, NULL, 0);
        expect(MOST, limits[which].packet, words, written, "core packet", length);
        lend(&core, NULL, 0);
        lend(&enhanced, words, count);
        expect(MOST, limits[which].packet, NULL, 0, "enhanced packet", length);
        count = entry(words, 0x80000000u | length, length);
        lend(&enhanced, NULL, 0);
        lend(&core, words, count);
        expect(MOST, limits[which].psd, NULL, 0, "core PSD", length);
        lend(&core, NULL, 0);
        lend(&enhanced, words, count);
        expect(MOST, limits[which].psd, NULL, 0, "enhanced PSD", length);
    }
    report("lengths");
}

/* Every three numbers of six, in either log: 24 unless each is above the one before
 * it, counted from the first, modulo 64. */
static void orders(void)
{
    static const uint32_t some[] = {5, 6, 7, 0, 4, 63};
    unsigned long which;

    for (which = 0; which < 216; which++) {
        const uint32_t a = some[which / 36], b = some[which / 6 % 6], c = some[which % 6];
        const uint32_t second = (b + 64 - a) % 64, third = (c + 64 - a) % 64;
        const int rises = second > 0 && third > second;
        const uint32_t words[] = {a << 16 | 1, 0x41010000, b << 16 | 1, 0x41020000,
                                  c << 16 | 1, 0x41030000};
        const uint32_t one[] = {0x00140001, 0x41090000};
        lend(&core, words, 6);
        lend(&enhanced, one, 2);
        expect(8, rises ? BARZHILUP_ACCEPTED : BARZHILUP_REFUSED_NUMBERS, words, rises ? 6 : 0,
               "core's order", which);
        lend(&core, one, 2);
        lend(&enhanced, words, 6);
        expect(8, rises ? BARZHILUP_ACCEPTED : BARZHILUP_REFUSED_NUMBERS, one, rises ? 2 : 0,
               "enhanced order", which);
    }
    report("orders of three numbers");
}

/* ---- Random logs --------------------------------------------------------- */

/* The place of a packet's first word in a log of random packets, by its number,
 * and how many words it has; 0 words if it is not there. */
typedef struct {
    size_t place[64], count[64];
    uint32_t order[64];
    size_t packets;
} contents;

/* A log of packets whose numbers rise, with PSD and notes between them. */
static void random_log(row *r, contents *c)
{
    uint32_t words[MOST];
    size_t at = 0;
    uint32_t number = random_below(64), offset = 0;

    memset(c, 0, sizeof *c);
    while (offset < 64 && at + 40 < MOST) {
        const uint32_t kind = random_below(8), n = (number + offset) % 64;
        const uint32_t length = 1 + random_below(90);
        uint32_t left;
        const size_t place = at;
        if (kind == 0) {
            words[at++] = 0xc0000000u | random_below(0x40000000u);
            continue;
        }
        words[at++] = kind == 1 ? 0x80000000u | length : n << 16 | length;
        for (left = length; left > 0; left -= left < 3 ? left : 3) {
            const uint32_t bytes = left < 3 ? left : 3;
            words[at++] = 0x40000000u | bytes << 24
                          | (random_below(0x1000000u) & 0xffffffu << 8 * (3 - bytes) & 0xffffffu);
        }
        if (kind == 1)
            continue;
        c->place[n] = place;
        c->count[n] = at - place;
        c->order[c->packets++] = n;
        offset += 1 + random_below(4);
    }
    lend(r, words, at);
}

static void random_logs(void)
{
    unsigned long which, pairs = 0, alone = 0;

    for (which = 0; which < 4000; which++) {
        contents c, e;
        uint32_t wanted[2 * MOST];
        size_t count = 0, i;
        random_log(&core, &c);
        random_log(&enhanced, &e);
        for (i = 0; i < c.packets; i++) {
            const uint32_t n = c.order[i];
            memcpy(wanted + count, first(&core) + c.place[n], c.count[n] * sizeof *wanted);
            count += c.count[n];
            memcpy(wanted + count, first(&enhanced) + e.place[n], e.count[n] * sizeof *wanted);
            if (e.count[n] > 0) {
                wanted[count] |= BARZHILUP_JOINED_ENHANCED;
                pairs++;
            } else {
                alone++;
            }
            count += e.count[n];
        }
        check(count <= core.length + enhanced.length, "room enough", which);
        if (count > MOST)
            continue;
        expect(MOST, BARZHILUP_ACCEPTED, wanted, count, "random logs", which);
        expect(count, BARZHILUP_ACCEPTED, wanted, count, "random logs, no room left", which);
        if (count > 0)
            expect(count - 1, BARZHILUP_REFUSED_LOG_LENGTH, NULL, 0, "one word short", which);
    }
    printf("  random logs: %lu pairs, %lu core packets alone\n", pairs, alone);
    report("random logs");
}

int main(void)
{
    by_hand();
    no_logs();
    lengths();
    orders();
    random_logs();
    printf("  join: %lu checks, %lu failed\n", checks, failed);
    return failed > 0;
}
