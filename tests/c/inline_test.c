/* The functions that stand in the header itself: words for refusals and notes, the walk through a log, and NULL for an empty buffer. */
#include <stdio.h>
#include <string.h>

#include "barzhilup.h"

static unsigned checks, wrong;

static void check(bool right, const char *what)
{
    checks++;
    if (!right) {
        wrong++;
        printf("wrong: %s\n", what);
    }
}

#define CHECK(condition) check(condition, #condition)

static uint8_t carry[BARZHILUP_CARRY_BYTES];
static uint32_t packet_log[BARZHILUP_LOG_WORDS];

static void versions(void)
{
    char text[16];
    CHECK(barzhilup_version() == BARZHILUP_VERSION);
    CHECK(BARZHILUP_VERSION
          == (BARZHILUP_VERSION_MAJOR << 16 | BARZHILUP_VERSION_MINOR << 8 | BARZHILUP_VERSION_PATCH));
    snprintf(text, sizeof text, "%d.%d.%d", BARZHILUP_VERSION_MAJOR, BARZHILUP_VERSION_MINOR, BARZHILUP_VERSION_PATCH);
    CHECK(strcmp(text, BARZHILUP_VERSION_STRING) == 0);
}

/* Each number has words of its own, and the ones next to them have none. */
static void texts(void)
{
    for (uint32_t n = 0; n <= 27; n++) {
        CHECK(strcmp(barzhilup_refusal_text(n), "unknown") != 0);
        for (uint32_t m = 0; m < n; m++)
            CHECK(strcmp(barzhilup_refusal_text(n), barzhilup_refusal_text(m)) != 0);
    }
    CHECK(strcmp(barzhilup_refusal_text(28), "unknown") == 0);
    for (uint32_t n = 1; n <= 8; n++) {
        CHECK(strcmp(barzhilup_note_text(n), "unknown") != 0);
        for (uint32_t m = 1; m < n; m++)
            CHECK(strcmp(barzhilup_note_text(n), barzhilup_note_text(m)) != 0);
    }
    CHECK(strcmp(barzhilup_note_text(0), "unknown") == 0);
    CHECK(strcmp(barzhilup_note_text(9), "unknown") == 0);
}

/* How many entries a walk finds, and where it stops. */
static size_t walked(const uint32_t *words, size_t count, size_t *place)
{
    barzhilup_log_iterator walk = barzhilup_log_begin(words, count);
    barzhilup_log_entry entry;
    size_t entries = 0;
    while (barzhilup_log_next(&walk, &entry))
        entries++;
    *place = walk.place;
    return entries;
}

static void entries(void)
{
    const uint32_t words[] = {0x80000003, 0x43505344, 0x00050004, 0x43112233, 0x41440000, 0xC0020007, 0x203F0001, 0x41990000};
    barzhilup_log_iterator walk = barzhilup_log_begin(words, 8);
    barzhilup_log_entry entry;
    uint8_t bytes[4] = {0, 0, 0, 0};
    CHECK(barzhilup_log_next(&walk, &entry) && entry.kind == BARZHILUP_LOG_PSD && entry.length == 3);
    CHECK(barzhilup_log_copy(&entry, bytes, sizeof bytes) == 3 && memcmp(bytes, "PSD\0", 4) == 0);
    CHECK(entry.number == 0 && entry.cause == 0 && entry.piece == 0 && !entry.enhanced);
    CHECK(barzhilup_log_next(&walk, &entry) && entry.kind == BARZHILUP_LOG_PACKET && entry.number == 5);
    CHECK(entry.length == 4 && !entry.enhanced && barzhilup_log_byte(&entry, 3) == 0x44);
    CHECK(barzhilup_log_copy(&entry, bytes, 2) == 2 && memcmp(bytes, "\x11\x22" "D\0", 4) == 0);
    CHECK(barzhilup_log_next(&walk, &entry) && entry.kind == BARZHILUP_LOG_NOTE && entry.length == 0);
    CHECK(entry.cause == BARZHILUP_NOTE_CRC && entry.piece == 7 && entry.number == 0);
    CHECK(barzhilup_log_copy(&entry, bytes, sizeof bytes) == 0);
    CHECK(barzhilup_log_next(&walk, &entry) && entry.number == 63 && entry.enhanced && entry.length == 1);
    CHECK(!barzhilup_log_next(&walk, &entry) && walk.place == 8);
    CHECK(!barzhilup_log_next(&walk, &entry) && walk.place == 8);
}

/* Words that cannot be walked end a walk at the entry that they are in; nothing past the last word is read. */
static void malformed(void)
{
    size_t place;
    CHECK(walked(NULL, 0, &place) == 0 && place == 0);
    {
        const uint32_t words[] = {0xC0060000, 0x41110000};
        CHECK(walked(words, 2, &place) == 1 && place == 1);
    }
    {
        const uint32_t words[] = {0xC0060000, 0x00050004, 0x43112233};
        CHECK(walked(words, 3, &place) == 1 && place == 1);
    }
    {
        const uint32_t words[] = {0x00050004, 0x42112200, 0x42334400};
        CHECK(walked(words, 3, &place) == 0 && place == 0);
    }
    {
        const uint32_t words[] = {0x00050001, 0x40000000};
        CHECK(walked(words, 2, &place) == 0 && place == 0);
    }
    {
        const uint32_t words[] = {0x0005FFFF};
        CHECK(walked(words, 1, &place) == 0 && place == 0);
    }
}

/* Words that a walk reads to the end, and what joining says of them: 23 where they are no log. */
static void passed_over(void)
{
    static uint32_t longest[1 + (BARZHILUP_PACKET_MAX + 3) / 3];
    static const struct {
        uint32_t words[2];
        size_t count;
        uint32_t joined;
    } rows[] = {
        {{0x00050001, 0x41110000}, 2, BARZHILUP_ACCEPTED},
        {{0x80000001, 0x41110000}, 2, BARZHILUP_ACCEPTED},
        {{0xC0090000, 0}, 1, BARZHILUP_ACCEPTED},          /* a cause that there is not */
        {{0xC0060007, 0}, 1, BARZHILUP_ACCEPTED},          /* lost, with a piece */
        {{0x00050000, 0}, 1, BARZHILUP_REFUSED_LOG_WORDS}, /* a packet's length of 0 */
        {{0x80000000, 0}, 1, BARZHILUP_REFUSED_LOG_WORDS}, /* PSD's */
        {{0x00450001, 0x41110000}, 2, BARZHILUP_REFUSED_LOG_WORDS}, /* bits without meaning: a packet's 22 */
        {{0x20050001, 0x41110000}, 2, BARZHILUP_REFUSED_LOG_WORDS}, /* its 29 */
        {{0x80010001, 0x41110000}, 2, BARZHILUP_REFUSED_LOG_WORDS}, /* PSD's 16 */
        {{0x00050001, 0x45110000}, 2, BARZHILUP_REFUSED_LOG_WORDS}, /* data's 26 */
        {{0x00050001, 0x41110001}, 2, BARZHILUP_REFUSED_LOG_WORDS}, /* an unused byte */
    };
    const size_t most = sizeof longest / sizeof longest[0];
    size_t place;
    for (size_t i = 0; i < sizeof rows / sizeof rows[0]; i++) {
        check(walked(rows[i].words, rows[i].count, &place) == 1 && place == rows[i].count, "words that a walk passes over");
        check(barzhilup_join(rows[i].words, rows[i].count, NULL, 0, packet_log, BARZHILUP_LOG_WORDS).refusal == rows[i].joined,
              "what joining says of them");
    }
    for (size_t i = 1; i < most; i++)
        longest[i] = 0x43000000;
    longest[0] = BARZHILUP_PACKET_MAX + 1;
    longest[most - 1] = 0x42000000;
    CHECK(walked(longest, most, &place) == 1 && place == most);
    CHECK(barzhilup_join(longest, most, NULL, 0, packet_log, BARZHILUP_LOG_WORDS).refusal == BARZHILUP_REFUSED_LOG_WORDS);
    longest[0] = BARZHILUP_PACKET_MAX;
    longest[most - 1] = 0x41000000;
    CHECK(walked(longest, most, &place) == 1 && place == most);
    CHECK(barzhilup_join(longest, most, NULL, 0, packet_log, BARZHILUP_LOG_WORDS).refusal == BARZHILUP_ACCEPTED);
}

/* The log of every packet length, as a receiver writes it. */
static void lengths(void)
{
    static uint8_t packet[BARZHILUP_PACKET_MAX], pdu[BARZHILUP_PDU_MAX], bytes[BARZHILUP_PACKET_MAX];
    barzhilup_settings settings;
    memset(&settings, 0, sizeof settings);
    for (size_t i = 0; i < sizeof packet; i++)
        packet[i] = (uint8_t)(i * 31 + i / 256);
    for (uint16_t length = 1; length <= BARZHILUP_PACKET_MAX; length++) {
        barzhilup_writer writer = barzhilup_open_writer(0, 0).writer;
        barzhilup_receiver receiver = barzhilup_open_receiver(0, 0).receiver;
        barzhilup_log_entry entry;
        barzhilup_log_iterator walk;
        barzhilup_written written =
            barzhilup_write(writer, settings, NULL, 0, &length, 1, packet, length, pdu, 5000);
        barzhilup_received received =
            barzhilup_receive(receiver, carry, sizeof carry, pdu, 5000, packet_log, BARZHILUP_LOG_WORDS);
        walk = barzhilup_log_begin(packet_log, received.words);
        check(written.refusal == 0 && received.refusal == 0 && barzhilup_log_next(&walk, &entry)
                  && barzhilup_log_copy(&entry, bytes, sizeof bytes) == length && memcmp(bytes, packet, length) == 0
                  && !barzhilup_log_next(&walk, &entry) && walk.place == received.words,
              "a packet is logged as it was sent");
    }
}

/* Each call answers to NULL with length 0 as to any pointer with length 0. */
static void nulls(void)
{
    barzhilup_settings settings;
    barzhilup_writer writer = barzhilup_open_writer(0, 0).writer;
    barzhilup_receiver receiver = barzhilup_open_receiver(0, 0).receiver, stepped;
    uint8_t pdu[96], copy[96];
    const uint16_t length = 5;
    uint32_t words[BARZHILUP_SNAPSHOT_WORDS], counts[1] = {3};
    memset(&settings, 0, sizeof settings);

    CHECK(barzhilup_crc8(NULL, 0) == 0 && barzhilup_crc8_from(7, NULL, 0) == 7);
    CHECK(barzhilup_write(writer, settings, NULL, 0, &length, 1, (const uint8_t *)"audio", 5, pdu, 96).refusal == 0);
    memcpy(copy, pdu, 96);
    CHECK(barzhilup_write(writer, settings, NULL, 0, NULL, 0, NULL, 0, copy, 96).refusal == 0);
    CHECK(barzhilup_write(writer, settings, NULL, 0, NULL, 0, NULL, 0, NULL, 0).refusal == BARZHILUP_REFUSED_PDU_LENGTH);
    CHECK(barzhilup_write_parity(NULL, 0) == BARZHILUP_REFUSED_PDU_LENGTH);
    CHECK(barzhilup_correct_header(NULL, 0).refusal == BARZHILUP_REFUSED_PDU_LENGTH);
    CHECK(barzhilup_correct_header_marked(pdu, 96, NULL, 0).refusal == 0);
    CHECK(barzhilup_read(NULL, 0).refusal == BARZHILUP_REFUSED_PDU_LENGTH);
    CHECK(barzhilup_list_pieces(pdu, 96, 0, NULL, 0).refusal == BARZHILUP_REFUSED_LIST_LENGTH);
    CHECK(barzhilup_open_receiver_entitled(0, 0, 0, NULL, 0).receiver.entitled == 0);

    CHECK(barzhilup_receive(receiver, NULL, 0, pdu, 96, packet_log, 100).refusal == BARZHILUP_REFUSED_CARRY_LENGTH);
    CHECK(barzhilup_receive(receiver, carry, 4096, NULL, 0, packet_log, 100).refusal == BARZHILUP_REFUSED_PDU_LENGTH);
    CHECK(barzhilup_receive(receiver, carry, 4096, pdu, 96, NULL, 0).refusal == BARZHILUP_REFUSED_LOG_LENGTH);
    CHECK(barzhilup_receive_marked(receiver, carry, 4096, pdu, 96, NULL, 0, packet_log, 100).words == 3);
    CHECK(barzhilup_receive_batch(receiver, carry, 4096, NULL, 0, NULL, 0, NULL, 0).refusal == 0);
    CHECK(barzhilup_receive_pair(receiver, carry, 4096, NULL, 0, pdu, 96, packet_log, 100).words == 3);
    CHECK(barzhilup_choose(NULL, 0, pdu, 96) == 2 && barzhilup_choose(pdu, 96, NULL, 0) == 1);
    CHECK(barzhilup_choose(NULL, 0, NULL, 0) == 0);
    CHECK(barzhilup_chosen(NULL, 0, pdu, 96).bytes == pdu && barzhilup_chosen(NULL, 0, NULL, 0).length == 0);
    CHECK(barzhilup_mark_lost(receiver, NULL, 0).refusal == BARZHILUP_REFUSED_LOG_LENGTH);
    CHECK(barzhilup_save_receiver(receiver, carry, 4096, NULL, 0).refusal == BARZHILUP_REFUSED_WORD_BUFFER);
    CHECK(barzhilup_save_receiver(receiver, NULL, 0, words, 10).refusal == BARZHILUP_REFUSED_CARRY_LENGTH);
    CHECK(barzhilup_load_receiver(NULL, 0, carry, 4096).refusal == BARZHILUP_REFUSED_WORDS);
    CHECK(barzhilup_load_receiver(words, 1, NULL, 0).refusal == BARZHILUP_REFUSED_CARRY_LENGTH);
    CHECK(barzhilup_join(NULL, 0, NULL, 0, NULL, 0).refusal == 0);
    CHECK(barzhilup_smallest_latency(1, 0, NULL, 0).refusal == BARZHILUP_REFUSED_COUNTS);
    CHECK(barzhilup_try_latency(1, 0, NULL, 0, 0).refusal == BARZHILUP_REFUSED_COUNTS);
    CHECK(barzhilup_waiting_packets(1, 0, counts, 1, 0, 0, NULL, 0).count == 0);
    stepped = receiver;
    CHECK(barzhilup_receive_in_place(&stepped, carry, 4096, pdu, 96, NULL, 0).refusal == BARZHILUP_REFUSED_LOG_LENGTH);
    CHECK(barzhilup_mark_lost_in_place(&stepped, NULL, 0).refusal == BARZHILUP_REFUSED_LOG_LENGTH);
}

int main(void)
{
    versions();
    texts();
    entries();
    malformed();
    passed_over();
    lengths();
    nulls();
    printf("%u checks, %u wrong\n", checks, wrong);
    return wrong != 0;
}
