/* docs/USING.md's example: a packet is sent, a header byte is damaged on the way, and the log is read. */
#include <stdio.h>
#include <stdlib.h>
#include <string.h>

#include <barzhilup.h>

static uint8_t carry[BARZHILUP_CARRY_BYTES];
static uint32_t packet_log[BARZHILUP_LOG_WORDS];

/* Ends the program where a call was refused. */
static void accepted_or_exit(const char *call, uint32_t refusal) {
    if (refusal == BARZHILUP_ACCEPTED)
        return;
    fprintf(stderr, "%s: refused with %u: %s\n", call, (unsigned)refusal, barzhilup_refusal_text(refusal));
    exit(1);
}

/* Says what an entry of a log is. */
static void print_entry(const barzhilup_log_entry *entry) {
    switch (entry->kind) {
    case BARZHILUP_LOG_PACKET:
        printf("packet %u, %u bytes\n", (unsigned)entry->number, (unsigned)entry->length);
        break;
    case BARZHILUP_LOG_PSD:
        printf("PSD, %u bytes\n", (unsigned)entry->length);
        break;
    default:
        printf("note on piece %u: %s\n", (unsigned)entry->piece, barzhilup_note_text(entry->cause));
        break;
    }
}

int main(void) {
    const uint16_t lengths[] = {5};
    barzhilup_settings settings;
    uint8_t pdu[96];

    barzhilup_writer_opened writer_opened = barzhilup_open_writer(0, BARZHILUP_CORE); /* mode 0 */
    accepted_or_exit("opening a writer", writer_opened.refusal);
    barzhilup_writer writer = writer_opened.writer;
    barzhilup_receiver_opened receiver_opened = barzhilup_open_receiver(0, BARZHILUP_CORE);
    accepted_or_exit("opening a receiver", receiver_opened.refusal);
    barzhilup_receiver receiver = receiver_opened.receiver;

    memset(&settings, 0, sizeof settings);
    barzhilup_written written = barzhilup_write(writer, settings, (const uint8_t *)"PSD", 3, lengths, 1,
                                                (const uint8_t *)"audio", 5, pdu, sizeof pdu);
    accepted_or_exit("writing", written.refusal);
    writer = written.writer; /* for the next call */

    pdu[3] ^= 0x40; /* noise in the header, which the receiver corrects */

    barzhilup_received received =
        barzhilup_receive(receiver, carry, sizeof carry, pdu, sizeof pdu, packet_log, BARZHILUP_LOG_WORDS);
    accepted_or_exit("receiving", received.refusal);
    receiver = received.receiver; /* for the next call */

    barzhilup_log_iterator walk = barzhilup_log_begin(packet_log, received.words);
    barzhilup_log_entry entry;
    while (barzhilup_log_next(&walk, &entry))
        print_entry(&entry);
    return receiver.held == 0 && writer.sent == 0 ? 0 : 1; /* nothing is left over */
}
