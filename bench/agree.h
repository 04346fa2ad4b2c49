/*
 * Whether an implementation of writing and receiving answers as the library
 * does, on the benchmark's inputs and on random calls. Where one does not, the
 * program stops with a message and status 1.
 */
#ifndef BENCH_AGREE_H
#define BENCH_AGREE_H

#include "drives.h"

typedef barzhilup_written write_call(barzhilup_writer writer, barzhilup_settings settings,
                                     const uint8_t *psd, size_t psd_length,
                                     const uint16_t *lengths, size_t count,
                                     const uint8_t *bytes, size_t bytes_length,
                                     uint8_t *pdu, size_t pdu_length);

typedef barzhilup_received receive_call(barzhilup_receiver receiver,
                                        uint8_t *carry, size_t carry_length,
                                        uint8_t *pdu, size_t pdu_length,
                                        uint32_t *log, size_t log_length);

struct implementation {
    const char *name;
    write_call *write;
    receive_call *receive;
};

/* All PDUs of a drive, written and received. */
void agree_on_drive(const struct implementation *peer, const struct drive *drive);

/* So many random PDUs of all modes, written and received, refused ones too; the
 * numbers of accepted writings and receptions are added up. */
void agree_on_random_calls(const struct implementation *peer, unsigned calls,
                           unsigned accepted[2]);

#endif
