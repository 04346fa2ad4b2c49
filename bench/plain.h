/*
 * The writer and the receiver once more, in plain C: what a C programmer would
 * write from document 01, and for pairs and entitled programs from document 02,
 * with libfec for the header and a table CRC. It is what the library is measured
 * beside, and nothing else uses it.
 *
 * The functions are called as the library's are (barzhilup.h), and answer the
 * same, refusals included. Of wrong locators the first is named.
 */
#ifndef BENCH_PLAIN_H
#define BENCH_PLAIN_H

#include "barzhilup.h"

/* Call fec_open and table_crc8_open (peers.h) before these. */

barzhilup_written plain_write(barzhilup_writer writer, barzhilup_settings settings,
                              const uint8_t *psd, size_t psd_length,
                              const uint16_t *lengths, size_t count,
                              const uint8_t *bytes, size_t bytes_length,
                              uint8_t *pdu, size_t pdu_length);

barzhilup_received plain_receive(barzhilup_receiver receiver,
                                 uint8_t *carry, size_t carry_length,
                                 uint8_t *pdu, size_t pdu_length,
                                 uint32_t *log, size_t log_length);

uint32_t plain_choose(const uint8_t *first, size_t first_length,
                      const uint8_t *second, size_t second_length);

barzhilup_received plain_receive_pair(barzhilup_receiver receiver,
                                      uint8_t *carry, size_t carry_length,
                                      uint8_t *first, size_t first_length,
                                      uint8_t *second, size_t second_length,
                                      uint32_t *log, size_t log_length);

#endif
