/* What a receiver adds so that `barzhilup log` can read what it receives: two functions that write records to a file or a pipe. They need no
 * library. Call one of them once for each PDU that is due, in turn. Both answer 0 where all is written; after another answer write nothing more, since a
 * part of a record may be there. */
#ifndef RECORDER_H
#define RECORDER_H

#include <stdint.h>
#include <stdio.h>

/* A PDU as Layer 2 hands it over: 1 to 65,535 bytes, from the header's first on, not corrected. Of another length nothing is written. */
static inline int record_pdu(FILE *out, const uint8_t *pdu, size_t length) {
    uint8_t head[2];
    if (length < 1 || length > 65535)
        return -1;
    head[0] = (uint8_t)(length % 256);
    head[1] = (uint8_t)(length / 256);
    if (fwrite(head, 1, 2, out) != 2 || fwrite(pdu, 1, length, out) != length)
        return -1;
    return fflush(out);
}

/* A PDU that was due and did not come. */
static inline int record_lost(FILE *out) {
    static const uint8_t none[2] = {0, 0};
    if (fwrite(none, 1, 2, out) != 2)
        return -1;
    return fflush(out);
}

#endif
