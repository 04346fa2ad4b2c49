/* Plays a receiver: takes the PDUs of a file of records, one for each line that comes on standard input, and records them as docs/USING.md, "From a
 * receiver", says. The line "lost" loses the next PDU, any other line receives it; at the end of the lines the receiver is switched off. */
#include "../../samples/recorder.h"

#include <stdlib.h>
#include <string.h>

/* The next PDU of the file: its length, or -1 where there is none. */
static long next_pdu(FILE *file, uint8_t *pdu) {
    int low = fgetc(file);
    int high = fgetc(file);
    long length = low + 256L * high;
    if (low == EOF || high == EOF)
        return -1;
    return fread(pdu, 1, (size_t)length, file) == (size_t)length ? length : -1;
}

int main(int count, char **words) {
    static uint8_t pdu[65535];
    char line[16];
    FILE *file = count == 3 ? fopen(words[1], "rb") : NULL;
    FILE *out = count == 3 ? fopen(words[2], "wb") : NULL;
    if (file == NULL || out == NULL)
        return 2;
    while (fgets(line, sizeof line, stdin) != NULL) {
        long length = next_pdu(file, pdu);
        if (length < 0)
            return 1;
        if (strcmp(line, "lost\n") == 0 ? record_lost(out) : record_pdu(out, pdu, (size_t)length))
            return 1;
    }
    return fclose(out) == 0 ? 0 : 1;
}
