/*
 * Barzhilup: the audio transport layer of HD Radio (1017s Rev. H), as a C library
 * (libbarzhilup.a and libbarzhilup.so).
 *
 * A writer packs encoded audio packets and program service data (PSD) into protocol
 * data units (PDUs). A receiver corrects the headers of PDUs, joins their pieces to
 * packets, and logs packets, PSD and notes. No audio is decoded.
 *
 * What holds for every function here:
 *  - It ends on every input, allocates nothing, keeps nothing between calls and
 *    can be called from several threads at once on different buffers.
 *  - A buffer is a pointer with a length, and the pointer points at as many elements
 *    as the length says. With length 0 it may be NULL; no other pointer may. Any
 *    alignment will do for bytes; other elements are aligned as C aligns them.
 *    Buffers of one call must not overlap where one of them is written.
 *  - A refused call returns one of the numbers below, and leaves every byte lent to
 *    it as it was. If several causes apply, the lowest number is returned, except
 *    that 19 comes directly after 3, 18 directly after 2, 20 directly after 12, and
 *    27 directly after 13. A batch of PDUs that stops at a refused one has received
 *    those before it (barzhilup_receive_batch). Joining two logs checks 23 and 24,
 *    and then 13 (barzhilup_join).
 *
 * Functions that stand whole in this file, `static inline`, are plain C; all others
 * are proved to do what is said of them, on every input. The file is for C99 or later,
 * and for C++11 or later.
 *
 * The modes. A mode has one or two streams, 0 core and 1 enhanced; mode and stream
 * decide how wide locators are, which PDU sequences there are, and how many bytes
 * PSD and expansion together may have in a PDU that is written:
 *
 *    mode      stream        locator bits  PDU sequence  PSD plus expansion
 *    0         0, core           16            0 to 1        128
 *    1, 2, 3   0, core           12            0 to 7         21
 *    1, 2, 3   1, enhanced       16            0 to 1         16, no PSD
 *    10        0, core           12            0 to 1        128
 *    10        1, enhanced       12            0 to 7         16, no PSD
 *    13        0, core           12            0 to 7         21
 *
 * A PDU, of 96 to 20,480 bytes; those that a writer writes with locators of 12 bits
 * have 4,096 at most:
 *
 *    bytes     what
 *    0 to 7    parity: makes bytes 0 to 95 a word of the header code
 *    8 to 13   the control word (barzhilup_control_word)
 *    from 14   a locator for each piece: the place of its CRC byte
 *    then      the expansion, up to 16 bytes, if there is one (barzhilup_expansion)
 *    to La     PSD, if there is any
 *    after La  the pieces, each with its CRC byte behind it
 *    the rest  reserved: written as zero, ignored on reading
 *
 * A piece is a packet, or a part of one that goes on in the next PDU.
 *
 * The field's terms, as they are used here:
 *    correct        turn a damaged header into the word of the header code next to
 *                   it; a header is uncorrectable where there is none near enough
 *    syndromes      eight sums over a header, all zero if it is a code word
 *    marked place   a place of the header whose byte the demodulator guessed, and
 *                   says so: an erasure
 *    held           of a packet's beginning, kept until the packet goes on
 *    lost           of a PDU that did not come
 *    pair, copies   two receptions of one PDU, by two antennas
 *    withheld       of a PDU whose packets the receiver is not entitled to
 */
#ifndef BARZHILUP_H
#define BARZHILUP_H

#include <stdbool.h>
#include <stddef.h>
#include <stdint.h>

#ifdef __cplusplus
extern "C" {
#endif

/* ---- Version ------------------------------------------------------------ */

/* The version of this header, as three numbers, as text, and as one number: the
 * first in bits 23-16, the second in 15-8, the third in 7-0. */
#define BARZHILUP_VERSION_MAJOR 0
#define BARZHILUP_VERSION_MINOR 1
#define BARZHILUP_VERSION_PATCH 0
#define BARZHILUP_VERSION_STRING "0.1.0"
#define BARZHILUP_VERSION 0x000100

/* The version of the library that a program runs with, in the form of
 * BARZHILUP_VERSION. A program fits a shared library whose first number is the
 * same and whose version is not lower: the first rises where programs have to be
 * compiled again. */
uint32_t barzhilup_version(void);

/* ---- Streams ------------------------------------------------------------ */

/* The streams, as each `stream` here has them. */
#define BARZHILUP_CORE 0
#define BARZHILUP_ENHANCED 1

/* ---- Sizes -------------------------------------------------------------- */

/* Bytes of a header: the first 96 bytes of a PDU are one word of the header
 * code. */
#define BARZHILUP_HEADER_BYTES 96

/* Parity bytes of a header, its bytes 0 to 7; also how many syndromes there
 * are. */
#define BARZHILUP_PARITY_BYTES 8

/* The most bytes of a header that are corrected where no place is marked. */
#define BARZHILUP_CORRECTED_MAX 4

/* The most places of a header that can be marked; also the most bytes of it that
 * are corrected with marks. A longer list is refused with
 * BARZHILUP_REFUSED_MARKS. */
#define BARZHILUP_MARKS_MAX 8

/* The shortest and the longest PDU, in bytes. Outside them a call is refused
 * with BARZHILUP_REFUSED_PDU_LENGTH. */
#define BARZHILUP_PDU_MIN 96
#define BARZHILUP_PDU_MAX 20480

/* The longest PDU that a writer writes with locators of 12 bits, in bytes. */
#define BARZHILUP_PDU_MAX_12_BITS 4096

/* The longest packet, in bytes. */
#define BARZHILUP_PACKET_MAX 4096

/* The fewest bytes of a carry buffer, in which a receiver keeps the beginning of
 * a packet between calls. A shorter one is refused with
 * BARZHILUP_REFUSED_CARRY_LENGTH. */
#define BARZHILUP_CARRY_BYTES 4096

/* A log of so many words is long enough for every call. */
#define BARZHILUP_LOG_WORDS 8400

/* A buffer of so many words is long enough for every receiver that is saved. */
#define BARZHILUP_SNAPSHOT_WORDS 1376

/* The most pieces of a PDU: as many as NOP's six bits can say. A list of so many
 * entries is long enough for every PDU. barzhilup_write says how many a writer
 * places. */
#define BARZHILUP_PIECES_MAX 63

/* Entries of the arrays in a barzhilup_reading: one for each piece, and one more,
 * which is always 0. */
#define BARZHILUP_READING_PIECES 64

/* The most counts that a bench for latency settings takes, the largest count,
 * and the largest latency. */
#define BARZHILUP_COUNTS_MAX 4096
#define BARZHILUP_COUNT_MAX 63
#define BARZHILUP_LATENCY_MAX 7

/* The largest program number, and the largest value of the applied services. */
#define BARZHILUP_PROGRAM_MAX 7
#define BARZHILUP_SERVICES_MAX 7

/* ---- Refusal numbers ---------------------------------------------------- */

/* Not refused. */
#define BARZHILUP_ACCEPTED 0

/* A field of a writer's or receiver's state is outside its range. */
#define BARZHILUP_REFUSED_STATE 1

/* The carry buffer has under 4,096 bytes. */
#define BARZHILUP_REFUSED_CARRY_LENGTH 2

/* The PDU's length is not 96 to 20,480; for a writer with locators of 12 bits,
 * it is over 4,096. */
#define BARZHILUP_REFUSED_PDU_LENGTH 3

/* No code word differs from the header in at most four bytes. With marks: for no
 * code word is twice the differing unmarked bytes plus the count of marks at most
 * eight. */
#define BARZHILUP_REFUSED_UNCORRECTABLE 4

/* Mode and stream are not in the table above. */
#define BARZHILUP_REFUSED_MODE 5

/* The PDU's mode and stream are in the table, but are not those that the
 * receiver was opened for. */
#define BARZHILUP_REFUSED_OTHER_MODE 6

/* The PDU sequence is outside its mode's range. */
#define BARZHILUP_REFUSED_SEQUENCE 7

/* Pfirst or Plast is set with NOP 0. Any count of pieces is read: one whose
 * locators go past La, or past the PDU's end, is refused with
 * BARZHILUP_REFUSED_LA. */
#define BARZHILUP_REFUSED_PIECES 8

/* La is before the last locator byte, or not below the length. Judged before any
 * locator is looked at. */
#define BARZHILUP_REFUSED_LA 9

/* The expansion: over 16 bytes, past La, IDs out of order, class 0, a field
 * cut. For a writer: fields that do not go together (barzhilup_settings says which
 * do), or a displacement in a PDU of over 16,384 bytes. */
#define BARZHILUP_REFUSED_EXPANSION 10

/* A locator is under its piece's start plus 1, or not below the length. */
#define BARZHILUP_REFUSED_LOCATOR 11

/* The displacement is before the last piece's end, or not below the length. */
#define BARZHILUP_REFUSED_DISPLACEMENT 12

/* The log is shorter than the words that the call would write; or, the same
 * number, the list of pieces has fewer than NOP entries. */
#define BARZHILUP_REFUSED_LOG_LENGTH 13
#define BARZHILUP_REFUSED_LIST_LENGTH 13

/* A value that is not sent: blend 3, or nonzero with a nonzero program; core
 * gain 7 to 23; one past its width. Or, the same number, a place outside 8 to 95,
 * whose byte has no share in the parity. */
#define BARZHILUP_REFUSED_VALUE 14
#define BARZHILUP_REFUSED_PLACE 14

/* A packet's length is 0 or over 4,096; the lengths don't sum to the bytes; or
 * bytes of a packet are sent that is absent or not longer. */
#define BARZHILUP_REFUSED_PACKETS 15

/* PSD plus expansion is past the mode's limit, or there is PSD on a stream
 * without. */
#define BARZHILUP_REFUSED_PSD 16

/* There is no room for a piece of one byte; with no packet offered, none for
 * the overhead. */
#define BARZHILUP_REFUSED_ROOM 17

/* The lengths of a batch's PDUs do not sum to the buffer. Checked directly after
 * BARZHILUP_REFUSED_CARRY_LENGTH, and before the first PDU. */
#define BARZHILUP_REFUSED_LENGTHS 18

/* More than eight marks, one over 95, or one repeated. Checked directly after
 * BARZHILUP_REFUSED_PDU_LENGTH, and before BARZHILUP_REFUSED_UNCORRECTABLE. */
#define BARZHILUP_REFUSED_MARKS 19

/* A pair of PDUs that can both be corrected: their lengths differ, or their
 * corrected bytes 8 to La do, ignored bits too. Damage of one copy in
 * bytes 96 to La, which no parity covers, can give it too. Checked after
 * BARZHILUP_REFUSED_DISPLACEMENT, and before BARZHILUP_REFUSED_LOG_LENGTH. */
#define BARZHILUP_REFUSED_PAIR 20

/* A bench for latency settings: no counts, more than 4,096, or one over 63.
 * Checked after BARZHILUP_REFUSED_MODE. */
#define BARZHILUP_REFUSED_COUNTS 21

/* Opening a receiver: a program number over 7, or one repeated. Checked after
 * BARZHILUP_REFUSED_MODE. */
#define BARZHILUP_REFUSED_PROGRAMS 22

/* Joining two logs: words that are no log. Data words are missing, left over,
 * wrongly counted or not filled by threes up to the last; a bit is set that the
 * layout leaves without meaning; a length is 0, or a packet's over 4,096. */
#define BARZHILUP_REFUSED_LOG_WORDS 23

/* Joining two logs: packet numbers do not rise strictly within a log, counted from
 * its own first packet, modulo 64. Checked after BARZHILUP_REFUSED_LOG_WORDS and
 * before BARZHILUP_REFUSED_LOG_LENGTH, and not if there is no core packet. */
#define BARZHILUP_REFUSED_NUMBERS 24

/* Loading a receiver: the words are not those of a receiver, or a field in them is
 * outside its range. Checked after BARZHILUP_REFUSED_CARRY_LENGTH. */
#define BARZHILUP_REFUSED_WORDS 25

/* Saving a receiver: the buffer has fewer words than the receiver takes. Checked
 * after BARZHILUP_REFUSED_CARRY_LENGTH. */
#define BARZHILUP_REFUSED_WORD_BUFFER 26

/* Receiving: `delivered` or `missing` of the receiver would pass 4,294,967,295.
 * Checked directly after BARZHILUP_REFUSED_LOG_LENGTH. A PDU that delivers no packet
 * is never refused with it, nor is marking lost. */
#define BARZHILUP_REFUSED_COUNT_LIMIT 27

/* ---- Words for refusals ------------------------------------------------- */

/* The cause of a refusal in words, for a message: those that `barzhilup` prints, and
 * behind "; or" what else the library refuses with the number. "accepted" for 0, and
 * "unknown" over 27. */
static inline const char *barzhilup_refusal_text(uint32_t number)
{
    switch (number) {
    case BARZHILUP_ACCEPTED:
        return "accepted";
    case BARZHILUP_REFUSED_STATE:
        return "wrong receiver state; or writer state";
    case BARZHILUP_REFUSED_CARRY_LENGTH:
        return "carry buffer too short";
    case BARZHILUP_REFUSED_PDU_LENGTH:
        return "length not 96 to 20480; or over 4096 for a writer with "
               "locators of 12 bits";
    case BARZHILUP_REFUSED_UNCORRECTABLE:
        return "header beyond correction";
    case BARZHILUP_REFUSED_MODE:
        return "mode and stream not in the table";
    case BARZHILUP_REFUSED_OTHER_MODE:
        return "mode and stream not those asked for";
    case BARZHILUP_REFUSED_SEQUENCE:
        return "sequence outside its range";
    case BARZHILUP_REFUSED_PIECES:
        return "Pfirst or Plast with no piece";
    case BARZHILUP_REFUSED_LA:
        return "La out of place";
    case BARZHILUP_REFUSED_EXPANSION:
        return "wrong expansion; or expansion fields that do not go together";
    case BARZHILUP_REFUSED_LOCATOR:
        return "locator out of place";
    case BARZHILUP_REFUSED_DISPLACEMENT:
        return "displacement out of place";
    case BARZHILUP_REFUSED_LOG_LENGTH:
        return "log too short; or list of pieces, or result of a join";
    case BARZHILUP_REFUSED_VALUE:
        return "a value that may not be sent: blend 3, blend with a "
               "program, gain 7 to 23, or past its width; or a place "
               "outside 8 to 95";
    case BARZHILUP_REFUSED_PACKETS:
        return "packet length 0 or over 4,096; or lengths that do not sum "
               "to the bytes, or bytes sent of a packet that is not offered";
    case BARZHILUP_REFUSED_PSD:
        return "PSD and expansion past the mode's limit, or PSD where there "
               "is none";
    case BARZHILUP_REFUSED_ROOM:
        return "no room in the PDU for a piece of one byte";
    case BARZHILUP_REFUSED_LENGTHS:
        return "lengths of the PDUs do not sum to the buffer";
    case BARZHILUP_REFUSED_MARKS:
        return "over eight marks or one over 95 or repeated";
    case BARZHILUP_REFUSED_PAIR:
        return "copies differ in length or bytes 8 to La";
    case BARZHILUP_REFUSED_COUNTS:
        return "no counts or over 4096 or one over 63";
    case BARZHILUP_REFUSED_PROGRAMS:
        return "program number over 7 or repeated";
    case BARZHILUP_REFUSED_LOG_WORDS:
        return "words that are no log";
    case BARZHILUP_REFUSED_NUMBERS:
        return "packet numbers that do not rise within a log";
    case BARZHILUP_REFUSED_WORDS:
        return "words not of a saved receiver or a field outside its range";
    case BARZHILUP_REFUSED_WORD_BUFFER:
        return "buffer too short for the words of the receiver";
    case BARZHILUP_REFUSED_COUNT_LIMIT:
        return "delivered or missing over 4294967295";
    default:
        return "unknown";
    }
}

/* ---- Empty buffers ------------------------------------------------------ */

/* A buffer of length 0 may be NULL: "no PSD" is written `NULL, 0`. The library's
 * functions are proved for pointers that point at something, so each of them that
 * takes a buffer has a wrapper at the end of this file, which hands on another
 * pointer for length 0 and is called by the function's own name. These give the
 * pointer. */
static inline const uint8_t *barzhilup_bytes_read(const uint8_t *bytes, size_t length)
{
    static const uint8_t nothing = 0;
    return length == 0 ? &nothing : bytes;
}

static inline uint8_t *barzhilup_bytes_written(uint8_t *bytes, size_t length)
{
    static uint8_t nothing = 0;
    return length == 0 ? &nothing : bytes;
}

static inline const uint16_t *barzhilup_lengths_read(const uint16_t *lengths,
                                                     size_t length)
{
    static const uint16_t nothing = 0;
    return length == 0 ? &nothing : lengths;
}

static inline const size_t *barzhilup_sizes_read(const size_t *sizes, size_t length)
{
    static const size_t nothing = 0;
    return length == 0 ? &nothing : sizes;
}

static inline const uint32_t *barzhilup_words_read(const uint32_t *words,
                                                   size_t length)
{
    static const uint32_t nothing = 0;
    return length == 0 ? &nothing : words;
}

static inline uint32_t *barzhilup_words_written(uint32_t *words, size_t length)
{
    static uint32_t nothing = 0;
    return length == 0 ? &nothing : words;
}

/* ---- Header code -------------------------------------------------------- */

/*
 * Bytes are elements of GF(256) with a^8 = a^4 + a^3 + a^2 + 1 and a = 2: they
 * are added with exclusive or. Header byte i, 0 to 95, is the coefficient of
 * X^i. Syndrome Sj is the sum of byte i times a^(i times j); a header is a code
 * word when S1 to S8 are zero.
 */

/* The syndromes of a header. */
typedef struct {
    /* values[0] is S1, ..., values[7] is S8. */
    uint8_t values[BARZHILUP_PARITY_BYTES];
} barzhilup_syndromes_answer;

/* The parity of a header. */
typedef struct {
    /* values[i] is what byte i, 0 to 7, of the header has to be. */
    uint8_t values[BARZHILUP_PARITY_BYTES];
} barzhilup_parity_answer;

/* What came of adding a byte's share to a parity. */
typedef struct {
    /* BARZHILUP_ACCEPTED or BARZHILUP_REFUSED_PLACE. */
    uint32_t refusal;
    /* The parity with the share added; if refused, as it came. */
    barzhilup_parity_answer parity;
} barzhilup_share_answer;

/* What came of correcting a header. */
typedef struct {
    /* BARZHILUP_ACCEPTED, BARZHILUP_REFUSED_PDU_LENGTH or
     * BARZHILUP_REFUSED_UNCORRECTABLE; with marks also BARZHILUP_REFUSED_MARKS. */
    uint32_t refusal;
    /* How many bytes were wrong and have been set right, marked ones among them:
     * 0 to 4, with marks 0 to 8. 0 if refused. */
    uint32_t corrected;
} barzhilup_correction_answer;

/* The product of two bytes in GF(256). */
uint8_t barzhilup_product(uint8_t x, uint8_t y);

/* The syndromes of a header of 96 bytes, which is only read. All zero: it is a
 * code word. */
barzhilup_syndromes_answer
barzhilup_syndromes(const uint8_t header[BARZHILUP_HEADER_BYTES]);

/* The parity that makes bytes 8 to 95 a code word. `header` has 96 bytes and is
 * only read; what its bytes 0 to 7 hold makes no difference. */
barzhilup_parity_answer
barzhilup_parity(const uint8_t header[BARZHILUP_HEADER_BYTES]);

/*
 * Writes the parity of a PDU's header into its bytes 0 to 7; the other bytes
 * stay as they are. `pdu` is the whole PDU, `length` its length in bytes.
 *
 * Returns BARZHILUP_ACCEPTED; or BARZHILUP_REFUSED_PDU_LENGTH, and no byte has
 * changed.
 */
uint32_t barzhilup_write_parity(uint8_t *pdu, size_t length);

/*
 * Adds the share of a byte to the parity of a header that is filled piecemeal.
 * Begin with eight zero bytes. When the shares of bytes 8 to 95 are added, in any
 * order, each once, `parity` is what barzhilup_parity gives for that header. The
 * share of a byte 0 is zero: it can be left out. Where a byte changes once its
 * share was added, add the share of the old byte exclusive or the new one.
 *
 * `place` is the byte's place in the header, 8 to 95, and `byte` the byte.
 *
 * `refusal` is BARZHILUP_ACCEPTED, and `parity` has the share added; or it is
 * BARZHILUP_REFUSED_PLACE, and `parity` is as it came.
 */
barzhilup_share_answer
barzhilup_add_parity_share(barzhilup_parity_answer parity, size_t place,
                           uint8_t byte);

/*
 * Corrects the header of a PDU in place: the first 96 bytes become the one code
 * word that differs from them in at most four bytes. Later bytes stay as they
 * are. `pdu` is the whole PDU, `length` its length in bytes.
 *
 * `refusal` is BARZHILUP_ACCEPTED, and `corrected` says in how many bytes the
 * header differed from the code word; or it is BARZHILUP_REFUSED_PDU_LENGTH, or
 * BARZHILUP_REFUSED_UNCORRECTABLE where there is no such code word, and no byte
 * has changed.
 */
barzhilup_correction_answer
barzhilup_correct_header(uint8_t *pdu, size_t length);

/*
 * Corrects the header of a PDU of which some places are marked, because whoever
 * demodulated it guessed their bytes: the first 96 bytes become the one code
 * word for which twice the differing unmarked bytes plus `count` is at most
 * eight. Marked bytes may hold anything. Each mark costs one, also where its
 * byte turns out to be right: with four marks two other bytes can be wrong,
 * with seven or eight none; a header with eight marks is never uncorrectable.
 * Later bytes stay as they are.
 *
 * `marks` is a list of `count` places, each 0 to 95, at most eight and none twice,
 * in any order; it is only read. With `count` 0 this is
 * barzhilup_correct_header.
 *
 * `refusal` is BARZHILUP_ACCEPTED, and `corrected` says in how many bytes, marked
 * or not, the header differed from the code word. Or it is, the first of these
 * that applies, BARZHILUP_REFUSED_PDU_LENGTH, BARZHILUP_REFUSED_MARKS, or
 * BARZHILUP_REFUSED_UNCORRECTABLE where there is no such code word; then no byte
 * has changed.
 */
barzhilup_correction_answer
barzhilup_correct_header_marked(uint8_t *pdu, size_t length,
                                const uint8_t *marks, size_t count);

/* ---- CRC-8 -------------------------------------------------------------- */

/* The value that the CRC's register starts with where none is given. */
#define BARZHILUP_CRC_START 0

/* The value with which recordings off the air check. */
#define BARZHILUP_CRC_START_OFF_AIR 255

/*
 * The CRC-8 of a piece: its bytes times x^8, divided by x^8 + x^5 + x^4 + 1, top
 * bit of each byte first, register starting at 0. `bytes` is the piece without
 * its CRC byte, `length` its length in bytes. Any length is taken; the CRC of no
 * bytes is 0.
 */
uint8_t barzhilup_crc8(const uint8_t *bytes, size_t length);

/*
 * The same with a register that starts at `start`, any byte: it is added, with
 * exclusive or, to the piece's first byte. The CRC of no bytes is `start`. From 0
 * this is barzhilup_crc8; from 255 the piece 01 has the CRC 9D in place of 31.
 */
uint8_t barzhilup_crc8_from(uint8_t start, const uint8_t *bytes, size_t length);

/* ---- Reading without a receiver --------------------------- */

/* The control word, bytes 8 to 13 of a PDU. */
typedef struct {
    /* Codec mode and stream, of the table of modes; stream is 0 core, 1
     * enhanced. */
    uint8_t mode;
    uint8_t stream;
    /* PDU sequence: 0 to 1 or 0 to 7, by mode and stream. */
    uint8_t sequence;
    /* Blend control, 0 to 3. */
    uint8_t blend;
    /* Gain (core) or stream delay (enhanced), 0 to 31. */
    uint8_t gain;
    /* Common delay, 0 to 63. */
    uint8_t common_delay;
    /* Latency, 0 to 7. */
    uint8_t latency;
    /* 1 where the first piece continues a packet begun in an earlier PDU. */
    uint8_t pfirst;
    /* 1 where the last piece is continued in a later PDU. */
    uint8_t plast;
    /* The starting number, 0 to 63: that of the first packet not continued. */
    uint8_t start;
    /* The count of pieces, 0 to BARZHILUP_PIECES_MAX. */
    uint8_t nop;
    /* 1 where expansion bytes follow the locators, else 0. */
    uint8_t expansion;
    /* The place of the last byte before the first piece. */
    uint8_t la;
} barzhilup_control_word;

/* The expansion fields; 0 where not sent or not interpreted. */
typedef struct {
    /* ID 0: class, 1 to 15. */
    uint8_t class_code;
    /* ID 1: program number, 0 to 7, and the place of the PDU's last byte. */
    uint8_t program;
    uint16_t displacement;
    /* ID 2: access, 0 or 1, and program type, 0 to 255. */
    uint8_t access;
    uint8_t type_code;
    /* ID 4: applied services, 0 to 7, and marker, 0 to 2,097,151. */
    uint8_t services;
    uint32_t marker;
} barzhilup_expansion;

/* What a PDU holds. If it is refused, every field but `refusal` is 0, and
 * `wrong_locator` too unless the number is 11. */
typedef struct {
    /* BARZHILUP_ACCEPTED, or a BARZHILUP_REFUSED_ number: 3 to 5 or 7 to 12;
     * from barzhilup_list_pieces also 13. */
    uint32_t refusal;
    /* With BARZHILUP_REFUSED_LOCATOR, the number k of the first wrong locator,
     * from 0; otherwise 0. */
    uint32_t wrong_locator;
    /* What bytes 8 to 13 and the expansion bytes say. */
    barzhilup_control_word control;
    barzhilup_expansion expansion;
    /* Where the PSD starts in the PDU, and its length. With no PSD these are
     * La + 1 and 0. */
    uint32_t psd_start;
    uint32_t psd_length;
    /* Piece k's start in the PDU and its length, without its CRC byte, for k below
     * NOP; 0 from NOP on. */
    uint16_t starts[BARZHILUP_READING_PIECES];
    uint16_t lengths[BARZHILUP_READING_PIECES];
} barzhilup_reading;

/*
 * Reads a PDU without a receiver: corrects its header in place and says what it
 * holds. `pdu` is the whole PDU, `length` its length in bytes. If it is refused,
 * no byte has changed.
 *
 * Locators past byte 95, those of a PDU with more than 41 pieces (locators of 16
 * bits) or 54 (12 bits), are outside the header code: they are taken as they
 * came.
 */
barzhilup_reading barzhilup_read(uint8_t *pdu, size_t length);

/* ---- Writer ------------------------------------------------------------- */

/* What a writer was opened with and what it remembers. A caller keeps it between
 * calls and need not look inside. */
typedef struct {
    /* The codec mode that it was opened for. */
    uint8_t mode;
    /* 0 core, 1 enhanced. */
    uint8_t stream;
    /* The value that the CRC's register starts with, any byte; every call keeps
     * it. */
    uint8_t crc_start;
    /* The next PDU's sequence. */
    uint8_t sequence;
    /* The number, 0 to 63, of the first unfinished packet. */
    uint8_t number;
    /* How many bytes of it are sent. */
    uint16_t sent;
} barzhilup_writer;

/* What came of opening a writer. */
typedef struct {
    /* BARZHILUP_ACCEPTED or BARZHILUP_REFUSED_MODE. */
    uint32_t refusal;
    /* At sequence 0 and number 0. If refused, a writer of mode 255, which every
     * call turns down with BARZHILUP_REFUSED_STATE. */
    barzhilup_writer writer;
} barzhilup_writer_opened;

/* A PDU's settings. All 0: no expansion bytes. A bool is true or false: any
 * other byte in its place is undefined, as in C. */
typedef struct {
    /* 0 to 2; with a nonzero program 0. */
    uint8_t blend;
    /* Gain (core: 0 to 6, 24 to 31) or stream delay (enhanced: 0 to 31). */
    uint8_t gain;
    /* 0 to 63. */
    uint8_t common_delay;
    /* 0 to 7. */
    uint8_t latency;
    /* Expansion fields, each behind a flag that says whether it is asked for;
     * without it, its values make no difference. The program field (ID 1) is
     * sent whenever any is, with program 0 if it is not asked for.
     * Class: only 1, and then with a nonzero program and access 1. */
    bool classed;
    uint8_t class_code;
    /* Program number, 0 to 7. */
    bool programmed;
    uint8_t program;
    /* The displacement, which is the PDU's length minus 1; lengths to 16,384. */
    bool displaced;
    /* Access, 1 with class 1 and 0 without, and program type, 0 to 255. */
    bool typed;
    uint8_t access;
    uint8_t type_code;
    /* Applied services, 0 or (with class 1) 1, and marker, 0 to 2,097,151. */
    bool serviced;
    uint8_t services;
    uint32_t marker;
} barzhilup_settings;

/* What came of writing a PDU. */
typedef struct {
    /* BARZHILUP_ACCEPTED, or a BARZHILUP_REFUSED_ number: 1, 3, 10 or 14 to
     * 17. */
    uint32_t refusal;
    /* How many of the packets offered ended in this PDU. 0 if refused. */
    uint32_t ended;
    /* The writer for the next call; as it came if refused. */
    barzhilup_writer writer;
} barzhilup_written;

/* Opens a writer for a mode and stream of the table of modes. The register of its
 * CRCs starts at BARZHILUP_CRC_START, 0. */
barzhilup_writer_opened barzhilup_open_writer(uint8_t mode, uint8_t stream);

/*
 * Opens a writer for a mode and stream, and with the value that the register of
 * its CRCs starts with. Any byte will do: the opening is refused for its mode
 * and stream only. With 0 this is barzhilup_open_writer; recordings off the air
 * check with BARZHILUP_CRC_START_OFF_AIR, 255.
 *
 * Open the receiver of these PDUs with the same value. Nothing is promised for
 * unequal ones; what a user sees then is BARZHILUP_NOTE_CRC for every piece that
 * came as it was sent.
 */
barzhilup_writer_opened barzhilup_open_writer_with(uint8_t mode, uint8_t stream,
                                                   uint8_t crc_start);

/*
 * Writes one PDU: all `pdu_length` bytes of `pdu`, whatever they held.
 *
 * `lengths` has the lengths, 1 to 4,096, of the `count` packets that are
 * offered, `bytes` their bytes, joined. The first is the unfinished packet,
 * whole, if there is one; if there is none, `count` may be 0, and the PDU has
 * no pieces. As many are placed as fit, and then a part of the next: offer
 * again from the first that did not end. `pdu` must not overlap what is read.
 *
 * A PDU gets no more pieces than the largest count up to 63 for which La is at
 * most 255. That is 63 with locators of 12 bits, and with 16 bits where PSD and
 * expansion together have up to 116 bytes; from there on it is one fewer for
 * every two bytes more: 62 with 117 and 118, 57 with 127 and 128.
 *
 * If it is refused, no byte of `pdu` has changed.
 */
barzhilup_written barzhilup_write(barzhilup_writer writer,
                                  barzhilup_settings settings,
                                  const uint8_t *psd, size_t psd_length,
                                  const uint16_t *lengths, size_t count,
                                  const uint8_t *bytes, size_t bytes_length,
                                  uint8_t *pdu, size_t pdu_length);

/* ---- Packet log --------------------------------------------------------- */

/*
 * A log is a row of words of 32 bits. Bits 31-30 are a word's kind, one of the
 * four below. A packet's word and a PSD's word are followed by data words with
 * their bytes, three to a word; the last has 1 to 3.
 *
 * Packet 5 with the bytes 11 22 33 44 is 0x00050004 0x43112233 0x41440000.
 */

/* A packet: bits 21-16 are its number, 0 to 63, bits 15-0 its length in bytes,
 * 1 to 4,096. Data words follow. */
#define BARZHILUP_LOG_PACKET 0

/* Data: bits 25-24 say how many bytes, 1 to 3. The first stands in bits 23-16,
 * the second in 15-8, the third in 7-0; unused ones are zero. */
#define BARZHILUP_LOG_DATA 1

/* PSD: bits 15-0 are its length in bytes, at least 1. Data words follow. */
#define BARZHILUP_LOG_PSD 2

/* A note: bits 29-16 are its cause, one of those below, bits 15-0 the number of
 * the piece that it is about, from 0; 0 too where it is about none. No data
 * words follow. */
#define BARZHILUP_LOG_NOTE 3

/* Causes of notes. What was held, and the piece that a note is about, are
 * dropped; a later piece of the same PDU may be held. */

/* The PDU sequence is not the one after the last: PDUs are missing, or one came
 * twice. What was held is dropped. About no piece. */
#define BARZHILUP_NOTE_SEQUENCE 1

/* The piece's CRC is wrong; its bytes are dropped. If nearly every piece has this
 * note, the receiver may have been opened with another `crc_start` than the PDUs
 * were written with; off the air it is BARZHILUP_CRC_START_OFF_AIR. */
#define BARZHILUP_NOTE_CRC 2

/* The piece continues a packet of which nothing is held; its bytes are
 * dropped. */
#define BARZHILUP_NOTE_NOTHING_HELD 3

/* The beginning that was held is not continued by this PDU: Pfirst is clear, or
 * its number is not the starting number minus 1, modulo 64. It is dropped. About
 * no piece. */
#define BARZHILUP_NOTE_NOT_CONTINUED 4

/* With the piece, the packet is over 4,096 bytes; its bytes are dropped. */
#define BARZHILUP_NOTE_TOO_LONG 5

/* The PDU was marked lost. What was held is dropped. About no piece. */
#define BARZHILUP_NOTE_LOST 6

/* The piece of a pair has a right CRC in both copies, and other bytes in one than
 * in the other; they are dropped. It stands where BARZHILUP_NOTE_CRC would, so it
 * comes before BARZHILUP_NOTE_NOTHING_HELD and BARZHILUP_NOTE_TOO_LONG. */
#define BARZHILUP_NOTE_COPIES_DIFFER 7

/* The PDU is withheld: its applied services are 1, or unknown, and the receiver is
 * not entitled to its program. It stands where the PSD would, whether the PDU has
 * PSD or not, and behind it nothing but what comes of a first piece that continues a
 * packet held before. About no piece. barzhilup_open_receiver_entitled says more. */
#define BARZHILUP_NOTE_WITHHELD 8

/* The cause of a note in words, those that `barzhilup log` prints; "unknown" for
 * other numbers than those of the causes. */
static inline const char *barzhilup_note_text(uint32_t cause)
{
    switch (cause) {
    case BARZHILUP_NOTE_SEQUENCE:
        return "sequence";
    case BARZHILUP_NOTE_CRC:
        return "wrong CRC";
    case BARZHILUP_NOTE_NOTHING_HELD:
        return "nothing held";
    case BARZHILUP_NOTE_NOT_CONTINUED:
        return "not continued";
    case BARZHILUP_NOTE_TOO_LONG:
        return "too long";
    case BARZHILUP_NOTE_LOST:
        return "lost";
    case BARZHILUP_NOTE_COPIES_DIFFER:
        return "copies differ";
    case BARZHILUP_NOTE_WITHHELD:
        return "withheld";
    default:
        return "unknown";
    }
}

/* The fields of a log's word: its kind; of a packet's word its number; of a packet's
 * or a PSD's the length; of a note's the cause and the piece; of a data word how many
 * bytes it has, and byte k of it, 0 to 2. */
#define BARZHILUP_LOG_KIND(word) ((word) >> 30)
#define BARZHILUP_LOG_NUMBER(word) (((word) >> 16) & 0x3Fu)
#define BARZHILUP_LOG_LENGTH(word) ((word) & 0xFFFFu)
#define BARZHILUP_LOG_CAUSE(word) (((word) >> 16) & 0x3FFFu)
#define BARZHILUP_LOG_PIECE(word) ((word) & 0xFFFFu)
#define BARZHILUP_LOG_COUNT(word) (((word) >> 24) & 0x3u)
#define BARZHILUP_LOG_BYTE(word, k) (((word) >> (16 - 8 * (k))) & 0xFFu)

/* Set in the first word of an enhanced packet in the result of barzhilup_join, and
 * in no packet's first word of a log. So a result with a pair is no log, and joining
 * it again is refused with BARZHILUP_REFUSED_LOG_WORDS; one without a pair is a
 * log. */
#define BARZHILUP_JOINED_ENHANCED 0x20000000u

/* An entry of a log. */
typedef struct {
    /* BARZHILUP_LOG_PACKET, BARZHILUP_LOG_PSD or BARZHILUP_LOG_NOTE. */
    uint32_t kind;
    /* A packet's number, 0 to 63; otherwise 0. */
    uint32_t number;
    /* How many bytes a packet or PSD has; 0 for a note. */
    uint32_t length;
    /* A note's cause, and the piece that it is about; otherwise 0. */
    uint32_t cause;
    uint32_t piece;
    /* Whether a packet is the enhanced one of a pair, in the result of
     * barzhilup_join; otherwise false. */
    bool enhanced;
    /* The data words of a packet or PSD, three bytes in each but the last:
     * barzhilup_log_byte and barzhilup_log_copy take the bytes out. */
    const uint32_t *data;
} barzhilup_log_entry;

/* Where a walk through a log stands. */
typedef struct {
    const uint32_t *words;
    size_t count;
    /* The place of the next entry's first word. */
    size_t place;
} barzhilup_log_iterator;

/*
 * A walk through a log's entries, in their order: `words` has `count` words, those of
 * one call, of several one after another, or of barzhilup_join.
 *
 *     barzhilup_log_iterator walk = barzhilup_log_begin(packet_log, received.words);
 *     barzhilup_log_entry entry;
 *     while (barzhilup_log_next(&walk, &entry))
 *         if (entry.kind == BARZHILUP_LOG_PACKET)
 *             printf("packet %u\n", (unsigned)entry.number);
 */
static inline barzhilup_log_iterator barzhilup_log_begin(const uint32_t *words,
                                                         size_t count)
{
    barzhilup_log_iterator walk;
    walk.words = words;
    walk.count = count;
    walk.place = 0;
    return walk;
}

/* Whether `count` words from `data` on are the data words of `length` bytes. */
static inline bool barzhilup_log_holds(const uint32_t *data, size_t count,
                                       uint32_t length)
{
    size_t i;
    for (i = 0; length > 0; i++) {
        const uint32_t bytes = length < 3 ? length : 3;
        if (i == count || BARZHILUP_LOG_KIND(data[i]) != BARZHILUP_LOG_DATA
            || BARZHILUP_LOG_COUNT(data[i]) != bytes)
            return false;
        length -= bytes;
    }
    return true;
}

/*
 * The next entry of a walk: true, and `entry` is filled; or false, and `entry` means
 * nothing, where there is none left, or where the words from `place` on cannot be
 * walked. Then `place` tells: where all was read it is `count`.
 *
 * A walk is for words that a receiver or barzhilup_join wrote, which are always read
 * to the end. What it checks of others is what it needs to stay within them: an entry
 * does not begin with a data word, and behind a packet's or a PSD's word stand the
 * data words of its length, with three bytes in each, and in the last the rest. It
 * passes over a length of 0, a packet's over 4,096, and set bits without meaning, so
 * it is no test of whether words are a log: BARZHILUP_REFUSED_LOG_WORDS has the whole
 * rule, and barzhilup_join checks it. Both take a note of any cause and piece.
 */
static inline bool barzhilup_log_next(barzhilup_log_iterator *walk,
                                      barzhilup_log_entry *entry)
{
    uint32_t word;
    bool packet, note;
    if (walk->place >= walk->count)
        return false;
    word = walk->words[walk->place];
    packet = BARZHILUP_LOG_KIND(word) == BARZHILUP_LOG_PACKET;
    note = BARZHILUP_LOG_KIND(word) == BARZHILUP_LOG_NOTE;
    entry->kind = BARZHILUP_LOG_KIND(word);
    entry->number = packet ? BARZHILUP_LOG_NUMBER(word) : 0;
    entry->length = note ? 0 : BARZHILUP_LOG_LENGTH(word);
    entry->cause = note ? BARZHILUP_LOG_CAUSE(word) : 0;
    entry->piece = note ? BARZHILUP_LOG_PIECE(word) : 0;
    entry->enhanced = packet && (word & BARZHILUP_JOINED_ENHANCED) != 0;
    entry->data = walk->words + walk->place + 1;
    if (entry->kind == BARZHILUP_LOG_DATA
        || !barzhilup_log_holds(entry->data, walk->count - walk->place - 1,
                                entry->length))
        return false;
    walk->place += 1 + entry->length / 3 + (entry->length % 3 != 0);
    return true;
}

/* Byte k of an entry, from 0, below its length. */
static inline uint8_t barzhilup_log_byte(const barzhilup_log_entry *entry, uint32_t k)
{
    return BARZHILUP_LOG_BYTE(entry->data[k / 3], k % 3);
}

/* Copies an entry's bytes into `bytes`, as many as there are and as it has room for;
 * answers how many. */
static inline uint32_t barzhilup_log_copy(const barzhilup_log_entry *entry,
                                          uint8_t *bytes, size_t room)
{
    uint32_t k;
    for (k = 0; k < entry->length && k < room; k++)
        bytes[k] = barzhilup_log_byte(entry, k);
    return k;
}

/* ---- Core and enhanced side by side ------------------------------------- */

/* What came of joining two logs. */
typedef struct {
    /* BARZHILUP_ACCEPTED, BARZHILUP_REFUSED_LOG_WORDS, BARZHILUP_REFUSED_NUMBERS
     * or BARZHILUP_REFUSED_LOG_LENGTH: the first of these that applies. */
    uint32_t refusal;
    /* How many words of the result were written, from its first on; 0 if
     * refused. */
    size_t words;
} barzhilup_joined;

/*
 * Joins two logs of one frame, core and enhanced, by packet number: what was
 * received of the core stream and of the enhanced one. Each may be one call's log,
 * or several calls' joined. In the core's order the result has each core packet's
 * words, and if the enhanced log has a packet of the same number, that packet's
 * words after them, with BARZHILUP_JOINED_ENHANCED set in their first. An enhanced
 * packet without core is dropped, PSD and notes are left off.
 *
 * Within each log the packets' numbers, counted from its own first packet, modulo
 * 64, have to rise strictly, so a log has at most 64 packets. If there is no core
 * packet, that is not looked at, and the result is empty. Core packets 62, 63 and
 * 0 with enhanced packets 63 and 0 make a packet alone and two pairs.
 *
 * `core` and `enhanced` are only read, and may be the same. `result` may hold
 * anything and must overlap neither; as many words as both logs have together are
 * always enough. Words after the last one written stay as they are, and all of them
 * if the call is refused.
 */
barzhilup_joined barzhilup_join(const uint32_t *core, size_t core_length,
                                const uint32_t *enhanced, size_t enhanced_length,
                                uint32_t *result, size_t result_length);

/* ---- Receiver ----------------------------------------------------------- */

/* What a receiver was opened with and what it remembers. A caller keeps it
 * between calls, together with the carry buffer, and need not look inside. A bool
 * is true or false: any other byte in its place is undefined, as in C. */
typedef struct {
    /* The codec mode that it was opened for. */
    uint8_t mode;
    /* 0 core, 1 enhanced. */
    uint8_t stream;
    /* The value that the CRC's register starts with, any byte; every call keeps
     * it, marking lost too. */
    uint8_t crc_start;
    /* The programs that it is entitled to: bit p for program p. Every call keeps
     * them, marking lost too. */
    uint8_t entitled;
    /* Whether the last PDU's sequence is known. */
    bool known;
    /* The last PDU's sequence; 0 if not known. */
    uint8_t sequence;
    /* How many bytes of an unfinished packet are held, 0 to 4,096. They are the
     * first ones of the carry buffer. 0: nothing is held. */
    uint16_t held;
    /* That packet's number, 0 to 63; 0 if nothing is held. */
    uint8_t number;
    /* Whether the applied services in force are known. Only the core streams of
     * modes 1, 2, 3 and 13, which have PDU sequences 0 to 7, keep them from one
     * PDU to the next; elsewhere this is false, or the receiver is refused with
     * BARZHILUP_REFUSED_STATE. */
    bool serviced;
    /* The applied services in force, 0 to 7; 0 if not known. */
    uint8_t services;
    /* How many packets were delivered since the opening. Every packet that a call
     * logs counts. Opening sets this and the next two fields to 0, and so does
     * loading words that have no counts; marking lost keeps them. */
    uint32_t delivered;
    /* How many packets are missing between those delivered, by their numbers, which
     * run from 0 to 63 and from 0 again: from the second packet delivered on, each
     * adds its number minus the last one's minus 1, modulo 64. Lost, damaged and
     * withheld packets are missing alike. None is counted before the first
     * packet delivered, nor after the last.
     *
     * Where each PDU of a writer is received or marked lost, once and in their order,
     * and fewer than 64 packets are missing between each one delivered and the next,
     * `delivered` plus `missing` is just how many packets the writer sent from the
     * first delivered to the last. Where 64 or more are missing in one gap, their
     * count is short by 64, or by a multiple of it. A packet whose number is that
     * of the one delivered before it adds 63.
     *
     * With `delivered` 0 this has to be 0. */
    uint32_t missing;
    /* The number, 0 to 63, of the last packet delivered; with `delivered` 0 it has to
     * be 0. */
    uint8_t last;
} barzhilup_receiver;

/* What came of opening a receiver, or of loading one. */
typedef struct {
    /* BARZHILUP_ACCEPTED or BARZHILUP_REFUSED_MODE; with a list of programs also
     * BARZHILUP_REFUSED_PROGRAMS. From barzhilup_load_receiver: BARZHILUP_ACCEPTED,
     * BARZHILUP_REFUSED_CARRY_LENGTH or BARZHILUP_REFUSED_WORDS. */
    uint32_t refusal;
    /* No sequence and no applied services known, nothing held, nothing delivered;
     * loaded, what the words say. If refused, a receiver of mode 255, all else 0,
     * which every call turns down with BARZHILUP_REFUSED_STATE. */
    barzhilup_receiver receiver;
} barzhilup_receiver_opened;

/* What came of saving a receiver. */
typedef struct {
    /* BARZHILUP_ACCEPTED, BARZHILUP_REFUSED_STATE, BARZHILUP_REFUSED_CARRY_LENGTH or
     * BARZHILUP_REFUSED_WORD_BUFFER. */
    uint32_t refusal;
    /* How many words were written, from the buffer's first on. 0 if refused. */
    uint32_t words;
} barzhilup_saved;

/* What came of receiving a PDU or a pair, or marking a PDU lost. */
typedef struct {
    /* BARZHILUP_ACCEPTED, or a BARZHILUP_REFUSED_ number: 1 to 13 or 27 for
     * receiving, with marks also 19; 1, 2, 4 to 13, 20 or 27 for a pair; 1 or 13 for
     * marking lost. */
    uint32_t refusal;
    /* With BARZHILUP_REFUSED_LOCATOR, the number k of the first wrong locator,
     * from 0, for a pair the smallest over both copies; otherwise 0. */
    uint32_t wrong_locator;
    /* How many words of the log were written, from its first on. 0 if
     * refused. */
    uint32_t words;
    /* The receiver for the next call; as it came if refused. */
    barzhilup_receiver receiver;
} barzhilup_received;

/* What came of receiving a batch of PDUs. */
typedef struct {
    /* BARZHILUP_ACCEPTED, and all PDUs were received; or a BARZHILUP_REFUSED_
     * number: 1, 2 or 18 of the whole call, or the one, 3 to 13 or 27, with which the
     * PDU after the first `taken` was refused. */
    uint32_t refusal;
    /* With BARZHILUP_REFUSED_LOCATOR, the number k of that PDU's first wrong
     * locator, from 0; otherwise 0. */
    uint32_t wrong_locator;
    /* How many PDUs were received, from the first on: those before the refused
     * one. */
    size_t taken;
    /* How many words of the log were written by these, from its first on. */
    size_t words;
    /* The receiver for the next call, as the last PDU received left it; as it came
     * if there is none. */
    barzhilup_receiver receiver;
} barzhilup_batch;

/* Opens a receiver for a mode and stream of the table of modes. The register of
 * its CRCs starts at BARZHILUP_CRC_START, 0. It is entitled to programs 0 to 7:
 * no PDU is withheld. */
barzhilup_receiver_opened barzhilup_open_receiver(uint8_t mode, uint8_t stream);

/*
 * Opens a receiver for a mode and stream, and with the value that the register of
 * its CRCs starts with: the one that the PDUs were written with. Any byte will
 * do: the opening is refused for its mode and stream only. With 0 this is
 * barzhilup_open_receiver; recordings off the air check with
 * BARZHILUP_CRC_START_OFF_AIR, 255. Nothing is promised for a writer and a
 * receiver with unequal values. It is entitled to programs 0 to 7: no PDU is
 * withheld.
 */
barzhilup_receiver_opened barzhilup_open_receiver_with(uint8_t mode,
                                                       uint8_t stream,
                                                       uint8_t crc_start);

/*
 * Opens a receiver that is entitled to some programs only. `programs` is a list
 * of `count` program numbers, each 0 to 7 and none twice, in any order; it is
 * only read. With `count` 0 the receiver is entitled to none, with all eight
 * this is barzhilup_open_receiver_with. It is refused with
 * BARZHILUP_REFUSED_MODE, and then with BARZHILUP_REFUSED_PROGRAMS.
 *
 * A PDU is withheld if its applied services are 1 and its program is not listed.
 * Other applied services, 0 and 2 to 7, withhold nothing; not sent, or not
 * interpreted, they count as 0, and so does the program. For the core streams of
 * modes 1, 2, 3 and 13 the value that counts is the one sent with PDU sequence 0,
 * until the next such PDU: what the others send is not taken. Opening, marking lost
 * and BARZHILUP_NOTE_SEQUENCE forget it (the PDU that brings this note may bring the
 * new value with it); while it is unknown, every program that is not listed is
 * withheld, whatever the PDU says.
 *
 * What a withheld PDU leaves: in log order, note 1 or note 4, if due; in place of the
 * PSD BARZHILUP_NOTE_WITHHELD; and what comes of the first piece, if it continues a
 * packet of which a beginning is held. No other piece is looked at: none is logged,
 * noted or held. So a packet follows the right of the PDU in which it began: begun in
 * a PDU that is not withheld, it is delivered even if it goes on in a withheld one;
 * begun in a withheld one, it is not, and where it goes on in a PDU that is not
 * withheld, nothing of it is held (BARZHILUP_NOTE_NOTHING_HELD).
 *
 * A withheld PDU is judged as any other, and refused with the same numbers; if it is
 * accepted, its header is left corrected. What its PSD and pieces hold makes no
 * difference to log, carry and receiver, unless a packet continues in it.
 */
barzhilup_receiver_opened
barzhilup_open_receiver_entitled(uint8_t mode, uint8_t stream, uint8_t crc_start,
                                 const uint8_t *programs, size_t count);

/*
 * Receives one PDU: corrects its header in place, joins its pieces to packets,
 * and logs packets, PSD and notes.
 *
 * `carry` is the carry buffer, of at least 4,096 bytes. For a receiver that was
 * just opened it may hold anything; after that it has to be as the receiver's
 * last call left it. `pdu` is the whole PDU. `log` may hold anything. The three
 * buffers must not overlap.
 *
 * In log order: note 1 or note 4, if due; the PSD, if any; and for each piece a
 * packet if one ends with it, a note if it is dropped, or nothing if it is held.
 * For a PDU that is withheld, barzhilup_open_receiver_entitled says what there
 * is. Each packet is counted in the receiver's `delivered`, and those that its
 * number tells to be missing in `missing`. Where one of the two would pass
 * 4,294,967,295 the call is refused with 27: to go on, write both down, and set
 * them and `last` to 0. Packets missing between the last one delivered before
 * that and the first one after it are then in neither.
 *
 * If the PDU is accepted, `pdu` is left corrected, the first `words` words of
 * `log` are written, and the first `held` bytes of `carry` are the bytes held
 * now; no other byte or word has changed. If it is refused, none has.
 */
barzhilup_received barzhilup_receive(barzhilup_receiver receiver,
                                     uint8_t *carry, size_t carry_length,
                                     uint8_t *pdu, size_t pdu_length,
                                     uint32_t *log, size_t log_length);

/*
 * As barzhilup_receive, for a PDU of whose header some places are marked: the
 * header is corrected as barzhilup_correct_header_marked corrects it. `marks` is
 * a list of `count` places, each 0 to 95, at most eight and none twice; it is
 * only read. Every call has its own list: those of the PDUs before make no
 * difference. With `count` 0 this is barzhilup_receive.
 *
 * It is refused as barzhilup_receive is, in this order: 1, 2, 3, 19, 4, 5 to 13,
 * 27. If it is refused, no byte and no word has changed.
 */
barzhilup_received barzhilup_receive_marked(barzhilup_receiver receiver,
                                            uint8_t *carry, size_t carry_length,
                                            uint8_t *pdu, size_t pdu_length,
                                            const uint8_t *marks, size_t count,
                                            uint32_t *log, size_t log_length);

/*
 * Receives PDUs that stand joined in one buffer, as barzhilup_receive would one
 * after another, each log following the last. Receiver, carry, buffer and log
 * are left as these calls leave them.
 *
 * `pdus` is the buffer, and `lengths` has the lengths of the `count` PDUs in it, in
 * their order; it is only read. Any count will do. With `count` 0 and
 * `pdus_length` 0 the call is accepted, and nothing changes. `carry` and `log` are
 * as for barzhilup_receive; a log of BARZHILUP_LOG_WORDS words for each PDU is
 * always long enough. The four buffers must not overlap.
 *
 * It stops at the first PDU that is refused, and `refusal` is that PDU's number; 13
 * is judged on what is left of the log, 27 on the counts as the PDUs before it left
 * them. The PDUs before it, of which `taken` is the count, are received. It and
 * those after it keep their bytes: to go on, deal with it (barzhilup_mark_lost,
 * where it stays refused) and hand over those after it.
 *
 * The whole call is judged before the first PDU, in this order: 1, 2, and 18 where
 * the lengths do not sum to `pdus_length`. If it is refused with one of these, no
 * byte and no word has changed, and the counts are 0. An empty list is judged too.
 * A length that no PDU can have is no matter of 18: with the sum right, that PDU is
 * refused with 3.
 */
barzhilup_batch barzhilup_receive_batch(barzhilup_receiver receiver,
                                        uint8_t *carry, size_t carry_length,
                                        uint8_t *pdus, size_t pdus_length,
                                        const size_t *lengths, size_t count,
                                        uint32_t *log, size_t log_length);

/*
 * Of two copies of a PDU, says which one to take: the one in whose header fewer
 * bytes have to be corrected, the first if equal; the other where one can't be
 * corrected. A length that is refused with BARZHILUP_REFUSED_PDU_LENGTH counts
 * as one that can't. The lengths may differ. Nothing else is judged: mode,
 * locators and CRCs make no difference.
 *
 * Returns 1 for the first and 2 for the second; 0 where neither can be corrected.
 * Nothing is refused. Both PDUs are only read: the one that is chosen is left
 * uncorrected. They may overlap, and may be the same.
 */
uint32_t barzhilup_choose(const uint8_t *first, size_t first_length,
                          const uint8_t *second, size_t second_length);

/* A part of a buffer that its caller lent. */
typedef struct {
    const uint8_t *bytes;
    size_t length;
} barzhilup_part;

/* The copy that barzhilup_choose chooses, as a pointer with a length: the buffer
 * itself, whole. Where neither can be corrected, it is an empty part of the first:
 * its pointer, and length 0. */
static inline barzhilup_part
barzhilup_chosen(const uint8_t *first, size_t first_length,
                 const uint8_t *second, size_t second_length)
{
    barzhilup_part part;
    const uint32_t choice =
        barzhilup_choose(barzhilup_bytes_read(first, first_length), first_length,
                         barzhilup_bytes_read(second, second_length), second_length);
    part.bytes = choice == 2 ? second : first;
    part.length = choice == 0 ? 0 : choice == 2 ? second_length : first_length;
    return part;
}

/*
 * Receives a pair of PDUs: two copies of one, from two receivers on one signal.
 * It counts as one PDU, and is logged as one.
 *
 * Where only one copy can be corrected, that one is received as
 * barzhilup_receive receives it, and the other keeps its bytes; a length that is
 * refused with BARZHILUP_REFUSED_PDU_LENGTH counts as one that can't. Otherwise
 * each piece is taken by its CRC:
 *  - right in one copy alone: the bytes of that one;
 *  - right in both, and the bytes equal: these;
 *  - right in both, and the bytes differ: BARZHILUP_NOTE_COPIES_DIFFER;
 *  - wrong in both: BARZHILUP_NOTE_CRC, even where the bytes are equal.
 * All else is as for barzhilup_receive: the log's order, what is held, the carry
 * and its length. A log of BARZHILUP_LOG_WORDS words is always long enough.
 *
 * `first` and `second` are whole PDUs; their lengths may differ. The four buffers
 * must not overlap.
 *
 * It is refused, in this order, with
 *  - 1 and 2, as barzhilup_receive is;
 *  - 4 where neither copy can be corrected; never with 3;
 *  - 5 to 12, the lowest that applies to a copy that can be corrected: one such
 *    copy refuses the pair, however good the other is;
 *  - 20 where both can be corrected, and lengths or corrected bytes 8 to La
 *    differ: they are not of one PDU, or bytes 96 to La of one are damaged;
 *  - 13, and then 27.
 *
 * If the pair is accepted, the header of each copy that can be corrected is left
 * corrected, the first `words` words of `log` are written, and the first `held`
 * bytes of `carry` are the bytes held now; no other byte or word has changed. If it
 * is refused, none has: a copy can still be received alone.
 */
barzhilup_received barzhilup_receive_pair(barzhilup_receiver receiver,
                                          uint8_t *carry, size_t carry_length,
                                          uint8_t *first, size_t first_length,
                                          uint8_t *second, size_t second_length,
                                          uint32_t *log, size_t log_length);

/*
 * Marks a PDU lost, in its place in the row of PDUs: logs note 6, one word,
 * drops what is held and forgets the sequence and the applied services. The counts
 * and the last number delivered stay. The carry buffer is not needed and stays as it
 * is. `log` may hold anything; no other word of it has changed, and none if the call
 * is refused.
 */
barzhilup_received barzhilup_mark_lost(barzhilup_receiver receiver,
                                       uint32_t *log, size_t log_length);

/* ---- A receiver that goes on after a restart ---------------------------- */

/*
 * A receiver is saved between two calls, as words of 32 bits, and loaded again by
 * the program that goes on: the same one after a restart, or a later one. What it
 * logs from there on is what it would have logged without the interruption,
 * whatever the calls are, and however often it is saved and loaded.
 *
 * Bits 31-28 of a word are its kind. Kinds rise from word to word, and only kinds 5
 * and 6 repeat. Bits that have no meaning here are zero.
 *
 *   kind  where            bits    what
 *   0     always, first     3-0    the mode
 *                           5-4    the stream
 *   1     sequence known    2-0    the last PDU's sequence
 *   2     bytes held      21-16    the number of the packet that they begin
 *                          15-0    how many bytes are held, 1 to 4,096
 *   3     always            7-0    the value that the CRC's register starts with
 *   4     always            7-0    the entitled programs, bit p for program p
 *                            11    1 if the applied services in force are known
 *                          10-8    these; 0 if they are not known
 *   5     bytes held      25-24    how many of them stand in this word, 1 to 3
 *                         23-16    the first of them
 *                          15-8    the second, or 0
 *                           7-0    the third, or 0
 *   6     any delivered    15-0    in five words: `delivered`, its high 16 bits and
 *                                  its low ones, `missing` likewise, and `last`
 *
 * The words of kind 5 have the held bytes in their order; each has three but the
 * last.
 *
 * A receiver of mode 1, core, with sequence 5 known, packet 9 held as far as the
 * bytes 11 22 33 44, a register that starts at 255, programs 0 and 3 entitled, and
 * applied services 1 in force is 0x00000001 0x10000005 0x20090004 0x300000ff
 * 0x40000909 0x53112233 0x51440000. Once it has delivered 70,000 packets, the last of
 * them number 8, with 3 missing between them, these follow: 0x60000001 0x60001170
 * 0x60000000 0x60000003 0x60000008.
 *
 * Words that were saved before there was a kind 3, 4 or 6 lack it. They are loaded
 * too: without kind 3 the register starts at 0, without kind 4 the receiver is
 * entitled to no program and the applied services are unknown, and without kind 6
 * nothing is delivered so far.
 *
 * Where the words are kept is for the caller to decide, and so is the order of a
 * word's bytes there. The words have no check of their own: keep one with them
 * where they can be damaged.
 */

/*
 * Saves a receiver: writes its words into `words`, from the first on. `carry` is
 * its carry buffer, of at least 4,096 bytes, as the receiver's last call left it;
 * it is only read. `words` has room for `words_length` words and may hold anything;
 * it must not overlap `carry`. Three words are written, one more if the sequence is
 * known, five more if a packet was delivered, and if bytes are held one more and one
 * for every three of these, or what is left of three: BARZHILUP_SNAPSHOT_WORDS at
 * most.
 *
 * `refusal` is BARZHILUP_ACCEPTED, and the first `words` words of the buffer are
 * written; those after them stay as they are. Or it is, the first of these that
 * applies, BARZHILUP_REFUSED_STATE, BARZHILUP_REFUSED_CARRY_LENGTH or
 * BARZHILUP_REFUSED_WORD_BUFFER, and no word has changed.
 */
barzhilup_saved barzhilup_save_receiver(barzhilup_receiver receiver,
                                        const uint8_t *carry, size_t carry_length,
                                        uint32_t *words, size_t words_length);

/*
 * Loads a receiver from the words that it was saved as. `words` has just these,
 * `words_length` of them; it is only read. `carry` is the carry buffer for the
 * calls that follow, of at least 4,096 bytes; it may hold anything and must not
 * overlap `words`.
 *
 * `refusal` is BARZHILUP_ACCEPTED, the receiver is the one that was saved, and the
 * bytes that it holds are the first ones of `carry`; those after them stay as they
 * are. Or it is BARZHILUP_REFUSED_CARRY_LENGTH, or after this
 * BARZHILUP_REFUSED_WORDS, and no byte has changed.
 *
 * The words are refused with BARZHILUP_REFUSED_WORDS if there are none; if kind 0
 * is not the first, or a kind does not rise, repeats or is over 6; if a bit without
 * meaning is set; if mode and stream are not in the table of modes, the sequence
 * is outside their range, or the applied services are known for others than the
 * core streams of modes 1, 2, 3 and 13; if applied services that are not known are
 * not 0; if kind 2 says 0 bytes or over 4,096; and if the words of kind 5 have more
 * or fewer bytes than kind 2 says, 0 where it is absent, or a word before the last
 * has under three; and if there are words of kind 6 and these are not five, say that
 * nothing is delivered, or have a last number over 63.
 *
 * PDUs that passed between saving and loading are marked lost, one call of
 * barzhilup_mark_lost for each: their sequences may happen to fit, and then nothing
 * else tells that they are missing.
 */
barzhilup_receiver_opened barzhilup_load_receiver(const uint32_t *words,
                                                  size_t words_length,
                                                  uint8_t *carry,
                                                  size_t carry_length);

/* ---- Bench for latency settings ----------------------------------------- */

/*
 * Tries latencies before going on air, on the counts of packets that end in each
 * PDU: `ended` of barzhilup_write. One PDU's count is added at tick 0 and every N
 * ticks, where N is 4 for modes and streams of PDU sequence 0 to 7 and 32 for those
 * of 0 to 1. A latency v takes nothing before tick 2 times v; from there each tick
 * takes one packet, after any adding, or is dry if none waits. The bench runs N
 * ticks for each count.
 *
 * `counts` has 1 to BARZHILUP_COUNTS_MAX counts, each 0 to BARZHILUP_COUNT_MAX; it
 * is only read. The calls are refused with BARZHILUP_REFUSED_MODE, and then with
 * BARZHILUP_REFUSED_COUNTS.
 */

/* What came of trying the latencies 0 to 7. */
typedef struct {
    /* BARZHILUP_ACCEPTED, BARZHILUP_REFUSED_MODE or BARZHILUP_REFUSED_COUNTS. */
    uint32_t refusal;
    /* The smallest latency without a dry tick; 0 if there is none. */
    uint32_t latency;
    /* Whether there is one: false if all eight have a dry tick, or if refused. */
    bool found;
} barzhilup_latency_answer;

/* What came of trying one latency. If refused, every other field is 0. */
typedef struct {
    /* BARZHILUP_ACCEPTED, BARZHILUP_REFUSED_MODE or BARZHILUP_REFUSED_COUNTS. */
    uint32_t refusal;
    /* How many ticks the bench ran: N for each count. */
    uint32_t ticks;
    /* How many of them are dry. */
    uint32_t dry;
    /* The first dry tick, counted from 0; 0 too if none is dry. */
    uint32_t first_dry;
    /* The most packets that wait at a tick, after any adding and before one is
     * taken: the packets that a buffer has to hold. */
    uint32_t most_waiting;
} barzhilup_latency_trial;

/* What came of asking for the packets that wait. */
typedef struct {
    /* BARZHILUP_ACCEPTED, BARZHILUP_REFUSED_MODE or BARZHILUP_REFUSED_COUNTS. */
    uint32_t refusal;
    /* How many ticks were written, from the buffer's first entry on; 0 if
     * refused. */
    uint32_t count;
} barzhilup_waiting_answer;

/* The smallest latency from 0 to 7 without a dry tick. A latency for which 2 times
 * v is at or past the last tick's end takes nothing, and so has none. */
barzhilup_latency_answer
barzhilup_smallest_latency(uint8_t mode, uint8_t stream,
                           const uint32_t *counts, size_t count);

/* Tries one latency, 0 to BARZHILUP_LATENCY_MAX; a larger one, which no PDU can
 * say, is tried all the same. */
barzhilup_latency_trial
barzhilup_try_latency(uint8_t mode, uint8_t stream,
                      const uint32_t *counts, size_t count, uint8_t latency);

/*
 * Writes the packets that wait at each tick into `waiting`, from tick `first` on,
 * after any adding and before one is taken: as many ticks as the run has from
 * there, and as `waiting` has room for. Nothing is written if `first` is past the
 * last tick. Later entries stay as they are, and all of them if refused. `waiting`
 * may hold anything and must not overlap `counts`.
 */
barzhilup_waiting_answer
barzhilup_waiting_packets(uint8_t mode, uint8_t stream,
                          const uint32_t *counts, size_t count, uint8_t latency,
                          size_t first, uint32_t *waiting, size_t length);

/* ---- Panel -------------------------------------------------------------- */

/* A piece of a PDU. */
typedef struct {
    /* Its place in the PDU, and its length without its CRC byte. */
    uint16_t start;
    uint16_t length;
    /* Whether its CRC is right, by the value that the list's caller gave. */
    bool right;
} barzhilup_piece;

/* What came of stepping a receiver in place: a barzhilup_received without the
 * receiver. */
typedef struct {
    /* BARZHILUP_ACCEPTED, or a BARZHILUP_REFUSED_ number: 1 to 13 or 27 for
     * receiving, 1 or 13 for marking lost. */
    uint32_t refusal;
    /* With BARZHILUP_REFUSED_LOCATOR, the number k of the first wrong locator,
     * from 0; otherwise 0. */
    uint32_t wrong_locator;
    /* How many words of the log were written, from its first on. 0 if
     * refused. */
    uint32_t words;
} barzhilup_stepped;

/*
 * Reads a PDU without a receiver, as barzhilup_read does, and fills a list with
 * its pieces: entry k is piece k, for k below NOP. Entries from NOP on keep what
 * they held. A wrong CRC is a verdict and no refusal; it is given on the
 * corrected PDU, so damage among the first 96 bytes that is corrected leaves no
 * CRC wrong. Initialise the list: the bool of an entry is true or false.
 *
 * `crc_start` is the value that the register of the CRCs starts with, any byte:
 * the one that the PDU was written with. It decides verdicts and nothing else.
 * 0 is BARZHILUP_CRC_START; recordings off the air check with
 * BARZHILUP_CRC_START_OFF_AIR, 255.
 *
 * It is refused as barzhilup_read is, and with BARZHILUP_REFUSED_LIST_LENGTH for
 * a list of fewer than NOP entries. If it is refused, no byte and no entry has
 * changed.
 */
barzhilup_reading barzhilup_list_pieces(uint8_t *pdu, size_t pdu_length,
                                        uint8_t crc_start,
                                        barzhilup_piece *list, size_t count);

/* As barzhilup_receive, with the next receiver stored in `receiver`. If it is
 * refused, `receiver` is as it was too. */
barzhilup_stepped barzhilup_receive_in_place(barzhilup_receiver *receiver,
                                             uint8_t *carry, size_t carry_length,
                                             uint8_t *pdu, size_t pdu_length,
                                             uint32_t *log, size_t log_length);

/* As barzhilup_mark_lost, with the next receiver stored in `receiver`. */
barzhilup_stepped barzhilup_mark_lost_in_place(barzhilup_receiver *receiver,
                                               uint32_t *log, size_t log_length);

/* ---- Functions by their names, with NULL for an empty buffer ------------- */

static inline barzhilup_piece *barzhilup_pieces_written(barzhilup_piece *list,
                                                        size_t length)
{
    static barzhilup_piece nothing;
    return length == 0 ? &nothing : list;
}

static inline uint32_t
barzhilup_write_parity_or_null(uint8_t *pdu, size_t length)
{
    return barzhilup_write_parity(barzhilup_bytes_written(pdu, length), length);
}
#define barzhilup_write_parity barzhilup_write_parity_or_null

static inline barzhilup_correction_answer
barzhilup_correct_header_or_null(uint8_t *pdu, size_t length)
{
    return barzhilup_correct_header(barzhilup_bytes_written(pdu, length), length);
}
#define barzhilup_correct_header barzhilup_correct_header_or_null

static inline barzhilup_correction_answer
barzhilup_correct_header_marked_or_null(uint8_t *pdu, size_t length,
                                        const uint8_t *marks, size_t count)
{
    return barzhilup_correct_header_marked(barzhilup_bytes_written(pdu, length),
                                           length,
                                           barzhilup_bytes_read(marks, count),
                                           count);
}
#define barzhilup_correct_header_marked barzhilup_correct_header_marked_or_null

static inline uint8_t
barzhilup_crc8_or_null(const uint8_t *bytes, size_t length)
{
    return barzhilup_crc8(barzhilup_bytes_read(bytes, length), length);
}
#define barzhilup_crc8 barzhilup_crc8_or_null

static inline uint8_t
barzhilup_crc8_from_or_null(uint8_t start, const uint8_t *bytes, size_t length)
{
    return barzhilup_crc8_from(start, barzhilup_bytes_read(bytes, length), length);
}
#define barzhilup_crc8_from barzhilup_crc8_from_or_null

static inline barzhilup_reading
barzhilup_read_or_null(uint8_t *pdu, size_t length)
{
    return barzhilup_read(barzhilup_bytes_written(pdu, length), length);
}
#define barzhilup_read barzhilup_read_or_null

static inline barzhilup_written
barzhilup_write_or_null(barzhilup_writer writer, barzhilup_settings settings,
                        const uint8_t *psd, size_t psd_length,
                        const uint16_t *lengths, size_t count,
                        const uint8_t *bytes, size_t bytes_length, uint8_t *pdu,
                        size_t pdu_length)
{
    return barzhilup_write(writer, settings,
                           barzhilup_bytes_read(psd, psd_length), psd_length,
                           barzhilup_lengths_read(lengths, count), count,
                           barzhilup_bytes_read(bytes, bytes_length),
                           bytes_length, barzhilup_bytes_written(pdu, pdu_length),
                           pdu_length);
}
#define barzhilup_write barzhilup_write_or_null

static inline barzhilup_joined
barzhilup_join_or_null(const uint32_t *core, size_t core_length,
                       const uint32_t *enhanced, size_t enhanced_length,
                       uint32_t *result, size_t result_length)
{
    return barzhilup_join(barzhilup_words_read(core, core_length), core_length,
                          barzhilup_words_read(enhanced, enhanced_length),
                          enhanced_length,
                          barzhilup_words_written(result, result_length),
                          result_length);
}
#define barzhilup_join barzhilup_join_or_null

static inline barzhilup_receiver_opened
barzhilup_open_receiver_entitled_or_null(uint8_t mode, uint8_t stream,
                                         uint8_t crc_start,
                                         const uint8_t *programs, size_t count)
{
    return barzhilup_open_receiver_entitled(mode, stream, crc_start,
                                            barzhilup_bytes_read(programs, count),
                                            count);
}
#define barzhilup_open_receiver_entitled barzhilup_open_receiver_entitled_or_null

static inline barzhilup_received
barzhilup_receive_or_null(barzhilup_receiver receiver, uint8_t *carry,
                          size_t carry_length, uint8_t *pdu, size_t pdu_length,
                          uint32_t *log, size_t log_length)
{
    return barzhilup_receive(receiver,
                             barzhilup_bytes_written(carry, carry_length),
                             carry_length,
                             barzhilup_bytes_written(pdu, pdu_length), pdu_length,
                             barzhilup_words_written(log, log_length), log_length);
}
#define barzhilup_receive barzhilup_receive_or_null

static inline barzhilup_received
barzhilup_receive_marked_or_null(barzhilup_receiver receiver, uint8_t *carry,
                                 size_t carry_length, uint8_t *pdu,
                                 size_t pdu_length, const uint8_t *marks,
                                 size_t count, uint32_t *log, size_t log_length)
{
    return barzhilup_receive_marked(receiver,
                                    barzhilup_bytes_written(carry, carry_length),
                                    carry_length,
                                    barzhilup_bytes_written(pdu, pdu_length),
                                    pdu_length,
                                    barzhilup_bytes_read(marks, count), count,
                                    barzhilup_words_written(log, log_length),
                                    log_length);
}
#define barzhilup_receive_marked barzhilup_receive_marked_or_null

static inline barzhilup_batch
barzhilup_receive_batch_or_null(barzhilup_receiver receiver, uint8_t *carry,
                                size_t carry_length, uint8_t *pdus,
                                size_t pdus_length, const size_t *lengths,
                                size_t count, uint32_t *log, size_t log_length)
{
    return barzhilup_receive_batch(receiver,
                                   barzhilup_bytes_written(carry, carry_length),
                                   carry_length,
                                   barzhilup_bytes_written(pdus, pdus_length),
                                   pdus_length,
                                   barzhilup_sizes_read(lengths, count), count,
                                   barzhilup_words_written(log, log_length),
                                   log_length);
}
#define barzhilup_receive_batch barzhilup_receive_batch_or_null

static inline uint32_t
barzhilup_choose_or_null(const uint8_t *first, size_t first_length,
                         const uint8_t *second, size_t second_length)
{
    return barzhilup_choose(barzhilup_bytes_read(first, first_length),
                            first_length,
                            barzhilup_bytes_read(second, second_length),
                            second_length);
}
#define barzhilup_choose barzhilup_choose_or_null

static inline barzhilup_received
barzhilup_receive_pair_or_null(barzhilup_receiver receiver, uint8_t *carry,
                               size_t carry_length, uint8_t *first,
                               size_t first_length, uint8_t *second,
                               size_t second_length, uint32_t *log,
                               size_t log_length)
{
    return barzhilup_receive_pair(receiver,
                                  barzhilup_bytes_written(carry, carry_length),
                                  carry_length,
                                  barzhilup_bytes_written(first, first_length),
                                  first_length,
                                  barzhilup_bytes_written(second, second_length),
                                  second_length,
                                  barzhilup_words_written(log, log_length),
                                  log_length);
}
#define barzhilup_receive_pair barzhilup_receive_pair_or_null

static inline barzhilup_received
barzhilup_mark_lost_or_null(barzhilup_receiver receiver, uint32_t *log,
                            size_t log_length)
{
    return barzhilup_mark_lost(receiver, barzhilup_words_written(log, log_length),
                               log_length);
}
#define barzhilup_mark_lost barzhilup_mark_lost_or_null

static inline barzhilup_saved
barzhilup_save_receiver_or_null(barzhilup_receiver receiver, const uint8_t *carry,
                                size_t carry_length, uint32_t *words,
                                size_t words_length)
{
    return barzhilup_save_receiver(receiver,
                                   barzhilup_bytes_read(carry, carry_length),
                                   carry_length,
                                   barzhilup_words_written(words, words_length),
                                   words_length);
}
#define barzhilup_save_receiver barzhilup_save_receiver_or_null

static inline barzhilup_receiver_opened
barzhilup_load_receiver_or_null(const uint32_t *words, size_t words_length,
                                uint8_t *carry, size_t carry_length)
{
    return barzhilup_load_receiver(barzhilup_words_read(words, words_length),
                                   words_length,
                                   barzhilup_bytes_written(carry, carry_length),
                                   carry_length);
}
#define barzhilup_load_receiver barzhilup_load_receiver_or_null

static inline barzhilup_latency_answer
barzhilup_smallest_latency_or_null(uint8_t mode, uint8_t stream,
                                   const uint32_t *counts, size_t count)
{
    return barzhilup_smallest_latency(mode, stream,
                                      barzhilup_words_read(counts, count), count);
}
#define barzhilup_smallest_latency barzhilup_smallest_latency_or_null

static inline barzhilup_latency_trial
barzhilup_try_latency_or_null(uint8_t mode, uint8_t stream,
                              const uint32_t *counts, size_t count,
                              uint8_t latency)
{
    return barzhilup_try_latency(mode, stream,
                                 barzhilup_words_read(counts, count), count,
                                 latency);
}
#define barzhilup_try_latency barzhilup_try_latency_or_null

static inline barzhilup_waiting_answer
barzhilup_waiting_packets_or_null(uint8_t mode, uint8_t stream,
                                  const uint32_t *counts, size_t count,
                                  uint8_t latency, size_t first,
                                  uint32_t *waiting, size_t length)
{
    return barzhilup_waiting_packets(mode, stream,
                                     barzhilup_words_read(counts, count), count,
                                     latency, first,
                                     barzhilup_words_written(waiting, length),
                                     length);
}
#define barzhilup_waiting_packets barzhilup_waiting_packets_or_null

static inline barzhilup_reading
barzhilup_list_pieces_or_null(uint8_t *pdu, size_t pdu_length, uint8_t crc_start,
                              barzhilup_piece *list, size_t count)
{
    return barzhilup_list_pieces(barzhilup_bytes_written(pdu, pdu_length),
                                 pdu_length, crc_start,
                                 barzhilup_pieces_written(list, count), count);
}
#define barzhilup_list_pieces barzhilup_list_pieces_or_null

static inline barzhilup_stepped
barzhilup_receive_in_place_or_null(barzhilup_receiver *receiver, uint8_t *carry,
                                   size_t carry_length, uint8_t *pdu,
                                   size_t pdu_length, uint32_t *log,
                                   size_t log_length)
{
    return barzhilup_receive_in_place(receiver,
                                      barzhilup_bytes_written(carry, carry_length),
                                      carry_length,
                                      barzhilup_bytes_written(pdu, pdu_length),
                                      pdu_length,
                                      barzhilup_words_written(log, log_length),
                                      log_length);
}
#define barzhilup_receive_in_place barzhilup_receive_in_place_or_null

static inline barzhilup_stepped
barzhilup_mark_lost_in_place_or_null(barzhilup_receiver *receiver, uint32_t *log,
                                     size_t log_length)
{
    return barzhilup_mark_lost_in_place(receiver,
                                        barzhilup_words_written(log, log_length),
                                        log_length);
}
#define barzhilup_mark_lost_in_place barzhilup_mark_lost_in_place_or_null

#ifdef __cplusplus
}
#endif

#endif
