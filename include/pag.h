/*
 * pag.h: PAG files for C and C++ programs on Linux, x86-64 and Arm. Link with libpag.a or libpag.so, which hosts/build makes (docs/HOSTS.md).
 *
 * A file is a row of bytes, its table a row of 64-bit numbers, and its tag table a row of 32-bit numbers, five for each tag: depth, code, place,
 * header size, body length. Each call takes what it reads and lent memory to fill, and gives one answer.
 *
 * The rules, the same for every call:
 *
 * - Lent memory. Nothing is allocated, nothing is kept after the call, and there is no state between calls.
 * - An acceptance fills the first `number` elements of the lent memory; what lies behind them stays as it was.
 * - A refusal changes nothing. Every input gets an answer: there is no other way to fail.
 * - Lengths count elements, not bytes. A pointer may be NULL where its length is 0.
 * - A pointer with a length above 0 points to that many elements, aligned as C asks of its type. What is read and what is filled do not overlap.
 * - Threads. Calls may run at the same time if no lent memory is shared; input that nobody changes may be shared.
 * - Level: 0 to 1023. Listed tags with a code above the level are opaque. 1023 hides none.
 * - Bit order: PAG_HIGH_FIRST or PAG_LOW_FIRST. High first: the first bit is the top bit of its byte, and the highest of its field. Low first: the lowest of
 *   both; the bits that are skipped up to a whole byte are then the high ones. Items of whole bytes are the same in both. Any other order is refused by 24.
 * - State: the second number of a tag in the table. 1: the tag is read; 0: it is opaque; and 2 more where a long header (6 bytes) carries a
 *   body below 63 bytes, so that pag_write gives back the same file. So an odd state is a tag that is read. The 2 on a body of 63 or more is refused by 20.
 * - Opaque tags. The values of a tag with an even state are its body, packed: its length n in bytes, and then (n + 7) / 8 numbers, eight bytes each, the lowest
 *   first, the last filled with zeros. To copy the body out of its values (the count of them is the tag's third number, and they follow it):
 *
 *       for (uint64_t i = 0; i < values[0]; i++) body[i] = (uint8_t)(values[1 + i / 8] >> 8 * (i % 8));
 *
 *   On a machine whose numbers have their lowest byte first, as x86-64 and Arm, that is memcpy(body, values + 1, values[0]). A count of values that is not
 *   1 + (n + 7) / 8, a length that no body has, and a filling that is not zero are refused by 20.
 * - Room. A file of n bytes needs at most 8 * n numbers and 5 * n tag numbers, and n is at most 16,777,216: with so much lent no call is refused
 *   by PAG_TABLE_TOO_SHORT. To know the room, call with length 0: the answer is PAG_TABLE_TOO_SHORT with the numbers needed, if nothing else is wrong.
 * - Stack: at most PAG_STACK_BYTES. hosts/test.c and hosts/test_canvas.c measure it: they run the calls on a stack that they have painted and look how far the paint is gone.
 *   Of pag_tally it is PAG_TALLY_STACK_BYTES at most, since it works on copies of the counts; hosts/test_tally.c measures that.
 */
#ifndef PAG_H
#define PAG_H

#include <stddef.h>
#include <stdint.h>

#define PAG_LEVEL_MAX 1023u
#define PAG_HIGH_FIRST 0u
#define PAG_LOW_FIRST 1u
#define PAG_FILE_MAX 16777216u
#define PAG_STACK_BYTES 16384u
#define PAG_TALLY_STACK_BYTES 65536u

#ifdef __cplusplus
extern "C" {
#endif

/* Why a call was refused, and what the answer's number then is. "Place" is a count of bytes from the file's start. */
enum pag_reason {
    PAG_ACCEPTED = 0,                  /* no refusal: the count of numbers or bytes used */
    PAG_LEVEL_ABOVE_1023 = 1,          /* 0 */
    PAG_FEWER_THAN_9_BYTES = 2,        /* 0 */
    PAG_SIGNATURE_WRONG = 3,           /* 0 */
    PAG_VERSION_NOT_1 = 4,             /* 0 */
    PAG_LENGTH_FIELD_WRONG = 5,        /* or over the limit: 0 */
    PAG_HEADER_CUT = 6,                /* a header has begun and the end of its list's room cuts it: its place */
    PAG_LIST_WITHOUT_END = 7,          /* list room is used up without End: container's place; file length at depth 0 */
                                       /* 8 is not given: a long header is taken with any length */
    PAG_BODY_LONGER_THAN_LIST = 9,     /* body longer than the list's rest: tag's place */
    PAG_END_WITH_A_BODY = 10,          /* tag's place */
    PAG_BYTES_AFTER_END = 11,          /* container's place; first such byte at depth 0 */
    PAG_CONTAINER_AT_DEPTH_8 = 12,     /* tag's place */
    PAG_ITEM_PAST_THE_BODY = 13,       /* an item runs past the body: tag's place */
    PAG_SPELLING = 14,                 /* spelling of U32, U64, I32: tag's place */
    PAG_SKIPPED_BIT_NOT_ZERO = 15,     /* tag's place */
    PAG_UNLISTED_VALUE = 16,           /* unlisted enum, Bool, interpolation 0, byte value over 255: tag's place */
    PAG_COUNT_OUTSIDE_ITS_RANGE = 17,  /* tag's place */
    PAG_BODY_NOT_USED_UP = 18,         /* body of a read tag not used up: tag's place */
    PAG_TABLE_TOO_SHORT = 19,          /* numbers needed */
    PAG_NO_FILE_HAS_THIS_TABLE = 20,   /* writer: no file at this level has this table: 0 */
    PAG_OUTPUT_TOO_SHORT = 21,         /* writer: bytes needed */
    PAG_K_NOT_BELOW_THE_COUNT = 22,    /* question: fewer tags have the code: 0 */
    PAG_INDEX_TOO_SHORT = 23,          /* the memory lent for the index: 0 */
    PAG_ORDER_UNKNOWN = 24,            /* the bit order is neither: 0 */
    PAG_TALLY_FULL = 25,               /* tally: 1,000,000 files, or a count above 16,777,216,000,000: 0 */
    PAG_TIME_TOO_LATE = 26,            /* opacity: a time of its keyframes or the frame is above 4,294,967,295: 0 */
    PAG_TIMES_DO_NOT_RISE = 27,        /* opacity: a time of its keyframes is not above the one before it: 0 */
    PAG_FRAME_IN_BEZIER = 28,          /* opacity: the frame falls in a Bezier keyframe: 0 */
    PAG_STEP_BEYOND_SINGLES = 29,      /* single: the step is below -16,777,216 or above 16,777,216: 0 */
    PAG_NOT_THE_INDEX = 30             /* question: the lent numbers are not the index of the lent tag table: 0 */
};

/* Accepted with its count (reason 0), or refused with reason and number. */
typedef struct pag_answer {
    uint32_t reason;
    uint64_t number;
} pag_answer;

/* Reads a file into its table of numbers. Refusals: 1, 24, 2 to 7, 9 to 19; 1, 24 and 2 to 5 are tried in this order. */
pag_answer pag_read(uint32_t level, uint32_t order, const uint8_t *file, size_t file_len, uint64_t *table, size_t table_len);

/* Reads a file's tags into the tag table. Refusals: those of pag_read, with 19 for this room. */
pag_answer pag_tags(uint32_t level, uint32_t order, const uint8_t *file, size_t file_len, uint32_t *tags, size_t tags_len);

/* An index of tags: how many tags have a code, and where is the k-th? The index of a tag table is 1,024 starts (for each code how many tags have a lower one), and
 * then, by code and in file order, for each tag two numbers: its number in the tag table, from 0, and its place. So n tags have 1024 + 2 * n numbers.
 *
 * pag_index reads a file's tags into the tag table and builds its index: both are filled, or neither. Its count is that of the index's numbers, c; of the tag
 * table it filled (c - 1024) / 2 * 5. Refusals: those of pag_tags, with 19 for the tag table's room, and then 23 for the index's: 1024 + 2 * n are enough where the tag
 * table needs 5 * n. */
pag_answer pag_index(uint32_t level, uint32_t order, const uint8_t *file, size_t file_len, uint32_t *tags, size_t tags_len, uint32_t *index, size_t index_len);

/* How many tags have the code; and the place of the k-th of them in file order, k from 0. The number of an acceptance is the answer. Lent are all tags_len numbers of
 * the tag table and all index_len of its index, what pag_index filled and no more. Refusals: 30 where these are not a tag table (whole tags, codes to 1023) and
 * exactly its index, whatever they are: an answer that is no refusal is the one that a walk of the tag table gives. Then, for pag_place, 22 where k is not
 * below the count. No tag has a code above 1023. Each question looks at the whole index once. */
pag_answer pag_count(const uint32_t *tags, size_t tags_len, const uint32_t *index, size_t index_len, uint32_t code);
pag_answer pag_place(const uint32_t *tags, size_t tags_len, const uint32_t *index, size_t index_len, uint32_t code, uint64_t k);

/* Writes the one file that is read as this table at this level and in this order: all table_len numbers of it. Refusals, tried in this order: 1, 24, 20, 21. */
pag_answer pag_write(uint32_t level, uint32_t order, const uint64_t *table, size_t table_len, uint8_t *out, size_t out_len);

/* A bit field: UB[width], or SB[width] where is_signed is not 0 (a negative number is kept modulo 2^64: read value as int64_t). place counts bits from the
 * start, in the bit order. reason 0: value is the field, place the next place. Else value is 0 and place is the one that was passed: 24: the order is
 * neither; then 17: width is not 1 to 32; then 13: the field runs past the end of the bytes. Bytes of any length are taken; nothing is written. */
typedef struct pag_field {
    uint32_t reason;
    uint64_t value;
    uint64_t place;
} pag_field;

pag_field pag_bits(uint32_t order, const uint8_t *file, size_t file_len, uint64_t place, uint32_t width, uint32_t is_signed);

/* The opacity of a mask (tag 14) at the frame t, from the body of its tag: an exact fraction, from 0 to 255, over 1 where nothing is interpolated. Without
 * keyframes it is the value, or 255 if there is none. Before the first keyframe's start it is the first value, at or after the last one's end the last value. A
 * keyframe covers its start and not its end: hold gives its start value, linear (start * (end time - t) + end * (t - start time)) over (end time - start
 * time), not reduced. reason 0: numerator over denominator, which is not 0. Else both are 0: 24: the order is neither; then 13 to 18: the body is no mask's;
 * then, for keyframed opacity, 26, 27 and 28. Bodies of any length are taken; nothing is written. */
typedef struct pag_fraction {
    uint32_t reason;
    uint64_t numerator;
    uint64_t denominator;
} pag_fraction;

pag_fraction pag_opacity(uint32_t order, const uint8_t *body, size_t body_len, uint64_t t);

/* The single-precision value of a path step: the step as a single, times the single nearest to 0.05 (0x3D4CCCCD), rounded once to the nearest, to the even one
 * of two. The number of an acceptance is its 32 bits: sign, exponent, fraction; a step of 0 gives 0. A negative step of a table is kept modulo 2^64: pass
 * (int64_t)step. Refusal: 29, for a step beyond those that a single holds without loss, from -16,777,216 to 16,777,216. */
pag_answer pag_single(int64_t step);

/* The canvas size of a file: the values of its first CompositionAttributes (code 3) that isn't opaque, in file order and at any depth, from a walk that stops
 * there. What stands behind that tag is not judged, so a file with a later fault is answered, and the time does not depend on it.
 * found 1: values are width, height (negative ones modulo 2^64: read them as int64_t), frames, frame rate (the 32-bit pattern of a float), red, green, blue;
 * reason and number are 0. found 0 and reason 0: the file is good and has no such tag. Else reason and number say why it is refused: the reasons of pag_read
 * but 19. values are zeros where found is 0. headers is how many tag headers were read: up to and with the tag found; of all tags where there is none; of a
 * refusal those that passed 6, 9, 10 and 12 before it, and 0 for 1, 24 and 2 to 5. */
typedef struct pag_canvas_answer {
    uint32_t found;
    uint32_t reason;
    uint64_t number;
    uint64_t headers;
    uint64_t values[7];
} pag_canvas_answer;

pag_canvas_answer pag_canvas(uint32_t level, uint32_t order, const uint8_t *file, size_t file_len);

/* Adds a file to a tally of where the bytes go: counts are 1,024 numbers, one for each code, and headers points to the header count; all start at zero. An
 * acceptance adds each tag's header bytes and the body bytes that belong to no tag inside it to its code's count, and 9 to the header count; its number is
 * the file's length. So the counts and the header count together are the lengths of all files that were accepted. A refusal leaves them. Refusals: 25,
 * tried first, when *headers is 9,000,000 or more (1,000,000 files) or a count is above 16,777,216,000,000; then those of pag_read but 19. */
pag_answer pag_tally(uint64_t *counts, uint64_t *headers, uint32_t level, uint32_t order, const uint8_t *file, size_t file_len);

#ifdef __cplusplus
}
#endif

#endif
