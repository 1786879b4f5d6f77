/* Generated PAG files, the same for the same seed: small random ones for tests, and long ones of one kind for measurements. In the two bit orders the same seed
 * makes files with the same items. */
#ifndef FILES_H
#define FILES_H

#include <stddef.h>
#include <stdint.h>

/* A file under way: whole bytes, and the bits of a byte begun. The memory is the caller's, and must be large enough. */
struct maker {
    uint8_t *bytes;
    size_t len;
    unsigned begun_bits;
    uint64_t seed;
    int low; /* bytes are filled from their lowest bit */
    int any_headers; /* a body below 63 bytes may come by a long header: in random files, and in no long one */
    int all_leaves; /* tags 10, 13 and 15 to 27 among the small and the nested tags, too: not where bench/run measures, so that its counts can be compared with older ones */
};

enum kind { OPAQUE_BYTES, LONG_PATHS, SMALL_TAGS, NESTED, FONT_TABLES, TRANSFORMS, SHAPE_TAGS, KINDS };

extern const char *const KIND_NAMES[KINDS];

/* A random number below `limit`, which is above 0. */
uint64_t random_below(struct maker *m, uint64_t limit);

/* A random file that is good at every level in its order, of at most RANDOM_FILE_MAX bytes. */
enum { RANDOM_FILE_MAX = 1 << 20 };
void make_random_file(struct maker *m);

/* A good file of one kind, of about `len` bytes and never more; len is at least 65,536. */
void make_long_file(struct maker *m, enum kind kind, size_t len);

#endif
