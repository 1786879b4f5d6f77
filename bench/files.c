/* Generated PAG files, made item by item from document 01 and document 02's C-11, C-12 and C-24: bits are put one after the other, and a tag's header when its length is known. */
#include "files.h"

#include <string.h>

enum { DEEPEST = 8, MOST_FLAGS = 12 };

const char *const KIND_NAMES[KINDS] = {"opaque", "paths", "small", "nested", "fonts", "transforms", "shapes"};

/* ------------------------------------------------------------ random numbers and bits */

static uint64_t random_word(struct maker *m)
{
    uint64_t x = m->seed += 0x9E3779B97F4A7C15u;
    x = (x ^ x >> 30) * 0xBF58476D1CE4E5B9u;
    x = (x ^ x >> 27) * 0x94D049BB133111EBu;
    return x ^ x >> 31;
}

uint64_t random_below(struct maker *m, uint64_t limit)
{
    return random_word(m) % limit;
}

/* A random number of 1 to `most` bits, each length alike. */
static uint64_t random_sized(struct maker *m, unsigned most)
{
    return random_word(m) >> (63 - random_below(m, most));
}

/* The first bit is the highest of its field and of its byte or, low first, the lowest of both. */
static void put_bits(struct maker *m, unsigned width, uint64_t value)
{
    for (unsigned i = 0; i < width; i++) {
        unsigned in_field = m->low ? i : width - 1 - i, in_byte = m->low ? m->begun_bits : 7 - m->begun_bits;
        if (m->begun_bits == 0) m->bytes[m->len++] = 0;
        m->bytes[m->len - 1] |= (uint8_t)((value >> in_field & 1) << in_byte);
        m->begun_bits = (m->begun_bits + 1) % 8;
    }
}

/* The rest of a byte begun is zero already. */
static void put_byte(struct maker *m, uint64_t byte)
{
    m->begun_bits = 0;
    m->bytes[m->len++] = (uint8_t)byte;
}

static void whole_byte(struct maker *m)
{
    m->begun_bits = 0;
}

static void put_random_bytes(struct maker *m, size_t n)
{
    for (size_t i = 0; i < n; i++) put_byte(m, random_word(m));
}

static void put_spelled(struct maker *m, uint64_t value)
{
    for (; value > 127; value /= 128) put_byte(m, 128 + value % 128);
    put_byte(m, value);
}

static void put_u32(struct maker *m)
{
    put_spelled(m, random_sized(m, 32));
}

static void put_time(struct maker *m)
{
    put_spelled(m, random_sized(m, 64));
}

/* d = 1 would be minus zero. */
static void put_i32(struct maker *m)
{
    uint64_t d = random_sized(m, 32);
    put_spelled(m, d == 1 ? 0 : d);
}

/* A width, and n fields of random bits of it: signed fields may hold any. */
static void put_scaled(struct maker *m, unsigned width, size_t n)
{
    put_bits(m, 5, width - 1);
    for (size_t i = 0; i < n; i++) put_bits(m, width, random_word(m));
}

static void put_path(struct maker *m, size_t verbs)
{
    static const uint8_t COORDINATES[8] = {0, 2, 2, 1, 1, 4, 4, 6};
    size_t coordinates = 0;
    put_spelled(m, verbs);
    for (size_t i = 0; i < verbs; i++) {
        unsigned verb = (unsigned)random_below(m, 8);
        put_bits(m, 3, verb);
        coordinates += COORDINATES[verb];
    }
    put_scaled(m, 1 + (unsigned)random_below(m, 32), coordinates);
}

/* ------------------------------------------------------------ attribute blocks */

/* Types of attributes, by a letter each: n none, u U32, t Time, f Float, r Ratio, o Bool, b byte, B blendMode, T trackMatteType, M maskMode,
 * G anchorPointGrouping, 2, 3 and 5 enumerations with so many values, p Path, P Point, c Color, g GradientColor, d the dashes of a gradient's stroke. */
struct list {
    uint32_t code;
    const char *kinds; /* V Value, F Fixed, B BitFlag, S Simple, D Discrete, M MultiDimension, P Spatial. A Custom attribute is V, or, of a list, L where it is there and N where not */
    const char *types;
};

static const struct list LAYER = {6, "BBVVVVVSF", "nnurtBTft"};
static const struct list TEXT = {9, "VDDDSS", "uoooff"};
static const struct list MASK = {14, "FBVSSS", "unMpbf"};
static const struct list MORE = {10, "VM", "GP"};
static const struct list TRANSFORM = {13, "VVVVVVV", "PPffPfb"};
static const struct list GROUP = {15, "VPPMSSSSL", "BPPPfffbn"};
static const struct list LONE_GROUP = {15, "VPPMSSSSN", "BPPPfffbn"};
static const struct list SHAPES[] = {
    {16, "BMPS", "nPPf"},
    {17, "BMP", "nPP"},
    {18, "BVSPSSSSS", "n2fPfffff"},
    {19, "S", "p"},
    {20, "VVVSS", "B22cb"},
    {21, "VVVVSSSS", "B233fcbf"},
    {22, "VVVVPPSS", "B222PPgb"},
    {23, "VVVPPSSSVVSV", "B22PPcbf33fd"},
    {24, "V", "5"},
    {25, "SSSV", "fff2"},
    {26, "VSSPPMSSS", "2ffPPPfbb"},
    {27, "S", "f"},
};
enum { SHAPE_KINDS = sizeof SHAPES / sizeof *SHAPES };

/* How long a keyframed path is: a small random one has none fixed. */
struct shape {
    size_t frames;
    size_t verbs;
};

/* Any bytes are stops: five for alpha, seven for a colour. */
static void put_gradient(struct maker *m)
{
    size_t alphas = random_below(m, 5), colors = random_below(m, 5);
    put_spelled(m, alphas);
    put_spelled(m, colors);
    put_random_bytes(m, 5 * alphas + 7 * colors);
}

static void put_dashes(struct maker *m)
{
    uint64_t exist = random_below(m, 2);
    put_bits(m, 3, random_word(m));
    put_bits(m, 1, exist);
    if (exist) put_bits(m, 1, random_word(m));
}

static void put_value(struct maker *m, char type, const struct shape *shape)
{
    switch (type) {
    case 'u': put_u32(m); break;
    case 't': put_time(m); break;
    case 'f': put_random_bytes(m, 4); break;
    case 'r': put_i32(m), put_u32(m); break;
    case 'o': put_byte(m, random_below(m, 2)); break;
    case 'b': put_byte(m, random_word(m)); break;
    case 'B': put_byte(m, random_below(m, 2) ? random_below(m, 17) : 21 + random_below(m, 6)); break;
    case 'T': put_byte(m, random_below(m, 5)); break;
    case 'M': put_byte(m, random_below(m, 8)); break;
    case 'G': put_byte(m, random_below(m, 7)); break;
    case 'P': put_random_bytes(m, 8); break;
    case '2': put_byte(m, random_below(m, 2)); break;
    case '3': put_byte(m, random_below(m, 3)); break;
    case '5': put_byte(m, random_below(m, 5)); break;
    case 'c': put_random_bytes(m, 3); break;
    case 'g': put_gradient(m); break;
    case 'd': put_dashes(m); break;
    case 'p': put_path(m, shape ? shape->verbs : random_below(m, 7)); break;
    default: break;
    }
    whole_byte(m);
}

static void put_frame_values(struct maker *m, char type, size_t n, const struct shape *shape)
{
    unsigned width = 1 + (unsigned)random_below(m, 32);
    if (type == 'b') put_bits(m, 5, width - 1);
    for (size_t i = 0; i < n; i++) {
        if (type == 'o') put_bits(m, 1, random_word(m));
        else if (type == 'b') put_bits(m, width, random_below(m, width < 8 ? (uint64_t)1 << width : 256));
        else put_value(m, type, shape);
    }
    whole_byte(m);
}

/* The sixth part: two flags a frame, a width, and two fields for each that is set. */
static void put_spatial(struct maker *m, size_t frames)
{
    size_t there = 0;
    for (size_t i = 0; i < 2 * frames; i++) {
        uint64_t flag = random_below(m, 2);
        put_bits(m, 1, flag);
        there += flag;
    }
    put_scaled(m, 1 + (unsigned)random_below(m, 32), 2 * there);
}

static void put_keyframed(struct maker *m, char kind, char type, unsigned flags, const struct shape *shape)
{
    size_t frames = shape ? shape->frames : 1 + random_below(m, 6), beziers = 0;
    put_spelled(m, frames);
    for (size_t i = 0; kind != 'D' && i < frames; i++) {
        unsigned interpolation = 1 + (unsigned)random_below(m, 3);
        put_bits(m, 2, interpolation);
        beziers += interpolation == 2;
    }
    for (size_t i = 0; i <= frames; i++) put_time(m);
    if (kind == 'P') put_scaled(m, 1 + (unsigned)random_below(m, 32), 2 * (frames + 1));
    else put_frame_values(m, type, frames + 1, shape);
    whole_byte(m);
    put_scaled(m, 1 + (unsigned)random_below(m, 32), (kind == 'M' ? 8 : 4) * beziers);
    whole_byte(m);
    if (flags == 7) put_spatial(m, frames);
    whole_byte(m);
}

/* The flags of an attribute as their number; with a shape everything that can be keyframed is. */
static unsigned put_flags(struct maker *m, char kind, const struct shape *shape)
{
    unsigned number = 1;
    if (kind == 'F') return number;
    if (kind == 'L' || kind == 'N') number = kind == 'L';
    else if (!shape) number = (unsigned)random_below(m, 2);
    put_bits(m, 1, number);
    if (!number || !strchr("SDMP", kind)) return number;
    if (shape || random_below(m, 2)) number = 3;
    put_bits(m, 1, number / 2);
    if (number < 3 || kind != 'P') return number;
    if (shape || random_below(m, 2)) number = 7;
    put_bits(m, 1, number / 4);
    return number;
}

static void put_block(struct maker *m, const struct list *list, const struct shape *shape)
{
    unsigned flags[MOST_FLAGS];
    for (size_t i = 0; list->kinds[i]; i++) flags[i] = put_flags(m, list->kinds[i], shape);
    whole_byte(m);
    for (size_t i = 0; list->kinds[i]; i++) {
        if (flags[i] >= 3) put_keyframed(m, list->kinds[i], list->types[i], flags[i], shape);
        else if (flags[i] == 1) put_value(m, list->types[i], shape);
    }
}

/* ------------------------------------------------------------ tags */

/* The place of a tag whose body follows. */
static size_t open_tag(struct maker *m)
{
    whole_byte(m);
    m->len += 2;
    return m->len - 2;
}

/* The header; a long one moves the body on. */
static void close_tag(struct maker *m, size_t place, uint32_t code)
{
    size_t len = m->len - place - 2;
    int is_long = len >= 63 || (m->any_headers && random_below(m, 4) == 0);
    uint8_t *at = m->bytes + place;
    uint32_t number = code * 64 + (is_long ? 63 : (uint32_t)len);
    if (is_long) {
        memmove(at + 6, at + 2, len);
        for (unsigned i = 0; i < 4; i++) at[2 + i] = (uint8_t)(len >> (8 * i));
        m->len += 4;
    }
    at[0] = (uint8_t)number;
    at[1] = (uint8_t)(number >> 8);
    whole_byte(m);
}

static void put_opaque(struct maker *m, size_t len)
{
    static const uint32_t CODES[] = {4, 8, 28, 29, 30, 31, 32, 255, 1023};
    size_t place = open_tag(m);
    put_random_bytes(m, len);
    close_tag(m, place, CODES[random_below(m, sizeof CODES / sizeof *CODES)]);
}

static void put_fonts(struct maker *m, size_t fonts, size_t longest)
{
    size_t place = open_tag(m);
    put_spelled(m, fonts);
    for (size_t i = 0; i < 2 * fonts; i++) {
        for (size_t n = random_below(m, longest + 1); n > 0; n--) put_byte(m, 1 + random_below(m, 255));
        put_byte(m, 0);
    }
    close_tag(m, place, 1);
}

static void put_block_tag(struct maker *m, const struct list *list, const struct shape *shape)
{
    size_t place = open_tag(m);
    put_block(m, list, shape);
    close_tag(m, place, list->code);
}

/* A random leaf tag that is read at level 1023. */
static void put_leaf(struct maker *m)
{
    static const struct list *const BLOCKS[] = {&LAYER, &TEXT, &MASK};
    size_t which = random_below(m, m->all_leaves ? 10 + SHAPE_KINDS : 8);
    if (which < 3) {
        put_block_tag(m, BLOCKS[which], NULL);
        return;
    }
    if (which >= 8) {
        put_block_tag(m, which == 8 ? &MORE : which == 9 ? &TRANSFORM : &SHAPES[which - 10], NULL);
        return;
    }
    size_t place = open_tag(m);
    if (which == 3) {
        put_i32(m), put_i32(m), put_time(m), put_random_bytes(m, 7);
        close_tag(m, place, 3);
    } else if (which == 4) {
        put_random_bytes(m, 3), put_i32(m), put_i32(m);
        close_tag(m, place, 7);
    } else if (which == 5) {
        put_u32(m);
        close_tag(m, place, 11);
    } else if (which == 6) {
        put_u32(m), put_time(m);
        close_tag(m, place, 12);
    } else {
        m->len = place;
        put_fonts(m, random_below(m, 4), 20);
    }
}

static void put_end(struct maker *m)
{
    close_tag(m, open_tag(m), 0);
}

/* Opens a container and puts what stands before its list; *code is its code. */
static size_t open_container(struct maker *m, uint32_t *code)
{
    size_t place = open_tag(m);
    if (m->all_leaves && random_below(m, 3) == 0) {
        *code = GROUP.code;
        put_block(m, &GROUP, NULL);
        return place;
    }
    *code = random_below(m, 2) ? 2 : 5;
    if (*code == 5) put_random_bytes(m, 1);
    put_u32(m);
    return place;
}

/* Bodies of random files: every filling of a packed number, both sides of a long header, and now and then many numbers. */
static size_t random_opaque_len(struct maker *m)
{
    uint64_t pick = random_below(m, 16);
    return pick < 11 ? random_below(m, 18) : pick < 15 ? 58 + random_below(m, 9) : random_below(m, 700);
}

static void put_random_list(struct maker *m, unsigned depth)
{
    for (uint64_t tags = random_below(m, 4); tags > 0; tags--) {
        uint64_t pick = random_below(m, 100);
        if (pick < 5 && depth < DEEPEST) {
            put_block_tag(m, &LONE_GROUP, NULL);
        } else if (pick < 35 && depth < DEEPEST) {
            uint32_t code;
            size_t place = open_container(m, &code);
            put_random_list(m, depth + 1);
            close_tag(m, place, code);
        } else if (pick < 50) {
            put_opaque(m, random_opaque_len(m));
        } else {
            put_leaf(m);
        }
    }
    put_end(m);
}

/* ------------------------------------------------------------ files */

static void open_file(struct maker *m)
{
    memcpy(m->bytes, "PAG\1", 4);
    m->bytes[8] = (uint8_t)random_word(m);
    m->len = 9;
    m->begun_bits = 0;
}

static void close_file(struct maker *m)
{
    for (unsigned i = 0; i < 4; i++) m->bytes[4 + i] = (uint8_t)(m->len >> (8 * i));
}

void make_random_file(struct maker *m)
{
    int all_leaves = m->all_leaves;
    m->any_headers = m->all_leaves = 1;
    open_file(m);
    if (random_below(m, 3)) {
        put_random_list(m, 0);
    } else { /* one tag alone, so that damage hits its body */
        put_leaf(m);
        put_end(m);
    }
    close_file(m);
    m->any_headers = 0;
    m->all_leaves = all_leaves;
}

/* Containers inside each other down to the deepest, with a few leaves in each. */
static void put_nest(struct maker *m, unsigned depth)
{
    uint32_t code;
    size_t place = open_container(m, &code);
    put_leaf(m);
    if (depth + 1 < DEEPEST) put_nest(m, depth + 1);
    put_leaf(m);
    put_end(m);
    close_tag(m, place, code);
}

/* Groups inside each other down to the deepest: in each every shape, in its turn with all its attributes keyframed, in the next group as they come. */
static void put_shapes(struct maker *m, unsigned depth)
{
    static const struct shape SOME = {4, 6};
    const struct shape *shape = depth % 2 ? NULL : &SOME;
    size_t place = open_tag(m);
    put_block(m, &GROUP, shape);
    for (size_t i = 0; i < SHAPE_KINDS; i++) put_block_tag(m, &SHAPES[i], shape);
    if (depth + 1 < DEEPEST) put_shapes(m, depth + 1);
    put_end(m);
    close_tag(m, place, GROUP.code);
}

/* One more piece of a long file; no piece is longer than LONGEST_PIECE. */
enum { LONGEST_PIECE = 60000 };

static void put_piece(struct maker *m, enum kind kind)
{
    static const struct shape LONG = {12, 200};
    switch (kind) {
    case LONG_PATHS: put_block_tag(m, &MASK, &LONG); break;
    case SMALL_TAGS: random_below(m, 2) ? put_leaf(m) : put_opaque(m, random_below(m, 6)); break;
    case NESTED: put_nest(m, 0); break;
    case FONT_TABLES: put_fonts(m, 200, 30); break;
    case TRANSFORMS: /* any transform, and a keyframed alignment */
        put_block_tag(m, &TRANSFORM, NULL);
        put_block_tag(m, &MORE, &LONG);
        break;
    case SHAPE_TAGS: put_shapes(m, 0); break;
    default: break;
    }
}

void make_long_file(struct maker *m, enum kind kind, size_t len)
{
    open_file(m);
    if (kind == OPAQUE_BYTES) put_opaque(m, len - m->len - 8);
    else
        while (m->len + LONGEST_PIECE < len) put_piece(m, kind);
    put_end(m);
    close_file(m);
}
