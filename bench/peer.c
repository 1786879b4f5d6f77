/*
 * The peer of bench/run: a plain reader and writer of PAG files, made from document 01 ("What is to be built"), document 02's C-18 (bit order), C-11 (long
 * headers on short bodies), C-17 (packed opaque bodies), C-12 (transforms and points) and C-24 (shapes), and the open points of docs/DECISIONS.md, with bounds
 * checks and without proofs. Its author had seen the reference and the library as it was before C-12, so it is no independent reading of the paper.
 *
 * A refusal may change nothing lent, so each call walks twice: once to judge and to count, and once to fill. One function serves both walks:
 * where there is no memory to fill (a null pointer), it only counts, and skips what it need not look at.
 */
#include "peer.h"

#include <string.h>

_Static_assert(__BYTE_ORDER__ == __ORDER_LITTLE_ENDIAN__, "numbers are loaded and stored with their lowest byte first");

enum { TOP_DEPTH = 8, TOP_COUNT = 4096, HEADER_BYTES = 9, LONG_LENGTH = 63, MOST_ATTRIBUTES = 12 };

/* ------------------------------------------------------------ the format's constant tables */

/* A container's own part is items; a group's is a block, whose last flag says whether a list follows. */
enum tag_class { OPAQUE, END, CONTAINER, GROUP, ITEMS, FONTS, BLOCK };

enum { KNOWN_CODES = 28 };

static const uint8_t CLASSES[KNOWN_CODES] = {
    [0] = END,    [1] = FONTS,  [2] = CONTAINER, [3] = ITEMS,  [5] = CONTAINER, [6] = BLOCK,  [7] = ITEMS,  [9] = BLOCK,  [10] = BLOCK,
    [11] = ITEMS, [12] = ITEMS, [13] = BLOCK,    [14] = BLOCK, [15] = GROUP,    [16] = BLOCK, [17] = BLOCK, [18] = BLOCK, [19] = BLOCK,
    [20] = BLOCK, [21] = BLOCK, [22] = BLOCK,    [23] = BLOCK, [24] = BLOCK,    [25] = BLOCK, [26] = BLOCK, [27] = BLOCK,
};

/* ONE_OF_TWO: PolyStarType, CompositeOrder, FillRule, GradientFillType, TrimPathsType. ONE_OF_THREE: LineCap, LineJoin. */
enum data_type {
    NONE, U32, I32, TIME, FLOAT, BYTE, BOOL, RATIO, BLEND_MODE, TRACK_MATTE, MASK_MODE, GROUPING, PATH, POINT,
    ONE_OF_TWO, ONE_OF_THREE, MERGE_MODE, COLOR, GRADIENT, DASHES,
};

/* The items of plain bodies; those of containers stand before their list. NONE ends them. */
static const uint8_t PLAIN[KNOWN_CODES][8] = {
    [2] = {U32},
    [3] = {I32, I32, TIME, FLOAT, BYTE, BYTE, BYTE},
    [5] = {BYTE, U32},
    [7] = {BYTE, BYTE, BYTE, I32, I32},
    [11] = {U32},
    [12] = {U32, TIME},
};

/* From SIMPLE on they may be keyframed. */
enum attribute_kind { VALUE, FIXED, BIT_FLAG, SIMPLE, DISCRETE, MULTI_DIMENSION, SPATIAL };

enum { EXISTS = 1, ANIMATABLE = 2, HAS_SPATIAL = 4 };

/* The flag numbers of a kind, as a set of bits. */
static const uint8_t FLAG_NUMBERS[] = {
    [VALUE] = 1 << 0 | 1 << 1,
    [FIXED] = 1 << 1,
    [BIT_FLAG] = 1 << 0 | 1 << 1,
    [SIMPLE] = 1 << 0 | 1 << 1 | 1 << 3,
    [DISCRETE] = 1 << 0 | 1 << 1 | 1 << 3,
    [MULTI_DIMENSION] = 1 << 0 | 1 << 1 | 1 << 3,
    [SPATIAL] = 1 << 0 | 1 << 1 | 1 << 3 | 1 << 7,
};

struct attribute {
    uint8_t kind;
    uint8_t type;
};

struct attribute_list {
    size_t count;
    struct attribute of[MOST_ATTRIBUTES];
};

static const struct attribute_list LAYER = {
    9,
    {{BIT_FLAG, NONE}, {BIT_FLAG, NONE}, {VALUE, U32}, {VALUE, RATIO}, {VALUE, TIME}, {VALUE, BLEND_MODE}, {VALUE, TRACK_MATTE},
     {SIMPLE, FLOAT}, {FIXED, TIME}},
};
static const struct attribute_list TEXT = {
    6,
    {{VALUE, U32}, {DISCRETE, BOOL}, {DISCRETE, BOOL}, {DISCRETE, BOOL}, {SIMPLE, FLOAT}, {SIMPLE, FLOAT}},
};
static const struct attribute_list MORE = {
    2,
    {{VALUE, GROUPING}, {MULTI_DIMENSION, POINT}},
};
static const struct attribute_list TRANSFORM = {
    7,
    {{VALUE, POINT}, {VALUE, POINT}, {VALUE, FLOAT}, {VALUE, FLOAT}, {VALUE, POINT}, {VALUE, FLOAT}, {VALUE, BYTE}},
};
static const struct attribute_list MASK = {
    6,
    {{FIXED, U32}, {BIT_FLAG, NONE}, {VALUE, MASK_MODE}, {SIMPLE, PATH}, {SIMPLE, BYTE}, {SIMPLE, FLOAT}},
};

/* A Custom attribute has one flag and, where it is set, a content, like Value. The list of a group is no content of its block: its flag stands for itself, like BitFlag's. */
static const struct attribute_list SHAPE_GROUP = {
    9,
    {{VALUE, BLEND_MODE}, {SPATIAL, POINT}, {SPATIAL, POINT}, {MULTI_DIMENSION, POINT}, {SIMPLE, FLOAT}, {SIMPLE, FLOAT}, {SIMPLE, FLOAT}, {SIMPLE, BYTE},
     {BIT_FLAG, NONE}},
};
static const struct attribute_list RECTANGLE = {
    4,
    {{BIT_FLAG, NONE}, {MULTI_DIMENSION, POINT}, {SPATIAL, POINT}, {SIMPLE, FLOAT}},
};
static const struct attribute_list ELLIPSE = {
    3,
    {{BIT_FLAG, NONE}, {MULTI_DIMENSION, POINT}, {SPATIAL, POINT}},
};
static const struct attribute_list POLY_STAR = {
    9,
    {{BIT_FLAG, NONE}, {VALUE, ONE_OF_TWO}, {SIMPLE, FLOAT}, {SPATIAL, POINT}, {SIMPLE, FLOAT}, {SIMPLE, FLOAT}, {SIMPLE, FLOAT}, {SIMPLE, FLOAT},
     {SIMPLE, FLOAT}},
};
static const struct attribute_list SHAPE_PATH = {1, {{SIMPLE, PATH}}};
static const struct attribute_list FILL = {
    5,
    {{VALUE, BLEND_MODE}, {VALUE, ONE_OF_TWO}, {VALUE, ONE_OF_TWO}, {SIMPLE, COLOR}, {SIMPLE, BYTE}},
};
static const struct attribute_list STROKE = {
    8,
    {{VALUE, BLEND_MODE}, {VALUE, ONE_OF_TWO}, {VALUE, ONE_OF_THREE}, {VALUE, ONE_OF_THREE}, {SIMPLE, FLOAT}, {SIMPLE, COLOR}, {SIMPLE, BYTE},
     {SIMPLE, FLOAT}},
};
static const struct attribute_list GRADIENT_FILL = {
    8,
    {{VALUE, BLEND_MODE}, {VALUE, ONE_OF_TWO}, {VALUE, ONE_OF_TWO}, {VALUE, ONE_OF_TWO}, {SPATIAL, POINT}, {SPATIAL, POINT}, {SIMPLE, GRADIENT},
     {SIMPLE, BYTE}},
};
static const struct attribute_list GRADIENT_STROKE = {
    12,
    {{VALUE, BLEND_MODE}, {VALUE, ONE_OF_TWO}, {VALUE, ONE_OF_TWO}, {SPATIAL, POINT}, {SPATIAL, POINT}, {SIMPLE, COLOR}, {SIMPLE, BYTE}, {SIMPLE, FLOAT},
     {VALUE, ONE_OF_THREE}, {VALUE, ONE_OF_THREE}, {SIMPLE, FLOAT}, {VALUE, DASHES}},
};
static const struct attribute_list MERGE_PATHS = {1, {{VALUE, MERGE_MODE}}};
static const struct attribute_list TRIM_PATHS = {
    4,
    {{SIMPLE, FLOAT}, {SIMPLE, FLOAT}, {SIMPLE, FLOAT}, {VALUE, ONE_OF_TWO}},
};
static const struct attribute_list REPEATER = {
    9,
    {{VALUE, ONE_OF_TWO}, {SIMPLE, FLOAT}, {SIMPLE, FLOAT}, {SPATIAL, POINT}, {SPATIAL, POINT}, {MULTI_DIMENSION, POINT}, {SIMPLE, FLOAT}, {SIMPLE, BYTE},
     {SIMPLE, BYTE}},
};
static const struct attribute_list ROUND_CORNERS = {1, {{SIMPLE, FLOAT}}};

static const uint8_t COORDINATES[8] = {0, 2, 2, 1, 1, 4, 4, 6};

enum { LINEAR = 1, BEZIER = 2, HOLD = 3 };

static const struct attribute_list *attributes_of(uint32_t code)
{
    static const struct attribute_list *const LISTS[KNOWN_CODES] = {
        [6] = &LAYER,       [9] = &TEXT,       [10] = &MORE,          [13] = &TRANSFORM,       [14] = &MASK,        [15] = &SHAPE_GROUP,
        [16] = &RECTANGLE,  [17] = &ELLIPSE,   [18] = &POLY_STAR,     [19] = &SHAPE_PATH,      [20] = &FILL,        [21] = &STROKE,
        [22] = &GRADIENT_FILL, [23] = &GRADIENT_STROKE, [24] = &MERGE_PATHS, [25] = &TRIM_PATHS, [26] = &REPEATER, [27] = &ROUND_CORNERS,
    };
    return LISTS[code];
}

static enum tag_class class_of(uint32_t level, uint32_t code)
{
    return code < KNOWN_CODES && code <= level ? (enum tag_class)CLASSES[code] : OPAQUE;
}

/* Does it count in the depth? */
static int may_have_list(enum tag_class class)
{
    return class == CONTAINER || class == GROUP;
}

/* How many easing numbers a Bezier frame has: a curve of four, or one for x and one for y. */
static size_t easing_of(enum attribute_kind kind, enum data_type type)
{
    return kind == MULTI_DIMENSION && type == POINT ? 8 : 4;
}

/* Is the byte one that its data type lists? */
static int is_listed(enum data_type type, uint64_t value)
{
    switch (type) {
    case BOOL: return value <= 1;
    case BLEND_MODE: return value <= 16 || (value >= 21 && value <= 26);
    case TRACK_MATTE: return value <= 4;
    case MASK_MODE: return value <= 7;
    case GROUPING: return value <= 6;
    case ONE_OF_TWO: return value <= 1;
    case ONE_OF_THREE: return value <= 2;
    case MERGE_MODE: return value <= 4;
    default: return value <= 255;
    }
}

/* Packed numbers are their bytes: with NUMBER_LOOP they are copied eight at a time, as the library does, so that bench/run can tell what the C library's way is worth. */
static inline void copy_bytes(uint8_t *to, const uint8_t *from, size_t n)
{
#ifdef NUMBER_LOOP
    size_t i = 0;
    for (; n - i >= 8; i += 8) memcpy(to + i, from + i, 8);
    for (; i < n; i++) to[i] = from[i];
#else
    memcpy(to, from, n);
#endif
}

static pag_answer refused(uint32_t reason, uint64_t number)
{
    return (pag_answer){reason, number};
}

static pag_answer accepted(uint64_t count)
{
    return (pag_answer){PAG_ACCEPTED, count};
}

/* ------------------------------------------------------------ reading: items */

/* A body under way, read up to bit `at`. Its numbers go to `out` if there is one; they are counted in any case. */
struct body {
    const uint8_t *bytes;
    size_t len;
    size_t at;
    uint64_t *out;
    size_t count;
    int low; /* the bits of a byte from the lowest on */
};

static void show(struct body *b, uint64_t number)
{
    if (b->out) b->out[b->count] = number;
    b->count++;
}

/* The next whole byte; 15 if a skipped bit is not zero. */
static int align(struct body *b)
{
    unsigned used = b->at % 8;
    if (used == 0) return 0;
    unsigned byte = b->bytes[b->at / 8];
    if (b->low ? byte >> used : byte & (0xFF >> used)) return PAG_SKIPPED_BIT_NOT_ZERO;
    b->at += 8 - used;
    return 0;
}

static int read_byte(struct body *b, uint64_t *value)
{
    int why = align(b);
    if (why) return why;
    if (b->at / 8 >= b->len) return PAG_ITEM_PAST_THE_BODY;
    *value = b->bytes[b->at / 8];
    b->at += 8;
    return 0;
}

/* U32 and U64: at most `most` bytes, the last of them at most `top`. */
static int read_spelled(struct body *b, unsigned most, unsigned top, uint64_t *value)
{
    int why = align(b);
    if (why) return why;
    const uint8_t *from = b->bytes + b->at / 8;
    size_t left = b->len - b->at / 8;
    uint64_t sum = 0;
    for (unsigned i = 0; i < most; i++) {
        if (i >= left) return PAG_ITEM_PAST_THE_BODY;
        unsigned byte = from[i];
        sum |= (uint64_t)(byte & 127) << (7 * i);
        if (byte >= 128) continue;
        if ((i > 0 && byte == 0) || (i == most - 1 && byte > top)) return PAG_SPELLING;
        *value = sum;
        b->at += 8 * (i + 1);
        return 0;
    }
    return PAG_SPELLING;
}

static int read_u32(struct body *b, uint64_t *value)
{
    return read_spelled(b, 5, 15, value);
}

static int read_u64(struct body *b, uint64_t *value)
{
    return read_spelled(b, 10, 1, value);
}

static int read_i32(struct body *b, uint64_t *value)
{
    uint64_t d = 0;
    int why = read_u32(b, &d);
    if (why) return why;
    if (d == 1) return PAG_SPELLING;
    *value = d % 2 ? 0 - d / 2 : d / 2;
    return 0;
}

static int read_float(struct body *b, uint64_t *value)
{
    int why = align(b);
    if (why) return why;
    if (b->len - b->at / 8 < 4) return PAG_ITEM_PAST_THE_BODY;
    const uint8_t *p = b->bytes + b->at / 8;
    *value = p[0] | (uint64_t)p[1] << 8 | (uint64_t)p[2] << 16 | (uint64_t)p[3] << 24;
    b->at += 32;
    return 0;
}

/* A count that is shown: of fonts, verbs or frames. */
static int read_count(struct body *b, uint64_t least, size_t *count)
{
    uint64_t number = 0;
    int why = read_u32(b, &number);
    if (why) return why;
    if (number < least || number > TOP_COUNT) return PAG_COUNT_OUTSIDE_ITS_RANGE;
    *count = (size_t)number;
    show(b, number);
    return 0;
}

/* ------------------------------------------------------------ reading: bit fields */

/* How many of n fields stand in the body. */
static size_t fitting(const struct body *b, unsigned width, size_t n)
{
    size_t room = (8 * b->len - b->at) / width;
    return n < room ? n : room;
}

/* The eight bytes from `first` on as a number, the first of them lowest; past the end 0. By one load where there are so many, else byte by byte. */
static inline uint64_t eight_bytes(const uint8_t *bytes, size_t len, size_t first)
{
    uint64_t word = 0;
    if (len - first >= 8) memcpy(&word, bytes + first, 8);
    else
        for (size_t i = first; i < len; i++) word |= (uint64_t)bytes[i] << (8 * (i - first));
    return word;
}

/* The field at a bit that stands in the body. */
static inline uint64_t field_at(const uint8_t *bytes, size_t len, size_t at, unsigned width, int low)
{
    uint64_t word = eight_bytes(bytes, len, at / 8);
    if (low) return word >> at % 8 & (((uint64_t)1 << width) - 1);
    return (__builtin_bswap64(word) << at % 8) >> (64 - width);
}

static uint64_t next_field(struct body *b, unsigned width)
{
    uint64_t value = field_at(b->bytes, b->len, b->at, width, b->low);
    b->at += width;
    return value;
}

/* A width that is shown. */
static int read_width(struct body *b, unsigned *width)
{
    if (fitting(b, 5, 1) < 1) return PAG_ITEM_PAST_THE_BODY;
    *width = (unsigned)next_field(b, 5) + 1;
    show(b, *width);
    return 0;
}

/* n fields of one width from a bit on; `half` is what their top bit stands for, or 0 where they are unsigned. The order is known where it is called, so that no
 * field asks for it. */
static inline void fill_fields(uint64_t *out, const struct body *b, unsigned width, size_t n, uint64_t half, int low)
{
    const uint8_t *bytes = b->bytes;
    size_t len = b->len, at = b->at;
    for (size_t i = 0; i < n; i++, at += width) out[i] = (field_at(bytes, len, at, width, low) ^ half) - half;
}

enum { UNSIGNED, SIGNED };

/* A width, and n fields of it. They have no values to judge, so a walk that only counts steps over them. */
static int read_scaled(struct body *b, size_t n, int is_signed)
{
    unsigned width = 0;
    int why = read_width(b, &width);
    if (why) return why;
    if (fitting(b, width, n) < n) return PAG_ITEM_PAST_THE_BODY;
    uint64_t half = is_signed ? (uint64_t)1 << (width - 1) : 0;
    if (b->out && b->low) fill_fields(b->out + b->count, b, width, n, half, 1);
    else if (b->out) fill_fields(b->out + b->count, b, width, n, half, 0);
    b->at += n * width;
    b->count += n;
    return 0;
}

/* n fields of one width, each at most `most` and at least `least`. */
static int read_fields(struct body *b, unsigned width, size_t n, uint64_t least, uint64_t most)
{
    size_t there = fitting(b, width, n);
    for (size_t i = 0; i < there; i++) {
        uint64_t value = next_field(b, width);
        if (value < least || value > most) return PAG_UNLISTED_VALUE;
        show(b, value);
    }
    return there < n ? PAG_ITEM_PAST_THE_BODY : 0;
}

static int read_path(struct body *b)
{
    size_t verbs = 0, coordinates = 0;
    int why = read_count(b, 0, &verbs);
    if (why) return why;
    if (fitting(b, 3, verbs) < verbs) return PAG_ITEM_PAST_THE_BODY;
    for (size_t i = 0; i < verbs; i++) {
        uint64_t verb = next_field(b, 3);
        coordinates += COORDINATES[verb];
        show(b, verb);
    }
    return read_scaled(b, coordinates, SIGNED);
}

/* n Floats in turn. Any pattern is one, so they are asked for once, and a walk that only counts steps over them. */
static int read_floats(struct body *b, size_t n)
{
    int why = align(b);
    if (why) return why;
    const uint8_t *from = b->bytes + b->at / 8;
    if ((b->len - b->at / 8) / 4 < n) return PAG_ITEM_PAST_THE_BODY;
    if (b->out) {
        uint64_t *out = b->out + b->count;
        for (size_t i = 0; i < n; i++) {
            uint32_t pattern;
            memcpy(&pattern, from + 4 * i, 4);
            out[i] = pattern;
        }
    }
    b->at += 32 * n;
    b->count += n;
    return 0;
}

/* n bytes of any value, each a number. */
static void show_bytes(struct body *b, const uint8_t *bytes, size_t n)
{
    if (b->out)
        for (size_t i = 0; i < n; i++) b->out[b->count + i] = bytes[i];
    b->count += n;
}

/* n Colors in turn, which may have any bytes. */
static int read_colors(struct body *b, size_t n)
{
    int why = align(b);
    if (why) return why;
    if ((b->len - b->at / 8) / 3 < n) return PAG_ITEM_PAST_THE_BODY;
    show_bytes(b, b->bytes + b->at / 8, 3 * n);
    b->at += 24 * n;
    return 0;
}

/* n stops: a position and a midpoint of two bytes each, and `rest` bytes. */
static void show_stops(struct body *b, size_t n, size_t rest)
{
    for (size_t i = 0; i < n; i++) {
        const uint8_t *from = b->bytes + b->at / 8;
        show(b, from[0] | (uint64_t)from[1] << 8);
        show(b, from[2] | (uint64_t)from[3] << 8);
        show_bytes(b, from + 4, rest);
        b->at += 8 * (4 + rest);
    }
}

/* Both counts, then the alpha stops of five bytes and the colour stops of seven: any bytes are stops. */
static int read_gradient(struct body *b)
{
    size_t alphas = 0, colors = 0;
    int why = read_count(b, 0, &alphas);
    if (why || (why = read_count(b, 0, &colors))) return why;
    if (b->len - b->at / 8 < 5 * alphas + 7 * colors) return PAG_ITEM_PAST_THE_BODY;
    show_stops(b, alphas, 1);
    show_stops(b, colors, 3);
    return 0;
}

static int read_flag_bit(struct body *b, unsigned *bit)
{
    if (b->at / 8 >= b->len) return PAG_ITEM_PAST_THE_BODY;
    unsigned byte = b->bytes[b->at / 8], used = b->at % 8;
    *bit = (b->low ? byte >> used : byte >> (7 - used)) & 1;
    b->at++;
    return 0;
}

/* The length less 1, whether there is an offset, and only then whether that is animatable. */
static int read_dashes(struct body *b)
{
    unsigned exist = 0, animatable = 0;
    int why = align(b);
    if (why) return why;
    if (fitting(b, 3, 1) < 1) return PAG_ITEM_PAST_THE_BODY;
    show(b, next_field(b, 3) + 1);
    if ((why = read_flag_bit(b, &exist))) return why;
    show(b, exist);
    if (!exist) return 0;
    why = read_flag_bit(b, &animatable);
    show(b, animatable);
    return why;
}

/* ------------------------------------------------------------ reading: bodies */

static int read_one(struct body *b, enum data_type type)
{
    uint64_t value = 0;
    int why;
    switch (type) {
    case U32: why = read_u32(b, &value); break;
    case I32: why = read_i32(b, &value); break;
    case TIME: why = read_u64(b, &value); break;
    case FLOAT: why = read_float(b, &value); break;
    default:
        why = read_byte(b, &value);
        if (!why && !is_listed(type, value)) why = PAG_UNLISTED_VALUE;
    }
    if (!why) show(b, value);
    return why;
}

static int read_value(struct body *b, enum data_type type)
{
    switch (type) {
    case PATH: return read_path(b);
    case POINT: return read_floats(b, 2);
    case COLOR: return read_colors(b, 1);
    case GRADIENT: return read_gradient(b);
    case DASHES: return read_dashes(b);
    case RATIO: {
        int why = read_one(b, I32);
        return why ? why : read_one(b, U32);
    }
    default: return read_one(b, type);
    }
}

static int read_in_turn(struct body *b, enum data_type type, size_t n)
{
    for (size_t i = 0; i < n; i++) {
        int why = read_value(b, type);
        if (why) return why;
    }
    return 0;
}

static int read_frame_values(struct body *b, enum attribute_kind kind, enum data_type type, size_t n)
{
    unsigned width = 0;
    if (type == BOOL) return read_fields(b, 1, n, 0, 1);
    if (type == POINT) return kind == SPATIAL ? read_scaled(b, 2 * n, UNSIGNED) : read_floats(b, 2 * n);
    if (type == FLOAT) return read_floats(b, n);
    if (type == COLOR) return read_colors(b, n);
    if (type != BYTE) return read_in_turn(b, type, n);
    int why = read_width(b, &width);
    return why ? why : read_fields(b, width, n, 0, 255);
}

/* UB[2] per frame; the Bezier frames are counted. */
static int read_interpolations(struct body *b, size_t frames, size_t *beziers)
{
    size_t there = fitting(b, 2, frames);
    for (size_t i = 0; i < there; i++) {
        uint64_t interpolation = next_field(b, 2);
        if (interpolation < LINEAR) return PAG_UNLISTED_VALUE;
        *beziers += interpolation == BEZIER;
        show(b, interpolation);
    }
    return there < frames ? PAG_ITEM_PAST_THE_BODY : 0;
}

/* The sixth part: two flags a frame, in and out, then a width and two signed fields for each that is set. */
static int read_spatial(struct body *b, size_t frames)
{
    size_t there = 0;
    if (fitting(b, 1, 2 * frames) < 2 * frames) return PAG_ITEM_PAST_THE_BODY;
    for (size_t i = 0; i < 2 * frames; i++) {
        uint64_t flag = next_field(b, 1);
        there += flag;
        show(b, flag);
    }
    return read_scaled(b, 2 * there, SIGNED);
}

/* Keyframed content: each of its five parts, or six, starts on a whole byte. */
static int read_keyframed(struct body *b, enum attribute_kind kind, enum data_type type, unsigned flags)
{
    size_t frames = 0, beziers = 0;
    int why = read_count(b, 1, &frames);
    if (why || (why = align(b))) return why;
    if (kind != DISCRETE && (why = read_interpolations(b, frames, &beziers))) return why;
    if ((why = read_in_turn(b, TIME, frames + 1))) return why;
    if ((why = align(b)) || (why = read_frame_values(b, kind, type, frames + 1))) return why;
    if ((why = align(b)) || (why = read_scaled(b, easing_of(kind, type) * beziers, SIGNED))) return why;
    if (!(flags & HAS_SPATIAL)) return 0;
    why = align(b);
    return why ? why : read_spatial(b, frames);
}

static int read_flags(struct body *b, enum attribute_kind kind, unsigned *flags)
{
    unsigned animatable = 0, has_spatial = 0;
    *flags = EXISTS;
    if (kind == FIXED) return 0;
    int why = read_flag_bit(b, flags);
    if (why || *flags == 0 || kind < SIMPLE) return why;
    why = read_flag_bit(b, &animatable);
    *flags += ANIMATABLE * animatable;
    if (why || !animatable || kind != SPATIAL) return why;
    why = read_flag_bit(b, &has_spatial);
    *flags += HAS_SPATIAL * has_spatial;
    return why;
}

/* *last is the flag number of the last attribute. */
static int read_block(struct body *b, const struct attribute_list *list, unsigned *last)
{
    unsigned flags[MOST_ATTRIBUTES];
    int why;
    for (size_t i = 0; i < list->count; i++)
        if ((why = read_flags(b, list->of[i].kind, &flags[i]))) return why;
    for (size_t i = 0; i < list->count; i++) {
        enum attribute_kind kind = list->of[i].kind;
        enum data_type type = list->of[i].type;
        show(b, flags[i]);
        why = 0;
        if (flags[i] & ANIMATABLE) why = read_keyframed(b, kind, type, flags[i]);
        else if (flags[i] && kind != BIT_FLAG) why = read_value(b, type);
        if (why) return why;
    }
    *last = flags[list->count - 1];
    return 0;
}

/* The first zero byte, or NULL. With BYTE_LOOP it is looked for as the library does, so that bench/run can tell what the C library's way is worth. */
static const uint8_t *zero_in(const uint8_t *from, size_t left)
{
#ifdef BYTE_LOOP
    for (size_t i = 0; i < left; i++)
        if (from[i] == 0) return from + i;
    return NULL;
#else
    return left ? memchr(from, 0, left) : NULL;
#endif
}

static int read_string(struct body *b)
{
    const uint8_t *from = b->bytes + b->at / 8;
    size_t left = b->len - b->at / 8;
    const uint8_t *zero = zero_in(from, left);
    if (!zero) return PAG_ITEM_PAST_THE_BODY;
    size_t n = (size_t)(zero - from);
    show(b, n);
    show_bytes(b, from, n);
    b->at += 8 * (n + 1);
    return 0;
}

static int read_fonts(struct body *b)
{
    size_t fonts = 0;
    int why = read_count(b, 0, &fonts);
    for (size_t i = 0; !why && i < 2 * fonts; i++) why = read_string(b);
    return why;
}

static int read_items(struct body *b, uint32_t code)
{
    for (const uint8_t *type = PLAIN[code]; *type != NONE; type++) {
        int why = read_one(b, *type);
        if (why) return why;
    }
    return 0;
}

/* The body of a leaf tag that is read: its items, zero bits up to a whole byte, and nothing more. A group with a list ends there, *inside its body, and its list
 * follows. Out of line, which costs nested tags less. */
__attribute__((noinline)) static int read_leaf(struct body *b, enum tag_class class, uint32_t code, size_t *inside)
{
    unsigned last = 0;
    int why = class == FONTS ? read_fonts(b) : class == ITEMS ? read_items(b, code) : read_block(b, attributes_of(code), &last);
    if (why || (why = align(b))) return why;
    if (class == GROUP && last) {
        *inside = b->at / 8;
        return 0;
    }
    return b->at / 8 < b->len ? PAG_BODY_NOT_USED_UP : 0;
}

/* ------------------------------------------------------------ reading: tags and files */

/* A walk of a file's tags. A table that is not there is only counted; leaves that were judged before need not be read for the tag table. */
struct walk {
    uint32_t level;
    int low;
    const uint8_t *file;
    size_t len;
    uint64_t *table;
    size_t numbers;
    uint32_t *rows;
    size_t row_numbers;
    int leaves_judged;
};

struct header {
    uint32_t code;
    size_t size;
    size_t len;
};

static uint32_t le16(const uint8_t *p)
{
    return p[0] | (uint32_t)p[1] << 8;
}

static uint32_t le32(const uint8_t *p)
{
    return le16(p) | le16(p + 2) << 16;
}

/* 9 and 10, then 12, in this order. */
static inline int judge_header(const struct walk *w, size_t rest, unsigned depth, const struct header *h)
{
    if (h->len > rest - h->size) return PAG_BODY_LONGER_THAN_LIST;
    if (h->code == 0 && h->len > 0) return PAG_END_WITH_A_BODY;
    if (depth == TOP_DEPTH && may_have_list(class_of(w->level, h->code))) return PAG_CONTAINER_AT_DEPTH_8;
    return 0;
}

/* 6, and then these. A short header is judged apart, so that nothing asks for its size. */
static int read_header(const struct walk *w, size_t place, size_t end, unsigned depth, struct header *h)
{
    size_t rest = end - place;
    if (rest < 2) return PAG_HEADER_CUT;
    uint32_t number = le16(w->file + place);
    *h = (struct header){number / 64, 2, number % 64};
    if (h->len < LONG_LENGTH) return judge_header(w, rest, depth, h);
    if (rest < 6) return PAG_HEADER_CUT;
    h->size = 6;
    h->len = le32(w->file + place + 2);
    return judge_header(w, rest, depth, h);
}

static void show_row(struct walk *w, unsigned depth, size_t place, const struct header *h)
{
    if (w->rows) {
        uint32_t *row = w->rows + w->row_numbers;
        row[0] = depth;
        row[1] = h->code;
        row[2] = (uint32_t)place;
        row[3] = (uint32_t)h->size;
        row[4] = (uint32_t)h->len;
    }
    w->row_numbers += 5;
}

/* 1 for a tag that is read; 2 more for a long header on a body below 63. */
static uint64_t state_of(enum tag_class class, const struct header *h)
{
    return (class != OPAQUE) + 2 * (h->size == 6 && h->len < LONG_LENGTH);
}

/*
 * An opaque tag with its body packed: its length, and then eight bytes to a number, the first of them lowest, the last number filled with zeros. The last one, too,
 * is one load where the file has eight bytes from there on. The others come last, so that nothing has to be kept over the call that copies them.
 */
static void fill_opaque(const struct walk *w, size_t start, const struct header *h, size_t packed)
{
    uint64_t *head = w->table + w->numbers;
    const uint8_t *body = w->file + start;
    size_t full = h->len / 8, rest = h->len % 8;
    head[0] = h->code;
    head[1] = state_of(OPAQUE, h);
    head[2] = 1 + packed;
    head[3] = h->len;
    if (rest) head[4 + full] = eight_bytes(body, w->len - start, 8 * full) & (((uint64_t)1 << 8 * rest) - 1);
    if (full) copy_bytes((uint8_t *)(head + 4), body, 8 * full);
}

/* A walk that only counts touches no byte of the body. */
static inline void show_opaque(struct walk *w, size_t start, const struct header *h)
{
    size_t packed = (h->len + 7) / 8;
    if (w->table) fill_opaque(w, start, h, packed);
    w->numbers += 4 + packed;
}

/* The own numbers of a tag that is read. *inside: how many bytes of its body stand before its list; 0 where it has none. */
static inline int show_tag(struct walk *w, enum tag_class class, size_t start, const struct header *h, size_t *inside)
{
    uint64_t *head = w->table ? w->table + w->numbers : NULL;
    struct body b = {w->file + start, h->len, 0, head ? head + 3 : NULL, 0, w->low};
    int why = 0;
    if (head) {
        head[0] = h->code;
        head[1] = state_of(class, h);
    }
    if (class == CONTAINER) {
        why = read_items(&b, h->code);
        *inside = b.at / 8;
    } else if (class == GROUP || (class != END && !w->leaves_judged)) {
        why = read_leaf(&b, class, h->code, inside);
    }
    if (head) head[2] = b.count;
    w->numbers += 3 + b.count;
    return why;
}

/* The list from place to end. 7 and 11 blame its container; at depth 0 (blamed NULL) the place where it happened. */
static pag_answer walk_list(struct walk *w, size_t place, size_t end, unsigned depth, const size_t *blamed)
{
    while (place < end) {
        struct header h;
        size_t inside = 0;
        int why = read_header(w, place, end, depth, &h);
        if (why) return refused(why, place);
        size_t start = place + h.size, stop = start + h.len;
        enum tag_class class = class_of(w->level, h.code);
        show_row(w, depth, place, &h);
        if (class == OPAQUE) {
            show_opaque(w, start, &h);
            place = stop;
            continue;
        }
        why = show_tag(w, class, start, &h, &inside);
        if (why) return refused(why, place);
        if (may_have_list(class) && inside) {
            pag_answer within = walk_list(w, start + inside, stop, depth + 1, &place);
            if (within.reason) return within;
        }
        if (class == END && stop < end) return refused(PAG_BYTES_AFTER_END, blamed ? *blamed : stop);
        if (class == END) return accepted(0);
        place = stop;
    }
    return refused(PAG_LIST_WITHOUT_END, blamed ? *blamed : end);
}

/* 1 and 24, which every call with a level tries first. */
static uint32_t call_fault(uint32_t level, uint32_t order)
{
    if (level > PAG_LEVEL_MAX) return PAG_LEVEL_ABOVE_1023;
    return order == PAG_HIGH_FIRST || order == PAG_LOW_FIRST ? 0 : PAG_ORDER_UNKNOWN;
}

static uint32_t start_fault(const uint8_t *file, size_t len)
{
    if (len < HEADER_BYTES) return PAG_FEWER_THAN_9_BYTES;
    if (memcmp(file, "PAG", 3) != 0) return PAG_SIGNATURE_WRONG;
    if (file[3] != 1) return PAG_VERSION_NOT_1;
    if (le32(file + 4) != len || len > PAG_FILE_MAX) return PAG_LENGTH_FIELD_WRONG;
    return 0;
}

static pag_answer walk_file(struct walk *w)
{
    w->numbers = 1;
    w->row_numbers = 0;
    if (w->table) w->table[0] = w->file[8];
    return walk_list(w, HEADER_BYTES, w->len, 0, NULL);
}

/* The walk that judges and counts. */
static pag_answer survey(struct walk *w, uint32_t order)
{
    uint32_t why = call_fault(w->level, order);
    if (!why) why = start_fault(w->file, w->len);
    w->low = order == PAG_LOW_FIRST;
    return why ? refused(why, 0) : walk_file(w);
}

pag_answer peer_read(uint32_t level, uint32_t order, const uint8_t *file, size_t file_len, uint64_t *table, size_t table_len)
{
    struct walk w = {.level = level, .file = file, .len = file_len};
    pag_answer judged = survey(&w, order);
    if (judged.reason) return judged;
    if (table_len < w.numbers) return refused(PAG_TABLE_TOO_SHORT, w.numbers);
    w.table = table;
    walk_file(&w);
    return accepted(w.numbers);
}

pag_answer peer_tags(uint32_t level, uint32_t order, const uint8_t *file, size_t file_len, uint32_t *tags, size_t tags_len)
{
    struct walk w = {.level = level, .file = file, .len = file_len};
    pag_answer judged = survey(&w, order);
    if (judged.reason) return judged;
    if (tags_len < w.row_numbers) return refused(PAG_TABLE_TOO_SHORT, w.row_numbers);
    w.rows = tags;
    w.leaves_judged = 1;
    walk_file(&w);
    return accepted(w.row_numbers);
}

/* ------------------------------------------------------------ the bit reader */

pag_field peer_bits(uint32_t order, const uint8_t *file, size_t file_len, uint64_t place, uint32_t width, uint32_t is_signed)
{
    uint64_t bits = 8 * (uint64_t)file_len;
    if (order != PAG_HIGH_FIRST && order != PAG_LOW_FIRST) return (pag_field){PAG_ORDER_UNKNOWN, 0, place};
    if (width < 1 || width > 32) return (pag_field){PAG_COUNT_OUTSIDE_ITS_RANGE, 0, place};
    if (place > bits || bits - place < width) return (pag_field){PAG_ITEM_PAST_THE_BODY, 0, place};
    uint64_t value = field_at(file, file_len, (size_t)place, width, order == PAG_LOW_FIRST), half = (uint64_t)1 << (width - 1);
    return (pag_field){PAG_ACCEPTED, is_signed ? (value ^ half) - half : value, place + width};
}

/* ------------------------------------------------------------ writing: items */

/* Numbers still to be written. */
struct numbers {
    const uint64_t *next;
    size_t left;
};

/* Bytes under way: whole bytes, and the bits behind them, fewer than 32, the lowest bits of `begun`. Without memory they are only counted. */
struct output {
    uint8_t *bytes;
    size_t len;
    size_t total; /* with memory: how long it will be */
    uint64_t begun;
    unsigned begun_bits;
    int low; /* a byte is filled from its lowest bit */
};

/* The next number, if there is one from least to most. From here on 0 says that no file has this table. */
static int take(struct numbers *from, uint64_t least, uint64_t most, uint64_t *value)
{
    if (from->left == 0) return 0;
    *value = *from->next;
    if (*value < least || *value > most) return 0;
    from->next++;
    from->left--;
    return 1;
}

static void put_byte(struct output *o, uint64_t byte)
{
    if (o->bytes) o->bytes[o->len] = (uint8_t)byte;
    o->len++;
}

/* Of the bits that wait there are fewer than 32; four bytes at once are stored when there are as many. */
static inline void put_bits_in(struct output *o, unsigned width, uint64_t value, int low)
{
    uint32_t word;
    if (low) o->begun |= value << o->begun_bits;
    else o->begun = o->begun << width | value;
    o->begun_bits += width;
    if (o->begun_bits < 32) return;
    o->begun_bits -= 32;
    word = low ? (uint32_t)o->begun : __builtin_bswap32((uint32_t)(o->begun >> o->begun_bits));
    memcpy(o->bytes + o->len, &word, 4);
    if (low) o->begun >>= 32;
    o->len += 4;
}

static void count_bits(struct output *o, size_t bits)
{
    bits += o->begun_bits;
    o->len += bits / 8;
    o->begun_bits = bits % 8;
}

static void put_bits(struct output *o, unsigned width, uint64_t value)
{
    if (!o->bytes) count_bits(o, width);
    else if (o->low) put_bits_in(o, width, value, 1);
    else put_bits_in(o, width, value, 0);
}

/* The lowest bits of n numbers. On a copy of the output, which no byte that is stored can lie in. */
static void put_fields(struct output *o, unsigned width, const uint64_t *values, size_t n)
{
    struct output copy = *o;
    uint64_t mask = ((uint64_t)1 << width) - 1;
    if (!o->bytes) count_bits(&copy, width * n);
    else if (o->low)
        for (size_t i = 0; i < n; i++) put_bits_in(&copy, width, values[i] & mask, 1);
    else
        for (size_t i = 0; i < n; i++) put_bits_in(&copy, width, values[i] & mask, 0);
    *o = copy;
}

/* Most items stand on a whole byte already, so this is kept out of their way. */
__attribute__((noinline)) static void end_byte(struct output *o)
{
    if (!o->low) o->begun <<= -o->begun_bits % 8;
    unsigned bytes = (o->begun_bits + 7) / 8;
    for (unsigned i = 0; i < bytes; i++) put_byte(o, o->begun >> 8 * (o->low ? i : bytes - 1 - i));
    o->begun = 0;
    o->begun_bits = 0;
}

/* Zero bits up to a whole byte. */
static void put_zero_bits(struct output *o)
{
    if (o->begun_bits) end_byte(o);
}

/* The shortest spelling, from a whole byte on. */
static void put_spelled(struct output *o, uint64_t value)
{
    put_zero_bits(o);
    for (; value > 127; value /= 128) put_byte(o, 128 + value % 128);
    put_byte(o, value);
}

/* A number kept modulo 2^64, as its sign and its magnitude. */
static int is_negative(uint64_t value, uint64_t *magnitude)
{
    int negative = (value >> 63) != 0;
    *magnitude = negative ? 0 - value : value;
    return negative;
}

static int write_i32(struct numbers *from, struct output *o)
{
    uint64_t value = 0, magnitude = 0;
    if (!take(from, 0, UINT64_MAX, &value)) return 0;
    int negative = is_negative(value, &magnitude);
    if (magnitude > 2147483647) return 0;
    put_spelled(o, 2 * magnitude + (uint64_t)negative);
    return 1;
}

static int write_float(struct numbers *from, struct output *o)
{
    uint64_t pattern = 0;
    if (!take(from, 0, UINT32_MAX, &pattern)) return 0;
    put_zero_bits(o);
    for (unsigned i = 0; i < 4; i++) put_byte(o, pattern >> (8 * i));
    return 1;
}

/* n Floats in turn. */
static int write_floats(struct numbers *from, struct output *o, size_t n)
{
    if (n > from->left) return 0;
    put_zero_bits(o);
    for (size_t i = 0; i < n; i++) {
        if (from->next[i] > UINT32_MAX) return 0;
        if (o->bytes) memcpy(o->bytes + o->len + 4 * i, from->next + i, 4);
    }
    o->len += 4 * n;
    from->next += n;
    from->left -= n;
    return 1;
}

static int write_number(struct numbers *from, struct output *o, uint64_t most)
{
    uint64_t value = 0;
    if (!take(from, 0, most, &value)) return 0;
    put_spelled(o, value);
    return 1;
}

static int write_byte(struct numbers *from, struct output *o, enum data_type type)
{
    uint64_t value = 0;
    if (!take(from, 0, 255, &value) || !is_listed(type, value)) return 0;
    put_zero_bits(o);
    put_byte(o, value);
    return 1;
}

static int write_count(struct numbers *from, struct output *o, uint64_t least, size_t *count)
{
    uint64_t number = 0;
    if (!take(from, least, TOP_COUNT, &number)) return 0;
    put_spelled(o, number);
    *count = (size_t)number;
    return 1;
}

static int write_width(struct numbers *from, struct output *o, unsigned *width)
{
    uint64_t number = 0;
    if (!take(from, 1, 32, &number)) return 0;
    put_bits(o, 5, number - 1);
    *width = (unsigned)number;
    return 1;
}

static int write_scaled(struct numbers *from, struct output *o, size_t n, int is_signed)
{
    unsigned width = 0;
    if (!write_width(from, o, &width) || n > from->left) return 0;
    uint64_t mask = ((uint64_t)1 << width) - 1, half = is_signed ? (uint64_t)1 << (width - 1) : 0;
    for (size_t i = 0; i < n; i++)
        if (from->next[i] + half > mask) return 0;
    put_fields(o, width, from->next, n);
    from->next += n;
    from->left -= n;
    return 1;
}

static int write_fields(struct numbers *from, struct output *o, unsigned width, size_t n, uint64_t most)
{
    uint64_t top = ((uint64_t)1 << width) - 1;
    if (most < top) top = most;
    if (n > from->left) return 0;
    for (size_t i = 0; i < n; i++)
        if (from->next[i] > top) return 0;
    put_fields(o, width, from->next, n);
    from->next += n;
    from->left -= n;
    return 1;
}

static int write_path(struct numbers *from, struct output *o)
{
    size_t verbs = 0, coordinates = 0;
    if (!write_count(from, o, 0, &verbs)) return 0;
    const uint64_t *verb = from->next;
    if (!write_fields(from, o, 3, verbs, 7)) return 0;
    for (size_t i = 0; i < verbs; i++) coordinates += COORDINATES[verb[i]];
    return write_scaled(from, o, coordinates, SIGNED);
}

static int write_bytes(struct numbers *from, struct output *o, size_t n)
{
    if (n > from->left) return 0;
    for (size_t i = 0; i < n; i++) {
        if (from->next[i] > 255) return 0;
        put_byte(o, from->next[i]);
    }
    from->next += n;
    from->left -= n;
    return 1;
}

static int write_colors(struct numbers *from, struct output *o, size_t n)
{
    put_zero_bits(o);
    return write_bytes(from, o, 3 * n);
}

static int write_u16(struct numbers *from, struct output *o)
{
    uint64_t value = 0;
    if (!take(from, 0, UINT16_MAX, &value)) return 0;
    put_byte(o, value);
    put_byte(o, value >> 8);
    return 1;
}

static int write_stops(struct numbers *from, struct output *o, size_t n, size_t rest)
{
    for (size_t i = 0; i < n; i++)
        if (!write_u16(from, o) || !write_u16(from, o) || !write_bytes(from, o, rest)) return 0;
    return 1;
}

static int write_gradient(struct numbers *from, struct output *o)
{
    size_t alphas = 0, colors = 0;
    return write_count(from, o, 0, &alphas) && write_count(from, o, 0, &colors) && write_stops(from, o, alphas, 1) && write_stops(from, o, colors, 3);
}

static int write_dashes(struct numbers *from, struct output *o)
{
    uint64_t length = 0, exist = 0, animatable = 0;
    put_zero_bits(o);
    if (!take(from, 1, 8, &length) || !take(from, 0, 1, &exist) || (exist && !take(from, 0, 1, &animatable))) return 0;
    put_bits(o, 3, length - 1);
    put_bits(o, 1, exist);
    if (exist) put_bits(o, 1, animatable);
    return 1;
}

/* ------------------------------------------------------------ writing: bodies */

static int write_value(struct numbers *from, struct output *o, enum data_type type)
{
    switch (type) {
    case U32: return write_number(from, o, UINT32_MAX);
    case I32: return write_i32(from, o);
    case TIME: return write_number(from, o, UINT64_MAX);
    case FLOAT: return write_float(from, o);
    case RATIO: return write_i32(from, o) && write_number(from, o, UINT32_MAX);
    case PATH: return write_path(from, o);
    case POINT: return write_floats(from, o, 2);
    case COLOR: return write_colors(from, o, 1);
    case GRADIENT: return write_gradient(from, o);
    case DASHES: return write_dashes(from, o);
    default: return write_byte(from, o, type);
    }
}

static int write_in_turn(struct numbers *from, struct output *o, enum data_type type, size_t n)
{
    for (size_t i = 0; i < n; i++)
        if (!write_value(from, o, type)) return 0;
    return 1;
}

static int write_frame_values(struct numbers *from, struct output *o, enum attribute_kind kind, enum data_type type, size_t n)
{
    unsigned width = 0;
    if (type == BOOL) return write_fields(from, o, 1, n, 1);
    if (type == POINT) return kind == SPATIAL ? write_scaled(from, o, 2 * n, UNSIGNED) : write_floats(from, o, 2 * n);
    if (type == FLOAT) return write_floats(from, o, n);
    if (type == COLOR) return write_colors(from, o, n);
    if (type != BYTE) return write_in_turn(from, o, type, n);
    return write_width(from, o, &width) && write_fields(from, o, width, n, 255);
}

static int write_interpolations(struct numbers *from, struct output *o, size_t frames, size_t *beziers)
{
    if (frames > from->left) return 0;
    for (size_t i = 0; i < frames; i++) {
        uint64_t interpolation = from->next[i];
        if (interpolation < LINEAR || interpolation > HOLD) return 0;
        *beziers += interpolation == BEZIER;
    }
    return write_fields(from, o, 2, frames, HOLD);
}

static int write_spatial(struct numbers *from, struct output *o, size_t frames)
{
    size_t there = 0;
    const uint64_t *flag = from->next;
    if (!write_fields(from, o, 1, 2 * frames, 1)) return 0;
    for (size_t i = 0; i < 2 * frames; i++) there += flag[i];
    return write_scaled(from, o, 2 * there, SIGNED);
}

static int write_keyframed(struct numbers *from, struct output *o, enum attribute_kind kind, enum data_type type, uint64_t flags)
{
    size_t frames = 0, beziers = 0;
    if (!write_count(from, o, 1, &frames)) return 0;
    if (kind != DISCRETE && !write_interpolations(from, o, frames, &beziers)) return 0;
    if (!write_in_turn(from, o, TIME, frames + 1)) return 0;
    put_zero_bits(o);
    if (!write_frame_values(from, o, kind, type, frames + 1)) return 0;
    put_zero_bits(o);
    if (!write_scaled(from, o, easing_of(kind, type) * beziers, SIGNED)) return 0;
    if (!(flags & HAS_SPATIAL)) return 1;
    put_zero_bits(o);
    return write_spatial(from, o, frames);
}

/* The flags of a block, which stand before its contents and are known after them: the first is the highest bit. */
struct flags {
    uint32_t bits;
    unsigned count;
};

static void add_flag(struct flags *flags, int is_set)
{
    flags->bits = flags->bits << 1 | (uint32_t)is_set;
    flags->count++;
}

static int write_attribute(struct numbers *from, struct output *o, struct attribute attribute, struct flags *flags)
{
    uint64_t number = 0;
    if (!take(from, 0, EXISTS + ANIMATABLE + HAS_SPATIAL, &number) || !(FLAG_NUMBERS[attribute.kind] >> number & 1)) return 0;
    if (attribute.kind != FIXED) add_flag(flags, number & EXISTS);
    if (attribute.kind >= SIMPLE && number) add_flag(flags, (number & ANIMATABLE) != 0);
    if (attribute.kind == SPATIAL && number & ANIMATABLE) add_flag(flags, (number & HAS_SPATIAL) != 0);
    if (number & ANIMATABLE) return write_keyframed(from, o, attribute.kind, attribute.type, number);
    if (number == 0 || attribute.kind == BIT_FLAG) return 1;
    return write_value(from, o, attribute.type);
}

static int write_string(struct numbers *from, struct output *o)
{
    uint64_t n = 0;
    if (!take(from, 0, UINT64_MAX, &n) || n > from->left) return 0;
    for (size_t i = 0; i < n; i++) {
        if (from->next[i] < 1 || from->next[i] > 255) return 0;
        put_byte(o, from->next[i]);
    }
    put_byte(o, 0);
    from->next += n;
    from->left -= n;
    return 1;
}

static int write_fonts(struct numbers *from, struct output *o)
{
    size_t fonts = 0;
    if (!write_count(from, o, 0, &fonts)) return 0;
    for (size_t i = 0; i < 2 * fonts; i++)
        if (!write_string(from, o)) return 0;
    return 1;
}

static int write_items(struct numbers *from, struct output *o, uint32_t code)
{
    for (const uint8_t *type = PLAIN[code]; *type != NONE; type++)
        if (!write_value(from, o, *type)) return 0;
    return 1;
}

/* ------------------------------------------------------------ writing: tags and files */

static void put_le(uint8_t *to, uint32_t value, unsigned bytes)
{
    for (unsigned i = 0; i < bytes; i++) to[i] = (uint8_t)(value >> (8 * i));
}

/* A tag's header of 2 bytes or 6. */
static void put_header(uint8_t *to, uint32_t code, size_t size, size_t len)
{
    put_le(to, code * 64 + (size == 2 ? (uint32_t)len : LONG_LENGTH), 2);
    if (size == 6) put_le(to + 2, (uint32_t)len, 4);
}

/* The bytes of a packed body. Up to eight are one store where the file goes on that far: what follows the body is written later. */
static void put_packed(struct output *o, const uint64_t *numbers, size_t len)
{
    uint8_t *to = o->bytes + o->len;
    if (len > 8 || o->total - o->len < 8) copy_bytes(to, (const uint8_t *)numbers, len);
    else if (len > 0) memcpy(to, numbers, 8);
    o->len += len;
}

/* Is there a body with these packed values? A length that a file can have, as many numbers as it asks for, and zeros behind the last byte. */
static int is_packed(const struct numbers *values)
{
    if (values->left == 0 || values->next[0] > PAG_FILE_MAX) return 0;
    size_t len = values->next[0], packed = values->left - 1, rest = len % 8;
    if (packed != (len + 7) / 8) return 0;
    return rest == 0 || values->next[packed] >> 8 * rest == 0;
}

/* An opaque tag. Its length is known before its bytes, so its header comes first. The walk that counts looks at no number but the first and the last. */
static int write_opaque(const struct numbers *values, struct output *o, uint32_t code, int claimed)
{
    if (!o->bytes && !is_packed(values)) return 0;
    size_t len = values->next[0];
    int is_long = len >= LONG_LENGTH;
    if (claimed && is_long) return 0;
    size_t size = claimed || is_long ? 6 : 2;
    if (o->bytes) put_header(o->bytes + o->len, code, size, len);
    o->len += size;
    if (o->bytes) put_packed(o, values->next + 1, len);
    else o->len += len;
    return 1;
}

/* The bits of a byte in the other order. */
static uint8_t turned(uint32_t byte)
{
    byte = (byte & 0x0F) << 4 | (byte & 0xF0) >> 4;
    byte = (byte & 0x33) << 2 | (byte & 0xCC) >> 2;
    return (uint8_t)((byte & 0x55) << 1 | (byte & 0xAA) >> 1);
}

/* One byte of flags, two or three. */
static void put_flags(uint8_t *to, size_t bytes, struct flags flags, int low)
{
    uint32_t bits = flags.bits << (8 * bytes - flags.count);
    if (bytes == 3) to[0] = (uint8_t)(bits >> 16);
    if (bytes >= 2) to[bytes - 2] = (uint8_t)(bits >> 8);
    to[bytes - 1] = (uint8_t)bits;
    for (size_t i = 0; low && i < bytes; i++) to[i] = turned(to[i]);
}

/*
 * A tag's header and flags are known after its contents. So the contents are written as near to the tag's place as they can come, behind the header that
 * the state claims, long or short, and one byte of flags, and are moved on where no claim is made and the header is long, or the flags take more bytes: never
 * past where the tag ends. A long header that is claimed for 63 bytes or more is in no file.
 */
static int close_tag(struct output *o, size_t place, uint32_t code, int claimed, size_t contents, struct flags flags)
{
    size_t flag_bytes = (flags.count + 7) / 8, n = o->len - contents, len = flag_bytes + n;
    int is_long = len >= LONG_LENGTH;
    if (claimed && is_long) return 0;
    size_t size = claimed || is_long ? 6 : 2;
    if (o->bytes) {
        uint8_t *to = o->bytes + place;
        if (place + size + flag_bytes != contents) memmove(to + size + flag_bytes, o->bytes + contents, n);
        put_header(to, code, size, len);
        if (flag_bytes > 0) put_flags(to + size, flag_bytes, flags, o->low);
    }
    o->len = place + size + len;
    return 1;
}

/* The own values of a tag that is read: all of them. */
static int write_own(struct numbers *values, struct output *o, enum tag_class class, uint32_t code, struct flags *flags)
{
    int good = 1;
    if (class == FONTS) good = write_fonts(values, o);
    if (class == ITEMS || class == CONTAINER) good = write_items(values, o, code);
    if (class == BLOCK || class == GROUP) {
        const struct attribute_list *list = attributes_of(code);
        for (size_t i = 0; good && i < list->count; i++) good = write_attribute(values, o, list->of[i], flags);
    }
    put_zero_bits(o);
    return good && values->left == 0;
}

static int take_values(struct numbers *from, struct numbers *values)
{
    uint64_t count = 0;
    if (!take(from, 0, UINT64_MAX, &count) || count > from->left) return 0;
    *values = (struct numbers){from->next, (size_t)count};
    from->next += count;
    from->left -= count;
    return 1;
}

/* A tag list, its End included. */
static int write_list(struct numbers *from, struct output *o, uint32_t level, unsigned depth)
{
    for (;;) {
        uint64_t code = 0, state = 0;
        struct numbers values = {NULL, 0};
        struct flags flags = {0, 0};
        if (!take(from, 0, PAG_LEVEL_MAX, &code)) return 0;
        enum tag_class class = class_of(level, (uint32_t)code);
        if (!take(from, 0, 3, &state) || (state & 1) != (class != OPAQUE) || !take_values(from, &values)) return 0;
        int claimed = state >= 2;
        if (class == OPAQUE) {
            if (!write_opaque(&values, o, (uint32_t)code, claimed) || o->len > PAG_FILE_MAX) return 0;
            continue;
        }
        if (depth == TOP_DEPTH && may_have_list(class)) return 0;
        size_t place = o->len, contents = place + (claimed ? 6 : 2) + (class == BLOCK || class == GROUP);
        o->len = contents;
        if (!write_own(&values, o, class, (uint32_t)code, &flags)) return 0;
        int has_list = class == CONTAINER || (class == GROUP && (flags.bits & 1)); /* a group's last flag */
        if (has_list && !write_list(from, o, level, depth + 1)) return 0;
        if (!close_tag(o, place, (uint32_t)code, claimed, contents, flags)) return 0;
        if (o->len > PAG_FILE_MAX) return 0;
        if (class == END) return 1;
    }
}

static int write_file(struct numbers from, struct output *o, uint32_t level)
{
    uint64_t compression = 0;
    o->len = HEADER_BYTES;
    if (!take(&from, 0, 255, &compression) || !write_list(&from, o, level, 0) || from.left > 0) return 0;
    if (o->bytes) {
        memcpy(o->bytes, "PAG\1", 4);
        put_le(o->bytes + 4, (uint32_t)o->len, 4);
        o->bytes[8] = (uint8_t)compression;
    }
    return 1;
}

pag_answer peer_write(uint32_t level, uint32_t order, const uint64_t *table, size_t table_len, uint8_t *out, size_t out_len)
{
    struct numbers from = {table, table_len};
    struct output counted = {.bytes = NULL}, written = {.bytes = out, .low = order == PAG_LOW_FIRST};
    uint32_t why = call_fault(level, order);
    if (why) return refused(why, 0);
    if (!write_file(from, &counted, level)) return refused(PAG_NO_FILE_HAS_THIS_TABLE, 0);
    if (out_len < counted.len) return refused(PAG_OUTPUT_TOO_SHORT, counted.len);
    written.total = counted.len;
    write_file(from, &written, level);
    return accepted(counted.len);
}
