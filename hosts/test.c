/*
 * test [--checked | --cases] CASES: calls every export of the library with good, damaged, empty and random input, in both bit orders and in orders that are neither, the same on
 * every run, and with the files of CASES (tests/cases.txt), each against the expectation that stands there; the files at the size limit are run nowhere else.
 *
 * Each call is made with the input right before a page that cannot be read, and with lent memory between two guards. Checked of each: the answer and the
 * lent memory are the peer's (bench/peer.c), a refusal has changed nothing, an acceptance nothing behind its count, and no call the guards or its
 * input. --checked is for a run under a memory checker, which is slow: fewer files, and the stack is not measured. --cases runs the files of CASES alone.
 */
#define _GNU_SOURCE
#include "files.h"
#include "peer.h"

#include <stdio.h>
#include <stdlib.h>
#include <string.h>
#include <sys/mman.h>
#include <ucontext.h>

enum { GUARD = 64, PAGE = 4096, SMALL_ROOM = 80, RANDOM_FILES = 1500, CHECKED_FILES = 100 };

static const uint32_t LEVELS[] = {0, 1, 2, 4, 5, 6, 8, 9, 10, 12, 13, 14, 15, 16, 17, 21, 22, 23, 27, 1023, 1024, UINT32_MAX};
enum { LEVEL_COUNT = sizeof LEVELS / sizeof *LEVELS };

static const uint32_t NEITHER[] = {2, 3, 255, 256, 257, 65536, UINT32_MAX};
enum { NEITHER_COUNT = sizeof NEITHER / sizeof *NEITHER };

/* What goes with each call but its input and its room. */
struct how {
    uint32_t level;
    uint32_t order;
};

static size_t calls;
static size_t answers[2][PAG_ORDER_UNKNOWN + 1]; /* by order: high first or neither, low first */

static void fail(const char *why, const char *call, struct how how, size_t input_len, size_t room_len)
{
    printf("%s: %s at level %u in order %u, input of %zu, room of %zu\n", why, call, (unsigned)how.level, (unsigned)how.order, input_len, room_len);
    exit(1);
}

/* ------------------------------------------------------------ lent memory */

static uint8_t *pages(size_t bytes)
{
    void *memory = mmap(NULL, bytes, PROT_READ | PROT_WRITE, MAP_PRIVATE | MAP_ANONYMOUS, -1, 0);
    if (memory == MAP_FAILED) {
        puts("no memory");
        exit(2);
    }
    return memory;
}

/* Memory whose end is the start of a page that cannot be touched. */
static uint8_t *fenced_end(size_t bytes)
{
    size_t whole = (bytes + PAGE - 1) / PAGE * PAGE;
    uint8_t *memory = pages(whole + PAGE);
    if (mprotect(memory + whole, PAGE, PROT_NONE)) exit(2);
    return memory + whole;
}

/* What lent memory holds before a call: every byte tells its place. */
static uint8_t paint(size_t i)
{
    return (uint8_t)(i * 167 + (i >> 8) + 13);
}

static void paint_all(uint8_t *memory, size_t bytes)
{
    for (size_t i = 0; i < bytes; i++) memory[i] = paint(i);
}

static int is_painted(const uint8_t *memory, size_t from, size_t to)
{
    for (size_t i = from; i < to; i++)
        if (memory[i] != paint(i)) return 0;
    return 1;
}

/* ------------------------------------------------------------ one call */

/* A call of the library and the same of the peer; sizes are those of an element of input and of room. */
struct call {
    const char *name;
    size_t input_size;
    size_t room_size;
    pag_answer (*ours)(struct how how, const void *input, size_t input_len, void *room, size_t room_len);
    pag_answer (*peer)(struct how how, const void *input, size_t input_len, void *room, size_t room_len);
};

#define AS_CALL(name, input_type, room_type)                                                                        \
    static pag_answer as_##name(struct how how, const void *input, size_t input_len, void *room, size_t room_len)   \
    {                                                                                                               \
        return name(how.level, how.order, (const input_type *)input, input_len, (room_type *)room, room_len);       \
    }
AS_CALL(pag_read, uint8_t, uint64_t)
AS_CALL(peer_read, uint8_t, uint64_t)
AS_CALL(pag_tags, uint8_t, uint32_t)
AS_CALL(peer_tags, uint8_t, uint32_t)
AS_CALL(peer_write, uint64_t, uint8_t)
AS_CALL(pag_write, uint64_t, uint8_t)

static const struct call READ = {"pag_read", 1, 8, as_pag_read, as_peer_read};
static const struct call TAGS = {"pag_tags", 1, 4, as_pag_tags, as_peer_tags};
static const struct call WRITE = {"pag_write", 8, 1, as_pag_write, as_peer_write};

/* Room for the largest call, made once: the fence behind the input, and the two lent memories. */
enum { LARGEST_INPUT = PAG_FILE_MAX + PAGE, LARGEST_ROOM = PAG_FILE_MAX + 2 * PAGE };
static uint8_t *input_end, *our_room, *peer_room;

static void check_memory(const struct call *c, struct how how, size_t input_len, size_t room_len, size_t start, pag_answer answer)
{
    size_t bytes = room_len * c->room_size;
    size_t used = answer.reason ? 0 : (size_t)answer.number * c->room_size;
    if (used > bytes) fail("count above the room", c->name, how, input_len, room_len);
    if (!is_painted(our_room, 0, start)) fail("memory before the room changed", c->name, how, input_len, room_len);
    if (!is_painted(our_room, start + bytes, start + bytes + GUARD)) fail("memory behind the room changed", c->name, how, input_len, room_len);
    if (!is_painted(our_room, start + used, start + bytes))
        fail(answer.reason ? "a refusal changed lent memory" : "memory past the count changed", c->name, how, input_len, room_len);
    if (memcmp(our_room + start, peer_room + start, bytes) != 0) fail("other numbers than the peer's", c->name, how, input_len, room_len);
}

/* Where lent memory starts: it is aligned as its type asks, and not always better. */
static size_t room_start(void)
{
    return GUARD + calls % 4 * 8;
}

/* One call with all checks. */
static pag_answer call(const struct call *c, struct how how, const void *input, size_t input_len, size_t room_len)
{
    size_t start = room_start(), input_bytes = input_len * c->input_size, room_bytes = start + room_len * c->room_size + GUARD;
    void *given = input_end - input_bytes;
    if (input_bytes) memcpy(given, input, input_bytes);
    paint_all(our_room, room_bytes);
    paint_all(peer_room, room_bytes);
    pag_answer ours = c->ours(how, given, input_len, our_room + start, room_len);
    if (input_bytes && memcmp(given, input, input_bytes) != 0) fail("input changed", c->name, how, input_len, room_len);
    pag_answer peer = c->peer(how, given, input_len, peer_room + start, room_len);
    if (ours.reason != peer.reason || ours.number != peer.number) fail("another answer than the peer's", c->name, how, input_len, room_len);
    check_memory(c, how, input_len, room_len, start, ours);
    answers[how.order == PAG_LOW_FIRST][ours.reason]++;
    calls++;
    return ours;
}

/* A call with no room, for what it needs; then with every room up to a little more, if that is small, else with some. */
static pag_answer call_rooms(const struct call *c, struct how how, const void *input, size_t input_len)
{
    pag_answer first = call(c, how, input, input_len, 0);
    int short_room = first.reason == PAG_TABLE_TOO_SHORT || first.reason == PAG_OUTPUT_TOO_SHORT;
    size_t needed = short_room ? (size_t)first.number : 5;
    if (needed * c->room_size + 4 * GUARD > LARGEST_ROOM) return first;
    if (needed <= SMALL_ROOM)
        for (size_t room = 1; room < needed; room++) call(c, how, input, input_len, room);
    else call(c, how, input, input_len, needed - 1);
    call(c, how, input, input_len, needed + 3);
    return call(c, how, input, input_len, needed);
}

/* ------------------------------------------------------------ inputs */

/* The other order for one that is known. */
static uint32_t other_order(uint32_t order)
{
    return order == PAG_HIGH_FIRST ? PAG_LOW_FIRST : PAG_HIGH_FIRST;
}

/* Where the state of some tag stands in a table. */
static size_t random_state(struct maker *m, const uint64_t *table, size_t count)
{
    size_t chosen = 0;
    for (size_t place = 2, tags = 1; place < count; place += 3 + (size_t)table[place + 1], tags++)
        if (random_below(m, tags) == 0) chosen = place;
    return chosen;
}

/* Where the count of some opaque tag's values stands in a table; 0 if there is none. */
static size_t random_opaque(struct maker *m, const uint64_t *table, size_t count)
{
    size_t chosen = 0;
    for (size_t place = 2, tags = 1; place < count; place += 3 + (size_t)table[place + 1])
        if (table[place] % 2 == 0 && random_below(m, tags++) == 0) chosen = place + 1;
    return chosen;
}

/* A copy in which one packed body is damaged: its length, a bit of its last number, or a number put in or taken out at its end; how many numbers it has. */
static size_t damage_packed(struct maker *m, const uint64_t *table, size_t count, size_t at, uint64_t *to)
{
    static const uint64_t LENGTHS[] = {0, 1, 8, PAG_FILE_MAX, PAG_FILE_MAX + 1, (uint64_t)1 << 32, (uint64_t)1 << 61, UINT64_MAX - 7, UINT64_MAX - 6, UINT64_MAX};
    size_t end = at + 1 + (size_t)table[at];
    memcpy(to, table, 8 * count);
    switch (random_below(m, 5)) {
    case 0: to[at + 1] = LENGTHS[random_below(m, sizeof LENGTHS / sizeof *LENGTHS)]; break;
    case 1: to[at + 1] += random_below(m, 17) - 8; break;
    case 2: to[end - 1] ^= (uint64_t)1 << random_below(m, 64); break;
    case 3:
        memmove(to + end + 1, to + end, 8 * (count - end));
        to[end] = random_below(m, 2);
        to[at]++;
        return count + 1;
    default:
        memmove(to + end - 1, to + end, 8 * (count - end));
        to[at]--;
        return count - 1;
    }
    return count;
}

static void write_damaged_packed(struct maker *m, struct how how, const uint64_t *table, size_t count)
{
    uint64_t *damaged = malloc(8 * (count + 1));
    if (!damaged) exit(2);
    for (int i = 0; i < 4; i++) {
        size_t at = random_opaque(m, table, count);
        if (at) call_rooms(&WRITE, how, damaged, damage_packed(m, table, count, at, damaged));
    }
    free(damaged);
}

/* A file's table written back, in its order, in the other and in one that is neither; and damaged tables: any number changed, the 2 of a state put or taken, and
 * packed bodies damaged. */
static void write_table(struct maker *m, struct how how, const uint8_t *file, size_t len, size_t count)
{
    size_t bytes = count * 8;
    uint64_t *table = malloc(bytes + 8);
    if (!table) exit(2);
    peer_read(how.level, how.order, file, len, table, count);
    call_rooms(&WRITE, how, table, count);
    call_rooms(&WRITE, (struct how){how.level, other_order(how.order)}, table, count);
    call(&WRITE, (struct how){how.level, NEITHER[random_below(m, NEITHER_COUNT)]}, table, count, 0);
    call(&WRITE, (struct how){how.level, NEITHER[random_below(m, NEITHER_COUNT)]}, table, count, bytes);
    for (int i = 0; i < 6; i++) {
        size_t place = i < 4 ? random_below(m, count) : random_state(m, table, count);
        uint64_t kept = table[place];
        if (i < 4) table[place] = random_below(m, 2) ? random_below(m, 300) : kept + 1 - 2 * random_below(m, 2);
        else table[place] = kept ^ 2;
        call_rooms(&WRITE, how, table, count);
        table[place] = kept;
    }
    write_damaged_packed(m, how, table, count);
    call(&WRITE, how, table, count - 1, bytes);
    table[count] = 0;
    call(&WRITE, how, table, count + 1, bytes);
    free(table);
}

static void read_file(struct maker *m, struct how how, const uint8_t *file, size_t len)
{
    call_rooms(&TAGS, how, file, len);
    pag_answer answer = call_rooms(&READ, how, file, len);
    if (answer.reason == PAG_ACCEPTED) write_table(m, how, file, len, (size_t)answer.number);
}

/* A file in its order, in the other, and in one that is neither. */
static void read_in_orders(struct maker *m, struct how how, const uint8_t *file, size_t len)
{
    read_file(m, how, file, len);
    read_file(m, (struct how){how.level, other_order(how.order)}, file, len);
    read_file(m, (struct how){how.level, NEITHER[random_below(m, NEITHER_COUNT)]}, file, len);
}

/* A changed copy: bits flipped, bytes cut off or bytes put in, with the length field made to fit in most. */
static size_t damage(struct maker *m, const uint8_t *file, size_t len, uint8_t *to)
{
    size_t place = 9 + random_below(m, len - 9);
    memcpy(to, file, len);
    switch (random_below(m, 3)) {
    case 0:
        if (random_below(m, 8) == 0) place = random_below(m, 9);
        to[place] ^= (uint8_t)(1 << random_below(m, 8));
        to[9 + random_below(m, len - 9)] ^= (uint8_t)(1 << random_below(m, 8));
        break;
    case 1: len = place; break;
    default:
        memmove(to + place + 1, to + place, len - place);
        to[place] = (uint8_t)random_below(m, 256);
        len++;
    }
    if (random_below(m, 16))
        for (unsigned i = 0; i < 4; i++) to[4 + i] = (uint8_t)(len >> (8 * i));
    return len;
}

/* Random files of either order, each good, damaged, and cut raw at some length. */
static void try_random_files(struct maker *m, int files)
{
    uint8_t *damaged = malloc(RANDOM_FILE_MAX + 1);
    if (!damaged) exit(2);
    for (int i = 0; i < files; i++) {
        m->low = i % 2;
        make_random_file(m);
        size_t len = m->len;
        struct how how = {PAG_LEVEL_MAX, m->low ? PAG_LOW_FIRST : PAG_HIGH_FIRST};
        read_file(m, (struct how){LEVELS[i / 2 % LEVEL_COUNT], how.order}, m->bytes, len);
        read_in_orders(m, how, m->bytes, len);
        for (int j = 0; j < 4; j++) read_file(m, how, damaged, damage(m, m->bytes, len, damaged));
        call(&READ, how, m->bytes, random_below(m, len), 3);
    }
    free(damaged);
}

/* Random bytes, alone and behind a good header; lengths of every remainder. */
static void try_random_bytes(struct maker *m)
{
    uint8_t bytes[64];
    for (int i = 0; i < 4000; i++) {
        size_t len = random_below(m, sizeof bytes + 1);
        for (size_t j = 0; j < len; j++) bytes[j] = (uint8_t)random_below(m, random_below(m, 2) ? 256 : 4);
        if (i % 4 && len >= 9) {
            memcpy(bytes, "PAG\1", 4);
            memset(bytes + 4, 0, 4);
            bytes[4] = (uint8_t)len;
        }
        struct how how = {LEVELS[i % LEVEL_COUNT], (uint32_t)random_below(m, 3)};
        call(&READ, how, bytes, len, random_below(m, 100));
        call(&TAGS, how, bytes, len, random_below(m, 100));
        call(&WRITE, how, bytes, len / 8, random_below(m, 100));
    }
}

static const struct how HIGH = {PAG_LEVEL_MAX, PAG_HIGH_FIRST};

/* A small file cut at every length and read at every level that changes something. */
static void try_small_file(struct maker *m, const uint8_t *file, size_t file_len)
{
    for (size_t i = 0; i < LEVEL_COUNT; i++) read_in_orders(m, (struct how){LEVELS[i], PAG_HIGH_FIRST}, file, file_len);
    for (size_t len = 0; len < file_len; len++) call_rooms(&READ, HIGH, file, len);
}

/* P2 of document 01; tag 2 holding tag 5 holding tag 11, all of them and their Ends by long headers; tag 2 holding opaque tags of 0, 1, 7, 8 and 9 bytes, the
 * last by a long header; tag 13 with a position and an opacity, then tag 10 with a Bezier frame; and samples/shapes.pag. */
static void try_small_files(struct maker *m)
{
    static const uint8_t P2[] = {0x50, 0x41, 0x47, 1, 0x13, 0, 0, 0, 0, 0xC6, 1, 0xFF, 0x80, 0, 0x80, 0x0A, 3, 0, 0};
    static const uint8_t LONG[] = {0x50, 0x41, 0x47, 1, 0x31, 0, 0, 0, 0, 0xBF, 0, 0x1C, 0, 0, 0, 5, 0x7F, 1, 0x0F, 0, 0, 0, 2, 3, 0xFF,
                                   2, 1, 0, 0, 0, 7, 0x3F, 0, 0, 0, 0, 0, 0x3F, 0, 0, 0, 0, 0, 0x3F, 0, 0, 0, 0, 0};
    static const uint8_t PACKED[] = {0x50, 0x41, 0x47, 1, 0x37, 0, 0, 0, 0, 0xAA, 0, 5, 0, 2, 1, 2, 0xFF, 7, 2, 1, 2, 3, 4, 5, 6, 7, 8, 2,
                                     1, 2, 3, 4, 5, 6, 7, 8, 0x3F, 2, 9, 0, 0, 0, 1, 2, 3, 4, 5, 6, 7, 8, 9, 0, 0, 0, 0};
    static const uint8_t POINTS[] = {0x50, 0x41, 0x47, 1, 0x34, 0, 0, 0, 0, 0x4A, 3, 0x42, 0, 0, 0xA0, 0x41, 0, 0, 0xF0, 0x41, 0x80, 0x9B, 2, 0xE0, 6, 1, 0x80,
                                     0, 0x18, 0, 0, 0, 0, 0, 0, 0x80, 0x3F, 0, 0, 0, 0x40, 0, 0, 0x80, 0xBF, 0x18, 0xFB, 0xC1, 0x71, 0xE8, 0, 0};
    static const uint8_t SHAPES[] = {0x50, 0x41, 0x47, 1, 0x59, 0, 0, 0, 0, 0x7F, 1, 0x48, 0, 0, 0, 4, 7, 0xFE, 3, 1, 0x40, 0x80, 0x56, 4, 0x5C, 0, 0,
                                     0xA0, 0x41, 0, 0, 0xF0, 0x41, 1, 0x80, 0, 0x18, 0x3F, 0xF8, 4, 0, 8, 0x0B, 0x90, 0x86, 0xF0, 0x96, 5, 0x12, 0, 1, 2,
                                     1, 0, 0, 0xA8, 0x61, 0xFF, 0x50, 0xC3, 0xA8, 0x61, 0, 0, 0, 0xA8, 0x61, 0xFF, 0x80, 0, 0xC7, 5, 4, 0x48, 0xFF, 0x80,
                                     0, 2, 0x30, 0, 0, 0xC2, 3, 0, 0, 0, 0, 0, 0};
    try_small_file(m, P2, sizeof P2);
    try_small_file(m, LONG, sizeof LONG);
    try_small_file(m, PACKED, sizeof PACKED);
    try_small_file(m, POINTS, sizeof POINTS);
    try_small_file(m, SHAPES, sizeof SHAPES);
}

/* Groups, with two bytes of flags before their list: the ninth stands at depth 8. */
static void try_groups_to_depth_8(struct maker *m)
{
    uint8_t deep[9 + 9 * 4 + 10 * 2] = {0x50, 0x41, 0x47, 1, sizeof deep};
    for (size_t depth = 0; depth < 9; depth++) {
        size_t place = 9 + 4 * depth, body = sizeof deep - place - 2 - 2 * (depth + 1);
        deep[place] = (uint8_t)(15 * 64 + body);
        deep[place + 1] = (15 * 64) >> 8;
        deep[place + 3] = 0x80;
    }
    read_in_orders(m, HIGH, deep, sizeof deep);
}

/* A fault that damage seldom makes: a container at depth 8. */
static void try_depth_8(struct maker *m)
{
    uint8_t deep[9 + 9 * 3 + 10 * 2] = {0x50, 0x41, 0x47, 1, sizeof deep};
    for (size_t depth = 0; depth < 9; depth++) {
        size_t place = 9 + 3 * depth, body = sizeof deep - place - 2 - 2 * (depth + 1);
        deep[place] = (uint8_t)(2 * 64 + body);
        deep[place + 1] = (2 * 64) >> 8;
    }
    read_in_orders(m, HIGH, deep, sizeof deep);
    try_groups_to_depth_8(m);
}

/* NULL with length 0, for what is read and for what is lent. */
static void try_null(void)
{
    static const uint8_t P1[] = {0x50, 0x41, 0x47, 1, 0x0B, 0, 0, 0, 0, 0, 0};
    static const struct call *const CALLS[] = {&READ, &TAGS, &WRITE};
    for (int i = 0; i < 3; i++) {
        pag_answer empty = CALLS[i]->ours(HIGH, NULL, 0, NULL, 0);
        if (empty.reason != (CALLS[i] == &WRITE ? PAG_NO_FILE_HAS_THIS_TABLE : PAG_FEWER_THAN_9_BYTES) || empty.number != 0)
            fail("wrong answer for NULL", CALLS[i]->name, HIGH, 0, 0);
        calls++;
    }
    pag_answer read = READ.ours(HIGH, P1, sizeof P1, NULL, 0), tags = TAGS.ours(HIGH, P1, sizeof P1, NULL, 0);
    if (read.reason != PAG_TABLE_TOO_SHORT || read.number != 4) fail("wrong answer for no room", READ.name, HIGH, sizeof P1, 0);
    if (tags.reason != PAG_TABLE_TOO_SHORT || tags.number != 5) fail("wrong answer for no room", TAGS.name, HIGH, sizeof P1, 0);
    calls += 2;
}

/* ------------------------------------------------------------ cases */

/* A line of CASES: name | level | order | bytes | expected | .., where `x*n` is n times x. */
enum { NAME, LEVEL, ORDER, BYTES, EXPECTED, FIELDS, NUMBERS = LARGEST_INPUT / 8 };
struct given {
    const char *name;
    struct how how;
    size_t len, count;
    int accepted;
};
static uint8_t *case_bytes;
static uint64_t case_numbers[NUMBERS];

static void bad_line(const char *name, const char *why)
{
    printf("case %s: %s\n", name, why);
    exit(1);
}

/* The numbers of a field, bytes in hex or others in decimals, with their repetitions; how many. */
static size_t numbers_of(const char *name, char *text, int base, size_t most)
{
    size_t count = 0;
    for (char *word = strtok(text, " "); word; word = strtok(NULL, " ")) {
        char *end;
        uint64_t number = strtoull(word, &end, base);
        uint64_t times = *end == '*' ? strtoull(end + 1, &end, 10) : 1;
        if (*end || end == word || times > most - count) bad_line(name, "not a number, or too many of them");
        for (; times; times--, count++)
            if (base == 16) case_bytes[count] = (uint8_t)number;
            else case_numbers[count] = number;
    }
    return count;
}

/* The first fields of a line; 0 for a line that is none. */
static int fields_of(char *line, char *field[FIELDS])
{
    if (line[0] == '#' || line[0] == '\n') return 0;
    for (int i = 0; i < FIELDS; i++) {
        char *end = strstr(line, " | ");
        if (!end) bad_line(line, "fields are missing");
        *end = 0;
        field[i] = line;
        line = end + 3;
    }
    return 1;
}

static struct given case_of(char *field[FIELDS])
{
    struct given g = {field[NAME], {(uint32_t)strtoul(field[LEVEL], NULL, 10), (uint32_t)strtoul(field[ORDER], NULL, 10)}, 0, 0, 0};
    char *rest = strchr(field[EXPECTED], ' ');
    if (!rest) bad_line(g.name, "nothing is expected");
    *rest++ = 0;
    g.len = numbers_of(g.name, field[BYTES], 16, PAG_FILE_MAX + 1);
    g.count = numbers_of(g.name, rest, 10, NUMBERS);
    g.accepted = strcmp(field[EXPECTED], "table") == 0;
    if (!g.accepted && (strcmp(field[EXPECTED], "refused") != 0 || g.count != 2)) bad_line(g.name, "neither a table nor a refusal is expected");
    return g;
}

static void expect_refusal(const struct given *g, const struct call *c)
{
    pag_answer answer = call(c, g->how, case_bytes, g->len, 16);
    if (answer.reason != case_numbers[0] || answer.number != case_numbers[1]) bad_line(g->name, "another answer is expected");
}

/* The expected table is read; it is written as the case's bytes; and both have just the room that they need. */
static void expect_table(const struct given *g)
{
    size_t start = room_start();
    pag_answer read = call(&READ, g->how, case_bytes, g->len, g->count);
    if (read.reason || read.number != g->count || memcmp(our_room + start, case_numbers, 8 * g->count) != 0)
        bad_line(g->name, "another table is expected");
    start = room_start();
    pag_answer written = call(&WRITE, g->how, case_numbers, g->count, g->len);
    if (written.reason || written.number != g->len || memcmp(our_room + start, case_bytes, g->len) != 0)
        bad_line(g->name, "its table is not written as its bytes");
}

/* The same bytes in the other order: as the peer reads them. */
static void read_other_order(const struct given *g)
{
    struct how how = {g->how.level, other_order(g->how.order)};
    call(&READ, how, case_bytes, g->len, 16);
    call(&TAGS, how, case_bytes, g->len, 16);
}

static void try_cases(const char *path)
{
    static char line[1 << 16];
    size_t tried = 0;
    FILE *file = fopen(path, "r");
    if (!file) bad_line(path, "cannot be read");
    case_bytes = pages(PAG_FILE_MAX + 1);
    while (fgets(line, sizeof line, file)) {
        char *field[FIELDS];
        if (!fields_of(line, field)) continue;
        struct given g = case_of(field);
        if (g.accepted) expect_table(&g);
        else expect_refusal(&g, &READ), expect_refusal(&g, &TAGS);
        read_other_order(&g);
        tried++;
    }
    fclose(file);
    munmap(case_bytes, PAG_FILE_MAX + 1);
    if (tried == 0) bad_line(path, "has no cases");
    printf("%zu cases\n", tried);
}

/* Tables of one opaque body that is too long for a file, with a count that fits: the first is one byte longer than the longest, which is a case. */
static void try_over_limit(void)
{
    static const size_t LENGTHS[] = {PAG_FILE_MAX - 16, PAG_FILE_MAX, PAG_FILE_MAX + 1};
    for (int i = 0; i < 3; i++) {
        size_t packed = (LENGTHS[i] + 7) / 8, count = 5 + packed + 3, room = i == 0 ? PAG_FILE_MAX + 8 : 0;
        uint64_t *table = case_numbers;
        memset(table, 0, 8 * count);
        table[1] = 8, table[3] = 1 + packed, table[4] = LENGTHS[i], table[count - 2] = 1;
        pag_answer answer = call(&WRITE, HIGH, table, count, room);
        if (answer.reason != PAG_NO_FILE_HAS_THIS_TABLE || answer.number != 0) fail("a file over the limit was written", WRITE.name, HIGH, count, room);
    }
}

/* ------------------------------------------------------------ stack */

enum { STACK = 1 << 18 };
static ucontext_t here, there;
static const struct call *measured;
static struct how measured_how;
static const void *measured_input;
static size_t measured_len;

static void call_there(void)
{
    measured->ours(measured_how, measured_input, measured_len, our_room, LARGEST_ROOM / measured->room_size);
}

static void nothing_there(void)
{
}

/* How much of a painted stack is changed by what runs on it. */
static size_t stack_of(void (*run)(void))
{
    static uint8_t stack[STACK];
    size_t left = 0;
    paint_all(stack, STACK);
    getcontext(&there);
    there.uc_stack.ss_sp = stack;
    there.uc_stack.ss_size = STACK;
    there.uc_link = &here;
    makecontext(&there, run, 0);
    swapcontext(&here, &there);
    while (left < STACK && stack[left] == paint(left)) left++;
    return STACK - left;
}

static void measure_call(const struct call *c, struct how how, const void *input, size_t len, size_t own, size_t *most)
{
    measured = c, measured_how = how, measured_input = input, measured_len = len;
    size_t used = stack_of(call_there) - own;
    if (used > *most) *most = used;
}

/* Files that go through all the code at every depth: containers nested to the deepest, with blocks and fonts, and long paths; and the table of the first, written. */
static void measure_order(struct maker *m, uint32_t order, size_t own, size_t *most)
{
    struct how how = {PAG_LEVEL_MAX, order};
    m->low = order == PAG_LOW_FIRST;
    make_long_file(m, LONG_PATHS, 1 << 17);
    measure_call(&READ, how, m->bytes, m->len, own, most);
    measure_call(&TAGS, how, m->bytes, m->len, own, most);
    make_long_file(m, NESTED, 1 << 17);
    measure_call(&TAGS, how, m->bytes, m->len, own, most);
    measure_call(&READ, how, m->bytes, m->len, own, most);
    size_t numbers = (size_t)pag_read(how.level, order, m->bytes, m->len, (uint64_t *)our_room, LARGEST_ROOM / 8).number;
    memcpy(peer_room, our_room, 8 * numbers);
    measure_call(&WRITE, how, peer_room, numbers, own, most);
}

static void measure_stack(struct maker *m)
{
    size_t most = 0, own = stack_of(nothing_there);
    measure_order(m, PAG_HIGH_FIRST, own, &most);
    measure_order(m, PAG_LOW_FIRST, own, &most);
    printf("stack: %zu bytes at most, above the %zu of an empty function\n", most, own);
    if (most > PAG_STACK_BYTES) {
        printf("the stack is above PAG_STACK_BYTES\n");
        exit(1);
    }
}

/* A field read one bit at a time, to compare with. */
static pag_field plain_field(uint32_t order, const uint8_t *file, size_t len, uint64_t place, uint32_t width, uint32_t is_signed)
{
    pag_field f = {0, 0, place};
    if (order > PAG_LOW_FIRST) f.reason = PAG_ORDER_UNKNOWN;
    else if (width < 1 || width > 32) f.reason = PAG_COUNT_OUTSIDE_ITS_RANGE;
    else if (place > 8 * (uint64_t)len || 8 * (uint64_t)len - place < width) f.reason = PAG_ITEM_PAST_THE_BODY;
    if (f.reason) return f;
    for (uint32_t i = 0; i < width; i++) {
        unsigned byte = file[(place + i) / 8], bit = (place + i) % 8;
        if (order == PAG_LOW_FIRST) f.value += (uint64_t)(byte >> bit & 1) << i;
        else f.value = f.value * 2 + (byte >> (7 - bit) & 1);
    }
    if (is_signed && f.value >> (width - 1)) f.value -= (uint64_t)1 << width;
    f.place = place + width;
    return f;
}

/* Bytes of every length up to 11, NULL for none; places in them, past them and near 2^64; widths 0 to 39; flags 0 to 2; both orders and neither. */
static void try_bits(size_t tries)
{
    uint64_t state = 20260102;
    uint8_t bytes[11];
    for (size_t i = 0; i < tries; i++) {
        for (size_t j = 0; j < sizeof bytes; j++) bytes[j] = (uint8_t)((state = state * 6364136223846793005u + 1442695040888963407u) >> 56);
        size_t len = state >> 33 & 15;
        if (len > sizeof bytes) len = 0;
        uint64_t place = i % 16 == 0 ? UINT64_MAX - (state >> 40 & 63) : state >> 40 & 127;
        uint32_t width = state >> 20 & 63, is_signed = (uint32_t)(i % 3);
        uint32_t pick = state >> 47 & 15, order = pick == 15 ? NEITHER[i % NEITHER_COUNT] : pick % 2;
        if (width > 39) width -= 32;
        pag_field ours = pag_bits(order, len ? bytes : NULL, len, place, width, is_signed);
        pag_field plain = plain_field(order, bytes, len, place, width, is_signed);
        if (ours.reason == plain.reason && ours.value == plain.value && ours.place == plain.place) continue;
        printf("pag_bits: order %u, %zu bytes, place %llu, width %u, flag %u\n", order, len, (unsigned long long)place, width, is_signed);
        exit(1);
    }
}

/* 8 is not given: a long header is taken with any length. 22 and 23 are no reasons of these calls. */
static int is_given(size_t reason)
{
    return (reason <= PAG_OUTPUT_TOO_SHORT && reason != 8) || reason == PAG_ORDER_UNKNOWN;
}

int main(int argc, char **argv)
{
    int checked = argc == 3 && strcmp(argv[1], "--checked") == 0, cases_alone = argc == 3 && strcmp(argv[1], "--cases") == 0;
    if (argc != 2 && !checked && !cases_alone) {
        puts("usage: test [--checked | --cases] CASES");
        return 2;
    }
    struct maker m = {.bytes = pages(RANDOM_FILE_MAX), .seed = 20260101, .all_leaves = 1};
    input_end = fenced_end(LARGEST_INPUT);
    our_room = pages(LARGEST_ROOM);
    peer_room = pages(LARGEST_ROOM);
    try_cases(argv[argc - 1]);
    if (cases_alone) return 0;
    try_null();
    try_over_limit();
    try_small_files(&m);
    try_depth_8(&m);
    try_random_bytes(&m);
    try_random_files(&m, checked ? CHECKED_FILES : RANDOM_FILES);
    try_bits(checked ? 20000 : 200000);
    if (!checked) measure_stack(&m);
    for (size_t reason = 0; reason <= PAG_ORDER_UNKNOWN; reason++) {
        size_t high = answers[0][reason], low = answers[1][reason];
        if (is_given(reason) ? high && (low || reason == PAG_ORDER_UNKNOWN) : !high && !low) continue;
        printf(is_given(reason) ? "no input was answered by %zu in each order\n" : "an input was answered by %zu, which is not given\n", reason);
        return 1;
    }
    printf("%zu calls, each as the peer's\n", calls);
    return 0;
}
