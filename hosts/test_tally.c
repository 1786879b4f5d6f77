/*
 * test_tally: calls pag_tally with random files in both orders and at several levels, with files worked out by hand, and with tallies at their limits. The
 * counts are compared with the bytes of each file, each painted with the code of the innermost tag that has it, as pag_tags tells them. Exits 1 where one differs.
 */
#define _GNU_SOURCE
#include "files.h"
#include "pag.h"

#include <stdio.h>
#include <stdlib.h>
#include <string.h>
#include <ucontext.h>

enum { CODES = 1024, RANDOM_FILES = 300, PAINT = 0xFFFF };

#define FULL_COUNT UINT64_C(16777216000000)

/* A tally between two guards. */
struct tally {
    uint64_t before;
    uint64_t counts[CODES];
    uint64_t between;
    uint64_t headers;
    uint64_t behind;
};

static uint8_t *file_bytes;
static uint32_t *rows;
static uint16_t *painted;
static size_t calls;

static void fail(const char *why, const char *what)
{
    printf("%s: %s\n", what, why);
    exit(1);
}

static struct tally empty(void)
{
    struct tally t;
    memset(&t, 0, sizeof t);
    t.before = t.between = t.behind = UINT64_C(0x5AA5A55A12345678);
    return t;
}

/* The call; a refusal must leave the whole tally, and nothing beside it changes. */
static pag_answer add(struct tally *t, uint32_t level, uint32_t order, const uint8_t *file, size_t len, const char *what)
{
    struct tally old = *t;
    pag_answer a = pag_tally(t->counts, &t->headers, level, order, file, len);
    calls++;
    if (t->before != old.before || t->between != old.between || t->behind != old.behind) fail("memory beside the tally changed", what);
    if (a.reason && memcmp(t, &old, sizeof old)) fail("a refusal changed the tally", what);
    if (!a.reason && a.number != len) fail("an acceptance has another number than the file's length", what);
    if (!a.reason && t->headers != old.headers + 9) fail("the header count", what);
    return a;
}

static void refused(struct tally *t, uint32_t level, uint32_t order, const uint8_t *file, size_t len, uint32_t reason, uint64_t number, const char *what)
{
    pag_answer a = add(t, level, order, file, len, what);
    if (a.reason != reason || a.number != number) fail("another answer", what);
}

static void accepted(struct tally *t, uint32_t level, const uint8_t *file, size_t len, const char *what)
{
    if (add(t, level, PAG_HIGH_FIRST, file, len, what).reason) fail("refused", what);
}

/* What the file adds, by its tag table: a tag that comes later in file order paints over what it stands in. */
static void compare(uint32_t level, uint32_t order, const uint8_t *file, size_t len, const char *what)
{
    struct tally t = empty();
    for (size_t i = 0; i < CODES; i++) t.counts[i] = 7 * i;
    pag_answer ours = add(&t, level, order, file, len, what);
    pag_answer tags = pag_tags(level, order, file, len, rows, 5 * (size_t)RANDOM_FILE_MAX);
    if (tags.reason != ours.reason) fail("pag_tags answers otherwise", what);
    if (tags.reason) {
        if (tags.number != ours.number) fail("pag_tags has another number", what);
        return;
    }
    for (size_t i = 0; i < len; i++) painted[i] = PAINT;
    for (size_t i = 0; i < tags.number; i += 5)
        for (size_t p = rows[i + 2]; p < (size_t)rows[i + 2] + rows[i + 3] + rows[i + 4]; p++) painted[p] = (uint16_t)rows[i + 1];
    for (size_t p = 0; p < len; p++) {
        if ((p < 9) != (painted[p] == PAINT)) fail("a byte belongs to no tag", what);
        if (p >= 9) t.counts[painted[p]]--;
    }
    for (size_t i = 0; i < CODES; i++)
        if (t.counts[i] != 7 * i) fail("another count", what);
}

static void random_files(void)
{
    static const uint32_t levels[] = {0, 1, 2, 4, 5, 9, 10, 13, 14, 15, 20, 1023, 1024};
    struct maker m = {.bytes = file_bytes, .seed = 1907, .any_headers = 1, .all_leaves = 1};
    for (size_t i = 0; i < RANDOM_FILES; i++) {
        m.low = i % 2;
        make_random_file(&m);
        for (size_t j = 0; j < sizeof levels / sizeof *levels; j++) compare(levels[j], i % 2, m.bytes, m.len, "a random file");
        m.bytes[random_below(&m, m.len)] ^= (uint8_t)(1 + random_below(&m, 255));
        compare(1023, i % 2, m.bytes, m.len, "a damaged file");
        compare(1023, 2, m.bytes, m.len, "an order that is neither");
    }
    for (int kind = 0; kind < KINDS; kind++) {
        m.low = 0;
        make_long_file(&m, kind, 1 << 18);
        compare(1023, PAG_HIGH_FIRST, m.bytes, m.len, KIND_NAMES[kind]);
    }
}

/* P1, and a file of 32 bytes: its header; a composition with a long header and an id of two bytes; in it a layer with two bytes of its own; in that an opaque
 * tag of three bytes; three Ends. At level 4 the layer's 11 bytes are its own. */
static const uint8_t P1[] = {'P', 'A', 'G', 1, 11, 0, 0, 0, 0, 0, 0};
static const uint8_t NESTED_FILE[] = {'P', 'A', 'G', 1, 32, 0, 0, 0, 0, 0xBF, 0, 15, 0, 0, 0, 0x80, 1, 0x49, 1, 7, 1, 3, 1, 10, 20, 30, 0, 0, 0, 0, 0, 0};
/* A group with two bytes of its own, in it an ellipse of one byte; two Ends. At level 14 the group's 7 bytes are its own. */
static const uint8_t GROUP_FILE[] = {'P', 'A', 'G', 1, 20, 0, 0, 0, 0, 0xC7, 3, 0, 0x80, 0x41, 4, 0x80, 0, 0, 0, 0};

static void worked(void)
{
    struct tally t = empty();
    accepted(&t, 1023, P1, sizeof P1, "P1");
    if (t.counts[0] != 2 || t.headers != 9) fail("another count", "P1");
    accepted(&t, 1023, NESTED_FILE, sizeof NESTED_FILE, "nested");
    if (t.counts[0] != 8 || t.counts[2] != 8 || t.counts[4] != 5 || t.counts[5] != 4) fail("another count", "nested");
    accepted(&t, 4, NESTED_FILE, sizeof NESTED_FILE, "nested at level 4");
    if (t.counts[0] != 12 || t.counts[2] != 16 || t.counts[4] != 5 || t.counts[5] != 15) fail("another count", "nested at level 4");
    accepted(&t, 1023, GROUP_FILE, sizeof GROUP_FILE, "a group");
    if (t.counts[0] != 16 || t.counts[15] != 4 || t.counts[17] != 3) fail("another count", "a group");
    accepted(&t, 14, GROUP_FILE, sizeof GROUP_FILE, "a group at level 14");
    if (t.counts[0] != 18 || t.counts[15] != 13 || t.counts[17] != 3) fail("another count", "a group at level 14");
    refused(&t, 1024, 2, P1, sizeof P1, PAG_LEVEL_ABOVE_1023, 0, "1 before 24");
    refused(&t, 1023, 2, P1, 8, PAG_ORDER_UNKNOWN, 0, "24 before 2");
    refused(&t, 1023, 0, NULL, 0, PAG_FEWER_THAN_9_BYTES, 0, "no bytes");
    refused(&t, 1023, 0, P1, 9, PAG_LENGTH_FIELD_WRONG, 0, "cut");
    uint64_t all = t.headers;
    for (size_t i = 0; i < CODES; i++) all += t.counts[i];
    if (all != 11 + 32 + 32 + 20 + 20) fail("the counts together are not the accepted lengths", "worked files");
}

/* The limits: 1,000,000 files, and a count of 16,777,216,000,000; tried before all else. */
static void limits(void)
{
    struct tally t = empty();
    t.headers = 8999991;
    accepted(&t, 1023, P1, sizeof P1, "the file number 1,000,000");
    refused(&t, 1023, 0, P1, sizeof P1, PAG_TALLY_FULL, 0, "the file after it");
    refused(&t, 2000, 7, NULL, 0, PAG_TALLY_FULL, 0, "25 before 1, 24 and 2");
    t.headers = 8999999;
    accepted(&t, 1023, P1, sizeof P1, "a header count of 8,999,999");
    t.headers = UINT64_MAX;
    refused(&t, 1023, 0, P1, sizeof P1, PAG_TALLY_FULL, 0, "the largest header count");
    for (size_t i = 0; i < CODES; i++) {
        t = empty();
        t.counts[i] = FULL_COUNT;
        accepted(&t, 1023, P1, sizeof P1, "a count at the limit");
        if (t.counts[i] != FULL_COUNT + (i ? 0 : 2)) fail("another count", "a count at the limit");
        t.counts[i] = FULL_COUNT + 1;
        refused(&t, 1024, 2, P1, sizeof P1, PAG_TALLY_FULL, 0, "a count above the limit");
    }
    t = empty();
    memset(t.counts, 0xFF, sizeof t.counts);
    refused(&t, 1023, 0, P1, sizeof P1, PAG_TALLY_FULL, 0, "the largest counts");
}

/* The longest file, one opaque tag, onto a count at the limit; and one byte more. */
static void longest(void)
{
    uint8_t *f = calloc(1, PAG_FILE_MAX + 1);
    if (!f) exit(2);
    uint32_t body = PAG_FILE_MAX - 9 - 6 - 2;
    uint8_t head[] = {'P', 'A', 'G', 1, 0, 0, 0, 1, 0, 0x3F, 7, (uint8_t)body, (uint8_t)(body >> 8), (uint8_t)(body >> 16), (uint8_t)(body >> 24)};
    memcpy(f, head, sizeof head);
    struct tally t = empty();
    t.counts[28] = FULL_COUNT;
    accepted(&t, 1023, f, PAG_FILE_MAX, "the longest file");
    if (t.counts[28] != FULL_COUNT + PAG_FILE_MAX - 11 || t.counts[0] != 2) fail("another count", "the longest file");
    f[4] = 1;
    t.counts[28] = 0;
    refused(&t, 1023, 0, f, PAG_FILE_MAX + 1, PAG_LENGTH_FIELD_WRONG, 0, "a byte more");
    free(f);
}

/* ------------------------------------------------------------ stack */

enum { STACK = 1 << 20 };
static ucontext_t here, there;
static struct tally measured;
static size_t measured_len;

static void call_there(void)
{
    pag_tally(measured.counts, &measured.headers, 1023, PAG_HIGH_FIRST, file_bytes, measured_len);
}

static void nothing_there(void)
{
}

static size_t stack_of(void (*run)(void))
{
    static uint8_t stack[STACK];
    size_t left = 0;
    memset(stack, 0xA7, STACK);
    getcontext(&there);
    there.uc_stack.ss_sp = stack;
    there.uc_stack.ss_size = STACK;
    there.uc_link = &here;
    makecontext(&there, run, 0);
    swapcontext(&here, &there);
    while (left < STACK && stack[left] == 0xA7) left++;
    return STACK - left;
}

static void measure_stack(void)
{
    struct maker m = {.bytes = file_bytes, .seed = 1907, .all_leaves = 1};
    size_t most = 0, own = stack_of(nothing_there);
    for (int kind = 0; kind < KINDS; kind++) {
        make_long_file(&m, kind, 1 << 17);
        measured = empty();
        measured_len = m.len;
        size_t used = stack_of(call_there) - own;
        if (used > most) most = used;
    }
    printf("stack: %zu bytes at most\n", most);
    if (most > PAG_TALLY_STACK_BYTES) fail("above PAG_TALLY_STACK_BYTES", "the stack");
}

int main(void)
{
    file_bytes = malloc(RANDOM_FILE_MAX);
    rows = malloc(4 * 5 * (size_t)RANDOM_FILE_MAX);
    painted = malloc(2 * (size_t)RANDOM_FILE_MAX);
    if (!file_bytes || !rows || !painted) return 2;
    worked();
    limits();
    longest();
    random_files();
    if (!getenv("CHECKED")) measure_stack();
    printf("%zu calls\n", calls);
    free(file_bytes), free(rows), free(painted);
    return 0;
}
