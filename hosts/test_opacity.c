/*
 * test_opacity [CASES..]: calls pag_opacity with the bodies of CASES (without any, tests/opacities.txt), each against the expectation that stands there, and with
 * masks of the most keyframes, whose every frame is reckoned here. A body lies right before a page that cannot be read, and must not change.
 */
#define _GNU_SOURCE
#include "pag.h"

#include <stdio.h>
#include <stdlib.h>
#include <string.h>
#include <sys/mman.h>

enum { PAGE = 4096, LARGEST = 16 * PAGE, LINE = 1 << 19, FRAMES = 4096 };

static uint8_t *body_end;
static uint8_t bytes[LARGEST];
static size_t calls;

static void fail(const char *name, const char *why)
{
    printf("opacity %s: %s\n", name, why);
    exit(1);
}

/* One call, with the body before the fence. */
static pag_fraction ask(const char *name, uint32_t order, size_t len, uint64_t t)
{
    uint8_t *body = body_end - len;
    memcpy(body, bytes, len);
    pag_fraction got = pag_opacity(order, len ? body : NULL, len, t);
    if (memcmp(body, bytes, len)) fail(name, "the body changed");
    if (got.reason && (got.numerator || got.denominator)) fail(name, "a refusal has numbers");
    if (!got.reason && (!got.denominator || got.numerator / got.denominator > 255)) fail(name, "no fraction from 0 to 255");
    calls++;
    return got;
}

/* ------------------------------------------------------------ cases */

/* The text up to the next bar, without blanks around it; *rest is what follows. */
static char *field(char **rest)
{
    char *start = *rest, *bar = strchr(start, '|');
    *rest = bar ? bar + 1 : start + strlen(start);
    char *end = bar ? bar : *rest;
    while (*start == ' ') start++;
    while (end > start && (end[-1] == ' ' || end[-1] == '\n')) end--;
    *end = 0;
    return start;
}

/* Bytes as pairs of hex digits; B*N is N times B. */
static size_t bytes_of(const char *name, char *text)
{
    size_t len = 0;
    for (char *word = strtok(text, " "); word; word = strtok(NULL, " ")) {
        char *end;
        unsigned long value = strtoul(word, &end, 16), times = 1;
        if (*end == '*') times = strtoul(end + 1, &end, 10);
        if (*end || end == word || value > 255) fail(name, "its bytes are not understood");
        if (times > LARGEST - len) fail(name, "its body is too long for this test");
        memset(bytes + len, (int)value, times);
        len += times;
    }
    return len;
}

static void run_case(char *line)
{
    char *name = field(&line);
    uint32_t order = (uint32_t)strtoul(field(&line), NULL, 10);
    size_t len = bytes_of(name, field(&line));
    uint64_t t = strtoull(field(&line), NULL, 10);
    char kind[16];
    unsigned long long first, second;
    if (sscanf(field(&line), "%15s %llu %llu", kind, &first, &second) != 3) fail(name, "its expectation is not understood");
    int refused = !strcmp(kind, "refused");
    if (!refused && strcmp(kind, "fraction")) fail(name, "its expectation is not understood");
    pag_fraction got = ask(name, order, len, t);
    if (refused ? got.reason != first || second : got.reason || got.numerator != first || got.denominator != second) {
        printf("opacity %s: answered reason %u, %llu over %llu\n", name, (unsigned)got.reason, (unsigned long long)got.numerator, (unsigned long long)got.denominator);
        exit(1);
    }
}

static size_t run_cases(const char *path)
{
    static char line[LINE];
    FILE *file = fopen(path, "r");
    size_t count = 0;
    if (!file) fail(path, "can't be read");
    while (fgets(line, sizeof line, file)) {
        if (!strchr(line, '\n')) fail(path, "has a line that is too long");
        if (*line == '#' || *line == '\n') continue;
        run_case(line);
        count++;
    }
    fclose(file);
    if (!count) fail(path, "has no cases");
    return count;
}

/* ------------------------------------------------------------ the most keyframes */

static uint64_t time_of(size_t k) { return 5 + 3 * k + k % 2; }
static uint64_t value_of(size_t k) { return k * 37 % 256; }
static unsigned kind_of(size_t k) { return 1 + (unsigned)(k * k % 3); }

static size_t put_number(size_t len, uint64_t value)
{
    for (; value > 127; value /= 128) bytes[len++] = (uint8_t)(value % 128 + 128);
    bytes[len++] = (uint8_t)value;
    return len;
}

/* Lays width bits at a bit place, high first; the bytes are zero there. */
static size_t put_bits(size_t bit, uint64_t value, unsigned width)
{
    for (unsigned i = width; i-- > 0; bit++) bytes[bit / 8] |= (uint8_t)((value >> i & 1) << (7 - bit % 8));
    return bit;
}

/* A mask whose opacity has n keyframes, high first. */
static size_t make_mask(size_t n)
{
    size_t beziers = 0;
    memset(bytes, 0, sizeof bytes);
    bytes[0] = 0x18;
    size_t len = put_number(put_number(1, 9), n), bit = 8 * len;
    for (size_t k = 0; k < n; k++) {
        bit = put_bits(bit, kind_of(k), 2);
        beziers += kind_of(k) == 2;
    }
    len = (bit + 7) / 8;
    for (size_t k = 0; k <= n; k++) len = put_number(len, time_of(k));
    bit = put_bits(8 * len, 9, 5);
    for (size_t k = 0; k <= n; k++) bit = put_bits(bit, value_of(k), 10);
    bit = (bit + 7) / 8 * 8 + 5 + 4 * beziers;
    return (bit + 7) / 8;
}

static void check_frame(size_t n, size_t len, uint64_t t)
{
    uint64_t above = value_of(0), below = 1;
    uint32_t reason = 0;
    for (size_t k = 0; k < n; k++) {
        if (time_of(k + 1) <= t) above = value_of(k + 1);
        if (t < time_of(k) || t >= time_of(k + 1)) continue;
        reason = kind_of(k) == 2 ? PAG_FRAME_IN_BEZIER : 0;
        above = value_of(k);
        if (kind_of(k) != 1) break;
        below = time_of(k + 1) - time_of(k);
        above = value_of(k) * (time_of(k + 1) - t) + value_of(k + 1) * (t - time_of(k));
        break;
    }
    pag_fraction got = ask("of many keyframes", PAG_HIGH_FIRST, len, t);
    if (got.reason != reason) fail("of many keyframes", "another reason");
    if (!reason && (got.numerator != above || got.denominator != below)) fail("of many keyframes", "another fraction");
}

static void check_many(size_t n, uint64_t step)
{
    size_t len = make_mask(n);
    for (uint64_t t = 0; t < time_of(n) + 5; t += step) check_frame(n, len, t);
    if (ask("of many keyframes, cut", PAG_HIGH_FIRST, len - 1, 0).reason != PAG_ITEM_PAST_THE_BODY) fail("of many keyframes", "cut, and not refused by 13");
}

int main(int argc, char **argv)
{
    uint8_t *memory = mmap(NULL, LARGEST + PAGE, PROT_READ | PROT_WRITE, MAP_PRIVATE | MAP_ANONYMOUS, -1, 0);
    if (memory == MAP_FAILED || mprotect(memory + LARGEST, PAGE, PROT_NONE)) return 2;
    body_end = memory + LARGEST;
    size_t cases = 0;
    if (argc == 1) cases = run_cases("tests/opacities.txt");
    for (int i = 1; i < argc; i++) cases += run_cases(argv[i]);
    check_many(1, 1);
    check_many(17, 1);
    check_many(FRAMES, 41);
    printf("%zu cases, %zu calls\n", cases, calls);
    return 0;
}
