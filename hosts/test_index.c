/*
 * test_index --print: the indexes of the files on standard input.
 * test_index [--checked] [CASES]: an index of tags (C-14). Of every file of CASES (tests/cases.txt) that is read, at its level and in its order: the index is that of a
 * plain definition in C, both questions answer every code and k as a plain walk of the tag table does, and an index that is damaged in any number, too long
 * or too short is refused by 30. Rooms one too short are refused by 19 and 23 and change nothing. Then tag tables that no file has: none at all, four
 * numbers, a code of 1,024, and random ones. Refused files are refused with the reason and number that pag_tags gives.
 */
#define _GNU_SOURCE
#include "pag.h"

#include <stdio.h>
#include <stdlib.h>
#include <string.h>

enum { CODES = 1024, LONGEST_LINE = 1 << 20 };
enum damage { NONE, SOME, ALL };
static const uint32_t PAINT = 0xA5C3F00Du;

static size_t questions, refusals;

static void fail(const char *name, const char *why, uint64_t a, uint64_t b)
{
    printf("%s: %s (%llu, %llu)\n", name, why, (unsigned long long)a, (unsigned long long)b);
    exit(1);
}

static void *get(size_t bytes)
{
    void *memory = malloc(bytes ? bytes : 1);
    if (!memory) exit(2);
    return memory;
}

static void expect(const char *name, const char *what, pag_answer got, uint32_t reason, uint64_t number)
{
    questions++;
    refusals += got.reason != 0;
    if (got.reason != reason) fail(name, what, got.reason, reason);
    if (got.number != number) fail(name, what, got.number, number);
}

/* ------------------------------------------------------------ the plain walk */

static uint64_t walk_count(const uint32_t *tags, size_t n, uint32_t code)
{
    uint64_t count = 0;
    for (size_t t = 0; t < n; t++) count += tags[5 * t + 1] == code;
    return count;
}

/* The index, one code after the other. */
static void walk_index(const uint32_t *tags, size_t n, uint32_t *index)
{
    size_t at = CODES;
    for (uint32_t code = 0; code < CODES; code++) {
        uint32_t lower = 0;
        for (size_t t = 0; t < n; t++) lower += tags[5 * t + 1] < code;
        index[code] = lower;
        for (size_t t = 0; t < n; t++)
            if (tags[5 * t + 1] == code) {
                index[at++] = (uint32_t)t;
                index[at++] = tags[5 * t + 2];
            }
    }
}

/* ------------------------------------------------------------ questions */

static void ask_all(const char *name, const uint32_t *tags, size_t n, const uint32_t *index)
{
    static const uint32_t above[] = {1024, 1025, 65535, 65536, 1u << 31, UINT32_MAX};
    size_t len = CODES + 2 * n;
    for (uint32_t code = 0; code < CODES; code++) {
        uint64_t k = 0;
        expect(name, "count", pag_count(tags, 5 * n, index, len, code), 0, walk_count(tags, n, code));
        for (size_t t = 0; t < n; t++)
            if (tags[5 * t + 1] == code) expect(name, "place", pag_place(tags, 5 * n, index, len, code, k++), 0, tags[5 * t + 2]);
        expect(name, "place behind the last", pag_place(tags, 5 * n, index, len, code, k), PAG_K_NOT_BELOW_THE_COUNT, 0);
    }
    expect(name, "place far behind the last", pag_place(tags, 5 * n, index, len, 0, UINT64_MAX), PAG_K_NOT_BELOW_THE_COUNT, 0);
    expect(name, "place 2^32", pag_place(tags, 5 * n, index, len, 0, 1ull << 32), PAG_K_NOT_BELOW_THE_COUNT, 0);
    for (size_t i = 0; i < sizeof above / sizeof *above; i++) {
        expect(name, "count of a code above 1023", pag_count(tags, 5 * n, index, len, above[i]), 0, 0);
        expect(name, "place of a code above 1023", pag_place(tags, 5 * n, index, len, above[i], 0), PAG_K_NOT_BELOW_THE_COUNT, 0);
    }
}

static void expect_none(const char *name, const char *what, const uint32_t *tags, size_t tags_len, const uint32_t *index, size_t index_len, uint32_t code)
{
    expect(name, what, pag_count(tags, tags_len, index, index_len, code), PAG_NOT_THE_INDEX, 0);
    expect(name, what, pag_place(tags, tags_len, index, index_len, code, 0), PAG_NOT_THE_INDEX, 0);
    expect(name, what, pag_place(tags, tags_len, index, index_len, 5000, UINT64_MAX), PAG_NOT_THE_INDEX, 0); /* 30 before 22 */
}

/* Every number of the index is damaged in turn, or, for the sake of time, every pair and some of the starts. */
static void damage_all(const char *name, const uint32_t *tags, size_t n, const uint32_t *index, enum damage damage)
{
    size_t len = CODES + 2 * n, step = damage == ALL ? 1 : 97;
    uint32_t *other = get((len + 2) * 4);
    memcpy(other, index, len * 4);
    other[len] = other[len + 1] = 0;
    for (size_t i = 0; i < len; i += i < CODES && i + step < CODES ? step : 1) {
        const uint32_t wrong[] = {index[i] + 1, index[i] - 1, UINT32_MAX, index[i] ^ 0x80000000u};
        for (size_t j = 0; j < 4; j++) {
            if (wrong[j] == index[i]) continue;
            other[i] = wrong[j];
            expect_none(name, "a damaged number is taken", tags, 5 * n, other, len, i < CODES ? (uint32_t)i : tags[1]);
        }
        other[i] = index[i];
    }
    expect_none(name, "a longer index is taken", tags, 5 * n, other, len + 1, 0);
    expect_none(name, "an index with a pair more is taken", tags, 5 * n, other, len + 2, 0);
    expect_none(name, "a shorter index is taken", tags, 5 * n, other, len - 1, 0);
    expect_none(name, "starts alone are taken", tags, 5 * n, other, n ? CODES : CODES - 1, 0);
    expect_none(name, "no index is taken", tags, 5 * n, NULL, 0, 0);
    if (n > 1) { /* two pairs changed for one another */
        for (size_t i = 0; i < 2; i++) {
            other[CODES + i] = index[CODES + 2 + i];
            other[CODES + 2 + i] = index[CODES + i];
        }
        expect_none(name, "pairs out of order are taken", tags, 5 * n, other, len, 0);
        memcpy(other, index, len * 4);
        for (size_t i = 0; i < 2; i++) other[CODES + 2 + i] = index[CODES + i];
        expect_none(name, "a pair twice is taken", tags, 5 * n, other, len, 0);
    }
    free(other);
}

static void check_table(const char *name, const uint32_t *tags, size_t n, enum damage damage)
{
    uint32_t *index = get((CODES + 2 * n) * 4);
    walk_index(tags, n, index);
    ask_all(name, tags, n, index);
    if (damage) damage_all(name, tags, n, index, damage);
    free(index);
}

/* ------------------------------------------------------------ building */

static int all_painted(const uint32_t *memory, size_t from, size_t to)
{
    for (size_t i = from; i < to; i++)
        if (memory[i] != PAINT) return 0;
    return 1;
}

static void build(const char *name, uint32_t level, uint32_t order, const uint8_t *file, size_t size, size_t tags_len, size_t index_len, pag_answer expected, const uint32_t *table, const uint32_t *index)
{
    uint32_t *t = get((tags_len + 1) * 4), *x = get((index_len + 1) * 4);
    size_t used = expected.reason ? 0 : (size_t)expected.number, rows = expected.reason ? 0 : (used - CODES) / 2 * 5;
    for (size_t i = 0; i <= tags_len; i++) t[i] = PAINT;
    for (size_t i = 0; i <= index_len; i++) x[i] = PAINT;
    expect(name, "building", pag_index(level, order, file, size, t, tags_len, x, index_len), expected.reason, expected.number);
    if (memcmp(t, table, rows * 4)) fail(name, "another tag table", rows, tags_len);
    if (memcmp(x, index, used * 4)) fail(name, "another index", used, index_len);
    if (!all_painted(t, rows, tags_len + 1)) fail(name, "the tag table's memory changed", rows, tags_len);
    if (!all_painted(x, used, index_len + 1)) fail(name, "the index's memory changed", used, index_len);
    free(t);
    free(x);
}

static void check_file(const char *name, uint32_t level, uint32_t order, const uint8_t *file, size_t size, enum damage damage)
{
    pag_answer needed = pag_tags(level, order, file, size, NULL, 0);
    if (needed.reason != PAG_TABLE_TOO_SHORT) {
        build(name, level, order, file, size, 0, 0, needed, NULL, NULL);
        build(name, level, order, file, size, 10, 1030, needed, NULL, NULL);
        return;
    }
    size_t rows = (size_t)needed.number, n = rows / 5, len = CODES + 2 * n;
    uint32_t *table = get(rows * 4), *index = get(len * 4);
    pag_tags(level, order, file, size, table, rows);
    walk_index(table, n, index);
    pag_answer good = {0, len}, short_index = {PAG_INDEX_TOO_SHORT, 0};
    build(name, level, order, file, size, rows, len, good, table, index);
    build(name, level, order, file, size, rows + 7, len + 3, good, table, index);
    build(name, level, order, file, size, rows - 1, len, needed, table, index);
    build(name, level, order, file, size, rows - 1, len - 1, needed, table, index);
    build(name, level, order, file, size, 0, 0, needed, table, index);
    build(name, level, order, file, size, rows, len - 1, short_index, table, index);
    build(name, level, order, file, size, rows + 5, len - 2, short_index, table, index);
    build(name, level, order, file, size, rows, CODES - 1, short_index, table, index);
    build(name, level, order, file, size, rows, 0, short_index, table, index);
    check_table(name, table, n, damage);
    free(table);
    free(index);
}

/* ------------------------------------------------------------ the cases */

/* The bytes of a case's file: hexadecimal digits, `B*N` for N times B, blanks between them. Files of more than a line's length, those at the size limit, are
 * passed over: hosts/test has them. */
static size_t bytes_of(const char *text, uint8_t *out)
{
    size_t size = 0;
    unsigned byte;
    int used;
    while (sscanf(text, " %2x%n", &byte, &used) == 1) {
        unsigned long times = 1;
        char *behind;
        text += used;
        if (*text == '*') {
            times = strtoul(text + 1, &behind, 10);
            text = behind;
        }
        if (times > LONGEST_LINE - size) return (size_t)-1;
        memset(out + size, (int)byte, times);
        size += times;
    }
    return size;
}

static size_t run_cases(const char *path, int checked)
{
    FILE *cases = fopen(path, "r");
    char *line = get(LONGEST_LINE);
    uint8_t *file = get(LONGEST_LINE);
    size_t count = 0;
    if (!cases) exit(2);
    while (fgets(line, LONGEST_LINE, cases)) {
        char *field[4], *rest = line;
        int fields = 0;
        if (*line == '#') continue;
        while (fields < 4 && (field[fields] = strsep(&rest, "|"))) fields++;
        if (fields < 4) continue;
        size_t size = bytes_of(field[3], file);
        if (size == (size_t)-1) continue;
        field[0][strcspn(field[0], " ")] = 0;
        check_file(field[0], (uint32_t)strtoul(field[1], NULL, 10), (uint32_t)strtoul(field[2], NULL, 10), file, size, checked ? (count % 40 ? NONE : SOME) : count % 8 ? SOME : ALL);
        count++;
    }
    fclose(cases);
    free(line);
    free(file);
    return count;
}

/* ------------------------------------------------------------ tag tables that no file has */

static uint32_t next_random(void)
{
    static uint64_t state = 0x9E3779B97F4A7C15u;
    state = state * 6364136223846793005u + 1442695040888963407u;
    return (uint32_t)(state >> 33);
}

static void run_tables(int rounds)
{
    uint32_t zeros[CODES + 4] = {0};
    uint32_t four[] = {0, 0, 9, 2}, high[] = {0, 1024, 9, 2, 0}, last[] = {7, 1023, UINT32_MAX, 0, 5};
    ask_all("no tags", NULL, 0, zeros);
    damage_all("no tags", zeros, 0, zeros, ALL);
    expect_none("four numbers", "no whole tags are taken", four, 4, zeros, CODES, 0);
    expect_none("four numbers", "no whole tags are taken", four, 4, zeros, CODES + 2, 0);
    expect_none("a code of 1,024", "it is taken", high, 5, zeros, CODES, 1024);
    uint32_t pair[CODES + 2] = {0};
    pair[CODES + 1] = 9;
    expect_none("a code of 1,024", "it is taken with its pair", high, 5, pair, CODES + 2, 1024);
    check_table("a code of 1,023", last, 1, ALL);
    for (int round = 0; round < rounds; round++) {
        size_t n = next_random() % 30;
        uint32_t span = 1 + next_random() % (round % 2 ? 4 : CODES), *tags = get(5 * n * 4);
        for (size_t i = 0; i < 5 * n; i++) tags[i] = i % 5 == 1 ? next_random() % span : next_random();
        check_table("a random tag table", tags, n, round % 8 ? SOME : ALL);
        free(tags);
    }
}

/* Files that stand one after another on standard input, each behind its length: the answer and the index of each, a line each, for tests/reference/check_index.py. */
static int print_indexes(void)
{
    uint32_t size;
    while (fread(&size, 4, 1, stdin) == 1) {
        uint8_t *file = get(size);
        size_t rows = 5 * (size_t)size, len = CODES + 2 * (size_t)size;
        uint32_t *tags = get(rows * 4), *index = get(len * 4);
        if (fread(file, 1, size, stdin) != size) return 2;
        pag_answer built = pag_index(PAG_LEVEL_MAX, PAG_HIGH_FIRST, file, size, tags, rows, index, len);
        printf("%u %llu", (unsigned)built.reason, (unsigned long long)built.number);
        for (size_t i = 0; !built.reason && i < built.number; i++) printf(" %u", (unsigned)index[i]);
        putchar('\n');
        free(file);
        free(tags);
        free(index);
    }
    return 0;
}

int main(int argc, char **argv)
{
    if (argc == 2 && !strcmp(argv[1], "--print")) return print_indexes();
    int checked = getenv("CHECKED") != NULL;
    const char *path = "tests/cases.txt";
    for (int i = 1; i < argc; i++)
        if (strcmp(argv[i], "--checked")) path = argv[i];
        else checked = 1;
    size_t files = run_cases(path, checked);
    run_tables(checked ? 2 : 40);
    printf("%zu files, %zu answers, %zu of them refusals\n", files, questions, refusals);
    return files > 100 && refusals ? 0 : 1;
}
