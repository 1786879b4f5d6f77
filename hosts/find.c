/*
 * find CODE FILE..: how many tags of each file have the code, and where each stands.
 * find CODE K FILE..: the place of the k-th of them, k from 0. (The second word is K where it is a number and a file follows.)
 * At level 1023, high first. Exits 1 where a file cannot be read or is refused, or has no k-th; 2 where it is called wrongly.
 */
#include "pag.h"

#include <inttypes.h>
#include <stdio.h>
#include <stdlib.h>
#include <string.h>

static const struct {
    uint32_t reason;
    const char *words;
    const char *number; /* what the number is, where it is something */
} WORDS[] = {
    {PAG_FEWER_THAN_9_BYTES, "fewer than 9 bytes", NULL},
    {PAG_SIGNATURE_WRONG, "the signature is wrong: it does not begin with PAG", NULL},
    {PAG_VERSION_NOT_1, "the version is not 1", NULL},
    {PAG_LENGTH_FIELD_WRONG, "the length field is wrong, or the file is over the limit of 16,777,216 bytes", NULL},
    {PAG_HEADER_CUT, "the end of its list's room cuts a tag header", "the header at place"},
    {PAG_LIST_WITHOUT_END, "a tag list ends without End", "the container at place, or the file's length:"},
    {PAG_BODY_LONGER_THAN_LIST, "a body is longer than the rest of its list", "the tag at place"},
    {PAG_END_WITH_A_BODY, "an End has a body", "the tag at place"},
    {PAG_BYTES_AFTER_END, "there are bytes after End", "the container at place, or the first such byte:"},
    {PAG_CONTAINER_AT_DEPTH_8, "a container stands at depth 8", "the tag at place"},
    {PAG_ITEM_PAST_THE_BODY, "an item runs past its body", "the tag at place"},
    {PAG_SPELLING, "a number is not spelled in the one way that is taken", "the tag at place"},
    {PAG_SKIPPED_BIT_NOT_ZERO, "a skipped bit is not zero", "the tag at place"},
    {PAG_UNLISTED_VALUE, "a value is not one of those listed", "the tag at place"},
    {PAG_COUNT_OUTSIDE_ITS_RANGE, "a count is outside its range", "the tag at place"},
    {PAG_BODY_NOT_USED_UP, "a body is not used up", "the tag at place"},
};

static int refuse(const char *path, pag_answer answer)
{
    for (size_t i = 0; i < sizeof WORDS / sizeof *WORDS; i++)
        if (WORDS[i].reason == answer.reason) {
            printf("%s: refused: %s", path, WORDS[i].words);
            if (WORDS[i].number) printf(" (%s %" PRIu64 ")", WORDS[i].number, answer.number);
            putchar('\n');
            return 1;
        }
    printf("%s: refused: reason %" PRIu32 ", number %" PRIu64 "\n", path, answer.reason, answer.number);
    return 1;
}

static void *get(size_t bytes)
{
    void *memory = malloc(bytes ? bytes : 1);
    if (!memory) {
        fputs("pag-find: no memory\n", stderr);
        exit(2);
    }
    return memory;
}

/* The file's bytes; one more than the limit is enough to know that it is over it. */
static uint8_t *load(const char *path, size_t *size)
{
    FILE *file = fopen(path, "rb");
    if (!file) return NULL;
    uint8_t *bytes = get(PAG_FILE_MAX + 1);
    *size = fread(bytes, 1, PAG_FILE_MAX + 1, file);
    int bad = ferror(file);
    fclose(file);
    if (!bad) return bytes;
    free(bytes);
    return NULL;
}

static const char *many(uint64_t count, const char *one, const char *more)
{
    return count == 1 ? one : more;
}

/* Each of them: the places stand in the index, from the code's start on. */
static int print_all(const char *path, uint32_t code, pag_answer count, const uint32_t *index)
{
    printf("%s: %" PRIu64 " %s code %" PRIu32 "\n", path, count.number, many(count.number, "tag has", "tags have"), code);
    for (uint64_t k = 0; k < count.number; k++) printf("%" PRIu64 "\t%" PRIu32 "\n", k, index[1024 + 2 * (index[code] + k) + 1]);
    return 0;
}

static int print_one(const char *path, uint32_t code, uint64_t k, pag_answer count, pag_answer place)
{
    if (place.reason) {
        printf("%s: refused: there is no tag %" PRIu64 " with code %" PRIu32 ", counted from 0: %" PRIu64 " %s it\n", path, k, code, count.number, many(count.number, "has", "have"));
        return 1;
    }
    printf("%s: tag %" PRIu64 " with code %" PRIu32 " stands at %" PRIu64 "\n", path, k, code, place.number);
    return 0;
}

static int find(const char *path, uint32_t code, const uint64_t *k)
{
    size_t size;
    uint8_t *file = load(path, &size);
    if (!file) {
        fprintf(stderr, "pag-find: %s: it cannot be read\n", path);
        return 1;
    }
    pag_answer needed = pag_tags(PAG_LEVEL_MAX, PAG_HIGH_FIRST, file, size, NULL, 0);
    size_t tags_len = needed.reason == PAG_TABLE_TOO_SHORT ? (size_t)needed.number : 0, index_len = 1024 + tags_len / 5 * 2;
    uint32_t *tags = get(tags_len * 4), *index = get(index_len * 4);
    pag_answer built = pag_index(PAG_LEVEL_MAX, PAG_HIGH_FIRST, file, size, tags, tags_len, index, index_len);
    int status;
    if (built.reason) {
        status = refuse(path, built);
    } else {
        pag_answer count = pag_count(tags, tags_len, index, index_len, code);
        status = k ? print_one(path, code, *k, count, pag_place(tags, tags_len, index, index_len, code, *k)) : print_all(path, code, count, index);
    }
    free(file);
    free(tags);
    free(index);
    return status;
}

/* A whole number of at most this; nothing else stands in the word. */
static int number(const char *word, uint64_t most, uint64_t *value)
{
    *value = 0;
    if (!*word) return 0;
    for (; *word; word++) {
        if (*word < '0' || *word > '9') return 0;
        if (*value > (most - (uint64_t)(*word - '0')) / 10) return 0;
        *value = *value * 10 + (uint64_t)(*word - '0');
    }
    return 1;
}

int main(int argc, char **argv)
{
    uint64_t code, k;
    if (argc < 3 || !number(argv[1], UINT32_MAX, &code)) {
        fputs("usage: pag-find CODE FILE...      how many tags have the code, and where each stands\n"
              "       pag-find CODE K FILE...    the place of the k-th of them, k from 0\n",
              stderr);
        return 2;
    }
    int at = 2, status = 0, one = argc > 3 && number(argv[2], UINT64_MAX, &k);
    for (at += one; at < argc; at++) status |= find(argv[at], (uint32_t)code, one ? &k : NULL);
    return status;
}
