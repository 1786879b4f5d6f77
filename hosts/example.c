/*
 * example [--low] FILE: reads a PAG file, prints its listing, and writes it back and compares. --low: the file's bits are low first. Copy what you need.
 *
 * Exit status: 0, 1 if the file is refused, 2 if it can't be read or there is no memory, 3 if what was written back differs.
 */
#include "pag.h"

#include <inttypes.h>
#include <stdio.h>
#include <stdlib.h>
#include <string.h>

struct file {
    uint8_t *bytes;
    size_t len;
};

static void *memory_for(size_t count, size_t size)
{
    void *memory = calloc(count ? count : 1, size);
    if (memory) return memory;
    fputs("no memory\n", stderr);
    exit(2);
}

/* The whole file. One byte more than the format allows is enough to have it refused. */
static struct file load(const char *name)
{
    struct file file = {memory_for(PAG_FILE_MAX + 1, 1), 0};
    FILE *in = fopen(name, "rb");
    if (in) file.len = fread(file.bytes, 1, PAG_FILE_MAX + 1, in);
    if (!in || ferror(in)) {
        perror(name);
        exit(2);
    }
    fclose(in);
    return file;
}

/* A call without room tells how much is needed, or why the file is refused. */
static size_t room_or_exit(pag_answer asked)
{
    if (asked.reason == PAG_TABLE_TOO_SHORT) return (size_t)asked.number;
    printf("refused\t%" PRIu32 "\t%" PRIu64 "\n", asked.reason, asked.number);
    exit(1);
}

/* The body of an opaque tag, copied out of its values: its length, and then eight bytes to a number, the lowest first. */
static void copy_body(uint8_t *body, const uint64_t *values)
{
    for (uint64_t i = 0; i < values[0]; i++) body[i] = (uint8_t)(values[1 + i / 8] >> 8 * (i % 8));
}

/* Byte by byte. */
static void print_body(const uint64_t *values)
{
    uint8_t *body = memory_for((size_t)values[0], 1);
    copy_body(body, values);
    for (uint64_t i = 0; i < values[0]; i++) printf("\t%d", body[i]);
    free(body);
}

/* A record for each tag: the place of its numbers in the table follows from the counts before. A tag with an even state is opaque. */
static void list(const struct file *file, const uint64_t *table, const uint32_t *tags, size_t tags_len)
{
    const uint64_t *tag = table + 1;
    printf("PAG\t%d\t%zu\t%" PRIu64 "\n", file->bytes[3], file->len, table[0]);
    for (size_t i = 0; i < tags_len; i += 5) {
        const uint32_t *row = tags + i;
        const uint64_t *values = tag + 3;
        printf("%" PRIu32 "\t%" PRIu32 "\t%" PRIu32 "\t%" PRIu32, row[0], row[2], row[3], row[4]);
        printf("\t%" PRIu64 "\t%" PRIu64, tag[0], tag[1]);
        if (tag[1] % 2 == 0) print_body(values);
        else
            for (uint64_t j = 0; j < tag[2]; j++) printf("\t%" PRIu64, values[j]);
        putchar('\n');
        tag = values + tag[2];
    }
}

/* The table gives the file back, byte by byte. */
static int writes_back(const struct file *file, uint32_t order, const uint64_t *table, size_t table_len)
{
    uint8_t *out = memory_for(file->len, 1);
    pag_answer written = pag_write(PAG_LEVEL_MAX, order, table, table_len, out, file->len);
    int same = written.reason == PAG_ACCEPTED && written.number == file->len && memcmp(out, file->bytes, file->len) == 0;
    free(out);
    return same;
}

int main(int argc, char **argv)
{
    int low = argc == 3 && strcmp(argv[1], "--low") == 0;
    if (argc != 2 && !low) {
        fputs("usage: example [--low] FILE\n", stderr);
        return 2;
    }
    uint32_t order = low ? PAG_LOW_FIRST : PAG_HIGH_FIRST;
    struct file file = load(argv[argc - 1]);
    size_t table_len = room_or_exit(pag_read(PAG_LEVEL_MAX, order, file.bytes, file.len, NULL, 0));
    size_t tags_len = room_or_exit(pag_tags(PAG_LEVEL_MAX, order, file.bytes, file.len, NULL, 0));
    uint64_t *table = memory_for(table_len, sizeof *table);
    uint32_t *tags = memory_for(tags_len, sizeof *tags);
    pag_read(PAG_LEVEL_MAX, order, file.bytes, file.len, table, table_len);
    pag_tags(PAG_LEVEL_MAX, order, file.bytes, file.len, tags, tags_len);
    list(&file, table, tags, tags_len);
    int status = 0;
    if (!writes_back(&file, order, table, table_len)) {
        fputs("what was written back differs\n", stderr);
        status = 3;
    }
    free(table);
    free(tags);
    free(file.bytes);
    return status;
}
