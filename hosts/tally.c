/*
 * tally FILE..: adds each file to one tally at level 1023, high first. One line a file, its fields parted by a tab: `accepted` and its length; `refused`, reason
 * and number; or `unread` and why. Then `header` and its count, and code and count for every count that is not zero. ./pag-tally shows this to people.
 */
#include "pag.h"

#include <errno.h>
#include <inttypes.h>
#include <stdio.h>
#include <stdlib.h>
#include <string.h>

enum { CODES = 1024 };

/* A file of more bytes than the limit is read up to one byte more, which is enough to refuse it. */
static const char *read_file(const char *name, uint8_t *bytes, size_t *len)
{
    FILE *file = fopen(name, "rb");
    if (!file) return strerror(errno);
    errno = 0;
    *len = fread(bytes, 1, (size_t)PAG_FILE_MAX + 1, file);
    const char *why = ferror(file) ? strerror(errno) : NULL;
    fclose(file);
    return why;
}

static void print_added(pag_answer answer)
{
    if (answer.reason) printf("refused\t%" PRIu32 "\t%" PRIu64 "\n", answer.reason, answer.number);
    else printf("accepted\t%" PRIu64 "\n", answer.number);
}

int main(int argc, char **argv)
{
    static uint64_t counts[CODES], headers;
    uint8_t *bytes = malloc((size_t)PAG_FILE_MAX + 1);
    if (!bytes) return 2;
    for (int i = 1; i < argc; i++) {
        size_t len = 0;
        const char *why = read_file(argv[i], bytes, &len);
        if (why) printf("unread\t%s\n", why);
        else print_added(pag_tally(counts, &headers, PAG_LEVEL_MAX, PAG_HIGH_FIRST, bytes, len));
    }
    printf("header\t%" PRIu64 "\n", headers);
    for (int code = 0; code < CODES; code++)
        if (counts[code]) printf("%d\t%" PRIu64 "\n", code, counts[code]);
    free(bytes);
    return 0;
}
