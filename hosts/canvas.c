/*
 * canvas FILE..: the canvas size of each PAG file, a line each, read high first at level 1023; ./pag-canvas builds and runs it. Standard output gets the
 * answers, refusals among them; standard error what can't be read. Exit status: 0, or 1 if a file can't be read.
 */
#include "pag.h"

#include <inttypes.h>
#include <stdio.h>
#include <stdlib.h>
#include <string.h>

enum { WIDTH, HEIGHT, FRAMES, FRAME_RATE, RED, GREEN, BLUE };

/* Why a file is refused; NULL for a number that is no reason of pag_canvas. */
static const char *words_of(uint32_t reason)
{
    switch (reason) {
    case PAG_FEWER_THAN_9_BYTES: return "it has fewer than 9 bytes";
    case PAG_SIGNATURE_WRONG: return "its signature is wrong";
    case PAG_VERSION_NOT_1: return "its version is not 1";
    case PAG_LENGTH_FIELD_WRONG: return "its length field is wrong, or it is longer than 16,777,216 bytes";
    case PAG_HEADER_CUT: return "a tag header is cut by the end of its list";
    case PAG_LIST_WITHOUT_END: return "a tag list has no End";
    case PAG_BODY_LONGER_THAN_LIST: return "a tag's body is longer than the rest of its list";
    case PAG_END_WITH_A_BODY: return "an End has a body";
    case PAG_BYTES_AFTER_END: return "bytes follow the End of a list";
    case PAG_CONTAINER_AT_DEPTH_8: return "a container stands at depth 8";
    case PAG_ITEM_PAST_THE_BODY: return "an item runs past its tag's body";
    case PAG_SPELLING: return "a number is not spelt as it must be";
    case PAG_SKIPPED_BIT_NOT_ZERO: return "a skipped bit is not zero";
    case PAG_UNLISTED_VALUE: return "a value is not among those listed";
    case PAG_COUNT_OUTSIDE_ITS_RANGE: return "a count is outside its range";
    case PAG_BODY_NOT_USED_UP: return "a tag's body is not used up";
    default: return NULL;
    }
}

/* A 32-bit pattern as the float that it is. */
static double as_float(uint64_t pattern)
{
    uint32_t bits = (uint32_t)pattern;
    float number;
    memcpy(&number, &bits, sizeof number);
    return (double)number;
}

static void print_found(const uint64_t v[7])
{
    printf("width %" PRId64 ", height %" PRId64 ", frames %" PRIu64 ", frame rate %.9g (bits %" PRIu64 "), colour %" PRIu64 " %" PRIu64 " %" PRIu64, (int64_t)v[WIDTH],
           (int64_t)v[HEIGHT], v[FRAMES], as_float(v[FRAME_RATE]), v[FRAME_RATE], v[RED], v[GREEN], v[BLUE]);
}

static void print_refusal(const pag_canvas_answer *answer)
{
    const char *words = words_of(answer->reason);
    printf("refused: %s (reason %" PRIu32, words ? words : "of another reason", answer->reason);
    if (answer->reason >= PAG_HEADER_CUT) printf(", place %" PRIu64, answer->number);
    printf(")");
}

static void print_answer(const char *name, const pag_canvas_answer *answer)
{
    printf("%s: ", name);
    if (answer->found) print_found(answer->values);
    else if (answer->reason) print_refusal(answer);
    else printf("no canvas size: the file is good and has no CompositionAttributes");
    printf("; %" PRIu64 " tag header%s read\n", answer->headers, answer->headers == 1 ? "" : "s");
}

/* The whole file, or one byte more than the format allows, which is enough to have it refused; -1 if it can't be read. */
static long load(const char *name, uint8_t *bytes)
{
    FILE *in = fopen(name, "rb");
    size_t len = in ? fread(bytes, 1, PAG_FILE_MAX + 1, in) : 0;
    int failed = !in || ferror(in);
    if (failed) fprintf(stderr, "pag-canvas: "), perror(name);
    if (in) fclose(in);
    return failed ? -1 : (long)len;
}

int main(int argc, char **argv)
{
    int status = 0;
    uint8_t *bytes = malloc(PAG_FILE_MAX + 1);
    if (!bytes) return fputs("pag-canvas: no memory\n", stderr), 2;
    for (int i = 1; i < argc; i++) {
        long len = load(argv[i], bytes);
        if (len < 0) {
            status = 1;
            continue;
        }
        pag_canvas_answer answer = pag_canvas(PAG_LEVEL_MAX, PAG_HIGH_FIRST, bytes, (size_t)len);
        print_answer(argv[i], &answer);
    }
    free(bytes);
    return fflush(stdout) == 0 ? status : 2;
}
