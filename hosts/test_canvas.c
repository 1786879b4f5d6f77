/*
 * test_canvas [CASES]: compares pag_canvas with the answers of a file of cases, tests/canvases.txt if none is named: those derived by hand, or the reference's
 * for random files (tests/reference/check_canvases.py --random). Status 0: all are alike. The bytes lie right before a page that can't be read, and each call
 * runs on a painted stack, which it may use up to PAG_STACK_BYTES; with CHECKED in the environment on the program's own.
 */
#define _GNU_SOURCE
#include "pag.h"

#include <stdio.h>
#include <stdlib.h>
#include <string.h>
#include <sys/mman.h>
#include <ucontext.h>

/* A line of CASES: name | level | order | bytes | expected | .., where `x*n` is n times x. */
enum { NAME, LEVEL, ORDER, BYTES, EXPECTED, FIELDS, VALUES = 7, LINE = 1 << 20, STACK = 1 << 17, PAINT = 0xA5 };

struct asked {
    uint32_t level, order;
    const uint8_t *file;
    size_t len;
};

static uint8_t *input_end;
static uint8_t *bytes;
static struct asked asked;
static pag_canvas_answer answered;
static ucontext_t here, there;
static size_t most_stack;

static void stop(const char *name, const char *why)
{
    printf("canvas %s: %s\n", name, why);
    exit(1);
}

static uint8_t *pages(size_t size)
{
    void *memory = mmap(NULL, size, PROT_READ | PROT_WRITE, MAP_PRIVATE | MAP_ANONYMOUS, -1, 0);
    if (memory == MAP_FAILED) stop("memory", "there is none");
    return memory;
}

/* The end of memory that is followed by a page that can't be read. */
static uint8_t *fenced_end(size_t size)
{
    size_t whole = (size + 4095) / 4096 * 4096;
    uint8_t *memory = pages(whole + 4096);
    if (mprotect(memory + whole, 4096, PROT_NONE) != 0) stop("memory", "there is no fence");
    return memory + whole;
}

static void call_there(void)
{
    answered = pag_canvas(asked.level, asked.order, asked.file, asked.len);
}

/* The call on a painted stack: how much of it is changed, the few hundred bytes of the change of stacks among them. */
static size_t call_on_paint(void)
{
    static uint8_t stack[STACK];
    size_t left = 0;
    memset(stack, PAINT, STACK);
    getcontext(&there);
    there.uc_stack.ss_sp = stack;
    there.uc_stack.ss_size = STACK;
    there.uc_link = &here;
    makecontext(&there, call_there, 0);
    swapcontext(&here, &there);
    while (left < STACK && stack[left] == PAINT) left++;
    return STACK - left;
}

static pag_canvas_answer ask(uint32_t level, uint32_t order, size_t len)
{
    uint8_t *file = input_end - len;
    memcpy(file, bytes, len);
    asked = (struct asked){level, order, len ? file : NULL, len};
    memset(&answered, PAINT, sizeof answered);
    if (getenv("CHECKED")) {
        call_there();
        return answered;
    }
    size_t stack = call_on_paint();
    if (stack > most_stack) most_stack = stack;
    return answered;
}

/* The bytes of a field, with their repetitions; how many. */
static size_t bytes_of(const char *name, char *text)
{
    size_t count = 0;
    for (char *word = strtok(text, " "); word; word = strtok(NULL, " ")) {
        char *end;
        unsigned long byte = strtoul(word, &end, 16), times = *end == '*' ? strtoul(end + 1, &end, 10) : 1;
        if (*end || end == word || byte > 255 || times > PAG_FILE_MAX + 1 - count) stop(name, "these are no bytes, or too many");
        memset(bytes + count, (int)byte, times);
        count += times;
    }
    return count;
}

static uint64_t next_number(const char *name)
{
    char *word = strtok(NULL, " "), *end;
    if (!word) stop(name, "a number is missing");
    uint64_t number = strtoull(word, &end, 10);
    if (*end) stop(name, "not a number");
    return number;
}

/* `found`, headers and values; `none` and headers; or `refused`, headers, reason and number. */
static pag_canvas_answer expected_of(const char *name, char *text)
{
    pag_canvas_answer answer;
    memset(&answer, 0, sizeof answer);
    char *kind = strtok(text, " ");
    if (!kind) stop(name, "nothing is expected");
    answer.headers = next_number(name);
    answer.found = strcmp(kind, "found") == 0;
    for (int i = 0; answer.found && i < VALUES; i++) answer.values[i] = next_number(name);
    if (strcmp(kind, "refused") == 0) {
        answer.reason = (uint32_t)next_number(name);
        answer.number = next_number(name);
    } else if (!answer.found && strcmp(kind, "none") != 0) {
        stop(name, "neither found, none nor refused is expected");
    }
    if (strtok(NULL, " ")) stop(name, "more is expected than an answer has");
    return answer;
}

/* The first fields of a line; 0 for a line that is none. */
static int fields_of(char *line, char *field[FIELDS])
{
    if (line[0] == '#' || line[0] == '\n') return 0;
    for (int i = 0; i < FIELDS; i++) {
        char *end = strstr(line, " | ");
        if (!end) stop(line, "fields are missing");
        *end = 0;
        field[i] = line;
        line = end + 3;
    }
    return 1;
}

static int alike(const pag_canvas_answer *a, const pag_canvas_answer *b)
{
    return a->found == b->found && a->reason == b->reason && a->number == b->number && a->headers == b->headers &&
           memcmp(a->values, b->values, sizeof a->values) == 0;
}

static void try_case(char *field[FIELDS])
{
    size_t len = bytes_of(field[NAME], field[BYTES]);
    uint32_t level = (uint32_t)strtoul(field[LEVEL], NULL, 10), order = (uint32_t)strtoul(field[ORDER], NULL, 10);
    pag_canvas_answer expected = expected_of(field[NAME], field[EXPECTED]), got = ask(level, order, len);
    if (alike(&got, &expected)) return;
    printf("found %u, reason %u, number %llu, headers %llu\n", got.found, got.reason, (unsigned long long)got.number, (unsigned long long)got.headers);
    stop(field[NAME], "another answer is expected");
}

int main(int argc, char **argv)
{
    static char line[LINE];
    const char *path = argc == 2 ? argv[1] : "tests/canvases.txt";
    size_t tried = 0;
    FILE *file = argc > 2 ? NULL : fopen(path, "r");
    if (!file) stop(path, "cannot be read");
    bytes = pages(PAG_FILE_MAX + 1);
    input_end = fenced_end(PAG_FILE_MAX + 1);
    while (fgets(line, sizeof line, file)) {
        char *field[FIELDS];
        if (!strchr(line, '\n')) stop(path, "a line is too long");
        if (!fields_of(line, field)) continue;
        try_case(field);
        tried++;
    }
    fclose(file);
    if (tried == 0) stop(path, "has no cases");
    if (most_stack > PAG_STACK_BYTES) stop("stack", "it is above PAG_STACK_BYTES");
    printf("%zu canvas cases, stack: %zu bytes at most\n", tried, most_stack);
    return 0;
}
