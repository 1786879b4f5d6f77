/*
 * measure FILE ORDER ROUNDS: times the library and the peer on a good file in a bit order in turns, best of ROUNDS, in processor time.
 * Prints a line for each call: its name, the file's bytes, and nanoseconds of the library and of the peer (0: not there).
 *
 * measure FILE ORDER CALL ours|peer: makes one call once, for an instruction counter, and prints the file's bytes. `canvas ours` is a call that the peer lacks.
 */
#define _GNU_SOURCE
#include "peer.h"

#include <inttypes.h>
#include <stdio.h>
#include <stdlib.h>
#include <string.h>
#include <time.h>

/* What all calls work on: a file, its two tables and its index with exact room, and the bytes written back. */
struct bench {
    uint32_t order;
    uint8_t *file;
    size_t len;
    uint64_t *table;
    size_t table_len;
    uint32_t *tags;
    size_t tags_len;
    uint32_t *index;
    size_t index_len;
    uint8_t *out;
};

typedef pag_answer timed(const struct bench *b);

static pag_answer our_read(const struct bench *b)
{
    return pag_read(PAG_LEVEL_MAX, b->order, b->file, b->len, b->table, b->table_len);
}

static pag_answer peers_read(const struct bench *b)
{
    return peer_read(PAG_LEVEL_MAX, b->order, b->file, b->len, b->table, b->table_len);
}

static pag_answer our_tags(const struct bench *b)
{
    return pag_tags(PAG_LEVEL_MAX, b->order, b->file, b->len, b->tags, b->tags_len);
}

static pag_answer peers_tags(const struct bench *b)
{
    return peer_tags(PAG_LEVEL_MAX, b->order, b->file, b->len, b->tags, b->tags_len);
}

/* The tag table and its index. The peer has none: it is compared with our_tags. */
static pag_answer our_index(const struct bench *b)
{
    return pag_index(PAG_LEVEL_MAX, b->order, b->file, b->len, b->tags, b->tags_len, b->index, b->index_len);
}

static pag_answer our_write(const struct bench *b)
{
    return pag_write(PAG_LEVEL_MAX, b->order, b->table, b->table_len, b->out, b->len);
}

static pag_answer peers_write(const struct bench *b)
{
    return peer_write(PAG_LEVEL_MAX, b->order, b->table, b->table_len, b->out, b->len);
}

/* The canvas size, which the peer has no call for: good where it is found. */
static pag_answer our_canvas(const struct bench *b)
{
    pag_canvas_answer answer = pag_canvas(PAG_LEVEL_MAX, b->order, b->file, b->len);
    return (pag_answer){answer.found ? PAG_ACCEPTED : PAG_LIST_WITHOUT_END, answer.headers};
}

struct pair {
    const char *name;
    timed *ours;
    timed *peer;
};

/* Reading comes before writing, so that the table is there. */
static const struct pair PAIRS[] = {
    {"read", our_read, peers_read},
    {"tags", our_tags, peers_tags},
    {"index", our_index, NULL},
    {"write", our_write, peers_write},
};
enum { PAIR_COUNT = sizeof PAIRS / sizeof *PAIRS };

static void stop(const char *why)
{
    fprintf(stderr, "measure: %s\n", why);
    exit(2);
}

/* Memory that has been touched, so that no call pays for its pages. */
static void *touched(size_t bytes)
{
    void *memory = malloc(bytes + 1);
    if (!memory) stop("no memory");
    return memset(memory, 1, bytes + 1);
}

static size_t room_of(pag_answer asked)
{
    if (asked.reason != PAG_TABLE_TOO_SHORT) stop("a generated file is refused");
    return (size_t)asked.number;
}

static struct bench load(const char *name, const char *order)
{
    struct bench b = {.order = (uint32_t)strtoul(order, NULL, 10), .file = touched(PAG_FILE_MAX)};
    FILE *in = fopen(name, "rb");
    if (!in) stop("the file can't be read");
    b.len = fread(b.file, 1, PAG_FILE_MAX, in);
    fclose(in);
    return b;
}

/* Exact rooms, touched before. */
static void lend(struct bench *b)
{
    b->table_len = room_of(peer_read(PAG_LEVEL_MAX, b->order, b->file, b->len, NULL, 0));
    b->tags_len = room_of(peer_tags(PAG_LEVEL_MAX, b->order, b->file, b->len, NULL, 0));
    b->table = touched(b->table_len * sizeof *b->table);
    b->tags = touched(b->tags_len * sizeof *b->tags);
    b->index_len = 1024 + b->tags_len / 5 * 2;
    b->index = touched(b->index_len * sizeof *b->index);
    b->out = touched(b->len);
}

static uint64_t nanoseconds(void)
{
    struct timespec now;
    clock_gettime(CLOCK_THREAD_CPUTIME_ID, &now);
    return (uint64_t)now.tv_sec * 1000000000u + (uint64_t)now.tv_nsec;
}

/* The time of one call, if it is less than the best so far. */
static uint64_t better(timed *call, const struct bench *b, uint64_t best)
{
    uint64_t start = nanoseconds();
    pag_answer answer = call(b);
    uint64_t time = nanoseconds() - start;
    if (answer.reason) stop("a call is refused");
    return time < best ? time : best;
}

static void compare(const struct pair *pair, const struct bench *b, long rounds)
{
    uint64_t ours = UINT64_MAX, peer = UINT64_MAX;
    for (long i = 0; i < rounds; i++) {
        if (pair->ours) ours = better(pair->ours, b, ours);
        if (pair->peer) peer = better(pair->peer, b, peer);
    }
    printf("%s %zu %" PRIu64 " %" PRIu64 "\n", pair->name, b->len, pair->ours ? ours : 0, pair->peer ? peer : 0);
}

/* Rooms by pag.h's bounds, so that nothing but the call has to look at the file; the system gives pages as they are touched. */
static void lend_bounds(struct bench *b)
{
    b->table_len = 8 * b->len;
    b->tags_len = 5 * b->len;
    b->index_len = 1024 + 2 * b->len;
    b->table = calloc(b->table_len, sizeof *b->table);
    b->tags = calloc(b->tags_len, sizeof *b->tags);
    b->index = calloc(b->index_len, sizeof *b->index);
    b->out = calloc(b->len, 1);
    if (!b->table || !b->tags || !b->index || !b->out) stop("no memory");
}

/* Does nothing: bench/counter.c counts the instructions between two calls of it. The asm keeps the compiler from leaving the calls out. */
void counted_border(void);
__attribute__((noinline)) void counted_border(void)
{
    __asm__ volatile("" ::: "memory");
}

/* On a stack at a page's start, wherever the environment's length put it: memset and its kin take other instructions at other places. */
static pag_answer counted(timed *call, const struct bench *b)
{
    _Alignas(4096) volatile char page_start = 0;
    (void)page_start;
    counted_border();
    pag_answer answer = call(b);
    counted_border();
    return answer;
}

/* The library's canvas size once: it is lent nothing. */
static void canvas_once(const struct bench *b)
{
    if (counted(our_canvas, b).reason) stop("the canvas size is not found");
    printf("%zu\n", b->len);
}

static void call_once(struct bench *b, const char *name, int ours)
{
    if (ours && strcmp(name, "canvas") == 0) canvas_once(b);
    for (int i = 0; i < PAIR_COUNT; i++) {
        timed *call = ours ? PAIRS[i].ours : PAIRS[i].peer;
        if (strcmp(name, PAIRS[i].name) != 0) continue;
        lend_bounds(b);
        if (PAIRS[i].peer == peers_write) b->table_len = (size_t)peers_read(b).number;
        if (!call || counted(call, b).reason) stop("the call is refused or not there");
        printf("%zu\n", b->len);
    }
}

int main(int argc, char **argv)
{
    if (argc != 4 && argc != 5) stop("usage: measure FILE ORDER ROUNDS, or measure FILE ORDER CALL ours|peer");
    struct bench b = load(argv[1], argv[2]);
    if (argc == 5) {
        call_once(&b, argv[3], strcmp(argv[4], "ours") == 0);
        return 0;
    }
    lend(&b);
    for (int i = 0; i < PAIR_COUNT; i++) compare(&PAIRS[i], &b, strtol(argv[3], NULL, 10));
    return 0;
}
