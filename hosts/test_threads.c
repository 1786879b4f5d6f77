/*
 * test_threads: calls every export from several threads at once, as pag.h allows it: what is read is shared by all threads, lent memory is its own for each. The
 * threads start together and go through the same files and tables, each from another one on; every answer and all lent memory must be what the peer
 * (bench/peer.c) gave before there was a second thread.
 *
 * CHECKED in the environment: for a run under a memory checker or a race detector, which is slow: fewer calls. PEER_ALONE: a build that calls the peer in the
 * library's place, to see what a race detector says of the threads themselves.
 */
#define _GNU_SOURCE
#include "files.h"
#include "peer.h"

#ifdef PEER_ALONE
#define pag_read peer_read
#define pag_tags peer_tags
#define pag_write peer_write
#define pag_bits peer_bits
#endif

#include <pthread.h>
#include <stdio.h>
#include <stdlib.h>
#include <string.h>

enum { THREADS = 8, JOBS = 48, STEPS = 150 * JOBS, CHECKED_STEPS = JOBS / 4, MOST_FILE = 1 << 11, MOST_NUMBERS = 8 * MOST_FILE, LENT = 0xA5, FIELDS = 16 };

/* One file, good or damaged, and what the peer made of it; its table, if it has one, is written. */
struct job {
    uint32_t level, order;
    size_t len, table_len;
    uint8_t file[MOST_FILE], out[MOST_FILE];
    uint64_t table[MOST_NUMBERS];
    uint32_t rows[5 * MOST_FILE];
    pag_answer read, tags, written;
};

/* What one thread lends. */
struct lent {
    uint64_t table[MOST_NUMBERS];
    uint32_t rows[5 * MOST_FILE];
    uint8_t out[MOST_FILE];
};

static struct job jobs[JOBS];
static size_t steps;
static pthread_barrier_t start;

static void *memory_for(size_t bytes)
{
    void *memory = malloc(bytes);
    if (memory) return memory;
    puts("no memory");
    exit(2);
}

/* A small random file; every third is damaged. Some are read at a level that hides tags, and with a room that is too short. */
static void make_job(struct maker *m, struct job *job, size_t i)
{
    m->low = (int)(i % 2);
    do make_random_file(m);
    while (m->len > MOST_FILE);
    *job = (struct job){.level = i % 5 ? PAG_LEVEL_MAX : 6, .order = (uint32_t)m->low, .len = m->len};
    memcpy(job->file, m->bytes, m->len);
    if (i % 3 == 2) job->file[random_below(m, job->len)] ^= (uint8_t)(1 + random_below(m, 255));
    memset(job->table, LENT, sizeof job->table);
    memset(job->rows, LENT, sizeof job->rows);
    memset(job->out, LENT, sizeof job->out);
    job->read = peer_read(job->level, job->order, job->file, job->len, job->table, MOST_NUMBERS);
    job->tags = peer_tags(job->level, job->order, job->file, job->len, job->rows, i % 7 ? 5 * MOST_FILE : 3);
    job->table_len = job->read.reason ? 5 : (size_t)job->read.number;
    job->written = peer_write(job->level, job->order, job->table, job->table_len, job->out, MOST_FILE);
}

static int same(pag_answer a, pag_answer b)
{
    return a.reason == b.reason && a.number == b.number;
}

static void check(int good, const char *call, size_t i)
{
    if (good) return;
    printf("%s of file %zu: another answer or other memory than the peer's\n", call, i);
    exit(1);
}

static void check_fields(const struct job *job, size_t i)
{
    for (uint32_t k = 0; k < FIELDS; k++) {
        uint64_t place = (i * 31 + k * 17) % (8 * job->len + 9);
        pag_field ours = pag_bits(job->order, job->file, job->len, place, 2 * k, k % 3);
        pag_field peer = peer_bits(job->order, job->file, job->len, place, 2 * k, k % 3);
        check(ours.reason == peer.reason && ours.value == peer.value && ours.place == peer.place, "pag_bits", i);
    }
}

static void check_job(struct lent *lent, size_t i)
{
    const struct job *job = &jobs[i];
    memset(lent, LENT, sizeof *lent);
    pag_answer read = pag_read(job->level, job->order, job->file, job->len, lent->table, MOST_NUMBERS);
    check(same(read, job->read) && memcmp(lent->table, job->table, sizeof job->table) == 0, "pag_read", i);
    pag_answer tags = pag_tags(job->level, job->order, job->file, job->len, lent->rows, i % 7 ? 5 * MOST_FILE : 3);
    check(same(tags, job->tags) && memcmp(lent->rows, job->rows, sizeof job->rows) == 0, "pag_tags", i);
    pag_answer written = pag_write(job->level, job->order, job->table, job->table_len, lent->out, MOST_FILE);
    check(same(written, job->written) && memcmp(lent->out, job->out, sizeof job->out) == 0, "pag_write", i);
    check_fields(job, i);
}

static void *thread(void *number)
{
    size_t first = *(const size_t *)number * (JOBS / THREADS);
    struct lent *lent = memory_for(sizeof *lent);
    pthread_barrier_wait(&start);
    for (size_t i = 0; i < steps; i++) check_job(lent, (first + i) % JOBS);
    free(lent);
    return NULL;
}

static void run_threads(void)
{
    pthread_t threads[THREADS];
    size_t numbers[THREADS];
    pthread_barrier_init(&start, NULL, THREADS);
    for (size_t i = 0; i < THREADS; i++) {
        numbers[i] = i;
        if (pthread_create(&threads[i], NULL, thread, &numbers[i])) exit(2);
    }
    for (size_t i = 0; i < THREADS; i++) pthread_join(threads[i], NULL);
    pthread_barrier_destroy(&start);
}

int main(void)
{
    struct maker m = {.bytes = memory_for(RANDOM_FILE_MAX), .seed = 20260103, .any_headers = 1};
    size_t refused = 0;
    steps = getenv("CHECKED") ? CHECKED_STEPS : STEPS;
    for (size_t i = 0; i < JOBS; i++) {
        make_job(&m, &jobs[i], i);
        refused += jobs[i].read.reason != 0;
    }
    free(m.bytes);
    check(refused > 0 && refused < JOBS, "a mix of good and damaged files", 0);
    run_threads();
    printf("%d threads, %zu calls, each as the peer's\n", THREADS, THREADS * steps * (3 + FIELDS));
    return 0;
}
