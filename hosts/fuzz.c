/*
 * The fuzzer's target: what one input says is asked of the library and of the peer (bench/peer.c). Their answers and all lent memory, with guards around it, must
 * be the same; a refusal has changed nothing; and a table that was read is written as its file. hosts/fuzz builds and runs it, and makes the first inputs
 * (hosts/fuzz_seeds.py).
 *
 * An input: what is asked, level (16 bits, the low byte first), order, room, change (three bytes), and the rest: a file, the numbers of a table (a byte each; from F8 on
 * a byte that says how many follow, 1 to 8, the lowest first), or the bytes of a bit field. With KEEP_HEADER a file is taken as it stands; else its signature,
 * version and length field are put right, without which few inputs would pass reason 5.
 *
 * REPLAY: a main function that takes the names of inputs, for a build without the fuzzer.
 */
#define _GNU_SOURCE
#include "peer.h"

#include <stdio.h>
#include <stdlib.h>
#include <string.h>
#include <sys/mman.h>

enum { HEAD = 8, KEEP_HEADER = 0x80, MOST_INPUT = 1 << 16, MOST_NUMBERS = 8 * MOST_INPUT, GUARD = 64, LENT = 0xA5, PAGE = 4096 };
enum asked { A_FILE, A_TABLE, A_FIELD, ASKED };

struct how {
    uint32_t level, order;
    int8_t more; /* elements of room more than are needed, or fewer */
};

/* A call of the library and the same of the peer; sizes are those of an element of input and of room. */
struct call {
    const char *name;
    size_t input_size, room_size;
    pag_answer (*ours)(const struct how *how, const void *input, size_t input_len, void *room, size_t room_len);
    pag_answer (*peer)(const struct how *how, const void *input, size_t input_len, void *room, size_t room_len);
};

#define AS_CALL(name)                                                                                                            \
    static pag_answer as_##name(const struct how *how, const void *input, size_t input_len, void *room, size_t room_len)         \
    {                                                                                                                            \
        return name(how->level, how->order, input, input_len, room, room_len);                                                   \
    }
AS_CALL(pag_read)
AS_CALL(peer_read)
AS_CALL(pag_tags)
AS_CALL(peer_tags)
AS_CALL(pag_write)
AS_CALL(peer_write)

static const struct call READ = {"pag_read", 1, 8, as_pag_read, as_peer_read};
static const struct call TAGS = {"pag_tags", 1, 4, as_pag_tags, as_peer_tags};
static const struct call WRITE = {"pag_write", 8, 1, as_pag_write, as_peer_write};

/* Lent memory between guards, one for each side, and input that ends where a page begins that can't be read. */
enum { MOST_ROOM = 8 * (MOST_NUMBERS + INT8_MAX) };
static _Alignas(8) uint8_t our_block[GUARD + MOST_ROOM + GUARD], peer_block[GUARD + MOST_ROOM + GUARD];
static uint8_t *input_end;
static uint64_t numbers[MOST_NUMBERS];

static void check(int good, const char *why, const char *name, const struct how *how, size_t input_len, size_t room_len)
{
    if (good) return;
    fprintf(stderr, "%s: %s at level %u in order %u, input of %zu, room of %zu\n", why, name, (unsigned)how->level, (unsigned)how->order, input_len, room_len);
    abort();
}

static void make_fence(void)
{
    size_t whole = 8 * MOST_NUMBERS;
    uint8_t *memory = mmap(NULL, whole + PAGE, PROT_READ | PROT_WRITE, MAP_PRIVATE | MAP_ANONYMOUS, -1, 0);
    if (memory == MAP_FAILED || mprotect(memory + whole, PAGE, PROT_NONE)) exit(2);
    input_end = memory + whole;
}

static int is_lent(const uint8_t *memory, size_t bytes)
{
    for (size_t i = 0; i < bytes; i++)
        if (memory[i] != LENT) return 0;
    return 1;
}

static pag_answer call_with(const struct call *c, const struct how *how, const void *input, size_t input_len, size_t room_len)
{
    size_t bytes = room_len * c->room_size, block = GUARD + bytes + GUARD, input_bytes = input_len * c->input_size;
    uint8_t *given = input_end - input_bytes;
    memcpy(given, input, input_bytes);
    memset(our_block, LENT, block);
    memset(peer_block, LENT, block);
    pag_answer ours = c->ours(how, given, input_len, our_block + GUARD, room_len);
    pag_answer peer = c->peer(how, given, input_len, peer_block + GUARD, room_len);
    check(ours.reason == peer.reason && ours.number == peer.number, "another answer", c->name, how, input_len, room_len);
    check(memcmp(our_block, peer_block, block) == 0, "other memory", c->name, how, input_len, room_len);
    check(memcmp(given, input, input_bytes) == 0, "input changed", c->name, how, input_len, room_len);
    size_t kept = ours.reason ? 0 : (size_t)ours.number * c->room_size;
    check(kept <= bytes && is_lent(our_block + GUARD + kept, bytes - kept), "memory past the count changed", c->name, how, input_len, room_len);
    return ours;
}

/* A call without room for what it needs, and one with a little more or less. */
static pag_answer call(const struct call *c, const struct how *how, const void *input, size_t input_len)
{
    pag_answer asked = call_with(c, how, input, input_len, 0);
    int is_short = asked.reason == PAG_TABLE_TOO_SHORT || asked.reason == PAG_OUTPUT_TOO_SHORT;
    size_t needed = is_short ? (size_t)asked.number : 16;
    if (needed > MOST_ROOM / c->room_size - INT8_MAX) return asked;
    return call_with(c, how, input, input_len, how->more < 0 && needed < (size_t)-how->more ? 0 : needed + (size_t)how->more);
}

/* A table with one number changed, as three bytes of the input say. */
static void change(uint64_t *table, size_t count, const uint8_t *said)
{
    uint64_t *number = &table[(said[1] + 256u * said[2]) % count];
    if (said[0] < 64) *number += (uint64_t)said[0] - 32;
    else if (said[0] < 128) *number ^= (uint64_t)1 << (said[0] - 64);
    else *number = said[0] < 192 ? said[0] - 128u : (uint64_t)-1 >> (said[0] - 192);
}

static void ask_file(const struct how *how, const uint8_t *said, const uint8_t *file, size_t len)
{
    call(&TAGS, how, file, len);
    pag_answer read = call(&READ, how, file, len);
    if (read.reason) return;
    size_t count = (size_t)read.number;
    memcpy(numbers, our_block + GUARD, 8 * count);
    struct how exact = {how->level, how->order, 0};
    pag_answer written = call(&WRITE, &exact, numbers, count);
    check(!written.reason && written.number == len && memcmp(our_block + GUARD, file, len) == 0, "not written back", "pag_write", how, count, len);
    change(numbers, count, said);
    call(&WRITE, how, numbers, count);
}

static void ask_table(const struct how *how, const uint8_t *rest, size_t len)
{
    size_t count = 0;
    for (size_t i = 0; i < len; count++) {
        uint8_t first = rest[i++];
        numbers[count] = first < 0xF8 ? first : 0;
        if (first < 0xF8) continue;
        for (unsigned k = 0; k < first - 0xF7u && i < len; k++) numbers[count] |= (uint64_t)rest[i++] << 8 * k;
    }
    call(&WRITE, how, numbers, count);
}

static void ask_field(const struct how *how, const uint8_t *said, const uint8_t *bytes, size_t len)
{
    uint32_t width = said[0] % 40, is_signed = said[0] / 40;
    uint64_t place = said[2] < 0xF0 ? said[1] + 256u * said[2] : UINT64_MAX - said[1];
    uint8_t *given = input_end - len;
    memcpy(given, bytes, len);
    pag_field ours = pag_bits(how->order, given, len, place, width, is_signed), peer = peer_bits(how->order, given, len, place, width, is_signed);
    check(ours.reason == peer.reason && ours.value == peer.value && ours.place == peer.place, "another field", "pag_bits", how, len, width);
}

/* Levels from C000 on are above 1023, the last is the largest number; orders from F0 on are neither. */
static struct how how_of(const uint8_t *head)
{
    uint32_t level = head[1] + 256u * head[2];
    return (struct how){level < 0xC000 ? level % 1024 : level == 0xFFFF ? UINT32_MAX : level, head[3] < 0xF0 ? head[3] % 2 : head[3], (int8_t)head[4]};
}

int LLVMFuzzerTestOneInput(const uint8_t *input, size_t len);
int LLVMFuzzerTestOneInput(const uint8_t *input, size_t len)
{
    static uint8_t rest[MOST_INPUT];
    if (len < HEAD || len - HEAD > MOST_INPUT) return 0;
    if (!input_end) make_fence();
    struct how how = how_of(input);
    len -= HEAD;
    memcpy(rest, input + HEAD, len);
    switch ((enum asked)((input[0] & ~KEEP_HEADER) % ASKED)) {
    case A_TABLE: ask_table(&how, rest, len); break;
    case A_FIELD: ask_field(&how, input + 5, rest, len); break;
    default:
        if (!(input[0] & KEEP_HEADER) && len >= 8) memcpy(rest, (uint8_t[]){0x50, 0x41, 0x47, 1, (uint8_t)len, (uint8_t)(len >> 8), (uint8_t)(len >> 16), 0}, 8);
        ask_file(&how, input + 5, rest, len);
    }
    return 0;
}

#ifdef REPLAY
int main(int argc, char **argv)
{
    static uint8_t input[HEAD + MOST_INPUT + 1];
    for (int i = 1; i < argc; i++) {
        FILE *file = fopen(argv[i], "rb");
        if (!file) return 2;
        LLVMFuzzerTestOneInput(input, fread(input, 1, sizeof input, file));
        fclose(file);
    }
    return 0;
}
#endif
