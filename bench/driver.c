/*
 * driver peer|ours: answers many calls in one run. Standard input is a row of requests, standard output the row of their answers, numbers in the
 * machine's byte order. bench/compare makes the one and judges the other.
 *
 *   request: operation (0 read, 1 tags, 2 write, 3 bits), level, order, a field's width, whether it is signed, 0: 32 bits each; a field's place, elements of
 *            input and of room: 64 bits each; the input
 *   answer:  reason: 32 bits, number: 64 bits; all lent memory, which was filled with the byte A5 before the call. Of a field the number is its value, and
 *            what follows its place
 */
#include "peer.h"

#include <stdio.h>
#include <stdlib.h>
#include <string.h>

enum operation { READ, TAGS, WRITE, BITS };

struct request {
    uint32_t operation;
    uint32_t level;
    uint32_t order;
    uint32_t width;
    uint32_t is_signed;
    uint32_t zero;
    uint64_t place;
    uint64_t input_len;
    uint64_t room_len;
};

static void *memory_of(size_t bytes)
{
    void *memory = malloc(bytes ? bytes : 1);
    if (!memory) exit(2);
    return memory;
}

/* A field as an answer, with its place where lent memory would be. */
static pag_answer field_answer(pag_field field, uint64_t *place)
{
    *place = field.place;
    return (pag_answer){field.reason, field.value};
}

static pag_answer ask_peer(const struct request *r, const void *input, void *room)
{
    if (r->operation == BITS) return field_answer(peer_bits(r->order, input, r->input_len, r->place, r->width, r->is_signed), room);
    if (r->operation == READ) return peer_read(r->level, r->order, input, r->input_len, room, r->room_len);
    if (r->operation == TAGS) return peer_tags(r->level, r->order, input, r->input_len, room, r->room_len);
    return peer_write(r->level, r->order, input, r->input_len, room, r->room_len);
}

static pag_answer ask_ours(const struct request *r, const void *input, void *room)
{
    if (r->operation == BITS) return field_answer(pag_bits(r->order, input, r->input_len, r->place, r->width, r->is_signed), room);
    if (r->operation == READ) return pag_read(r->level, r->order, input, r->input_len, room, r->room_len);
    if (r->operation == TAGS) return pag_tags(r->level, r->order, input, r->input_len, room, r->room_len);
    return pag_write(r->level, r->order, input, r->input_len, room, r->room_len);
}

static void answer(const struct request *r, int ours)
{
    static const size_t INPUT_SIZE[] = {1, 1, 8, 1}, ROOM_SIZE[] = {8, 4, 1, 8};
    size_t input_bytes = r->input_len * INPUT_SIZE[r->operation], room_bytes = r->room_len * ROOM_SIZE[r->operation];
    void *input = memory_of(input_bytes), *room = memory_of(room_bytes);
    if (fread(input, 1, input_bytes, stdin) != input_bytes) exit(2);
    memset(room, 0xA5, room_bytes);
    pag_answer got = ours ? ask_ours(r, input, room) : ask_peer(r, input, room);
    fwrite(&got.reason, sizeof got.reason, 1, stdout);
    fwrite(&got.number, sizeof got.number, 1, stdout);
    fwrite(room, 1, room_bytes, stdout);
    free(input);
    free(room);
}

int main(int argc, char **argv)
{
    struct request r;
    if (argc != 2) return 2;
    while (fread(&r, sizeof r, 1, stdin) == 1) {
        if (r.operation > BITS || (r.operation == BITS && r.room_len != 1)) return 2;
        answer(&r, strcmp(argv[1], "ours") == 0);
    }
    return fflush(stdout) == 0 ? 0 : 2;
}
