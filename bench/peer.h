/* The peer: PAG files read and written by plain C, with pag.h's calls under other names. It shares nothing with the library but its header. */
#ifndef PEER_H
#define PEER_H

#include "pag.h"

pag_answer peer_read(uint32_t level, uint32_t order, const uint8_t *file, size_t file_len, uint64_t *table, size_t table_len);
pag_answer peer_tags(uint32_t level, uint32_t order, const uint8_t *file, size_t file_len, uint32_t *tags, size_t tags_len);
pag_answer peer_write(uint32_t level, uint32_t order, const uint64_t *table, size_t table_len, uint8_t *out, size_t out_len);
pag_field peer_bits(uint32_t order, const uint8_t *file, size_t file_len, uint64_t place, uint32_t width, uint32_t is_signed);

#endif
