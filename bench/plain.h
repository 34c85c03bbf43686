/* The plain C versions of the hot operations. Same parameters, refusals and lent memory as their namesakes in include/bolgverk.h. */
#pragma once
#include <stddef.h>
#include <stdint.h>

uint8_t plain_trace_run(uint8_t policy, uint8_t ways, uint8_t sets, const uint16_t *blocks, size_t blocks_length, uint8_t *marks,
                        size_t marks_length, uint64_t *misses, uint64_t *place);

/* The same by hand: bench/hand_trace.c. */
uint8_t hand_trace_run(uint8_t policy, uint8_t ways, uint8_t sets, const uint16_t *blocks, size_t blocks_length, uint8_t *marks,
                       size_t marks_length, uint64_t *misses, uint64_t *place);

uint8_t plain_step(uint8_t policy, uint8_t ways, uint16_t lines[8], uint8_t *bits, uint16_t block);

uint8_t plain_check(const uint8_t *file, size_t file_length, uint16_t interruptions, uint64_t *numbers, size_t numbers_length, uint64_t *place,
                    uint64_t *second);

uint8_t plain_write(uint8_t version, uint8_t policy, uint8_t ways, uint8_t sets, const uint16_t *nodes, size_t nodes_length,
                    const uint16_t *edges, size_t edges_length, const uint32_t *loops, size_t loops_length, const uint16_t *heads,
                    size_t heads_length, const uint16_t *rows, size_t rows_length, uint8_t *out, size_t out_length, uint64_t *length,
                    uint64_t *place, uint64_t *second);

uint8_t plain_find(const uint8_t *file, size_t file_length, uint16_t scope, uint16_t block, uint16_t *rows, size_t rows_length, uint16_t *limit,
                   uint64_t *place);

uint8_t plain_salvage(const uint8_t *file, size_t file_length, uint8_t *out, size_t out_length, uint64_t *dropped, size_t dropped_length,
                      uint64_t *length, uint64_t *count, uint64_t *place);

uint8_t plain_all_ways(uint8_t sets, const uint16_t *blocks, size_t blocks_length, uint64_t counts[8], uint64_t *place);
uint8_t plain_time(const uint8_t *file, size_t file_length, const uint32_t *costs, size_t costs_length, uint32_t penalty, uint16_t interruptions,
                   uint64_t *cycles, uint64_t *place, uint64_t *second);
