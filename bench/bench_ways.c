/* All ways in one pass over made-up accesses: by plain C, by the proved library, or not at all, so that the cost of making the input can be taken off; and by eight proved trace runs.
 * usage: bench_ways none|plain|proved|runs SETS ACCESSES      prints the refusal, its place and the eight counts */
#include "plain.h"
#include <bolgverk.h>
#include <stdio.h>
#include <stdlib.h>
#include <string.h>

/* The blocks of bench_trace for eight ways: drawn at random from one and a half times what the cache holds. */
static void make_blocks(uint16_t *blocks, size_t accesses, unsigned held)
{
    uint32_t seed = 1;
    for (size_t i = 0; i < accesses; i++) {
        seed = seed * 1664525 + 1013904223;
        blocks[i] = (seed >> 16) % (held + held / 2);
    }
}

/* LRU is policy 0. A refusal is the same for each number of ways. */
static uint8_t eight_runs(uint8_t sets, const uint16_t *blocks, size_t accesses, uint64_t counts[8], uint64_t *place)
{
    uint8_t *marks = malloc(accesses), refused = 0;
    for (uint8_t ways = 1; ways <= 8; ways++)
        refused = bolgverk_trace_run(0, ways, sets, blocks, accesses, marks, accesses, &counts[ways - 1], place);
    return refused;
}

int main(int argc, char **argv)
{
    if (argc != 4)
        return 2;
    uint8_t sets = atoi(argv[2]), refused = 0;
    size_t accesses = strtoul(argv[3], NULL, 10);
    uint16_t *blocks = malloc(2 * accesses);
    uint64_t counts[8] = {0}, place = 0;
    make_blocks(blocks, accesses, sets > 0 ? 8 * sets : 8);
    if (strcmp(argv[1], "plain") == 0)
        refused = plain_all_ways(sets, blocks, accesses, counts, &place);
    else if (strcmp(argv[1], "proved") == 0)
        refused = bolgverk_all_ways(sets, blocks, accesses, counts, &place);
    else if (strcmp(argv[1], "runs") == 0)
        refused = eight_runs(sets, blocks, accesses, counts, &place);
    printf("%u %lu", refused, place);
    for (unsigned j = 0; j < 8; j++)
        printf(" %lu", counts[j]);
    printf("\n");
    return 0;
}
