/* One trace run on made-up accesses: by plain C, by the proved library, or not at all, so that the cost of making the input can be taken off.
 * usage: bench_trace none|plain|proved POLICY WAYS SETS ACCESSES      prints the misses and a sum over the marks */
#include "plain.h"
#include "sum.h"
#include <bolgverk.h>
#include <stdio.h>
#include <stdlib.h>
#include <string.h>

/* Blocks drawn at random from one and a half times what the cache holds: some two thirds of the accesses hit. */
static void make_blocks(uint16_t *blocks, size_t accesses, unsigned held)
{
    uint32_t seed = 1;
    for (size_t i = 0; i < accesses; i++) {
        seed = seed * 1664525 + 1013904223;
        blocks[i] = (seed >> 16) % (held + held / 2);
    }
}

int main(int argc, char **argv)
{
    if (argc != 6)
        return 2;
    uint8_t policy = atoi(argv[2]), ways = atoi(argv[3]), sets = atoi(argv[4]);
    size_t accesses = strtoul(argv[5], NULL, 10);
    uint16_t *blocks = malloc(2 * accesses);
    uint8_t *marks = malloc(accesses), refused = 0;
    uint64_t misses = 0, place = 0;
    memset(marks, 0, accesses);
    make_blocks(blocks, accesses, ways * sets);
    if (strcmp(argv[1], "plain") == 0)
        refused = plain_trace_run(policy, ways, sets, blocks, accesses, marks, accesses, &misses, &place);
    else if (strcmp(argv[1], "proved") == 0)
        refused = bolgverk_trace_run(policy, ways, sets, blocks, accesses, marks, accesses, &misses, &place);
    printf("%u %lu %lu %016lx\n", refused, place, misses, sum_of(marks, accesses));
    return 0;
}
