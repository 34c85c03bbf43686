/* Single steps from one state: by plain C, by the proved library, or not at all, so that the cost of the loop around them can be taken off.
 * usage: bench_step none|plain|proved POLICY WAYS hit|full|empty STEPS      prints what the steps return and a sum over the states they leave */
#include "cache.h"
#include "plain.h"
#include "sum.h"
#include <bolgverk.h>
#include <stdio.h>
#include <stdlib.h>
#include <string.h>

/* In the place of a step: nothing. */
static uint8_t no_step(uint8_t policy, uint8_t ways, uint16_t lines[8], uint8_t *bits, uint16_t block)
{
    (void)policy, (void)ways, (void)lines, (void)bits, (void)block;
    return 0;
}

/* NMRU: the lowest line whose bit is 0 is j. The tree: the bits above line j, number ways-1+j from the root, point to it. */
static uint8_t bits_for(unsigned policy, unsigned ways, unsigned j)
{
    unsigned bits = 0;
    for (unsigned i = ways - 1 + j; i > 0; i = (i - 1) / 2)
        bits |= (i % 2 == 0 ? 1u : 0u) << (i - 1) / 2;
    return (uint8_t)(policy == NMRU ? (1u << j) - 1 : policy == TREE ? bits : 0);
}

int main(int argc, char **argv)
{
    if (argc != 6)
        return 2;
    uint8_t (*volatile step)(uint8_t, uint8_t, uint16_t[8], uint8_t *, uint16_t) = no_step;
    if (strcmp(argv[1], "plain") == 0)
        step = plain_step;
    else if (strcmp(argv[1], "proved") == 0)
        step = bolgverk_step;
    uint8_t policy = atoi(argv[2]), ways = atoi(argv[3]);
    int hit = strcmp(argv[4], "hit") == 0, empty = strcmp(argv[4], "empty") == 0;
    uint64_t steps = strtoul(argv[5], NULL, 10), returned = 0, left = 0;
    for (uint64_t i = 0; i < steps; i++) {
        /* Blocks 1 to k stand in the lines. Line j, each of the k in turn, has the block of a hit; at a miss it is the one that the bits
         * choose, and with "empty" the only empty one. */
        uint16_t lines[MOST_WAYS];
        unsigned j = (unsigned)(i % ways);
        uint8_t bits = bits_for(policy, ways, j);
        for (unsigned n = 0; n < MOST_WAYS; n++)
            lines[n] = n < ways && !(empty && n == j) ? (uint16_t)(n + 1) : NONE;
        returned += step(policy, ways, lines, &bits, hit ? (uint16_t)(j + 1) : 100);
        left += bits + sum_of(lines, sizeof lines);
    }
    printf("%lu %016lx\n", returned, left);
    return 0;
}
