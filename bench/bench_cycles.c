/* The time of the case file on standard input: by plain C, by the proved library, or not at all, so that the cost of reading it can be taken off.
 * usage: bench_cycles none|plain|proved [PENALTY [INTERRUPTIONS]] < FILE      prints the refusal's number and places, and the time
 * Node v costs 1 + v mod 7. Without a penalty it is 10, without a number of interruptions that is 0. */
#include "plain.h"
#include <bolgverk.h>
#include <stdio.h>
#include <stdlib.h>
#include <string.h>

static uint8_t file[5000000];
static uint32_t costs[65536];

/* How many nodes the trailer says there are. */
static size_t nodes_of(size_t length) { return length < 32 ? 0 : file[length - 16] | (size_t)file[length - 15] << 8; }

int main(int argc, char **argv)
{
    if (argc < 2 || argc > 4)
        return 2;
    uint64_t cycles = 0, place = 0, second = 0;
    size_t length = fread(file, 1, sizeof file, stdin), nodes = nodes_of(length);
    uint32_t penalty = (uint32_t)(argc > 2 ? strtoul(argv[2], NULL, 10) : 10);
    uint16_t interruptions = (uint16_t)(argc > 3 ? atoi(argv[3]) : 0);
    uint8_t refused = 0;
    for (size_t v = 0; v < nodes; v++)
        costs[v] = (uint32_t)(1 + v % 7);
    if (strcmp(argv[1], "plain") == 0)
        refused = plain_time(file, length, costs, nodes, penalty, interruptions, &cycles, &place, &second);
    else if (strcmp(argv[1], "proved") == 0)
        refused = bolgverk_time(file, length, costs, nodes, penalty, interruptions, &cycles, &place, &second);
    printf("%u %lu %lu %lu\n", refused, place, second, cycles);
    return 0;
}
