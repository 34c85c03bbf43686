/* Runs a trace of addresses on a cache of two ways and one set, under each policy: as a whole, and access by access (the paper's checked number 7).
 * Prints M for a miss and h for a hit. Then a trace of no accesses, and a cache that there is not (number 8). README.md says how to link it. */
#include <bolgverk.h>
#include <stdio.h>

enum { ACCESSES = 12, WAYS = 2, SETS = 1, LINE_SIZE = 32, NONE = 65535 };

static void show(const char *name, uint8_t policy, const uint16_t *blocks)
{
    uint8_t marks[ACCESSES] = {0}, bits = 0;
    uint16_t lines[8] = {NONE, NONE, NONE, NONE, NONE, NONE, NONE, NONE};
    uint64_t misses = 0, place = 0;
    uint8_t refused = bolgverk_trace_run(policy, WAYS, SETS, blocks, ACCESSES, marks, ACCESSES, &misses, &place);
    printf("%s: refused %u, %lu misses ", name, refused, misses);
    for (unsigned i = 0; i < ACCESSES; i++)
        printf("%c", marks[i] ? 'M' : 'h');
    printf(", step by step ");
    for (unsigned i = 0; i < ACCESSES; i++)
        printf("%c", bolgverk_step(policy, WAYS, lines, &bits, blocks[i]) == BOLGVERK_HIT ? 'h' : 'M');
    printf(", then lines %u %u bits %u\n", lines[0], lines[1], bits);
}

int main(void)
{
    static const uint32_t addresses[ACCESSES] = {32, 64, 96, 100, 68, 128, 72, 160, 76, 192, 196, 80};
    uint16_t blocks[ACCESSES] = {0};
    uint8_t set = 0;
    for (unsigned i = 0; i < ACCESSES; i++)
        if (bolgverk_block_of(addresses[i], LINE_SIZE, &blocks[i]) != 0 || bolgverk_set_of(blocks[i], SETS, &set) != 0 || set != 0)
            return 1;
    show("LRU", 0, blocks);
    show("FIFO", 1, blocks);
    show("NMRU", 2, blocks);
    uint64_t misses = 0, place = 0;
    printf("no accesses: refused %u, ", bolgverk_trace_run(0, WAYS, SETS, blocks, 0, &set, 0, &misses, &place));
    printf("%lu misses\n", misses);
    printf("NMRU with one way: refused %u\n", bolgverk_trace_run(2, 1, SETS, blocks, 0, &set, 0, &misses, &place));
    return 0;
}
