/* Writes a case file from lists and has it checked, without interruptions and with one: the file of examples/paper.case. Then the same lists with a row too few,
 * which the writer refuses.
 * README.md says how to link it. */
#include <bolgverk.h>
#include <stdio.h>

enum { NONE = 65535, VERSION = 1, FIFO = 1, WAYS = 2, SETS = 1, NODES = 4, EDGES = 4, LOOPS = 1, FACTS = 2, ROWS = 4 };

static const uint16_t nodes[NODES] = {NONE, 5, 6, NONE};
static const uint16_t edges[2 * EDGES] = {0, 1, 1, 2, 2, 1, 2, 3};
static const uint32_t loops[3 * LOOPS] = {1, 2, 10};
static const uint16_t rows[8 * ROWS] = {
    1, 6, NONE, NONE, NONE, NONE, NONE, NONE, 0, NONE, NONE, NONE, NONE, NONE, NONE, NONE, /* block 5: {6} before node 1, {} before node 2 */
    0, NONE, NONE, NONE, NONE, NONE, NONE, NONE, 1, 5, NONE, NONE, NONE, NONE, NONE, NONE, /* block 6: {} and {5} */
};

static uint8_t file[1000];

/* The facts by their heads: scope, block, age limit, and how many of the rows are the fact's. */
static uint64_t write_file(const uint16_t heads[4 * FACTS])
{
    uint64_t length = 0, place, second;
    uint8_t refused = bolgverk_write(VERSION, FIFO, WAYS, SETS, nodes, NODES, edges, 2 * EDGES, loops, 3 * LOOPS, heads, 4 * FACTS, rows, 8 * ROWS,
                                     file, sizeof file, &length, &place, &second);
    if (refused)
        printf("write: refused %u %lu %lu\n", refused, place, second);
    else
        printf("write: %lu bytes\n", length);
    return length;
}

int main(void)
{
    static const uint16_t whole[4 * FACTS] = {0, 5, 2, 2, 0, 6, 2, 2}, uneven[4 * FACTS] = {0, 5, 2, 3, 0, 6, 2, 1};
    uint64_t numbers[BOLGVERK_NUMBERS], place, second;
    uint64_t length = write_file(whole);
    for (uint16_t interruptions = 0; interruptions <= 1; interruptions++) {
        uint8_t refused = bolgverk_check(file, length, interruptions, numbers, BOLGVERK_NUMBERS, &place, &second);
        printf("check, %u interruptions: refused %u, total %lu\n", interruptions, refused, numbers[0]);
    }
    write_file(uneven);
    return 0;
}
