/* Facts for a graph that has none: the graph is written as a case file and checked, facts are found for the blocks of its loops, and it is written and checked again
 * with them. Two nested loops on a FIFO cache of two ways and four sets. README.md says how to link it. */
#include <bolgverk.h>
#include <stdio.h>

enum { NONE = 65535, VERSION = 1, FIFO = 1, WAYS = 2, SETS = 4, NODES = 8, EDGES = 9, LOOPS = 2, BLOCKS = 6 };

static const uint16_t nodes[NODES] = {NONE, 4, 8, 5, 9, 13, 7, 4};
static const uint16_t edges[2 * EDGES] = {0, 1, 1, 2, 2, 3, 3, 4, 4, 3, 4, 5, 5, 6, 6, 1, 6, 7};
static const uint32_t loops[3 * LOOPS] = {1, 6, 10, 3, 4, 5};
static const uint16_t blocks[BLOCKS] = {4, 5, 7, 8, 9, 13};

static uint16_t heads[4 * BLOCKS], rows[8 * NODES * BLOCKS];
static size_t facts, row_count;
static uint8_t file[2000];

/* The graph with the facts that have been found so far. */
static uint64_t write_file(void)
{
    uint64_t length = 0, place, second;
    uint8_t refused = bolgverk_write(VERSION, FIFO, WAYS, SETS, nodes, NODES, edges, 2 * EDGES, loops, 3 * LOOPS, heads, 4 * facts, rows, 8 * row_count,
                                     file, sizeof file, &length, &place, &second);
    printf("write: refused %u, %lu bytes, %lu facts\n", refused, length, facts);
    return length;
}

static void check_file(uint64_t length)
{
    uint64_t numbers[BOLGVERK_NUMBERS], place, second;
    uint8_t refused = bolgverk_check(file, length, 0, numbers, BOLGVERK_NUMBERS, &place, &second);
    printf("check: refused %u, total %lu, sets", refused, numbers[0]);
    for (unsigned q = 0; q < SETS; q++)
        printf(" %lu", numbers[1 + q]);
    printf(", facts");
    for (unsigned i = 0; i < facts; i++)
        printf(" %lu", numbers[65 + i]);
    printf("\n");
}

/* Says whether there is a fact. Its rows go behind those of the facts found so far, as the writer wants them. */
static int find_fact(uint64_t length, uint16_t loop, uint16_t block)
{
    uint16_t limit = 0, size = (uint16_t)(loops[3 * loop + 1] - loops[3 * loop] + 1);
    uint64_t place;
    uint8_t refused = bolgverk_find(file, length, loop, block, rows + 8 * row_count, 8u * size, &limit, &place);
    if (refused)
        printf("find: loop %u, block %u: refused %u %lu\n", loop, block, refused, place);
    else if (limit == 0)
        printf("find: loop %u, block %u: none\n", loop, block);
    else
        printf("find: loop %u, block %u: age limit %u\n", loop, block, limit);
    if (refused || limit == 0)
        return 0;
    uint16_t *head = heads + 4 * facts++;
    head[0] = loop, head[1] = block, head[2] = limit, head[3] = size;
    row_count += size;
    return 1;
}

int main(void)
{
    uint64_t length = write_file();
    check_file(length);
    /* Facts come by block. Where the outer loop has one, none of the inner loop may follow; where it has none, the inner loop may have one. */
    for (unsigned i = 0; i < BLOCKS; i++)
        for (uint16_t loop = 0; loop < LOOPS && !find_fact(length, loop, blocks[i]); loop++)
            ;
    check_file(write_file());
    return 0;
}
