/* The time of the register task in cycles, and the slot that is cut from it on a core of 120 MHz. The task reads 16 registers of a card: it asks at most 8 times whether
 * a register is ready, and stores what has changed. Its graph is written as a case file, facts are found for the blocks of its loop, and it is written again with them.
 * README.md tells the numbers, and how to link it. */
#include <bolgverk.h>
#include <stdio.h>

enum { VERSION = 1, FIFO = 1, WAYS = 2, SETS = 4, NODES = 8, EDGES = 10, LOOPS = 2, BLOCKS = 5, LOOP_NODES = 6 };
enum { PENALTY = 20, CYCLES_A_MICROSECOND = 120 };

/* Node 0 begins; 1 takes the next register, 2 and 3 ask whether it is ready, 4 whether it has changed, 5 stores it, 6 counts; 7 ends. */
static const uint16_t nodes[NODES] = {16, 17, 18, 18, 19, 20, 21, 22};
static const uint16_t edges[2 * EDGES] = {0, 1, 1, 2, 2, 3, 3, 2, 3, 4, 4, 5, 4, 6, 5, 6, 6, 1, 6, 7};
static const uint32_t loops[3 * LOOPS] = {1, 6, 16, 2, 3, 8};
static const uint16_t blocks[BLOCKS] = {17, 18, 19, 20, 21};
/* Cycles of a visit where its fetch hits. */
static const uint32_t costs[NODES] = {12, 6, 4, 3, 5, 30, 4, 9};

static uint16_t heads[4 * BLOCKS], rows[8 * LOOP_NODES * BLOCKS];
static size_t facts;
static uint8_t file[1000];

/* The graph with the facts that have been found so far. */
static uint64_t write_file(void)
{
    uint64_t length = 0, place, second;
    if (bolgverk_write(VERSION, FIFO, WAYS, SETS, nodes, NODES, edges, 2 * EDGES, loops, 3 * LOOPS, heads, 4 * facts, rows, 8 * LOOP_NODES * facts, file,
                       sizeof file, &length, &place, &second))
        printf("write: refused\n");
    return length;
}

/* A fact for each block that has one in the outer loop. */
static void find_facts(uint64_t length)
{
    for (unsigned i = 0; i < BLOCKS; i++) {
        uint16_t limit = 0, *head = heads + 4 * facts;
        uint64_t place;
        uint8_t refused = bolgverk_find(file, length, 0, blocks[i], rows + 8 * LOOP_NODES * facts, 8 * LOOP_NODES, &limit, &place);
        if (refused || limit == 0)
            continue;
        head[0] = 0, head[1] = blocks[i], head[2] = limit, head[3] = LOOP_NODES;
        facts++;
    }
}

/* The slot is the next whole microsecond. What an interruption itself takes comes on top. */
static void cut_slot(uint64_t length, uint16_t interruptions)
{
    uint64_t numbers[BOLGVERK_NUMBERS], cycles, place, second;
    if (bolgverk_check(file, length, interruptions, numbers, BOLGVERK_NUMBERS, &place, &second) ||
        bolgverk_time(file, length, costs, NODES, PENALTY, interruptions, &cycles, &place, &second)) {
        printf("refused\n");
        return;
    }
    uint64_t slot = (cycles + CYCLES_A_MICROSECOND - 1) / CYCLES_A_MICROSECOND;
    printf("%u interruptions: %lu misses, %lu cycles, %lu microseconds\n", interruptions, numbers[0], cycles, slot);
}

int main(void)
{
    uint64_t cycles = 7, place, second;
    find_facts(write_file());
    uint64_t length = write_file();
    cut_slot(length, 0);
    cut_slot(length, 1);
    cut_slot(length, 4);
    uint8_t refused = bolgverk_time(file, length, costs, NODES - 1, PENALTY, 0, &cycles, &place, &second);
    printf("a cost too few: refused %u %lu %lu, cycles stays %lu\n", refused, place, second, cycles);
    return 0;
}
