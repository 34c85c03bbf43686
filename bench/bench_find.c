/* One find in the case file on standard input: by plain C, by the proved library, or not at all, so that the cost of reading it can be taken off.
 * usage: bench_find none|plain|proved SCOPE BLOCK < FILE      prints the refusal's number and place, the limit, and a sum over the lent rows */
#include "plain.h"
#include "sum.h"
#include <bolgverk.h>
#include <stdio.h>
#include <stdlib.h>
#include <string.h>

static uint8_t file[5000000];
static uint16_t rows[8 * 1024 + 1];

int main(int argc, char **argv)
{
    if (argc != 4)
        return 2;
    uint64_t place = 0;
    size_t length = fread(file, 1, sizeof file, stdin), room = sizeof rows / sizeof rows[0];
    uint16_t scope = (uint16_t)atoi(argv[2]), block = (uint16_t)atoi(argv[3]), limit = 0;
    uint8_t refused = 0;
    if (strcmp(argv[1], "plain") == 0)
        refused = plain_find(file, length, scope, block, rows, room, &limit, &place);
    else if (strcmp(argv[1], "proved") == 0)
        refused = bolgverk_find(file, length, scope, block, rows, room, &limit, &place);
    printf("%u %lu %u %016lx\n", refused, place, limit, sum_of(rows, sizeof rows));
    return 0;
}
