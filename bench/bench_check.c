/* One check of the case file on standard input: by plain C, by the proved library, or not at all, so that the cost of reading it can be taken off.
 * usage: bench_check none|plain|proved [INTERRUPTIONS] < FILE      prints the refusal's number and places, the total, and a sum over the 321 numbers
 * Without a number of interruptions it is 0. */
#include "plain.h"
#include "sum.h"
#include <bolgverk.h>
#include <stdio.h>
#include <stdlib.h>
#include <string.h>

static uint8_t file[5000000];

int main(int argc, char **argv)
{
    if (argc != 2 && argc != 3)
        return 2;
    uint64_t numbers[BOLGVERK_NUMBERS] = {0}, place = 0, second = 0;
    size_t length = fread(file, 1, sizeof file, stdin);
    uint16_t interruptions = (uint16_t)(argc == 3 ? atoi(argv[2]) : 0);
    uint8_t refused = 0;
    if (strcmp(argv[1], "plain") == 0)
        refused = plain_check(file, length, interruptions, numbers, BOLGVERK_NUMBERS, &place, &second);
    else if (strcmp(argv[1], "proved") == 0)
        refused = bolgverk_check(file, length, interruptions, numbers, BOLGVERK_NUMBERS, &place, &second);
    printf("%u %lu %lu %lu %016lx\n", refused, place, second, numbers[0], sum_of(numbers, sizeof numbers));
    return 0;
}
