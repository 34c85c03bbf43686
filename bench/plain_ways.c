/* All ways in one pass, in plain C: eight lines a set, and how many accesses find their block in each line. */
#include "plain.h"
#include "cache.h"
#include <string.h>

/* The block comes to line 0 and each line one down, up to the one that it stood in: its number, 8 where it stood in none. */
static inline unsigned carry(uint16_t *lines, uint16_t block)
{
    uint16_t carried = block;
    for (unsigned j = 0; j < MOST_WAYS; j++) {
        uint16_t here = lines[j];
        lines[j] = carried;
        if (here == block)
            return j;
        carried = here;
    }
    return MOST_WAYS;
}

static uint8_t refuse(uint8_t number, uint64_t at, uint64_t *place)
{
    *place = at;
    return number;
}

uint8_t plain_all_ways(uint8_t sets, const uint16_t *blocks, size_t blocks_length, uint64_t counts[8], uint64_t *place)
{
    uint16_t lines[MOST_SETS][MOST_WAYS];
    uint64_t found[MOST_WAYS + 1] = {0}, left = blocks_length;
    if (sets < 1 || sets > MOST_SETS)
        return refuse(3, 0, place);
    for (size_t i = 0; i < blocks_length; i++)
        if (blocks[i] == NONE)
            return refuse(21, i, place);
    memset(lines, 255, sizeof lines);
    for (size_t i = 0; i < blocks_length; i++)
        found[carry(lines[blocks[i] % sets], blocks[i])]++;
    for (unsigned j = 0; j < MOST_WAYS; j++) {
        left -= found[j];
        counts[j] = left;
    }
    return refuse(0, 0, place);
}
