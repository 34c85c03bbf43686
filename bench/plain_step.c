/* The single step in plain C, with the refusals 3, 22 and 21. */
#include "plain.h"
#include "plain_sets.h"
#include <string.h>

static int is_legal(unsigned policy, unsigned ways, const uint16_t *lines, uint8_t bits)
{
    for (unsigned i = 0; i < MOST_WAYS; i++)
        if (lines[i] != NONE && (i >= ways || line_of(lines, i, lines[i]) < i))
            return 0;
    return bits < (policy == NMRU ? (1u << ways) - 1 : policy == TREE ? 1u << (ways - 1) : 1u);
}

uint8_t plain_step(uint8_t policy, uint8_t ways, uint16_t lines[8], uint8_t *bits, uint16_t block)
{
    struct set_state set;
    uint8_t miss;
    if (bad_cache(policy, ways, 1))
        return 3;
    if (!is_legal(policy, ways, lines, *bits))
        return 22;
    if (block == NONE)
        return 21;
    memcpy(set.lines, lines, sizeof set.lines);
    set.bits = *bits;
    if (policy == LRU)
        miss = lru(&set, ways, block);
    else if (policy == FIFO)
        miss = fifo(&set, ways, block);
    else if (policy == NMRU)
        miss = nmru(&set, ways, block);
    else
        miss = tree(&set, ways, block);
    memcpy(lines, set.lines, sizeof set.lines);
    *bits = set.bits;
    return miss;
}
