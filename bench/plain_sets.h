/* A set and its steps in plain C, with the representation of the proved code: a set is eight lines and one byte of bits, LRU and FIFO shift
 * lines, NMRU sets bits by shift and mask, and by a table of 2,048 entries for eight ways, the tree goes along the bits above a line. */
#pragma once
#include "cache.h"
#include "next_bits.h"
#include <stdint.h>

struct set_state {
    uint16_t lines[MOST_WAYS];
    uint8_t bits;
};

static inline unsigned line_of(const uint16_t *lines, unsigned ways, uint16_t block)
{
    unsigned j = 0;
    while (j < ways && lines[j] != block)
        j++;
    return j;
}

/* Each step returns 1 for a miss and 0 for a hit. LRU looks for the block and moves lines one down in one go. */
static inline uint8_t lru(struct set_state *set, unsigned ways, uint16_t block)
{
    uint16_t carried = block;
    for (unsigned j = 0; j < ways; j++) {
        uint16_t here = set->lines[j];
        set->lines[j] = carried;
        if (here == block)
            return 0;
        carried = here;
    }
    return 1;
}

static inline uint8_t fifo(struct set_state *set, unsigned ways, uint16_t block)
{
    if (line_of(set->lines, ways, block) < ways)
        return 0;
    for (unsigned j = ways - 1; j > 0; j--)
        set->lines[j] = set->lines[j - 1];
    set->lines[0] = block;
    return 1;
}

static inline uint8_t marked(uint8_t bits, unsigned ways, unsigned j)
{
    unsigned full = (1u << ways) - 1, one = 1u << j, now = bits | one;
    if (ways == MOST_WAYS)
        return next_bits[8 * bits + j];
    return now == full ? one : now;
}

static inline uint8_t nmru(struct set_state *set, unsigned ways, uint16_t block)
{
    unsigned j = line_of(set->lines, ways, block);
    uint8_t miss = j == ways;
    if (miss) {
        j = line_of(set->lines, ways, NONE);
        if (j == ways)
            j = (unsigned)__builtin_ctz(~(unsigned)set->bits);
        set->lines[j] = block;
    }
    set->bits = marked(set->bits, ways, j);
    return miss;
}

/* The tree's bits and lines are numbered on from the root: below bit i stand 2i+1 and 2i+2, and line j is number ways-1+j. */
static inline unsigned pointed_line(uint8_t bits, unsigned ways)
{
    unsigned i = 0;
    while (i < ways - 1)
        i = 2 * i + 1 + (bits >> i & 1);
    return i - (ways - 1);
}

/* Each bit above line j points away from it: to the upper half, 1, where the line is in the lower one, whose number is odd. */
static inline uint8_t turned(uint8_t bits, unsigned ways, unsigned j)
{
    unsigned now = bits;
    for (unsigned i = ways - 1 + j; i > 0; i = (i - 1) / 2) {
        unsigned one = 1u << (i - 1) / 2;
        now = i % 2 == 1 ? now | one : now & ~one;
    }
    return (uint8_t)now;
}

static inline uint8_t tree(struct set_state *set, unsigned ways, uint16_t block)
{
    unsigned j = line_of(set->lines, ways, block);
    uint8_t miss = j == ways;
    if (miss) {
        j = pointed_line(set->bits, ways);
        set->lines[j] = block;
    }
    set->bits = turned(set->bits, ways, j);
    return miss;
}
