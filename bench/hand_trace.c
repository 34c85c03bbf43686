/* The trace run as fast as we could write it in C by hand, with vector instructions (SSSE3): all eight lines are compared at once, LRU moves lines by one shuffle, and no loop goes over
 * lines. The set of the last access is held in registers; the last shuffle of LRU is used again while blocks come from the same line. */
#include "cache.h"
#include "next_bits.h"
#include "plain.h"

typedef short lines __attribute__((vector_size(16)));
typedef char bytes __attribute__((vector_size(16)));
typedef long long words __attribute__((vector_size(16)));

#define HAND static inline __attribute__((always_inline, target("ssse3")))

HAND lines all(uint16_t x) { return (lines){} + (short)x; }

/* Bit j: line j holds the block. */
HAND unsigned where(lines row, uint16_t block)
{
    return (unsigned)__builtin_ia32_pmovmskb128(__builtin_ia32_packsswb128(row == all(block), (lines){}));
}

HAND lines down(lines row, uint16_t block)
{
    lines moved = __builtin_shufflevector(row, row, 0, 0, 1, 2, 3, 4, 5, 6);
    moved[0] = (short)block;
    return moved;
}

/* A block's set by two products. */
HAND unsigned home(uint16_t block, unsigned sets, uint32_t inverse)
{
    return (unsigned)(((uint64_t)(block * inverse) * sets) >> 32);
}

#define RUN(before, step)                                                        \
    lines rows[MOST_SETS], row = all(NONE), beyond = {};                         \
    uint8_t bits[MOST_SETS] = {0};                                               \
    unsigned last = 0, p = 0;                                                    \
    uint32_t inverse = (uint32_t)(((1ull << 32) + sets - 1) / sets);             \
    uint64_t misses = 0;                                                         \
    (void)p, (void)bits;                                                         \
    for (unsigned q = 0; q < MOST_SETS; q++)                                     \
        rows[q] = row;                                                           \
    for (unsigned j = ways; j < MOST_WAYS; j++)                                  \
        beyond[j] = -1;                                                          \
    before for (size_t i = 0; i < length; i++)                                   \
    {                                                                            \
        uint16_t b = blocks[i];                                                  \
        unsigned at = home(b, sets, inverse);                                    \
        if (at != last) {                                                        \
            rows[last] = row, row = rows[at];                                    \
            bits[last] = (uint8_t)p, p = bits[at];                               \
            last = at;                                                           \
        }                                                                        \
        unsigned found = where(row, b);                                          \
        step marks[i] = !found;                                                  \
        misses += !found;                                                        \
    }                                                                            \
    return misses;

#define ARGUMENTS unsigned ways, unsigned sets, const uint16_t *blocks, size_t length, uint8_t *marks

/* Lines 0 to j-1 go one down, the others stay; the block comes to line 0. A miss moves lines up to the last way. */
static __attribute__((target("ssse3"))) uint64_t lru(ARGUMENTS)
{
    RUN(unsigned kept = ~0u; bytes order = {};,
        if (found != kept) {
            unsigned j = (unsigned)__builtin_ctz(found | 1u << (ways - 1));
            for (unsigned n = 0; n < 8; n++) {
                unsigned from = n <= j ? n - (n > 0) : n;
                ((unsigned char *)&order)[2 * n] = (unsigned char)(2 * from);
                ((unsigned char *)&order)[2 * n + 1] = (unsigned char)(2 * from + 1);
            }
            kept = found;
        }
        row = (lines)__builtin_ia32_pshufb128((bytes)row, order);
        row[0] = (short)b;)
}

static __attribute__((target("ssse3"))) uint64_t fifo(ARGUMENTS)
{
    RUN(, if (!found) row = down(row, b) | beyond;)
}

/* In a run from empty sets with bits 0 the lowest line whose bit is 0 is the lowest empty one while there is one: the bits alone tell. */
static __attribute__((target("ssse3"))) uint64_t nmru(ARGUMENTS)
{
    const lines own = {1, 2, 4, 8, 16, 32, 64, 128};
    unsigned full = (1u << ways) - 1;
    RUN(,
        unsigned one = found;
        if (!found) {
            one = ~p & (p + 1);
            lines here = own == all((uint16_t)one);
            row = (row & ~here) | (all(b) & here);
        }
        if (ways == MOST_WAYS)
            p = next_bits[8 * p + (unsigned)__builtin_ctz(one)];
        else
            p = (p | one) == full ? one : p | one;)
}

/* The bits above each line, and what they are after an access to it. */
static __attribute__((target("ssse3"))) uint64_t tree(ARGUMENTS)
{
    const lines own = {1, 2, 4, 8, 16, 32, 64, 128};
    unsigned above[MOST_WAYS], away[MOST_WAYS];
    for (unsigned j = 0; j < ways; j++) {
        above[j] = away[j] = 0;
        for (unsigned i = ways - 1 + j; i > 0; i = (i - 1) / 2)
            above[j] |= 1u << (i - 1) / 2, away[j] |= (i & 1) << (i - 1) / 2;
    }
    RUN(,
        unsigned j;
        if (found) {
            j = (unsigned)__builtin_ctz(found);
        } else {
            unsigned n = 1 + (p & 1);
            if (ways > 2)
                n = 2 * n + 1 + (p >> n & 1);
            if (ways > 4)
                n = 2 * n + 1 + (p >> n & 1);
            j = n - (ways - 1);
            lines here = own == all((uint16_t)(1u << j));
            row = (row & ~here) | (all(b) & here);
        }
        p = (p & ~above[j]) | away[j];)
}

uint8_t hand_trace_run(uint8_t policy, uint8_t ways, uint8_t sets, const uint16_t *blocks, size_t blocks_length, uint8_t *marks,
                       size_t marks_length, uint64_t *misses, uint64_t *place)
{
    *place = 0;
    if (bad_cache(policy, ways, sets))
        return 3;
    if (marks_length < blocks_length)
        return 20;
    for (size_t i = 0; i < blocks_length; i++)
        if (blocks[i] == NONE)
            return *place = i, 21;
    *misses = (policy == LRU ? lru : policy == FIFO ? fifo : policy == NMRU ? nmru : tree)(ways, sets, blocks, blocks_length, marks);
    return 0;
}
