/* What the plain C versions know of a cache: the policies, the limits and refusal 3. */
#pragma once

enum { LRU, FIFO, NMRU, TREE };
enum { NONE = 65535, MOST_WAYS = 8, MOST_SETS = 64 };

static inline int bad_ways(unsigned policy, unsigned ways)
{
    if (policy == TREE)
        return ways != 2 && ways != 4 && ways != 8;
    return ways < (policy == NMRU ? 2u : 1u) || ways > MOST_WAYS;
}

static inline int bad_cache(unsigned policy, unsigned ways, unsigned sets)
{
    return policy > TREE || bad_ways(policy, ways) || sets < 1 || sets > MOST_SETS;
}
