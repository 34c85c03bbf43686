/* The trace run in plain C: 64 sets stand in an array. */
#include "plain.h"
#include "plain_sets.h"

/* The policy is chosen once a run, so the compiler makes one loop for each. */
#define RUN(step)                                                                \
    for (size_t i = 0; i < length; i++) {                                        \
        uint8_t miss = step(&set_states[blocks[i] % sets], ways, blocks[i]);     \
        marks[i] = miss;                                                         \
        misses += miss;                                                          \
    }

static uint64_t run(unsigned policy, unsigned ways, unsigned sets, const uint16_t *blocks, size_t length, uint8_t *marks)
{
    struct set_state set_states[MOST_SETS];
    uint64_t misses = 0;
    for (unsigned q = 0; q < sets; q++) {
        for (unsigned j = 0; j < MOST_WAYS; j++)
            set_states[q].lines[j] = NONE;
        set_states[q].bits = 0;
    }
    if (policy == LRU)
        RUN(lru)
    else if (policy == FIFO)
        RUN(fifo)
    else if (policy == NMRU)
        RUN(nmru)
    else
        RUN(tree)
    return misses;
}

static uint8_t refuse(uint8_t number, uint64_t at, uint64_t *place)
{
    *place = at;
    return number;
}

uint8_t plain_trace_run(uint8_t policy, uint8_t ways, uint8_t sets, const uint16_t *blocks, size_t blocks_length, uint8_t *marks,
                        size_t marks_length, uint64_t *misses, uint64_t *place)
{
    if (bad_cache(policy, ways, sets))
        return refuse(3, 0, place);
    if (marks_length < blocks_length)
        return refuse(20, 0, place);
    for (size_t i = 0; i < blocks_length; i++)
        if (blocks[i] == NONE)
            return refuse(21, i, place);
    *misses = run(policy, ways, sets, blocks, blocks_length, marks);
    return refuse(0, 0, place);
}
