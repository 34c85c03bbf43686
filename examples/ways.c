/* What LRU would miss with one way, two ways and so on up to eight: the trace of the paper's checked number 7, and a loop over 20 blocks in four sets.
 * Then what is refused; the counts stay as they were. README.md says how to link it. */
#include <bolgverk.h>
#include <stdio.h>

enum { NONE = 65535 };

static void show(const char *name, uint8_t sets, const uint16_t *blocks, size_t accesses)
{
    uint64_t counts[8] = {7, 7, 7, 7, 7, 7, 7, 7}, place = 0;
    uint8_t refused = bolgverk_all_ways(sets, blocks, accesses, counts, &place);
    printf("%s: refused %u %lu, misses", name, refused, place);
    for (unsigned j = 0; j < 8; j++)
        printf(" %lu", counts[j]);
    printf("\n");
}

int main(void)
{
    static const uint16_t figure[12] = {1, 2, 3, 3, 2, 4, 2, 5, 2, 6, 6, 2};
    static const uint16_t bad[3] = {1, 2, NONE};
    uint16_t loop[100];
    for (unsigned i = 0; i < 100; i++)
        loop[i] = i % 20;
    show("one set", 1, figure, 12);
    show("four sets", 4, loop, 100);
    show("no accesses", 64, figure, 0);
    show("no sets", 0, bad, 3);
    show("block 65535", 64, bad, 3);
    return 0;
}
