/* The time in plain C: the check, then the loops from the last to the first, each with the longest way over the times of the loops inside it, then the graph.
 * What is too large is held at the least number that is. */
#include "plain.h"
#include "plain_bounds.h"

static const uint64_t too_large = (uint64_t)1 << 63;

struct times {
    const struct graph *g;
    const uint32_t *costs;
    uint64_t loop[MOST_LOOPS];   /* for one entry */
    uint64_t before[MOST_NODES]; /* the longest way up to the step that begins at the node */
};

static uint64_t sum(uint64_t a, uint64_t b) { return a >= too_large - b ? too_large : a + b; }

static uint64_t product(uint64_t a, uint64_t b) { return b != 0 && a > too_large / b ? too_large : a * b; }

/* Hands the way on along the edges from the step's nodes, up to `last`, that go further ahead, and not past the range. The edges are gone through once. */
static unsigned hand_on(struct times *t, unsigned edge, unsigned step_last, unsigned last, uint64_t way)
{
    for (; edge < t->g->edges && edge_from(t->g, edge) <= step_last; edge++) {
        unsigned v = edge_to(t->g, edge);
        if (v > step_last && v <= last && t->before[v] < way)
            t->before[v] = way;
    }
    return edge;
}

/* The longest way from the first node to the last, each loop from number l on that is in between taken as one step. Every step is reached (rule 26). */
static uint64_t longest_way(struct times *t, unsigned first, unsigned last, unsigned l)
{
    const struct graph *g = t->g;
    uint64_t longest = 0;
    memset(t->before + first, 0, (last - first + 1) * sizeof t->before[0]);
    for (unsigned v = first, edge = first_edge(g, first), end; v <= last; v = end + 1) {
        int inner = l < g->loops && g->loop[l].first == v;
        uint64_t way = sum(t->before[v], inner ? t->loop[l] : t->costs[v]);
        end = inner ? g->loop[l].last : v;
        while (l < g->loops && g->loop[l].first <= end)
            l++;
        edge = hand_on(t, edge, end, last, way);
        longest = way > longest ? way : longest;
    }
    return longest;
}

static uint64_t graph_time(const struct graph *g, const uint32_t *costs)
{
    struct times t;
    t.g = g;
    t.costs = costs;
    for (unsigned l = g->loops; l-- > 0;)
        t.loop[l] = product(longest_way(&t, g->loop[l].first, g->loop[l].last, l + 1), u32_at(g->loops_at + g->loop_size * l + 4));
    return longest_way(&t, 0, g->nodes - 1, 0);
}

uint8_t plain_time(const uint8_t *file, size_t file_length, const uint32_t *costs, size_t costs_length, uint32_t penalty, uint16_t interruptions,
                   uint64_t *cycles, uint64_t *place, uint64_t *second)
{
    struct check c;
    unsigned number = check_file(&c, file, file_length, interruptions);
    *place = c.g.place;
    *second = c.second;
    if (number != 0)
        return (uint8_t)number;
    if (costs_length != c.g.nodes)
        return 20;
    uint64_t time = sum(graph_time(&c.g, costs), product(c.numbers[0], penalty));
    if (time == too_large)
        return 27;
    *cycles = time;
    return 0;
}
