/* A case file and its graph in plain C: rules 1 to 10 and 26 in the paper's order, each with its least place. For the check and the finder. */
#pragma once
#include "cache.h"
#include <stddef.h>
#include <stdint.h>
#include <string.h>

enum { WHOLE = 65535, MANY = 8, NOT_SINCE = 9 };
enum { MOST_NODES = 1024, MOST_EDGES = 4096, MOST_LOOPS = 64, MOST_FACTS = 256 };
enum { TRAILER = 32, FACT_HEAD = 6, ROW = 16, SLOTS = 7 };

static const uint64_t most_count = 4294967295;
static const uint32_t no_limit = 4294967295; /* W of a loop without one */

struct loop {
    unsigned first, last, outer; /* outer: the next loop out, or NONE */
    uint64_t entries, visits;    /* of its header, and so of a node whose innermost loop this is; anything above the most where that is too many */
};

struct graph {
    const uint8_t *file;
    size_t end; /* where the trailer starts */
    unsigned nodes, edges, loops, facts, policy, ways, sets, version, loop_size;
    const uint8_t *edges_at, *loops_at, *facts_at;
    struct loop loop[MOST_LOOPS];
    uint16_t innermost[MOST_NODES];
    uint64_t place; /* of a refusal */
};

static inline unsigned u16_at(const uint8_t *at) { return at[0] | at[1] << 8; }
static inline uint32_t u32_at(const uint8_t *at) { return u16_at(at) | (uint32_t)u16_at(at + 2) << 16; }
static inline unsigned block_at(const struct graph *g, unsigned node) { return u16_at(g->file + 2 * node); }
static inline unsigned edge_from(const struct graph *g, unsigned i) { return u16_at(g->edges_at + 4 * i); }
static inline unsigned edge_to(const struct graph *g, unsigned i) { return u16_at(g->edges_at + 4 * i + 2); }

static inline unsigned refuse(struct graph *g, unsigned number, uint64_t place)
{
    g->place = place;
    return number;
}

/* Rules 1 to 5. */
static inline unsigned read_trailer(struct graph *g, size_t length)
{
    if (length < TRAILER)
        return refuse(g, 1, 0);
    g->end = length - TRAILER;
    const uint8_t *t = g->file + g->end;
    g->policy = t[24], g->ways = t[25], g->sets = t[26], g->version = t[27], g->loop_size = g->version == 2 ? 12 : 8;
    if (memcmp(t + 28, "QMBT", 4) != 0 || g->version < 1 || g->version > 2)
        return refuse(g, 2, 0);
    if (bad_cache(g->policy, g->ways, g->sets))
        return refuse(g, 3, 0);
    g->nodes = u16_at(t + 16), g->edges = u16_at(t + 18), g->loops = u16_at(t + 20), g->facts = u16_at(t + 22);
    if (g->nodes < 1 || g->nodes > MOST_NODES || g->edges > MOST_EDGES || g->loops > MOST_LOOPS || g->facts > MOST_FACTS)
        return refuse(g, 4, 0);
    uint32_t edges_at = 2 * g->nodes, loops_at = edges_at + 4 * g->edges, facts_at = loops_at + g->loop_size * g->loops;
    if (u32_at(t) != 0 || u32_at(t + 4) != edges_at || u32_at(t + 8) != loops_at || u32_at(t + 12) != facts_at || facts_at > g->end)
        return refuse(g, 5, 0);
    g->edges_at = g->file + edges_at;
    g->loops_at = g->file + loops_at;
    g->facts_at = g->file + facts_at;
    return 0;
}

/* Rule 6. */
static inline unsigned check_order(struct graph *g)
{
    for (unsigned i = 0, before = 0; i < g->edges; i++) {
        unsigned from = edge_from(g, i), to = edge_to(g, i), edge = from << 16 | to;
        if (from >= g->nodes || to >= g->nodes || (i > 0 && edge <= before))
            return refuse(g, 6, i);
        before = edge;
    }
    return 0;
}

/* "A loop's header visits are the lesser of W and B times the header visits of the next loop out (1 outside all loops); its entries the lesser of W and that
 * outer number". Visits above the most are held one above it: W may bring them back further in. */
static inline void count_visits(struct graph *g, struct loop *l, uint32_t bound, uint32_t most)
{
    uint64_t outer = l->outer == NONE ? 1 : g->loop[l->outer].visits, all = outer * bound;
    l->entries = most != no_limit && most < outer ? most : outer;
    l->visits = most != no_limit && most < all ? most : all > most_count ? most_count + 1 : all;
}

/* Rule 7, and each loop's next loop out. An earlier loop that reaches this one's first node must hold the whole of it. */
static inline unsigned read_loops(struct graph *g)
{
    for (unsigned i = 0; i < g->loops; i++) {
        const uint8_t *at = g->loops_at + g->loop_size * i;
        struct loop *l = &g->loop[i];
        uint32_t bound = u32_at(at + 4), most = g->version == 2 ? u32_at(at + 8) : no_limit;
        l->first = u16_at(at), l->last = u16_at(at + 2), l->outer = i == 0 ? NONE : i - 1;
        if (l->first > l->last || l->last >= g->nodes || bound < 1 || bound > 1000000 || most < 1 || (i > 0 && l->first <= l[-1].first))
            return refuse(g, 7, i);
        while (l->outer != NONE && g->loop[l->outer].last < l->first)
            l->outer = g->loop[l->outer].outer;
        if (l->outer != NONE && g->loop[l->outer].last < l->last)
            return refuse(g, 7, i);
        count_visits(g, l, bound, most);
    }
    return 0;
}

static inline void find_innermost(struct graph *g)
{
    unsigned now = NONE, next = 0;
    for (unsigned v = 0; v < g->nodes; v++) {
        while (now != NONE && g->loop[now].last < v)
            now = g->loop[now].outer;
        if (next < g->loops && g->loop[next].first == v)
            now = next++;
        g->innermost[v] = now;
    }
}

/* Rule 8: of the loops around v that v is not the header of, the innermost holds u, and so do those around it. */
static inline unsigned check_entries(struct graph *g)
{
    for (unsigned i = 0; i < g->edges; i++) {
        unsigned u = edge_from(g, i), v = edge_to(g, i), l = g->innermost[v];
        if (u >= v || l == NONE)
            continue;
        if (g->loop[l].first == v)
            l = g->loop[l].outer;
        if (l != NONE && g->loop[l].first > u)
            return refuse(g, 8, i);
    }
    return 0;
}

/* Rule 9: the loop that v is the header of is the innermost around v. */
static inline unsigned check_returns(struct graph *g)
{
    for (unsigned i = 0; i < g->edges; i++) {
        unsigned u = edge_from(g, i), v = edge_to(g, i), l = g->innermost[v];
        if (u >= v && (l == NONE || g->loop[l].first != v || g->loop[l].last < u))
            return refuse(g, 9, i);
    }
    return 0;
}

/* Rule 26: forward edges alone lead to every node that is reached, by rules 8 and 9, and those to a node come before those that leave it. */
static inline unsigned check_reached(struct graph *g)
{
    uint8_t reached[MOST_NODES] = {1};
    for (unsigned i = 0; i < g->edges; i++)
        reached[edge_to(g, i)] |= reached[edge_from(g, i)];
    for (unsigned v = 0; v < g->nodes; v++)
        if (!reached[v])
            return refuse(g, 26, v);
    return 0;
}

static inline uint64_t count_of(const struct graph *g, unsigned node)
{
    unsigned l = g->innermost[node];
    return l == NONE ? 1 : g->loop[l].visits;
}

/* Rule 10. */
static inline unsigned check_counts(struct graph *g)
{
    for (unsigned v = 0; v < g->nodes; v++)
        if (count_of(g, v) > most_count)
            return refuse(g, 10, v);
    return 0;
}

/* Rules 6 to 10 and 26. */
static inline unsigned check_graph(struct graph *g)
{
    unsigned number = check_order(g);
    if (number == 0)
        number = read_loops(g);
    if (number != 0)
        return number;
    find_innermost(g);
    number = check_entries(g);
    if (number == 0)
        number = check_returns(g);
    if (number == 0)
        number = check_reached(g);
    return number != 0 ? number : check_counts(g);
}

/* The first edge from `node` or a later one: edges rise by from. */
static inline unsigned first_edge(const struct graph *g, unsigned node)
{
    unsigned low = 0, high = g->edges;
    while (low < high) {
        unsigned middle = (low + high) / 2;
        if (edge_from(g, middle) < node)
            low = middle + 1;
        else
            high = middle;
    }
    return low;
}
