/* Facts and their rows in plain C: rules 12 to 18, 24 and 25 of one fact. Rows are read straight from the file, and the edges of the fact's scope are gone through
 * once, in file order. For the check and the salvage. */
#pragma once
#include "plain_graph.h"

struct fact {
    unsigned first, last, block, limit, set;
    const uint8_t *rows;
};

static inline int is_scope(const struct graph *g, unsigned scope) { return scope < g->loops || scope == WHOLE; }

/* The head at `at`, whose scope is one. Says whether block and limit are in range. */
static inline int read_head(const struct graph *g, const uint8_t *at, struct fact *f)
{
    unsigned scope = u16_at(at);
    f->first = scope == WHOLE ? 0 : g->loop[scope].first;
    f->last = scope == WHOLE ? g->nodes - 1 : g->loop[scope].last;
    f->block = u16_at(at + 2), f->limit = u16_at(at + 4), f->rows = at + FACT_HEAD;
    f->set = f->block % g->sets;
    return f->block != NONE && f->limit >= 1 && f->limit <= g->ways;
}

static inline size_t rows_size(const struct fact *f) { return ROW * (f->last - f->first + 1); }

/* Rule 13. */
static inline int is_out_of_order(const struct fact *before, const struct fact *f)
{
    return f->block < before->block || (f->block == before->block && f->first <= before->last);
}

/* "at most l-1 blocks, strictly rising, each of b's set, none equal to b or none; free slots are 65,535" */
static inline int row_is_sound(const struct graph *g, const struct fact *f, const uint8_t *row)
{
    unsigned number = u16_at(row), held = number < MANY ? number : 0, j = 0;
    if (number > NOT_SINCE || (number < MANY && number >= f->limit))
        return 0;
    for (int before = -1; j < held; j++) {
        unsigned x = u16_at(row + 2 + 2 * j);
        if ((int)x <= before || x == NONE || x == f->block || x % g->sets != f->set)
            return 0;
        before = (int)x;
    }
    for (; j < SLOTS; j++)
        if (u16_at(row + 2 + 2 * j) != NONE)
            return 0;
    return 1;
}

static inline const uint8_t *row_of(const struct fact *f, unsigned node) { return f->rows + ROW * (node - f->first); }

/* Rule 16. The second place is the node. */
static inline unsigned check_rows(const struct graph *g, const struct fact *f, uint64_t *second)
{
    for (unsigned v = f->first; v <= f->last; v++)
        if (!row_is_sound(g, f, row_of(f, v))) {
            *second = v;
            return 16;
        }
    return 0;
}

/* Both rows are sets in rising order: row v holds row u's blocks, and x where it is one. */
static inline int row_holds(const uint8_t *u, const uint8_t *v, unsigned x)
{
    unsigned held = u16_at(u), room = u16_at(v), k = 0;
    int holds_x = x == NONE;
    for (unsigned j = 0; j < held; j++, k++) {
        unsigned want = u16_at(u + 2 + 2 * j);
        while (k < room && u16_at(v + 2 + 2 * k) < want)
            holds_x |= u16_at(v + 2 + 2 * k++) == x;
        if (k == room || u16_at(v + 2 + 2 * k) != want)
            return 0;
        holds_x |= want == x;
    }
    for (; !holds_x && k < room; k++)
        holds_x = u16_at(v + 2 + 2 * k) == x;
    return holds_x;
}

/* 0, or the number that the edge earns. */
static inline unsigned check_edge(const struct graph *g, const struct fact *f, unsigned u, const uint8_t *row_u, const uint8_t *row_v)
{
    unsigned block = block_at(g, u), number_u = u16_at(row_u), number_v = u16_at(row_v);
    if (block == f->block)
        return number_v == NOT_SINCE ? 24 : 0;
    if (number_u == NOT_SINCE || number_v == MANY)
        return 0;
    if (number_u == MANY)
        return 25;
    return number_v != NOT_SINCE && row_holds(row_u, row_v, block != NONE && block % g->sets == f->set ? block : NONE) ? 0 : 17;
}

/* Rules 17, 24 and 25: the least edge decides. The second place is the edge. */
static inline unsigned check_edges(const struct graph *g, const struct fact *f, uint64_t *second)
{
    for (unsigned i = first_edge(g, f->first); i < g->edges; i++) {
        unsigned u = edge_from(g, i), v = edge_to(g, i);
        if (u > f->last)
            break;
        unsigned number = v >= f->first && v <= f->last ? check_edge(g, f, u, row_of(f, u), row_of(f, v)) : 0;
        if (number != 0) {
            *second = i;
            return number;
        }
    }
    return 0;
}

/* Rule 18. The second place is the node. */
static inline unsigned check_fetches(const struct graph *g, const struct fact *f, uint64_t *second)
{
    for (unsigned v = f->first; v <= f->last; v++)
        if (block_at(g, v) == f->block && u16_at(row_of(f, v)) == MANY) {
            *second = v;
            return 18;
        }
    return 0;
}

/* Rules 16 to 18, 24 and 25 for a fact whose rows are all there. */
static inline unsigned check_evidence(const struct graph *g, const struct fact *f, uint64_t *second)
{
    unsigned number = check_rows(g, f, second);
    if (number == 0)
        number = check_edges(g, f, second);
    return number != 0 ? number : check_fetches(g, f, second);
}
