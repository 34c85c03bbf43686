/* A whole check in plain C but its 20: the rules in the paper's order, each with its least places, then the 321 numbers. For the check and the time. */
#pragma once
#include "plain_facts.h"

enum { NUMBERS = 321, SETS_AT = 1, FACTS_AT = 65 };

/* What a fact is charged: the lesser of E + p and N, and N. */
struct charge {
    uint64_t entries, visits;
};

struct sums {
    uint64_t bounds;                  /* of the set's facts */
    uint64_t entries[MOST_WAYS + 1];  /* of its facts, by limit */
    uint64_t covered[MOST_WAYS + 1];  /* counts of its nodes, by the limit of the fact that covers them; 0 for none */
};

struct check {
    struct graph g;
    uint64_t interruptions;    /* p: at most so many */
    uint8_t limit[MOST_NODES]; /* of the fact that covers the node, 0 for none */
    struct sums sums[MOST_SETS];
    uint64_t numbers[NUMBERS];
    uint64_t second;
};

/* Rule 14, and N: how often the nodes of the scope that fetch b are visited. "Every fact's E becomes the lesser of E + p and N" */
static inline int find_charge(struct check *c, unsigned scope, const struct fact *f, struct charge *due)
{
    uint64_t entries = (scope == WHOLE ? 1 : c->g.loop[scope].entries) + c->interruptions;
    due->visits = 0;
    for (unsigned v = f->first; v <= f->last; v++)
        if (block_at(&c->g, v) == f->block) {
            due->visits += count_of(&c->g, v);
            c->limit[v] = f->limit;
        }
    due->entries = entries < due->visits ? entries : due->visits;
    return due->visits > 0;
}

/* Rules 11 to 18, 24 and 25 for the fact at *at, which moves past its rows. The number of the refusal, or 0. */
static inline unsigned check_fact(struct check *c, size_t *at, const struct fact *before, struct fact *f, struct charge *due)
{
    if (c->g.end - *at < FACT_HEAD)
        return 11;
    unsigned scope = u16_at(c->g.file + *at);
    if (!is_scope(&c->g, scope) || !read_head(&c->g, c->g.file + *at, f))
        return 12;
    if (before && is_out_of_order(before, f))
        return 13;
    if (!find_charge(c, scope, f, due))
        return 14;
    if (c->g.end - *at - FACT_HEAD < rows_size(f))
        return 15;
    *at += FACT_HEAD + rows_size(f);
    return check_evidence(&c->g, f, &c->second);
}

static inline uint64_t fact_bound(const struct check *c, unsigned limit, struct charge due)
{
    if (c->g.policy == LRU || limit == 1 || (c->g.policy == NMRU && limit == 2))
        return due.entries;
    if (c->g.policy == TREE)
        return limit <= 1u + (unsigned)__builtin_ctz(c->g.ways) ? due.entries : due.visits;
    if (c->g.policy == FIFO) {
        unsigned g = (c->g.ways + limit - 2) / (limit - 1);
        return due.entries + (due.visits - due.entries) / g;
    }
    uint64_t all = limit * due.entries;
    return due.visits < all ? due.visits : all;
}

/* Rules 11 to 19, 24 and 25, and what each fact adds to its set. */
static inline unsigned check_facts(struct check *c)
{
    size_t at = (size_t)(c->g.facts_at - c->g.file);
    struct fact facts[2];
    for (unsigned i = 0; i < c->g.facts; i++) {
        struct fact *f = &facts[i % 2];
        struct charge due;
        unsigned number = check_fact(c, &at, i == 0 ? NULL : &facts[(i + 1) % 2], f, &due);
        if (number != 0)
            return refuse(&c->g, number, i);
        uint64_t bound = fact_bound(c, f->limit, due);
        c->numbers[FACTS_AT + i] = bound;
        c->sums[f->set].bounds += bound;
        c->sums[f->set].entries[f->limit] += due.entries;
    }
    return at == c->g.end ? 0 : refuse(&c->g, 19, 0);
}

/* Two facts of one block have scopes apart, so at most one covers a node: c->limit has its limit. */
static inline void add_nodes(struct check *c)
{
    for (unsigned v = 0; v < c->g.nodes; v++)
        if (block_at(&c->g, v) != NONE)
            c->sums[block_at(&c->g, v) % c->g.sets].covered[c->limit[v]] += count_of(&c->g, v);
}

/* A, and for FIFO the least of A and floor(k M(l) / (k-l+1)): M(l) has the entries up to l, and every node covered above l or by none. */
static inline uint64_t set_bound(const struct check *c, const struct sums *s)
{
    uint64_t least = s->bounds + s->covered[0], m = 0;
    if (c->g.policy != FIFO)
        return least;
    for (unsigned l = 0; l <= c->g.ways; l++)
        m += s->covered[l];
    for (unsigned l = 1; l <= c->g.ways; l++) {
        m = m + s->entries[l] - s->covered[l];
        uint64_t bound = c->g.ways * m / (c->g.ways - l + 1);
        least = bound < least ? bound : least;
    }
    return least;
}

static inline void bound_sets(struct check *c)
{
    add_nodes(c);
    for (unsigned q = 0; q < c->g.sets; q++) {
        c->numbers[SETS_AT + q] = set_bound(c, &c->sums[q]);
        c->numbers[0] += c->numbers[SETS_AT + q];
    }
}

/* Rules 1 to 19 and 24 to 26, and where none is broken the numbers, for p interruptions at most. The number of the refusal, or 0. */
static inline unsigned check_file(struct check *c, const uint8_t *file, size_t file_length, uint16_t interruptions)
{
    memset(c, 0, sizeof *c);
    c->g.file = file;
    c->interruptions = interruptions;
    unsigned number = read_trailer(&c->g, file_length);
    if (number == 0)
        number = check_graph(&c->g);
    if (number == 0)
        number = check_facts(c);
    if (number == 0)
        bound_sets(c);
    return number;
}
