/* The finder in plain C: the graph's rules in the paper's order, then passes over the edges of the scope until nothing changes. What a node's row has gathered
 * only grows: 9, then sets, and with as many blocks as there are ways "many" for good. */
#include "plain.h"
#include "plain_graph.h"

struct row {
    uint16_t number, slots[SLOTS];
};

struct find {
    struct graph g;
    unsigned first, last, block, set;
    struct row row[MOST_NODES];
};

/* Puts x into a set. */
static int insert(struct row *r, unsigned ways, uint16_t x)
{
    unsigned j = 0;
    while (j < r->number && r->slots[j] < x)
        j++;
    if (j < r->number && r->slots[j] == x)
        return 0;
    if (r->number + 1u == ways) {
        r->number = MANY;
        return 1;
    }
    for (unsigned k = r->number++; k > j; k--)
        r->slots[k] = r->slots[k - 1];
    r->slots[j] = x;
    return 1;
}

/* Puts in all that the edge from u hands on, where that is a set. */
static int hand_on(const struct find *f, const struct row *from, unsigned own, struct row *to)
{
    int grew = to->number == NOT_SINCE;
    if (grew)
        to->number = 0;
    if (own == f->block)
        return grew;
    for (unsigned j = 0; j < from->number && to->number < MANY; j++)
        grew |= insert(to, f->g.ways, from->slots[j]);
    if (own != NONE && own % f->g.sets == f->set && to->number < MANY)
        grew |= insert(to, f->g.ways, (uint16_t)own);
    return grew;
}

/* The edge rule, read from u to v. Says whether v's row grew. */
static int pass_edge(struct find *f, unsigned u, unsigned v)
{
    const struct row *from = &f->row[u];
    struct row *to = &f->row[v];
    unsigned own = block_at(&f->g, u);
    if (to->number == MANY || (own != f->block && from->number == NOT_SINCE))
        return 0;
    if (own == f->block || from->number < MANY)
        return hand_on(f, from, own, to);
    to->number = MANY;
    return 1;
}

static int pass_edges(struct find *f, unsigned start)
{
    int grew = 0;
    for (unsigned i = start; i < f->g.edges && edge_from(&f->g, i) <= f->last; i++) {
        unsigned v = edge_to(&f->g, i);
        if (v >= f->first && v <= f->last)
            grew |= pass_edge(f, edge_from(&f->g, i), v);
    }
    return grew;
}

static void gather(struct find *f)
{
    unsigned start = first_edge(&f->g, f->first);
    for (unsigned v = f->first; v <= f->last; v++)
        f->row[v].number = NOT_SINCE;
    while (pass_edges(f, start))
        ;
}

/* One more than the most that is gathered where b is fetched; 0 where that is "many". */
static unsigned least_limit(const struct find *f)
{
    unsigned limit = 1;
    for (unsigned v = f->first; v <= f->last; v++) {
        unsigned number = f->row[v].number;
        if (block_at(&f->g, v) != f->block || number == NOT_SINCE)
            continue;
        if (number == MANY)
            return 0;
        limit = number < limit ? limit : number + 1;
    }
    return limit;
}

/* With as many blocks as the limit, or more, a row is "many". */
static void put_rows(const struct find *f, unsigned limit, uint16_t *rows)
{
    for (unsigned v = f->first; v <= f->last; v++, rows += SLOTS + 1) {
        const struct row *r = &f->row[v];
        unsigned number = r->number < MANY && r->number >= limit ? MANY : r->number, held = number < MANY ? number : 0;
        rows[0] = (uint16_t)number;
        for (unsigned j = 0; j < SLOTS; j++)
            rows[1 + j] = j < held ? r->slots[j] : NONE;
    }
}

/* Rules 12, 14 and 20. */
static unsigned read_question(struct find *f, unsigned scope, unsigned block, size_t room)
{
    unsigned fetches = 0;
    if ((scope >= f->g.loops && scope != WHOLE) || block == NONE)
        return 12;
    f->first = scope == WHOLE ? 0 : f->g.loop[scope].first;
    f->last = scope == WHOLE ? f->g.nodes - 1 : f->g.loop[scope].last;
    f->block = block, f->set = block % f->g.sets;
    for (unsigned v = f->first; v <= f->last; v++)
        fetches += block_at(&f->g, v) == block;
    return fetches == 0 ? 14 : room < (SLOTS + 1u) * (f->last - f->first + 1) ? 20 : 0;
}

uint8_t plain_find(const uint8_t *file, size_t file_length, uint16_t scope, uint16_t block, uint16_t *rows, size_t rows_length, uint16_t *limit,
                   uint64_t *place)
{
    struct find f;
    f.g.file = file;
    f.g.place = 0;
    unsigned number = read_trailer(&f.g, file_length);
    if (number == 0)
        number = check_graph(&f.g);
    if (number == 0)
        number = read_question(&f, scope, block, rows_length);
    if (number == 0) {
        gather(&f);
        *limit = (uint16_t)least_limit(&f);
        if (*limit != 0)
            put_rows(&f, *limit, rows);
    }
    *place = f.g.place;
    return (uint8_t)number;
}
