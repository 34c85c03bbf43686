/* The salvage in plain C: the graph's rules in the paper's order, then each fact is judged once, behind the last one kept. Nothing is written before it is known that
 * all fits. */
#include "plain.h"
#include "plain_facts.h"

enum { FACTS_FIELD = 22 }; /* where the trailer has the number of facts */

/* What became of a fact: 0, or the number that it earns. */
struct verdict {
    unsigned number;
    uint64_t second;
    size_t at, size;
};

struct salvage {
    struct graph g;
    struct verdict verdict[MOST_FACTS];
    size_t kept_bytes;
    unsigned kept;
};

/* Rule 14. */
static int is_fetched(const struct graph *g, const struct fact *f)
{
    for (unsigned v = f->first; v <= f->last; v++)
        if (block_at(g, v) == f->block)
            return 1;
    return 0;
}

/* The first number that the fact at `at` earns, `before` being the last one kept. Its size is 0 where it is cut short: fewer than 6 bytes are left, its scope is none, or
 * its rows are not all there. */
static void judge(const struct graph *g, const struct fact *before, struct fact *f, struct verdict *v)
{
    size_t left = g->end - v->at;
    v->second = 0, v->size = 0;
    if (left < FACT_HEAD || !is_scope(g, u16_at(g->file + v->at))) {
        v->number = left < FACT_HEAD ? 11 : 12;
        return;
    }
    int in_range = read_head(g, g->file + v->at, f), whole = left - FACT_HEAD >= rows_size(f);
    v->size = whole ? FACT_HEAD + rows_size(f) : 0;
    v->number = !in_range ? 12 : before && is_out_of_order(before, f) ? 13 : !is_fetched(g, f) ? 14 : !whole ? 15 : 0;
    if (v->number == 0)
        v->number = check_evidence(g, f, &v->second);
}

/* "drops everything from a fact cut short onward": the facts after it get 11. */
static void judge_facts(struct salvage *s)
{
    struct fact facts[2];
    size_t at = (size_t)(s->g.facts_at - s->g.file);
    unsigned i = 0;
    for (int cut = 0; i < s->g.facts && !cut; i++) {
        struct verdict *v = &s->verdict[i];
        v->at = at;
        judge(&s->g, s->kept == 0 ? NULL : &facts[(s->kept + 1) % 2], &facts[s->kept % 2], v);
        at += v->size, cut = v->size == 0;
        if (v->number == 0)
            s->kept++, s->kept_bytes += v->size;
    }
    for (; i < s->g.facts; i++)
        s->verdict[i] = (struct verdict){.number = 11};
}

static size_t length_of(const struct salvage *s) { return (size_t)(s->g.facts_at - s->g.file) + s->kept_bytes + TRAILER; }

static void write_kept(const struct salvage *s, uint8_t *out)
{
    size_t at = (size_t)(s->g.facts_at - s->g.file);
    memcpy(out, s->g.file, at);
    for (unsigned i = 0; i < s->g.facts; i++)
        if (s->verdict[i].number == 0) {
            memcpy(out + at, s->g.file + s->verdict[i].at, s->verdict[i].size);
            at += s->verdict[i].size;
        }
    memcpy(out + at, s->g.file + s->g.end, TRAILER);
    out[at + FACTS_FIELD] = (uint8_t)s->kept, out[at + FACTS_FIELD + 1] = (uint8_t)(s->kept >> 8);
}

static void write_dropped(const struct salvage *s, uint64_t *dropped)
{
    for (unsigned i = 0; i < s->g.facts; i++)
        if (s->verdict[i].number != 0) {
            *dropped++ = s->verdict[i].number;
            *dropped++ = i;
            *dropped++ = s->verdict[i].second;
        }
}

uint8_t plain_salvage(const uint8_t *file, size_t file_length, uint8_t *out, size_t out_length, uint64_t *dropped, size_t dropped_length,
                      uint64_t *length, uint64_t *count, uint64_t *place)
{
    struct salvage s;
    s.g.file = file;
    s.g.place = 0;
    s.kept = 0, s.kept_bytes = 0;
    unsigned number = read_trailer(&s.g, file_length);
    if (number == 0)
        number = check_graph(&s.g);
    if (number == 0) {
        judge_facts(&s);
        number = out_length < length_of(&s) || dropped_length < 3 * (size_t)(s.g.facts - s.kept) ? 20 : 0;
    }
    if (number == 0) {
        write_kept(&s, out);
        write_dropped(&s, dropped);
        *length = length_of(&s);
        *count = s.g.facts - s.kept;
    }
    *place = s.g.place;
    return (uint8_t)number;
}
