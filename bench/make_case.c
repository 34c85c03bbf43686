/* Makes a sound case file for the benchmark: 1,024 nodes, 64 loops three deep, facts with the smallest rows that are evidence.
 * usage: make_case small|large|exact|deep POLICY [VERSION] > FILE      the version is 1, or 2 with W for three loops in four
 *   small   4,096 edges, and facts over loops, as many as fit in 65,536 bytes
 *   large   4,096 edges, and 256 facts over the whole graph: the largest file that can be accepted, 4,214,816 bytes, in version 2 4,215,072
 *   exact   facts over loops, and as many edges as make it 65,536 bytes to the byte
 *   deep    4,096 edges, loops eight deep, and no facts: they are to be found */
#include <stdint.h>
#include <stdio.h>
#include <stdlib.h>
#include <string.h>

enum { NODES = 1024, MOST_EDGES = 4096, LOOPS = 64, MOST_FACTS = 256, WAYS = 8, BYTES = 65536 };
enum { NONE = 65535, WHOLE = 65535, MANY = 8, NOT_SINCE = 9, TRAILER = 32, FACT_HEAD = 6, ROW = 16 };
enum { GROUP = 64, DEEP_GROUP = 128, DEPTH = 8 }; /* nodes of an outermost loop with its inner ones */

struct loop {
    unsigned first, last, bound;
};

struct row {
    unsigned number;
    uint16_t slots[WAYS]; /* one more than a row has, to find out that it is one too many */
};

struct fact {
    unsigned scope, block;
};

static unsigned version = 1, sets, edges;
static uint16_t block[NODES];
static struct loop loops[LOOPS];
static uint8_t has_edge[NODES][NODES];
static uint16_t edge[MOST_EDGES][2];
static struct row rows[NODES];
static struct fact facts[NODES];
static uint8_t out[5000000];
static size_t written;

static void put(uint32_t number, unsigned bytes)
{
    for (; bytes > 0; bytes--, number >>= 8)
        out[written++] = (uint8_t)number;
}

/* Straight code, some nodes of one block, some that fetch none, and four routines that are called from many places. */
static void make_nodes(unsigned nodes_a_block)
{
    for (unsigned v = 0; v < NODES; v++)
        block[v] = v % 16 == 15 ? NONE : v % 32 == 7 ? 2000 + v / 32 % 4 : v / nodes_a_block;
}

static void make_loops(void)
{
    static const struct loop group[4] = {{2, 61, 10}, {6, 45, 20}, {10, 21, 50}, {26, 41, 100}};
    for (unsigned j = 0; j < LOOPS; j++) {
        unsigned at = j / 4 * GROUP;
        loops[j] = (struct loop){at + group[j % 4].first, at + group[j % 4].last, group[j % 4].bound + j};
    }
}

/* Each holds the next one, with five nodes before it and five behind. */
static void make_deep_loops(void)
{
    for (unsigned j = 0; j < LOOPS; j++) {
        unsigned at = j / DEPTH * DEEP_GROUP, in = 2 + 5 * (j % DEPTH);
        loops[j] = (struct loop){at + in, at + DEEP_GROUP - 1 - in, 2 + j % DEPTH};
    }
}

static size_t loop_size(void) { return version == 2 ? 12 : 8; }

/* How often a walk may visit the loop's header in all: no limit, or one that is below B times the outer visits for some loops and above for others. */
static uint32_t visits(unsigned j) { return j % 4 == 0 ? 4294967295u : 20 * (j + 1) * (j % 4); }

static int inside(unsigned v, unsigned j) { return loops[j].first <= v && v <= loops[j].last; }

/* A forward edge enters loops only at their headers. */
static int may_go(unsigned u, unsigned v)
{
    for (unsigned j = 0; j < LOOPS; j++)
        if (inside(v, j) && !inside(u, j) && loops[j].first != v)
            return 0;
    return 1;
}

static void add_edge(unsigned u, unsigned v)
{
    if (edges < MOST_EDGES && v < NODES && !has_edge[u][v]) {
        has_edge[u][v] = 1;
        edges++;
    }
}

/* From each node to the next, from inside loops back to their headers (from an outermost loop's last eight nodes there is no way back:
 * rows 8 and 9 stand there), and then ever longer jumps ahead. */
static void make_edges(void)
{
    for (unsigned v = 0; v < NODES; v++)
        add_edge(v, v + 1);
    for (unsigned j = 0; j < LOOPS; j++)
        for (unsigned u = loops[j].first; u <= loops[j].last - (j % 4 == 0 ? 8 : 0); u += 5)
            add_edge(u, loops[j].first);
    for (unsigned far = 2; edges < MOST_EDGES; far++)
        for (unsigned u = 0; u + far < NODES; u++)
            if (may_go(u, u + far))
                add_edge(u, u + far);
}

/* The longest jumps go first: rows that are evidence stay evidence. */
static void drop_edges(unsigned excess)
{
    for (unsigned far = NODES - 1; far > 1; far--)
        for (unsigned u = 0; u + far < NODES && excess > 0; u++)
            if (has_edge[u][u + far]) {
                has_edge[u][u + far] = 0;
                excess--;
            }
}

static void list_edges(void)
{
    edges = 0;
    for (unsigned u = 0; u < NODES; u++)
        for (unsigned v = 0; v < NODES; v++)
            if (has_edge[u][v]) {
                edge[edges][0] = u;
                edge[edges++][1] = v;
            }
}

static struct loop range_of(unsigned scope) { return scope == WHOLE ? (struct loop){0, NODES - 1, 1} : loops[scope]; }

/* Puts x into a row; where that is one block too many, the row becomes MANY. */
static int insert(struct row *r, uint16_t x)
{
    unsigned j = 0;
    if (r->number == MANY)
        return 0;
    while (j < r->number && r->slots[j] < x)
        j++;
    if (j < r->number && r->slots[j] == x)
        return 0;
    for (unsigned k = r->number++; k > j; k--)
        r->slots[k] = r->slots[k - 1];
    r->slots[j] = x;
    return 1;
}

/* What the edge u to v adds to v's row. */
static int pass_on(unsigned b, unsigned u, unsigned v)
{
    int grew = 0;
    if (block[u] != b && rows[u].number == NOT_SINCE)
        return 0;
    if (rows[v].number == NOT_SINCE) {
        rows[v].number = 0;
        grew = 1;
    }
    if (block[u] == b)
        return grew;
    if (rows[u].number == MANY) {
        grew |= rows[v].number != MANY;
        rows[v].number = MANY;
        return grew;
    }
    for (unsigned j = 0; j < rows[u].number; j++)
        grew |= insert(&rows[v], rows[u].slots[j]);
    if (block[u] != NONE && block[u] % sets == b % sets)
        grew |= insert(&rows[v], block[u]);
    return grew;
}

/* The blocks gathered since b on all walks inside the scope. */
static void gather(struct fact f)
{
    struct loop scope = range_of(f.scope);
    for (unsigned v = 0; v < NODES; v++)
        rows[v].number = NOT_SINCE;
    for (int grew = 1; grew;) {
        grew = 0;
        for (unsigned i = 0; i < edges; i++) {
            unsigned u = edge[i][0], v = edge[i][1];
            if (scope.first <= u && u <= scope.last && scope.first <= v && v <= scope.last)
                grew |= pass_on(f.block, u, v);
        }
    }
}

/* The least age limit for which the gathered rows are evidence; above WAYS where there is none. */
static unsigned least_limit(struct fact f)
{
    struct loop scope = range_of(f.scope);
    unsigned limit = 1;
    for (unsigned v = scope.first; v <= scope.last; v++)
        if (block[v] == f.block && rows[v].number != NOT_SINCE && rows[v].number >= limit)
            limit = rows[v].number + 1;
    return limit;
}

static size_t size_of(struct fact f)
{
    struct loop scope = range_of(f.scope);
    return FACT_HEAD + ROW * (scope.last - scope.first + 1);
}

/* A loop around v: its innermost, or where there are that many, one or two further out. */
static unsigned loop_around(unsigned v, unsigned out_by)
{
    unsigned found = WHOLE;
    for (unsigned j = LOOPS; j > 0; j--)
        if (inside(v, j - 1) && (found == WHOLE || out_by > 0)) {
            out_by -= found == WHOLE ? 0 : 1;
            found = j - 1;
        }
    return found;
}

/* Facts come by block, and those of one block by their scope. Returns how many there are. */
static unsigned keep_fact(struct fact f, unsigned count)
{
    unsigned i = 0;
    while (i < count && (facts[i].block < f.block || (facts[i].block == f.block && facts[i].scope < f.scope)))
        i++;
    if (i < count && facts[i].block == f.block && facts[i].scope == f.scope)
        return count;
    for (unsigned j = count; j > i; j--)
        facts[j] = facts[j - 1];
    facts[i] = f;
    return count + 1;
}

static unsigned facts_over_graph(void)
{
    unsigned count = 0;
    for (unsigned v = 1; v < NODES; v += 4)
        count = keep_fact((struct fact){WHOLE, block[v]}, count);
    return count;
}

/* Nodes are taken far apart, so that the facts spread over the graph. `over`: one or two facts more than fit, an even number. */
static unsigned facts_over_loops(size_t room, int over)
{
    unsigned count = 0;
    size_t used = 0;
    for (unsigned i = 0, v = 0; i < NODES && count < MOST_FACTS; i++, v = (v + 389) % NODES) {
        struct fact f = {loop_around(v, block[v] % 3), block[v]};
        if (f.block == NONE || f.scope == WHOLE || (!over && used + size_of(f) > room))
            continue;
        if (over && used >= room && count % 2 == 0)
            break;
        gather(f);
        unsigned before = count;
        if (least_limit(f) <= WAYS)
            count = keep_fact(f, count);
        used += count > before ? size_of(f) : 0;
    }
    return count;
}

static void put_row(const struct row *r, unsigned limit)
{
    unsigned number = r->number != NOT_SINCE && r->number >= limit ? MANY : r->number;
    put(number, 2);
    for (unsigned j = 0; j < 7; j++)
        put(j < number && number < MANY ? r->slots[j] : NONE, 2);
}

/* The age limit is the least for every second block, and else larger than needed. */
static void put_fact(struct fact f)
{
    struct loop scope = range_of(f.scope);
    gather(f);
    unsigned limit = least_limit(f), large = WAYS - f.block % 3;
    limit = f.block % 2 == 0 || large < limit ? limit : large;
    put(f.scope, 2);
    put(f.block, 2);
    put(limit, 2);
    for (unsigned v = scope.first; v <= scope.last; v++)
        put_row(&rows[v], limit);
}

static void put_graph(void)
{
    for (unsigned v = 0; v < NODES; v++)
        put(block[v], 2);
    for (unsigned i = 0; i < edges; i++) {
        put(edge[i][0], 2);
        put(edge[i][1], 2);
    }
    for (unsigned j = 0; j < LOOPS; j++) {
        put(loops[j].first, 2);
        put(loops[j].last, 2);
        put(loops[j].bound, 4);
        if (version == 2)
            put(visits(j), 4);
    }
}

static void put_trailer(unsigned count, unsigned policy)
{
    unsigned numbers[4] = {NODES, edges, LOOPS, count};
    put(0, 4);
    put(2 * NODES, 4);
    put(2 * NODES + 4 * edges, 4);
    put(2 * NODES + 4 * edges + (uint32_t)loop_size() * LOOPS, 4);
    for (unsigned i = 0; i < 4; i++)
        put(numbers[i], 2);
    put(policy, 1);
    put(WAYS, 1);
    put(sets, 1);
    put(version, 1);
    memcpy(out + written, "QMBT", 4);
    written += 4;
}

int main(int argc, char **argv)
{
    if (argc != 3 && argc != 4)
        return 2;
    version = argc == 4 ? (unsigned)atoi(argv[3]) : 1;
    int large = strcmp(argv[1], "large") == 0, exact = strcmp(argv[1], "exact") == 0, deep = strcmp(argv[1], "deep") == 0;
    sets = large ? 64 : deep ? 16 : 4;
    make_nodes(large || deep ? 1 : 2);
    if (deep)
        make_deep_loops();
    else
        make_loops();
    make_edges();
    list_edges();
    size_t rest = 2 * NODES + 4 * edges + loop_size() * LOOPS + TRAILER, total = rest;
    unsigned count = deep ? 0 : large ? facts_over_graph() : facts_over_loops(BYTES - rest, exact);
    for (unsigned i = 0; i < count; i++)
        total += size_of(facts[i]);
    if (exact)
        drop_edges((unsigned)(total - BYTES) / 4);
    list_edges();
    put_graph();
    for (unsigned i = 0; i < count; i++)
        put_fact(facts[i]);
    put_trailer(count, (unsigned)atoi(argv[2]));
    return fwrite(out, 1, written, stdout) == written ? 0 : 1;
}
