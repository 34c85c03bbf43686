/* The writer in plain C: the rules in the request's order, each with its least places; then the room; then the bytes, section by section. */
#include "cache.h"
#include "plain.h"
#include <string.h>

enum { WHOLE = 65535, MANY = 8, NOT_SINCE = 9 };
enum { MOST_NODES = 1024, MOST_EDGES = 4096, MOST_LOOPS = 64, MOST_FACTS = 256, MOST_BOUND = 1000000 };
enum { TRAILER = 32, FACT_HEAD = 6, ROW = 16, SLOTS = 7 };

/* How many numbers a record has in its list; a loop has four in version 2. */
enum { EDGE_NUMBERS = 2, HEAD_NUMBERS = 4, ROW_NUMBERS = 8 };

struct content {
    unsigned version, policy, ways, sets, loop_numbers;
    const uint16_t *nodes, *edges, *heads, *rows;
    const uint32_t *loops;
    size_t node_count, edge_count, loop_count, fact_count, row_count;
    uint64_t place, second;
};

struct scope {
    unsigned first, last;
};

static unsigned refuse(struct content *c, unsigned number, uint64_t place)
{
    c->place = place;
    return number;
}

static inline const uint16_t *head_of(const struct content *c, size_t i) { return c->heads + HEAD_NUMBERS * i; }
static inline const uint32_t *loop_of(const struct content *c, size_t i) { return c->loops + c->loop_numbers * i; }

/* Rule 4: the numbers are in range, the lists are whole, and the rows are those that the heads name. */
static int numbers_are_wrong(const struct content *c)
{
    size_t named = 0;
    if (c->node_count < 1 || c->node_count > MOST_NODES || c->edge_count > MOST_EDGES || c->loop_count > MOST_LOOPS || c->fact_count > MOST_FACTS)
        return 1;
    for (size_t i = 0; i < c->fact_count; i++)
        named += head_of(c, i)[3];
    return named != c->row_count;
}

/* Rule 6. */
static unsigned check_edges(struct content *c)
{
    for (size_t i = 0; i < c->edge_count; i++) {
        const uint16_t *edge = c->edges + EDGE_NUMBERS * i;
        int after = i == 0 || edge[0] > edge[-2] || (edge[0] == edge[-2] && edge[1] > edge[-1]);
        if (edge[0] >= c->node_count || edge[1] >= c->node_count || !after)
            return refuse(c, 6, i);
    }
    return 0;
}

/* An earlier loop that reaches this one's first node must hold the whole of it. */
static int crosses(const struct content *c, size_t i)
{
    const uint32_t *loop = loop_of(c, i);
    for (size_t j = 0; j < i; j++) {
        uint32_t last = loop_of(c, j)[1];
        if (loop[0] <= last && last < loop[1])
            return 1;
    }
    return 0;
}

/* Rule 7. */
static unsigned check_loops(struct content *c)
{
    for (size_t i = 0; i < c->loop_count; i++) {
        const uint32_t *loop = loop_of(c, i);
        int after = i == 0 || loop[0] > loop_of(c, i - 1)[0], limited = c->version == 1 || loop[3] > 0;
        if (loop[0] > loop[1] || loop[1] >= c->node_count || loop[2] < 1 || loop[2] > MOST_BOUND || !limited || !after || crosses(c, i))
            return refuse(c, 7, i);
    }
    return 0;
}

static struct scope scope_of(const struct content *c, const uint16_t *head)
{
    const uint32_t *loop = loop_of(c, head[0] == WHOLE ? 0 : head[0]);
    return head[0] == WHOLE ? (struct scope){0, (unsigned)c->node_count - 1} : (struct scope){loop[0], loop[1]};
}

/* "at most l-1 blocks, strictly rising, each of b's set, none equal to b or none; free slots are 65,535" */
static int row_is_sound(const struct content *c, unsigned block, unsigned limit, const uint16_t *row)
{
    unsigned number = row[0], held = number < MANY ? number : 0, j = 1;
    if (number > NOT_SINCE || (number < MANY && number >= limit))
        return 0;
    for (int before = -1; j <= held; j++) {
        unsigned x = row[j];
        if ((int)x <= before || x == NONE || x == block || x % c->sets != block % c->sets)
            return 0;
        before = (int)x;
    }
    for (; j <= SLOTS; j++)
        if (row[j] != NONE)
            return 0;
    return 1;
}

/* Rules 12, 13, 15 and 16 of fact i, whose rows begin at `rows`. The second place of 16 is the node. */
static unsigned check_fact(struct content *c, size_t i, const uint16_t *rows)
{
    const uint16_t *head = head_of(c, i), *before = head - HEAD_NUMBERS;
    if ((head[0] >= c->loop_count && head[0] != WHOLE) || head[1] == NONE || head[2] < 1 || head[2] > c->ways)
        return 12;
    struct scope scope = scope_of(c, head);
    if (i > 0 && (head[1] < before[1] || (head[1] == before[1] && scope.first <= scope_of(c, before).last)))
        return 13;
    if (head[3] != scope.last - scope.first + 1)
        return 15;
    for (unsigned v = scope.first; v <= scope.last; v++, rows += ROW_NUMBERS)
        if (!row_is_sound(c, head[1], head[2], rows)) {
            c->second = v;
            return 16;
        }
    return 0;
}

static unsigned check_facts(struct content *c)
{
    const uint16_t *rows = c->rows;
    for (size_t i = 0; i < c->fact_count; i++) {
        unsigned number = check_fact(c, i, rows);
        if (number != 0)
            return refuse(c, number, i);
        rows += ROW_NUMBERS * head_of(c, i)[3];
    }
    return 0;
}

static uint8_t *put(uint8_t *at, uint32_t number, unsigned bytes)
{
    for (; bytes > 0; bytes--, number >>= 8)
        *at++ = (uint8_t)number;
    return at;
}

/* The lists do not overlap the lent bytes, so the compiler may copy many numbers at once. */
static uint8_t *put_list(uint8_t *restrict at, const uint16_t *restrict list, size_t count)
{
    for (size_t i = 0; i < count; i++) {
        at[2 * i] = (uint8_t)list[i];
        at[2 * i + 1] = (uint8_t)(list[i] >> 8);
    }
    return at + 2 * count;
}

static uint8_t *put_loops(uint8_t *at, const struct content *c)
{
    for (size_t i = 0; i < c->loop_count; i++) {
        const uint32_t *loop = loop_of(c, i);
        at = put(put(put(at, loop[0], 2), loop[1], 2), loop[2], 4);
        if (c->version == 2)
            at = put(at, loop[3], 4);
    }
    return at;
}

static uint8_t *put_facts(uint8_t *at, const struct content *c)
{
    const uint16_t *rows = c->rows;
    for (size_t i = 0; i < c->fact_count; i++) {
        size_t numbers = ROW_NUMBERS * head_of(c, i)[3];
        at = put_list(put_list(at, head_of(c, i), 3), rows, numbers);
        rows += numbers;
    }
    return at;
}

static void put_trailer(uint8_t *at, const struct content *c, const uint32_t offsets[4])
{
    const size_t numbers[4] = {c->node_count, c->edge_count, c->loop_count, c->fact_count};
    for (unsigned i = 0; i < 4; i++)
        at = put(at, offsets[i], 4);
    for (unsigned i = 0; i < 4; i++)
        at = put(at, (uint32_t)numbers[i], 2);
    at = put(put(put(put(at, c->policy, 1), c->ways, 1), c->sets, 1), c->version, 1);
    memcpy(at, "QMBT", 4);
}

static void put_file(uint8_t *out, const struct content *c)
{
    uint8_t *edges = put_list(out, c->nodes, c->node_count);
    uint8_t *loops = put_list(edges, c->edges, EDGE_NUMBERS * c->edge_count);
    uint8_t *facts = put_loops(loops, c);
    put_trailer(put_facts(facts, c), c, (uint32_t[4]){0, (uint32_t)(edges - out), (uint32_t)(loops - out), (uint32_t)(facts - out)});
}

uint8_t plain_write(uint8_t version, uint8_t policy, uint8_t ways, uint8_t sets, const uint16_t *nodes, size_t nodes_length,
                    const uint16_t *edges, size_t edges_length, const uint32_t *loops, size_t loops_length, const uint16_t *heads,
                    size_t heads_length, const uint16_t *rows, size_t rows_length, uint8_t *out, size_t out_length, uint64_t *length,
                    uint64_t *place, uint64_t *second)
{
    unsigned loop_numbers = version == 2 ? 4 : 3, loop_size = version == 2 ? 12 : 8;
    struct content c = {version, policy, ways, sets, loop_numbers, nodes, edges, heads, rows, loops, nodes_length, edges_length / EDGE_NUMBERS,
                        loops_length / loop_numbers, heads_length / HEAD_NUMBERS, rows_length / ROW_NUMBERS, 0, 0};
    int whole = edges_length % EDGE_NUMBERS == 0 && loops_length % loop_numbers == 0 && heads_length % HEAD_NUMBERS == 0 && rows_length % ROW_NUMBERS == 0;
    unsigned number = version < 1 || version > 2 ? 2 : bad_cache(policy, ways, sets) ? 3 : !whole || numbers_are_wrong(&c) ? 4 : check_edges(&c);
    if (number == 0)
        number = check_loops(&c);
    if (number == 0)
        number = check_facts(&c);
    size_t bytes = 2 * c.node_count + 4 * c.edge_count + loop_size * c.loop_count + FACT_HEAD * c.fact_count + ROW * c.row_count + TRAILER;
    if (number == 0 && bytes > out_length)
        number = 20;
    if (number == 0) {
        put_file(out, &c);
        *length = bytes;
    }
    *place = c.place;
    *second = c.second;
    return (uint8_t)number;
}
