/* The content of the case file on standard input written again: by plain C, by the proved library, or not at all, so that the cost of reading it can be taken off.
 * usage: bench_write none|plain|proved < FILE      prints the refusal's number and places, the length, a sum over the bytes, and `same` where the file came out again
 *        bench_write again < FILE                  prints what the proved library writes, byte for byte; ends with the refusal's number */
#include "plain.h"
#include "sum.h"
#include <bolgverk.h>
#include <stdio.h>
#include <string.h>

enum { NODES = 1024, EDGES = 4096, LOOPS = 64, FACTS = 256, WHOLE = 65535, TRAILER = 32, FACT_HEAD = 6, ROW = 16 };

static uint8_t file[5000000], out[5000000];
static uint16_t nodes[NODES], edges[2 * EDGES], heads[4 * FACTS], rows[8 * NODES * FACTS];
static uint32_t loops[4 * LOOPS];
static size_t node_count, edge_count, loop_count, fact_count, row_count;
static unsigned loop_numbers = 3; /* in version 2 four */

static unsigned u16_at(size_t at) { return file[at] | (unsigned)file[at + 1] << 8; }

static void read_list(uint16_t *list, size_t at, size_t count)
{
    for (size_t i = 0; i < count; i++)
        list[i] = (uint16_t)u16_at(at + 2 * i);
}

static size_t size_of(unsigned scope)
{
    if (scope == WHOLE)
        return node_count;
    const uint32_t *loop = loops + loop_numbers * (scope < loop_count ? scope : 0);
    return scope < loop_count && loop[0] <= loop[1] ? loop[1] - loop[0] + 1 : 0;
}

/* Facts as far as they go: rows that are cut short are fewer than the scope has nodes. */
static void read_facts(size_t at, size_t end)
{
    for (size_t i = 0; i < fact_count && end - at >= FACT_HEAD; i++) {
        read_list(heads + 4 * i, at, 3);
        size_t size = size_of(heads[4 * i]), left = (end - at - FACT_HEAD) / ROW;
        heads[4 * i + 3] = (uint16_t)(size < left ? size : left);
        read_list(rows + 8 * row_count, at + FACT_HEAD, 8u * heads[4 * i + 3]);
        row_count += heads[4 * i + 3];
        at += FACT_HEAD + ROW * heads[4 * i + 3];
    }
}

static void read_loops(size_t at, size_t count)
{
    for (size_t i = 0; i < count; i++, at += 4 * loop_numbers - 4) {
        uint32_t *loop = loops + loop_numbers * i;
        loop[0] = u16_at(at), loop[1] = u16_at(at + 2);
        for (unsigned j = 2; j < loop_numbers; j++)
            loop[j] = u16_at(at + 4 * j - 4) | (uint32_t)u16_at(at + 4 * j - 2) << 16;
    }
}

/* A file whose sections do not fit in it has no lists. */
static void read_lists(size_t length)
{
    if (length < TRAILER)
        return;
    size_t end = length - TRAILER, n = u16_at(end + 16), e = u16_at(end + 18), l = u16_at(end + 20), f = u16_at(end + 22);
    loop_numbers = file[end + 27] == 2 ? 4 : 3;
    size_t facts_at = 2 * n + 4 * e + (4 * loop_numbers - 4) * l;
    if (n > NODES || e > EDGES || l > LOOPS || f > FACTS || facts_at > end)
        return;
    node_count = n, edge_count = e, loop_count = l, fact_count = f;
    read_list(nodes, 0, n);
    read_list(edges, 2 * n, 2 * e);
    read_loops(2 * n + 4 * e, l);
    read_facts(facts_at, end);
}

int main(int argc, char **argv)
{
    if (argc != 2)
        return 2;
    uint64_t written = 0, place = 0, second = 0;
    size_t length = fread(file, 1, sizeof file, stdin);
    const uint8_t *cache = length < TRAILER ? file : file + length - 8;
    uint8_t refused = 0;
    int again = strcmp(argv[1], "again") == 0;
    read_lists(length);
    if (strcmp(argv[1], "plain") == 0)
        refused = plain_write(cache[3], cache[0], cache[1], cache[2], nodes, node_count, edges, 2 * edge_count, loops, loop_numbers * loop_count,
                              heads, 4 * fact_count, rows, 8 * row_count, out, sizeof out, &written, &place, &second);
    else if (again || strcmp(argv[1], "proved") == 0)
        refused = bolgverk_write(cache[3], cache[0], cache[1], cache[2], nodes, node_count, edges, 2 * edge_count, loops, loop_numbers * loop_count,
                                 heads, 4 * fact_count, rows, 8 * row_count, out, sizeof out, &written, &place, &second);
    if (again)
        return fwrite(out, 1, written, stdout) == written ? refused : 255;
    /* Both sums are taken in every case, so that they can be taken off too. */
    uint64_t sum = sum_of(out, length), due = sum_of(file, length);
    int same = refused == 0 && written == length && sum == due;
    printf("%u %lu %lu %lu %016lx %s\n", refused, place, second, written, sum, same ? "same" : "other");
    return 0;
}
