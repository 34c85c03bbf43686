/* One salvage of the case file on standard input: by plain C, by the proved library, or not at all, so that the cost of reading it can be taken off.
 * usage: bench_salvage none|plain|proved [STEP] < FILE      prints the refusal's number and place, the length, how many facts are dropped, sums over both lent lists, and
 *                                                           `same` where nothing changed
 * With a STEP every STEPth fact is about block 65,535, so that it earns 12. */
#include "plain.h"
#include "sum.h"
#include <bolgverk.h>
#include <stdio.h>
#include <stdlib.h>
#include <string.h>

enum { FACTS = 256, TRAILER = 32, FACT_HEAD = 6, ROW = 16, WHOLE = 65535 };

static uint8_t file[5000000], out[5000000];
static uint64_t dropped[3 * FACTS + 1];

static unsigned u16_at(size_t at) { return file[at] | (unsigned)file[at + 1] << 8; }

/* The file is a sound one. */
static void spoil(size_t length, unsigned step)
{
    size_t end = length - TRAILER, loop_size = file[end + 27] == 2 ? 12 : 8, loops_at = u16_at(end + 8) | (size_t)u16_at(end + 10) << 16;
    size_t at = u16_at(end + 12) | (size_t)u16_at(end + 14) << 16;
    for (unsigned i = 0, facts = u16_at(end + 22); i < facts; i++) {
        unsigned scope = u16_at(at);
        size_t loop = loops_at + loop_size * scope, nodes = scope == WHOLE ? u16_at(end + 16) : u16_at(loop + 2) - u16_at(loop) + 1u;
        if (i % step == step - 1)
            file[at + 2] = file[at + 3] = 255;
        at += FACT_HEAD + ROW * nodes;
    }
}

int main(int argc, char **argv)
{
    if (argc != 2 && argc != 3)
        return 2;
    uint64_t written = 0, count = 0, place = 0;
    size_t length = fread(file, 1, sizeof file, stdin), room = sizeof dropped / sizeof dropped[0];
    uint8_t refused = 0;
    if (argc == 3)
        spoil(length, (unsigned)atoi(argv[2]));
    if (strcmp(argv[1], "plain") == 0)
        refused = plain_salvage(file, length, out, sizeof out, dropped, room, &written, &count, &place);
    else if (strcmp(argv[1], "proved") == 0)
        refused = bolgverk_salvage(file, length, out, sizeof out, dropped, room, &written, &count, &place);
    /* All sums are taken in every case, so that they can be taken off too. */
    uint64_t sum = sum_of(out, length), due = sum_of(file, length), list = sum_of(dropped, sizeof dropped);
    int same = refused == 0 && written == length && sum == due;
    printf("%u %lu %lu %lu %016lx %016lx %s\n", refused, place, written, count, sum, list, same ? "same" : "other");
    return 0;
}
