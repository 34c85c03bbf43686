/* The trace run in time: plain C, the proved library and C by hand take turns on the same trace, and each turn gives two ratios.
 * usage: bench_time ACCESSES RUNS      nanoseconds an access (the median), and plain/proved and hand/proved (median, least and most) */
#include "plain.h"
#include <bolgverk.h>
#include <stdio.h>
#include <stdlib.h>
#include <string.h>
#include <time.h>

typedef uint8_t trace_run(uint8_t policy, uint8_t ways, uint8_t sets, const uint16_t *blocks, size_t blocks_length, uint8_t *marks, size_t marks_length, uint64_t *misses, uint64_t *place);

enum { PLAIN, PROVED, HAND, WAYS_TO_RUN, MOST_RUNS = 99 };
static trace_run *const run[WAYS_TO_RUN] = {plain_trace_run, bolgverk_trace_run, hand_trace_run};
static const char *const traces[] = {"random", "fits", "exceeds", "nested"};
static const char *const policies[] = {"LRU", "FIFO", "NMRU", "tree"};

/* Blocks of a cache that holds `held`, a way of `sets`: at random from one and a half times as many; a loop of one way less than fits, or of one more; or as many as fit, one after the other,
 * and then an inner loop of half as many, ten times. */
static uint16_t block_at(unsigned trace, size_t i, unsigned held, unsigned sets, uint32_t random)
{
    if (trace == 0)
        return (uint16_t)((random >> 16) % (held + held / 2));
    if (trace < 3)
        return (uint16_t)(i % (trace == 1 ? held - sets : held + sets));
    i %= 6 * held;
    return (uint16_t)(i < held ? i : held + (i - held) % (held / 2));
}

static double seconds(void)
{
    struct timespec now;
    clock_gettime(CLOCK_THREAD_CPUTIME_ID, &now);
    return (double)now.tv_sec + (double)now.tv_nsec / 1e9;
}

/* Sorts the figures; the median is then in the middle. */
static double median(double *of, unsigned n)
{
    for (unsigned i = 1; i < n; i++)
        for (unsigned j = i; j > 0 && of[j] < of[j - 1]; j--) {
            double x = of[j];
            of[j] = of[j - 1];
            of[j - 1] = x;
        }
    return of[n / 2];
}

static void ratio(const double *of, const double *to, unsigned runs)
{
    double r[MOST_RUNS];
    for (unsigned i = 0; i < runs; i++)
        r[i] = of[i] / to[i];
    double middle = median(r, runs);
    printf("  %5.2f (%4.2f to %4.2f)", middle, r[0], r[runs - 1]);
}

static int row(unsigned policy, unsigned ways, unsigned sets, unsigned trace, size_t accesses, unsigned runs, uint16_t *blocks, uint8_t *marks, uint8_t *expected)
{
    double took[WAYS_TO_RUN][MOST_RUNS];
    uint64_t misses = 0, place = 0;
    uint32_t random = 1;
    for (size_t i = 0; i < accesses; i++) {
        random = random * 1664525 + 1013904223;
        blocks[i] = block_at(trace, i, ways * sets, sets, random);
    }
    plain_trace_run((uint8_t)policy, (uint8_t)ways, (uint8_t)sets, blocks, accesses, expected, accesses, &misses, &place);
    for (unsigned n = 0; n < runs; n++)
        for (unsigned w = 0; w < WAYS_TO_RUN; w++) {
            double start = seconds();
            run[w]((uint8_t)policy, (uint8_t)ways, (uint8_t)sets, blocks, accesses, marks, accesses, &misses, &place);
            took[w][n] = seconds() - start;
            if (memcmp(marks, expected, accesses) != 0)
                return fprintf(stderr, "bench_time: %s %s: other marks than plain C's\n", policies[policy], traces[trace]), 1;
        }
    printf("%-6s %4u %4u %-7s", policies[policy], ways, sets, traces[trace]);
    double copy[MOST_RUNS];
    for (unsigned w = 0; w < WAYS_TO_RUN; w++) {
        memcpy(copy, took[w], sizeof copy);
        printf(" %6.2f", median(copy, runs) * 1e9 / (double)accesses);
    }
    ratio(took[PLAIN], took[PROVED], runs);
    ratio(took[HAND], took[PROVED], runs);
    printf("\n");
    return 0;
}

int main(int argc, char **argv)
{
    if (argc != 3)
        return 2;
    size_t accesses = strtoul(argv[1], NULL, 10);
    unsigned runs = (unsigned)atoi(argv[2]);
    if (runs < 1 || runs > MOST_RUNS)
        return 2;
    uint16_t *blocks = malloc(2 * accesses);
    uint8_t *marks = malloc(accesses), *expected = malloc(accesses);
    printf("policy ways sets trace    plain proved   hand  plain/proved           hand/proved\n");
    for (unsigned policy = 0; policy < 4; policy++)
        for (unsigned trace = 0; trace < 4; trace++)
            for (unsigned ways = 4; ways <= 8; ways += 4)
                for (unsigned sets = 1; sets <= 64; sets *= 64)
                    if (row(policy, ways, sets, trace, accesses, runs, blocks, marks, expected) != 0)
                        return 1;
    return 0;
}
