/* What bench/large.py runs beside main.rt: the same cells over Boehm's collector. Cells of 2, 4, 8 and 16 slots in turn, in
 * 256 chains in an order that is drawn, each with a second link to another chain, or in one chain. It prints lines as main.rt
 * does: a name and a number, times in nanoseconds of the processor. Words: drawn or chain, and how many cells. */
#include <gc.h>
#include <stdint.h>
#include <stdio.h>
#include <stdlib.h>
#include <string.h>
#include <time.h>

enum { CHAINS = 256, TIMES = 7 };

struct cell {
    struct cell *slot[2];
};

/* the roots: the collector scans what is static */
static struct cell *chains[CHAINS];
static uint64_t seed = 7;

static int64_t now(void)
{
    struct timespec time;
    clock_gettime(CLOCK_PROCESS_CPUTIME_ID, &time);
    return 1000000000 * (int64_t)time.tv_sec + time.tv_nsec;
}

static int drawn(void)
{
    seed = seed * 6364136223846793005u + 1442695040888963407u;
    return (seed >> 33) % CHAINS;
}

int main(int argc, char **argv)
{
    if (argc != 3)
        return 2;
    int is_drawn = strcmp(argv[1], "drawn") == 0;
    long cells = atol(argv[2]);
    GC_INIT();
    GC_disable();
    int64_t began = now();
    for (long i = 0; i < cells; i++) {
        struct cell *cell = GC_MALLOC((2u << i % 4) * sizeof cell->slot[0]);
        int at = is_drawn ? drawn() : 0;
        cell->slot[0] = chains[at];
        if (is_drawn)
            cell->slot[1] = chains[drawn()];
        chains[at] = cell;
    }
    printf("filling %lld\n", (long long)(now() - began));
    GC_enable();
    for (int time = 0; time < TIMES; time++) {
        began = now();
        GC_gcollect();
        printf("full %lld\n", (long long)(now() - began));
    }
    printf("heap %zu\n", GC_get_heap_size());
    return 0;
}
