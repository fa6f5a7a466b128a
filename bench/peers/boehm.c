/* What bench/peers/peers.py runs beside riptide: the same operations over Boehm's collector. It reads operations that the
 * script has checked, so nothing is tested here. It prints, as one line: nanoseconds of all operations by the clock,
 * collections that were asked for, the nanoseconds of these and of the longest one, how many cells the handles and
 * registers lead to at the end, and how many collections there were in all. */
#include <gc.h>
#include <stdint.h>
#include <stdio.h>
#include <stdlib.h>
#include <string.h>
#include <time.h>

enum { REGISTERS = 16, HANDLES = 256 };
enum operation { ALLOC, GET, PUT, MOVE, DROP, STRONG, SGET, COLLECT };

struct cell {
    uint32_t slots, seen;
    struct cell *slot[];
};

struct call {
    int32_t operation, first, second, third;
};

/* the roots: the collector scans what is static */
static struct cell *registers[REGISTERS], *handles[HANDLES];
static int64_t collected, longest, asked;

static int64_t now(void)
{
    struct timespec time;
    clock_gettime(CLOCK_MONOTONIC, &time);
    return 1000000000 * (int64_t)time.tv_sec + time.tv_nsec;
}

static struct cell *alloc(int class)
{
    uint32_t slots = 2u << class;
    struct cell *cell = GC_MALLOC(sizeof *cell + slots * sizeof cell->slot[0]);
    cell->slots = slots;
    return cell;
}

static void collect(void)
{
    int64_t began = now();
    GC_gcollect();
    int64_t took = now() - began;
    asked++;
    collected += took;
    if (took > longest)
        longest = took;
}

static void run(const struct call *calls, size_t count)
{
    for (size_t i = 0; i < count; i++) {
        struct call it = calls[i];
        switch (it.operation) {
        case ALLOC: registers[it.first] = alloc(it.second); break;
        case GET: registers[it.first] = registers[it.second]->slot[it.third]; break;
        case PUT: registers[it.first]->slot[it.second] = registers[it.third]; break;
        case MOVE: registers[it.first] = registers[it.second]; break;
        case DROP: registers[it.first] = NULL; break;
        case STRONG: handles[it.first] = registers[it.second]; break;
        case SGET: registers[it.first] = handles[it.second]; break;
        case COLLECT: collect(); break;
        }
    }
}

/* how many cells the registers and handles lead to */
static size_t reached(void)
{
    size_t held = 0, room = 1 << 20;
    size_t count = 0;
    struct cell **found = GC_MALLOC(room * sizeof *found);
    for (int i = 0; i < REGISTERS + HANDLES; i++) {
        struct cell *root = i < REGISTERS ? registers[i] : handles[i - REGISTERS];
        if (root && !root->seen) {
            root->seen = 1;
            found[held++] = root;
        }
        while (held > 0) {
            struct cell *cell = found[--held];
            count++;
            for (uint32_t slot = 0; slot < cell->slots; slot++) {
                struct cell *other = cell->slot[slot];
                if (other && !other->seen) {
                    other->seen = 1;
                    found[held++] = other;
                }
            }
        }
    }
    return count;
}

int main(int argc, char **argv)
{
    FILE *file = argc == 2 ? fopen(argv[1], "rb") : NULL;
    if (!file)
        return 1;
    GC_INIT();
    fseek(file, 0, SEEK_END);
    size_t bytes = ftell(file);
    rewind(file);
    struct call *calls = malloc(bytes);
    if (!calls || fread(calls, 1, bytes, file) != bytes)
        return 1;
    int64_t began = now();
    run(calls, bytes / sizeof *calls);
    int64_t took = now() - began;
    unsigned long all = GC_get_gc_no();
    printf("%lld %lld %lld %lld %zu %lu\n", (long long)took, (long long)asked, (long long)collected, (long long)longest,
           reached(), all);
    return 0;
}
