/* What threads gain on this machine where they share nothing: each of COUNT threads stores 196,608 times, in sequentially
 * consistent order, a word in a line of its own. Prints the microseconds from where the first is started to where the last
 * is joined. */
#include <pthread.h>
#include <stdalign.h>
#include <stdatomic.h>
#include <stdio.h>
#include <stdlib.h>
#include <time.h>

enum { STORES = 196608, MOST = 16 };

static struct { alignas(128) atomic_ulong word; } lines[MOST];

static void *store(void *line)
{
    for (unsigned long number = 0; number < STORES; number++)
        atomic_store((atomic_ulong *)line, number);
    return NULL;
}

static double now(void)
{
    struct timespec time;
    clock_gettime(CLOCK_MONOTONIC, &time);
    return 1e6 * time.tv_sec + time.tv_nsec / 1e3;
}

int main(int count, char **words)
{
    pthread_t threads[MOST];
    int number = count > 1 ? atoi(words[1]) : 1;
    if (number < 1 || number > MOST)
        return 2;
    double begun = now();
    for (int i = 0; i < number; i++)
        if (pthread_create(&threads[i], NULL, store, &lines[i].word))
            return 1;
    for (int i = 0; i < number; i++)
        pthread_join(threads[i], NULL);
    printf("%.0f\n", now() - begun);
    return 0;
}
