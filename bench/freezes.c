/* What lies on a program's first thread between the end of one part and the start of the next: from where it joined the
 * last thread of a part to where it starts the first thread of the next, or writes. That is the part's freeze, with what
 * little stands around it. And what lies between: from where it starts the first thread of a part to where it joined the
 * last. A part for which no thread is started isn't told, and lies in the time of the freeze before it. Loaded before the
 * C library, it prints at the end how many there were of each, their sum and the longest, in microseconds; and before that
 * each one in a line of its own, if FREEZES_EACH is in the environment. */
#define _GNU_SOURCE
#include <dlfcn.h>
#include <pthread.h>
#include <stdio.h>
#include <stdlib.h>
#include <sys/syscall.h>
#include <time.h>
#include <unistd.h>

static pthread_t first;
static double joined, longest, sum;
static int count;
static double begun, longest_part, parts_sum;
static int running, parts;
/* Kept until the end, so that no line is written while one of them is timed. */
static struct { const char *what; double took; } each[100000];
static int kept;

static void keep(const char *what, double took)
{
    if (kept < (int)(sizeof each / sizeof *each)) {
        each[kept].what = what;
        each[kept++].took = took;
    }
}

static double now(void)
{
    struct timespec time;
    clock_gettime(CLOCK_MONOTONIC, &time);
    return 1e6 * time.tv_sec + time.tv_nsec / 1e3;
}

static void over(void)
{
    if (!pthread_equal(pthread_self(), first) || joined == 0)
        return;
    double took = now() - joined;
    joined = 0;
    count++;
    sum += took;
    if (took > longest)
        longest = took;
    keep("freeze", took);
}

int pthread_create(pthread_t *thread, const pthread_attr_t *attr, void *(*start)(void *), void *arg)
{
    static int (*real)(pthread_t *, const pthread_attr_t *, void *(*)(void *), void *);
    if (!real)
        real = dlsym(RTLD_NEXT, "pthread_create");
    over();
    if (pthread_equal(pthread_self(), first) && running++ == 0)
        begun = now();
    return real(thread, attr, start, arg);
}

int pthread_join(pthread_t thread, void **result)
{
    static int (*real)(pthread_t, void **);
    if (!real)
        real = dlsym(RTLD_NEXT, "pthread_join");
    int ended = real(thread, result);
    if (!pthread_equal(pthread_self(), first))
        return ended;
    joined = now();
    if (--running == 0) {
        double took = joined - begun;
        parts++;
        parts_sum += took;
        if (took > longest_part)
            longest_part = took;
        keep("part", took);
    }
    return ended;
}

ssize_t write(int file, const void *from, size_t length)
{
    static ssize_t (*real)(int, const void *, size_t);
    if (!real)
        real = dlsym(RTLD_NEXT, "write");
    over();
    return real(file, from, length);
}

__attribute__((constructor)) static void begin(void)
{
    first = pthread_self();
}

static void tell(void)
{
    if (getenv("FREEZES_EACH"))
        for (int number = 0; number < kept; number++)
            fprintf(stderr, "%s %.0f\n", each[number].what, each[number].took);
    fprintf(stderr, "%d freezes, %.0f microseconds in all, the longest %.0f\n", count, sum, longest);
    fprintf(stderr, "%d parts, %.0f microseconds in all, the longest %.0f\n", parts, parts_sum, longest_part);
}

/* A program that ends otherwise tells it here, as the twin does. */
__attribute__((destructor)) static void end(void)
{
    tell();
}

/* The program ends so, and no destructor runs. */
void _exit(int status)
{
    tell();
    syscall(SYS_exit_group, status);
    __builtin_unreachable();
}
