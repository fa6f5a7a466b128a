/* How long each freeze of tide_lisp takes. bench/lisp.py has the program call `goes_in` and `comes_out` where it goes into one
 * of the functions that it names, and where it comes out; the first of them is a freeze. When the program ends, there is a line
 * for each freeze in the file FREEZES: nanoseconds of the processor for each function, and how often it was called. */
#include <stdio.h>
#include <stdlib.h>
#include <sys/syscall.h>
#include <time.h>
#include <unistd.h>

enum { FUNCTIONS = 4, MOST = 1 << 20 };

static struct {
    long took[FUNCTIONS];
    int calls[FUNCTIONS];
} freezes[MOST];
static int count;
static long began[FUNCTIONS];

static long now(void)
{
    struct timespec time;
    clock_gettime(CLOCK_THREAD_CPUTIME_ID, &time);
    return 1000000000 * time.tv_sec + time.tv_nsec;
}

void goes_in(int function)
{
    began[function] = now();
}

void comes_out(int function)
{
    if (count == MOST)
        return;
    freezes[count].took[function] += now() - began[function];
    freezes[count].calls[function]++;
    count += function == 0;
}

void _exit(int status)
{
    FILE *out = fopen(getenv("FREEZES"), "w");
    for (int i = 0; i < count; i++)
        for (int k = 0; k < FUNCTIONS; k++)
            fprintf(out, "%ld %d%c", freezes[i].took[k], freezes[i].calls[k], k == FUNCTIONS - 1 ? '\n' : ' ');
    fclose(out);
    syscall(SYS_exit_group, status);
    __builtin_unreachable();
}
