/* Loaded in front of a program by LD_PRELOAD: how long it took from one fdatasync to the next, with all that it did in between.
   GAPS names the file that the nanoseconds are appended to, a line each; EACH says how many calls make one, 1 without it. */
#define _GNU_SOURCE
#include <dlfcn.h>
#include <stdio.h>
#include <stdlib.h>
#include <time.h>

enum { MOST = 100000 };

static long long gaps[MOST], last;
static int count, calls, each;

static long long now(void)
{
    struct timespec at;
    clock_gettime(CLOCK_MONOTONIC, &at);
    return at.tv_sec * 1000000000LL + at.tv_nsec;
}

int fdatasync(int file)
{
    static int (*real)(int);
    if (!real) {
        const char *text = getenv("EACH");
        real = (int (*)(int))dlsym(RTLD_NEXT, "fdatasync");
        each = text ? atoi(text) : 1;
    }
    int done = real(file);
    if (++calls % each == 0) {
        long long at = now();
        if (last && count < MOST)
            gaps[count++] = at - last;
        last = at;
    }
    return done;
}

__attribute__((destructor)) static void tell(void)
{
    const char *name = getenv("GAPS");
    FILE *file = name ? fopen(name, "a") : NULL;
    for (int i = 0; file && i < count; i++)
        fprintf(file, "%lld\n", gaps[i]);
    if (file)
        fclose(file);
}
