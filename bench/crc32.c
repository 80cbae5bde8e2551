/* The counterpart of crates/bench_wire: the same blocks through zlib's crc32, and lines of the same form. */
#include <stdio.h>
#include <stdlib.h>
#include <string.h>
#include <time.h>
#include <zlib.h>

static double cpu_seconds(void)
{
    struct timespec now;
    clock_gettime(CLOCK_PROCESS_CPUTIME_ID, &now);
    return (double)now.tv_sec + (double)now.tv_nsec * 1e-9;
}

static void measure(unsigned char *block, unsigned long size, unsigned long amount)
{
    unsigned long times = amount / size;
    unsigned long joined = 0;
    double start = cpu_seconds();
    memset(block, 7, size);
    for (unsigned long time = 0; time < times; time++) {
        block[0] = (unsigned char)time;
        joined ^= crc32(0, block, (uInt)size);
    }
    double took = cpu_seconds() - start;
    fprintf(stderr, "%lu %.0f %08lx\n", size, (double)size * (double)times / took / 1e6, joined);
}

int main(int argc, char **argv)
{
    static unsigned char block[65536];
    unsigned long amount = (argc > 1 ? strtoul(argv[1], NULL, 10) : 1) * 1000000;
    measure(block, 64, amount);
    measure(block, 1024, amount);
    measure(block, 65536, amount);
    return 0;
}
