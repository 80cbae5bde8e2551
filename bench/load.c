/* Writes a segment to be loaded over the image that bench/image.c makes. The arguments are how many files that image has,
   how many records, and `marks`, which touch no node, or `modes`, each of which sets the mode of the next file. */
#include <stdint.h>
#include <stdio.h>
#include <stdlib.h>
#include <string.h>
#include <zlib.h>

static unsigned char *put(unsigned char *at, uint64_t value, int width)
{
    for (int i = width - 1; i >= 0; i--) {
        at[i] = (unsigned char)value;
        value >>= 8;
    }
    return at + width;
}

int main(int argc, char **argv)
{
    if (argc != 4)
        return 1;
    uint64_t files = strtoull(argv[1], NULL, 10), count = strtoull(argv[2], NULL, 10), first = 3 * files + 1;
    int marks = strcmp(argv[3], "marks") == 0;
    fwrite("\xFF\xFF\xFC\x17\0\0\0\0", 1, 8, stdout);
    for (uint64_t k = 0; k < count; k++) {
        unsigned char record[128], *at = put(record + 5, first + k, 8);
        record[0] = marks ? 24 : 7;
        if (!marks) {
            char path[40];
            uint64_t file = k % files;
            int len = snprintf(path, sizeof path, "/g%llu/f%llu", (unsigned long long)(file / 100), (unsigned long long)file);
            at = put(at, (uint64_t)len, 2);
            memcpy(at, path, (size_t)len);
            at = put(at + len, 0644, 2);
        }
        put(record + 1, (uint64_t)(at - record - 1), 4);
        at = put(at, crc32(0, record, (uInt)(at - record)), 4);
        fwrite(record, 1, (size_t)(at - record), stdout);
    }
    return ferror(stdout) || fflush(stdout) ? 1 : 0;
}
