/* The counterpart of crates/bench_segment: the same records written and the same segment read, with zlib's crc32. */
#include <stdint.h>
#include <stdio.h>
#include <stdlib.h>
#include <string.h>
#include <time.h>
#include <zlib.h>

static double cpu_seconds(void)
{
    struct timespec now;
    clock_gettime(CLOCK_PROCESS_CPUTIME_ID, &now);
    return (double)now.tv_sec + (double)now.tv_nsec * 1e-9;
}

static unsigned char *put(unsigned char *at, uint64_t value, int width)
{
    for (int i = width - 1; i >= 0; i--) {
        at[i] = (unsigned char)value;
        value >>= 8;
    }
    return at + width;
}

static uint64_t get(const unsigned char *at, int width)
{
    uint64_t value = 0;
    for (int i = 0; i < width; i++)
        value = value << 8 | at[i];
    return value;
}

/* Writes the record of a mkdir and gives its length. */
static size_t write_record(unsigned char *out, uint64_t id, const char *path, const char *owner, const char *group)
{
    unsigned char *at = out + 5;
    size_t len = strlen(path);
    out[0] = 3;
    at = put(at, id, 8);
    at = put(at, 16386, 8);
    at = put(at, len, 2);
    memcpy(at, path, len);
    at = put(at + len, 1700000000000, 8);
    *at++ = (unsigned char)strlen(owner);
    memcpy(at, owner, strlen(owner));
    at += strlen(owner);
    *at++ = (unsigned char)strlen(group);
    memcpy(at, group, strlen(group));
    at += strlen(group);
    at = put(at, 0755, 2);
    put(out + 1, (uint64_t)(at - out - 1), 4);
    at = put(at, crc32(0, out, (uInt)(at - out)), 4);
    return (size_t)(at - out);
}

/* A path's names are tested and copied, as a reader that hands them out has to. */
static int read_path(const unsigned char *text, size_t len, char **names, size_t *count)
{
    *count = 0;
    if (len == 0 || text[0] != '/' || len > 8000)
        return 0;
    for (size_t at = 1; at <= len && len > 1;) {
        const unsigned char *end = memchr(text + at, '/', len - at);
        size_t size = end ? (size_t)(end - text) - at : len - at;
        if (size == 0 || size > 255 || memchr(text + at, ':', size) || memchr(text + at, 0, size)
            || (size <= 2 && memcmp(text + at, "..", size) == 0) || *count == 1000)
            return 0;
        names[*count] = malloc(size);
        memcpy(names[(*count)++], text + at, size);
        at += size + 1;
    }
    return 1;
}

static int read_name(const unsigned char **at, const unsigned char *end)
{
    if (*at >= end || **at < 1 || **at > 32 || end - *at - 1 < **at)
        return 0;
    *at += 1 + **at;
    return 1;
}

/* The length of the record at the front, or 0. Only the opcode of the benchmark is read. */
static size_t read_record(const unsigned char *bytes, size_t room, uint64_t id, char **names)
{
    size_t count = 0;
    if (room < 17 || bytes[0] != 3)
        return 0;
    size_t len = get(bytes + 1, 4);
    if (len < 12 || len > room - 5 || get(bytes + 5, 8) != id || get(bytes + 1 + len, 4) != crc32(0, bytes, (uInt)(1 + len)))
        return 0;
    const unsigned char *at = bytes + 13, *end = bytes + 1 + len;
    if (end - at < 10 || get(at, 8) >> 63)
        return 0;
    size_t path = get(at + 8, 2);
    at += 10;
    if ((size_t)(end - at) < path + 8)
        return 0;
    int sound = read_path(at, path, names, &count) && !(get(at + path, 8) >> 63);
    for (size_t i = 0; i < count; i++)
        free(names[i]);
    at += path + 8;
    if (!sound || !read_name(&at, end) || !read_name(&at, end) || end - at != 2 || get(at, 2) > 01777)
        return 0;
    return 1 + len + 4;
}

int main(int argc, char **argv)
{
    uint64_t count = argc > 1 ? strtoull(argv[1], NULL, 10) : 1000;
    const char *path = "/user/hdfs/part-00001", *owner = "hdfs", *group = "supergroup";
    static unsigned char one[65536];
    static char *names[1000];
    uint64_t written = 0;
    double start = cpu_seconds();
    for (uint64_t id = 1; id <= count; id++)
        written += write_record(one, id, path, owner, group);
    double took = cpu_seconds() - start;
    fprintf(stderr, "write %llu %.0f %llu\n", (unsigned long long)written, (double)written / took / 1e6, (unsigned long long)count);

    size_t size = 8 + written;
    unsigned char *all = malloc(size + 65536), *at = all;
    memcpy(at, "\xFF\xFF\xFC\x17\0\0\0\0", 8);
    at += 8;
    for (uint64_t id = 1; id <= count; id++)
        at += write_record(at, id, path, owner, group);
    start = cpu_seconds();
    uint64_t id = 1;
    size_t end = 8, len;
    while ((len = read_record(all + end, size - end, id, names)) != 0) {
        end += len;
        id++;
    }
    took = cpu_seconds() - start;
    fprintf(stderr, "read %zu %.0f %llu\n", end, (double)end / took / 1e6, (unsigned long long)(id - 1));
    return 0;
}
