/* The counterpart of crates/bench_journal: the same segment in the same folders, and what the disk itself takes.
   The first argument is `plain`, which makes each record with zlib's crc32, or `limit`, which writes as many bytes as they
   have without making any. The others are how many records, how many a batch, and the name directories. */
#include <fcntl.h>
#include <stdint.h>
#include <stdio.h>
#include <stdlib.h>
#include <string.h>
#include <unistd.h>
#include <zlib.h>

enum { BUFFER = 1048576, LONGEST = 65536 };

static int count_of_dirs, files[8];
static char **dirs;
static unsigned char buffer[BUFFER];
static size_t held;

static void fail(const char *what)
{
    perror(what);
    exit(1);
}

static unsigned char *put(unsigned char *at, uint64_t value, int width)
{
    for (int i = width - 1; i >= 0; i--) {
        at[i] = (unsigned char)value;
        value >>= 8;
    }
    return at + width;
}

static unsigned char *put_text(unsigned char *at, const char *text, size_t len)
{
    memcpy(at, text, len);
    return at + len;
}

/* Puts what stands in front of a record's fields; `end` puts what stands behind them. */
static unsigned char *begin(unsigned char *at, int opcode, uint64_t id)
{
    *at = (unsigned char)opcode;
    return put(at + 5, id, 8);
}

static void end(unsigned char *start, unsigned char *at)
{
    put(start + 1, (uint64_t)(at - start - 1), 4);
    at = put(at, crc32(0, start, (uInt)(at - start)), 4);
    held += (size_t)(at - start);
}

static void put_mark(int opcode, uint64_t id)
{
    end(buffer + held, begin(buffer + held, opcode, id));
}

/* The record of `mkdir /user/hdfs/part-00001`, of 74 bytes. */
static void put_mkdir(uint64_t id, int is_limit)
{
    static const char path[] = "/user/hdfs/part-00001", owner[] = "hdfs", group[] = "supergroup";
    if (is_limit) {
        held += 74;
        return;
    }
    unsigned char *start = buffer + held, *at = begin(start, 3, id);
    at = put(at, 16386, 8);
    at = put(at, sizeof path - 1, 2);
    at = put_text(at, path, sizeof path - 1);
    at = put(at, 1700000000000, 8);
    *at++ = sizeof owner - 1;
    at = put_text(at, owner, sizeof owner - 1);
    *at++ = sizeof group - 1;
    at = put_text(at, group, sizeof group - 1);
    end(start, put(at, 0755, 2));
}

static void write_buffer(void)
{
    for (int i = 0; i < count_of_dirs && held > 0; i++)
        if (write(files[i], buffer, held) != (ssize_t)held || fdatasync(files[i]) != 0)
            fail("write");
    held = 0;
}

static void sync_folder(const char *path)
{
    int folder = open(path, O_RDONLY | O_DIRECTORY);
    if (folder < 0 || fsync(folder) != 0 || close(folder) != 0)
        fail(path);
}

static void write_seen(const char *folder)
{
    char tmp[4200], name[4200];
    snprintf(tmp, sizeof tmp, "%s/seen_txid.tmp", folder);
    snprintf(name, sizeof name, "%s/seen_txid", folder);
    int file = open(tmp, O_WRONLY | O_CREAT | O_TRUNC, 0666);
    if (file < 0)
        fail(tmp);
    sync_folder(folder);
    if (write(file, "1\n", 2) != 2 || fdatasync(file) != 0 || close(file) != 0 || rename(tmp, name) != 0)
        fail(name);
    sync_folder(folder);
}

static void start(void)
{
    put_text(buffer, "\xFF\xFF\xFC\x17\0\0\0\0", held = 8);
    put_mark(24, 1);
    for (int i = 0; i < count_of_dirs; i++) {
        char folder[4100], path[4200];
        snprintf(folder, sizeof folder, "%s/current", dirs[i]);
        snprintf(path, sizeof path, "%s/edits_inprogress_%019d", folder, 1);
        files[i] = open(path, O_WRONLY | O_CREAT | O_TRUNC | O_APPEND, 0666);
        if (files[i] < 0)
            fail(path);
        sync_folder(folder);
        if (write(files[i], buffer, held) != (ssize_t)held || fdatasync(files[i]) != 0)
            fail(path);
        write_seen(folder);
    }
    held = 0;
}

static void finish(uint64_t last)
{
    put_mark(23, last);
    write_buffer();
    for (int i = 0; i < count_of_dirs; i++) {
        char folder[4100], from[4200], to[4200];
        snprintf(folder, sizeof folder, "%s/current", dirs[i]);
        snprintf(from, sizeof from, "%s/edits_inprogress_%019d", folder, 1);
        snprintf(to, sizeof to, "%s/edits_%019d-%019llu", folder, 1, (unsigned long long)last);
        if (close(files[i]) != 0 || rename(from, to) != 0)
            fail(to);
        sync_folder(folder);
    }
}

int main(int argc, char **argv)
{
    if (argc < 5 || argc > 12)
        return 1;
    int is_limit = strcmp(argv[1], "limit") == 0;
    uint64_t count = strtoull(argv[2], NULL, 10), batch = strtoull(argv[3], NULL, 10), in_batch = 0;
    dirs = argv + 4;
    count_of_dirs = argc - 4;
    start();
    for (uint64_t k = 0; k < count; k++) {
        put_mkdir(k + 2, is_limit);
        if (++in_batch >= batch || held > BUFFER - LONGEST) {
            write_buffer();
            in_batch = 0;
        }
    }
    write_buffer();
    finish(count + 2);
    return 0;
}
