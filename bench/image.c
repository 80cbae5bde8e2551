/* The counterpart of crates/bench_image: an image of many files written and read in plain C.
   Usage: image FILES [OUT]. It builds the nodes in memory, times the writing and the reading of their image, and leaves the image in OUT. */
#include <stdint.h>
#include <stdio.h>
#include <stdlib.h>
#include <string.h>
#include <time.h>

struct block { uint64_t id, stamp, length; };

struct node {
    uint64_t id, time, quota_names, quota_space;
    char *name;
    uint32_t name_len, owner, group, mode, replication, blocks, children;
    int is_dir, is_open;
    struct block *block;
    struct node **child;
};

struct image {
    struct node *root;
    char *texts[8];
    uint32_t text_count;
    uint64_t namespace_id, stamp, block, txid, last_inode, count;
};

struct buffer { unsigned char *bytes; size_t len, room; };

static double cpu_seconds(void)
{
    struct timespec now;
    clock_gettime(CLOCK_PROCESS_CPUTIME_ID, &now);
    return (double)now.tv_sec + (double)now.tv_nsec * 1e-9;
}

static void fail(const char *why)
{
    fprintf(stderr, "%s\n", why);
    exit(1);
}

/* ---- writing */

static unsigned char *put(unsigned char *at, uint64_t value)
{
    for (; value >= 128; value >>= 7)
        *at++ = (unsigned char)(value | 128);
    *at++ = (unsigned char)value;
    return at;
}

static unsigned char *put_field(unsigned char *at, uint64_t number, uint64_t value)
{
    return put(put(at, 8 * number), value);
}

static unsigned char *put_bytes(unsigned char *at, uint64_t number, const void *bytes, size_t len)
{
    at = put(put(at, 8 * number + 2), len);
    memcpy(at, bytes, len);
    return at + len;
}

static void reserve(struct buffer *out, size_t more)
{
    if (out->room - out->len < more) {
        out->room = 2 * out->room + more;
        out->bytes = realloc(out->bytes, out->room);
    }
}

static void add(struct buffer *out, const unsigned char *bytes, size_t len)
{
    reserve(out, len + 10);
    unsigned char *at = put(out->bytes + out->len, len);
    memcpy(at, bytes, len);
    out->len = (size_t)(at - out->bytes) + len;
}

static void write_node(struct buffer *out, const struct node *n)
{
    static unsigned char message[1 << 20], inner[1 << 20], block[64];
    unsigned char *in = inner, *at = message;
    if (n->is_dir) {
        in = put_field(in, 1, n->time);
        if (n->quota_names)
            in = put_field(in, 2, n->quota_names);
        if (n->quota_space)
            in = put_field(in, 3, n->quota_space);
        in = put_field(put_field(put_field(in, 4, n->owner), 5, n->group), 6, n->mode);
    } else {
        in = put_field(put_field(in, 1, n->replication), 2, n->time);
        in = put_field(put_field(put_field(in, 3, n->owner), 4, n->group), 5, n->mode);
        for (uint32_t i = 0; i < n->blocks; i++) {
            unsigned char *b = put_field(put_field(put_field(block, 1, n->block[i].id), 2, n->block[i].stamp), 3, n->block[i].length);
            in = put_bytes(in, 6, block, (size_t)(b - block));
        }
        if (n->is_open)
            in = put_field(in, 7, 1);
    }
    at = put_field(put_field(at, 1, n->is_dir ? 2 : 1), 2, n->id);
    at = put_bytes(put_bytes(at, 3, n->name, n->name_len), n->is_dir ? 5 : 4, inner, (size_t)(in - inner));
    add(out, message, (size_t)(at - message));
}

static void write_nodes(struct buffer *out, const struct node *n)
{
    write_node(out, n);
    for (uint32_t i = 0; i < n->children; i++)
        write_nodes(out, n->child[i]);
}

static void write_children(struct buffer *out, struct buffer *ids, struct buffer *entry, const struct node *n)
{
    if (n->children) {
        ids->len = entry->len = 0;
        reserve(ids, 10 * (size_t)n->children);
        unsigned char *at = ids->bytes;
        for (uint32_t i = 0; i < n->children; i++)
            at = put(at, n->child[i]->id);
        ids->len = (size_t)(at - ids->bytes);
        reserve(entry, ids->len + 32);
        at = put_bytes(put_field(entry->bytes, 1, n->id), 2, ids->bytes, ids->len);
        add(out, entry->bytes, (size_t)(at - entry->bytes));
    }
    for (uint32_t i = 0; i < n->children; i++)
        write_children(out, ids, entry, n->child[i]);
}

static void write_image(struct buffer *out, const struct image *im)
{
    static unsigned char message[512];
    static struct buffer ids, entry;
    static const char *names[4] = {"NS_INFO", "STRING_TABLE", "INODE", "INODE_DIR"};
    size_t ends[5] = {8};
    out->len = 0;
    reserve(out, 64);
    memcpy(out->bytes, "HDFSIMG1", 8);
    out->len = 8;
    unsigned char *at = put_field(put_field(message, 1, im->namespace_id), 3, im->stamp);
    add(out, message, (size_t)(put_field(put_field(at, 5, im->block), 6, im->txid) - message));
    ends[1] = out->len;
    add(out, message, (size_t)(put_field(message, 1, im->text_count) - message));
    for (uint32_t i = 0; i < im->text_count; i++) {
        at = put_bytes(put_field(message, 1, i + 1), 2, im->texts[i], strlen(im->texts[i]));
        add(out, message, (size_t)(at - message));
    }
    ends[2] = out->len;
    add(out, message, (size_t)(put_field(put_field(message, 1, im->last_inode), 2, im->count) - message));
    write_nodes(out, im->root);
    ends[3] = out->len;
    write_children(out, &ids, &entry, im->root);
    ends[4] = out->len;
    at = put_field(put_field(message, 1, 1), 2, 1001);
    for (int i = 0; i < 4; i++) {
        static unsigned char section[64];
        unsigned char *s = put_bytes(section, 1, names[i], strlen(names[i]));
        s = put_field(put_field(s, 2, ends[i + 1] - ends[i]), 3, ends[i]);
        at = put_bytes(at, 4, section, (size_t)(s - section));
    }
    add(out, message, (size_t)(at - message));
    uint32_t len = (uint32_t)(out->len - ends[4]);
    reserve(out, 4);
    for (int i = 3; i >= 0; i--)
        out->bytes[out->len++] = (unsigned char)(len >> (8 * i));
}

/* ---- reading: each number is taken only in its one spelling, and each child where its directory has it */

static const unsigned char *end_of_input;

static uint64_t get(const unsigned char **at)
{
    uint64_t value = 0;
    for (int shift = 0; shift < 64; shift += 7) {
        if (*at >= end_of_input)
            fail("short");
        uint64_t byte = *(*at)++;
        value |= (byte & 127) << shift;
        if (byte < 128) {
            if ((byte == 0 && shift) || (shift == 63 && byte > 1))
                fail("needless byte");
            return value;
        }
    }
    fail("number");
    return 0;
}

static uint64_t get_field(const unsigned char **at, uint64_t number)
{
    if (get(at) != 8 * number)
        fail("field");
    return get(at);
}

static size_t get_bytes(const unsigned char **at, uint64_t number)
{
    if (get(at) != 8 * number + 2)
        fail("field");
    size_t len = get(at);
    if ((size_t)(end_of_input - *at) < len)
        fail("short");
    return len;
}

static int has_field(const unsigned char *at, const unsigned char *end, unsigned char key)
{
    return at < end && *at == key;
}

static struct node *read_node(const unsigned char **at)
{
    size_t len = get(at);
    const unsigned char *end = *at + len;
    struct node *n = calloc(1, sizeof *n);
    if (len > (size_t)(end_of_input - *at))
        fail("short");
    n->is_dir = get_field(at, 1) == 2;
    n->id = get_field(at, 2);
    n->name_len = (uint32_t)get_bytes(at, 3);
    if (n->name_len > 255 || memchr(*at, '/', n->name_len) || memchr(*at, ':', n->name_len) || memchr(*at, 0, n->name_len))
        fail("name");
    n->name = malloc(n->name_len + 1);
    memcpy(n->name, *at, n->name_len);
    *at += n->name_len;
    get_bytes(at, n->is_dir ? 5 : 4);
    if (n->is_dir) {
        n->time = get_field(at, 1);
        if (has_field(*at, end, 16))
            n->quota_names = get_field(at, 2);
        if (has_field(*at, end, 24))
            n->quota_space = get_field(at, 3);
        n->owner = (uint32_t)get_field(at, 4);
        n->group = (uint32_t)get_field(at, 5);
        n->mode = (uint32_t)get_field(at, 6);
    } else {
        n->replication = (uint32_t)get_field(at, 1);
        n->time = get_field(at, 2);
        n->owner = (uint32_t)get_field(at, 3);
        n->group = (uint32_t)get_field(at, 4);
        n->mode = (uint32_t)get_field(at, 5);
        uint32_t room = 0;
        while (has_field(*at, end, 50)) {
            if (n->blocks == room) {
                room = 2 * room + 1;
                n->block = realloc(n->block, room * sizeof *n->block);
            }
            get_bytes(at, 6);
            struct block *b = &n->block[n->blocks++];
            b->id = get_field(at, 1);
            b->stamp = get_field(at, 2);
            b->length = get_field(at, 3);
        }
        if (has_field(*at, end, 56))
            n->is_open = get_field(at, 7) == 1;
    }
    if (*at != end)
        fail("message");
    return n;
}

static int by_number(const void *a, const void *b)
{
    uint64_t x = *(const uint64_t *)a, y = *(const uint64_t *)b;
    return x < y ? -1 : x > y;
}

static void are_distinct(uint64_t *ids, size_t count)
{
    qsort(ids, count, sizeof *ids, by_number);
    for (size_t i = 1; i < count; i++)
        if (ids[i - 1] == ids[i])
            fail("id twice");
}

struct reader { const unsigned char *nodes, *entries, *entries_end; uint64_t *ids, *blocks; size_t id_count, block_count; };

static struct node *read_tree(struct reader *in)
{
    struct node *n = read_node(&in->nodes);
    in->ids[in->id_count++] = n->id;
    for (uint32_t i = 0; i < n->blocks; i++)
        in->blocks[in->block_count++] = n->block[i].id;
    const unsigned char *ahead = in->entries;
    if (!n->is_dir || ahead == in->entries_end)
        return n;
    size_t len = get(&ahead);
    const unsigned char *end = ahead + len;
    if (get_field(&ahead, 1) != n->id)
        return n;
    get_bytes(&ahead, 2);
    in->entries = end;
    uint32_t room = 0;
    while (ahead < end) {
        uint64_t id = get(&ahead);
        if (n->children == room) {
            room = 2 * room + 1;
            n->child = realloc(n->child, room * sizeof *n->child);
        }
        struct node *child = read_tree(in);
        if (child->id != id)
            fail("child");
        if (n->children) {
            struct node *before = n->child[n->children - 1];
            uint32_t least = before->name_len < child->name_len ? before->name_len : child->name_len;
            int order = memcmp(before->name, child->name, least);
            if (order > 0 || (order == 0 && before->name_len >= child->name_len))
                fail("order");
        }
        n->child[n->children++] = child;
    }
    return n;
}

static uint64_t read_image(const struct buffer *in)
{
    struct reader reader;
    const unsigned char *at = in->bytes + 8;
    end_of_input = in->bytes + in->len;
    get(&at);
    get_field(&at, 1), get_field(&at, 3), get_field(&at, 5), get_field(&at, 6);
    get(&at);
    uint64_t texts = get_field(&at, 1);
    for (uint64_t i = 1; i <= texts; i++) {
        get(&at);
        if (get_field(&at, 1) != i)
            fail("text");
        at += get_bytes(&at, 2);
    }
    get(&at);
    get_field(&at, 1);
    uint64_t count = get_field(&at, 2);
    reader.nodes = at;
    for (uint64_t i = 0; i < count; i++)
        at += get(&at);
    reader.entries = at;
    uint32_t len = 0;
    for (size_t i = in->len - 4; i < in->len; i++)
        len = len << 8 | in->bytes[i];
    reader.entries_end = in->bytes + in->len - 4 - len;
    reader.ids = malloc(count * sizeof *reader.ids);
    reader.blocks = malloc(in->len / 8 * sizeof *reader.blocks);
    reader.id_count = reader.block_count = 0;
    struct node *root = read_tree(&reader);
    if (reader.id_count != count || reader.entries != reader.entries_end || root->name_len)
        fail("tree");
    are_distinct(reader.ids, reader.id_count);
    are_distinct(reader.blocks, reader.block_count);
    return count;
}

/* ---- the nodes: directories of a hundred files, each with a block */

static struct node *node(struct image *im, int is_dir, const char *name)
{
    struct node *n = calloc(1, sizeof *n);
    n->is_dir = is_dir;
    n->name_len = (uint32_t)strlen(name);
    n->name = malloc(n->name_len + 1);
    memcpy(n->name, name, n->name_len + 1);
    n->id = 16384 + ++im->count;
    n->owner = 1;
    n->group = 2;
    n->mode = is_dir ? 0755 : 0644;
    n->time = 1700000000000;
    return n;
}

static int by_name(const void *a, const void *b)
{
    return strcmp((*(struct node *const *)a)->name, (*(struct node *const *)b)->name);
}

static void sort_children(struct node *n)
{
    qsort(n->child, n->children, sizeof *n->child, by_name);
    for (uint32_t i = 0; i < n->children; i++)
        if (n->child[i]->is_dir)
            sort_children(n->child[i]);
}

static struct image grow(uint32_t files)
{
    struct image im = {.texts = {"hdfs", "supergroup"}, .text_count = 2, .namespace_id = 7, .stamp = 1000, .block = 1073741824};
    char name[32];
    struct node *dir = NULL;
    im.root = node(&im, 1, "");
    im.root->child = calloc(files / 100 + 1, sizeof *im.root->child);
    for (uint32_t k = 0; k < files; k++) {
        if (k % 100 == 0) {
            snprintf(name, sizeof name, "g%u", k / 100);
            dir = im.root->child[im.root->children++] = node(&im, 1, name);
            dir->child = calloc(100, sizeof *dir->child);
        }
        snprintf(name, sizeof name, "f%u", k);
        struct node *f = dir->child[dir->children++] = node(&im, 0, name);
        f->replication = 3;
        f->blocks = 1;
        f->block = malloc(sizeof *f->block);
        *f->block = (struct block){++im.block, ++im.stamp, 1 + (uint64_t)k * 9000 % 134217728};
    }
    im.last_inode = 16384 + im.count;
    im.txid = 3 * (uint64_t)files;
    sort_children(im.root);
    return im;
}

int main(int argc, char **argv)
{
    uint32_t files = argc > 1 ? (uint32_t)strtoul(argv[1], NULL, 10) : 1000;
    struct image im = grow(files);
    struct buffer out = {0};
    write_image(&out, &im);
    double start = cpu_seconds();
    write_image(&out, &im);
    double wrote = cpu_seconds() - start;
    start = cpu_seconds();
    uint64_t nodes = read_image(&out);
    double read = cpu_seconds() - start;
    printf("save %zu %llu %.0f\n", out.len, (unsigned long long)nodes, wrote * 1e9 / (double)nodes);
    printf("load %zu %llu %.0f\n", out.len, (unsigned long long)nodes, read * 1e9 / (double)nodes);
    if (argc > 2) {
        FILE *file = fopen(argv[2], "wb");
        if (!file || fwrite(out.bytes, 1, out.len, file) != out.len || fclose(file))
            fail("not written");
    }
    return 0;
}
