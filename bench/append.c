/* The counterpart of crates/bench_files: the same records behind one open file, each synced, with the same folder and names. */
#include <fcntl.h>
#include <stdio.h>
#include <stdlib.h>
#include <string.h>
#include <sys/stat.h>
#include <unistd.h>

static int sync_folder(const char *path)
{
    int folder = open(path, O_RDONLY | O_DIRECTORY);
    return folder < 0 || fsync(folder) != 0 || close(folder) != 0;
}

int main(int argc, char **argv)
{
    unsigned long count = argc > 1 ? strtoul(argv[1], NULL, 10) : 0;
    const char *root = argc > 2 ? argv[2] : ".";
    char current[4096], path[4200];
    unsigned char record[55];
    memset(record, 7, sizeof record);
    snprintf(current, sizeof current, "%s/current", root);
    snprintf(path, sizeof path, "%s/edits_inprogress_%019d", current, 1);
    if (mkdir(current, 0777) != 0 || sync_folder(root))
        return 1;
    int file = open(path, O_WRONLY | O_CREAT | O_TRUNC | O_APPEND, 0666);
    if (file < 0 || sync_folder(current))
        return 1;
    for (unsigned long i = 0; i < count; i++)
        if (write(file, record, sizeof record) != (ssize_t)sizeof record || fdatasync(file) != 0)
            return 1;
    return close(file) != 0;
}
