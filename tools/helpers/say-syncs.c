// Preloaded into a program: says on standard output which bytes of a file it writes, and what it syncs, each by its inode, for
// tools/gate/check-journaled. Nothing is synced. The file that DELETE_AT_SYNC names is deleted as data is synced.
#define _GNU_SOURCE
#include <dlfcn.h>
#include <stdio.h>
#include <stdlib.h>
#include <sys/stat.h>
#include <unistd.h>

typedef ssize_t write_to(int file, const void *bytes, size_t size);

static unsigned long inode_of(int file)
{
    struct stat found;
    return fstat(file, &found) == 0 ? (unsigned long)found.st_ino : 0;
}

ssize_t write(int file, const void *bytes, size_t size)
{
    write_to *real = (write_to *)dlsym(RTLD_NEXT, "write");
    off_t begin = file > 2 ? lseek(file, 0, SEEK_CUR) : -1;
    ssize_t written = real(file, bytes, size);
    if (begin >= 0 && written > 0)
        dprintf(1, "wrote %lu %ld %ld\n", inode_of(file), (long)begin, (long)(begin + written));
    return written;
}

int fsync(int file)
{
    return dprintf(1, "synced %lu\n", inode_of(file)) < 0 ? -1 : 0;
}

int fdatasync(int file)
{
    const char *deleted = getenv("DELETE_AT_SYNC");
    if (deleted)
        unlink(deleted);
    return fsync(file);
}
