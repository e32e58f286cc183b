/* Preloaded into a program: refuses its allocation number REFUSE, the start of its thread number REFUSE_THREAD, or its
 * read, write or sync of a file number REFUSE_READ, REFUSE_WRITE or REFUSE_SYNC, each counted from 1, or each allocation of
 * more than LARGEST bytes, and says so on standard error. A write that is refused has written half, and fails. */
#define _GNU_SOURCE
#include <dlfcn.h>
#include <errno.h>
#include <pthread.h>
#include <stddef.h>
#include <stdlib.h>
#include <sys/types.h>
#include <unistd.h>

extern void *__libc_malloc(size_t size);
extern void *__libc_realloc(void *old, size_t size);

typedef int start_thread(pthread_t *thread, const pthread_attr_t *attributes, void *(*body)(void *), void *argument);

static long allocations_left = -1;
static long threads_left = -1;
static long reads_left = -1;
static long writes_left = -1;
static long syncs_left = -1;
static long largest = -1;

/* Reads a number from a variable of the environment, once; 0 where there is none. */
static void read_once(const char *variable, long *number)
{
    if (*number < 0) {
        const char *text = getenv(variable);
        *number = text ? atol(text) : 0;
    }
}

/* Says that a call is refused. */
static int refuse(void)
{
    static const char told[] = "refused\n";
    return write(2, told, sizeof told - 1) > 0;
}

/* Whether this call is the one to be refused, of those that a variable of the environment counts. */
static int is_refused(const char *variable, long *left)
{
    read_once(variable, left);
    return *left > 0 && --*left == 0 && refuse();
}

static int is_allocation_refused(size_t size)
{
    read_once("LARGEST", &largest);
    return is_refused("REFUSE", &allocations_left) || (largest > 0 && size > (size_t)largest && refuse());
}

void *malloc(size_t size)
{
    return is_allocation_refused(size) ? NULL : __libc_malloc(size);
}

void *realloc(void *old, size_t size)
{
    return is_allocation_refused(size) ? NULL : __libc_realloc(old, size);
}

int pthread_create(pthread_t *thread, const pthread_attr_t *attributes, void *(*body)(void *), void *argument)
{
    start_thread *start = (start_thread *)dlsym(RTLD_NEXT, "pthread_create");
    if (is_refused("REFUSE_THREAD", &threads_left))
        return EAGAIN;
    return start(thread, attributes, body, argument);
}

/* Fails as a damaged disk does. */
static int fail(void)
{
    errno = EIO;
    return -1;
}

typedef ssize_t read_at(int file, void *bytes, size_t size, off_t offset);
typedef ssize_t write_at(int file, const void *bytes, size_t size, off_t offset);
typedef int cut_to(int file, off_t size);
typedef int sync_file(int file);

ssize_t pread(int file, void *bytes, size_t size, off_t offset)
{
    read_at *real = (read_at *)dlsym(RTLD_NEXT, "pread");
    return is_refused("REFUSE_READ", &reads_left) ? fail() : real(file, bytes, size, offset);
}

ssize_t pwrite(int file, const void *bytes, size_t size, off_t offset)
{
    write_at *real = (write_at *)dlsym(RTLD_NEXT, "pwrite");
    if (is_refused("REFUSE_WRITE", &writes_left)) {
        (void)!real(file, bytes, size / 2, offset);
        return fail();
    }
    return real(file, bytes, size, offset);
}

int ftruncate(int file, off_t size)
{
    cut_to *real = (cut_to *)dlsym(RTLD_NEXT, "ftruncate");
    return is_refused("REFUSE_WRITE", &writes_left) ? fail() : real(file, size);
}

int fdatasync(int file)
{
    sync_file *real = (sync_file *)dlsym(RTLD_NEXT, "fdatasync");
    return is_refused("REFUSE_SYNC", &syncs_left) ? fail() : real(file);
}

int fsync(int file)
{
    sync_file *real = (sync_file *)dlsym(RTLD_NEXT, "fsync");
    return is_refused("REFUSE_SYNC", &syncs_left) ? fail() : real(file);
}
