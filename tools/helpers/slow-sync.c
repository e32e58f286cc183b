// Has each sync of a file take two milliseconds, as on a slow disk, for tools/gate/check-journal and check-durable. Nothing is synced.
#include <time.h>

static int wait(void) {
    struct timespec two_milliseconds = {0, 2000000};
    return nanosleep(&two_milliseconds, 0);
}

int fdatasync(int file) { return (void)file, wait(); }

int fsync(int file) { return (void)file, wait(); }
