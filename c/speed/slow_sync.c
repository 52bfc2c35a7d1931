/* LD_PRELOAD=slow_sync.so SYNC_US=2000 PROGRAM..: each sync takes so long, and does nothing. So a disk with slow syncs is seen on any machine. */
#define _GNU_SOURCE
#include <stdlib.h>
#include <sys/types.h>
#include <time.h>

static int pause_once(void) {
    static long us = -1;
    if (us < 0) us = getenv("SYNC_US") ? atol(getenv("SYNC_US")) : 0;
    struct timespec wait = {us / 1000000, us % 1000000 * 1000};
    if (us > 0) nanosleep(&wait, NULL);
    return 0;
}

int fsync(int fd) { (void)fd; return pause_once(); }
int fdatasync(int fd) { (void)fd; return pause_once(); }
int msync(void *at, size_t n, int how) { (void)at, (void)n, (void)how; return pause_once(); }
int sync_file_range(int fd, off64_t at, off64_t n, unsigned how) { (void)fd, (void)at, (void)n, (void)how; return pause_once(); }
