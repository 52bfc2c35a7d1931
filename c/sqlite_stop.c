/* Linked into sqlite_test with -Wl,--wrap=pwrite,--wrap=fdatasync,--wrap=fsync. The call of these that the variable STOP_AT numbers, in
 * their common order, writes half of its bytes, and then the process is gone with status 77; or, with STOP_FAILS, it and all later ones
 * fail. */
#include <errno.h>
#include <stdlib.h>
#include <sys/types.h>
#include <unistd.h>

ssize_t __real_pwrite(int, const void *, size_t, off_t);
int __real_fdatasync(int);
int __real_fsync(int);

static long calls, at = -1;
static int fails;

/* whether this call is the one, or a later one */
static int due(void) {
    if (at < 0) {
        const char *number = getenv("STOP_AT");
        at = number ? atol(number) : 0;
        fails = getenv("STOP_FAILS") != NULL;
    }
    calls++;
    return at > 0 && calls >= at;
}

static int stop(void) {
    if (!fails) _exit(77);
    errno = EIO;
    return -1;
}

ssize_t __wrap_pwrite(int fd, const void *bytes, size_t n, off_t where) {
    if (!due()) return __real_pwrite(fd, bytes, n, where);
    if (calls == at && n > 1 && __real_pwrite(fd, bytes, n / 2, where) < 0) _exit(78);
    return stop();
}

int __wrap_fdatasync(int fd) { return due() ? stop() : __real_fdatasync(fd); }
int __wrap_fsync(int fd) { return due() ? stop() : __real_fsync(fd); }
