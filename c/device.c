/* Devices, and all that touches a file. Nothing proves this file. In its order: the table of devices and their locks; the tape, which is
 * what the library wants done to the file; files that are made and opened. */
#define _GNU_SOURCE
#include "device.h"
#include <errno.h>
#include <fcntl.h>
#include <pthread.h>
#include <stdio.h>
#include <stdlib.h>
#include <string.h>
#include <sys/file.h>
#include <sys/stat.h>
#include <unistd.h>

/* ---- Devices ---- */

enum { FIRST_ROOM = 65536, MOST_KEPT = 1 << 20, MOST_SHOWN = 6 };
#define NO_DEVICE {.fd = -1}
device isotope_devices[DEVICES] = {[0 ... DEVICES - 1] = NO_DEVICE};
static _Atomic isotope_device last_number;

void isotope_device_wait(device *d) {
    d->coming++;
    isotope_lock_wait(&d->lock);
    d->coming--;
}

/* In a child of fork(): it has none of the devices. A lock may be held by a thread that it has not, so all begin anew; what is in memory
 * of a device is let go where nobody was in a call. The file's lock stays, which is the parent's. */
static void forget_all(void) {
    for (device *d = isotope_devices; d < isotope_devices + DEVICES; d++) {
        if (try_lock(&d->lock)) {
            isotope_c_close(&d->slot);
            free(d->bytes);
        }
        if (d->fd >= 0) close(d->fd);
        *d = (device)NO_DEVICE;
    }
}

static void begin_once(void) { pthread_atfork(NULL, NULL, forget_all); }

/* Room for so many bytes. */
static int make_room(device *d, uint64_t n) {
    if (n <= d->room) return 1;
    uint8_t *more = realloc(d->bytes, n);
    if (!more) return 0;
    d->bytes = more;
    d->room = n;
    return 1;
}

/* A compaction wanted much. */
static void shrink(device *d) {
    uint8_t *less = realloc(d->bytes, FIRST_ROOM);
    if (!less) return;
    d->bytes = less;
    d->room = FIRST_ROOM;
}

/* The device is gone, or was never there: its place is free again. */
static int let_go(device *d, int status) {
    int error = errno;
    d->number = 0;
    isotope_c_close(&d->slot);
    if (d->fd >= 0) {
        flock(d->fd, LOCK_UN); /* a child may have the file too */
        close(d->fd);
    }
    free(d->bytes);
    d->bytes = NULL;
    d->room = 0;
    d->fd = -1;
    d->is_taken = 0;
    errno = error;
    return isotope_device_leave(d, status);
}

/* A free place, locked, with a number that no device had, and room to read and write. */
static int take_place(device **place) {
    static pthread_once_t once = PTHREAD_ONCE_INIT;
    pthread_once(&once, begin_once);
    for (int tries = 0; tries < DEVICES; tries++) {
        isotope_device next = ++last_number;
        device *d = &isotope_devices[next % DEVICES];
        if (d->is_taken) continue;
        if (!try_lock(&d->lock)) isotope_device_wait(d);
        if (d->is_taken) {
            isotope_device_leave(d, 0);
            continue;
        }
        d->is_taken = 1;
        d->next = next;
        if (!make_room(d, FIRST_ROOM)) return let_go(d, ISOTOPE_MEMORY);
        *place = d;
        return ISOTOPE_OK;
    }
    return ISOTOPE_TOO_MANY_DEVICES;
}

/* The device is there for all. */
static int show(device *d, isotope_device *number) {
    d->number = d->next;
    *number = d->next;
    return isotope_device_leave(d, ISOTOPE_OK);
}

/* ---- The tape ---- */

static int write_all(int fd, const uint8_t *bytes, uint64_t n, uint64_t at) {
    while (n > 0) {
        ssize_t put = pwrite(fd, bytes, n, (off_t)at);
        if (put < 0 && errno == EINTR) continue;
        if (put <= 0) return 0;
        bytes += put;
        n -= (uint64_t)put;
        at += (uint64_t)put;
    }
    return 1;
}

/* Does calls that are shown, in order, up to the first that is none. How many were done; -1: one failed. */
static int do_calls(int fd, const isotope_tape_call *calls, const uint8_t *bytes) {
    int n = 0;
    for (; n < MOST_SHOWN && calls->what <= TAPE_SYNC; n++, calls++) {
        if (calls->what == TAPE_SYNC ? fdatasync(fd) != 0 : !write_all(fd, bytes, calls->n, calls->at)) return -1;
        bytes += calls->n;
    }
    return n;
}

/* Does what is on the tape. How many calls, or -1: one failed. */
static int64_t do_tape(device *d) {
    isotope_tape_call calls[MOST_SHOWN];
    for (int64_t all = 0;;) {
        if (isotope_c_calls(&d->slot, (uint64_t)all, calls, MOST_SHOWN, d->bytes, d->room) != ISOTOPE_OK) return -1;
        int n = do_calls(d->fd, calls, d->bytes);
        if (n < 0) return -1;
        all += n;
        if (n == MOST_SHOWN) continue;
        if (calls[n].what == TAPE_END) return all;
        if (calls[n].what != TAPE_NO_ROOM || (n == 0 && !make_room(d, calls[0].n))) return -1;
    }
}

/* Does what is on the tape, in order, before a call is answered. Once a call failed the library is told: its tape is empty then and stays
 * so, and it answers that it is down from then on. */
int isotope_device_settle(device *d, int status) {
    int64_t calls = do_tape(d);
    if (calls < 0) {
        isotope_c_fail(&d->slot);
        return ISOTOPE_DISK;
    }
    if (calls > 0) isotope_c_handed_on(&d->slot);
    if (d->room > MOST_KEPT) shrink(d);
    return status;
}

/* ---- Files ---- */

/* Above standard error: else a later stream would be the image. */
static int open_above(const char *path, int flags) {
    int fd = open(path, flags | O_CLOEXEC, 0666);
    if (fd < 0 || fd > 2) return fd;
    int above = fcntl(fd, F_DUPFD_CLOEXEC, 3), error = errno;
    close(fd);
    errno = error;
    return above;
}

/* Makes the names in a file's folder stable. */
static int sync_folder(const char *path) {
    char *copy = strdup(path), *slash = copy ? strrchr(copy, '/') : NULL;
    if (!copy) return 0;
    if (slash) slash[slash == copy] = 0;
    int fd = open(slash ? copy : ".", O_RDONLY | O_DIRECTORY | O_CLOEXEC);
    free(copy);
    if (fd < 0) return 0;
    int done = fsync(fd) == 0, error = errno;
    close(fd);
    errno = error;
    return done;
}

/* A new file of another name beside this one, which it answers; the caller frees it. */
static char *make_file(device *d, const char *path) {
    char *name;
    for (int tries = 0; tries < 1000; tries++) {
        if (asprintf(&name, "%s.making-%ld-%llu-%d", path, (long)getpid(), (unsigned long long)d->next, tries) < 0) return NULL;
        d->fd = open_above(name, O_RDWR | O_CREAT | O_EXCL);
        if (d->fd >= 0) return name;
        free(name);
        if (errno != EEXIST) return NULL; /* a process that had this one's number was killed here */
    }
    return NULL;
}

/* Zeros, and the image over them. */
static int make_image(device *d, uint64_t size, const isotope_geometry *geometry) {
    if (flock(d->fd, LOCK_EX | LOCK_NB) != 0) return ISOTOPE_FILE;
    memset(d->bytes, 0, d->room);
    for (uint64_t at = 0; at < size; at += d->room)
        if (!write_all(d->fd, d->bytes, size - at < d->room ? size - at : d->room, at)) return ISOTOPE_FILE;
    if (fsync(d->fd) != 0) return ISOTOPE_FILE;
    int status = isotope_c_create(&d->slot, geometry);
    return status == ISOTOPE_OK && isotope_device_settle(d, status) != ISOTOPE_OK ? ISOTOPE_FILE : status;
}

/* Gives it its name, for good, or takes it away. */
static int name_image(const char *making, const char *path, int status) {
    if (status == ISOTOPE_OK && link(making, path) != 0) status = errno == EEXIST ? ISOTOPE_NAME_TAKEN : ISOTOPE_FILE;
    int error = errno;
    unlink(making);
    if (status == ISOTOPE_OK && !sync_folder(path)) {
        error = errno;
        unlink(path);
        status = ISOTOPE_FILE;
    }
    errno = error;
    return status;
}

int isotope_create(const char *path, const isotope_geometry *geometry, isotope_device *number) {
    uint64_t size = 0;
    device *d = NULL;
    int status = isotope_c_size(geometry, &size);
    *number = 0;
    if (status == ISOTOPE_OK && access(path, F_OK) == 0) status = ISOTOPE_NAME_TAKEN;
    if (status == ISOTOPE_OK) status = take_place(&d);
    if (status != ISOTOPE_OK) return status;
    char *making = make_file(d, path);
    if (!making) return let_go(d, errno == ENOMEM ? ISOTOPE_MEMORY : ISOTOPE_FILE);
    status = name_image(making, path, make_image(d, size, geometry));
    int error = errno;
    free(making);
    errno = error;
    return status == ISOTOPE_OK ? show(d, number) : let_go(d, status);
}

/* The file, locked. What an earlier process wrote and did not sync is made stable before it is read. */
static int open_file(device *d, const char *path, uint64_t *size) {
    struct stat about;
    d->fd = open_above(path, O_RDWR);
    if (d->fd < 0) return errno == ENOENT ? ISOTOPE_ABSENT : ISOTOPE_FILE;
    if (flock(d->fd, LOCK_EX | LOCK_NB) != 0) return errno == EWOULDBLOCK ? ISOTOPE_LOCKED : ISOTOPE_FILE;
    if (fsync(d->fd) != 0 || fstat(d->fd, &about) != 0) return ISOTOPE_FILE;
    *size = (uint64_t)about.st_size;
    return ISOTOPE_OK;
}

/* Hands the first bytes of the file to the library, in pieces, so that they are in memory once. */
static int read_file(device *d, uint64_t size) {
    int status = isotope_c_load(&d->slot, size);
    for (uint64_t at = 0; status == ISOTOPE_OK && at < size;) {
        ssize_t got = pread(d->fd, d->bytes, size - at < d->room ? size - at : d->room, (off_t)at);
        if (got < 0 && errno == EINTR) continue;
        if (got == 0) errno = EIO; /* it became shorter */
        if (got <= 0) return ISOTOPE_FILE;
        status = isotope_c_lay(&d->slot, at, d->bytes, (size_t)got);
        at += (uint64_t)got;
    }
    return status;
}

/* A file that is longer than any image is refused by its superblock alone. */
static int open_image(device *d, const char *path, isotope_refusal *why) {
    enum { SUPERBLOCK = 64, HEADER = 32 };
    const uint64_t most = SUPERBLOCK + 2 * (HEADER + (uint64_t)ISOTOPE_MOST_BLOCKS * ISOTOPE_MOST_BLOCK_SIZE + ISOTOPE_MOST_LOG);
    uint64_t size = 0;
    int status = open_file(d, path, &size);
    if (status == ISOTOPE_OK) status = read_file(d, size <= most ? size : SUPERBLOCK);
    if (status == ISOTOPE_OK) status = isotope_c_open(&d->slot, why);
    if (why->why == 3) why->have = size;
    return status == ISOTOPE_OK && isotope_device_settle(d, status) != ISOTOPE_OK ? ISOTOPE_FILE : status;
}

int isotope_open(const char *path, isotope_device *number, isotope_refusal *refusal) {
    isotope_refusal why = {0, 0, 0, 0};
    device *d = NULL;
    int status = take_place(&d);
    *number = 0;
    if (status == ISOTOPE_OK) {
        status = open_image(d, path, &why);
        status = status == ISOTOPE_OK ? show(d, number) : let_go(d, status);
    }
    if (refusal) *refusal = why;
    return status;
}

int isotope_close(isotope_device number) {
    device *d = isotope_device_enter(number);
    return d ? let_go(d, ISOTOPE_OK) : ISOTOPE_CLOSED;
}

