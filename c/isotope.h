/* Isotope: a transactional block device in one image file, inside the caller's process.
 *
 *     #include "isotope.h"                                        cc program.c -I c -L c/out -l:libisotope.a -pthread
 *
 *     isotope_geometry geometry = ISOTOPE_DEFAULTS;
 *     isotope_device device;
 *     isotope_transaction tx;
 *     isotope_ended ended;
 *     int status = isotope_open("data.img", &device, NULL);
 *     if (status == ISOTOPE_ABSENT) status = isotope_create("data.img", &geometry, &device);
 *     if (status != ISOTOPE_OK) return status;
 *     do {
 *         status = isotope_begin(device, ISOTOPE_IMAGE_MODE, &tx, NULL);
 *         if (status == ISOTOPE_OK) status = isotope_put(device, tx, 2, 5, "hello", 5);
 *         if (status == ISOTOPE_OK) status = isotope_end(device, tx, &ended);
 *     } while (status == ISOTOPE_CONFLICT);                       OK: commit number ended.commit is stable on the disk
 *     isotope_close(device);
 *
 * A TRANSACTION is shown the image as the last commit before its begin left it, with its own writes on top. Its end makes all that it
 * wrote one commit, or none of it. In the mode ISOTOPE_SERIAL it conflicts where a later commit wrote a byte that it read, in
 * ISOTOPE_SNAPSHOT where one wrote a byte that it wrote. One that wrote nothing never conflicts.
 *
 * ACCESSES. A read, get, write, put or fill is one access, and a call of a store makes several. A transaction has up to
 * ISOTOPE_MOST_ACCESSES. isotope_peek() is none.
 *
 * NUMBERS. A device and a transaction are numbers, which the library looks up at each call. A device's number that was never given out,
 * or whose device is closed, is answered ISOTOPE_CLOSED; a transaction's that was never given out, or is over, or is another device's or
 * an earlier opening's, ISOTOPE_NO_TRANSACTION; nothing else happens then. 0 is neither a device nor a transaction, and what a call that
 * fails puts in place of one. A device's number is not given out twice in a process, a transaction's not before 16,777,216 more openings.
 *
 * POINTERS. A pointer leads to as many bytes as the call says, for the length of the call, and what one call is given does not overlap.
 * NULL may stand where that is said, and for bytes where their count is 0. Else a pointer that is NULL or leads elsewhere is undefined.
 *
 * THREADS. Any thread may make any call, for any device and any transaction. Calls of one device are made one after the other, those of
 * two side by side. Ends that wait at one time are made as one group of up to ISOTOPE_MOST_GROUP, which share two syncs; each is answered
 * as if they had come one after the other. An end may let calls that wait go first, 256 at most, and may wait for who was in the group
 * before it, 10 ms at most. A child of fork() has none of the devices: it is answered ISOTOPE_CLOSED. No call may be made
 * in a signal handler.
 *
 * STATUSES. Each call answers ISOTOPE_OK or a status below. Where a call says no more, device and transaction are as before after any
 * other status, and what the pointers lead to is unspecified. These may come from any call on an open device:
 *     ISOTOPE_CLOSED, ISOTOPE_NO_TRANSACTION   the number is none
 *     ISOTOPE_MEMORY                           want of memory; the same call may be made again
 *     ISOTOPE_DOWN                             an earlier call failed at the file: close the device, and open the image again
 *
 * CRASHES. Stop the process or the machine at any moment: the image opens to the last commit that an end was answered, or to one after it
 * that was under way. Nothing has to be repaired. There are no checksums: a byte that the disk changes by itself is read as it is.
 *
 * FILES. An open image is in memory, once and whole, and its file is locked (flock): one opening at a time.
 */
#ifndef ISOTOPE_H
#define ISOTOPE_H
#include <stddef.h>
#include <stdint.h>
#ifdef __cplusplus
extern "C" {
#endif

typedef uint64_t isotope_device;
typedef uint64_t isotope_transaction;

/* A number that stands here never gets another meaning. */
enum {
    ISOTOPE_OK = 0,
    ISOTOPE_CONFLICT = 1,               /* a later commit wrote what the transaction read: it is over. Begin again, and read again */
    ISOTOPE_MISSING = 2,                /* no such key, pair or file in the image */
    ISOTOPE_EXISTS = 3,                 /* the name has a file in the image */
    ISOTOPE_LOG_FULL = 4,               /* the commit has no room: end or abort older transactions, isotope_compact(), and end again */
    ISOTOPE_TOO_MANY_TRANSACTIONS = 5,  /* ISOTOPE_MOST_TRANSACTIONS are live, or more than ISOTOPE_MOST_GROUP are to end as a group */
    ISOTOPE_MODE_FIXED = 6,             /* the image has transactions of its own mode alone, until isotope_upgrade() */
    ISOTOPE_BAD_BLOCK = 7,              /* the image has no such block */
    ISOTOPE_BAD_RANGE = 8,              /* no bytes, or beyond the block, the file, or what one call may take */
    ISOTOPE_NO_ACCESS = 9,              /* a mark before any access */
    ISOTOPE_TOO_MANY_MARKS = 10,        /* an access has up to ISOTOPE_MOST_MARKS */
    ISOTOPE_TOO_MANY_ACCESSES = 11,     /* a transaction has up to ISOTOPE_MOST_ACCESSES */
    ISOTOPE_NO_STORE = 12,              /* the image has no such store, or no room for files */
    ISOTOPE_STORE_MODE = 13,            /* stores and files want a serial transaction */
    ISOTOPE_BAD_KEY = 14,               /* a key has 1 to ISOTOPE_MOST_KEY bytes */
    ISOTOPE_BAD_VALUE = 15,             /* a value has 0 to ISOTOPE_MOST_VALUE bytes */
    ISOTOPE_BAD_NAME = 16,              /* a file's name has 1 to ISOTOPE_MOST_NAME bytes */
    ISOTOPE_NO_BLOCKS = 17,             /* the store, or the room for files, has too few free blocks */
    ISOTOPE_BROKEN = 18,                /* a block is not what a store has to find there: something else wrote it */
    ISOTOPE_WORN = 19,                  /* the numbers of the image, or of this opening, are used up */
    ISOTOPE_MEMORY = 20,                /* want of memory, before anything was made */
    ISOTOPE_DISK = 21,                  /* the file failed in this call, or memory for what goes to it was wanting; the device is down */
    ISOTOPE_DOWN = 22,                  /* it failed before */
    ISOTOPE_NO_TRANSACTION = 23,        /* the device has no live transaction of this number */
    ISOTOPE_CLOSED = 24,                /* no device of this number is open */
    /* 25 stays inside the library */
    ISOTOPE_NO_IMAGE = 26,              /* the file is no Isotope image */
    ISOTOPE_BAD_GEOMETRY = 27,          /* no image has such numbers */
    ISOTOPE_TOO_SMALL = 28,             /* the buffer has not the length of what is shown */
    ISOTOPE_BAD_MODE = 29,              /* no such mode */
    ISOTOPE_FILE = 30,                  /* the file cannot be made, opened, locked, read or written: errno says why */
    ISOTOPE_TOO_MANY_DEVICES = 31,      /* a process has up to ISOTOPE_MOST_DEVICES open */
    ISOTOPE_ABSENT = 32,                /* there is no file of this name */
    ISOTOPE_LOCKED = 33,                /* another opening has the file, here or in another process */
    ISOTOPE_NAME_TAKEN = 34,            /* there is a file of this name, and no image is made over it */
    ISOTOPE_DAMAGED = 35                /* the file begins as an image, and is none */
};

enum { ISOTOPE_IMAGE_MODE = 0, ISOTOPE_SERIAL = 1, ISOTOPE_SNAPSHOT = 2 };

enum {
    ISOTOPE_MOST_DEVICES = 64,          /* open at once in a process */
    ISOTOPE_MOST_TRANSACTIONS = 1024,   /* live at once on a device */
    ISOTOPE_MOST_ACCESSES = 4096,       /* of a transaction */
    ISOTOPE_MOST_MARKS = 8,             /* of an access, and ranges of isotope_put_ranges() */
    ISOTOPE_MOST_GROUP = 64,            /* that end together, as a group or because they wait at one time */
    ISOTOPE_LEAST_BLOCK_SIZE = 64,
    ISOTOPE_MOST_BLOCK_SIZE = 4096,
    ISOTOPE_MOST_BLOCKS = 16384,
    ISOTOPE_LEAST_LOG = 64,
    ISOTOPE_MOST_LOG = 67108864,
    ISOTOPE_MOST_KEY = 28,
    ISOTOPE_MOST_VALUE = 32,
    ISOTOPE_MOST_NAME = 28,
    ISOTOPE_MOST_FILE_BYTES = 4096      /* of a file, in one read or write */
};

/* The numbers of an image. block_size: a power of two. log: its bytes; a commit takes 20, 8 for each run of bytes it wrote, and those
 * bytes, and one byte stays free. mode: ISOTOPE_SERIAL or ISOTOPE_SNAPSHOT. The first `hash` blocks are the hash store and the `tree` after
 * them the tree store, 0 for none; else `hash` is 3 to 8 (block_size - 64) and `tree` 2 to the same, with block_size at least 256 and the
 * serial mode. With a tree store the blocks after it have room for files, where there are two or more; their names are its keys. Calls on
 * blocks do not keep off a store's. */
typedef struct { uint32_t block_size, blocks, log, mode, hash, tree; } isotope_geometry;
#define ISOTOPE_DEFAULTS {4096, 1024, 4194304, ISOTOPE_SERIAL, 0, 0}

/* How a transaction ended; the status says which fields count, and the others are 0. OK: `commit`, its number, 0 where it wrote nothing.
 * CONFLICT: with commit `with`, first in `block` at byte `at`. LOG_FULL: it needs `need` bytes of the log, which has `room`. */
typedef struct { int32_t status; uint32_t block, at, pad; uint64_t commit, with, need, room; } isotope_ended;

/* A range of a block: `n` bytes from `off` on. */
typedef struct { uint32_t off, n; } isotope_range;

/* last: the last commit's number. base: the commit before the log's first. trim: no transaction can be shown an older commit. versions:
 * how many are kept. oldest: the live transaction that began first and so keeps the log from being compacted further, 0 for none.
 * live: how many are. used, log: bytes of the log that records take, and all. form: 1, or 2 after isotope_upgrade(). */
typedef struct { uint64_t last, base, trim, versions, oldest; uint32_t live, used, log, form; } isotope_numbers;

/* Why an image did not open. why: 0 nothing; 1 it is no Isotope image; 2 bad geometry, the field `what`; 3 wrong size, `at` is wanted, it
 * has `have`; 4 no open half; 5 damaged at byte `at` with cause `what`; 6 the unknown form `what`. docs/image.md has fields and causes. */
typedef struct { uint32_t why, what; uint64_t at, have; } isotope_refusal;

/* ---- Devices ---- */

/* A text for a status, which stays. */
const char *isotope_strerror(int status);

/* Makes a new file with an image on which nothing was committed, and opens it. It is made under another name in the same folder and then
 * linked, so that this name never has half an image; a process that is killed meanwhile may leave the file NAME.making-..
 * NAME_TAKEN; BAD_GEOMETRY, BAD_MODE; TOO_MANY_DEVICES; MEMORY; FILE with errno. After any of these there is no new file. */
int isotope_create(const char *path, const isotope_geometry *geometry, isotope_device *device);
/* Opens an image, whose form, sizes and last commit isotope_about and isotope_stat tell. ABSENT; LOCKED; NO_IMAGE and DAMAGED, with the
 * reason in *refusal, which may be NULL; TOO_MANY_DEVICES; MEMORY; FILE with errno. The file is as it was after any of these. */
int isotope_open(const char *path, isotope_device *device, isotope_refusal *refusal);
/* The reason in words, as "damaged at 64 cause 5", in up to n bytes with the 0 behind it; answers `into`. 64 bytes are enough. */
const char *isotope_refusal_text(const isotope_refusal *refusal, char *into, size_t n);
/* Aborts what is live and lets the file go. A call that waits for the device is answered CLOSED. Only CLOSED may be refused. */
int isotope_close(isotope_device device);
/* The numbers with which the image was made. */
int isotope_about(isotope_device device, isotope_geometry *geometry);
int isotope_stat(isotope_device device, isotope_numbers *numbers);

/* Makes room in the log: what no live transaction can be shown any more goes into the base, in the other half of the file.
 * WORN; DISK: the device is down, and the image opens to the same commits. */
int isotope_compact(isotope_device device);
/* The same, and transactions of either mode may begin from then on. There is no way back. */
int isotope_upgrade(isotope_device device);
/* Lets versions go from memory that no transaction can be shown any more. It writes nothing. */
int isotope_trim(isotope_device device);

/* ---- Transactions ---- */

/* Begins one, in a mode or the image's. *at is the commit that it is shown; `at` may be NULL. BAD_MODE, MODE_FIXED,
 * TOO_MANY_TRANSACTIONS, WORN. */
int isotope_begin(isotope_device device, int mode, isotope_transaction *tx, uint64_t *at);
/* Ends one. *ended has the status too, and what belongs to it; `ended` may be NULL.
 * OK: it is over, and its commit is stable. CONFLICT: it is over, and nothing of it stands. LOG_FULL, WORN, MEMORY: it stays as it was.
 * DISK: it is over, and its commit is in the image or it is not, as the next opening shows; the device is down. */
int isotope_end(isotope_device device, isotope_transaction tx, isotope_ended *ended);
/* Ends up to ISOTOPE_MOST_GROUP in this order, each as by an end directly after the one before, with two syncs for all: whatever happens
 * all their commits stand, or none. OK: ended[i] is how the i-th ended, which may be NO_TRANSACTION, also where it stood in the list
 * before; one that is told LOG_FULL or WORN is over too. TOO_MANY_TRANSACTIONS: nothing happened. MEMORY, DISK: all are over, ended[i]
 * has the status too, and the device is down. `ended` may be NULL only where n is 0. */
int isotope_end_group(isotope_device device, const isotope_transaction *txs, size_t n, isotope_ended *ended);
/* Ends one with nothing of it left. */
int isotope_abort(isotope_device device, isotope_transaction tx);
/* How many accesses it may still make. */
int isotope_room(isotope_device device, isotope_transaction tx, uint32_t *accesses);

/* ---- Blocks ----  BAD_BLOCK, BAD_RANGE, TOO_MANY_ACCESSES: nothing happened. */

/* Reads a whole block. `n` is its size, else TOO_SMALL, which counts as an access. */
int isotope_read(isotope_device device, isotope_transaction tx, uint32_t block, void *into, size_t n);
/* Writes a whole block. `n` is its size, else BAD_RANGE. */
int isotope_write(isotope_device device, isotope_transaction tx, uint32_t block, const void *bytes, size_t n);
/* Reads or writes `n` bytes of a block from `off` on. */
int isotope_get(isotope_device device, isotope_transaction tx, uint32_t block, uint32_t off, void *into, size_t n);
int isotope_put(isotope_device device, isotope_transaction tx, uint32_t block, uint32_t off, const void *bytes, size_t n);
/* Shows what isotope_get() would, and is no access: no conflict comes of it, and there may be any number. */
int isotope_peek(isotope_device device, isotope_transaction tx, uint32_t block, uint32_t off, void *into, size_t n);
/* Writes these ranges of a block, as one access; `bytes` and `n` are of the whole block, and its other bytes are not looked at.
 * BAD_RANGE: also without a range. TOO_MANY_MARKS: more than ISOTOPE_MOST_MARKS. After MEMORY abort: some of it may be written. */
int isotope_put_ranges(isotope_device device, isotope_transaction tx, uint32_t block, const void *bytes, size_t n,
                       const isotope_range *ranges, size_t count);
/* Writes a block full of one byte. */
int isotope_fill(isotope_device device, isotope_transaction tx, uint32_t block, uint8_t byte);
/* Narrows the last access to a range of its block: what conflicts with it, and of a write what is written. A further mark adds a range. A
 * put, a get and a put of ranges have their marks. NO_ACCESS, TOO_MANY_MARKS, BAD_RANGE. */
int isotope_mark(isotope_device device, isotope_transaction tx, uint32_t off, uint32_t n);

/* ---- Stores ----  A transaction has to be serial, and the image to have the store: NO_STORE, STORE_MODE, BAD_KEY, BAD_VALUE,
 * TOO_MANY_ACCESSES, NO_BLOCKS, BROKEN: nothing is written, but what was read remains among the accesses. After MEMORY of a put or a
 * delete abort: some of it may be written. A get and a scan put what they find into `room` bytes, and its length into *n, also where that
 * is more (TOO_SMALL, and none of it is put there); `n` may be NULL. MISSING: there is no such key. */
int isotope_hash_put(isotope_device device, isotope_transaction tx, const void *key, size_t key_n, const void *value, size_t value_n);
int isotope_hash_get(isotope_device device, isotope_transaction tx, const void *key, size_t key_n, void *into, size_t room, uint64_t *n);
int isotope_hash_delete(isotope_device device, isotope_transaction tx, const void *key, size_t key_n);
int isotope_tree_put(isotope_device device, isotope_transaction tx, const void *key, size_t key_n, const void *value, size_t value_n);
int isotope_tree_get(isotope_device device, isotope_transaction tx, const void *key, size_t key_n, void *into, size_t room, uint64_t *n);
int isotope_tree_delete(isotope_device device, isotope_transaction tx, const void *key, size_t key_n);
/* The first pairs with from <= key < to, at most `most`, in rising order: of each a byte with the key's length, the key, a byte with the
 * value's length, the value. MISSING: there is none. BAD_RANGE: `most` is 0. */
int isotope_tree_scan(isotope_device device, isotope_transaction tx, const void *from, size_t from_n, const void *to, size_t to_n,
                      uint32_t most, void *into, size_t room, uint64_t *n);

/* ---- Files ----  As stores, on the blocks after the tree store. BAD_NAME; MISSING: there is no such file. A call that is refused after
 * it has written (TOO_MANY_ACCESSES, BROKEN) keeps that: abort then. */

/* Makes an empty file. EXISTS. */
int isotope_file_create(isotope_device device, isotope_transaction tx, const char *name);
/* Writes 1 to ISOTOPE_MOST_FILE_BYTES at `off`, which is up to the file's size; it grows where they pass its end, to (block_size - 64) / 4
 * blocks at most. BAD_RANGE. */
int isotope_file_write(isotope_device device, isotope_transaction tx, const char *name, uint32_t off, const void *bytes, size_t n);
/* The bytes from `off` on, which is up to the file's size: as many as there are and `room` has, at most ISOTOPE_MOST_FILE_BYTES. *n says
 * how many, 0 at the end; `n` may be NULL. BAD_RANGE. */
int isotope_file_read(isotope_device device, isotope_transaction tx, const char *name, uint32_t off, void *into, size_t room, uint64_t *n);
/* How many bytes it has. It reads eight bytes of the file's first block alone, which a write changes only where the file grows. */
int isotope_file_size(isotope_device device, isotope_transaction tx, const char *name, uint64_t *n);
/* EXISTS: `to` has a file, also where it is `from`. */
int isotope_file_rename(isotope_device device, isotope_transaction tx, const char *from, const char *to);
int isotope_file_remove(isotope_device device, isotope_transaction tx, const char *name);

#ifdef __cplusplus
}
#endif
#endif
