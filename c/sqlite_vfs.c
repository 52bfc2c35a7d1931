/* An SQLite VFS over isotope.h: a database lives in an Isotope image, and its transactions are Isotope's. No journal file, no WAL.
 *
 *     linked:  cc -DSQLITE_CORE sqlite_vfs.c .. libisotope.a -lsqlite3 -pthread     sqlite3_isotope_register(), then open
 *              "file:data.img?vfs=isotope" with SQLITE_OPEN_URI
 *     loaded:  cc -shared -fPIC sqlite_vfs.c libisotope.a -pthread -o isotope_vfs.so   then in the shell
 *              .load ./isotope_vfs     .open file:data.img?vfs=isotope
 *
 * Words of the URI: blocks= and log= are the numbers of a new image. optimistic=1: no lock between the connections of a process, and who
 * commits second is told SQLITE_BUSY at its commit; without it one connection writes at a time, as in WAL mode, and readers are never in
 * the way. pages=1: pages are written whole, else the bytes of them that changed. The first opening of an image decides the last two.
 *
 * WHERE THINGS ARE. Page n of the database (4,096 bytes, from 1) is block n of the image. Block 0 is the head: "ISOSQLV1", the bytes of the
 * database and a count of its commits, each eight bytes, the highest first.
 *
 * TRANSACTIONS. From the shared lock on a connection has one transaction for reads, a snapshot; it only peeks, so it has no limit. From the
 * first xWrite on it has another, for writes, which reads and writes the head: so of any two that write the second one to end conflicts,
 * whatever pages were read from SQLite's cache. SQLITE_FCNTL_SYNC ends it (it comes before xSync, and in its place where synchronous is
 * OFF), and xUnlock aborts one that was not ended. */
#ifdef SQLITE_CORE
#include <sqlite3.h>
#else
#include <sqlite3ext.h>
SQLITE_EXTENSION_INIT1
#endif
#include "isotope.h"
#include <stdlib.h>
#include <string.h>
#include <strings.h>

enum { PAGE = 4096, HEAD = 24, NEW_BLOCKS = 4096, NEW_LOG = 16777216 };

/* An open image, and the connections of this process that share it. */
typedef struct image image;

/* A connection's database file, as SQLite has it. Only its own thread uses it. */
typedef struct {
    sqlite3_file base;
    image *image;
    int lock;                       /* SQLITE_LOCK_NONE, .. */
    isotope_transaction shown;      /* for reads; 0: none */
    isotope_transaction changes;    /* for writes; 0: none */
    uint64_t at;                    /* the commit that is shown under this lock */
    int64_t size, new_size;         /* bytes of the database at that commit, and with the changes */
    uint64_t count;                 /* the count of commits in the head then */
    int doom;                       /* not 0: the changes were given up, and SQLite is told so until it unlocks */
    int ended;                      /* under this lock changes were committed, and none came after them .. */
    int64_t shrink;                 /* .. but the wish for this size; -1: no wish */
    unsigned char written[ISOTOPE_MOST_BLOCKS / 8];     /* a bit for each block that the changes wrote */
} file;

struct image {
    char *path;
    isotope_device device;
    int connections, optimistic, whole_pages;
    uint32_t blocks;
    file *writer;                   /* who has the reserved lock */
    image *next;
};

/* The mutex guards this list, and `connections` and `writer` of each image. isotope.h has a lock of its own for each device. */
static image *images;
static sqlite3_mutex *mutex;
static sqlite3_vfs *below;          /* the VFS of temporary files, and of all that is no file */

/* ---- numbers ---- */

static const char magic[] = "ISOSQLV1";

static void put64(unsigned char *into, uint64_t n) {
    for (int i = 7; i >= 0; i--, n >>= 8) into[i] = (unsigned char)n;
}

static uint64_t get64(const unsigned char *from) {
    uint64_t n = 0;
    for (int i = 0; i < 8; i++) n = n << 8 | from[i];
    return n;
}

/* SQLite's code for a status of isotope.h; `otherwise` where it has none of its own. */
static int code_of(int status, int otherwise) {
    switch (status) {
    case ISOTOPE_OK: return SQLITE_OK;
    case ISOTOPE_CONFLICT: case ISOTOPE_TOO_MANY_TRANSACTIONS: return SQLITE_BUSY;
    case ISOTOPE_LOG_FULL: case ISOTOPE_TOO_MANY_ACCESSES: case ISOTOPE_WORN: case ISOTOPE_BAD_BLOCK: return SQLITE_FULL;
    case ISOTOPE_MEMORY: return SQLITE_IOERR_NOMEM;
    case ISOTOPE_NO_IMAGE: return SQLITE_NOTADB;
    default: return otherwise;
    }
}

/* ---- transactions ---- */

static void drop(file *f, isotope_transaction *transaction) {
    if (*transaction) isotope_abort(f->image->device, *transaction);
    *transaction = 0;
}

/* What block 0 says, as a transaction is shown it. With `claim` the transaction conflicts with any other that writes. */
static int read_head(file *f, isotope_transaction transaction, int claim) {
    static const unsigned char blank[HEAD];
    unsigned char head[HEAD];
    isotope_device device = f->image->device;
    int status = claim ? isotope_get(device, transaction, 0, 0, head, HEAD) : isotope_peek(device, transaction, 0, 0, head, HEAD);
    if (status != ISOTOPE_OK) return status;
    if (memcmp(head, magic, 8) != 0 && memcmp(head, blank, HEAD) != 0) return ISOTOPE_NO_IMAGE;     /* blank: a new image */
    f->size = (int64_t)get64(head + 8);
    f->count = get64(head + 16);
    return ISOTOPE_OK;
}

/* Begins the transaction for reads. Under a lock it has to show the commit that was shown before, as SQLite has pages of it. */
static int show(file *f) {
    uint64_t at = 0;
    if (f->shown) return SQLITE_OK;
    int status = isotope_begin(f->image->device, ISOTOPE_IMAGE_MODE, &f->shown, &at);
    if (status != ISOTOPE_OK) {
        f->shown = 0;
        return code_of(status, SQLITE_IOERR_READ);
    }
    if (f->lock != SQLITE_LOCK_NONE && at != f->at) {
        drop(f, &f->shown);
        return SQLITE_BUSY;
    }
    f->at = at;
    status = read_head(f, f->shown, 0);
    if (status != ISOTOPE_OK) drop(f, &f->shown);
    return code_of(status, SQLITE_IOERR_READ);
}

/* The changes are given up. After SQLITE_BUSY at a COMMIT SQLite keeps its own transaction open, and has marked its pages clean: a second
 * COMMIT makes an xSync alone, which must not be answered OK. And what it writes when it rolls back has to fail: then it drops its cache,
 * unlocks, and reads all anew. */
static int doom(file *f, int code) {
    drop(f, &f->changes);
    return f->doom = code;
}

static int begin_changes(file *f) {
    uint64_t at = 0;
    if (f->changes) return SQLITE_OK;
    if (f->doom) return SQLITE_IOERR_WRITE;
    int status = isotope_begin(f->image->device, ISOTOPE_IMAGE_MODE, &f->changes, &at);
    if (status != ISOTOPE_OK) {
        f->changes = 0;
        return doom(f, code_of(status, SQLITE_IOERR_WRITE));
    }
    if (at != f->at) return doom(f, SQLITE_BUSY);
    status = read_head(f, f->changes, 1);
    if (status != ISOTOPE_OK) return doom(f, code_of(status, SQLITE_IOERR_WRITE));
    memset(f->written, 0, sizeof f->written);
    f->new_size = f->size;
    return SQLITE_OK;
}

/* Ends the changes; where the log is full, once more after a compaction. No compaction makes room for more than the whole log has. */
static int end_with_room(file *f, isotope_ended *ended) {
    isotope_device device = f->image->device;
    isotope_numbers numbers;
    int status = isotope_end(device, f->changes, ended);
    if (status != ISOTOPE_LOG_FULL) return status;
    if (isotope_stat(device, &numbers) == ISOTOPE_OK && ended->need > numbers.log) return status;
    int made = isotope_compact(device);
    if (made == ISOTOPE_DISK || made == ISOTOPE_DOWN) return ISOTOPE_DOWN;
    return made == ISOTOPE_OK ? isotope_end(device, f->changes, ended) : status;
}

static int end_changes(file *f) {
    isotope_device device = f->image->device;
    unsigned char head[HEAD];
    isotope_ended ended;
    if (f->doom) return f->doom;
    if (!f->changes) return SQLITE_OK;
    memcpy(head, magic, 8);
    put64(head + 8, (uint64_t)f->new_size);
    put64(head + 16, f->count + 1);
    int status = isotope_put(device, f->changes, 0, 0, head, HEAD);
    if (status == ISOTOPE_OK) status = end_with_room(f, &ended);
    if (status == ISOTOPE_OK || status == ISOTOPE_CONFLICT || status == ISOTOPE_DISK) f->changes = 0;       /* it is over */
    if (status != ISOTOPE_OK) return doom(f, code_of(status, SQLITE_IOERR_FSYNC));
    f->at = ended.commit;
    f->ended = 1;
    f->shrink = -1;
    drop(f, &f->shown);
    show(f);                        /* where this fails the next read tries again */
    return SQLITE_OK;
}

/* ---- pages ---- */

enum { GAP = 16 };                  /* ranges that are nearer to each other are one: each takes eight bytes of the log */

/* Makes one of the two ranges that are nearest to each other. */
static void join_nearest(isotope_range *ranges, size_t count) {
    size_t nearest = 1;
    uint32_t least = PAGE;
    for (size_t i = 1; i < count; i++) {
        uint32_t gap = ranges[i].off - (ranges[i - 1].off + ranges[i - 1].n);
        if (gap < least) {
            least = gap;
            nearest = i;
        }
    }
    ranges[nearest - 1].n = ranges[nearest].off + ranges[nearest].n - ranges[nearest - 1].off;
    memmove(ranges + nearest, ranges + nearest + 1, (count - nearest - 1) * sizeof *ranges);
}

/* The bytes in which two pages differ, as ranges with room for one more than ISOTOPE_MOST_MARKS. */
static size_t differences(const unsigned char *old, const unsigned char *new, isotope_range *ranges) {
    size_t count = 0;
    for (uint32_t i = 0; i < PAGE;) {
        if (i % 64 == 0 && memcmp(old + i, new + i, 64) == 0) {
            i += 64;
            continue;
        }
        if (old[i] == new[i]) {
            i++;
            continue;
        }
        uint32_t from = i;
        while (i < PAGE && old[i] != new[i]) i++;
        isotope_range *last = count > 0 ? &ranges[count - 1] : NULL;
        if (last && from - (last->off + last->n) <= GAP) last->n = i - last->off;
        else ranges[count++] = (isotope_range){from, i - from};
        if (count > ISOTOPE_MOST_MARKS) join_nearest(ranges, count--);
    }
    return count;
}

static int is_written(const file *f, uint32_t block) { return f->written[block / 8] >> block % 8 & 1; }

/* Writes of a page what is other than before: a small record of the log. A page that is as before is no access. */
static int write_page(file *f, uint32_t block, const unsigned char *bytes) {
    isotope_device device = f->image->device;
    unsigned char old[PAGE];
    isotope_range ranges[ISOTOPE_MOST_MARKS + 1];
    int status = ISOTOPE_NO_TRANSACTION;
    if (!f->image->whole_pages) status = isotope_peek(device, is_written(f, block) ? f->changes : f->shown, block, 0, old, PAGE);
    if (status == ISOTOPE_OK) {
        size_t count = differences(old, bytes, ranges);
        if (count == 0) return ISOTOPE_OK;
        status = isotope_put_ranges(device, f->changes, block, bytes, PAGE, ranges, count);
    } else {
        status = isotope_write(device, f->changes, block, bytes, PAGE);
    }
    if (status == ISOTOPE_OK) f->written[block / 8] |= (unsigned char)(1 << block % 8);
    return status;
}

/* ---- a file's methods ---- */

static int x_read(sqlite3_file *p, void *into, int n, sqlite3_int64 at) {
    file *f = (file *)p;
    unsigned char *to = into;
    int passing = !f->shown && f->lock == SQLITE_LOCK_NONE;     /* SQLite reads the header before it locks */
    int code = show(f), status = ISOTOPE_OK, cut = 0;
    if (code != SQLITE_OK) return code;
    int64_t size = f->changes ? f->new_size : f->size;
    if (at + n > size) {
        int there = at < size ? (int)(size - at) : 0;
        memset(to + there, 0, (size_t)(n - there));
        n = there;
        cut = 1;
    }
    while (n > 0 && status == ISOTOPE_OK) {
        uint32_t block = (uint32_t)(at / PAGE) + 1, off = (uint32_t)(at % PAGE);
        int part = n < (int)(PAGE - off) ? n : (int)(PAGE - off);
        isotope_transaction own = f->changes && is_written(f, block) ? f->changes : f->shown;
        status = isotope_peek(f->image->device, own, block, off, to, (size_t)part);
        to += part;
        at += part;
        n -= part;
    }
    if (passing) drop(f, &f->shown);
    if (status != ISOTOPE_OK) return code_of(status, SQLITE_IOERR_READ);
    return cut ? SQLITE_IOERR_SHORT_READ : SQLITE_OK;
}

static int x_write(sqlite3_file *p, const void *bytes, int n, sqlite3_int64 at) {
    file *f = (file *)p;
    int code = begin_changes(f);
    if (code != SQLITE_OK) return code;
    if (n != PAGE || at % PAGE != 0) return doom(f, SQLITE_IOERR_WRITE);        /* pages of another size */
    if (at / PAGE >= (int64_t)f->image->blocks - 1) return doom(f, SQLITE_FULL);
    int status = write_page(f, (uint32_t)(at / PAGE) + 1, bytes);
    if (status != ISOTOPE_OK) return doom(f, code_of(status, SQLITE_IOERR_WRITE));
    f->ended = 0;
    if (at + n > f->new_size) f->new_size = at + n;
    return SQLITE_OK;
}

static int x_truncate(sqlite3_file *p, sqlite3_int64 size) {
    file *f = (file *)p;
    if (f->ended && !f->changes && !f->doom) {      /* of a VACUUM, after its commit: done at SQLITE_FCNTL_COMMIT_PHASETWO */
        f->shrink = size;
        return SQLITE_OK;
    }
    int code = begin_changes(f);
    if (code != SQLITE_OK) return code;
    if (size > ((int64_t)f->image->blocks - 1) * PAGE) return doom(f, SQLITE_FULL);
    f->new_size = size;
    return SQLITE_OK;
}

/* After SQLITE_FCNTL_SYNC nothing is left to do, but to say once more how that went. */
static int x_sync(sqlite3_file *p, int flags) {
    (void)flags;
    return end_changes((file *)p);
}

static int x_size(sqlite3_file *p, sqlite3_int64 *size) {
    file *f = (file *)p;
    int passing = !f->shown && f->lock == SQLITE_LOCK_NONE;
    int code = show(f);
    if (code != SQLITE_OK) return code;
    *size = f->changes ? f->new_size : f->size;
    if (passing) drop(f, &f->shown);
    return SQLITE_OK;
}

/* The reserved lock, a word in memory: while one connection has it no other one commits. Who was shown an older commit cannot write. */
static int reserve(file *f) {
    image *im = f->image;
    isotope_numbers numbers;
    int code = SQLITE_OK;
    sqlite3_mutex_enter(mutex);
    if (im->writer && im->writer != f) code = SQLITE_BUSY;
    else if (!im->writer) {
        code = code_of(isotope_stat(im->device, &numbers), SQLITE_IOERR_LOCK);
        if (code == SQLITE_OK && numbers.last != f->at) code = SQLITE_BUSY_SNAPSHOT;
        if (code == SQLITE_OK) im->writer = f;
    }
    sqlite3_mutex_leave(mutex);
    return code;
}

static void unreserve(file *f) {
    sqlite3_mutex_enter(mutex);
    if (f->image->writer == f) f->image->writer = NULL;
    sqlite3_mutex_leave(mutex);
}

static int x_lock(sqlite3_file *p, int level) {
    file *f = (file *)p;
    int code = SQLITE_OK;
    if (f->lock == SQLITE_LOCK_NONE && level >= SQLITE_LOCK_SHARED) {
        f->doom = 0;
        code = show(f);
    }
    if (code == SQLITE_OK && level >= SQLITE_LOCK_RESERVED && !f->image->optimistic) code = reserve(f);
    if (code == SQLITE_OK && level > f->lock) f->lock = level;
    return code;
}

static int x_unlock(sqlite3_file *p, int level) {
    file *f = (file *)p;
    if (level <= SQLITE_LOCK_SHARED) {
        drop(f, &f->changes);
        f->doom = f->ended = 0;
        unreserve(f);
    }
    if (level == SQLITE_LOCK_NONE) drop(f, &f->shown);
    if (level < f->lock) f->lock = level;
    return SQLITE_OK;
}

static int x_check_reserved(sqlite3_file *p, int *out) {
    file *f = (file *)p;
    sqlite3_mutex_enter(mutex);
    *out = f->image->writer != NULL;
    sqlite3_mutex_leave(mutex);
    return SQLITE_OK;
}

/* The size that a VACUUM asked for, in a commit of its own. A database that stays longer than its pages is no harm. */
static void shrink_now(file *f) {
    if (f->ended && f->shrink >= 0) {
        int64_t size = f->shrink;
        if (begin_changes(f) == SQLITE_OK) {
            f->new_size = size;
            end_changes(f);
        }
        f->doom = 0;
    }
    f->shrink = -1;
}

/* Refuses what the VFS cannot keep: other journals, other page sizes, and an exclusive locking mode, in which no xUnlock would end a
 * doomed transaction. */
static int check_pragma(char **words) {
    const char *name = words[1], *value = words[2];
    if (!value) return SQLITE_NOTFOUND;
    if (strcasecmp(name, "journal_mode") == 0 && strcasecmp(value, "memory") != 0 && strcasecmp(value, "off") != 0)
        words[0] = sqlite3_mprintf("an Isotope image has journal_mode memory or off, not %s", value);
    else if (strcasecmp(name, "locking_mode") == 0 && strcasecmp(value, "normal") != 0)
        words[0] = sqlite3_mprintf("an Isotope image has locking_mode normal");
    else if (strcasecmp(name, "page_size") == 0 && atoi(value) != PAGE)
        words[0] = sqlite3_mprintf("an Isotope image has pages of 4096 bytes");
    else
        return SQLITE_NOTFOUND;
    return SQLITE_ERROR;
}

static int x_control(sqlite3_file *p, int op, void *arg) {
    file *f = (file *)p;
    switch (op) {
    case SQLITE_FCNTL_SYNC: return end_changes(f);
    case SQLITE_FCNTL_COMMIT_PHASETWO: shrink_now(f); return SQLITE_NOTFOUND;
    case SQLITE_FCNTL_PRAGMA: return check_pragma(arg);
    case SQLITE_FCNTL_VFSNAME: *(char **)arg = sqlite3_mprintf("isotope"); return SQLITE_OK;
    case SQLITE_FCNTL_HAS_MOVED: *(int *)arg = 0; return SQLITE_OK;
    default: return SQLITE_NOTFOUND;
    }
}

static int x_sector_size(sqlite3_file *p) {
    (void)p;
    return PAGE;
}

static int x_characteristics(sqlite3_file *p) {
    (void)p;
    return SQLITE_IOCAP_POWERSAFE_OVERWRITE | SQLITE_IOCAP_UNDELETABLE_WHEN_OPEN;
}

/* A connection less; the last one closes the image. Under the mutex. */
static void let_go(image *im) {
    image **at = &images;
    if (--im->connections > 0) return;
    while (*at != im) at = &(*at)->next;
    *at = im->next;
    isotope_close(im->device);
    free(im->path);
    free(im);
}

static int x_close(sqlite3_file *p) {
    file *f = (file *)p;
    drop(f, &f->changes);
    drop(f, &f->shown);
    unreserve(f);
    sqlite3_mutex_enter(mutex);
    let_go(f->image);
    sqlite3_mutex_leave(mutex);
    return SQLITE_OK;
}

/* Version 1: no shared memory, so no WAL; no mapped pages. */
static const sqlite3_io_methods methods = {
    .iVersion = 1, .xClose = x_close, .xRead = x_read, .xWrite = x_write, .xTruncate = x_truncate, .xSync = x_sync, .xFileSize = x_size,
    .xLock = x_lock, .xUnlock = x_unlock, .xCheckReservedLock = x_check_reserved, .xFileControl = x_control,
    .xSectorSize = x_sector_size, .xDeviceCharacteristics = x_characteristics
};

/* ---- images ---- */

/* A number of the URI; 0, which no image has, where it is out of range. */
static uint32_t number_of(const char *name, const char *word, uint32_t otherwise) {
    sqlite3_int64 n = sqlite3_uri_int64(name, word, otherwise);
    return n < 0 || n > UINT32_MAX ? 0 : (uint32_t)n;
}

/* Opens the device of an image, or makes it; SQLite's log is told why that failed. */
static int open_device(const char *name, int flags, isotope_device *device) {
    isotope_refusal refusal = {0};
    char text[200];
    int status = isotope_open(name, device, &refusal);
    if (status == ISOTOPE_ABSENT && (flags & SQLITE_OPEN_CREATE)) {
        uint32_t blocks = number_of(name, "blocks", NEW_BLOCKS), log = number_of(name, "log", NEW_LOG);
        isotope_geometry geometry = {PAGE, blocks, log, ISOTOPE_SERIAL, 0, 0};
        status = isotope_create(name, &geometry, device);
    }
    if (status == ISOTOPE_OK) return SQLITE_OK;
    const char *why = refusal.why ? isotope_refusal_text(&refusal, text, sizeof text) : isotope_strerror(status);
    sqlite3_log(SQLITE_CANTOPEN, "isotope: %s: %s", name, why);
    switch (status) {
    case ISOTOPE_LOCKED: case ISOTOPE_NAME_TAKEN: return SQLITE_BUSY;
    case ISOTOPE_DAMAGED: return SQLITE_CORRUPT;
    case ISOTOPE_MEMORY: return SQLITE_NOMEM;
    default: return code_of(status, SQLITE_CANTOPEN);
    }
}

/* An image that this process has not open yet. */
static int add_image(const char *name, int flags, image **out) {
    isotope_geometry geometry;
    image *im = calloc(1, sizeof *im);
    if (!im) return SQLITE_NOMEM;
    im->path = strdup(name);
    int code = im->path ? open_device(name, flags, &im->device) : SQLITE_NOMEM;
    if (code != SQLITE_OK) {
        free(im->path);
        free(im);
        return code;
    }
    im->optimistic = sqlite3_uri_boolean(name, "optimistic", 0);
    im->whole_pages = sqlite3_uri_boolean(name, "pages", 0);
    im->connections = 1;
    im->next = images;
    images = im;
    int status = isotope_about(im->device, &geometry);
    im->blocks = geometry.blocks;
    int fits = geometry.block_size == PAGE && geometry.blocks <= ISOTOPE_MOST_BLOCKS && geometry.hash == 0 && geometry.tree == 0;
    if (status != ISOTOPE_OK || !fits) {
        let_go(im);
        return status == ISOTOPE_OK ? SQLITE_NOTADB : code_of(status, SQLITE_CANTOPEN);
    }
    *out = im;
    return SQLITE_OK;
}

/* The image of this name, with one connection more. */
static int find_image(const char *name, int flags, image **out) {
    for (image *im = images; im; im = im->next) {
        if (strcmp(im->path, name) == 0) {
            im->connections++;
            *out = im;
            return SQLITE_OK;
        }
    }
    return add_image(name, flags, out);
}

/* ---- the VFS ---- */

static int x_open(sqlite3_vfs *vfs, const char *name, sqlite3_file *p, int flags, int *out) {
    (void)vfs;
    file *f = (file *)p;
    p->pMethods = NULL;
    if (flags & (SQLITE_OPEN_MAIN_JOURNAL | SQLITE_OPEN_WAL | SQLITE_OPEN_SUPER_JOURNAL)) {
        sqlite3_log(SQLITE_CANTOPEN, "isotope: PRAGMA journal_mode=MEMORY is wanted");
        return SQLITE_CANTOPEN;
    }
    if (!name || !(flags & SQLITE_OPEN_MAIN_DB)) return below->xOpen(below, name, p, flags, out);
    memset(f, 0, sizeof *f);
    f->shrink = -1;
    sqlite3_mutex_enter(mutex);
    int code = find_image(name, flags, &f->image);
    sqlite3_mutex_leave(mutex);
    if (code != SQLITE_OK) return code;
    code = show(f);                 /* whether block 0 is a head */
    if (code != SQLITE_OK) {
        x_close(p);
        return code;
    }
    drop(f, &f->shown);
    p->pMethods = &methods;
    if (out) *out = flags;
    return SQLITE_OK;
}

/* SQLite asks for the journals that an image never has. */
static int is_journal(const char *name) {
    size_t n = strlen(name);
    return (n > 8 && strcmp(name + n - 8, "-journal") == 0) || (n > 4 && strcmp(name + n - 4, "-wal") == 0);
}

static int x_delete(sqlite3_vfs *v, const char *name, int sync) {
    (void)v;
    return is_journal(name) ? SQLITE_OK : below->xDelete(below, name, sync);
}

static int x_access(sqlite3_vfs *v, const char *name, int flags, int *out) {
    (void)v;
    *out = 0;
    return is_journal(name) ? SQLITE_OK : below->xAccess(below, name, flags, out);
}

static int x_full(sqlite3_vfs *v, const char *name, int n, char *out) { (void)v; return below->xFullPathname(below, name, n, out); }
static int x_random(sqlite3_vfs *v, int n, char *out) { (void)v; return below->xRandomness(below, n, out); }
static int x_sleep(sqlite3_vfs *v, int n) { (void)v; return below->xSleep(below, n); }
static int x_time(sqlite3_vfs *v, double *out) { (void)v; return below->xCurrentTime(below, out); }
static int x_time64(sqlite3_vfs *v, sqlite3_int64 *out) { (void)v; return below->xCurrentTimeInt64(below, out); }
static int x_error(sqlite3_vfs *v, int n, char *out) { (void)v; return below->xGetLastError(below, n, out); }
static void *x_dl_open(sqlite3_vfs *v, const char *name) { (void)v; return below->xDlOpen(below, name); }
static void x_dl_error(sqlite3_vfs *v, int n, char *out) { (void)v; below->xDlError(below, n, out); }
static void (*x_dl_sym(sqlite3_vfs *v, void *h, const char *name))(void) { (void)v; return below->xDlSym(below, h, name); }
static void x_dl_close(sqlite3_vfs *v, void *h) { (void)v; below->xDlClose(below, h); }

static sqlite3_vfs isotope_vfs = {
    .iVersion = 2, .mxPathname = 512, .zName = "isotope", .xOpen = x_open, .xDelete = x_delete, .xAccess = x_access,
    .xFullPathname = x_full, .xDlOpen = x_dl_open, .xDlError = x_dl_error, .xDlSym = x_dl_sym, .xDlClose = x_dl_close,
    .xRandomness = x_random, .xSleep = x_sleep, .xCurrentTime = x_time, .xGetLastError = x_error, .xCurrentTimeInt64 = x_time64
};

/* At each opening of a connection: where its main database is an image the journal is in memory, and no page goes out before the commit. An
 * image that is attached has to be told so: PRAGMA name.journal_mode=MEMORY. */
static int prepare(sqlite3 *db, char **error, const void *api) {
    sqlite3_vfs *vfs = NULL;
    (void)error;
    (void)api;
    if (sqlite3_file_control(db, "main", SQLITE_FCNTL_VFS_POINTER, &vfs) != SQLITE_OK || vfs != &isotope_vfs) return SQLITE_OK;
    return sqlite3_exec(db, "PRAGMA journal_mode=MEMORY; PRAGMA cache_spill=OFF", NULL, NULL, NULL);
}

/* Makes the VFS "isotope" known; it is not the default one. */
int sqlite3_isotope_register(void) {
    if (below) return SQLITE_OK;
    below = sqlite3_vfs_find(NULL);
    mutex = sqlite3_mutex_alloc(SQLITE_MUTEX_FAST);
    if (!below || !mutex) return SQLITE_ERROR;
    isotope_vfs.szOsFile = below->szOsFile > (int)sizeof(file) ? below->szOsFile : (int)sizeof(file);
    int code = sqlite3_vfs_register(&isotope_vfs, 0);
    return code == SQLITE_OK ? sqlite3_auto_extension((void (*)(void))prepare) : code;
}

#ifndef SQLITE_CORE
int sqlite3_extension_init(sqlite3 *db, char **error, const sqlite3_api_routines *api) {
    (void)db;
    (void)error;
    SQLITE_EXTENSION_INIT2(api);
    int code = sqlite3_isotope_register();
    return code == SQLITE_OK ? SQLITE_OK_LOAD_PERMANENTLY : code;
}
#endif
