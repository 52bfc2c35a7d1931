/* An image whose process stops, or whose file fails, at each pwrite, fdatasync and fsync of a run in turn. Linked with --wrap of them.
 *     stops IMAGE [PROGRAM]      PROGRAM is `isotope`, which has to open each image to the same commit
 *
 * The file has a cache here that a crash loses: what is written gets to it with the next sync. At a stop each write since the last sync
 * is lost, or there, or half of it, or the last one alone. Opened again the image has to show the last commit that was told, or the
 * commits of the step that was under way, all of them, and just the bytes and pairs that the steps up to there leave. */
#include "isotope.h"
#include <errno.h>
#include <stdio.h>
#include <stdlib.h>
#include <string.h>
#include <sys/types.h>
#include <sys/wait.h>
#include <unistd.h>

/* ---- The file ---- */

typedef enum { STOPS, FAILS } kind;
typedef enum { LOST, THERE, HALVES, LAST_ALONE, FATES } fate;
typedef struct { int fd; off_t at; size_t n; char *bytes; } unsynced;
static long calls, wrong_call;          /* calls of the run so far, and the one that goes wrong; 0: none */
static kind what;
static fate left;
static long calls_after;                /* calls that were made after the failure */
static unsynced cache[4096];
static int cached;

ssize_t __real_pwrite(int fd, const void *bytes, size_t n, off_t at);

static void put_all(const unsynced *u, size_t n) {
    if (n > 0 && __real_pwrite(u->fd, u->bytes, n, u->at) != (ssize_t)n) abort();
}

/* What a crash leaves of the writes since the last sync. */
static void crash(void) {
    for (int i = 0; i < cached; i++) {
        if (left == THERE || (left == LAST_ALONE && i == cached - 1)) put_all(&cache[i], cache[i].n);
        if (left == HALVES) put_all(&cache[i], cache[i].n / 2);
    }
}

/* Whether this call is to fail; a stop does not come back. */
static int goes_wrong(void) {
    calls++;
    if (wrong_call == 0 || calls < wrong_call) return 0;
    if (calls > wrong_call) calls_after++;
    if (what == STOPS) {
        crash();
        _exit(0);
    }
    errno = EIO;
    return calls == wrong_call;
}

ssize_t __wrap_pwrite(int fd, const void *bytes, size_t n, off_t at) {
    if (cached == sizeof cache / sizeof *cache) abort();
    unsynced u = {dup(fd), at, n, malloc(n)}; /* the device may be closed when it gets there */
    if (u.fd < 0 || !u.bytes) abort();
    memcpy(u.bytes, bytes, n);
    cache[cached++] = u;                /* a write that goes wrong may have got anywhere, too */
    return goes_wrong() ? -1 : (ssize_t)n;
}

int __wrap_fsync(int fd) {
    (void)fd;
    if (goes_wrong()) return -1;
    for (int i = 0; i < cached; i++) {
        put_all(&cache[i], cache[i].n);
        close(cache[i].fd);
        free(cache[i].bytes);
    }
    cached = 0;
    return 0;
}

int __wrap_fdatasync(int fd) { return __wrap_fsync(fd); }

/* ---- The run ---- */

/* A step makes so many commits, all or none. */
typedef struct { const char *name; int commits; int (*make)(isotope_device, int step); } step;

/* The place of a byte that a commit of a step writes, which no other one writes. */
static uint32_t block_of(int step, int member) { return 40 + (uint32_t)(step + member) % 8; }
static uint32_t place_of(int step, int member) { return (uint32_t)(4 * step + member); }
static uint8_t byte_of(int step, int member) { return (uint8_t)(1 + step + 50 * member); }

static int put_byte(isotope_device device, isotope_transaction *tx, int step, int member) {
    uint8_t byte = byte_of(step, member);
    int status = isotope_begin(device, ISOTOPE_SERIAL, tx, NULL);
    return status == ISOTOPE_OK ? isotope_put(device, *tx, block_of(step, member), place_of(step, member), &byte, 1) : status;
}

static int make_commit(isotope_device device, int step) {
    isotope_transaction tx;
    int status = put_byte(device, &tx, step, 0);
    return status == ISOTOPE_OK ? isotope_end(device, tx, NULL) : status;
}

static int make_group(isotope_device device, int step) {
    isotope_transaction txs[3];
    isotope_ended ended[3];
    int status = ISOTOPE_OK;
    for (int i = 0; i < 3 && status == ISOTOPE_OK; i++) status = put_byte(device, &txs[i], step, i);
    if (status == ISOTOPE_OK) status = isotope_end_group(device, txs, 3, ended);
    for (int i = 0; i < 3 && status == ISOTOPE_OK; i++) status = ended[i].status;
    return status;
}

/* A pair in each store, and of the first such step the deletion of what the one before left. */
static int make_pairs(isotope_device device, int step) {
    isotope_transaction tx;
    uint8_t key = (uint8_t)step, before = (uint8_t)(step - 1);
    int status = isotope_begin(device, ISOTOPE_SERIAL, &tx, NULL);
    if (status == ISOTOPE_OK) status = isotope_hash_put(device, tx, &key, 1, "hash", 4);
    if (status == ISOTOPE_OK) status = isotope_tree_put(device, tx, &key, 1, "tree", 4);
    if (status == ISOTOPE_OK) status = isotope_hash_delete(device, tx, &before, 1);
    if (status == ISOTOPE_MISSING) status = ISOTOPE_OK;
    return status == ISOTOPE_OK ? isotope_end(device, tx, NULL) : status;
}

static int make_compaction(isotope_device device, int step) { (void)step; return isotope_compact(device); }
static int make_upgrade(isotope_device device, int step) { (void)step; return isotope_upgrade(device); }

static const step steps[] = {
    {"commit", 1, make_commit}, {"group", 3, make_group}, {"pairs", 1, make_pairs}, {"pairs", 1, make_pairs},
    {"compact", 0, make_compaction}, {"commit", 1, make_commit}, {"group", 3, make_group}, {"upgrade", 0, make_upgrade},
    {"pairs", 1, make_pairs}, {"commit", 1, make_commit}, {"compact", 0, make_compaction}, {"compact", 0, make_compaction},
    {"group", 3, make_group}, {"pairs", 1, make_pairs}, {"commit", 1, make_commit},
};
enum { STEPS = sizeof steps / sizeof *steps, BLOCK = 256, BLOCKS = 48 };

static uint64_t commits_before(int n) {
    uint64_t sum = 0;
    for (int i = 0; i < n; i++) sum += (uint64_t)steps[i].commits;
    return sum;
}

/* Makes the image, opens it again and goes through the steps; each that is done is told. The status is 9 where nothing went wrong. */
static void run(const char *path, int out) {
    const isotope_geometry geometry = {BLOCK, BLOCKS, 16384, ISOTOPE_SERIAL, 16, 16};
    isotope_device device;
    isotope_transaction tx;
    char done = 0;
    calls = calls_after = 0;
    int status = isotope_create(path, &geometry, &device);
    if (status == ISOTOPE_OK) status = isotope_close(device);
    if (status == ISOTOPE_OK) status = isotope_open(path, &device, NULL);
    if (status != ISOTOPE_OK) {         /* the file failed in the creation or in the opening */
        crash();
        _exit(status == ISOTOPE_FILE && calls_after == 0 ? 0 : 1);
    }
    for (int i = 0; i < STEPS; i++) {
        if (i == 0 && write(out, &done, 1) != 1) _exit(2);
        status = steps[i].make(device, i);
        if (status != ISOTOPE_OK) break;
        if (write(out, &done, 1) != 1) _exit(2);
    }
    if (status == ISOTOPE_OK) _exit(calls < wrong_call ? 9 : 1);
    /* the step is told that the file failed, and all after it that the device is down; the file is not touched any more */
    int is_told = status == ISOTOPE_DISK && isotope_begin(device, ISOTOPE_SERIAL, &tx, NULL) == ISOTOPE_DOWN
        && isotope_compact(device) == ISOTOPE_DOWN && isotope_close(device) == ISOTOPE_OK && calls_after == 0;
    crash();
    _exit(is_told ? 0 : 1);
}

/* ---- What is there afterwards ---- */

static int has_pair(isotope_device device, isotope_transaction tx, uint8_t key, int is_tree) {
    char value[4];
    uint64_t n = 0;
    int status = is_tree ? isotope_tree_get(device, tx, &key, 1, value, 4, &n) : isotope_hash_get(device, tx, &key, 1, value, 4, &n);
    if (status == ISOTOPE_MISSING) return 0;
    return status == ISOTOPE_OK && n == 4 && memcmp(value, is_tree ? "tree" : "hash", 4) == 0 ? 1 : -1;
}

/* Whether the image has just what the first n steps leave. */
static int shows(isotope_device device, int n) {
    static uint8_t wanted[BLOCKS][BLOCK], found[BLOCK];
    isotope_transaction tx;
    int hash[STEPS] = {0}, tree[STEPS] = {0}, holds = 1;
    memset(wanted, 0, sizeof wanted);
    for (int i = 0; i < n; i++) {
        if (steps[i].make == make_commit || steps[i].make == make_group)
            for (int k = 0; k < steps[i].commits; k++) wanted[block_of(i, k)][place_of(i, k)] = byte_of(i, k);
        if (steps[i].make == make_pairs) {
            hash[i] = tree[i] = 1;
            if (i > 0) hash[i - 1] = 0;
        }
    }
    if (isotope_begin(device, ISOTOPE_SERIAL, &tx, NULL) != ISOTOPE_OK) return 0;
    for (uint32_t b = 32; b < BLOCKS; b++)
        holds = holds && isotope_peek(device, tx, b, 0, found, BLOCK) == ISOTOPE_OK && memcmp(found, wanted[b], BLOCK) == 0;
    for (int i = 0; i < STEPS; i++)
        holds = holds && has_pair(device, tx, (uint8_t)i, 0) == hash[i] && has_pair(device, tx, (uint8_t)i, 1) == tree[i];
    return isotope_abort(device, tx) == ISOTOPE_OK && holds;
}

/* What the program says is the last commit. */
static uint64_t last_by(const char *program, const char *path) {
    char command[4096];
    unsigned long long last = UINT64_MAX;
    snprintf(command, sizeof command, "'%s' recover '%s' < /dev/null", program, path);
    FILE *said = popen(command, "r");
    if (!said || fscanf(said, "last %llu", &last) != 1) last = UINT64_MAX;
    if (said) pclose(said);
    return last;
}

/* Why what is there is wrong, or NULL. `done` is -1 where not even the opening was told. */
static const char *test(const char *path, const char *program, int done) {
    isotope_device device;
    isotope_numbers numbers;
    int status = isotope_open(path, &device, NULL), first = done < 0 ? 0 : done, next = first < STEPS ? first + 1 : first;
    if (status == ISOTOPE_ABSENT && done < 0) return NULL;
    if (status != ISOTOPE_OK) return isotope_strerror(status);
    if (isotope_stat(device, &numbers) != ISOTOPE_OK) return "no numbers";
    int is_first = numbers.last == commits_before(first) && shows(device, first);
    int is_next = done >= 0 && numbers.last == commits_before(next) && shows(device, next);
    isotope_close(device);
    if (!is_first && !is_next) return "it shows neither the steps that were told nor these and the next one";
    if (program && last_by(program, path) != numbers.last) return "the program opens it to another commit";
    return NULL;
}

/* One round. 1: the run came to its end. */
static int round_ends(const char *path, const char *program, int *bad) {
    int ends[2], status, done = -1;
    char one;
    unlink(path);
    if (pipe(ends) != 0) exit(2);
    fflush(stdout);
    pid_t child = fork();
    if (child == 0) {
        close(ends[0]);
        run(path, ends[1]);
    }
    close(ends[1]);
    while (read(ends[0], &one, 1) == 1) done++;
    close(ends[0]);
    if (waitpid(child, &status, 0) != child || !WIFEXITED(status)) exit(2);
    status = WEXITSTATUS(status);
    long failing = wrong_call;
    wrong_call = 0;
    cached = 0;
    const char *why = status == 0 || status == 9 ? test(path, program, done) : "what was told in it is wrong";
    wrong_call = failing;
    if (why) {
        printf("call %ld, %s, writes that were not synced %d: after %d steps: %s\n", wrong_call, what == STOPS ? "a stop" : "a failure",
               left, done, why);
        ++*bad;
    }
    return status == 9;
}

int main(int argc, char **argv) {
    const char *path = argc > 1 ? argv[1] : "stops.img", *program = argc > 2 ? argv[2] : NULL;
    int rounds = 0, bad = 0;
    for (what = STOPS; what <= FAILS; what++)
        for (left = LOST; left < FATES; left++)
            for (wrong_call = 1; bad < 20 && !round_ends(path, program, &bad); wrong_call++) rounds++;
    printf("%d steps, a stop and a failure at each call, four ways each: %s\n", STEPS, bad ? "some are wrong" : "none wrong");
    fprintf(stderr, "%d rounds, %d wrong\n", rounds, bad);
    return bad != 0 || rounds < 8 * STEPS;
}
