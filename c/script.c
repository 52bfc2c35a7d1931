/* Answers a script on its input as `isotope` does (docs/script.md), by the calls of isotope.h, so that replies and images can be
 * compared.
 *     script new IMAGE BLOCK-SIZE BLOCKS LOG MODE HASH TREE < SCRIPT        MODE: 1 serial, 2 snapshot
 *     script run IMAGE < SCRIPT
 * A client is a place in a table here, and so is a label. Lines have to be good ones, without `await`. What is behind `no-blocks` and
 * `broken` in a reply is not told. */
#include "isotope.h"
#include <stdio.h>
#include <stdlib.h>
#include <string.h>

enum { CLIENTS = 65, LABELS = 64, MOST_WORDS = 20, MOST_BYTES = 8192 };
typedef struct { isotope_transaction tx; uint64_t at; } live;
typedef struct { char name[17]; live held; } label;
typedef struct { uint8_t bytes[MOST_BYTES]; size_t n; } text;

static isotope_device device;
static isotope_geometry geometry;
static live clients[CLIENTS];
static label labels[LABELS];
static char *words[MOST_WORDS];
static int count;

/* ---- Words ---- */

static uint32_t number(int i) { return (uint32_t)strtoul(words[i], NULL, 10); }

static int digit(char c) { return c <= '9' ? c - '0' : (c | 32) - 'a' + 10; }

static text bytes_of(int i) {
    text t = {.n = 0};
    if (strcmp(words[i], "-") == 0) return t;
    for (const char *w = words[i]; w[0] && w[1] && t.n < MOST_BYTES; w += 2) t.bytes[t.n++] = (uint8_t)(digit(w[0]) * 16 + digit(w[1]));
    return t;
}

/* A name of a file, which C ends with a 0. */
static const char *name_of(int i, char *into) {
    text t = bytes_of(i);
    memcpy(into, t.bytes, t.n);
    into[t.n] = 0;
    return into;
}

static void hex(const uint8_t *bytes, size_t n) {
    if (n == 0) printf("-");
    for (size_t i = 0; i < n; i++) printf("%02x", bytes[i]);
}

static label *labelled(const char *name) {
    for (label *l = labels; l < labels + LABELS; l++) if (l->held.tx != 0 && strcmp(l->name, name) == 0) return l;
    return NULL;
}

/* ---- Replies ---- */

static const char *refusal(int status) {
    switch (status) {
    case ISOTOPE_EXISTS: return "exists";
    case ISOTOPE_TOO_MANY_TRANSACTIONS: return "too-many-tx";
    case ISOTOPE_MODE_FIXED: return "mode-fixed";
    case ISOTOPE_BAD_BLOCK: return "bad-block";
    case ISOTOPE_BAD_RANGE: return "bad-range";
    case ISOTOPE_NO_ACCESS: return "no-access";
    case ISOTOPE_TOO_MANY_MARKS: return "too-many-marks";
    case ISOTOPE_TOO_MANY_ACCESSES: return "too-many-accesses";
    case ISOTOPE_NO_STORE: return "no-store";
    case ISOTOPE_STORE_MODE: return "store-mode";
    case ISOTOPE_BAD_KEY: return "bad-key";
    case ISOTOPE_BAD_VALUE: return "bad-value";
    case ISOTOPE_BAD_NAME: return "bad-name";
    case ISOTOPE_NO_BLOCKS: return "no-blocks";
    case ISOTOPE_BROKEN: return "broken";
    case ISOTOPE_NO_TRANSACTION: return "not-in-tx";
    default: return isotope_strerror(status);
    }
}

static void say(int status) {
    if (status == ISOTOPE_MISSING) printf("ok none");
    else printf("%s", status == ISOTOPE_OK ? "ok" : refusal(status));
}

static void say_bytes(int status, const uint8_t *bytes, uint64_t n) {
    say(status);
    if (status != ISOTOPE_OK) return;
    putchar(' ');
    hex(bytes, n);
}

static void say_pairs(int status, const uint8_t *bytes, uint64_t n) {
    say(status);
    if (status != ISOTOPE_OK) return;
    for (const uint8_t *at = bytes; at < bytes + n;) {
        const uint8_t *value = at + 1 + at[0];
        putchar(' ');
        hex(at + 1, at[0]);
        putchar('=');
        hex(value + 1, value[0]);
        at = value + 1 + value[0];
    }
}

static void say_member(const isotope_ended *e) {
    unsigned long long commit = e->commit, with = e->with, need = e->need, room = e->room;
    switch (e->status) {
    case ISOTOPE_OK: e->commit ? printf("commit %llu", commit) : printf("read-only"); break;
    case ISOTOPE_CONFLICT: printf("conflict with %llu block %u at %u", with, e->block, e->at); break;
    case ISOTOPE_LOG_FULL: printf("log full need %llu free %llu", need, room); break;
    case ISOTOPE_NO_TRANSACTION: printf("none"); break;
    default: printf("%s", refusal(e->status));
    }
}

/* ---- Operations ---- */

static void begin(live *own) {
    int mode = count < 3 ? ISOTOPE_IMAGE_MODE : strcmp(words[2], "serial") == 0 ? ISOTOPE_SERIAL : ISOTOPE_SNAPSHOT;
    int status = isotope_begin(device, mode, &own->tx, &own->at);
    say(status);
    if (status == ISOTOPE_OK) printf(" begin %llu", (unsigned long long)own->at);
}

static void end(live *own) {
    isotope_ended ended;
    int status = isotope_end(device, own->tx, &ended);
    if (status == ISOTOPE_OK || status == ISOTOPE_CONFLICT) own->tx = 0;
    if (status == ISOTOPE_OK) printf("ok ");
    say_member(&ended);
}

static void release(live *own) {
    label *free_one = labels;
    if (labelled(words[2])) { printf("label-taken"); return; }
    while (free_one->held.tx != 0) free_one++;
    snprintf(free_one->name, sizeof free_one->name, "%s", words[2]);
    free_one->held = *own;
    own->tx = 0;
    printf("ok");
}

static void takeover(live *own) {
    label *l = labelled(words[2]);
    if (!l) { printf("no-handle"); return; }
    *own = l->held;
    l->held.tx = 0;
    printf("ok begin %llu", (unsigned long long)own->at);
}

static void group(void) {
    isotope_transaction txs[ISOTOPE_MOST_GROUP] = {0};
    isotope_ended ended[ISOTOPE_MOST_GROUP];
    size_t n = 0;
    for (int i = 2; i < count; i++, n++) {
        label *l = labelled(words[i]);
        if (!l) continue;
        txs[n] = l->held.tx;
        l->held.tx = 0;
    }
    int status = isotope_end_group(device, txs, n, ended);
    say(status);
    for (size_t i = 0; status == ISOTOPE_OK && i < n; i++) {
        printf(i == 0 ? " " : "; ");
        say_member(&ended[i]);
    }
}

/* What goes for the whole image: what it answers, and a number. */
static void upkeep(const char *op) {
    isotope_numbers n;
    int status = op[0] == 't' ? isotope_trim(device) : op[0] == 'c' ? isotope_compact(device) : isotope_upgrade(device);
    if (status == ISOTOPE_OK) status = isotope_stat(device, &n);
    say(status);
    if (status == ISOTOPE_OK) printf(" %s %llu", op, (unsigned long long)(op[0] == 't' ? n.trim : n.base));
}

static void tell_numbers(void) {
    isotope_numbers n;
    int status = isotope_stat(device, &n);
    say(status);
    if (status == ISOTOPE_OK)
        printf(" last %llu base %llu trim %llu live %u used %u versions %llu", (unsigned long long)n.last, (unsigned long long)n.base,
               (unsigned long long)n.trim, n.live, n.used, (unsigned long long)n.versions);
}

/* An access of a block. Whether it is one. */
static int blocks(const char *op, isotope_transaction tx) {
    static uint8_t into[MOST_BYTES];
    text t = {.n = 0};
    if (strcmp(op, "read") == 0) say_bytes(isotope_read(device, tx, number(2), into, geometry.block_size), into, geometry.block_size);
    else if (strcmp(op, "get") == 0) {
        size_t n = number(4) < MOST_BYTES ? number(4) : MOST_BYTES;
        say_bytes(isotope_get(device, tx, number(2), number(3), into, n), into, n);
    } else if (strcmp(op, "put") == 0) {
        t = bytes_of(4);
        say(isotope_put(device, tx, number(2), number(3), t.bytes, t.n));
    } else if (strcmp(op, "write") == 0) {
        t = bytes_of(3);
        say(isotope_write(device, tx, number(2), t.bytes, t.n));
    } else if (strcmp(op, "fill") == 0) say(isotope_fill(device, tx, number(2), bytes_of(3).bytes[0]));
    else if (strcmp(op, "mark") == 0) say(isotope_mark(device, tx, number(2), number(3)));
    else return 0;
    return 1;
}

/* A call of a store: `hput` and the like. Whether it is one. */
static int stores(const char *op, isotope_transaction tx) {
    static uint8_t into[1 << 20];
    uint64_t n = 0;
    int is_hash = op[0] == 'h';
    if (op[0] != 'h' && op[0] != 't') return 0;
    text key = bytes_of(2), value = {.n = 0};
    if (strcmp(op + 1, "put") == 0) {
        value = bytes_of(3);
        say((is_hash ? isotope_hash_put : isotope_tree_put)(device, tx, key.bytes, key.n, value.bytes, value.n));
    } else if (strcmp(op + 1, "get") == 0) {
        int status = (is_hash ? isotope_hash_get : isotope_tree_get)(device, tx, key.bytes, key.n, into, sizeof into, &n);
        say_bytes(status, into, n);
    } else if (strcmp(op + 1, "del") == 0) say((is_hash ? isotope_hash_delete : isotope_tree_delete)(device, tx, key.bytes, key.n));
    else if (strcmp(op, "tscan") == 0) {
        value = bytes_of(3);
        int status = isotope_tree_scan(device, tx, key.bytes, key.n, value.bytes, value.n, number(4), into, sizeof into, &n);
        say_pairs(status, into, n);
    } else return 0;
    return 1;
}

/* A call on a file. Whether it is one. */
static int files(const char *op, isotope_transaction tx) {
    static uint8_t into[MOST_BYTES];
    char name[MOST_BYTES + 1], other[MOST_BYTES + 1];
    uint64_t n = 0;
    if (op[0] != 'f') return 0;
    name_of(2, name);
    if (strcmp(op, "fnew") == 0) say(isotope_file_create(device, tx, name));
    else if (strcmp(op, "fwrite") == 0) {
        text t = bytes_of(4);
        say(isotope_file_write(device, tx, name, number(3), t.bytes, t.n));
    } else if (strcmp(op, "fread") == 0) {
        int status = isotope_file_read(device, tx, name, number(3), into, number(4), &n);
        say_bytes(status, into, n);
    } else if (strcmp(op, "fmove") == 0) say(isotope_file_rename(device, tx, name, name_of(3, other)));
    else if (strcmp(op, "fdel") == 0) say(isotope_file_remove(device, tx, name));
    else return 0;
    return 1;
}

/* Answers the line in `words`. */
static void answer(void) {
    const char *op = words[1];
    live *own = &clients[number(0)];
    int begins = strcmp(op, "begin") == 0 || strcmp(op, "takeover") == 0;
    printf("%s ", words[0]);
    if (strcmp(op, "group") == 0) group();
    else if (strcmp(op, "stat") == 0) tell_numbers();
    else if (strcmp(op, "trim") == 0 || strcmp(op, "compact") == 0 || strcmp(op, "upgrade") == 0) upkeep(op);
    else if (begins && own->tx != 0) printf("in-tx");
    else if (strcmp(op, "begin") == 0) begin(own);
    else if (strcmp(op, "takeover") == 0) takeover(own);
    else if (own->tx == 0) printf("not-in-tx");
    else if (strcmp(op, "end") == 0) end(own);
    else if (strcmp(op, "release") == 0) release(own);
    else if (strcmp(op, "abort") == 0) {
        say(isotope_abort(device, own->tx));
        own->tx = 0;
    } else if (!blocks(op, own->tx) && !files(op, own->tx) && !stores(op, own->tx)) exit(3);
    putchar('\n');
}

static int open_device(int argc, char **argv) {
    if (argc == 3 && strcmp(argv[1], "run") == 0) return isotope_open(argv[2], &device, NULL);
    if (argc != 9 || strcmp(argv[1], "new") != 0) exit(2);
    uint32_t *fields[] = {&geometry.block_size, &geometry.blocks, &geometry.log, &geometry.mode, &geometry.hash, &geometry.tree};
    for (int i = 0; i < 6; i++) *fields[i] = (uint32_t)strtoul(argv[3 + i], NULL, 10);
    return isotope_create(argv[2], &geometry, &device);
}

int main(int argc, char **argv) {
    static char line[20000];
    int status = open_device(argc, argv);
    if (status == ISOTOPE_OK) status = isotope_about(device, &geometry);
    if (status != ISOTOPE_OK) { fprintf(stderr, "%s\n", isotope_strerror(status)); return 1; }
    while (fgets(line, sizeof line, stdin)) {
        count = 0;
        if (line[0] == '#') continue;
        for (char *w = strtok(line, " \r\n"); w && count < MOST_WORDS; w = strtok(NULL, " \r\n")) words[count++] = w;
        if (count >= 2) answer();
    }
    return isotope_close(device) != ISOTOPE_OK;
}
