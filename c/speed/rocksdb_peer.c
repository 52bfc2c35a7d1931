/* Counters by key, in optimistic transactions, each commit synced. */
#include "peer.h"
#include <rocksdb/c.h>
#include <stdlib.h>
#include <string.h>

static rocksdb_optimistictransactiondb_t *db;
static rocksdb_writeoptions_t *synced;
static rocksdb_readoptions_t *reading;
static rocksdb_optimistictransaction_options_t *options;

static void must(char *error, const char *what) {
    if (error) stop("rocksdb", what, error);
}

static void make(const char *folder, int threads) {
    char path[4096], *error = NULL;
    rocksdb_options_t *opening = rocksdb_options_create();
    (void)threads;
    path_in(path, folder, "rocksdb");
    rocksdb_options_set_create_if_missing(opening, 1);
    db = rocksdb_optimistictransactiondb_open(opening, path, &error);
    must(error, "open");
    synced = rocksdb_writeoptions_create();
    rocksdb_writeoptions_set_sync(synced, 1);
    reading = rocksdb_readoptions_create();
    options = rocksdb_optimistictransaction_options_create();
}

static void *enter(int thread) {
    (void)thread;
    return NULL;
}

static uint64_t number_of(char *value, size_t n) {
    uint64_t number = 0;
    if (value && n == sizeof number) memcpy(&number, value, n);
    free(value);
    return number;
}

static int add(void *own, uint32_t counter) {
    char *error = NULL;
    size_t n = 0;
    (void)own;
    rocksdb_transaction_t *tx = rocksdb_optimistictransaction_begin(db, synced, options, NULL);
    char *value = rocksdb_transaction_get_for_update(tx, reading, (char *)&counter, sizeof counter, &n, 1, &error);
    must(error, "get");
    uint64_t number = number_of(value, n) + 1;
    rocksdb_transaction_put(tx, (char *)&counter, sizeof counter, (char *)&number, sizeof number, &error);
    must(error, "put");
    rocksdb_transaction_commit(tx, &error);
    rocksdb_transaction_destroy(tx);
    if (!error) return 1;
    free(error);
    return 0;
}

static void leave(void *own) { (void)own; }

static uint64_t sum(void) {
    uint64_t all = 0;
    rocksdb_t *base = rocksdb_optimistictransactiondb_get_base_db(db);
    for (uint32_t i = 0; i < COUNTERS; i++) {
        char *error = NULL;
        size_t n = 0;
        char *value = rocksdb_get(base, reading, (char *)&i, sizeof i, &n, &error);
        must(error, "get");
        all += number_of(value, n);
    }
    rocksdb_optimistictransactiondb_close_base_db(base);
    rocksdb_optimistictransactiondb_close(db);
    return all;
}

const peer rocksdb_peer = {"rocksdb", make, enter, add, leave, sum};
