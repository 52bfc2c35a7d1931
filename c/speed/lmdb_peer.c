/* Counters by key; LMDB lets one transaction write at a time, and syncs each. */
#include "peer.h"
#include <lmdb.h>
#include <string.h>

static MDB_env *env;
static MDB_dbi dbi;

static void must(int status, const char *what) {
    if (status != 0) stop("lmdb", what, mdb_strerror(status));
}

static void make(const char *folder, int threads) {
    MDB_txn *tx;
    must(mdb_env_create(&env), "create");
    must(mdb_env_set_mapsize(env, (size_t)256 << 20), "size");
    must(mdb_env_set_maxreaders(env, (unsigned)threads + 8), "readers");
    must(mdb_env_open(env, folder, 0, 0666), "open");
    must(mdb_txn_begin(env, NULL, 0, &tx), "begin");
    must(mdb_dbi_open(tx, NULL, MDB_INTEGERKEY, &dbi), "table");
    for (uint32_t i = 0; i < COUNTERS; i++) {
        uint64_t zero = 0;
        MDB_val key = {sizeof i, &i}, value = {sizeof zero, &zero};
        must(mdb_put(tx, dbi, &key, &value, 0), "put");
    }
    must(mdb_txn_commit(tx), "commit");
}

static void *enter(int thread) {
    (void)thread;
    return NULL;
}

static int add(void *own, uint32_t counter) {
    MDB_txn *tx;
    MDB_val key = {sizeof counter, &counter}, value;
    uint64_t number;
    (void)own;
    must(mdb_txn_begin(env, NULL, 0, &tx), "begin");
    must(mdb_get(tx, dbi, &key, &value), "get");
    memcpy(&number, value.mv_data, sizeof number);
    number += 1;
    value = (MDB_val){sizeof number, &number};
    must(mdb_put(tx, dbi, &key, &value, 0), "put");
    must(mdb_txn_commit(tx), "commit");
    return 1;
}

static void leave(void *own) { (void)own; }

static uint64_t sum(void) {
    MDB_txn *tx;
    uint64_t all = 0;
    must(mdb_txn_begin(env, NULL, MDB_RDONLY, &tx), "begin");
    for (uint32_t i = 0; i < COUNTERS; i++) {
        MDB_val key = {sizeof i, &i}, value;
        uint64_t number;
        must(mdb_get(tx, dbi, &key, &value), "get");
        memcpy(&number, value.mv_data, sizeof number);
        all += number;
    }
    mdb_txn_abort(tx);
    mdb_env_close(env);
    return all;
}

const peer lmdb_peer = {"lmdb", make, enter, add, leave, sum};
