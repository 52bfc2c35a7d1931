/* Counters in a table of the library's transactions, each commit synced. */
#include "peer.h"
#include <db.h>
#include <stddef.h>
#include <string.h>

static DB_ENV *env;
static DB *table;

static void must(int status, const char *what) {
    if (status != 0) stop("berkeley", what, db_strerror(status));
}

static void make(const char *folder, int threads) {
    (void)threads;
    must(db_env_create(&env, 0), "create");
    must(env->set_lk_detect(env, DB_LOCK_DEFAULT), "locks");
    must(env->open(env, folder, DB_CREATE | DB_INIT_TXN | DB_INIT_LOG | DB_INIT_LOCK | DB_INIT_MPOOL | DB_THREAD, 0), "open");
    must(db_create(&table, env, 0), "table");
    must(table->open(table, NULL, "counters", NULL, DB_HASH, DB_CREATE | DB_AUTO_COMMIT | DB_THREAD, 0), "table");
}

static void *enter(int thread) {
    (void)thread;
    return NULL;
}

/* the counter, or 0 where there is none yet */
static int number_of(DB_TXN *tx, uint32_t counter, uint64_t *number, u_int32_t how) {
    DBT key = {.data = &counter, .size = sizeof counter};
    DBT value = {.data = number, .ulen = sizeof *number, .flags = DB_DBT_USERMEM};
    *number = 0;
    int status = table->get(table, tx, &key, &value, how);
    return status == DB_NOTFOUND ? 0 : status;
}

static int add(void *own, uint32_t counter) {
    DB_TXN *tx;
    uint64_t number;
    (void)own;
    must(env->txn_begin(env, NULL, &tx, 0), "begin");
    int status = number_of(tx, counter, &number, DB_RMW);
    number += 1;
    DBT key = {.data = &counter, .size = sizeof counter}, value = {.data = &number, .size = sizeof number};
    if (status == 0) status = table->put(table, tx, &key, &value, 0);
    if (status == DB_LOCK_DEADLOCK) {
        must(tx->abort(tx), "abort");
        return 0;
    }
    must(status, "put");
    must(tx->commit(tx, 0), "commit");
    return 1;
}

static void leave(void *own) { (void)own; }

static uint64_t sum(void) {
    uint64_t all = 0, number;
    for (uint32_t i = 0; i < COUNTERS; i++) {
        must(number_of(NULL, i, &number, 0), "get");
        all += number;
    }
    must(table->close(table, 0), "close");
    must(env->close(env, 0), "close");
    return all;
}

const peer berkeley_peer = {"berkeley", make, enter, add, leave, sum};
