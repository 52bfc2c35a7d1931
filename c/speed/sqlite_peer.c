/* Counters in a table, with a write-ahead log that is synced at each commit; a connection for each thread. */
#include "peer.h"
#include <sqlite3.h>
#include <stddef.h>
#include <stdlib.h>

typedef struct { sqlite3 *db; sqlite3_stmt *begin, *add, *commit; } connection;

static char path[4096];

static void must(sqlite3 *db, int status, const char *what) {
    if (status != SQLITE_OK && status != SQLITE_DONE && status != SQLITE_ROW) stop("sqlite", what, sqlite3_errmsg(db));
}

static sqlite3 *opened(void) {
    sqlite3 *db;
    must(NULL, sqlite3_open(path, &db), "open");
    sqlite3_busy_timeout(db, 60000);
    must(db, sqlite3_exec(db, "PRAGMA journal_mode=WAL; PRAGMA synchronous=FULL", NULL, NULL, NULL), "pragma");
    return db;
}

static void make(const char *folder, int threads) {
    (void)threads;
    path_in(path, folder, "counters.db");
    sqlite3 *db = opened();
    must(db, sqlite3_exec(db, "CREATE TABLE counter (k INTEGER PRIMARY KEY, v INTEGER); WITH RECURSIVE n(k) AS (SELECT 0 UNION ALL "
                              "SELECT k + 1 FROM n WHERE k < 4095) INSERT INTO counter SELECT k, 0 FROM n", NULL, NULL, NULL), "table");
    sqlite3_close(db);
}

static sqlite3_stmt *prepared(sqlite3 *db, const char *text) {
    sqlite3_stmt *statement;
    must(db, sqlite3_prepare_v2(db, text, -1, &statement, NULL), text);
    return statement;
}

static void *enter(int thread) {
    connection *own = malloc(sizeof *own);
    (void)thread;
    if (!own) stop("sqlite", "enter", "no memory");
    own->db = opened();
    own->begin = prepared(own->db, "BEGIN IMMEDIATE");
    own->add = prepared(own->db, "UPDATE counter SET v = v + 1 WHERE k = ?");
    own->commit = prepared(own->db, "COMMIT");
    return own;
}

static void done(connection *own, sqlite3_stmt *statement, const char *what) {
    must(own->db, sqlite3_step(statement), what);
    must(own->db, sqlite3_reset(statement), what);
}

static int add(void *given, uint32_t counter) {
    connection *own = given;
    done(own, own->begin, "begin");
    sqlite3_bind_int(own->add, 1, (int)counter);
    done(own, own->add, "update");
    done(own, own->commit, "commit");
    return 1;
}

static void leave(void *given) {
    connection *own = given;
    sqlite3_finalize(own->begin);
    sqlite3_finalize(own->add);
    sqlite3_finalize(own->commit);
    sqlite3_close(own->db);
    free(own);
}

static uint64_t sum(void) {
    sqlite3 *db = opened();
    sqlite3_stmt *all = prepared(db, "SELECT sum(v) FROM counter");
    must(db, sqlite3_step(all), "sum");
    uint64_t sum = (uint64_t)sqlite3_column_int64(all, 0);
    sqlite3_finalize(all);
    sqlite3_close(db);
    return sum;
}

const peer sqlite_peer = {"sqlite", make, enter, add, leave, sum};
