/* What sqlite_check.sh runs. Built with -DLINKED it has the VFS in it; else it loads the extension that the variable ISOTOPE_VFS names.
 *
 *     sqlite_test run NAME             the SQL on standard input: rows and refusals are printed
 *     sqlite_test dump NAME            all tables, row by row
 *     sqlite_test write NAME           numbered transactions for ever, each number printed when COMMIT has returned
 *     sqlite_test check NAME LAST      the database is whole, and its last transaction is LAST or the one after it
 *     sqlite_test two NAME             two connections of one process
 *     sqlite_test threads NAME         four threads, a connection each, add to one number
 *     sqlite_test limits NAME          what is refused, and that all is as before then; an image of 16,384 blocks
 *     sqlite_test bench NAME MODE N    the processor time of N inserts and N updates of one row each, of 20 transactions of 5,000 inserts,
 *                                      and of 20 scans with a cache of 10 pages; MODE isotope, wal or delete
 *
 * NAME may be a URI. The variable PRAGMAS is run after each opening. Exit 1: wrong; 3: no opening; 4: a statement was refused. */
#include <pthread.h>
#include <sqlite3.h>
#include <stdio.h>
#include <stdlib.h>
#include <string.h>
#include <time.h>
#include <unistd.h>

#ifdef LINKED
int sqlite3_isotope_register(void);
static int know_vfs(void) { return sqlite3_isotope_register(); }
#else
static int know_vfs(void) {
    sqlite3 *db;
    char *error = NULL;
    const char *extension = getenv("ISOTOPE_VFS");
    if (!extension) return SQLITE_OK;
    if (sqlite3_open(":memory:", &db) != SQLITE_OK) return SQLITE_ERROR;
    sqlite3_db_config(db, SQLITE_DBCONFIG_ENABLE_LOAD_EXTENSION, 1, NULL);
    int rc = sqlite3_load_extension(db, extension, NULL, &error);
    if (rc != SQLITE_OK) printf("%s: %s\n", extension, error);
    sqlite3_close(db);
    return rc;
}
#endif

/* ---- statements ---- */

static sqlite3 *open_db(const char *name) {
    sqlite3 *db;
    int rc = sqlite3_open_v2(name, &db, SQLITE_OPEN_READWRITE | SQLITE_OPEN_CREATE | SQLITE_OPEN_URI, NULL);
    if (rc != SQLITE_OK) {
        printf("open %s: %d %s\n", name, rc, sqlite3_errmsg(db));
        exit(3);
    }
    const char *pragmas = getenv("PRAGMAS");
    if (pragmas && sqlite3_exec(db, pragmas, NULL, NULL, NULL) != SQLITE_OK) {
        printf("%s: %s\n", pragmas, sqlite3_errmsg(db));
        exit(3);
    }
    return db;
}

static void must(sqlite3 *db, const char *sql) {
    char *error = NULL;
    if (sqlite3_exec(db, sql, NULL, NULL, &error) == SQLITE_OK) return;
    printf("%s: %s\n", sql, error);
    exit(4);
}

/* 0, or why it was refused */
static int try(sqlite3 *db, const char *sql) {
    return sqlite3_exec(db, sql, NULL, NULL, NULL) == SQLITE_OK ? 0 : sqlite3_extended_errcode(db);
}

static sqlite3_stmt *prepared(sqlite3 *db, const char *sql) {
    sqlite3_stmt *statement;
    if (sqlite3_prepare_v2(db, sql, -1, &statement, NULL) == SQLITE_OK) return statement;
    printf("%s: %s\n", sql, sqlite3_errmsg(db));
    exit(4);
}

/* the first number of the first row, or -1 */
static long long number(sqlite3 *db, const char *sql) {
    sqlite3_stmt *statement = prepared(db, sql);
    long long n = sqlite3_step(statement) == SQLITE_ROW ? sqlite3_column_int64(statement, 0) : -1;
    sqlite3_finalize(statement);
    return n;
}

static int whole(sqlite3 *db) {
    sqlite3_stmt *statement = prepared(db, "PRAGMA integrity_check");
    const char *said = sqlite3_step(statement) == SQLITE_ROW ? (const char *)sqlite3_column_text(statement, 0) : "no row";
    int ok = strcmp(said, "ok") == 0;
    if (!ok) printf("integrity: %s\n", said);
    sqlite3_finalize(statement);
    return ok;
}

/* ---- run, dump ---- */

static void print_row(sqlite3_stmt *statement) {
    for (int i = 0; i < sqlite3_column_count(statement); i++) {
        if (i > 0) putchar('|');
        if (sqlite3_column_type(statement, i) != SQLITE_BLOB) {
            const unsigned char *text = sqlite3_column_text(statement, i);
            printf("%s", text ? (const char *)text : "NULL");
            continue;
        }
        const unsigned char *bytes = sqlite3_column_blob(statement, i);
        for (int k = 0; k < sqlite3_column_bytes(statement, i); k++) printf("%02x", bytes[k]);
    }
    putchar('\n');
}

/* Runs statements up to the first that is refused. */
static void run_all(sqlite3 *db, const char *sql) {
    while (*sql) {
        sqlite3_stmt *statement = NULL;
        int rc = sqlite3_prepare_v2(db, sql, -1, &statement, &sql);
        if (rc == SQLITE_OK && !statement) continue;
        if (rc == SQLITE_OK) {
            while ((rc = sqlite3_step(statement)) == SQLITE_ROW) print_row(statement);
            if (rc == SQLITE_DONE) rc = SQLITE_OK;
        }
        if (rc != SQLITE_OK) printf("error %d %s\n", sqlite3_extended_errcode(db), sqlite3_errmsg(db));
        sqlite3_finalize(statement);
        if (rc != SQLITE_OK) return;
    }
}

static int run(const char *name) {
    sqlite3 *db = open_db(name);
    char *line = NULL, *sql = NULL;
    size_t room = 0, n = 0;
    ssize_t got;
    while ((got = getline(&line, &room, stdin)) > 0) {
        sql = realloc(sql, n + (size_t)got + 1);
        memcpy(sql + n, line, (size_t)got + 1);
        n += (size_t)got;
        if (!sqlite3_complete(sql)) continue;
        run_all(db, sql);
        n = 0;
    }
    free(line);
    free(sql);
    return sqlite3_close(db) != SQLITE_OK;
}

static int dump(const char *name) {
    sqlite3 *db = open_db(name);
    run_all(db, "SELECT type, name, tbl_name, sql FROM sqlite_master ORDER BY name");
    sqlite3_stmt *tables = prepared(db, "SELECT name FROM sqlite_master WHERE type = 'table' ORDER BY name");
    while (sqlite3_step(tables) == SQLITE_ROW) {
        char *sql = sqlite3_mprintf("SELECT '%q', * FROM \"%w\"", sqlite3_column_text(tables, 0), sqlite3_column_text(tables, 0));
        run_all(db, sql);
        sqlite3_free(sql);
    }
    sqlite3_finalize(tables);
    run_all(db, "PRAGMA integrity_check");
    return sqlite3_close(db) != SQLITE_OK;
}

/* ---- write, check ---- */

static int writer(const char *name) {
    char sql[1500], line[32];
    sqlite3 *db = open_db(name);
    must(db, "BEGIN; CREATE TABLE IF NOT EXISTS tx(n INTEGER PRIMARY KEY, pad BLOB);"
             "CREATE TABLE IF NOT EXISTS part(n INT, i INT, pad BLOB); CREATE INDEX IF NOT EXISTS pn ON part(n, i);"
             "CREATE TABLE IF NOT EXISTS s(total INT); COMMIT");
    if (number(db, "SELECT count(*) FROM s") == 0) must(db, "INSERT INTO s VALUES(0)");
    for (long long n = number(db, "SELECT ifnull(max(n), 0) FROM tx") + 1;; n++) {
        snprintf(sql, sizeof sql,
                 "BEGIN; INSERT INTO tx VALUES(%lld, zeroblob(%lld));"
                 "INSERT INTO part VALUES(%lld, 1, zeroblob(%lld)), (%lld, 2, randomblob(200)), (%lld, 3, NULL);"
                 "UPDATE s SET total = total + %lld; DELETE FROM part WHERE n < %lld - 200; DELETE FROM tx WHERE n < %lld - 200; COMMIT",
                 n, n * 37 % 900, n, n % 50 == 0 ? 60000 : n * 101 % 5000, n, n, n, n, n);
        must(db, sql);
        if (n % 300 == 0) must(db, "VACUUM");
        int k = snprintf(line, sizeof line, "%lld\n", n);
        if (write(1, line, (size_t)k) != k) return 1;
    }
}

static int check(const char *name, long long last) {
    sqlite3 *db = open_db(name);
    if (number(db, "SELECT count(*) FROM sqlite_master WHERE name = 'tx'") == 0) {
        printf("no table, told %lld\n", last);
        return last > 0;
    }
    long long n = number(db, "SELECT ifnull(max(n), 0) FROM tx"), from = n > 201 ? n - 200 : 1, kept = n ? n - from + 1 : 0;
    int bad = !whole(db);
    bad += n != last && n != last + 1;
    bad += number(db, "SELECT count(*) FROM tx") != kept;
    bad += number(db, "SELECT count(*) FROM part") != 3 * kept;
    bad += number(db, "SELECT count(*) FROM (SELECT n FROM part GROUP BY n HAVING count(*) <> 3 OR sum(i) <> 6)") != 0;
    bad += n && number(db, "SELECT total FROM s") != n * (n + 1) / 2;
    printf("last %lld, told %lld%s\n", n, last, bad ? ": WRONG" : "");
    return bad != 0;
}

/* ---- two connections ---- */

static int asked, wrong;

static void expect(const char *what, long long got, long long wanted) {
    asked++;
    printf("%-62s %lld%s\n", what, got, got == wanted ? "" : "   <-- WRONG");
    if (got == wanted) return;
    printf("   wanted %lld\n", wanted);
    wrong++;
}

static int told(void) {
    printf("%d answers, %d wrong\n", asked, wrong);
    return wrong != 0;
}

static void open_two(const char *name, sqlite3 **a, sqlite3 **b) {
    *a = open_db(name);
    *b = open_db(name);
}

static void close_two(sqlite3 *a, sqlite3 *b) {
    expect("whole", whole(a) && whole(b), 1);
    sqlite3_close(a);
    sqlite3_close(b);
}

static void leave_transaction(sqlite3 *db) {
    if (!sqlite3_get_autocommit(db)) try(db, "ROLLBACK");
}

#define ROWS(n) "WITH c(i) AS (VALUES(1) UNION ALL SELECT i + 1 FROM c LIMIT " #n ") "
#define SPILL "BEGIN; " ROWS(60000) "INSERT INTO t SELECT 0 FROM c"

static void locked(const char *name) {
    sqlite3 *a, *b;
    open_two(name, &a, &b);
    must(a, "CREATE TABLE t(n INT); INSERT INTO t VALUES(1)");
    expect("b sees it", number(b, "SELECT sum(n) FROM t"), 1);
    expect("a begins, writes", try(a, "BEGIN; INSERT INTO t VALUES(10)"), 0);
    expect("b reads beside it, as before", number(b, "SELECT sum(n) FROM t"), 1);
    expect("b writes: busy", try(b, "INSERT INTO t VALUES(100)"), SQLITE_BUSY);
    expect("b begins, reads", try(b, "BEGIN; SELECT * FROM t"), 0);
    expect("a commits beside the reader", try(a, "COMMIT"), 0);
    expect("b sees its snapshot still", number(b, "SELECT sum(n) FROM t"), 1);
    expect("b writes on it: busy, snapshot", try(b, "INSERT INTO t VALUES(100)"), SQLITE_BUSY_SNAPSHOT);
    expect("b rolls back", try(b, "ROLLBACK"), 0);
    expect("b sees the commit", number(b, "SELECT sum(n) FROM t"), 11);
    expect("b writes", try(b, "INSERT INTO t VALUES(100)"), 0);
    expect("a sees it", number(a, "SELECT sum(n) FROM t"), 111);
    close_two(a, b);
}

static void optimistic(const char *name) {
    sqlite3 *a, *b;
    open_two(name, &a, &b);
    expect("optimistic: a begins, writes", try(a, "BEGIN; INSERT INTO t VALUES(1000)"), 0);
    expect("b begins, writes", try(b, "BEGIN; INSERT INTO t VALUES(5000)"), 0);
    expect("a commits", try(a, "COMMIT"), 0);
    expect("b commits: busy", try(b, "COMMIT"), SQLITE_BUSY);
    expect("b commits once more: no commit", try(b, "COMMIT") != 0, 1);
    leave_transaction(b);
    expect("b sees what a committed, and not its own", number(b, "SELECT sum(n) FROM t"), 1111);
    expect("b writes", try(b, "INSERT INTO t VALUES(5000)"), 0);
    expect("a sees it", number(a, "SELECT sum(n) FROM t"), 6111);
    expect("a begins, writes", try(a, "BEGIN; INSERT INTO t VALUES(20000)"), 0);
    expect("b writes beside it", try(b, "INSERT INTO t VALUES(1)"), 0);
    expect("a commits: busy", try(a, "COMMIT"), SQLITE_BUSY);
    expect("a writes more", try(a, "INSERT INTO t VALUES(20000)"), 0);
    expect("a commits: refused", try(a, "COMMIT") != 0, 1);
    leave_transaction(a);
    expect("a sees what stands", number(a, "SELECT sum(n) FROM t"), 6112);
    close_two(a, b);
}

/* Pages that go out before the commit, since the cache has no room for them. */
static void spilled(const char *name) {
    sqlite3 *a, *b;
    open_two(name, &a, &b);
    must(a, "PRAGMA cache_spill=1; PRAGMA cache_size=5");
    expect("a spills", try(a, SPILL), 0);
    expect("b writes beside it", try(b, "INSERT INTO t VALUES(1)"), 0);
    expect("a commits: busy", try(a, "COMMIT"), SQLITE_BUSY);
    expect("a rolls back", try(a, "ROLLBACK"), 0);
    expect("a has its rows no more", number(a, "SELECT count(*) FROM t"), number(b, "SELECT count(*) FROM t"));
    expect("a spills again", try(a, SPILL), 0);
    expect("a rolls back what it spilled", try(a, "ROLLBACK"), 0);
    expect("a has its rows no more", number(a, "SELECT sum(n) FROM t"), 6113);
    expect("a spills again", try(a, SPILL), 0);
    expect("b writes beside it", try(b, "INSERT INTO t VALUES(1)"), 0);
    try(a, "ROLLBACK");
    expect("a rolls back at once, and is out", sqlite3_get_autocommit(a), 1);
    expect("a has its rows no more", number(a, "SELECT sum(n) FROM t"), 6114);
    expect("a writes", try(a, "INSERT INTO t VALUES(1)"), 0);
    expect("b sees it", number(b, "SELECT sum(n) FROM t"), 6115);
    close_two(a, b);
}

static void spilled_and_read(const char *name) {
    sqlite3 *a, *b;
    open_two(name, &a, &b);
    expect("after an opening", number(a, "SELECT sum(n) FROM t"), 6115);
    must(a, "PRAGMA cache_spill=1; PRAGMA cache_size=5");
    expect("a spills", try(a, "BEGIN; " ROWS(60000) "INSERT INTO t SELECT 1 FROM c"), 0);
    expect("a reads what it spilled", number(a, "SELECT sum(n) FROM t"), 66115);
    expect("b writes beside it", try(b, "INSERT INTO t VALUES(0)"), 0);
    expect("a commits: busy", try(a, "COMMIT"), SQLITE_BUSY);
    expect("a commits once more: no commit", try(a, "COMMIT") != 0, 1);
    leave_transaction(a);
    expect("a has its rows no more", number(a, "SELECT sum(n) FROM t"), 6115);
    must(a, ROWS(60000) "INSERT INTO t SELECT 0 FROM c");
    must(a, "PRAGMA journal_mode=OFF");
    expect("no journal: a spills", try(a, "BEGIN; UPDATE t SET n = n + 1"), 0);
    expect("a rolls back", try(a, "ROLLBACK"), 0);
    expect("a has its rows no more", number(a, "SELECT sum(n) FROM t"), 6115);
    expect("a writes", try(a, "INSERT INTO t VALUES(0)"), 0);
    expect("b sees that alone", number(b, "SELECT sum(n) FROM t"), 6115);
    close_two(a, b);
}

/* A statement that reads on while its own connection commits: what it is shown then is up to SQLite, but what is written after it, by
 * comparison with what it was shown, is not. */
static void reading_on(const char *name) {
    sqlite3 *a, *b;
    open_two(name, &a, &b);
    must(a, "PRAGMA cache_size=5; CREATE TABLE r(n INTEGER PRIMARY KEY, v INT, pad BLOB)");
    must(a, ROWS(100) "INSERT INTO r SELECT i, 1, zeroblob(3000) FROM c");
    sqlite3_stmt *rows = prepared(a, "SELECT v, pad FROM r");
    expect("a reads a row", sqlite3_step(rows), SQLITE_ROW);
    expect("a commits beside it", try(a, "UPDATE r SET v = 2"), 0);
    expect("a reads a row", sqlite3_step(rows), SQLITE_ROW);
    expect("b sees the commit", number(b, "SELECT sum(v) FROM r"), 200);
    expect("a commits what stood there before", try(a, "UPDATE r SET v = 1"), 0);
    while (sqlite3_step(rows) == SQLITE_ROW) continue;
    expect("a reads to the end", sqlite3_finalize(rows), SQLITE_OK);
    expect("b sees the commit", number(b, "SELECT sum(v) FROM r"), 100);
    close_two(a, b);
}

/* A reader that stays: the log fills up beside it, and it is shown its snapshot to the end. */
static void long_reader(const char *name) {
    sqlite3 *a, *b;
    int commits = 0, rc = 0;
    open_two(name, &a, &b);
    must(a, "CREATE TABLE big(v BLOB)");
    expect("b begins, reads", try(b, "BEGIN; SELECT * FROM t"), 0);
    while (rc == 0 && commits < 10000) {
        rc = try(a, "DELETE FROM big; INSERT INTO big VALUES(randomblob(100000))");
        if (rc == 0) commits++;
    }
    printf("a commits %d times beside the reader\n", commits);
    expect("then the log is full", rc & 255, SQLITE_FULL);
    expect("b has its snapshot", number(b, "SELECT sum(n) FROM t"), 6115);
    expect("b ends", try(b, "COMMIT"), 0);
    for (commits = 0, rc = 0; rc == 0 && commits < 100; commits++)
        rc = try(a, "DELETE FROM big; INSERT INTO big VALUES(randomblob(100000))");
    expect("a goes on, for more than the log has room for", commits, 100);
    expect("and the last one too", rc, 0);
    close_two(a, b);
}

static int two(const char *name) {
    char optimistic_name[600];
    snprintf(optimistic_name, sizeof optimistic_name, "%s&optimistic=1", name);
    locked(name);
    optimistic(optimistic_name);
    spilled(optimistic_name);
    spilled_and_read(optimistic_name);
    reading_on(name);
    long_reader(name);
    return told();
}

/* ---- threads ---- */

static const char *threads_name;
static long busy[4];

/* once more until it is committed */
static void add(sqlite3 *db, int me, const char *sql) {
    for (;;) {
        int rc = try(db, "BEGIN");
        if (rc == 0) rc = try(db, sql);
        if (rc == 0) rc = try(db, "COMMIT");
        if (rc == 0) return;
        leave_transaction(db);
        if ((rc & 255) != SQLITE_BUSY && (rc & 255) != SQLITE_IOERR) {
            printf("thread %d: %d %s\n", me, rc, sqlite3_errmsg(db));
            exit(4);
        }
        busy[me]++;
        usleep((useconds_t)(100 * me + 50));
    }
}

static void *adds(void *arg) {
    int me = (int)(long)arg;
    char sql[120];
    sqlite3 *db = open_db(threads_name);
    sqlite3_busy_timeout(db, 20000);
    for (int i = 0; i < 500; i++) {
        snprintf(sql, sizeof sql, "UPDATE s SET n = n + 1; INSERT INTO t VALUES(%d, %d)", me, i);
        add(db, me, sql);
    }
    sqlite3_close(db);
    return NULL;
}

static int threads(const char *name) {
    pthread_t four[4];
    sqlite3 *db = open_db(name);
    must(db, "CREATE TABLE s(n INT); INSERT INTO s VALUES(0); CREATE TABLE t(who INT, i INT)");
    threads_name = name;
    for (long i = 0; i < 4; i++) pthread_create(&four[i], NULL, adds, (void *)i);
    for (int i = 0; i < 4; i++) pthread_join(four[i], NULL);
    printf("busy %ld %ld %ld %ld\n", busy[0], busy[1], busy[2], busy[3]);
    expect("the number is the sum", number(db, "SELECT n FROM s"), 2000);
    expect("rows", number(db, "SELECT count(*) FROM (SELECT DISTINCT who, i FROM t)"), 2000);
    expect("whole", whole(db), 1);
    sqlite3_close(db);
    return told();
}

/* ---- limits ---- */

static long long rows_of(sqlite3 *db) { return number(db, "SELECT count(*) FROM t"); }

static void large_transactions(sqlite3 *a) {
    expect("4,000 pages in one transaction", try(a, ROWS(4000) "INSERT INTO t SELECT i, zeroblob(4000) FROM c"), 0);
    long long rows = rows_of(a);
    expect("5,000 pages in one: full", try(a, ROWS(5000) "INSERT INTO t(v) SELECT zeroblob(4000) FROM c") & 255, SQLITE_FULL);
    expect("as before", rows_of(a), rows);
    expect("explicit: 5,000 pages", try(a, "BEGIN; " ROWS(5000) "INSERT INTO t(v) SELECT zeroblob(4000) FROM c"), 0);
    expect("commit: full", try(a, "COMMIT") & 255, SQLITE_FULL);
    expect("rolled back by itself", sqlite3_get_autocommit(a), 1);
    expect("as before", rows_of(a), rows);
    expect("whole", whole(a), 1);
}

static void full_image(sqlite3 *a, const char *name) {
    long long rows = rows_of(a);
    while (rows < 40000 && try(a, ROWS(2000) "INSERT INTO t(v) SELECT zeroblob(4000) FROM c") == 0) rows += 2000;
    expect("then the image is full", sqlite3_extended_errcode(a), SQLITE_FULL);
    expect("as before", rows_of(a), rows);
    while (try(a, ROWS(10) "INSERT INTO t(v) SELECT zeroblob(4000) FROM c") == 0) rows += 10;
    long long pages = number(a, "PRAGMA page_count");
    printf("rows of a page %lld, pages %lld of 4096 bytes\n", rows, pages);
    expect("no page more than the image has", pages <= 16383 && pages > 16300, 1);
    sqlite3 *b = open_db(name);
    must(b, "BEGIN; PRAGMA cache_size=10");
    expect("b reads", number(b, "SELECT count(*) FROM s"), 1);
    must(a, "UPDATE s SET n = n + 1");
    expect("b scans all of them in its snapshot, beside a commit", number(b, "SELECT sum(length(v)) FROM t"), rows * 4000);
    expect("b sees no later commit", number(b, "SELECT n FROM s"), 0);
    sqlite3_close(b);
}

static void large_changes(sqlite3 *a) {
    long long rows = rows_of(a);
    expect("a delete that touches more than 4,094 pages: full", try(a, "DELETE FROM t WHERE n > 3000") & 255, SQLITE_FULL);
    expect("as before", rows_of(a), rows);
    expect("all rows made new in one transaction: full", try(a, "UPDATE t SET v = randomblob(4000)") & 255, SQLITE_FULL);
    expect("as before", number(a, "SELECT sum(length(v)) FROM t"), rows * 4000);
    int steps = 0;
    while (rows_of(a) > 3000 && ++steps < 100) {
        if (try(a, "DELETE FROM t WHERE n > 3000 AND n IN (SELECT n FROM t WHERE n > 3000 LIMIT 1500)") != 0) break;
    }
    printf("steps %d\n", steps);
    expect("a delete in steps", rows_of(a), 3000);
    expect("vacuum", try(a, "VACUUM"), 0);
    expect("the pages are fewer", number(a, "PRAGMA page_count") < 3100, 1);
    expect("whole", whole(a), 1);
}

static int limits(const char *name) {
    sqlite3 *a = open_db(name);
    must(a, "CREATE TABLE s(n INT); INSERT INTO s VALUES(0); CREATE TABLE t(n INTEGER PRIMARY KEY, v BLOB)");
    large_transactions(a);
    full_image(a, name);
    large_changes(a);
    sqlite3_close(a);
    a = open_db(name);
    expect("after an opening", rows_of(a), 3000);
    expect("whole", whole(a), 1);
    sqlite3_close(a);
    return told();
}

/* ---- bench ---- */

/* the processor time of this process, as other work does not count then */
static double now(void) {
    struct timespec t;
    clock_gettime(CLOCK_PROCESS_CPUTIME_ID, &t);
    return (double)t.tv_sec + (double)t.tv_nsec / 1e9;
}

static unsigned drawn(void) {
    static unsigned x = 7;
    x = x * 1664525u + 1013904223u;
    return x >> 8;
}

/* a statement so often, each time with a number from 1 to `most` */
static void repeat(sqlite3 *db, const char *sql, int times, int most) {
    sqlite3_stmt *statement = prepared(db, sql);
    for (int i = 0; i < times; i++) {
        sqlite3_bind_int(statement, 1, (int)drawn() % most + 1);
        if (sqlite3_step(statement) != SQLITE_DONE) {
            printf("%s: %s\n", sql, sqlite3_errmsg(db));
            exit(4);
        }
        sqlite3_reset(statement);
    }
    sqlite3_finalize(statement);
}

static int bench(const char *name, const char *mode, int n) {
    sqlite3 *db = open_db(name);
    if (strcmp(mode, "wal") == 0) must(db, "PRAGMA journal_mode=WAL; PRAGMA synchronous=FULL");
    if (strcmp(mode, "delete") == 0) must(db, "PRAGMA journal_mode=DELETE; PRAGMA synchronous=FULL");
    must(db, "CREATE TABLE a(id INTEGER PRIMARY KEY, n INT, pad TEXT); CREATE TABLE b(id INTEGER PRIMARY KEY, n INT, pad TEXT);"
             "CREATE INDEX bn ON b(n)");
    double t0 = now();
    repeat(db, "INSERT INTO a(n, pad) VALUES(?, 'a small row of some forty or fifty bytes')", n, n);
    double t1 = now();
    repeat(db, "UPDATE a SET n = n + 1 WHERE id = ?", n, n);
    double t2 = now();
    for (int k = 0; k < 20; k++) {
        must(db, "BEGIN");
        repeat(db, "INSERT INTO b(n, pad) VALUES(?, 'a small row of some forty or fifty bytes')", 5000, 1 << 24);
        must(db, "COMMIT");
    }
    double t3 = now();
    must(db, "PRAGMA cache_size=10");
    for (int i = 0; i < 20; i++) number(db, "SELECT sum(length(pad)) FROM b");
    double t4 = now();
    printf("%-8s inserts %.3f s, updates %.3f s, bulk %.3f s, scans %.3f s, pages %lld\n", mode, t1 - t0, t2 - t1, t3 - t2, t4 - t3,
           number(db, "PRAGMA page_count"));
    return sqlite3_close(db) != SQLITE_OK;
}

int main(int argc, char **argv) {
    const char *what = argc > 2 ? argv[1] : "";
    if (know_vfs() != SQLITE_OK) return 2;
    if (strcmp(what, "run") == 0) return run(argv[2]);
    if (strcmp(what, "dump") == 0) return dump(argv[2]);
    if (strcmp(what, "write") == 0) return writer(argv[2]);
    if (strcmp(what, "check") == 0 && argc == 4) return check(argv[2], atoll(argv[3]));
    if (strcmp(what, "two") == 0) return two(argv[2]);
    if (strcmp(what, "threads") == 0) return threads(argv[2]);
    if (strcmp(what, "limits") == 0) return limits(argv[2]);
    if (strcmp(what, "bench") == 0 && argc == 5) return bench(argv[2], argv[3], atoi(argv[4]));
    return 2;
}
