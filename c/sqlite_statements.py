"""sqlite_statements.py SEED COUNT: SQL that is the same for the same words, for two databases that are compared."""
import random
import sys

drawn = random.Random(int(sys.argv[1]))
count = int(sys.argv[2])
upto = drawn.randrange

TABLES = """CREATE TABLE t(id INTEGER PRIMARY KEY, k TEXT UNIQUE, v BLOB, n INT);
CREATE INDEX tn ON t(n, k);
CREATE TABLE w(a TEXT, b INT, PRIMARY KEY(a, b)) WITHOUT ROWID;
CREATE TABLE log(id INTEGER PRIMARY KEY AUTOINCREMENT, what TEXT);
CREATE TRIGGER td AFTER DELETE ON t BEGIN INSERT INTO log(what) VALUES('gone ' || old.k); END;
CREATE VIRTUAL TABLE f USING fts5(body);
CREATE VIRTUAL TABLE box USING rtree(id, x0, x1);
CREATE TEMP TABLE scratch(x);"""

LAST = "PRAGMA integrity_check; PRAGMA foreign_key_check; SELECT count(*), sum(n), sum(length(v)) FROM t;"

# How often in a hundred, and the statement of a key. The second and the eleventh often meet UNIQUE, the eleventh in its middle.
STATEMENTS = [
    (30, lambda k: f"INSERT OR REPLACE INTO t(k, v, n) VALUES('{k}', zeroblob({drawn.choice([3, 40, 700, 9000, 30000])}), {upto(1000)});"),
    (8, lambda k: f"INSERT INTO t(k, v, n) SELECT 'm' || (n * 7 % 900) || '-{upto(9)}', k, n FROM t LIMIT {upto(40)};"),
    (12, lambda k: f"UPDATE t SET n = n + 1, v = CAST(k AS BLOB) || zeroblob({upto(3000)}) WHERE n % 17 = {upto(17)};"),
    (8, lambda k: f"DELETE FROM t WHERE n % 23 = {upto(23)};"),
    (8, lambda k: f"INSERT OR IGNORE INTO w VALUES('{k}', {upto(50)});"),
    (4, lambda k: f"DELETE FROM w WHERE b = {upto(50)};"),
    (6, lambda k: f"INSERT INTO f(body) VALUES('{k} {k * 3} word{upto(60)}');"),
    (4, lambda k: f"INSERT OR REPLACE INTO box VALUES({upto(300)}, {upto(100)}, {100 + upto(100)});"),
    (3, lambda k: "SELECT count(*), sum(n), sum(length(v)) FROM t;"),
    (2, lambda k: f"SELECT count(*) FROM f WHERE f MATCH 'word{upto(60)}';"),
    (3, lambda k: f"INSERT INTO t(k, v, n) VALUES('{k}', 1, 2), ('fresh{upto(10**6)}', 2, 3), ('{k}', 3, 4);"),
    (2, lambda k: "INSERT INTO scratch SELECT n FROM t;"),
    (10, lambda k: f"INSERT INTO log(what) VALUES('{k}');"),
]

# Between transactions: so often in a hundred, else a statement alone (50) or a transaction (40).
UPKEEP = [
    (2, lambda i: "VACUUM;"),
    (1, lambda i: "REINDEX;"),
    (1, lambda i: "ANALYZE;"),
    (1, lambda i: f"ALTER TABLE log ADD COLUMN c{i} INT DEFAULT {i};"),
    (1, lambda i: f"CREATE TABLE x{i} AS SELECT * FROM t; DROP TABLE x{i};"),
    (1, lambda i: f"CREATE INDEX i{i} ON t(v); DROP INDEX i{i};"),
    (1, lambda i: "INSERT INTO f(f) VALUES('optimize');"),
    (2, lambda i: "PRAGMA integrity_check;"),
]


def picked(choices, word):
    weights = [weight for weight, _ in choices]
    return drawn.choices([made for _, made in choices], weights)[0](word)


def statement():
    print(picked(STATEMENTS, f"k{upto(400)}"))


def transaction():
    print("BEGIN;")
    for _ in range(drawn.randrange(1, 12)):
        if upto(20) > 0:
            statement()
            continue
        print("SAVEPOINT s;")
        statement()
        statement()
        print(drawn.choice(["RELEASE s;", "ROLLBACK TO s;", "ROLLBACK TO s; RELEASE s;"]))
    print(drawn.choice(["COMMIT;", "COMMIT;", "COMMIT;", "ROLLBACK;"]))


print(TABLES)
for i in range(count):
    kind = upto(100)
    if kind < 50:
        statement()
    elif kind < 90:
        transaction()
    else:
        print(picked(UPKEEP, i))
print(LAST)
