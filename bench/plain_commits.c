/* The statements of a registration, in plain SQLite: a load is looked up, and added in one transaction, WAL and synchronous=FULL.
 * To compare with `desk replay` on the same file; see bench/commits.py. It takes a file that has the desk's tables, the number of
 * registrations, and the number of the first. */
#include <sqlite3.h>
#include <stdio.h>
#include <stdlib.h>

static sqlite3 *base;

static void check(int code, int wanted) {
    if (code != wanted) {
        fprintf(stderr, "%s\n", sqlite3_errmsg(base));
        exit(1);
    }
}

static sqlite3_stmt *prepared(const char *text) {
    sqlite3_stmt *statement;
    check(sqlite3_prepare_v2(base, text, -1, &statement, NULL), SQLITE_OK);
    return statement;
}

static void run(sqlite3_stmt *statement) {
    check(sqlite3_step(statement), SQLITE_DONE);
    check(sqlite3_reset(statement), SQLITE_OK);
}

int main(int argc, char **argv) {
    if (argc != 4) return 2;
    check(sqlite3_open(argv[1], &base), SQLITE_OK);
    check(sqlite3_exec(base, "PRAGMA journal_mode=WAL; PRAGMA synchronous=FULL", NULL, NULL, NULL), SQLITE_OK);
    sqlite3_stmt *find = prepared("SELECT id, kind, station, manufacturer, serial FROM load WHERE id = ?1");
    sqlite3_stmt *add = prepared("INSERT INTO load (id, kind, station, manufacturer, serial) VALUES (?1, ?2, ?3, ?4, ?5)");
    sqlite3_stmt *begin = prepared("BEGIN IMMEDIATE");
    sqlite3_stmt *commit = prepared("COMMIT");
    long count = atol(argv[2]), first = atol(argv[3]);
    for (long i = 0; i < count; i++) {
        char name[33];
        int length = snprintf(name, sizeof name, "L%07ld", first + i);
        check(sqlite3_bind_text(find, 1, name, length, SQLITE_TRANSIENT), SQLITE_OK);
        run(find);
        run(begin);
        check(sqlite3_bind_text(add, 1, name, length, SQLITE_TRANSIENT), SQLITE_OK);
        check(sqlite3_bind_text(add, 2, "checking", 8, SQLITE_STATIC), SQLITE_OK);
        run(add);
        run(commit);
    }
    return 0;
}
