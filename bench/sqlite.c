/* Carries out a workload on a database of SQLite.
 *
 *     sqlite DATABASE WORKLOAD
 *     sqlite
 *
 * The second form prints SQLite's version. */
#include <sqlite3.h>

#include "workload.h"

static sqlite3 *database;
static sqlite3_stmt *begin, *commit, *set, *get, *list, *install;

static void check(int status) {
    if (status == SQLITE_OK || status == SQLITE_DONE || status == SQLITE_ROW) return;
    fprintf(stderr, "sqlite: %s\n", sqlite3_errmsg(database));
    exit(1);
}

static void execute(const char *text) { check(sqlite3_exec(database, text, NULL, NULL, NULL)); }

static sqlite3_stmt *prepared(const char *text) {
    sqlite3_stmt *statement;
    check(sqlite3_prepare_v3(database, text, -1, SQLITE_PREPARE_PERSISTENT, &statement, NULL));
    return statement;
}

static void open_database(const char *path) {
    check(sqlite3_open(path, &database));
    execute("PRAGMA journal_mode = WAL; PRAGMA synchronous = FULL;"
            "CREATE TABLE IF NOT EXISTS keys (key BLOB PRIMARY KEY, value BLOB) WITHOUT ROWID;"
            "CREATE TABLE IF NOT EXISTS files (name TEXT PRIMARY KEY, bytes BLOB);");
    begin = prepared("BEGIN");
    commit = prepared("COMMIT");
    set = prepared("INSERT OR REPLACE INTO keys VALUES (?1, ?2)");
    get = prepared("SELECT value FROM keys WHERE key = ?1");
    list = prepared("SELECT key FROM keys ORDER BY key");
    install = prepared("INSERT OR REPLACE INTO files VALUES (?1, ?2)");
}

static void bind(sqlite3_stmt *statement, int place, struct word word) {
    check(sqlite3_bind_blob(statement, place, word.at, (int)word.length, SQLITE_STATIC));
}

/* Runs the statement to its end, and puts the first column of each row into the answer. */
static void run(sqlite3_stmt *statement) {
    int status;
    while ((status = sqlite3_step(statement)) == SQLITE_ROW) {
        put(" ", 1);
        put(sqlite3_column_blob(statement, 0), (size_t)sqlite3_column_bytes(statement, 0));
    }
    check(status);
    check(sqlite3_reset(statement));
}

static void carry_out(struct word name, struct word first, struct word second) {
    if (is(name, "begin")) {
        run(begin);
    } else if (is(name, "commit")) {
        run(commit);
    } else if (is(name, "set")) {
        bind(set, 1, first);
        bind(set, 2, second);
        run(set);
    } else if (is(name, "get") || is(name, "read")) {
        bind(get, 1, first);
        run(get);
    } else if (is(name, "list")) {
        run(list);
    } else if (is(name, "install")) {
        check(sqlite3_bind_text(install, 1, first.at, (int)first.length, SQLITE_STATIC));
        bind(install, 2, second);
        run(install);
    } else {
        fprintf(stderr, "sqlite: no such command\n");
        exit(1);
    }
}

int main(int count, char **words) {
    if (count == 1) {
        puts(sqlite3_libversion());
        return 0;
    }
    open_database(words[1]);
    carry_out_all(words[2], carry_out);
    sqlite3_stmt *all[] = {begin, commit, set, get, list, install};
    for (size_t at = 0; at < sizeof all / sizeof *all; at++) sqlite3_finalize(all[at]);
    check(sqlite3_close(database));
    return 0;
}
