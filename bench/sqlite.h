// What the programs over the library of SQLite share that are measured beside hammer: a database in WAL mode of
// which nothing is synced, or what the word SYNCHRONOUS of the environment says, as NORMAL; statements that must
// end well, and replies as hammer prints its own.
#include <sqlite3.h>
#include <stdio.h>
#include <stdlib.h>
#include <string.h>

static sqlite3 *base;

static void stop(const char *what) {
    fprintf(stderr, "%s: %s\n", what, sqlite3_errmsg(base));
    exit(1);
}

static void run(const char *sql) {
    if (sqlite3_exec(base, sql, NULL, NULL, NULL) != SQLITE_OK) stop(sql);
}

// Opens the database, and has each reply printed before the next call.
static void open_base(const char *path) {
    const char *synchronous = getenv("SYNCHRONOUS");
    char pragma[64];
    if (sqlite3_open(path, &base) != SQLITE_OK) exit(2);
    setvbuf(stdout, NULL, _IOLBF, 4096);
    run("PRAGMA journal_mode = WAL");
    snprintf(pragma, sizeof pragma, "PRAGMA synchronous = %s", synchronous ? synchronous : "OFF");
    run(pragma);
}

static void close_base(void) {
    if (sqlite3_close(base) != SQLITE_OK) stop("closing");
}

static sqlite3_stmt *prepare(const char *sql) {
    sqlite3_stmt *statement;
    if (sqlite3_prepare_v2(base, sql, -1, &statement, NULL) != SQLITE_OK) stop(sql);
    return statement;
}

static void end_step(sqlite3_stmt *statement) {
    if (sqlite3_step(statement) != SQLITE_DONE) stop("a step");
    sqlite3_reset(statement);
}

static void answer(sqlite3_int64 id) {
    printf("0x%016llx ok\n", (unsigned long long)id);
}
