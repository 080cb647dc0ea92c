// Files of one directory as rows of a table, by the library of SQLite: what bench/files.sh measures beside.
//
//     sqlite_files DATABASE touch FROM COUNT    makes so many files, each in a transaction
//     sqlite_files DATABASE stat FROM COUNT     looks each of them up, and prints what it finds
//     sqlite_files DATABASE check               opens the table and checks it
//
// A row has the object, its name, and the ids of the calls that made and removed it. Nothing is synced, unless the
// word SYNCHRONOUS of the environment says so, and each reply is printed before the next call, as hammer prints its
// own.
#include "sqlite.h"

static sqlite3_int64 number(const char *sql) {
    sqlite3_stmt *statement = prepare(sql);
    if (sqlite3_step(statement) != SQLITE_ROW) stop(sql);
    sqlite3_int64 value = sqlite3_column_int64(statement, 0);
    sqlite3_finalize(statement);
    return value;
}

static void touch(long from, long count) {
    sqlite3_stmt *begin = prepare("BEGIN IMMEDIATE"), *commit = prepare("COMMIT");
    sqlite3_stmt *find = prepare("SELECT object FROM files WHERE name = ? AND deleted IS NULL");
    sqlite3_stmt *add = prepare("INSERT INTO files VALUES (?, ?, ?, NULL)");
    sqlite3_int64 id = number("SELECT coalesce(max(created), 1) FROM files");
    for (long i = from; i < from + count; i++) {
        char name[32];
        snprintf(name, sizeof name, "f%08ld", i);
        id++;
        end_step(begin);
        sqlite3_bind_text(find, 1, name, -1, SQLITE_TRANSIENT);
        end_step(find);
        sqlite3_bind_int64(add, 1, id);
        sqlite3_bind_text(add, 2, name, -1, SQLITE_TRANSIENT);
        sqlite3_bind_int64(add, 3, id);
        end_step(add);
        end_step(commit);
        answer(id);
    }
    sqlite3_finalize(begin);
    sqlite3_finalize(commit);
    sqlite3_finalize(find);
    sqlite3_finalize(add);
}

static void stat_each(long from, long count) {
    sqlite3_stmt *find = prepare("SELECT object FROM files WHERE name = ? AND deleted IS NULL");
    for (long i = from; i < from + count; i++) {
        char name[32];
        snprintf(name, sizeof name, "f%08ld", i);
        sqlite3_bind_text(find, 1, name, -1, SQLITE_TRANSIENT);
        if (sqlite3_step(find) != SQLITE_ROW) stop("a file is missing");
        printf("ok f 0x%016llx 0 1\n", (unsigned long long)sqlite3_column_int64(find, 0));
        sqlite3_reset(find);
    }
    sqlite3_finalize(find);
}

int main(int argc, char **argv) {
    if (argc < 3) return 2;
    open_base(argv[1]);
    run("CREATE TABLE IF NOT EXISTS files (object INTEGER, name TEXT, created INTEGER, deleted INTEGER)");
    run("CREATE INDEX IF NOT EXISTS names ON files (name)");
    if (strcmp(argv[2], "check") == 0) {
        run("PRAGMA quick_check");
    } else if (argc == 5 && strcmp(argv[2], "touch") == 0) {
        touch(atol(argv[3]), atol(argv[4]));
    } else if (argc == 5 && strcmp(argv[2], "stat") == 0) {
        stat_each(atol(argv[3]), atol(argv[4]));
    } else {
        return 2;
    }
    close_base();
    return 0;
}
