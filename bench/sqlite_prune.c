// Elements of a volume as rows of a table, by the library of SQLite: what bench/prune.sh measures beside.
//
//     sqlite_prune DATABASE make COUNT    makes the two elements of so many files, and closes those of each second one
//     sqlite_prune DATABASE open          opens the table
//     sqlite_prune DATABASE prune         deletes those that were closed, in one transaction
//
// A row has the key of an element, the id that closed it, and where its payload stands. Nothing is synced, unless the word
// SYNCHRONOUS of the environment says so.
#include "sqlite.h"

// The FNV-1a hash of a name, as the key of its entry has it.
static sqlite3_int64 name_key(const char *name) {
    unsigned long long hash = 0xcbf29ce484222325;
    for (; *name; name++) hash = (hash ^ (unsigned char)*name) * 0x100000001b3;
    return (sqlite3_int64)(hash >> 17 << 16);
}

static void add(sqlite3_stmt *statement, int localization, long object, int type, sqlite3_int64 key, long created,
                long closed, long place) {
    sqlite3_bind_int(statement, 1, localization);
    sqlite3_bind_int64(statement, 2, object);
    sqlite3_bind_int(statement, 3, type);
    sqlite3_bind_int64(statement, 4, key);
    sqlite3_bind_int64(statement, 5, created);
    sqlite3_bind_int64(statement, 6, closed);
    sqlite3_bind_int64(statement, 7, place);
    sqlite3_bind_int(statement, 8, type == 1 ? 32 : 17);
    end_step(statement);
}

static void make(long count) {
    run("CREATE TABLE elements (localization INTEGER, object INTEGER, type INTEGER, key INTEGER, created INTEGER,"
        " closed INTEGER, place INTEGER, length INTEGER,"
        " PRIMARY KEY (localization, object, type, key, created)) WITHOUT ROWID");
    run("CREATE INDEX closed ON elements (closed)");
    run("BEGIN");
    sqlite3_stmt *statement = prepare("INSERT INTO elements VALUES (?, ?, ?, ?, ?, ?, ?, ?)");
    for (long i = 0; i < count; i++) {
        char name[32];
        snprintf(name, sizeof name, "f%08ld", i);
        long id = i + 2, closed = i % 2 ? count + 2 + i / 2 : 0;
        add(statement, 1, id, 1, 0, id, closed, 64 * i);
        add(statement, 2, 1, 17, name_key(name), id, closed, 64 * i + 32);
    }
    sqlite3_finalize(statement);
    run("COMMIT");
}

int main(int argc, char **argv) {
    if (argc < 3) return 2;
    open_base(argv[1]);
    if (argc == 4 && strcmp(argv[2], "make") == 0) {
        make(atol(argv[3]));
    } else if (strcmp(argv[2], "prune") == 0) {
        run("DELETE FROM elements WHERE closed > 0");
        printf("%d\n", sqlite3_changes(base));
    } else if (strcmp(argv[2], "open") == 0) {
        run("SELECT 1 FROM elements LIMIT 1");
    } else {
        return 2;
    }
    close_base();
    return 0;
}
