// Bytes of files as rows of a table, one row a block of 16,384 bytes, by the library of SQLite: what
// bench/bytes.sh measures beside.
//
//     sqlite_blobs DATABASE fill FILES BYTES    makes so many files of so many bytes
//
// A file is a row of the table of files, and each of its blocks a row of the table of blocks: the file, which
// block it is, the id of the call that wrote it, and its bytes. Making a file and filling it are a transaction
// each, as they are a call each of hammer. Nothing is synced, unless the word SYNCHRONOUS of the environment says so,
// and each reply is printed before the next call.
#include "sqlite.h"

enum { BLOCK = 16384 };

static void fill(long files, long bytes) {
    static char block[BLOCK];
    sqlite3_stmt *begin = prepare("BEGIN IMMEDIATE"), *commit = prepare("COMMIT");
    sqlite3_stmt *add_file = prepare("INSERT INTO files VALUES (?, ?, ?)");
    sqlite3_stmt *size_file = prepare("UPDATE files SET size = ? WHERE file = ?");
    sqlite3_stmt *add_block = prepare("INSERT INTO blocks VALUES (?, ?, ?, ?)");
    sqlite3_int64 id = 1;
    memset(block, 'a', sizeof block);
    for (long i = 0; i < files; i++) {
        char name[32];
        snprintf(name, sizeof name, "f%04ld", i);
        sqlite3_int64 file = ++id;
        end_step(begin);
        sqlite3_bind_int64(add_file, 1, file);
        sqlite3_bind_text(add_file, 2, name, -1, SQLITE_TRANSIENT);
        sqlite3_bind_int64(add_file, 3, 0);
        end_step(add_file);
        end_step(commit);
        answer(id++);
        end_step(begin);
        for (long at = 0; at < bytes; at += BLOCK) {
            sqlite3_bind_int64(add_block, 1, file);
            sqlite3_bind_int64(add_block, 2, at / BLOCK);
            sqlite3_bind_int64(add_block, 3, id);
            sqlite3_bind_blob(add_block, 4, block, bytes - at < BLOCK ? bytes - at : BLOCK, SQLITE_STATIC);
            end_step(add_block);
        }
        sqlite3_bind_int64(size_file, 1, bytes);
        sqlite3_bind_int64(size_file, 2, file);
        end_step(size_file);
        end_step(commit);
        answer(id);
    }
    sqlite3_finalize(begin);
    sqlite3_finalize(commit);
    sqlite3_finalize(add_file);
    sqlite3_finalize(size_file);
    sqlite3_finalize(add_block);
}

int main(int argc, char **argv) {
    if (argc != 5 || strcmp(argv[2], "fill") != 0) return 2;
    open_base(argv[1]);
    run("CREATE TABLE files (file INTEGER PRIMARY KEY, name TEXT UNIQUE, size INTEGER)");
    run("CREATE TABLE blocks (file INTEGER, block INTEGER, made INTEGER, bytes BLOB, "
        "PRIMARY KEY (file, block, made))");
    fill(atol(argv[3]), atol(argv[4]));
    close_base();
    return 0;
}
