// Pieces of 16,384 bytes that are read and written again elsewhere in their file: what bench/reblock.sh measures beside.
//
//     plain_moves FILE make COUNT    writes twice as many pieces, one after another
//     plain_moves FILE move COUNT    reads four of them and passes over four, and so on, and writes each that it has
//                                    read behind the end
//
// Nothing is synced.
#include <fcntl.h>
#include <stdio.h>
#include <stdlib.h>
#include <string.h>
#include <sys/stat.h>
#include <unistd.h>

enum { PIECE = 16384 };

static char bytes[PIECE];

static void stop(const char *what) {
    fprintf(stderr, "plain_moves: ");
    perror(what);
    exit(1);
}

static void put(int file, long place) {
    if (pwrite(file, bytes, PIECE, place * PIECE) != PIECE) stop("pwrite");
}

static void get(int file, long place) {
    if (pread(file, bytes, PIECE, place * PIECE) != PIECE) stop("pread");
}

int main(int argc, char **argv) {
    if (argc != 4) return 2;
    int file = open(argv[1], O_RDWR | O_CREAT, 0666);
    struct stat about;
    if (file < 0 || fstat(file, &about) != 0) stop("open");
    long count = atol(argv[3]), end = about.st_size / PIECE;
    if (strcmp(argv[2], "make") == 0) {
        memset(bytes, 'a', PIECE);
        for (long i = 0; i < 2 * count; i++) put(file, i);
    } else if (strcmp(argv[2], "move") == 0) {
        for (long i = 0; i < count; i++) {
            get(file, i / 4 * 8 + i % 4);
            put(file, end + i);
        }
    } else {
        return 2;
    }
    return 0;
}
