// Bytes of a file by pwrite and pread, on a file of its own: what bench/bytes.sh measures beside.
//
//     plain_bytes FILE write FROM SIZE PIECE    writes so many bytes from there on, piece by piece
//     plain_bytes FILE read FROM SIZE PIECE     reads them, piece by piece
//     plain_bytes FILE scatter SIZE PIECE COUNT writes so many pieces at random places within SIZE
//
// Nothing is synced. Each piece is answered by a line before the next one, as hammer answers its calls, but
// the bytes that are read are not printed.
#include <fcntl.h>
#include <stdio.h>
#include <stdlib.h>
#include <string.h>
#include <unistd.h>

static char piece_bytes[65536];

static void stop(const char *what) {
    fprintf(stderr, "plain_bytes: ");
    perror(what);
    exit(1);
}

static void put(int file, long at, long count) {
    if (pwrite(file, piece_bytes, count, at) != count) stop("pwrite");
    printf("ok\n");
}

static void get(int file, long at, long count) {
    if (pread(file, piece_bytes, count, at) != count) stop("pread");
    printf("ok %ld\n", count);
}

int main(int argc, char **argv) {
    if (argc != 6) return 2;
    int file = open(argv[1], O_RDWR | O_CREAT, 0666);
    if (file < 0) stop("open");
    setvbuf(stdout, NULL, _IOLBF, 4096);
    long first = atol(argv[3]), second = atol(argv[4]), third = atol(argv[5]);
    if (strcmp(argv[2], "scatter") == 0) {
        long size = first, piece = second, count = third;
        if (piece < 1 || piece > (long)sizeof piece_bytes || size < piece) return 2;
        memset(piece_bytes, 'a', piece);
        srandom(1);
        for (long i = 0; i < count; i++) put(file, random() % (size - piece + 1), piece);
        return 0;
    }
    long from = first, size = second, piece = third;
    if (piece < 1 || piece > (long)sizeof piece_bytes) return 2;
    memset(piece_bytes, 'a', piece);
    int writes = strcmp(argv[2], "write") == 0;
    if (!writes && strcmp(argv[2], "read") != 0) return 2;
    for (long done = 0; done < size; done += piece) {
        if (writes)
            put(file, from + done, piece);
        else
            get(file, from + done, piece);
    }
    return 0;
}
