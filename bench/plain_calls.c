// The calls of a run on its volume, made again by a plain program: what bench/syncs.sh measures beside.
//
//     plain_calls FILE CALLS    makes the calls that the lines of CALLS name, one after another:
//                               `r PLACE COUNT`, `w PLACE COUNT`, `s`, and `a` for a line of output
#include <fcntl.h>
#include <stdio.h>
#include <stdlib.h>
#include <string.h>
#include <unistd.h>

static char bytes[1 << 20];

static void stop(const char *what) {
    fprintf(stderr, "plain_calls: ");
    perror(what);
    exit(1);
}

int main(int argc, char **argv) {
    if (argc != 3) return 2;
    int file = open(argv[1], O_RDWR);
    FILE *calls = fopen(argv[2], "r");
    if (file < 0 || !calls) stop("open");
    setvbuf(stdout, NULL, _IOLBF, 4096);
    char what;
    long place, count;
    while (fscanf(calls, " %c", &what) == 1) {
        if (what == 's') {
            if (fsync(file) != 0) stop("fsync");
        } else if (what == 'a') {
            printf("ok\n");
        } else {
            if (fscanf(calls, "%ld %ld", &place, &count) != 2 || count > (long)sizeof bytes) return 2;
            ssize_t done = what == 'r' ? pread(file, bytes, count, place) : pwrite(file, bytes, count, place);
            if (done != count) stop(what == 'r' ? "pread" : "pwrite");
        }
    }
    return 0;
}
