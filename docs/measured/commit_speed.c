/* Times the device calls of a commit: two files in turn, each closed, filled and opened by three writes, one cut and three
 * syncs. Given a size of pieces, it fills by writes of so many bytes. usage: commit_speed BYTES TIMES [PIECE]. It prints the
 * size, the mean and the best time of a commit in microseconds. */
#include <fcntl.h>
#include <stdio.h>
#include <stdlib.h>
#include <string.h>
#include <time.h>
#include <unistd.h>

static double now(void)
{
    struct timespec t;
    clock_gettime(CLOCK_MONOTONIC, &t);
    return t.tv_sec * 1e6 + t.tv_nsec / 1e3;
}

static void need(int good, const char *what)
{
    if (!good) {
        perror(what);
        exit(1);
    }
}

int main(int argc, char **argv)
{
    size_t size = argc > 1 ? strtoul(argv[1], 0, 10) : 65536;
    int times = argc > 2 ? atoi(argv[2]) : 10;
    size_t piece = argc > 3 ? strtoul(argv[3], 0, 10) : size;
    char *body = malloc(piece);
    int files[2] = { open("ck.a", O_RDWR | O_CREAT, 0666), open("ck.b", O_RDWR | O_CREAT, 0666) };
    int folder = open(".", O_RDONLY);
    double total = 0, best = 1e18;
    need(body && files[0] >= 0 && files[1] >= 0 && folder >= 0, "open");
    memset(body, '.', piece);
    need(!fsync(files[0]) && !fsync(files[1]) && !fsync(folder), "fsync");
    for (int i = 0; i < times; i++) {
        int file = files[i % 2];
        double start = now(), taken;
        char first;
        if (pread(file, &first, 1, 0) != 1 || first == 'P') {
            need(pwrite(file, "", 1, 0) == 1, "pwrite");
            need(!fsync(file), "fsync");
        }
        for (size_t at = 0; at + piece <= size; at += piece)
            need(pwrite(file, body, piece, 1 + at) == (ssize_t)piece, "pwrite");
        need(!ftruncate(file, 1 + size), "ftruncate");
        need(!fsync(file), "fsync");
        need(pwrite(file, "P", 1, 0) == 1, "pwrite");
        need(!fsync(file), "fsync");
        taken = now() - start;
        total += taken;
        best = taken < best ? taken : best;
    }
    printf("%zu %.0f %.0f\n", size, total / times, best);
    return 0;
}
