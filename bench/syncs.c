/* Bare pairs of fdatasync, as an entry of the journal costs them: a piece is written behind the others and synced, and
   then one byte of it is written again and synced.

   syncs COUNT SIZE    prints the pairs a second, in a file of the current folder that is removed afterwards */
#include <fcntl.h>
#include <stdio.h>
#include <stdlib.h>
#include <string.h>
#include <time.h>
#include <unistd.h>

static double seconds(void) {
    struct timespec now;
    clock_gettime(CLOCK_MONOTONIC, &now);
    return now.tv_sec + now.tv_nsec * 1e-9;
}

static void put(int file, const char *bytes, size_t size, off_t at) {
    if (pwrite(file, bytes, size, at) != (ssize_t)size || fdatasync(file)) {
        perror("syncs");
        exit(1);
    }
}

int main(int count, char **words) {
    if (count != 3) return 2;
    int pairs = atoi(words[1]);
    size_t size = atoi(words[2]);
    char *piece = malloc(size);
    memset(piece, 7, size);
    int file = open("syncs.tmp", O_CREAT | O_RDWR | O_TRUNC, 0600);
    if (file < 0) return 1;
    double start = seconds();
    for (int done = 0; done < pairs; done++) {
        put(file, piece, size, done * size);
        put(file, piece, 1, done * size);
    }
    double took = seconds() - start;
    unlink("syncs.tmp");
    printf("%d pairs, %.3f s, %.0f a second\n", pairs, took, pairs / took);
    return 0;
}
