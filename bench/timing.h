/* What both programs need: a file's bytes, a clock, and the best of several runs for each file. */
#include <stdio.h>
#include <stdlib.h>
#include <time.h>

enum { RUNS = 9 };

/* Whether the bytes were read. */
typedef int reader(const char *bytes, int length);

static char *contents(const char *path, long *length) {
    FILE *file = fopen(path, "rb");
    if (!file || fseek(file, 0, SEEK_END)) exit(2);
    *length = ftell(file);
    rewind(file);
    char *bytes = malloc(*length);
    if (!bytes || fread(bytes, 1, *length, file) != (size_t)*length) exit(2);
    fclose(file);
    return bytes;
}

static long microseconds(void) {
    struct timespec now;
    clock_gettime(CLOCK_MONOTONIC, &now);
    return now.tv_sec * 1000000 + now.tv_nsec / 1000;
}

/* Prints a line for each file: the name, the path, and the microseconds, or -2 where it was refused. */
static void time_files(const char *name, reader *read, int count, char **paths) {
    for (int i = 0; i < count; i++) {
        long length, best = -1;
        char *bytes = contents(paths[i], &length);
        for (int run = 0; run < RUNS; run++) {
            long start = microseconds();
            int done = read(bytes, (int)length);
            long taken = microseconds() - start;
            if (!done) best = -2;
            else if (best == -1 || (best >= 0 && taken < best)) best = taken;
        }
        printf("%s %s %ld\n", name, paths[i], best);
        free(bytes);
    }
}
