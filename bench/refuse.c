/* Refuses a program what it asks for, once: loaded before it by LD_PRELOAD.

   REFUSE_MEMORY=N    the N-th request for memory is refused, from 1
   REFUSE_READ=N      the N-th read from standard input fails
   REFUSE_WRITE=N     the N-th write to standard output fails
   REFUSE_COUNTS=F    at the end the file F has how many requests, reads and writes there were */
#define _GNU_SOURCE
#include <dlfcn.h>
#include <errno.h>
#include <fcntl.h>
#include <stdio.h>
#include <stdlib.h>
#include <string.h>
#include <unistd.h>

static long asked[3], refused[3];
static const char *counts;
static void *(*next_malloc)(size_t);
static void *(*next_realloc)(void *, size_t);
static ssize_t (*next_read)(int, void *, size_t);
static ssize_t (*next_write)(int, const void *, size_t);

enum { MEMORY, READ, WRITE };

static int is_refused(int what) {
    return ++asked[what] == refused[what];
}

/* The C library asks for memory of its own before main, which is not counted. */
static int begun;

__attribute__((constructor)) static void begin(void) {
    static const char *const names[] = {"REFUSE_MEMORY", "REFUSE_READ", "REFUSE_WRITE"};
    for (int what = MEMORY; what <= WRITE; what++) {
        const char *number = getenv(names[what]);
        if (number) refused[what] = atol(number);
    }
    counts = getenv("REFUSE_COUNTS");
    next_malloc = dlsym(RTLD_NEXT, "malloc");
    next_realloc = dlsym(RTLD_NEXT, "realloc");
    next_read = dlsym(RTLD_NEXT, "read");
    next_write = dlsym(RTLD_NEXT, "write");
    begun = 1;
}

__attribute__((destructor)) static void end(void) {
    char text[80];
    int file = counts ? open(counts, O_WRONLY | O_CREAT | O_TRUNC, 0600) : -1;
    begun = 0;
    if (file < 0) return;
    int length = snprintf(text, sizeof text, "%ld %ld %ld\n", asked[MEMORY], asked[READ], asked[WRITE]);
    if (next_write(file, text, length) != length) abort();
    close(file);
}

extern void *__libc_malloc(size_t);
extern void *__libc_realloc(void *, size_t);

void *malloc(size_t size) {
    if (!begun) return __libc_malloc(size);
    if (is_refused(MEMORY)) {
        errno = ENOMEM;
        return NULL;
    }
    return next_malloc(size);
}

void *realloc(void *place, size_t size) {
    if (!begun) return __libc_realloc(place, size);
    if (is_refused(MEMORY)) {
        errno = ENOMEM;
        return NULL;
    }
    return next_realloc(place, size);
}

ssize_t read(int file, void *bytes, size_t size) {
    if (begun && file == 0 && is_refused(READ)) {
        errno = EIO;
        return -1;
    }
    return next_read(file, bytes, size);
}

ssize_t write(int file, const void *bytes, size_t size) {
    if (begun && file == 1 && is_refused(WRITE)) {
        errno = EIO;
        return -1;
    }
    return next_write(file, bytes, size);
}
