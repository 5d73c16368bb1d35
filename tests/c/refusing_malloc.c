// A malloc that refuses. It is preloaded into a program, and stands before the C library's own.
//
// REFUSED=N       refuses request number N for memory, counted from 1
// REFUSED=N-      refuses that request and each one after it
// REQUESTS=PATH   a file of 16 bytes, in which it counts the requests, and those that it refused
#define _GNU_SOURCE
#include <errno.h>
#include <fcntl.h>
#include <stdint.h>
#include <stdlib.h>
#include <sys/mman.h>

void *__libc_malloc(size_t size);
void *__libc_realloc(void *block, size_t size);

static uint64_t uncounted[2], *counts = uncounted;
static uint64_t first, last;

__attribute__((constructor)) static void begin(void) {
    char *numbers = getenv("REFUSED"), *path = getenv("REQUESTS"), *end;
    first = numbers ? strtoull(numbers, &end, 10) : 0;
    last = first && *end == '-' ? UINT64_MAX : first;
    int file = path ? open(path, O_RDWR) : -1;
    void *mapped = file < 0 ? MAP_FAILED : mmap(NULL, 16, PROT_READ | PROT_WRITE, MAP_SHARED, file, 0);
    if (mapped != MAP_FAILED) counts = mapped;
}

static int refuses(void) {
    uint64_t number = ++counts[0];
    if (first == 0 || number < first || number > last) return 0;
    counts[1]++;
    errno = ENOMEM;
    return 1;
}

void *malloc(size_t size) { return refuses() ? NULL : __libc_malloc(size); }

void *realloc(void *block, size_t size) { return refuses() ? NULL : __libc_realloc(block, size); }
