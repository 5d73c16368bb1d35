// A malloc, a realloc and a calloc that refuse, for a program that is linked with
// -Wl,--wrap=malloc,--wrap=realloc,--wrap=calloc.
//
// REFUSED=N    refuses request number N for memory, counted from 1
// COUNTED=1    says at the end, on standard error, how many requests there were
#include <stdio.h>
#include <stdlib.h>

void *__real_malloc(size_t size);
void *__real_realloc(void *block, size_t size);
void *__real_calloc(size_t count, size_t size);

static unsigned long requests, refused;

__attribute__((constructor)) static void begin(void) {
    char *number = getenv("REFUSED");
    refused = number ? strtoul(number, NULL, 10) : 0;
}

__attribute__((destructor)) static void end(void) {
    if (getenv("COUNTED")) fprintf(stderr, "%lu requests\n", requests);
}

void *__wrap_malloc(size_t size) { return ++requests == refused ? NULL : __real_malloc(size); }

void *__wrap_realloc(void *block, size_t size) { return ++requests == refused ? NULL : __real_realloc(block, size); }

void *__wrap_calloc(size_t count, size_t size) { return ++requests == refused ? NULL : __real_calloc(count, size); }
