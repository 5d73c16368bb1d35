#ifndef STDLIB_H
#define STDLIB_H
#include <stddef.h>

void *malloc(size_t size);
void *calloc(size_t count, size_t size);
void *realloc(void *block, size_t size);
void free(void *block);
_Noreturn void exit(int status);
_Noreturn void abort(void);
unsigned long strtoul(const char *text, char **end, int base);

#endif
