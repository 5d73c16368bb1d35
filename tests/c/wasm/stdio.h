// What the programs in C call of a C library, which run.mjs has for WebAssembly.
#ifndef STDIO_H
#define STDIO_H
#include <stddef.h>

typedef struct FILE FILE;
#define stdout ((FILE *)1)
#define stderr ((FILE *)2)
enum { SEEK_SET, SEEK_CUR, SEEK_END };

FILE *fopen(const char *path, const char *mode);
int fclose(FILE *file);
size_t fread(void *room, size_t size, size_t count, FILE *file);
void rewind(FILE *file);
int fseek(FILE *file, long offset, int whence);
long ftell(FILE *file);
int printf(const char *form, ...);
int fprintf(FILE *file, const char *form, ...);
int snprintf(char *room, size_t size, const char *form, ...);
int fputs(const char *text, FILE *file);
size_t fwrite(const void *bytes, size_t size, size_t count, FILE *file);
int puts(const char *text);
int putchar(int byte);

#endif
