// What a proved program calls beyond a C library: its arguments, and what its processor can do.
#include <stddef.h>
#include <stdint.h>
#include <string.h>

static int count;
static char **arguments;

#ifdef __linux__
#include <errno.h>

int rattle_errno(void) { return errno; }

void rattle_set_errno(int error) { errno = error; }

__attribute__((constructor))
#endif
void keep_arguments(int number, char **words) {
    count = number;
    arguments = words;
}

size_t rattle_arg_count(void) { return (size_t)count; }

// Copies an argument without its NUL, and returns its length; -1 where there is none, -2 where it does not fit.
intptr_t rattle_arg(size_t number, char *room, size_t length) {
    if (number >= (size_t)count) return -1;
    size_t size = strlen(arguments[number]);
    memcpy(room, arguments[number], size < length ? size : length);
    return size <= length ? (intptr_t)size : -2;
}

// What a processor of x86 tells of itself in one leaf: four words, and those of what the system lets programs use. A
// program refuses to start where x86-64-v2 is not whole, by leaf 0 (CPUID 1) and leaf 2 (CPUID 0x80000001).
typedef struct leaf {
    unsigned told[4], usable[4];
} leaf;

#ifdef __x86_64__
#include <cpuid.h>

const leaf *__x86_get_cpuid_feature_leaf(unsigned number) {
    static leaf it;
    unsigned *told = it.told;
    __get_cpuid(number ? 0x80000001 : 1, &told[0], &told[1], &told[2], &told[3]);
    memcpy(it.usable, told, sizeof it.usable);
    return &it;
}
#else
// Elsewhere the code is compiled for each processor of the target.
const leaf *__x86_get_cpuid_feature_leaf(unsigned number) {
    static const leaf whole = {.usable = {~0u, ~0u, ~0u, ~0u}};
    (void)number;
    return &whole;
}
#endif
