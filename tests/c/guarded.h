// Blocks of memory that end where a page without access begins, so that a read or a write past the end stops the
// program, also one of the library's code, which no sanitizer looks into. WebAssembly has no such pages.
#ifndef GUARDED_H
#define GUARDED_H

#include <stdint.h>
#include <stdlib.h>
#include <string.h>

enum { PAGE = 4096 };

#if defined(_WIN32)
#include <windows.h>

static inline uint8_t *take_pages(size_t size) { return (uint8_t *)VirtualAlloc(NULL, size, MEM_RESERVE | MEM_COMMIT, PAGE_READWRITE); }

static inline int is_closed(uint8_t *page) {
    DWORD before;
    return VirtualProtect(page, PAGE, PAGE_NOACCESS, &before);
}

static inline void leave_pages(uint8_t *at, size_t size) {
    (void)size;
    VirtualFree(at, 0, MEM_RELEASE);
}
#elif defined(__wasm__)
static inline uint8_t *take_pages(size_t size) { return (uint8_t *)malloc(size); }

static inline int is_closed(uint8_t *page) { return page != NULL; }

static inline void leave_pages(uint8_t *at, size_t size) {
    (void)size;
    free(at);
}
#else
#include <sys/mman.h>

static inline uint8_t *take_pages(size_t size) {
    void *at = mmap(NULL, size, PROT_READ | PROT_WRITE, MAP_PRIVATE | MAP_ANONYMOUS, -1, 0);
    return at == MAP_FAILED ? NULL : (uint8_t *)at;
}

static inline int is_closed(uint8_t *page) { return mprotect(page, PAGE, PROT_NONE) == 0; }

static inline void leave_pages(uint8_t *at, size_t size) { munmap(at, size); }
#endif

static inline size_t guarded_size(size_t size) { return (size + PAGE - 1) / PAGE * PAGE + PAGE; }

// A block of so many bytes, each of which is `filled`; null if there are none.
static inline void *guarded(size_t size, int filled) {
    if (!size) return NULL;
    size_t whole = guarded_size(size);
    uint8_t *at = take_pages(whole);
    if (!at || !is_closed(at + whole - PAGE)) abort();
    return memset(at + whole - PAGE - size, filled, size);
}

static inline void unguarded(void *room, size_t size) {
    if (room) leave_pages((uint8_t *)room + size + PAGE - guarded_size(size), guarded_size(size));
}

#endif
