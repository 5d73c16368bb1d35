// An allocator with which a read or a write beside an allocation ends the program by SIGSEGV, and a write into one that was
// freed by SIGABRT, also in code that no sanitizer looks into.
//
// Each allocation has pages of its own, and on each side a page that can't be touched. It ends where the page behind it
// begins, so it is aligned as its size is: the items that fill it lie as their type needs. With GUARD=front it begins where
// the page before it ends. The pages of one that was freed are filled with a byte, and serve again, the one that was freed
// first before others, for one that takes as many; then, or when the program ends, each must still hold that byte. An
// address that is read from there is none. What isn't held can't be freed, and where no pages are left, it ends by SIGABRT.
//
// The functions have names of their own, so that a library calls them, and not what it is linked with:
//
// objcopy --redefine-sym malloc=guard_malloc --redefine-sym realloc=guard_realloc --redefine-sym free=guard_free LIBRARY
//
// They are for one thread.
#include <stdint.h>
#include <stdio.h>
#include <stdlib.h>
#include <string.h>
#include <sys/mman.h>

// Addresses for 16 GiB; and the byte that fills what was freed.
enum { PAGE = 4096, PAGES = 1 << 22, FREED = 0xa5 };

static uint8_t *pages;
static size_t used;                         // the pages that were given out, and those beside them
static size_t sizes[PAGES];                 // by the first page of an allocation: its size and 1, or 0 where none is held
static size_t first_freed[PAGES];           // by a number of pages: the first page of what was freed first, or 0
static size_t last_freed[PAGES];            // and of what was freed last
static size_t next_freed[PAGES];            // by the first page of what was freed: that of what was freed next, or 0
static int is_front;

static void fail(const char *why) {
    fprintf(stderr, "guard: %s\n", why);
    abort();
}

// That the pages of what was freed hold what they were filled with.
static void check(size_t first, size_t count) {
    const uint8_t *at = pages + first * PAGE;
    if (count && (*at != FREED || memcmp(at, at + 1, count * PAGE - 1))) fail("what was freed is written");
}

static void check_all(void) {
    for (size_t count = 0; count < PAGES; count++)
        for (size_t first = first_freed[count]; first; first = next_freed[first]) check(first, count);
}

static void begin(void) {
    const char *word = getenv("GUARD");
    is_front = word && strcmp(word, "front") == 0;
    void *at = mmap(NULL, (size_t)PAGES * PAGE, PROT_NONE, MAP_PRIVATE | MAP_ANONYMOUS | MAP_NORESERVE, -1, 0);
    if (at == MAP_FAILED) fail("there are no pages");
    pages = at;
    used = 1;
    atexit(check_all);
}

static size_t pages_of(size_t size) { return size / PAGE + (size % PAGE != 0); }

// The first of so many pages that were freed, or that never were given out.
static size_t take(size_t count) {
    size_t first = count < PAGES ? first_freed[count] : 0;
    if (first) {
        first_freed[count] = next_freed[first];
        check(first, count);
        return first;
    }
    if (count >= PAGES - used) fail("no pages are left");
    first = used;
    used += count + 1;
    if (count && mprotect(pages + first * PAGE, count * PAGE, PROT_READ | PROT_WRITE)) fail("pages can't be opened");
    return first;
}

void *guard_malloc(size_t size) {
    if (!pages) begin();
    size_t count = pages_of(size), first = take(count);
    sizes[first] = size + 1;
    return pages + first * PAGE + (is_front ? 0 : count * PAGE - size);
}

// The first page of an allocation.
static size_t first_of(const void *block) {
    size_t first = ((uintptr_t)block - (uintptr_t)pages) / PAGE;
    if (!pages || first >= PAGES || !sizes[first]) fail("what isn't held is freed");
    return first;
}

void guard_free(void *block) {
    if (!block) return;
    size_t first = first_of(block), count = pages_of(sizes[first] - 1);
    memset(pages + first * PAGE, FREED, count * PAGE);
    sizes[first] = next_freed[first] = 0;
    if (first_freed[count])
        next_freed[last_freed[count]] = first;
    else
        first_freed[count] = first;
    last_freed[count] = first;
}

// An allocation moves each time, and its old place is freed.
void *guard_realloc(void *block, size_t size) {
    void *moved = guard_malloc(size);
    if (block) {
        size_t old = sizes[first_of(block)] - 1;
        memcpy(moved, block, old < size ? old : size);
        guard_free(block);
    }
    return moved;
}
