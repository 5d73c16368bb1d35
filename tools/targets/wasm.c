// Memory for WebAssembly, where there is no C library: malloc, realloc and free over memory.grow.
//
// A block has one of the sizes 16, 32, 48, 64, 80, 96, 112, 128, 160, 192, 224, 256, 320 and so on, four to each power of
// two, so that a fifth of it at most is unused. In front of it stand 16 bytes with its size. Blocks that were freed are
// kept in a list for each size, and given out again. Only pages that it asked for itself are given out: others may grow
// the memory too. Requests are counted, and a host may have one of them refused by its number, as the tests do.
typedef unsigned long size_t;

struct block {
    struct block *next; // in the list of free blocks
    size_t size;
};

static struct block *freed[256];
static char *start, *end; // what is not yet given out
size_t pdb_requests, pdb_refused;

// The least such size that holds so many bytes.
static size_t rounded(size_t size) {
    size_t step = size <= 64 ? 16 : 1ul << (61 - __builtin_clzl(size - 1));
    return size ? (size + step - 1) & -step : 16;
}

// The list of the free blocks of a size: four to a power of two.
static struct block **list_of(size_t size) {
    size_t power = 63 - __builtin_clzl(size);
    return &freed[4 * power + (size >> (power - 2) & 3)];
}

// Asks for so many bytes more, in whole pages, or for an eighth of the memory where that is more and there is as much: a
// browser may copy the memory each time that it grows. Returns whether there are.
static int grow(size_t size) {
    size_t pages = (size + 0xffff) >> 16, eighth = __builtin_wasm_memory_size(0) >> 3, before = -1ul;
    if (eighth > pages && (before = __builtin_wasm_memory_grow(0, eighth)) != -1ul) pages = eighth;
    if (before == -1ul) before = __builtin_wasm_memory_grow(0, pages);
    if (before == -1ul) return 0;
    if (end != (char *)(before << 16)) start = (char *)(before << 16);
    end = (char *)((before + pages) << 16);
    return 1;
}

void *malloc(size_t size) {
    if (++pdb_requests == pdb_refused || size >> 40) return 0;
    size = rounded(size);
    struct block **list = list_of(size), *block = *list;
    if (block) {
        *list = block->next;
    } else {
        if (size + sizeof *block > (size_t)(end - start) && !grow(size + sizeof *block)) return 0;
        block = (struct block *)start;
        start += sizeof *block + size;
        block->size = size;
    }
    return block + 1;
}

void free(void *place) {
    if (!place) return;
    struct block *block = (struct block *)place - 1, **list = list_of(block->size);
    block->next = *list;
    *list = block;
}

void *realloc(void *place, size_t size) {
    if (!place) return malloc(size);
    size_t kept = ((struct block *)place - 1)->size;
    if (size <= kept && pdb_requests + 1 != pdb_refused) return ++pdb_requests, place;
    void *moved = malloc(size);
    if (moved) __builtin_memcpy(moved, place, kept), free(place);
    return moved;
}
