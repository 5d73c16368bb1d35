/* Plain binary searches in C, for tables that LLVM's library has no search for. */
#ifndef BENCH_PLAIN_SEARCHES_H
#define BENCH_PLAIN_SEARCHES_H

#include <stddef.h>
#include <stdint.h>

#ifdef __cplusplus
extern "C" {
#endif

/* A record of an OMAP table, as it stands in a stream. */
struct plain_move {
    uint32_t source;
    uint32_t target;
};

/* A record of a frame in the newer format, as it stands in a stream. */
struct plain_frame {
    uint32_t start;
    uint32_t size;
    uint32_t rest[6];
};

/* What bench_omap, bench_ranges and bench_frames sum in a turn. */
uint64_t plain_omap(const struct plain_move *moves, size_t count, const uint32_t *addresses, size_t asked);
uint64_t plain_ranges(const struct plain_move *moves, size_t count, const uint32_t *addresses, size_t asked);
uint64_t plain_frames(const struct plain_frame *frames, size_t count, const uint32_t *addresses, size_t asked);

#ifdef __cplusplus
}
#endif

#endif
