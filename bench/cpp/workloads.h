/* What crates/pdb_bench exports: each prepares what it needs, works so many turns, and returns the sum over all
 * turns. What is summed stands at each. */
#ifndef BENCH_WORKLOADS_H
#define BENCH_WORKLOADS_H

#include <stddef.h>
#include <stdint.h>

#ifdef __cplusplus
extern "C" {
#endif

/* Sizes of the streams that a file has below this number. */
uint64_t bench_read_streams(const uint8_t *file, size_t file_size, uint32_t streams, uint32_t turns);

/* Sizes of the records of a table of types. */
uint64_t bench_walk(const uint8_t *stream, size_t stream_size, uint32_t turns);

/* 1, the length of the name and the number of the fields of each record. */
uint64_t bench_parse(const uint8_t *stream, size_t stream_size, uint32_t turns);

/* 1 for each record that is read. */
uint64_t bench_rows(const uint8_t *stream, size_t stream_size, uint32_t turns);

/* The greatest index that a finder knows once it is built. */
uint64_t bench_build(const uint8_t *stream, size_t stream_size, uint32_t turns);

/* Sizes of the records of these indexes, which a finder finds. */
uint64_t bench_find(const uint8_t *stream, size_t stream_size, const uint32_t *indexes, size_t count, uint32_t turns);

/* 1 and the length of the name of the records of these indexes, which a finder finds once it is built. */
uint64_t bench_build_and_find(const uint8_t *stream, size_t stream_size, const uint32_t *indexes, size_t count, uint32_t turns);

/* 1 and the length of the name of the types of these indexes, all asked for in one run. */
uint64_t bench_queries(const uint8_t *file, size_t file_size, uint32_t stream, const uint32_t *indexes, size_t count, uint32_t turns);

/* Where an OMAP table moves these addresses, and 1 for nowhere. */
uint64_t bench_omap(const uint8_t *stream, size_t stream_size, const uint32_t *addresses, size_t count, uint32_t turns);

/* 1 and the length of each range that 256 addresses from each of these on become. */
uint64_t bench_ranges(const uint8_t *stream, size_t stream_size, const uint32_t *addresses, size_t count, uint32_t turns);

/* 1 and the length of the name at each offset. */
uint64_t bench_names(const uint8_t *stream, size_t stream_size, const uint32_t *offsets, size_t count, uint32_t turns);

/* Where the code of the first frame from each address on starts, and 1 for none. */
uint64_t bench_frames(const uint8_t *stream, size_t stream_size, const uint32_t *addresses, size_t count, uint32_t turns);

#ifdef __cplusplus
}
#endif

#endif
