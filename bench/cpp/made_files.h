// Streams and files that are made to a size.
#pragma once

#include <cstdint>
#include <vector>

using Bytes = std::vector<uint8_t>;
using Numbers = std::vector<uint32_t>;

// So many numbers below another, the same in each run.
Numbers numbers_below(uint32_t end, uint32_t count);

// An OMAP table of so many records, and the end of the addresses that it moves.
Bytes made_omap(uint32_t records, uint32_t &end);

// So many frames in the newer format, and the end of their addresses.
Bytes made_frames(uint32_t frames, uint32_t &end);

// A string table of so many names, and their offsets.
Bytes made_names(uint32_t names, Numbers &offsets);

// A file of so many streams of three pages each, which lie among the pages of others.
Bytes made_file(uint32_t streams);

// A file of a stream, which is its string table.
Bytes file_around(const Bytes &stream);

// The first records of a table of types.
Bytes first_records(const Bytes &stream, uint32_t count);
