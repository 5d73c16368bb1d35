// The same work by the calls of include/pdb_container.h. Each opens what it needs of a file, works so many turns, and
// returns the sum over all turns, as the exports of workloads.h do whose names end alike.
#pragma once

#include <cstddef>
#include <cstdint>
#include <vector>

using Bytes = std::vector<uint8_t>;
using Numbers = std::vector<uint32_t>;

uint64_t border_rows(const Bytes &bytes, uint32_t turns);
uint64_t border_find(const Bytes &bytes, const Numbers &indexes, uint32_t turns);
uint64_t border_names(const Bytes &bytes, const Numbers &offsets, uint32_t turns);
