// How long two sides take for the same work, by turns in one thread.
#pragma once

#include <cstdint>
#include <functional>
#include <string>

// The work of one side: so many turns of it, and their sum.
using Work = std::function<uint64_t(uint32_t turns)>;

// Work that both sides do.
struct Row {
  std::string work;
  // The file that is worked on, or what is made.
  std::string on;
  // How many records, streams, names or frames that has.
  uint64_t size;
  Work ours, theirs;
};

// Whether both sides' sums of one turn agree.
bool sums_agree(const Row &row);

// Prints a line of JSON: nanoseconds of thread processor time for a turn of each side, and the quartiles of the
// ratios of neighbouring turns.
void print_times(const Row &row, uint32_t rounds);
