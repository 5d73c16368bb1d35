#include "through_c.h"
#include "pdb_container.h"

#include <algorithm>
#include <iterator>

namespace {

// What a call opens from a file, closed where it goes out of scope.
template <class Handle> struct Opened {
  template <class Call> Opened(const Bytes &bytes, Call call) {
    pdb_file file{};
    pdb_file_open(bytes.data(), bytes.size(), &file);
    call(&file, &handle);
    pdb_file_close(&file);
  }
  ~Opened() { pdb_close(&handle.handle); }
  Opened(const Opened &) = delete;
  Opened &operator=(const Opened &) = delete;

  Handle handle{};
};

Opened<pdb_types> types_of(const Bytes &bytes) {
  return {bytes, [](pdb_file *file, pdb_types *types) { pdb_types_open(file, PDB_TYPES, types); }};
}

// What a call sums up over numbers, as many at a time as fit in its array.
template <class Found, class Call> uint64_t for_each_batch(const Numbers &numbers, uint32_t turns, Call call) {
  Found found[256];
  uint64_t sum = 0;
  for (uint32_t turn = 0; turn < turns; turn++)
    for (size_t at = 0; at < numbers.size(); at += std::size(found))
      sum += call(numbers.data() + at, std::min(std::size(found), numbers.size() - at), found);
  return sum;
}

} // namespace

uint64_t border_rows(const Bytes &bytes, uint32_t turns) {
  auto types = types_of(bytes);
  pdb_type rows[64];
  size_t count = 0;
  uint64_t sum = 0;
  for (uint32_t turn = 0; turn < turns; turn++) {
    pdb_types_rewind(&types.handle);
    do {
      pdb_types_read(&types.handle, rows, std::size(rows), &count);
      for (size_t at = 0; at < count; at++)
        sum += rows[at].fault.status == PDB_OK;
    } while (count == std::size(rows));
  }
  return sum;
}

uint64_t border_find(const Bytes &bytes, const Numbers &indexes, uint32_t turns) {
  auto types = types_of(bytes);
  pdb_index_range range{};
  pdb_type_info info{};
  pdb_types_range(&types.handle, &range);
  // Once the last index was asked for, look-ups know the whole table.
  pdb_type_parse(&types.handle, range.end - 1, &info);
  return for_each_batch<pdb_found_record>(indexes, turns, [&](const uint32_t *some, size_t length, pdb_found_record *found) {
    pdb_types_find(&types.handle, some, length, found, length, &length);
    uint64_t sum = 0;
    for (size_t at = 0; at < length; at++)
      sum += found[at].position.length;
    return sum;
  });
}

uint64_t border_names(const Bytes &bytes, const Numbers &offsets, uint32_t turns) {
  Opened<pdb_names> names(bytes, pdb_names_open);
  return for_each_batch<pdb_name>(offsets, turns, [&](const uint32_t *some, size_t length, pdb_name *found) {
    pdb_names_places(&names.handle, some, length, found, length, &length);
    uint64_t lengths = 0, count = 0;
    for (size_t at = 0; at < length; at++) {
      lengths += found[at].length;
      count += found[at].offset > 0;
    }
    return lengths + count;
  });
}
