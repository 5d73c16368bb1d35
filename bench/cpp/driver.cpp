// Times the library beside LLVM's, and beside plain searches in C where LLVM has none.
//
//   driver check FILE..                  whether both sides' sums agree; the status is 1 where some don't
//   driver time ROUNDS FILE..            a line of JSON for each row
//   driver memory SIDE WORK COUNT FILE   the bytes by which the process grew at most for one turn
#include "through_c.h"
#include "workloads.h"
#include "llvm_workloads.h"
#include "made_files.h"
#include "plain_searches.h"
#include "timing.h"
#include "llvm/DebugInfo/PDB/Native/TpiStream.h"
#include "llvm/Support/Error.h"
#include <cstdio>
#include <cstdlib>
#include <cstring>
#include <deque>
#include <fstream>
#include <iterator>
#include <malloc.h>

static const uint32_t TYPES = 2;
static const uint32_t ASKED = 100000;

static llvm::ExitOnError check_llvm("driver: ");

// A file, its table of types and its string table, as both sides take them.
struct File {
  explicit File(const std::string &path);

  // Indexes of types of the file.
  Numbers indexes(uint32_t count) const;

  std::string name;
  Bytes bytes;
  OpenFile open;
  Bytes types;
  TypeTable table;
  Offsets offsets;
};

static Bytes read_file(const std::string &path) {
  std::ifstream file(path, std::ios::binary);
  if (!file) {
    fprintf(stderr, "driver: %s can't be read\n", path.c_str());
    exit(2);
  }
  return Bytes(std::istreambuf_iterator<char>(file), {});
}

File::File(const std::string &path)
    : name(path.substr(path.rfind('/') + 1)), bytes(read_file(path)), open(bytes), types(copy_stream(*open, TYPES)),
      table(types), offsets(check_llvm(open->getPDBTpiStream()).getTypeIndexOffsets()) {}

Numbers File::indexes(uint32_t count) const {
  Numbers indexes = numbers_below(table.count, count);
  for (uint32_t &index : indexes)
    index += table.first;
  return indexes;
}

// The work of a side that keeps nothing from turn to turn.
template <class Turn> static Work repeated(Turn turn) {
  return [turn](uint32_t turns) {
    uint64_t sum = 0;
    for (uint32_t i = 0; i < turns; i++)
      sum += turn();
    return sum;
  };
}

static void add_streams(std::deque<Row> &rows, const std::string &on, const Bytes &bytes, uint32_t streams) {
  rows.push_back({"streams", on, streams,
                  [&bytes, streams](uint32_t turns) { return bench_read_streams(bytes.data(), bytes.size(), streams, turns); },
                  repeated([&bytes, streams] { return llvm_read_streams(bytes, streams); })});
}

static void add_parse(std::deque<Row> &rows, const std::string &on, const Bytes &types, const TypeTable &table) {
  rows.push_back({"parse", on, table.count,
                  [&types](uint32_t turns) { return bench_parse(types.data(), types.size(), turns); },
                  repeated([&table] { return llvm_parse(table); })});
}

// Work through the border to C, beside LLVM's and beside our own.
static void add_border(std::deque<Row> &rows, const std::string &work, const std::string &on, uint64_t size, Work border, Work theirs, Work own) {
  rows.push_back({"border_" + work, on, size, border, theirs});
  rows.push_back({"border_" + work + "_beside_ours", on, size, border, own});
}

static void add_borders(std::deque<Row> &rows, File &file, const Numbers &indexes, std::shared_ptr<llvm::codeview::LazyRandomTypeCollection> finder) {
  const Bytes &bytes = file.bytes, &types = file.types;
  const TypeTable &table = file.table;
  add_border(rows, "rows", file.name, table.count, [&bytes](uint32_t turns) { return border_rows(bytes, turns); },
             repeated([&table] { return llvm_rows(table); }),
             [&types](uint32_t turns) { return bench_rows(types.data(), types.size(), turns); });
  add_border(rows, "find", file.name, table.count, [&bytes, indexes](uint32_t turns) { return border_find(bytes, indexes, turns); },
             repeated([finder, indexes] { return llvm_find(*finder, indexes); }),
             [&types, indexes](uint32_t turns) { return bench_find(types.data(), types.size(), indexes.data(), indexes.size(), turns); });
}

static Work build_and_find(const Bytes &types, Numbers indexes) {
  return [&types, indexes](uint32_t turns) {
    return bench_build_and_find(types.data(), types.size(), indexes.data(), indexes.size(), turns);
  };
}

static Work queries(const Bytes &bytes, Numbers indexes) {
  return [&bytes, indexes](uint32_t turns) {
    return bench_queries(bytes.data(), bytes.size(), TYPES, indexes.data(), indexes.size(), turns);
  };
}

static void add_file(std::deque<Row> &rows, File &file) {
  const Bytes &bytes = file.bytes, &types = file.types;
  const TypeTable &table = file.table;
  add_streams(rows, file.name, bytes, file.open->getNumStreams());
  rows.push_back({"walk", file.name, table.count,
                  [&types](uint32_t turns) { return bench_walk(types.data(), types.size(), turns); },
                  repeated([&table] { return llvm_walk(table); })});
  add_parse(rows, file.name, types, table);
  rows.push_back({"build", file.name, table.count,
                  [&types](uint32_t turns) { return bench_build(types.data(), types.size(), turns); },
                  repeated([&table] { return llvm_build(table); })});
  const Numbers indexes = file.indexes(ASKED);
  std::shared_ptr<llvm::codeview::LazyRandomTypeCollection> finder = llvm_finder(table);
  rows.push_back({"find", file.name, table.count,
                  [&types, indexes](uint32_t turns) { return bench_find(types.data(), types.size(), indexes.data(), indexes.size(), turns); },
                  repeated([finder, indexes] { return llvm_find(*finder, indexes); })});
  rows.push_back({"build_and_find", file.name, table.count, build_and_find(types, indexes),
                  repeated([&table, &file, indexes] { return llvm_build_and_find(table, file.offsets, indexes); })});
  rows.push_back({"queries", file.name, table.count, queries(bytes, indexes),
                  repeated([&bytes, indexes] { return llvm_queries(bytes, indexes); })});
  rows.push_back({"queries_beside_finds", file.name, table.count, queries(bytes, indexes), build_and_find(types, indexes)});
  const Numbers few = file.indexes(ASKED / 10);
  rows.push_back({"few_queries", file.name, table.count, queries(bytes, few), build_and_find(types, few)});
  add_borders(rows, file, indexes, finder);
}

// What is made is kept as long as the rows.
template <class Made> static const Made &kept(Made made) {
  static std::deque<Made> all;
  all.push_back(std::move(made));
  return all.back();
}

static void add_moves(std::deque<Row> &rows, uint32_t records) {
  uint32_t end;
  const Bytes &bytes = kept(made_omap(records, end));
  const Numbers &addresses = kept(numbers_below(end, ASKED));
  const auto *moves = reinterpret_cast<const plain_move *>(bytes.data());
  rows.push_back({"omap", "made", records,
                  [&](uint32_t turns) { return bench_omap(bytes.data(), bytes.size(), addresses.data(), addresses.size(), turns); },
                  repeated([=, &addresses] { return plain_omap(moves, records, addresses.data(), addresses.size()); })});
  rows.push_back({"ranges", "made", records,
                  [&](uint32_t turns) { return bench_ranges(bytes.data(), bytes.size(), addresses.data(), addresses.size(), turns); },
                  repeated([=, &addresses] { return plain_ranges(moves, records, addresses.data(), addresses.size()); })});
}

static void add_frames(std::deque<Row> &rows, uint32_t count) {
  uint32_t end;
  const Bytes &bytes = kept(made_frames(count, end));
  const Numbers &addresses = kept(numbers_below(end, ASKED));
  const auto *frames = reinterpret_cast<const plain_frame *>(bytes.data());
  rows.push_back({"frames", "made", count,
                  [&](uint32_t turns) { return bench_frames(bytes.data(), bytes.size(), addresses.data(), addresses.size(), turns); },
                  repeated([=, &addresses] { return plain_frames(frames, count, addresses.data(), addresses.size()); })});
}

static void add_names(std::deque<Row> &rows, uint32_t count) {
  Numbers starts;
  const Bytes &bytes = kept(made_names(count, starts));
  Numbers chosen = numbers_below(starts.size(), ASKED);
  for (uint32_t &number : chosen)
    number = starts[number];
  const Numbers &offsets = kept(std::move(chosen));
  const Bytes &file = kept(file_around(bytes));
  auto names = std::make_shared<NameTable>(bytes);
  Work ours = [&](uint32_t turns) { return bench_names(bytes.data(), bytes.size(), offsets.data(), offsets.size(), turns); };
  Work theirs = repeated([names, &offsets] { return llvm_names(*names, offsets); });
  rows.push_back({"names", "made", count, ours, theirs});
  add_border(rows, "names", "made", count, [&](uint32_t turns) { return border_names(file, offsets, turns); }, theirs, ours);
}

// Rows over what is made, at sizes ten times as large from one to the next, up to a greatest.
static void add_made(std::deque<Row> &rows, const File &largest, bool is_short) {
  for (uint32_t streams : {10u, 64u, 100u, 1000u, 4000u, 10000u})
    if (!is_short || streams <= 100)
      add_streams(rows, "made", kept(made_file(streams)), streams);
  for (uint32_t records : {1000u, 10000u, 100000u, 1000000u}) {
    if (is_short && records > 10000)
      break;
    add_moves(rows, records);
    add_frames(rows, records);
    if (records <= largest.table.count) {
      const Bytes &types = kept(first_records(largest.types, records));
      add_parse(rows, "the first of " + largest.name, types, *kept(std::make_shared<TypeTable>(types)));
    }
  }
  for (uint32_t names : {1u, 150u, 37000u})
    if (!is_short || names <= 150)
      add_names(rows, names);
}

static std::deque<Row> all_rows(std::deque<File> &files, bool is_short) {
  std::deque<Row> rows;
  for (File &file : files)
    add_file(rows, file);
  add_made(rows, files.back(), is_short);
  return rows;
}

static int check_rows(std::deque<File> &files) {
  int failed = 0;
  std::deque<Row> rows = all_rows(files, true);
  for (const Row &row : rows)
    if (!sums_agree(row)) {
      failed++;
      printf("FAILED: %s, %s, %llu: the sums are %llu and %llu\n", row.work.c_str(), row.on.c_str(),
             (unsigned long long)row.size, (unsigned long long)row.ours(1), (unsigned long long)row.theirs(1));
    }
  printf("%zu passed, %d failed\n", rows.size() - failed, failed);
  return failed > 0;
}

static int time_rows(uint32_t rounds, std::deque<File> &files) {
  // Both sides find memory that was used before, so that no time goes to the system's handing out of pages.
  mallopt(M_MMAP_MAX, 0);
  mallopt(M_TRIM_THRESHOLD, 1 << 30);
  for (const Row &row : all_rows(files, false)) {
    if (!sums_agree(row)) {
      printf("{\"work\": \"%s\", \"on\": \"%s\", \"size\": %llu, \"differs\": true}\n", row.work.c_str(), row.on.c_str(),
             (unsigned long long)row.size);
      return 1;
    }
    print_times(row, rounds);
  }
  return 0;
}

// The most bytes of memory that the process has had since it was last asked to forget.
static long peak() {
  std::ifstream status("/proc/self/status");
  for (std::string line; std::getline(status, line);)
    if (line.rfind("VmHWM:", 0) == 0)
      return atol(line.c_str() + 6) * 1024;
  return 0;
}

static int print_memory(const std::string &side, const std::string &work, uint32_t count, File &file) {
  const Numbers indexes = file.indexes(count);
  const Bytes &bytes = file.bytes, &types = file.types;
  malloc_trim(0);
  std::ofstream("/proc/self/clear_refs") << "5";
  long before = peak();
  uint64_t sum = 0;
  if (work == "nothing" && side == "ours")
    sum = bench_build(types.data(), types.size(), 0);
  else if (work == "build" && side == "ours")
    sum = bench_build(types.data(), types.size(), 1);
  else if (work == "build")
    sum = llvm_build(file.table);
  else if (work == "queries" && side == "ours")
    sum = bench_queries(bytes.data(), bytes.size(), TYPES, indexes.data(), indexes.size(), 1);
  else if (work == "queries")
    sum = llvm_queries(bytes, indexes);
  printf("%ld %llu\n", peak() - before, (unsigned long long)sum);
  return 0;
}

int main(int count, char **words) {
  std::string mode = count > 2 ? words[1] : "";
  int first = mode == "check" ? 2 : mode == "time" ? 3 : 5;
  if (mode.empty() || first >= count) {
    fprintf(stderr, "usage: driver check FILE.. | time ROUNDS FILE.. | memory SIDE WORK COUNT FILE\n");
    return 2;
  }
  std::deque<File> files;
  for (int i = first; i < count; i++)
    files.emplace_back(words[i]);
  if (mode == "check")
    return check_rows(files);
  if (mode == "time")
    return time_rows(atoi(words[2]), files);
  return print_memory(words[2], words[3], atoi(words[4]), files.front());
}
