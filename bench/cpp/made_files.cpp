#include "made_files.h"
#include "made.h"
#include "plain_searches.h"
#include "llvm/DebugInfo/CodeView/DebugStringTableSubsection.h"
#include "llvm/DebugInfo/MSF/MSFCommon.h"
#include "llvm/DebugInfo/PDB/Native/PDBStringTableBuilder.h"
#include "llvm/DebugInfo/PDB/Native/RawTypes.h"
#include "llvm/Support/BinaryByteStream.h"
#include "llvm/Support/BinaryStreamWriter.h"
#include "llvm/Support/Error.h"
#include <cstring>
#include <random>
#include <string>

using namespace llvm;

static ExitOnError check("made: ");

static uint32_t below(std::mt19937 &random, uint32_t end) { return uint64_t(random()) * end >> 32; }

Numbers numbers_below(uint32_t end, uint32_t count) {
  std::mt19937 random(count);
  Numbers numbers(count);
  for (uint32_t &number : numbers)
    number = below(random, end);
  return numbers;
}

template <class Record> static Bytes bytes_of(const std::vector<Record> &records) {
  Bytes bytes(records.size() * sizeof(Record));
  memcpy(bytes.data(), records.data(), bytes.size());
  return bytes;
}

Bytes made_omap(uint32_t records, uint32_t &end) {
  std::mt19937 random(records);
  std::vector<plain_move> moves;
  end = 0x1000;
  for (uint32_t i = 0; i < records; i++) {
    end += 1 + below(random, 64);
    // One in eight goes nowhere.
    moves.push_back({end, below(random, 8) == 0 ? 0 : 0x1000 + below(random, 0x1000000)});
  }
  end += 0x1000;
  return bytes_of(moves);
}

Bytes made_frames(uint32_t frames, uint32_t &end) {
  std::mt19937 random(frames);
  std::vector<plain_frame> records;
  end = 0x1000;
  for (uint32_t i = 0; i < frames; i++) {
    uint32_t size = 1 + below(random, 256);
    records.push_back({end, size, {}});
    end += size + below(random, 32);
  }
  return bytes_of(records);
}

Bytes made_names(uint32_t names, Numbers &offsets) {
  codeview::DebugStringTableSubsection strings;
  offsets.clear();
  for (uint32_t i = 0; i < names; i++)
    offsets.push_back(strings.insert("source_folder\\file_of_the_name_" + std::to_string(i) + ".cpp"));
  pdb::PDBStringTableBuilder builder;
  builder.setStrings(strings);
  Bytes bytes(builder.calculateSerializedSize());
  MutableBinaryByteStream stream(bytes, support::little);
  BinaryStreamWriter writer(stream);
  check(builder.commit(writer));
  return bytes;
}

static void put_number(Bytes &bytes, size_t place, uint32_t number) {
  support::endian::write32le(bytes.data() + place, number);
}

// Pages: the header, two that say which are free, the list of the directory's pages, the directory, the streams.
Bytes made_file(uint32_t streams) {
  const uint32_t page_size = 4096, pages_each = 3, stream_size = 2 * page_size + 100;
  const uint32_t directory_size = 4 * (1 + streams + pages_each * streams);
  const uint32_t directory_pages = (directory_size + page_size - 1) / page_size;
  const uint32_t first_page = 4 + directory_pages;
  // Of every page_size pages the second and the third say which are free.
  std::vector<uint32_t> stream_pages;
  for (uint32_t page = first_page; stream_pages.size() < size_t(pages_each) * streams; page++)
    if (page % page_size != 1 && page % page_size != 2)
      stream_pages.push_back(page);
  const uint32_t pages = stream_pages.back() + 1;
  Bytes file(size_t(pages) * page_size, 0x5a);
  memcpy(file.data(), msf::Magic, sizeof msf::Magic);
  const uint32_t header[] = {page_size, 1, pages, directory_size, 0, 3};
  for (size_t i = 0; i < 6; i++)
    put_number(file, sizeof msf::Magic + 4 * i, header[i]);
  for (uint32_t i = 0; i < directory_pages; i++)
    put_number(file, size_t(3) * page_size + 4 * i, 4 + i);
  size_t place = size_t(4) * page_size;
  put_number(file, place, streams);
  for (uint32_t i = 0; i < streams; i++)
    put_number(file, place += 4, stream_size);
  for (uint32_t stream = 0; stream < streams; stream++)
    for (uint32_t part = 0; part < pages_each; part++)
      put_number(file, place += 4, stream_pages[size_t(part) * streams + stream]);
  return file;
}

Bytes file_around(const Bytes &stream) {
  Bytes file(MADE_FRONT);
  make_front(file.data(), stream.size());
  file.insert(file.end(), stream.begin(), stream.end());
  return file;
}

Bytes first_records(const Bytes &stream, uint32_t count) {
  pdb::TpiStreamHeader header;
  memcpy(&header, stream.data(), sizeof header);
  size_t place = header.HeaderSize, end = place + header.TypeRecordBytes;
  uint32_t records = 0;
  for (; records < count && place < end; records++)
    place += 2 + support::endian::read16le(stream.data() + place);
  header.TypeIndexEnd = header.TypeIndexBegin + records;
  header.TypeRecordBytes = place - header.HeaderSize;
  Bytes front(stream.begin(), stream.begin() + place);
  memcpy(front.data(), &header, sizeof header);
  return front;
}
