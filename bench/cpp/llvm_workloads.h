// The same work by LLVM's library. Each sums in a turn what the export of the same name in workloads.h does.
#pragma once

#include "llvm/DebugInfo/CodeView/LazyRandomTypeCollection.h"
#include "llvm/DebugInfo/PDB/Native/PDBFile.h"
#include "llvm/DebugInfo/PDB/Native/PDBStringTable.h"
#include "llvm/Support/BinaryByteStream.h"
#include <cstdint>
#include <memory>
#include <vector>

using Bytes = std::vector<uint8_t>;
using Numbers = std::vector<uint32_t>;

// A file whose header and directory are read.
class OpenFile {
public:
  explicit OpenFile(const Bytes &bytes);
  llvm::pdb::PDBFile &operator*() { return *file; }
  llvm::pdb::PDBFile *operator->() { return file.get(); }

private:
  llvm::BumpPtrAllocator allocator;
  std::unique_ptr<llvm::pdb::PDBFile> file;
};

// The bytes of a stream, copied run of pages by run of pages.
Bytes copy_stream(llvm::pdb::PDBFile &file, uint32_t number);

// The number of the first stream of a name.
uint32_t named_stream(llvm::pdb::PDBFile &file, llvm::StringRef name);

// A table of types in the bytes of its stream.
struct TypeTable {
  explicit TypeTable(const Bytes &stream);

  llvm::BinaryByteStream bytes;
  llvm::codeview::CVTypeArray records;
  uint32_t first = 0;
  uint32_t count = 0;
};

// A string table in the bytes of its stream.
struct NameTable {
  explicit NameTable(const Bytes &stream);

  llvm::BinaryByteStream bytes;
  llvm::pdb::PDBStringTable table;
};

// The offsets of some records, which a file keeps beside its table of types.
using Offsets = llvm::FixedStreamArray<llvm::codeview::TypeIndexOffset>;

uint64_t llvm_read_streams(const Bytes &file, uint32_t streams);
uint64_t llvm_walk(const TypeTable &table);
uint64_t llvm_parse(const TypeTable &table);
uint64_t llvm_rows(const TypeTable &table);
std::unique_ptr<llvm::codeview::LazyRandomTypeCollection> llvm_finder(const TypeTable &table);
uint64_t llvm_build(const TypeTable &table);
uint64_t llvm_find(llvm::codeview::LazyRandomTypeCollection &types, const Numbers &indexes);
uint64_t llvm_build_and_find(const TypeTable &table, Offsets offsets, const Numbers &indexes);
uint64_t llvm_queries(const Bytes &file, const Numbers &indexes);
uint64_t llvm_names(const NameTable &names, const Numbers &offsets);
