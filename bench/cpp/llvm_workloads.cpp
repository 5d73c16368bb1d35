#include "llvm_workloads.h"
#include "llvm/DebugInfo/CodeView/CVTypeVisitor.h"
#include "llvm/DebugInfo/CodeView/TypeDeserializer.h"
#include "llvm/DebugInfo/CodeView/TypeVisitorCallbacks.h"
#include "llvm/DebugInfo/MSF/MappedBlockStream.h"
#include "llvm/DebugInfo/PDB/Native/InfoStream.h"
#include "llvm/DebugInfo/PDB/Native/RawTypes.h"
#include "llvm/DebugInfo/PDB/Native/TpiStream.h"
#include "llvm/Support/BinaryStreamReader.h"
#include "llvm/Support/Error.h"

using namespace llvm;
using namespace llvm::codeview;
using namespace llvm::pdb;

static ExitOnError check("llvm: ");

OpenFile::OpenFile(const Bytes &bytes) {
  auto stream = std::make_unique<BinaryByteStream>(bytes, support::little);
  file = std::make_unique<PDBFile>("", std::move(stream), allocator);
  check(file->parseFileHeaders());
  check(file->parseStreamData());
}

Bytes copy_stream(PDBFile &file, uint32_t number) {
  auto stream = check(file.safelyCreateIndexedStream(number));
  Bytes bytes;
  bytes.reserve(stream->getLength());
  BinaryStreamReader reader(*stream);
  while (reader.bytesRemaining() > 0) {
    ArrayRef<uint8_t> run;
    check(reader.readLongestContiguousChunk(run));
    bytes.insert(bytes.end(), run.begin(), run.end());
  }
  return bytes;
}

uint32_t named_stream(PDBFile &file, StringRef name) {
  return check(check(file.getPDBInfoStream()).getNamedStreamIndex(name));
}

TypeTable::TypeTable(const Bytes &stream) : bytes(stream, support::little) {
  BinaryStreamReader reader(bytes);
  const TpiStreamHeader *header;
  check(reader.readObject(header));
  reader.setOffset(header->HeaderSize);
  check(reader.readArray(records, header->TypeRecordBytes));
  first = header->TypeIndexBegin;
  count = header->TypeIndexEnd - first;
}

NameTable::NameTable(const Bytes &stream) : bytes(stream, support::little) {
  BinaryStreamReader reader(bytes);
  check(table.reload(reader));
}

uint64_t llvm_read_streams(const Bytes &bytes, uint32_t streams) {
  OpenFile file(bytes);
  uint64_t sum = 0;
  for (uint32_t number = 0; number < std::min(streams, file->getNumStreams()); number++)
    if (file->getStreamByteSize(number) != UINT32_MAX)
      sum += copy_stream(*file, number).size();
  return sum;
}

// The size of a record without the two bytes of its length.
static uint64_t size_of(const CVType &record) { return record.length() - 2; }

uint64_t llvm_walk(const TypeTable &table) {
  uint64_t sum = 0;
  for (const CVType &record : table.records)
    sum += size_of(record);
  return sum;
}

namespace {

// Counts the fields of a list, all of which are deserialized. What the list goes on in is no field.
class FieldCounter : public TypeVisitorCallbacks {
public:
  uint64_t count = 0;
#define TYPE_RECORD(lf_name, value, name)
#define TYPE_RECORD_ALIAS(lf_name, value, name, alias)
#define MEMBER_RECORD(lf_name, value, name)                                                                  \
  Error visitKnownMember(CVMemberRecord &member, name##Record &record) override {                            \
    count += member.Kind != LF_INDEX;                                                                        \
    return Error::success();                                                                                 \
  }
#define MEMBER_RECORD_ALIAS(lf_name, value, name, alias)
#include "llvm/DebugInfo/CodeView/CodeViewTypes.def"
};

template <class Record> uint64_t deserialize(CVType record) {
  Record read(static_cast<TypeRecordKind>(record.kind()));
  check(TypeDeserializer::deserializeAs<Record>(record, read));
  return 1;
}

template <class Record> uint64_t deserialize_named(CVType record) {
  Record read(static_cast<TypeRecordKind>(record.kind()));
  check(TypeDeserializer::deserializeAs<Record>(record, read));
  return 1 + read.getName().size();
}

} // namespace

static uint64_t deserialize_fields(CVType record, uint64_t &fields) {
  FieldListRecord list(TypeRecordKind::FieldList);
  check(TypeDeserializer::deserializeAs<FieldListRecord>(record, list));
  FieldCounter counter;
  check(visitMemberRecordStream(list.Data, counter));
  fields += counter.count;
  return 1;
}

// 1 and the length of the name of a record, whose fields are counted; 0 of a kind that the library does not read.
static uint64_t parsed(const CVType &record, uint64_t &fields) {
  switch (record.kind()) {
  case LF_POINTER: return deserialize<PointerRecord>(record);
  case LF_MODIFIER: return deserialize<ModifierRecord>(record);
  case LF_PROCEDURE: return deserialize<ProcedureRecord>(record);
  case LF_MFUNCTION: return deserialize<MemberFunctionRecord>(record);
  case LF_ARGLIST: return deserialize<ArgListRecord>(record);
  case LF_FIELDLIST: return deserialize_fields(record, fields);
  case LF_ARRAY: return deserialize<ArrayRecord>(record);
  case LF_CLASS:
  case LF_STRUCTURE:
  case LF_INTERFACE: return deserialize_named<ClassRecord>(record);
  case LF_UNION: return deserialize_named<UnionRecord>(record);
  case LF_ENUM: return deserialize_named<EnumRecord>(record);
  case LF_VTSHAPE: return deserialize<VFTableShapeRecord>(record);
  case LF_BITFIELD: return deserialize<BitFieldRecord>(record);
  case LF_METHODLIST: return deserialize<MethodOverloadListRecord>(record);
  default: return 0;
  }
}

uint64_t llvm_parse(const TypeTable &table) {
  uint64_t sum = 0, fields = 0;
  for (const CVType &record : table.records)
    sum += parsed(record, fields);
  return sum + fields;
}

uint64_t llvm_rows(const TypeTable &table) {
  uint64_t sum = 0, fields = 0;
  for (const CVType &record : table.records)
    sum += parsed(record, fields) > 0;
  return sum;
}

// A collection that has scanned the whole table.
std::unique_ptr<LazyRandomTypeCollection> llvm_finder(const TypeTable &table) {
  auto types = std::make_unique<LazyRandomTypeCollection>(table.records, table.count);
  if (table.count > 0)
    types->getType(TypeIndex(table.first + table.count - 1));
  return types;
}

uint64_t llvm_build(const TypeTable &table) {
  auto types = llvm_finder(table);
  return table.count > 0 && types->size() == table.count ? table.first + table.count - 1 : 0;
}

uint64_t llvm_find(LazyRandomTypeCollection &types, const Numbers &indexes) {
  uint64_t sum = 0;
  for (uint32_t index : indexes)
    sum += size_of(types.getType(TypeIndex(index)));
  return sum;
}

// 1 and the length of the name of each record, whose fields are read and not summed.
static uint64_t find_and_parse(LazyRandomTypeCollection &types, const Numbers &indexes) {
  uint64_t sum = 0, fields = 0;
  for (uint32_t index : indexes)
    sum += parsed(types.getType(TypeIndex(index)), fields);
  return sum;
}

uint64_t llvm_build_and_find(const TypeTable &table, Offsets offsets, const Numbers &indexes) {
  LazyRandomTypeCollection types(table.records, table.count, offsets);
  return find_and_parse(types, indexes);
}

uint64_t llvm_queries(const Bytes &bytes, const Numbers &indexes) {
  OpenFile file(bytes);
  auto &stream = check(file->getPDBTpiStream());
  LazyRandomTypeCollection types(stream.typeArray(), stream.getNumTypeRecords(), stream.getTypeIndexOffsets());
  return find_and_parse(types, indexes);
}

uint64_t llvm_names(const NameTable &names, const Numbers &offsets) {
  uint64_t sum = 0;
  for (uint32_t offset : offsets)
    sum += 1 + check(names.table.getStringForID(offset)).size();
  return sum;
}
