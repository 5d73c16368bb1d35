// The structures of pdb_container.h as objects. A number of 64 bits is a BigInt.

const number = (size, read) => ({ size, align: size, read });
const u16 = number(2, (view, at) => view.getUint16(at, true));
const u32 = number(4, (view, at) => view.getUint32(at, true));
const u64 = number(8, (view, at) => view.getBigUint64(at, true));
const bytes = (size) => ({ size, align: 1, read: (view, at) => new Uint8Array(view.buffer, at, size).slice() });

/** A structure whose fields have these names and types, in order. */
function structure(fields) {
  let size = 0;
  let align = 1;
  const places = [];
  for (const [name, type] of Object.entries(fields)) {
    size = Math.ceil(size / type.align) * type.align;
    places.push([name, size, type]);
    size += type.size;
    align = Math.max(align, type.align);
  }
  const read = (view, at) => Object.fromEntries(places.map(([name, offset, type]) => [name, type.read(view, at + offset)]));
  return { size: Math.ceil(size / align) * align, align, read };
}

const all = (type, names) => Object.fromEntries(names.split(" ").map((name) => [name, type]));

export { u32, u64 };

const Fault = structure(all(u32, "status first second"));

export const Sizes = structure(all(u32, "pageSize streamCount"));

export const Identity = structure({
  ...all(u32, "version signature age informationAge hasDebugHeader debugAge"),
  ...all(u16, "machine flags"),
  guid: bytes(16),
  ...all(u32, "hasFeatures features"),
});

export const Finding = structure({
  ...all(u64, "index byte fileByte"),
  ...all(u32, "part hasStream stream hasIndex hasByte hasFileByte isWarning inconsistency number"),
  fault: Fault,
});

export const Roles = structure(
  all(
    u16,
    "fpo exception fixup omap_to_src omap_from_src section_headers token_rid_map xdata pdata framedata " +
      "original_section_headers",
  ),
);

export const NamedStream = structure({ ...all(u64, "nameOffset nameLength"), number: u32 });

export const OmapRecord = structure(all(u32, "source target"));

export const Section = structure({
  name: bytes(8),
  ...all(u32, "virtualSize virtualAddress sizeOfRawData pointerToRawData pointerToRelocations pointerToLineNumbers"),
  ...all(u16, "numberOfRelocations numberOfLineNumbers"),
  characteristics: u32,
});

const SectionOffset = structure(all(u32, "offset section"));

export const Translation = structure({
  ...all(u32, "hasRva rva hasSectionOffset"),
  sectionOffset: SectionOffset,
  ...all(u32, "hasInternalRva internalRva hasInternalSectionOffset"),
  internalSectionOffset: SectionOffset,
});

export const Frame = structure(
  all(
    u32,
    "kind codeStart codeSize localsSize paramsSize prologSize savedRegsSize hasMaxStackSize maxStackSize " +
      "hasStructuredEh hasCppEh isFunctionStart usesBasePointer hasProgram program",
  ),
);

export const IndexRange = structure(all(u32, "first end"));

const Record = structure(all(u32, "index offset length"));

/** What a record says, under the names that all shapes share. */
export const Row = structure({
  ...all(u32, "shape has"),
  number: u64,
  ...all(u32, "kind attributes properties count typeIndex secondIndex thirdIndex listIndex extra"),
});

/** The bits of `has`, which say which of these numbers a record has. */
export const HAS = { typeIndex: 16, secondIndex: 32, thirdIndex: 64, listIndex: 128, number: 512 };

export const Type = structure({ position: Record, fault: Fault, info: Row });

export const Field = structure({ info: Row, ...all(u64, "nameOffset nameLength"), hasName: u32 });

export const LayoutRow = structure({
  ...all(u64, "offset size nameOffset nameLength"),
  ...all(u32, "kind extent bit bits typeIndex baseClass basePosition isDirect"),
});
