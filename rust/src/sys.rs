//! The calls of `include/pdb_container.h`, which says what each does and what a caller owes.
//! `tools/bindings` writes this file.

#![allow(missing_docs)]

use std::ffi::c_void;

pub const PDB_VERSION: u32 = 200;

#[repr(C)]
#[derive(Debug, Clone, Copy, Default, PartialEq, Eq)]
pub struct Fault {
    pub status: u32,
    pub first: u32,
    pub second: u32,
}

#[repr(C)]
#[derive(Debug)]
pub struct Handle {
    pub held: *mut c_void,
    pub kind: u32,
    pub fault: Fault,
}

#[repr(C)]
#[derive(Debug)]
pub struct File {
    pub handle: Handle,
    pub bytes: *mut u8,
    pub length: usize,
}

#[repr(C)]
#[derive(Debug, Clone, Copy, Default, PartialEq, Eq)]
pub struct Finding {
    pub index: u64,
    pub byte: u64,
    pub file_byte: u64,
    pub part: u32,
    pub has_stream: u32,
    pub stream: u32,
    pub has_index: u32,
    pub has_byte: u32,
    pub has_file_byte: u32,
    pub is_warning: u32,
    pub inconsistency: u32,
    pub number: u32,
    pub fault: Fault,
}

#[repr(C)]
#[derive(Debug, Clone, Copy, Default, PartialEq, Eq)]
pub struct Sizes {
    pub page_size: u32,
    pub stream_count: u32,
}

#[repr(C)]
#[derive(Debug, Clone, Copy, Default, PartialEq, Eq)]
pub struct NamedStream {
    pub name_offset: usize,
    pub name_length: usize,
    pub number: u32,
}

#[repr(C)]
#[derive(Debug, Clone, Copy, Default, PartialEq, Eq)]
pub struct Roles {
    pub fpo: u16,
    pub exception: u16,
    pub fixup: u16,
    pub omap_to_src: u16,
    pub omap_from_src: u16,
    pub section_headers: u16,
    pub token_rid_map: u16,
    pub xdata: u16,
    pub pdata: u16,
    pub framedata: u16,
    pub original_section_headers: u16,
}

#[repr(C)]
#[derive(Debug, Clone, Copy, Default, PartialEq, Eq)]
pub struct Identity {
    pub version: u32,
    pub signature: u32,
    pub age: u32,
    pub information_age: u32,
    pub has_debug_header: u32,
    pub debug_age: u32,
    pub machine: u16,
    pub flags: u16,
    pub guid: [u8; 16],
    pub has_features: u32,
    pub features: u32,
}

#[repr(C)]
#[derive(Debug, Clone, Copy, Default, PartialEq, Eq)]
pub struct Name {
    pub offset: usize,
    pub length: usize,
}

#[repr(C)]
#[derive(Debug, Clone, Copy, Default, PartialEq, Eq)]
pub struct OmapRecord {
    pub source: u32,
    pub target: u32,
}

#[repr(C)]
#[derive(Debug, Clone, Copy, Default, PartialEq, Eq)]
pub struct Span {
    pub start: u32,
    pub end: u32,
}

#[repr(C)]
#[derive(Debug, Clone, Copy, Default, PartialEq, Eq)]
pub struct Section {
    pub name: [u8; 8],
    pub virtual_size: u32,
    pub virtual_address: u32,
    pub size_of_raw_data: u32,
    pub pointer_to_raw_data: u32,
    pub pointer_to_relocations: u32,
    pub pointer_to_line_numbers: u32,
    pub number_of_relocations: u16,
    pub number_of_line_numbers: u16,
    pub characteristics: u32,
}

#[repr(C)]
#[derive(Debug, Clone, Copy, Default, PartialEq, Eq)]
pub struct SectionOffset {
    pub offset: u32,
    pub section: u32,
}

#[repr(C)]
#[derive(Debug, Clone, Copy, Default, PartialEq, Eq)]
pub struct Translation {
    pub has_rva: u32,
    pub rva: u32,
    pub has_section_offset: u32,
    pub section_offset: SectionOffset,
    pub has_internal_rva: u32,
    pub internal_rva: u32,
    pub has_internal_section_offset: u32,
    pub internal_section_offset: SectionOffset,
}

#[repr(C)]
#[derive(Debug, Clone, Copy, Default, PartialEq, Eq)]
pub struct Frame {
    pub kind: u32,
    pub code_start: u32,
    pub code_size: u32,
    pub locals_size: u32,
    pub params_size: u32,
    pub prolog_size: u32,
    pub saved_regs_size: u32,
    pub has_max_stack_size: u32,
    pub max_stack_size: u32,
    pub has_structured_eh: u32,
    pub has_cpp_eh: u32,
    pub is_function_start: u32,
    pub uses_base_pointer: u32,
    pub has_program: u32,
    pub program: u32,
}

#[repr(C)]
#[derive(Debug, Clone, Copy, Default, PartialEq, Eq)]
pub struct IndexRange {
    pub first: u32,
    pub end: u32,
}

#[repr(C)]
#[derive(Debug, Clone, Copy, Default, PartialEq, Eq)]
pub struct Record {
    pub index: u32,
    pub offset: u32,
    pub length: u32,
}

#[repr(C)]
#[derive(Debug, Clone, Copy, Default, PartialEq, Eq)]
pub struct FoundRecord {
    pub position: Record,
    pub fault: Fault,
}

#[repr(C)]
#[derive(Debug, Clone, Copy, Default, PartialEq, Eq)]
pub struct Row {
    pub shape: u32,
    pub has: u32,
    pub number: u64,
    pub kind: u32,
    pub attributes: u32,
    pub properties: u32,
    pub count: u32,
    pub type_index: u32,
    pub second_index: u32,
    pub third_index: u32,
    pub list_index: u32,
    pub extra: u32,
}

#[repr(C)]
#[derive(Debug, Clone, Copy, Default, PartialEq, Eq)]
pub struct Type {
    pub position: Record,
    pub fault: Fault,
    pub info: Row,
}

#[repr(C)]
#[derive(Debug, Clone, Copy, Default, PartialEq, Eq)]
pub struct Field {
    pub info: Row,
    pub name_offset: usize,
    pub name_length: usize,
    pub has_name: u32,
}

#[repr(C)]
#[derive(Debug, Clone, Copy, Default, PartialEq, Eq)]
pub struct LayoutRow {
    pub offset: u64,
    pub size: u64,
    pub name_offset: usize,
    pub name_length: usize,
    pub kind: u32,
    pub extent: u32,
    pub bit: u32,
    pub bits: u32,
    pub type_index: u32,
    pub base_class: u32,
    pub base_position: u32,
    pub is_direct: u32,
}

pub const PDB_OK: u32 = 0;
pub const PDB_UNRECOGNIZED_FILE_FORMAT: u32 = 1;
pub const PDB_PAGE_REFERENCE_OUT_OF_RANGE: u32 = 2;
pub const PDB_INVALID_PAGE_SIZE: u32 = 3;
pub const PDB_STREAM_NOT_FOUND: u32 = 4;
pub const PDB_STREAM_NAME_NOT_FOUND: u32 = 5;
pub const PDB_INVALID_STREAM_LENGTH: u32 = 6;
pub const PDB_IO_ERROR: u32 = 7;
pub const PDB_UNEXPECTED_EOF: u32 = 8;
pub const PDB_UNIMPLEMENTED_FEATURE: u32 = 9;
pub const PDB_INVALID_TYPE_INFORMATION_HEADER: u32 = 13;
pub const PDB_TYPE_TOO_SHORT: u32 = 14;
pub const PDB_TYPE_NOT_FOUND: u32 = 15;
pub const PDB_UNIMPLEMENTED_TYPE_KIND: u32 = 17;
pub const PDB_UNEXPECTED_NUMERIC_PREFIX: u32 = 20;
pub const PDB_ADDRESS_MAP_NOT_FOUND: u32 = 21;
pub const PDB_OUT_OF_MEMORY: u32 = 28;
pub const PDB_ALREADY_OPEN: u32 = 100;
pub const PDB_NOT_OPEN: u32 = 101;
pub const PDB_TOO_SMALL: u32 = 102;
pub const PDB_NO_TEXT: u32 = 104;
pub const PDB_END: u32 = 105;
pub const PDB_NONE: u32 = 106;
pub const PDB_UNMAPPED: u32 = 107;

pub const PDB_FORMAT_UNKNOWN: u32 = 0;
pub const PDB_FORMAT_MSF_7: u32 = 1;
pub const PDB_FORMAT_MSF_2: u32 = 2;
pub const PDB_FORMAT_PORTABLE: u32 = 3;
pub const PDB_FORMAT_COMPRESSED: u32 = 4;
pub const PDB_FORMAT_IMAGE: u32 = 5;

pub const PDB_PART_HEADER: u32 = 0;
pub const PDB_PART_DIRECTORY: u32 = 1;
pub const PDB_PART_SIZES: u32 = 2;
pub const PDB_PART_STREAM: u32 = 3;
pub const PDB_PART_NAMES: u32 = 4;
pub const PDB_PART_STRING_TABLE: u32 = 5;
pub const PDB_PART_ROLES: u32 = 6;
pub const PDB_PART_TYPES: u32 = 7;
pub const PDB_PART_IDS: u32 = 8;
pub const PDB_PART_SECTION_HEADERS: u32 = 9;
pub const PDB_PART_ORIGINAL_SECTION_HEADERS: u32 = 10;
pub const PDB_PART_OMAP_TO_SOURCE: u32 = 11;
pub const PDB_PART_OMAP_FROM_SOURCE: u32 = 12;
pub const PDB_PART_OLD_FRAMES: u32 = 13;
pub const PDB_PART_NEW_FRAMES: u32 = 14;

pub const PDB_NO_INCONSISTENCY: u32 = 0;
pub const PDB_DIRECTORY_TOO_LARGE: u32 = 1;
pub const PDB_STREAMS_TOO_LARGE: u32 = 2;
pub const PDB_OUT_OF_ORDER: u32 = 3;
pub const PDB_PAGE_SHARED: u32 = 4;
pub const PDB_PAGE_FREE: u32 = 5;
pub const PDB_STREAM_MISSING: u32 = 6;
pub const PDB_DEBUG_SIZES: u32 = 7;
pub const PDB_REFERENCE_NOT_BELOW: u32 = 8;
pub const PDB_RECORD_UNALIGNED: u32 = 9;
pub const PDB_KIND_NOT_READ: u32 = 10;
pub const PDB_HASH_COUNT: u32 = 11;
pub const PDB_HASH_TOO_LARGE: u32 = 12;
pub const PDB_INDEX_OFFSET: u32 = 13;
pub const PDB_BUCKETS_CUT: u32 = 14;
pub const PDB_NAME_OFFSET: u32 = 15;
pub const PDB_NAME_COUNT: u32 = 16;
pub const PDB_SECTIONS_OVERLAP: u32 = 17;
pub const PDB_FREE_PAGE_MAP: u32 = 18;
pub const PDB_PAGE_COUNT: u32 = 19;
pub const PDB_UNKNOWN_VERSION: u32 = 20;
pub const PDB_UNKNOWN_MACHINE: u32 = 21;
pub const PDB_NAMED_STREAM_COUNT: u32 = 22;
pub const PDB_RECORD_BYTES: u32 = 23;
pub const PDB_HASH_SIZE: u32 = 24;
pub const PDB_NO_HASH_STREAM: u32 = 25;
pub const PDB_HASH_PART: u32 = 26;
pub const PDB_NAME_UNREACHED: u32 = 27;
pub const PDB_MODULE_CUT: u32 = 28;
pub const PDB_MODULE_SIZES: u32 = 29;
pub const PDB_SYMBOL_HASH_VERSION: u32 = 30;
pub const PDB_SYMBOL_HASH_SIZES: u32 = 31;
pub const PDB_PUBLIC_SIZES: u32 = 32;
pub const PDB_SYMBOL_CUT: u32 = 33;

pub const PDB_TYPES: u32 = 2;
pub const PDB_IDS: u32 = 4;
pub const PDB_NO_STREAM: u32 = 0xffff;

pub const PDB_LINKED_INCREMENTALLY: u32 = 1;
pub const PDB_PRIVATE_SYMBOLS_STRIPPED: u32 = 2;
pub const PDB_TYPES_MAY_CONFLICT: u32 = 4;

pub const PDB_FEATURE_VC110: u32 = 1;
pub const PDB_FEATURE_VC140: u32 = 2;
pub const PDB_FEATURE_NO_TYPE_MERGE: u32 = 4;
pub const PDB_FEATURE_MINIMAL: u32 = 8;

pub const PDB_KEY_UPPER: u32 = 0;
pub const PDB_KEY_LOWER: u32 = 1;
pub const PDB_KEY_GUID: u32 = 2;

pub const PDB_RVA: u32 = 0;
pub const PDB_SECTION_OFFSET: u32 = 1;
pub const PDB_INTERNAL_RVA: u32 = 2;
pub const PDB_INTERNAL_SECTION_OFFSET: u32 = 3;

pub const PDB_FRAME_FPO: u32 = 0;
pub const PDB_FRAME_TRAP: u32 = 1;
pub const PDB_FRAME_TSS: u32 = 2;
pub const PDB_FRAME_STANDARD: u32 = 3;
pub const PDB_FRAME_DATA: u32 = 4;
pub const PDB_FRAME_UNKNOWN: u32 = 255;

pub const PDB_PRIMITIVE: u32 = 0;
pub const PDB_CLASS: u32 = 1;
pub const PDB_MEMBER: u32 = 2;
pub const PDB_MEMBER_FUNCTION: u32 = 3;
pub const PDB_OVERLOADED_METHOD: u32 = 4;
pub const PDB_METHOD: u32 = 5;
pub const PDB_STATIC_MEMBER: u32 = 6;
pub const PDB_NESTED: u32 = 7;
pub const PDB_BASE_CLASS: u32 = 8;
pub const PDB_VIRTUAL_BASE_CLASS: u32 = 9;
pub const PDB_VIRTUAL_FUNCTION_TABLE_POINTER: u32 = 10;
pub const PDB_PROCEDURE: u32 = 11;
pub const PDB_POINTER: u32 = 12;
pub const PDB_MODIFIER: u32 = 13;
pub const PDB_ENUMERATION: u32 = 14;
pub const PDB_ENUMERATE: u32 = 15;
pub const PDB_ARRAY: u32 = 16;
pub const PDB_UNION: u32 = 17;
pub const PDB_BITFIELD: u32 = 18;
pub const PDB_FIELD_LIST: u32 = 19;
pub const PDB_ARGUMENT_LIST: u32 = 20;
pub const PDB_METHOD_LIST: u32 = 21;
pub const PDB_VIRTUAL_TABLE_SHAPE: u32 = 22;
pub const PDB_FUNCTION_ID: u32 = 32;
pub const PDB_MEMBER_FUNCTION_ID: u32 = 33;
pub const PDB_BUILD_INFO_ID: u32 = 34;
pub const PDB_STRING_LIST_ID: u32 = 35;
pub const PDB_STRING_ID: u32 = 36;
pub const PDB_TYPE_SOURCE_ID: u32 = 37;

pub const PDB_HAS_KIND: u32 = 1;
pub const PDB_HAS_ATTRIBUTES: u32 = 2;
pub const PDB_HAS_PROPERTIES: u32 = 4;
pub const PDB_HAS_COUNT: u32 = 8;
pub const PDB_HAS_TYPE_INDEX: u32 = 16;
pub const PDB_HAS_SECOND_INDEX: u32 = 32;
pub const PDB_HAS_THIRD_INDEX: u32 = 64;
pub const PDB_HAS_LIST_INDEX: u32 = 128;
pub const PDB_HAS_EXTRA: u32 = 256;
pub const PDB_HAS_NUMBER: u32 = 512;
pub const PDB_HAS_RETURN_TYPE: u32 = 16;
pub const PDB_HAS_DERIVED_FROM: u32 = 32;
pub const PDB_HAS_CONTAINING_CLASS: u32 = 32;
pub const PDB_HAS_SCOPE: u32 = 32;
pub const PDB_HAS_FILE_ID: u32 = 32;
pub const PDB_HAS_VTABLE_SHAPE: u32 = 64;
pub const PDB_HAS_THIS_POINTER_TYPE: u32 = 64;
pub const PDB_HAS_MODULE: u32 = 64;
pub const PDB_HAS_FIELDS: u32 = 128;
pub const PDB_HAS_CONTINUATION: u32 = 128;
pub const PDB_HAS_SUBSTRINGS: u32 = 128;
pub const PDB_HAS_VTABLE_OFFSET: u32 = 256;
pub const PDB_HAS_STRIDE: u32 = 256;

pub const PDB_KIND_CLASS: u32 = 0;
pub const PDB_KIND_STRUCTURE: u32 = 1;
pub const PDB_KIND_INTERFACE: u32 = 2;

pub const PDB_PROPERTY_PACKED: u32 = 0x1;
pub const PDB_PROPERTY_CONSTRUCTORS: u32 = 0x2;
pub const PDB_PROPERTY_OVERLOADED_OPERATORS: u32 = 0x4;
pub const PDB_PROPERTY_NESTED: u32 = 0x8;
pub const PDB_PROPERTY_CONTAINS_NESTED: u32 = 0x10;
pub const PDB_PROPERTY_OVERLOADED_ASSIGNMENT: u32 = 0x20;
pub const PDB_PROPERTY_CASTING_METHODS: u32 = 0x40;
pub const PDB_PROPERTY_FORWARD_REFERENCE: u32 = 0x80;
pub const PDB_PROPERTY_SCOPED: u32 = 0x100;
pub const PDB_PROPERTY_HAS_UNIQUE_NAME: u32 = 0x200;
pub const PDB_PROPERTY_SEALED: u32 = 0x400;
pub const PDB_PROPERTY_HFA_MASK: u32 = 0x1800;
pub const PDB_PROPERTY_INTRINSIC: u32 = 0x2000;
pub const PDB_PROPERTY_MOCOM_MASK: u32 = 0xc000;

pub const PDB_FIELD_ACCESS_MASK: u32 = 0x3;
pub const PDB_FIELD_PRIVATE: u32 = 1;
pub const PDB_FIELD_PROTECTED: u32 = 2;
pub const PDB_FIELD_PUBLIC: u32 = 3;
pub const PDB_FIELD_METHOD_MASK: u32 = 0x1c;
pub const PDB_FIELD_METHOD_VIRTUAL: u32 = 0x4;
pub const PDB_FIELD_METHOD_STATIC: u32 = 0x8;
pub const PDB_FIELD_METHOD_FRIEND: u32 = 0xc;
pub const PDB_FIELD_METHOD_INTRO: u32 = 0x10;
pub const PDB_FIELD_METHOD_PURE_VIRTUAL: u32 = 0x14;
pub const PDB_FIELD_METHOD_PURE_INTRO: u32 = 0x18;
pub const PDB_FIELD_PSEUDO: u32 = 0x20;
pub const PDB_FIELD_NO_INHERIT: u32 = 0x40;
pub const PDB_FIELD_NO_CONSTRUCT: u32 = 0x80;
pub const PDB_FIELD_COMPILER_GENERATED: u32 = 0x100;
pub const PDB_FIELD_SEALED: u32 = 0x200;

pub const PDB_FUNCTION_CALLING_CONVENTION_MASK: u32 = 0xff;
pub const PDB_FUNCTION_CXX_RETURN_UDT: u32 = 0x100;
pub const PDB_FUNCTION_CONSTRUCTOR: u32 = 0x200;
pub const PDB_FUNCTION_CONSTRUCTOR_WITH_VIRTUAL_BASES: u32 = 0x400;

pub const PDB_POINTER_KIND_MASK: u32 = 0x1f;
pub const PDB_POINTER_KIND_NEAR_32: u32 = 0xa;
pub const PDB_POINTER_KIND_FAR_32: u32 = 0xb;
pub const PDB_POINTER_KIND_64: u32 = 0xc;
pub const PDB_POINTER_MODE_MASK: u32 = 0xe0;
pub const PDB_POINTER_MODE_POINTER: u32 = 0;
pub const PDB_POINTER_MODE_LVALUE_REFERENCE: u32 = 0x20;
pub const PDB_POINTER_MODE_DATA_MEMBER: u32 = 0x40;
pub const PDB_POINTER_MODE_METHOD: u32 = 0x60;
pub const PDB_POINTER_MODE_RVALUE_REFERENCE: u32 = 0x80;
pub const PDB_POINTER_FLAT_32: u32 = 0x100;
pub const PDB_POINTER_VOLATILE: u32 = 0x200;
pub const PDB_POINTER_CONST: u32 = 0x400;
pub const PDB_POINTER_UNALIGNED: u32 = 0x800;
pub const PDB_POINTER_RESTRICT: u32 = 0x1000;
pub const PDB_POINTER_SIZE_MASK: u32 = 0x7e000;
pub const PDB_POINTER_MOCOM: u32 = 0x80000;

pub const PDB_MODIFIER_CONST: u32 = 1;
pub const PDB_MODIFIER_VOLATILE: u32 = 2;
pub const PDB_MODIFIER_UNALIGNED: u32 = 4;

pub const PDB_LAYOUT_BASE: u32 = 0;
pub const PDB_LAYOUT_VIRTUAL_BASE_POINTER: u32 = 1;
pub const PDB_LAYOUT_VIRTUAL_FUNCTION_POINTER: u32 = 2;
pub const PDB_LAYOUT_MEMBER: u32 = 3;
pub const PDB_LAYOUT_HOLE: u32 = 4;
pub const PDB_LAYOUT_UNUSED_BITS: u32 = 5;
pub const PDB_LAYOUT_VIRTUAL_BASES: u32 = 6;

pub const PDB_EXTENT_BYTES: u32 = 0;
pub const PDB_EXTENT_BITS: u32 = 1;
pub const PDB_EXTENT_UNKNOWN: u32 = 2;

unsafe extern "C" {
    pub fn pdb_version() -> u32;
    pub fn pdb_fault_text(fault: *const Fault, buffer: *mut u8, buffer_length: usize, length: *mut usize) -> u32;
    pub fn pdb_handle_close(handle: *mut Handle);
    pub fn pdb_format_of(file: *const u8, file_length: usize) -> u32;
    pub fn pdb_validate(bytes: *const u8, bytes_length: usize, every: u32, findings: *mut Finding, findings_length: usize, length: *mut usize) -> u32;
    pub fn pdb_file_open(bytes: *const u8, bytes_length: usize, file: *mut File) -> u32;
    pub fn pdb_file_sizes(file: *mut File, sizes: *mut Sizes) -> u32;
    pub fn pdb_file_stream_size(file: *mut File, number: u32, size: *mut u32) -> u32;
    pub fn pdb_file_stream(file: *mut File, number: u32, limit: usize, buffer: *mut u8, buffer_length: usize, length: *mut usize) -> u32;
    pub fn pdb_file_named_stream(file: *mut File, name: *const u8, name_length: usize, buffer: *mut u8, buffer_length: usize, length: *mut usize) -> u32;
    pub fn pdb_file_stream_names(file: *mut File, rows: *mut NamedStream, rows_length: usize, count: *mut usize, names: *mut u8, names_length: usize, size: *mut usize) -> u32;
    pub fn pdb_file_roles(file: *mut File, roles: *mut Roles) -> u32;
    pub fn pdb_file_identity(file: *mut File, identity: *mut Identity) -> u32;
    pub fn pdb_key(identity: *const Identity, form: u32, buffer: *mut u8, buffer_length: usize, length: *mut usize) -> u32;
    pub fn pdb_names_open(file: *mut File, names: *mut Handle) -> u32;
    pub fn pdb_names_get(names: *mut Handle, offset: u32, buffer: *mut u8, buffer_length: usize, length: *mut usize) -> u32;
    pub fn pdb_names_places(names: *mut Handle, offsets: *const u32, offsets_length: usize, places: *mut Name, places_length: usize, length: *mut usize) -> u32;
    pub fn pdb_omap_open(file: *mut File, number: u32, omap: *mut Handle) -> u32;
    pub fn pdb_omap_records(omap: *mut Handle, records: *mut OmapRecord, records_length: usize, length: *mut usize) -> u32;
    pub fn pdb_omap_is_sorted(omap: *mut Handle, is_sorted: *mut u32) -> u32;
    pub fn pdb_omap_lookup(omap: *mut Handle, address: u32, target: *mut u32) -> u32;
    pub fn pdb_omap_ranges(omap: *mut Handle, start: u32, end: u32, spans: *mut Span, spans_length: usize, length: *mut usize) -> u32;
    pub fn pdb_file_sections(file: *mut File, number: u32, sections: *mut Section, sections_length: usize, length: *mut usize) -> u32;
    pub fn pdb_address_map_open(file: *mut File, map: *mut Handle) -> u32;
    pub fn pdb_translate(map: *mut Handle, form: u32, section: u16, offset: u32, translation: *mut Translation) -> u32;
    pub fn pdb_address_ranges(map: *mut Handle, form: u32, start: u32, end: u32, spans: *mut Span, spans_length: usize, length: *mut usize) -> u32;
    pub fn pdb_frames_open(file: *mut File, frames: *mut Handle) -> u32;
    pub fn pdb_frames_at(frames: *mut Handle, address: u32, frame: *mut Frame) -> u32;
    pub fn pdb_frames_list(frames: *mut Handle, rows: *mut Frame, rows_length: usize, length: *mut usize) -> u32;
    pub fn pdb_types_open(file: *mut File, number: u32, types: *mut Handle) -> u32;
    pub fn pdb_types_range(types: *mut Handle, range: *mut IndexRange) -> u32;
    pub fn pdb_types_find(types: *mut Handle, indexes: *const u32, indexes_length: usize, records: *mut FoundRecord, records_length: usize, length: *mut usize) -> u32;
    pub fn pdb_types_read(types: *mut Handle, rows: *mut Type, rows_length: usize, count: *mut usize) -> u32;
    pub fn pdb_types_rewind(types: *mut Handle) -> u32;
    pub fn pdb_type_parse(types: *mut Handle, index: u32, info: *mut Row) -> u32;
    pub fn pdb_type_record(types: *mut Handle, index: u32, buffer: *mut u8, buffer_length: usize, length: *mut usize) -> u32;
    pub fn pdb_type_name(types: *mut Handle, index: u32, buffer: *mut u8, buffer_length: usize, length: *mut usize) -> u32;
    pub fn pdb_type_unique_name(types: *mut Handle, index: u32, buffer: *mut u8, buffer_length: usize, length: *mut usize) -> u32;
    pub fn pdb_type_numbers(types: *mut Handle, index: u32, numbers: *mut u32, numbers_length: usize, length: *mut usize) -> u32;
    pub fn pdb_type_methods(types: *mut Handle, index: u32, methods: *mut Row, methods_length: usize, length: *mut usize) -> u32;
    pub fn pdb_type_fields(types: *mut Handle, index: u32, whole: u32, rows: *mut Field, rows_length: usize, count: *mut usize, names: *mut u8, names_length: usize, size: *mut usize) -> u32;
    pub fn pdb_enumerator_typed(info: *mut Row, underlying_type: u32);
    pub fn pdb_types_named(types: *mut Handle, name: *const u8, name_length: usize, indexes: *mut u32, indexes_length: usize, length: *mut usize) -> u32;
    pub fn pdb_type_definition(types: *mut Handle, index: u32, definition: *mut u32) -> u32;
    pub fn pdb_type_size(types: *mut Handle, index: u32, size: *mut u64) -> u32;
    pub fn pdb_type_text(types: *mut Handle, index: u32, name: *const u8, name_length: usize, buffer: *mut u8, buffer_length: usize, length: *mut usize) -> u32;
    pub fn pdb_type_layout(types: *mut Handle, index: u32, rows: *mut LayoutRow, rows_length: usize, count: *mut usize, names: *mut u8, names_length: usize, size: *mut usize) -> u32;
}
