"""What include/pdb_container.h declares. tools/bindings writes this file."""

from ctypes import Structure, c_size_t, c_uint8, c_uint16, c_uint32, c_uint64, c_void_p
from enum import IntEnum, IntFlag

# The version of the header, as pdb_version gives that of the library.
VERSION = 200


class Status(IntEnum):
    """How a call ended."""

    OK = 0
    UNRECOGNIZED_FILE_FORMAT = 1
    PAGE_REFERENCE_OUT_OF_RANGE = 2
    INVALID_PAGE_SIZE = 3
    STREAM_NOT_FOUND = 4
    STREAM_NAME_NOT_FOUND = 5
    INVALID_STREAM_LENGTH = 6
    IO_ERROR = 7
    UNEXPECTED_EOF = 8
    UNIMPLEMENTED_FEATURE = 9
    INVALID_TYPE_INFORMATION_HEADER = 13
    TYPE_TOO_SHORT = 14
    TYPE_NOT_FOUND = 15
    UNIMPLEMENTED_TYPE_KIND = 17
    UNEXPECTED_NUMERIC_PREFIX = 20
    ADDRESS_MAP_NOT_FOUND = 21
    OUT_OF_MEMORY = 28
    ALREADY_OPEN = 100
    NOT_OPEN = 101
    TOO_SMALL = 102
    NO_TEXT = 104
    END = 105
    NONE = 106
    UNMAPPED = 107


class Format(IntEnum):
    """The formats that are told apart by the first bytes of a file."""

    UNKNOWN = 0
    MSF_7 = 1
    MSF_2 = 2
    PORTABLE = 3
    COMPRESSED = 4
    IMAGE = 5


class Part(IntEnum):
    """The parts of a file."""

    HEADER = 0
    DIRECTORY = 1
    SIZES = 2
    STREAM = 3
    NAMES = 4
    STRING_TABLE = 5
    ROLES = 6
    TYPES = 7
    IDS = 8
    SECTION_HEADERS = 9
    ORIGINAL_SECTION_HEADERS = 10
    OMAP_TO_SOURCE = 11
    OMAP_FROM_SOURCE = 12
    OLD_FRAMES = 13
    NEW_FRAMES = 14


class Inconsistency(IntEnum):
    """What can be inconsistent in a file whose parts can be read. The brackets say what `number`
    is."""

    NO_INCONSISTENCY = 0
    DIRECTORY_TOO_LARGE = 1
    STREAMS_TOO_LARGE = 2
    OUT_OF_ORDER = 3
    PAGE_SHARED = 4
    PAGE_FREE = 5
    STREAM_MISSING = 6
    DEBUG_SIZES = 7
    REFERENCE_NOT_BELOW = 8
    RECORD_UNALIGNED = 9
    KIND_NOT_READ = 10
    HASH_COUNT = 11
    HASH_TOO_LARGE = 12
    INDEX_OFFSET = 13
    BUCKETS_CUT = 14
    NAME_OFFSET = 15
    NAME_COUNT = 16
    SECTIONS_OVERLAP = 17
    FREE_PAGE_MAP = 18
    PAGE_COUNT = 19
    UNKNOWN_VERSION = 20
    UNKNOWN_MACHINE = 21
    NAMED_STREAM_COUNT = 22
    RECORD_BYTES = 23
    HASH_SIZE = 24
    NO_HASH_STREAM = 25
    HASH_PART = 26
    NAME_UNREACHED = 27
    MODULE_CUT = 28
    MODULE_SIZES = 29
    SYMBOL_HASH_VERSION = 30
    SYMBOL_HASH_SIZES = 31
    PUBLIC_SIZES = 32
    SYMBOL_CUT = 33


class StreamNumber(IntEnum):
    """Streams whose numbers are fixed, and the number that stands for none."""

    TYPES = 2
    IDS = 4
    NO_STREAM = 0xffff


class IdentityFlag(IntFlag):
    """What the debug information says of the file."""

    LINKED_INCREMENTALLY = 1
    PRIVATE_SYMBOLS_STRIPPED = 2
    TYPES_MAY_CONFLICT = 4


class Feature(IntFlag):
    """The features that the file tells of itself, in the numbers after the stream names in stream
    1. If VC110 is among them, those behind it are not read."""

    VC110 = 1
    VC140 = 2
    NO_TYPE_MERGE = 4
    MINIMAL = 8


class KeyForm(IntEnum):
    """The forms of a key."""

    UPPER = 0
    LOWER = 1
    GUID = 2


class AddressForm(IntEnum):
    """The forms of an address. An RVA is an address in the image as it is loaded, and an internal
    RVA is one in the original image, to which the parts of a program database refer."""

    RVA = 0
    SECTION_OFFSET = 1
    INTERNAL_RVA = 2
    INTERNAL_SECTION_OFFSET = 3


class FrameKind(IntEnum):
    """The kinds of frames, by the numbers of StackFrameTypeEnum; any other is unknown."""

    FPO = 0
    TRAP = 1
    TSS = 2
    STANDARD = 3
    DATA = 4
    UNKNOWN = 255


class Shape(IntEnum):
    """The shapes of types and of ids."""

    PRIMITIVE = 0
    CLASS = 1
    MEMBER = 2
    MEMBER_FUNCTION = 3
    OVERLOADED_METHOD = 4
    METHOD = 5
    STATIC_MEMBER = 6
    NESTED = 7
    BASE_CLASS = 8
    VIRTUAL_BASE_CLASS = 9
    VIRTUAL_FUNCTION_TABLE_POINTER = 10
    PROCEDURE = 11
    POINTER = 12
    MODIFIER = 13
    ENUMERATION = 14
    ENUMERATE = 15
    ARRAY = 16
    UNION = 17
    BITFIELD = 18
    FIELD_LIST = 19
    ARGUMENT_LIST = 20
    METHOD_LIST = 21
    VIRTUAL_TABLE_SHAPE = 22
    FUNCTION_ID = 32
    MEMBER_FUNCTION_ID = 33
    BUILD_INFO_ID = 34
    STRING_LIST_ID = 35
    STRING_ID = 36
    TYPE_SOURCE_ID = 37


class Has(IntFlag):
    """The bits of `has`, which say which numbers a record has. The other numbers are 0. The second
    group names the same bits by what the number is in shapes where it may be absent."""

    KIND = 1
    ATTRIBUTES = 2
    PROPERTIES = 4
    COUNT = 8
    TYPE_INDEX = 16
    SECOND_INDEX = 32
    THIRD_INDEX = 64
    LIST_INDEX = 128
    EXTRA = 256
    NUMBER = 512
    RETURN_TYPE = 16
    DERIVED_FROM = 32
    CONTAINING_CLASS = 32
    SCOPE = 32
    FILE_ID = 32
    VTABLE_SHAPE = 64
    THIS_POINTER_TYPE = 64
    MODULE = 64
    FIELDS = 128
    CONTINUATION = 128
    SUBSTRINGS = 128
    VTABLE_OFFSET = 256
    STRIDE = 256


class ClassKind(IntEnum):
    """The kinds of classes."""

    CLASS = 0
    STRUCTURE = 1
    INTERFACE = 2


class Property(IntFlag):
    """The bits of the properties of a class, a union or an enumeration, as cvinfo.h has
    CV_prop_t."""

    PACKED = 0x1
    CONSTRUCTORS = 0x2
    OVERLOADED_OPERATORS = 0x4
    NESTED = 0x8
    CONTAINS_NESTED = 0x10
    OVERLOADED_ASSIGNMENT = 0x20
    CASTING_METHODS = 0x40
    FORWARD_REFERENCE = 0x80
    SCOPED = 0x100
    HAS_UNIQUE_NAME = 0x200
    SEALED = 0x400
    INTRINSIC = 0x2000
    HFA_MASK = 0x1800
    MOCOM_MASK = 0xc000


class FieldAttribute(IntFlag):
    """The bits of the attributes of a field, as CV_fldattr_t."""

    PRIVATE = 1
    PROTECTED = 2
    PUBLIC = 3
    METHOD_VIRTUAL = 0x4
    METHOD_STATIC = 0x8
    METHOD_FRIEND = 0xc
    METHOD_INTRO = 0x10
    METHOD_PURE_VIRTUAL = 0x14
    METHOD_PURE_INTRO = 0x18
    PSEUDO = 0x20
    NO_INHERIT = 0x40
    NO_CONSTRUCT = 0x80
    COMPILER_GENERATED = 0x100
    SEALED = 0x200
    ACCESS_MASK = 0x3
    METHOD_MASK = 0x1c


class FunctionAttribute(IntFlag):
    """The bits of the attributes of a function: a number of CV_call_e, and those of
    CV_funcattr_t."""

    CXX_RETURN_UDT = 0x100
    CONSTRUCTOR = 0x200
    CONSTRUCTOR_WITH_VIRTUAL_BASES = 0x400
    CALLING_CONVENTION_MASK = 0xff


class PointerAttribute(IntFlag):
    """The bits of the attributes of a pointer, as lfPointerAttr."""

    KIND_NEAR_32 = 0xa
    KIND_FAR_32 = 0xb
    KIND_64 = 0xc
    MODE_POINTER = 0
    MODE_LVALUE_REFERENCE = 0x20
    MODE_DATA_MEMBER = 0x40
    MODE_METHOD = 0x60
    MODE_RVALUE_REFERENCE = 0x80
    FLAT_32 = 0x100
    VOLATILE = 0x200
    CONST = 0x400
    UNALIGNED = 0x800
    RESTRICT = 0x1000
    MOCOM = 0x80000
    KIND_MASK = 0x1f
    MODE_MASK = 0xe0
    SIZE_MASK = 0x7e000


class ModifierBit(IntFlag):
    """The bits of a type with modifiers."""

    CONST = 1
    VOLATILE = 2
    UNALIGNED = 4


class LayoutKind(IntEnum):
    """What a row of a layout is."""

    BASE = 0
    VIRTUAL_BASE_POINTER = 1
    VIRTUAL_FUNCTION_POINTER = 2
    MEMBER = 3
    HOLE = 4
    UNUSED_BITS = 5
    VIRTUAL_BASES = 6


class Extent(IntEnum):
    """How the size of a row of a layout is given."""

    BYTES = 0
    BITS = 1
    UNKNOWN = 2


class SectionCharacteristics(IntFlag):
    """The bits of the characteristics of a section, as the PE format has IMAGE_SCN_*."""

    TYPE_NO_PAD = 0x00000008
    CODE = 0x00000020
    INITIALIZED_DATA = 0x00000040
    UNINITIALIZED_DATA = 0x00000080
    LINK_OTHER = 0x00000100
    LINK_INFO = 0x00000200
    LINK_REMOVE = 0x00000800
    LINK_COMDAT = 0x00001000
    GP_RELATIVE = 0x00008000
    LINK_RELOCATIONS_OVERFLOW = 0x01000000
    DISCARDABLE = 0x02000000
    NOT_CACHED = 0x04000000
    NOT_PAGED = 0x08000000
    SHARED = 0x10000000
    EXECUTE = 0x20000000
    READ = 0x40000000
    WRITE = 0x80000000
    ALIGN_MASK = 0x00f00000


class Fault(Structure):
    _fields_ = [
        ("status", c_uint32),
        ("first", c_uint32),
        ("second", c_uint32),
    ]


class Handle(Structure):
    _fields_ = [
        ("held", c_void_p),
        ("kind", c_uint32),
        ("fault", Fault),
    ]


class File(Structure):
    _fields_ = [
        ("handle", Handle),
        ("bytes", c_void_p),
        ("length", c_size_t),
    ]


class Finding(Structure):
    _fields_ = [
        ("index", c_uint64),
        ("byte", c_uint64),
        ("file_byte", c_uint64),
        ("part", c_uint32),
        ("has_stream", c_uint32),
        ("stream", c_uint32),
        ("has_index", c_uint32),
        ("has_byte", c_uint32),
        ("has_file_byte", c_uint32),
        ("is_warning", c_uint32),
        ("inconsistency", c_uint32),
        ("number", c_uint32),
        ("fault", Fault),
    ]


class Sizes(Structure):
    _fields_ = [
        ("page_size", c_uint32),
        ("stream_count", c_uint32),
    ]


class NamedStream(Structure):
    _fields_ = [
        ("name_offset", c_size_t),
        ("name_length", c_size_t),
        ("number", c_uint32),
    ]


class Roles(Structure):
    _fields_ = [
        ("fpo", c_uint16),
        ("exception", c_uint16),
        ("fixup", c_uint16),
        ("omap_to_src", c_uint16),
        ("omap_from_src", c_uint16),
        ("section_headers", c_uint16),
        ("token_rid_map", c_uint16),
        ("xdata", c_uint16),
        ("pdata", c_uint16),
        ("framedata", c_uint16),
        ("original_section_headers", c_uint16),
    ]


class Identity(Structure):
    _fields_ = [
        ("version", c_uint32),
        ("signature", c_uint32),
        ("age", c_uint32),
        ("information_age", c_uint32),
        ("has_debug_header", c_uint32),
        ("debug_age", c_uint32),
        ("machine", c_uint16),
        ("flags", c_uint16),
        ("guid", c_uint8 * 16),
        ("has_features", c_uint32),
        ("features", c_uint32),
    ]


class Name(Structure):
    _fields_ = [
        ("offset", c_size_t),
        ("length", c_size_t),
    ]


class OmapRecord(Structure):
    _fields_ = [
        ("source", c_uint32),
        ("target", c_uint32),
    ]


class Span(Structure):
    _fields_ = [
        ("start", c_uint32),
        ("end", c_uint32),
    ]


class Section(Structure):
    _fields_ = [
        ("name", c_uint8 * 8),
        ("virtual_size", c_uint32),
        ("virtual_address", c_uint32),
        ("size_of_raw_data", c_uint32),
        ("pointer_to_raw_data", c_uint32),
        ("pointer_to_relocations", c_uint32),
        ("pointer_to_line_numbers", c_uint32),
        ("number_of_relocations", c_uint16),
        ("number_of_line_numbers", c_uint16),
        ("characteristics", c_uint32),
    ]


class SectionOffset(Structure):
    _fields_ = [
        ("offset", c_uint32),
        ("section", c_uint32),
    ]


class Translation(Structure):
    _fields_ = [
        ("has_rva", c_uint32),
        ("rva", c_uint32),
        ("has_section_offset", c_uint32),
        ("section_offset", SectionOffset),
        ("has_internal_rva", c_uint32),
        ("internal_rva", c_uint32),
        ("has_internal_section_offset", c_uint32),
        ("internal_section_offset", SectionOffset),
    ]


class Frame(Structure):
    _fields_ = [
        ("kind", c_uint32),
        ("code_start", c_uint32),
        ("code_size", c_uint32),
        ("locals_size", c_uint32),
        ("params_size", c_uint32),
        ("prolog_size", c_uint32),
        ("saved_regs_size", c_uint32),
        ("has_max_stack_size", c_uint32),
        ("max_stack_size", c_uint32),
        ("has_structured_eh", c_uint32),
        ("has_cpp_eh", c_uint32),
        ("is_function_start", c_uint32),
        ("uses_base_pointer", c_uint32),
        ("has_program", c_uint32),
        ("program", c_uint32),
    ]


class IndexRange(Structure):
    _fields_ = [
        ("first", c_uint32),
        ("end", c_uint32),
    ]


class Record(Structure):
    _fields_ = [
        ("index", c_uint32),
        ("offset", c_uint32),
        ("length", c_uint32),
    ]


class FoundRecord(Structure):
    _fields_ = [
        ("position", Record),
        ("fault", Fault),
    ]


class Row(Structure):
    _fields_ = [
        ("shape", c_uint32),
        ("has", c_uint32),
        ("number", c_uint64),
        ("kind", c_uint32),
        ("attributes", c_uint32),
        ("properties", c_uint32),
        ("count", c_uint32),
        ("type_index", c_uint32),
        ("second_index", c_uint32),
        ("third_index", c_uint32),
        ("list_index", c_uint32),
        ("extra", c_uint32),
    ]


class Type(Structure):
    _fields_ = [
        ("position", Record),
        ("fault", Fault),
        ("info", Row),
    ]


class Field(Structure):
    _fields_ = [
        ("info", Row),
        ("name_offset", c_size_t),
        ("name_length", c_size_t),
        ("has_name", c_uint32),
    ]


class LayoutRow(Structure):
    _fields_ = [
        ("offset", c_uint64),
        ("size", c_uint64),
        ("name_offset", c_size_t),
        ("name_length", c_size_t),
        ("kind", c_uint32),
        ("extent", c_uint32),
        ("bit", c_uint32),
        ("bits", c_uint32),
        ("type_index", c_uint32),
        ("base_class", c_uint32),
        ("base_position", c_uint32),
        ("is_direct", c_uint32),
    ]


# The place in a Row of each number of a structure of pdb_type_info, by its name there.
NUMBERS = {
    "row": {"number": 2, "kind": 3, "attributes": 4, "properties": 5, "count": 6, "type_index": 7, "second_index": 8, "third_index": 9, "list_index": 10, "extra": 11},
    "class_type": {"size": 2, "kind": 3, "properties": 5, "count": 6, "derived_from": 8, "vtable_shape": 9, "fields": 10},
    "member": {"offset": 2, "attributes": 4, "field_type": 7},
    "member_function": {"attributes": 4, "parameter_count": 6, "return_type": 7, "class_type": 8, "this_pointer_type": 9, "argument_list": 10, "this_adjustment": 11},
    "overloaded_method": {"count": 6, "method_list": 10},
    "method": {"attributes": 4, "method_type": 7, "vtable_offset": 11},
    "static_member": {"attributes": 4, "field_type": 7},
    "nested": {"attributes": 4, "nested_type": 7},
    "base_class": {"offset": 2, "kind": 3, "attributes": 4, "base_class": 7},
    "virtual_base_class": {"base_pointer_offset": 2, "is_direct": 3, "attributes": 4, "base_class": 7, "base_pointer": 8, "virtual_base_offset": 11},
    "virtual_function_table_pointer": {"table": 7},
    "procedure": {"attributes": 4, "parameter_count": 6, "return_type": 7, "argument_list": 10},
    "pointer": {"attributes": 4, "underlying_type": 7, "containing_class": 8},
    "modifier": {"modifiers": 3, "underlying_type": 7},
    "enumeration": {"properties": 5, "count": 6, "underlying_type": 7, "fields": 10},
    "enumerate": {"value": 2, "is_signed": 3, "attributes": 4, "width": 6},
    "array": {"element_type": 7, "indexing_type": 8, "stride": 11},
    "union_type": {"size": 2, "properties": 5, "count": 6, "fields": 10},
    "bitfield": {"length": 6, "underlying_type": 7, "position": 11},
    "field_list": {"continuation": 10},
    "virtual_table_shape": {"count": 6},
    "function_id": {"function_type": 7, "scope": 8},
    "member_function_id": {"function_type": 7, "parent": 9},
    "string_id": {"substrings": 10},
    "type_source_id": {"file_name": 2, "udt": 7, "file_id": 8, "module": 9, "line": 11},
}

# The name of each primitive type in C++, by its kind.
PRIMITIVES = {
    0x00: "<no type>",
    0x03: "void",
    0x08: "HRESULT",
    0x10: "signed char",
    0x11: "short",
    0x12: "long",
    0x13: "__int64",
    0x14: "__int128",
    0x20: "unsigned char",
    0x21: "unsigned short",
    0x22: "unsigned long",
    0x23: "unsigned __int64",
    0x24: "unsigned __int128",
    0x30: "bool",
    0x31: "__bool16",
    0x32: "__bool32",
    0x33: "__bool64",
    0x40: "float",
    0x41: "double",
    0x42: "long double",
    0x43: "__float128",
    0x44: "__float48",
    0x45: "float",
    0x46: "__half",
    0x50: "_Complex float",
    0x51: "_Complex double",
    0x52: "_Complex long double",
    0x53: "_Complex __float128",
    0x68: "__int8",
    0x69: "unsigned __int8",
    0x70: "char",
    0x71: "wchar_t",
    0x72: "__int16",
    0x73: "unsigned __int16",
    0x74: "int",
    0x75: "unsigned int",
    0x76: "__int64",
    0x77: "unsigned __int64",
    0x78: "__int128",
    0x79: "unsigned __int128",
    0x7a: "char16_t",
    0x7b: "char32_t",
}

# The result and the parameters of each call. A pointer is an address.
FUNCTIONS = {
    "pdb_version": (c_uint32, []),
    "pdb_fault_text": (c_uint32, [c_void_p, c_void_p, c_size_t, c_void_p]),
    "pdb_handle_close": (None, [c_void_p]),
    "pdb_format_of": (c_uint32, [c_void_p, c_size_t]),
    "pdb_validate": (c_uint32, [c_void_p, c_size_t, c_uint32, c_void_p, c_size_t, c_void_p]),
    "pdb_file_open": (c_uint32, [c_void_p, c_size_t, c_void_p]),
    "pdb_file_sizes": (c_uint32, [c_void_p, c_void_p]),
    "pdb_file_stream_size": (c_uint32, [c_void_p, c_uint32, c_void_p]),
    "pdb_file_stream": (c_uint32, [c_void_p, c_uint32, c_size_t, c_void_p, c_size_t, c_void_p]),
    "pdb_file_named_stream": (c_uint32, [c_void_p, c_void_p, c_size_t, c_void_p, c_size_t, c_void_p]),
    "pdb_file_stream_names": (c_uint32, [c_void_p, c_void_p, c_size_t, c_void_p, c_void_p, c_size_t, c_void_p]),
    "pdb_file_roles": (c_uint32, [c_void_p, c_void_p]),
    "pdb_file_identity": (c_uint32, [c_void_p, c_void_p]),
    "pdb_key": (c_uint32, [c_void_p, c_uint32, c_void_p, c_size_t, c_void_p]),
    "pdb_names_open": (c_uint32, [c_void_p, c_void_p]),
    "pdb_names_get": (c_uint32, [c_void_p, c_uint32, c_void_p, c_size_t, c_void_p]),
    "pdb_names_places": (c_uint32, [c_void_p, c_void_p, c_size_t, c_void_p, c_size_t, c_void_p]),
    "pdb_omap_open": (c_uint32, [c_void_p, c_uint32, c_void_p]),
    "pdb_omap_records": (c_uint32, [c_void_p, c_void_p, c_size_t, c_void_p]),
    "pdb_omap_is_sorted": (c_uint32, [c_void_p, c_void_p]),
    "pdb_omap_lookup": (c_uint32, [c_void_p, c_uint32, c_void_p]),
    "pdb_omap_ranges": (c_uint32, [c_void_p, c_uint32, c_uint32, c_void_p, c_size_t, c_void_p]),
    "pdb_file_sections": (c_uint32, [c_void_p, c_uint32, c_void_p, c_size_t, c_void_p]),
    "pdb_address_map_open": (c_uint32, [c_void_p, c_void_p]),
    "pdb_translate": (c_uint32, [c_void_p, c_uint32, c_uint16, c_uint32, c_void_p]),
    "pdb_address_ranges": (c_uint32, [c_void_p, c_uint32, c_uint32, c_uint32, c_void_p, c_size_t, c_void_p]),
    "pdb_frames_open": (c_uint32, [c_void_p, c_void_p]),
    "pdb_frames_at": (c_uint32, [c_void_p, c_uint32, c_void_p]),
    "pdb_frames_list": (c_uint32, [c_void_p, c_void_p, c_size_t, c_void_p]),
    "pdb_types_open": (c_uint32, [c_void_p, c_uint32, c_void_p]),
    "pdb_types_range": (c_uint32, [c_void_p, c_void_p]),
    "pdb_types_find": (c_uint32, [c_void_p, c_void_p, c_size_t, c_void_p, c_size_t, c_void_p]),
    "pdb_types_read": (c_uint32, [c_void_p, c_void_p, c_size_t, c_void_p]),
    "pdb_types_rewind": (c_uint32, [c_void_p]),
    "pdb_type_parse": (c_uint32, [c_void_p, c_uint32, c_void_p]),
    "pdb_type_record": (c_uint32, [c_void_p, c_uint32, c_void_p, c_size_t, c_void_p]),
    "pdb_type_name": (c_uint32, [c_void_p, c_uint32, c_void_p, c_size_t, c_void_p]),
    "pdb_type_unique_name": (c_uint32, [c_void_p, c_uint32, c_void_p, c_size_t, c_void_p]),
    "pdb_type_numbers": (c_uint32, [c_void_p, c_uint32, c_void_p, c_size_t, c_void_p]),
    "pdb_type_methods": (c_uint32, [c_void_p, c_uint32, c_void_p, c_size_t, c_void_p]),
    "pdb_type_fields": (c_uint32, [c_void_p, c_uint32, c_uint32, c_void_p, c_size_t, c_void_p, c_void_p, c_size_t, c_void_p]),
    "pdb_enumerator_typed": (None, [c_void_p, c_uint32]),
    "pdb_types_named": (c_uint32, [c_void_p, c_void_p, c_size_t, c_void_p, c_size_t, c_void_p]),
    "pdb_type_definition": (c_uint32, [c_void_p, c_uint32, c_void_p]),
    "pdb_type_size": (c_uint32, [c_void_p, c_uint32, c_void_p]),
    "pdb_type_text": (c_uint32, [c_void_p, c_uint32, c_void_p, c_size_t, c_void_p, c_size_t, c_void_p]),
    "pdb_type_layout": (c_uint32, [c_void_p, c_uint32, c_void_p, c_size_t, c_void_p, c_void_p, c_size_t, c_void_p]),
}
