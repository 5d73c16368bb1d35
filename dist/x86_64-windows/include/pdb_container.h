/* Program databases (PDB): streams, names, addresses, frames, types, their layouts, and ids.
 *
 * Every call that can fail returns a status of enum pdb_status. A call on a handle also leaves it
 * in the handle, as `handle.fault`, with the numbers that go with it; a call that opens a handle
 * leaves it there. pdb_fault_text gives the text of a fault in English.
 *
 * A call that writes an array takes the array, its length, and where to put the length of the
 * answer. Ask for the length, then fill:
 *
 *     size_t length = 0;
 *     uint32_t status = pdb_type_name(&types, index, NULL, 0, &length);
 *     char *name = malloc(length + 1);
 *     if (status == PDB_TOO_SMALL && name)
 *         status = pdb_type_name(&types, index, name, length + 1, &length);
 *
 * A text, in an array of char, has a NUL at its end, for which the array needs room too; its length
 * doesn't count the NUL. With PDB_TOO_SMALL nothing is written but the length, which is exact. With
 * PDB_OK the answer is at the start of the array, and the items after it are unchanged. With any
 * other status, lengths are 0, and arrays, structures and numbers are unchanged. pdb_types_read has
 * no length to ask for: it writes as many records as there is room for, also before PDB_END or an
 * error. To ask costs as much as to fill, except where a call says so.
 *
 * The caller must ensure the following, which nothing checks:
 * - A pointer points to as many items as its length says. It may be null if that is 0. In C and C++
 *   the place for the length of an answer may be null too, and so may what pdb_close and
 *   pdb_file_close are given. No other pointer is null. What a call writes does not overlap
 *   anything else that it is given.
 * - A handle, such as a pdb_file, is all zero before it is first opened. It is not copied. It may
 *   move in memory and to another thread, but two threads never use one handle at once. Different
 *   handles, and calls without one, share nothing.
 * - The bytes that a file is opened with stay where they are until the file is closed, and do not
 *   change during a call. A call after a change reads the changed bytes.
 * - A structure that a call writes is initialized before, such as with = {0}.
 * - malloc, realloc and free belong to one allocator, which aligns a block as C libraries do: at
 *   least to the largest power of two up to 16 that divides its size. No call is made from a signal
 *   handler, nor in the child of a fork of a process with threads.
 *
 * Versions: while the major number is 0, structures and calls change only with the minor number, so
 * compare pdb_version() / 100 with PDB_VERSION / 100. With the patch number, calls and constants
 * may be added. */
#ifndef PDB_CONTAINER_H
#define PDB_CONTAINER_H

#include <stddef.h>
#include <stdint.h>

#ifdef __cplusplus
extern "C" {
#endif

/* The version of this header, as pdb_version returns that of the library: 10,000 times the major
 * number, plus 100 times the minor one, plus the patch. */
#define PDB_VERSION 200
uint32_t pdb_version(void);

/* ---- how a call ends */

/* How a call ended. */
enum pdb_status {
    PDB_OK = 0,

    /* Errors of the file. In brackets is what `first` is, which otherwise is 0; `second` is 0. */
    PDB_UNRECOGNIZED_FILE_FORMAT = 1,       /* the file has no known magic, or fewer than 4096
                                               bytes */
    PDB_PAGE_REFERENCE_OUT_OF_RANGE = 2,    /* a page number is 0, or above the number of used pages
                                               [the page] */
    PDB_INVALID_PAGE_SIZE = 3,              /* the page size is no power of two from 256 to
                                               8,388,608 [the size] */
    PDB_STREAM_NOT_FOUND = 4,               /* there is no such stream [its number] */
    PDB_STREAM_NAME_NOT_FOUND = 5,          /* no stream has this name */
    PDB_INVALID_STREAM_LENGTH = 6,          /* not a multiple of the length of its records [which
                                               stream: pdb_fault_text says it] */
    PDB_IO_ERROR = 7,                       /* the file ends too soon [always 1] */
    PDB_UNEXPECTED_EOF = 8,                 /* the bytes end before the value that is to be read
                                               from them does */
    PDB_UNIMPLEMENTED_FEATURE = 9,          /* a part of the format that is not read [which:
                                               pdb_fault_text says it] */
    PDB_INVALID_TYPE_INFORMATION_HEADER = 13, /* [what is wrong: pdb_fault_text says it] */
    PDB_TYPE_TOO_SHORT = 14,                /* an item's length leaves no room for its kind */
    PDB_TYPE_NOT_FOUND = 15,                /* [the index] */
    PDB_UNIMPLEMENTED_TYPE_KIND = 17,       /* [the kind] */
    PDB_UNEXPECTED_NUMERIC_PREFIX = 20,     /* a number begins with a prefix that announces no width
                                               [the prefix] */
    PDB_ADDRESS_MAP_NOT_FOUND = 21,         /* the file has no section headers */

    PDB_OUT_OF_MEMORY = 28, /* an allocation failed */

    /* Misuse by the caller, and statuses of calls without a result. */
    PDB_ALREADY_OPEN = 100, /* the handle holds something already */
    PDB_NOT_OPEN = 101,     /* the handle holds nothing */
    PDB_TOO_SMALL = 102,    /* the array has no room for the answer */
    PDB_NO_TEXT = 104,      /* pdb_fault_text has no text for the fault */
    PDB_END = 105,          /* the walk is at its end */
    PDB_NONE = 106,         /* there is no such value */
    PDB_UNMAPPED = 107      /* the table moves the address nowhere */
};

/* How a call ended: a status, and the numbers that go with it. */
typedef struct pdb_fault {
    uint32_t status;
    uint32_t first;
    uint32_t second;
} pdb_fault;

/* Copies the text of a fault in English, with its numbers. The status is PDB_NO_TEXT for a status
 * that is none of enum pdb_status, and where the text would say what a number stands for that does
 * not go with the status. */
uint32_t pdb_fault_text(const pdb_fault *fault, char *buffer, size_t buffer_length, size_t *length);

/* ---- handles */

/* What every handle has. One that is all zero holds nothing. */
typedef struct pdb_handle {
    void *held;
    uint32_t kind;
    pdb_fault fault; /* how the last call on it ended */
} pdb_handle;

/* A file, whose bytes stay with the caller: its header and its directory are kept. */
typedef struct pdb_file {
    pdb_handle handle;
    const uint8_t *bytes;
    size_t length;
} pdb_file;

/* A string table. */
typedef struct pdb_names {
    pdb_handle handle;
} pdb_names;

/* An OMAP table, which says where the addresses of an image are moved. */
typedef struct pdb_omap {
    pdb_handle handle;
} pdb_omap;

/* An address map: the sections of an image, and the OMAP tables of a tool that rearranged it. */
typedef struct pdb_address_map {
    pdb_handle handle;
} pdb_address_map;

/* A table of frames. */
typedef struct pdb_frames {
    pdb_handle handle;
} pdb_frames;

/* A table of types or of ids, a walk along it, and the definitions of its types once they are asked
 * for. */
typedef struct pdb_types {
    pdb_handle handle;
} pdb_types;

/* Closes a handle, which isn't null, as pdb_close does. */
void pdb_handle_close(pdb_handle *handle);

/* Closes a handle of any kind but a file, such as &types.handle, and frees what it held. Null, and
 * a handle that holds nothing, are left alone. What was opened from a file may be used when the
 * file is closed. */
static inline void pdb_close(pdb_handle *handle) {
    if (handle) pdb_handle_close(handle);
}

/* Closes a file in the same way. */
static inline void pdb_file_close(pdb_file *file) {
    if (!file) return;
    pdb_handle_close(&file->handle);
    file->bytes = NULL;
    file->length = 0;
}

/* ---- which format it is, from the first bytes */

/* The formats that are told apart by the first bytes of a file. */
enum pdb_format {
    PDB_FORMAT_UNKNOWN = 0,
    PDB_FORMAT_MSF_7 = 1,      /* a program database of version 7.00, which this library reads */
    PDB_FORMAT_MSF_2 = 2,      /* one of version 2.00 */
    PDB_FORMAT_PORTABLE = 3,   /* a portable program database, of .NET */
    PDB_FORMAT_COMPRESSED = 4, /* a cabinet, in which symbol servers keep a compressed file */
    PDB_FORMAT_IMAGE = 5       /* a program or a library */
};

/* Returns the format that the first bytes of a file show, a value of enum pdb_format. It needs no
 * more than the first 42 bytes. */
uint32_t pdb_format_of(const uint8_t *file, size_t file_length);

/* ---- whether a file is whole */

/* The parts of a file. */
enum pdb_part {
    PDB_PART_HEADER = 0,
    PDB_PART_DIRECTORY = 1,
    PDB_PART_SIZES = 2,        /* the sizes of the directory and of the streams */
    PDB_PART_STREAM = 3,       /* the bytes of a stream */
    PDB_PART_NAMES = 4,        /* the names of streams, in stream 1 */
    PDB_PART_STRING_TABLE = 5, /* the stream /names */
    PDB_PART_ROLES = 6,        /* the header of stream 3 and the roles of streams */
    PDB_PART_TYPES = 7,
    PDB_PART_IDS = 8,
    PDB_PART_SECTION_HEADERS = 9,
    PDB_PART_ORIGINAL_SECTION_HEADERS = 10,
    PDB_PART_OMAP_TO_SOURCE = 11,
    PDB_PART_OMAP_FROM_SOURCE = 12,
    PDB_PART_OLD_FRAMES = 13,
    PDB_PART_NEW_FRAMES = 14
};

/* What can be inconsistent in a file whose parts can be read. The brackets say what `number` is. */
enum pdb_inconsistency {
    PDB_NO_INCONSISTENCY = 0,      /* the part can't be read, for the reason in `fault` */
    PDB_DIRECTORY_TOO_LARGE = 1,   /* the directory is larger than the file */
    PDB_STREAMS_TOO_LARGE = 2,     /* the streams together are larger than the file */
    PDB_OUT_OF_ORDER = 3,          /* sources of OMAP records decrease, or starts of frames do not
                                      increase */
    PDB_PAGE_SHARED = 4,           /* a page has two owners [the page] */
    PDB_PAGE_FREE = 5,             /* a page is in use and marked as free; a warning [the page] */
    PDB_STREAM_MISSING = 6,        /* a stream that is named or numbered is missing [its number] */
    PDB_DEBUG_SIZES = 7,           /* the parts of stream 3 do not add up to its size */
    PDB_REFERENCE_NOT_BELOW = 8,   /* a record refers to an index that is not below its own [it] */
    PDB_RECORD_UNALIGNED = 9,      /* a record takes no multiple of four bytes; a warning */
    PDB_KIND_NOT_READ = 10,        /* a record kind that is not read; a warning [the kind] */
    PDB_HASH_COUNT = 11,           /* not as many hash values as records [the hash values] */
    PDB_HASH_TOO_LARGE = 12,       /* a hash value that is not below the number of buckets [it] */
    PDB_INDEX_OFFSET = 13,         /* a stored offset is not that of its record [the index] */
    PDB_BUCKETS_CUT = 14,          /* the string table ends before its buckets do */
    PDB_NAME_OFFSET = 15,          /* a bucket's offset at which no name begins [the offset] */
    PDB_NAME_COUNT = 16,           /* the count of names is not that in the buckets [the count] */
    PDB_SECTIONS_OVERLAP = 17,     /* a section begins below the end of the one before it */
    PDB_FREE_PAGE_MAP = 18,        /* the free page map is neither 1 nor 2 [its number] */
    PDB_PAGE_COUNT = 19,           /* more pages are in use than the file has [their number] */
    PDB_UNKNOWN_VERSION = 20,      /* stream 1, stream 3 or a table has an unknown version [it] */
    PDB_UNKNOWN_MACHINE = 21,      /* an unknown machine; a warning [its number] */
    PDB_NAMED_STREAM_COUNT = 22,   /* the count of stream names is not that of the bits [it] */
    PDB_RECORD_BYTES = 23,         /* the records do not end where the header says [the field] */
    PDB_HASH_SIZE = 24,            /* an impossible size of hashes or count of buckets [it] */
    PDB_NO_HASH_STREAM = 25,       /* records without a hash stream; a warning */
    PDB_HASH_PART = 26,            /* a part does not fit the hash stream [its size] */
    PDB_NAME_UNREACHED = 27,       /* the hash of a name leads to another bucket [the offset] */
    PDB_MODULE_CUT = 28,           /* a module's entry ends behind the list of modules */
    PDB_MODULE_SIZES = 29,         /* a module takes more bytes than its stream has [its number] */
    PDB_SYMBOL_HASH_VERSION = 30,  /* no signature or version of a hash table of symbols [it] */
    PDB_SYMBOL_HASH_SIZES = 31,    /* a hash table of symbols does not have the size it says */
    PDB_PUBLIC_SIZES = 32,         /* the parts of the publics do not add up to their stream */
    PDB_SYMBOL_CUT = 33            /* the record of a symbol ends behind its stream */
};

/* What is wrong in a part of a file, and where. */
typedef struct pdb_finding {
    uint64_t index;     /* the index of the record */
    uint64_t byte;      /* the offset in the stream; for a record, that of the two-byte length
                           before it */
    uint64_t file_byte; /* that byte's place in the file */
    uint32_t part;      /* a value of enum pdb_part */
    uint32_t has_stream; /* each flag is 0 or 1; if it is 0, so is its number */
    uint32_t stream;
    uint32_t has_index;
    uint32_t has_byte;
    uint32_t has_file_byte;
    uint32_t is_warning;    /* 1 if known tools write it too, so that the file still is whole */
    uint32_t inconsistency; /* a value of enum pdb_inconsistency */
    uint32_t number;        /* the number that goes with it */
    pdb_fault fault;        /* why the part can't be read; its status is PDB_OK if it can */
} pdb_finding;

/* Writes what is wrong in a file. If `every` is 0, this is the first error of each part, or its
 * first warning if it has no error; otherwise it is everything. The file is whole exactly if no
 * finding is an error. That is about its types, ids, names, sections, addresses and frames; modules
 * and symbols are not read, only their sizes are checked. Each call reads the whole file, so
 * pass an array that is likely to be long enough at once. */
uint32_t pdb_validate(const uint8_t *bytes, size_t bytes_length, uint32_t every,
                      pdb_finding *findings, size_t findings_length, size_t *length);

/* ---- the streams of a file */

/* Streams whose numbers are fixed, and the number that stands for none. */
enum pdb_stream_number { PDB_TYPES = 2, PDB_IDS = 4, PDB_NO_STREAM = 0xffff };

/* Opens a file: reads its header and its directory. The bytes are not copied. The calls that take a
 * file end with PDB_NOT_OPEN if it isn't open. */
uint32_t pdb_file_open(const uint8_t *bytes, size_t bytes_length, pdb_file *file);

/* The sizes in a file. */
typedef struct pdb_sizes {
    uint32_t page_size;    /* in bytes, a power of two from 256 to 8,388,608 */
    uint32_t stream_count; /* how many streams the directory has, including absent ones: their
                              numbers are those below this count */
} pdb_sizes;

/* Writes the sizes in a file. */
uint32_t pdb_file_sizes(pdb_file *file, pdb_sizes *sizes);

/* Writes the size of a stream in bytes, as the directory gives it. The status is
 * PDB_STREAM_NOT_FOUND if the stream is absent. Whether the stream's pages hold that many bytes is
 * checked only when the stream is copied. */
uint32_t pdb_file_stream_size(pdb_file *file, uint32_t number, uint32_t *size);

/* Copies the bytes of a stream, at most `limit` of them. The limit may be SIZE_MAX. The length is
 * that in the directory, so to ask for it reads nothing of the stream, unless the file has fewer
 * bytes than that. */
uint32_t pdb_file_stream(pdb_file *file, uint32_t number, size_t limit, uint8_t *buffer,
                         size_t buffer_length, size_t *length);

/* Copies the bytes of the first stream with this name, such as "/names". To ask for the length
 * reads nothing of it, as with pdb_file_stream. */
uint32_t pdb_file_named_stream(pdb_file *file, const char *name, size_t name_length,
                               uint8_t *buffer, size_t buffer_length, size_t *length);

/* A stream that has a name, and where its name is among the names. */
typedef struct pdb_named_stream {
    size_t name_offset;
    size_t name_length;
    uint32_t number; /* PDB_NO_STREAM if the file gives no stream for the name */
} pdb_named_stream;

/* Writes the streams that have names, in the order in which the file lists them, and their names,
 * each with a NUL at its end. The status is PDB_UNIMPLEMENTED_FEATURE if the names together have
 * more bytes than the file. That can only be if names overlap. */
uint32_t pdb_file_stream_names(pdb_file *file, pdb_named_stream *rows, size_t rows_length,
                               size_t *count, char *names, size_t names_length, size_t *size);

/* The numbers of the streams in eleven roles, each PDB_NO_STREAM if the file has no such stream. */
typedef struct pdb_roles {
    uint16_t fpo;
    uint16_t exception;
    uint16_t fixup;
    uint16_t omap_to_src;
    uint16_t omap_from_src;
    uint16_t section_headers;
    uint16_t token_rid_map;
    uint16_t xdata;
    uint16_t pdata;
    uint16_t framedata;
    uint16_t original_section_headers;
} pdb_roles;

/* Writes the numbers of the streams in their roles. */
uint32_t pdb_file_roles(pdb_file *file, pdb_roles *roles);

/* What identifies a file. */
typedef struct pdb_identity {
    uint32_t version;          /* the version of the format, such as 20000404 for version 7 */
    uint32_t signature;        /* when the file was made, in seconds since 1970, or a hash */
    uint32_t age;              /* the age in the key: debug_age, or information_age if there is no
                                  debug information */
    uint32_t information_age;  /* the age in stream 1: how often the file was written */
    uint32_t has_debug_header; /* whether there is debug information, 0 or 1; if not, as in the
                                  file of a type server, the next three numbers are 0 */
    uint32_t debug_age;        /* the age of the debug information, in stream 3 */
    uint16_t machine;          /* as in the header of an image, such as 0x8664 for x86-64 */
    uint16_t flags;            /* values of enum pdb_identity_flag, added up */
    uint8_t guid[16];          /* the bytes as they stand in the file, and in the image's debug
                                  directory */
    uint32_t has_features;     /* 1 if the features can be found; 0 if the table of stream names
                                  before them is cut, and then the next number is 0 */
    uint32_t features;         /* values of enum pdb_feature, added up */
} pdb_identity;

/* What the debug information says of the file. */
enum pdb_identity_flag {
    PDB_LINKED_INCREMENTALLY = 1,
    PDB_PRIVATE_SYMBOLS_STRIPPED = 2,
    PDB_TYPES_MAY_CONFLICT = 4
};

/* The features that the file tells of itself, in the numbers after the stream names in stream 1. If
 * VC110 is among them, those behind it are not read. */
enum pdb_feature {
    PDB_FEATURE_VC110 = 1,         /* in the format of Visual C++ 11, with a table of ids */
    PDB_FEATURE_VC140 = 2,         /* in the format of Visual C++ 14, with a table of ids */
    PDB_FEATURE_NO_TYPE_MERGE = 4, /* the types of the object files are not merged */
    PDB_FEATURE_MINIMAL = 8        /* minimal debug information, as /DEBUG:FASTLINK makes it: the
                                      rest is in the object files */
};

/* Writes what identifies a file. It reads streams 1 and 3 alone. */
uint32_t pdb_file_identity(pdb_file *file, pdb_identity *identity);

/* The forms of a key. */
enum pdb_key_form {
    PDB_KEY_UPPER = 0, /* as symbol stores and Breakpad have it: the GUID and then the age, in
                          hexadecimal digits, in upper case */
    PDB_KEY_LOWER = 1, /* the same in lower case, as SSQP has it */
    PDB_KEY_GUID = 2   /* the GUID alone, in upper case and with hyphens */
};

/* Copies the key under which a symbol server stores a file, of at most 40 bytes. The form is a
 * value of enum pdb_key_form; for any other, the status is PDB_NONE. */
uint32_t pdb_key(const pdb_identity *identity, uint32_t form, char *buffer, size_t buffer_length,
                 size_t *length);

/* ---- names */

/* Opens the string table of a file, which is the stream named "/names". */
uint32_t pdb_names_open(pdb_file *file, pdb_names *names);

/* Copies the name at an offset. The first name is at offset 0, and each later one begins right
 * after the NUL of the name before it; an offset within a name gives the rest of the name. The
 * status is PDB_UNEXPECTED_EOF if no NUL follows. */
uint32_t pdb_names_get(pdb_names *names, uint32_t offset, char *buffer, size_t buffer_length,
                       size_t *length);

/* Where a name is in the stream named "/names": how many bytes of the stream are before it, and how
 * many bytes it has without its NUL. */
typedef struct pdb_name {
    size_t offset;
    size_t length;
} pdb_name;

/* Writes where the name at each of some offsets is, in their order, or zeros if no name is there.
 * For many names, with the bytes of the stream at hand, it takes less time than pdb_names_get for
 * each. */
uint32_t pdb_names_places(pdb_names *names, const uint32_t *offsets, size_t offsets_length,
                          pdb_name *places, size_t places_length, size_t *length);

/* ---- addresses */

/* Opens the OMAP table in a stream of a file, such as that of the role omap_from_src. */
uint32_t pdb_omap_open(pdb_file *file, uint32_t number, pdb_omap *omap);

/* A record of an OMAP table, which moves the addresses from its source up to the next record's. */
typedef struct pdb_omap_record {
    uint32_t source;
    uint32_t target; /* 0 if it moves them nowhere */
} pdb_omap_record;

/* Writes the records of a table, in their order. */
uint32_t pdb_omap_records(pdb_omap *omap, pdb_omap_record *records, size_t records_length,
                          size_t *length);

/* Writes 1 if no record has a source below that of the record before it, and 0 if one has. */
uint32_t pdb_omap_is_sorted(pdb_omap *omap, uint32_t *is_sorted);

/* Writes the address to which a table moves an address. The status is PDB_UNMAPPED if the table
 * moves it nowhere. If the table isn't sorted, the answer may come from whichever record has its
 * source at or below the address, or be PDB_UNMAPPED. */
uint32_t pdb_omap_lookup(pdb_omap *omap, uint32_t address, uint32_t *target);

/* A range of addresses, its end excluded. */
typedef struct pdb_span {
    uint32_t start;
    uint32_t end;
} pdb_span;

/* Writes the ranges to which a table moves the addresses of a range: one for each record that moves
 * some of them. This needn't hold if the table isn't sorted. */
uint32_t pdb_omap_ranges(pdb_omap *omap, uint32_t start, uint32_t end, pdb_span *spans,
                         size_t spans_length, size_t *length);

/* The header of a section. */
typedef struct pdb_section {
    uint8_t name[8];
    uint32_t virtual_size;
    uint32_t virtual_address;
    uint32_t size_of_raw_data;
    uint32_t pointer_to_raw_data;
    uint32_t pointer_to_relocations;
    uint32_t pointer_to_line_numbers;
    uint16_t number_of_relocations;
    uint16_t number_of_line_numbers;
    uint32_t characteristics; /* of PDB_SECTION_*, as the PE format has IMAGE_SCN_* */
} pdb_section;

#define PDB_SECTION_TYPE_NO_PAD UINT32_C(0x00000008)
#define PDB_SECTION_CODE UINT32_C(0x00000020)
#define PDB_SECTION_INITIALIZED_DATA UINT32_C(0x00000040)
#define PDB_SECTION_UNINITIALIZED_DATA UINT32_C(0x00000080)
#define PDB_SECTION_LINK_OTHER UINT32_C(0x00000100)
#define PDB_SECTION_LINK_INFO UINT32_C(0x00000200)
#define PDB_SECTION_LINK_REMOVE UINT32_C(0x00000800)
#define PDB_SECTION_LINK_COMDAT UINT32_C(0x00001000)
#define PDB_SECTION_GP_RELATIVE UINT32_C(0x00008000)
#define PDB_SECTION_ALIGN_MASK UINT32_C(0x00f00000)
#define PDB_SECTION_LINK_RELOCATIONS_OVERFLOW UINT32_C(0x01000000)
#define PDB_SECTION_DISCARDABLE UINT32_C(0x02000000)
#define PDB_SECTION_NOT_CACHED UINT32_C(0x04000000)
#define PDB_SECTION_NOT_PAGED UINT32_C(0x08000000)
#define PDB_SECTION_SHARED UINT32_C(0x10000000)
#define PDB_SECTION_EXECUTE UINT32_C(0x20000000)
#define PDB_SECTION_READ UINT32_C(0x40000000)
#define PDB_SECTION_WRITE UINT32_C(0x80000000)

/* Writes the headers of the sections that a stream of a file holds, such as that of the role
 * section_headers. */
uint32_t pdb_file_sections(pdb_file *file, uint32_t number, pdb_section *sections,
                           size_t sections_length, size_t *length);

/* Opens the address map of a file. */
uint32_t pdb_address_map_open(pdb_file *file, pdb_address_map *map);

/* An address as a section of an image and an offset in it. Sections are counted from 1. */
typedef struct pdb_section_offset {
    uint32_t offset;
    uint32_t section;
} pdb_section_offset;

/* The forms of an address. An RVA is an address in the image as it is loaded, and an internal RVA
 * is one in the original image, to which the parts of a program database refer. */
enum pdb_address_form {
    PDB_RVA = 0,
    PDB_SECTION_OFFSET = 1,
    PDB_INTERNAL_RVA = 2,
    PDB_INTERNAL_SECTION_OFFSET = 3
};

/* The four forms of an address. A form that doesn't exist is 0, and so is its flag. */
typedef struct pdb_translation {
    uint32_t has_rva;
    uint32_t rva;
    uint32_t has_section_offset;
    pdb_section_offset section_offset;
    uint32_t has_internal_rva;
    uint32_t internal_rva;
    uint32_t has_internal_section_offset;
    pdb_section_offset internal_section_offset;
} pdb_translation;

/* Writes the four forms of an address. `form` is the form that is given, a value of enum
 * pdb_address_form; for any other, the status is PDB_NONE. For an RVA, `offset` is the address, and
 * `section` doesn't count. If an OMAP table isn't sorted, the forms in the other image come from
 * some record at or below the address, or don't exist. */
uint32_t pdb_translate(pdb_address_map *map, uint32_t form, uint16_t section, uint32_t offset,
                       pdb_translation *translation);

/* Writes where the addresses of a range of one image lie in the other. With the form
 * PDB_INTERNAL_RVA the range is one of the original image, and with PDB_RVA it is one of the image
 * as it is loaded; for any other form, the status is PDB_NONE. Laid end to end, the ranges are what
 * pdb_translate gives for each address in turn, without the addresses that go nowhere or to
 * 0xffffffff. This needn't hold if the OMAP table isn't sorted. */
uint32_t pdb_address_ranges(pdb_address_map *map, uint32_t form, uint32_t start, uint32_t end,
                            pdb_span *spans, size_t spans_length, size_t *length);

/* ---- frames */

/* The kinds of frames, by the numbers of StackFrameTypeEnum; any other is unknown. */
enum pdb_frame_kind {
    PDB_FRAME_FPO = 0,
    PDB_FRAME_TRAP = 1,
    PDB_FRAME_TSS = 2,
    PDB_FRAME_STANDARD = 3,
    PDB_FRAME_DATA = 4,
    PDB_FRAME_UNKNOWN = 255
};

/* What a stack walker needs to know about the frame of a piece of code. Each flag is 0 or 1. */
typedef struct pdb_frame {
    uint32_t kind;       /* a value of enum pdb_frame_kind */
    uint32_t code_start; /* the address of the first byte of the code, in the original image */
    uint32_t code_size;
    uint32_t locals_size;
    uint32_t params_size;
    uint32_t prolog_size;
    uint32_t saved_regs_size;
    uint32_t has_max_stack_size;
    uint32_t max_stack_size;
    uint32_t has_structured_eh;
    uint32_t has_cpp_eh;
    uint32_t is_function_start;
    uint32_t uses_base_pointer;
    uint32_t has_program;
    uint32_t program; /* the offset of its unwind program in the string table, or 0 */
} pdb_frame;

/* Opens the frame table of a file. */
uint32_t pdb_frames_open(pdb_file *file, pdb_frames *frames);

/* Writes the frame for an address of the original image. A file has up to two streams of frames,
 * one in an old format and one in a new one. Each is searched for the frame that starts at the
 * address; or else for the last one that starts below it, if its code contains the address; or else
 * for the first above it. If frames are found in both, the one with the lower start is written. So
 * compare code_start and code_size with the address. The status is PDB_NONE if there is none. If
 * the starts of a stream don't increase, any of its frames may be found, or none. */
uint32_t pdb_frames_at(pdb_frames *frames, uint32_t address, pdb_frame *frame);

/* Writes all frames, ordered by their starts. If records of both formats start at one address, only
 * the newer format's is written. */
uint32_t pdb_frames_list(pdb_frames *frames, pdb_frame *rows, size_t rows_length, size_t *length);

/* ---- tables of types and of ids */

/* Opens the table of types of a file with the number PDB_TYPES, or the table of ids with PDB_IDS.
 * It reads the stream, which may have any number: what PDB_IDS holds are ids, and any other stream
 * holds types. A walk along the table begins at its first item. */
uint32_t pdb_types_open(pdb_file *file, uint32_t number, pdb_types *types);

/* The indexes that the header of a table counts: those from the first on that are below the end.
 * The walk may yield fewer items, or more. */
typedef struct pdb_index_range {
    uint32_t first;
    uint32_t end;
} pdb_index_range;

/* Writes the indexes that the header of a table counts. */
uint32_t pdb_types_range(pdb_types *types, pdb_index_range *range);

/* Where a record is in the stream of its table. */
typedef struct pdb_record {
    uint32_t index;
    uint32_t offset; /* the number of bytes of the stream before the record */
    uint32_t length; /* the number of bytes of the record and its padding, at most 65,535 */
} pdb_record;

/* What was found of the record of an index. */
typedef struct pdb_found_record {
    pdb_record position; /* the index, and where the record is, or zeros if it isn't found */
    pdb_fault fault;     /* PDB_OK, or why it isn't found */
} pdb_found_record;

/* Writes where the record of each of some indexes is, in their order. An index below the first one
 * (in a table of types, that of a primitive type) has no record in the stream, so its status is
 * PDB_NONE. The table remembers where each block of eight items begins, as far as it was scanned:
 * an index beyond is scanned for, and for any other at most eight lengths are read. The walk of
 * pdb_types_read stays where it is. */
uint32_t pdb_types_find(pdb_types *types, const uint32_t *indexes, size_t indexes_length,
                        pdb_found_record *records, size_t records_length, size_t *length);

/* ---- what a record says */

/* tools/bindings writes from here */
/* The shapes of types and of ids. */
enum pdb_shape {
    PDB_PRIMITIVE = 0, /* a type without a record */
    PDB_CLASS = 1,
    PDB_MEMBER = 2,
    PDB_MEMBER_FUNCTION = 3,
    PDB_OVERLOADED_METHOD = 4,
    PDB_METHOD = 5,
    PDB_STATIC_MEMBER = 6,
    PDB_NESTED = 7,
    PDB_BASE_CLASS = 8,
    PDB_VIRTUAL_BASE_CLASS = 9,
    PDB_VIRTUAL_FUNCTION_TABLE_POINTER = 10,
    PDB_PROCEDURE = 11,
    PDB_POINTER = 12,
    PDB_MODIFIER = 13,
    PDB_ENUMERATION = 14,
    PDB_ENUMERATE = 15,
    PDB_ARRAY = 16,
    PDB_UNION = 17,
    PDB_BITFIELD = 18,
    PDB_FIELD_LIST = 19,
    PDB_ARGUMENT_LIST = 20, /* pdb_type_numbers writes its arguments */
    PDB_METHOD_LIST = 21, /* pdb_type_methods writes its methods */
    PDB_VIRTUAL_TABLE_SHAPE = 22,
    PDB_FUNCTION_ID = 32,
    PDB_MEMBER_FUNCTION_ID = 33,
    PDB_BUILD_INFO_ID = 34, /* pdb_type_numbers writes its ids */
    PDB_STRING_LIST_ID = 35, /* pdb_type_numbers writes its ids */
    PDB_STRING_ID = 36,
    PDB_TYPE_SOURCE_ID = 37
};
/* to here */

/* The bits of `has`, which say which numbers a record has. The other numbers are 0. The second
 * group names the same bits by what the number is in shapes where it may be absent. */
enum pdb_has {
    PDB_HAS_KIND = 1,
    PDB_HAS_ATTRIBUTES = 2,
    PDB_HAS_PROPERTIES = 4,
    PDB_HAS_COUNT = 8,
    PDB_HAS_TYPE_INDEX = 16,
    PDB_HAS_SECOND_INDEX = 32,
    PDB_HAS_THIRD_INDEX = 64,
    PDB_HAS_LIST_INDEX = 128,
    PDB_HAS_EXTRA = 256,
    PDB_HAS_NUMBER = 512,

    PDB_HAS_RETURN_TYPE = 16,
    PDB_HAS_DERIVED_FROM = 32,
    PDB_HAS_CONTAINING_CLASS = 32,
    PDB_HAS_SCOPE = 32,
    PDB_HAS_FILE_ID = 32,
    PDB_HAS_VTABLE_SHAPE = 64,
    PDB_HAS_THIS_POINTER_TYPE = 64,
    PDB_HAS_MODULE = 64,
    PDB_HAS_FIELDS = 128,
    PDB_HAS_CONTINUATION = 128,
    PDB_HAS_SUBSTRINGS = 128,
    PDB_HAS_VTABLE_OFFSET = 256,
    PDB_HAS_STRIDE = 256
};

/* The kinds of classes. */
enum pdb_class_kind { PDB_KIND_CLASS = 0, PDB_KIND_STRUCTURE = 1, PDB_KIND_INTERFACE = 2 };

/* The bits of the properties of a class, a union or an enumeration, as cvinfo.h has CV_prop_t. */
enum pdb_property {
    PDB_PROPERTY_PACKED = 0x1,
    PDB_PROPERTY_CONSTRUCTORS = 0x2,
    PDB_PROPERTY_OVERLOADED_OPERATORS = 0x4,
    PDB_PROPERTY_NESTED = 0x8,
    PDB_PROPERTY_CONTAINS_NESTED = 0x10,
    PDB_PROPERTY_OVERLOADED_ASSIGNMENT = 0x20,
    PDB_PROPERTY_CASTING_METHODS = 0x40,
    PDB_PROPERTY_FORWARD_REFERENCE = 0x80,
    PDB_PROPERTY_SCOPED = 0x100,
    PDB_PROPERTY_HAS_UNIQUE_NAME = 0x200,
    PDB_PROPERTY_SEALED = 0x400,
    PDB_PROPERTY_HFA_MASK = 0x1800,
    PDB_PROPERTY_INTRINSIC = 0x2000,
    PDB_PROPERTY_MOCOM_MASK = 0xc000
};

/* The bits of the attributes of a field, as CV_fldattr_t. */
enum pdb_field_attribute {
    PDB_FIELD_ACCESS_MASK = 0x3,
    PDB_FIELD_PRIVATE = 1,
    PDB_FIELD_PROTECTED = 2,
    PDB_FIELD_PUBLIC = 3,
    PDB_FIELD_METHOD_MASK = 0x1c,
    PDB_FIELD_METHOD_VIRTUAL = 0x4,
    PDB_FIELD_METHOD_STATIC = 0x8,
    PDB_FIELD_METHOD_FRIEND = 0xc,
    PDB_FIELD_METHOD_INTRO = 0x10,
    PDB_FIELD_METHOD_PURE_VIRTUAL = 0x14,
    PDB_FIELD_METHOD_PURE_INTRO = 0x18,
    PDB_FIELD_PSEUDO = 0x20,
    PDB_FIELD_NO_INHERIT = 0x40,
    PDB_FIELD_NO_CONSTRUCT = 0x80,
    PDB_FIELD_COMPILER_GENERATED = 0x100,
    PDB_FIELD_SEALED = 0x200
};

/* The bits of the attributes of a function: a number of CV_call_e, and those of CV_funcattr_t. */
enum pdb_function_attribute {
    PDB_FUNCTION_CALLING_CONVENTION_MASK = 0xff,
    PDB_FUNCTION_CXX_RETURN_UDT = 0x100,
    PDB_FUNCTION_CONSTRUCTOR = 0x200,
    PDB_FUNCTION_CONSTRUCTOR_WITH_VIRTUAL_BASES = 0x400
};

/* The bits of the attributes of a pointer, as lfPointerAttr. */
enum pdb_pointer_attribute {
    PDB_POINTER_KIND_MASK = 0x1f,
    PDB_POINTER_KIND_NEAR_32 = 0xa,
    PDB_POINTER_KIND_FAR_32 = 0xb,
    PDB_POINTER_KIND_64 = 0xc,
    PDB_POINTER_MODE_MASK = 0xe0,
    PDB_POINTER_MODE_POINTER = 0,
    PDB_POINTER_MODE_LVALUE_REFERENCE = 0x20,
    PDB_POINTER_MODE_DATA_MEMBER = 0x40,
    PDB_POINTER_MODE_METHOD = 0x60,
    PDB_POINTER_MODE_RVALUE_REFERENCE = 0x80,
    PDB_POINTER_FLAT_32 = 0x100,
    PDB_POINTER_VOLATILE = 0x200,
    PDB_POINTER_CONST = 0x400,
    PDB_POINTER_UNALIGNED = 0x800,
    PDB_POINTER_RESTRICT = 0x1000,
    PDB_POINTER_SIZE_MASK = 0x7e000,
    PDB_POINTER_MOCOM = 0x80000
};

/* The bits of a type with modifiers. */
enum pdb_modifier_bit {
    PDB_MODIFIER_CONST = 1,
    PDB_MODIFIER_VOLATILE = 2,
    PDB_MODIFIER_UNALIGNED = 4
};

/* The numbers of any shape under common names, laid out as in each structure of pdb_type_info, for
 * languages without unions. */
typedef struct pdb_row {
    uint32_t shape; /* a value of enum pdb_shape */
    uint32_t has;   /* values of enum pdb_has, added up */
    uint64_t number;
    uint32_t kind;
    uint32_t attributes;
    uint32_t properties;
    uint32_t count;
    uint32_t type_index;
    uint32_t second_index;
    uint32_t third_index;
    uint32_t list_index;
    uint32_t extra;
} pdb_row;

/* tools/bindings writes from here */
/* a class, a structure or an interface. `kind` is a value of enum pdb_class_kind; `count` counts
 * fields, and each overload of a method */
typedef struct pdb_class {
    uint32_t shape, has;
    uint64_t size;
    uint32_t kind, reserved_1, properties, count, reserved_2, derived_from, vtable_shape, fields;
} pdb_class;

typedef struct pdb_member {
    uint32_t shape, has;
    uint64_t offset;
    uint32_t reserved_1, attributes, reserved_2, reserved_3, field_type;
} pdb_member;

typedef struct pdb_member_function {
    uint32_t shape, has;
    uint64_t reserved;
    uint32_t reserved_1, attributes, reserved_2, parameter_count, return_type, class_type,
        this_pointer_type, argument_list, this_adjustment;
} pdb_member_function;

typedef struct pdb_overloaded_method {
    uint32_t shape, has;
    uint64_t reserved;
    uint32_t reserved_1, reserved_2, reserved_3, count, reserved_4, reserved_5, reserved_6,
        method_list;
} pdb_overloaded_method;

typedef struct pdb_method {
    uint32_t shape, has;
    uint64_t reserved;
    uint32_t reserved_1, attributes, reserved_2, reserved_3, method_type, reserved_4, reserved_5,
        reserved_6, vtable_offset;
} pdb_method;

typedef struct pdb_static_member {
    uint32_t shape, has;
    uint64_t reserved;
    uint32_t reserved_1, attributes, reserved_2, reserved_3, field_type;
} pdb_static_member;

typedef struct pdb_nested {
    uint32_t shape, has;
    uint64_t reserved;
    uint32_t reserved_1, attributes, reserved_2, reserved_3, nested_type;
} pdb_nested;

/* `kind` is a value of enum pdb_class_kind */
typedef struct pdb_base_class {
    uint32_t shape, has;
    uint64_t offset;
    uint32_t kind, attributes, reserved_1, reserved_2, base_class;
} pdb_base_class;

typedef struct pdb_virtual_base_class {
    uint32_t shape, has;
    uint64_t base_pointer_offset;
    uint32_t is_direct, attributes, reserved_1, reserved_2, base_class, base_pointer, reserved_3,
        reserved_4, virtual_base_offset;
} pdb_virtual_base_class;

typedef struct pdb_virtual_function_table_pointer {
    uint32_t shape, has;
    uint64_t reserved;
    uint32_t reserved_1, reserved_2, reserved_3, reserved_4, table;
} pdb_virtual_function_table_pointer;

typedef struct pdb_procedure {
    uint32_t shape, has;
    uint64_t reserved;
    uint32_t reserved_1, attributes, reserved_2, parameter_count, return_type, reserved_3,
        reserved_4, argument_list;
} pdb_procedure;

typedef struct pdb_pointer {
    uint32_t shape, has;
    uint64_t reserved;
    uint32_t reserved_1, attributes, reserved_2, reserved_3, underlying_type, containing_class;
} pdb_pointer;

/* `modifiers` are values of enum pdb_modifier_bit, added up */
typedef struct pdb_modifier {
    uint32_t shape, has;
    uint64_t reserved;
    uint32_t modifiers, reserved_1, reserved_2, reserved_3, underlying_type;
} pdb_modifier;

typedef struct pdb_enumeration {
    uint32_t shape, has;
    uint64_t reserved;
    uint32_t reserved_1, reserved_2, properties, count, underlying_type, reserved_3, reserved_4,
        fields;
} pdb_enumeration;

/* `value` is in two's complement if it is signed; `width` is the number of its bytes in the
 * record, and `is_signed` says whether these have a sign. pdb_enumerator_typed gives those of the
 * type */
typedef struct pdb_enumerate {
    uint32_t shape, has;
    uint64_t value;
    uint32_t is_signed, attributes, reserved_1, width;
} pdb_enumerate;

/* pdb_type_numbers writes its dimensions */
typedef struct pdb_array {
    uint32_t shape, has;
    uint64_t reserved;
    uint32_t reserved_1, reserved_2, reserved_3, reserved_4, element_type, indexing_type,
        reserved_5, reserved_6, stride;
} pdb_array;

typedef struct pdb_union {
    uint32_t shape, has;
    uint64_t size;
    uint32_t reserved_1, reserved_2, properties, count, reserved_3, reserved_4, reserved_5, fields;
} pdb_union;

/* `length` is in bits, `position` its lowest bit */
typedef struct pdb_bitfield {
    uint32_t shape, has;
    uint64_t reserved;
    uint32_t reserved_1, reserved_2, reserved_3, length, underlying_type, reserved_4, reserved_5,
        reserved_6, position;
} pdb_bitfield;

/* pdb_type_fields writes its fields */
typedef struct pdb_field_list {
    uint32_t shape, has;
    uint64_t reserved;
    uint32_t reserved_1, reserved_2, reserved_3, reserved_4, reserved_5, reserved_6, reserved_7,
        continuation;
} pdb_field_list;

typedef struct pdb_virtual_table_shape {
    uint32_t shape, has;
    uint64_t reserved;
    uint32_t reserved_1, reserved_2, reserved_3, count;
} pdb_virtual_table_shape;

typedef struct pdb_function_id {
    uint32_t shape, has;
    uint64_t reserved;
    uint32_t reserved_1, reserved_2, reserved_3, reserved_4, function_type, scope;
} pdb_function_id;

typedef struct pdb_member_function_id {
    uint32_t shape, has;
    uint64_t reserved;
    uint32_t reserved_1, reserved_2, reserved_3, reserved_4, function_type, reserved_5, parent;
} pdb_member_function_id;

typedef struct pdb_string_id {
    uint32_t shape, has;
    uint64_t reserved;
    uint32_t reserved_1, reserved_2, reserved_3, reserved_4, reserved_5, reserved_6, reserved_7,
        substrings;
} pdb_string_id;

/* `file_name`, with PDB_HAS_MODULE, is the offset of the name in the string table */
typedef struct pdb_type_source_id {
    uint32_t shape, has;
    uint64_t file_name;
    uint32_t reserved_1, reserved_2, reserved_3, reserved_4, udt, file_id, module, reserved_5, line;
} pdb_type_source_id;

/* What the record of a type or an id says besides names and lists: the structure of its shape.
 * What it lacks or reserves is 0. */
typedef union pdb_type_info {
    pdb_row row;
    pdb_class class_type;
    pdb_member member;
    pdb_member_function member_function;
    pdb_overloaded_method overloaded_method;
    pdb_method method;
    pdb_static_member static_member;
    pdb_nested nested;
    pdb_base_class base_class;
    pdb_virtual_base_class virtual_base_class;
    pdb_virtual_function_table_pointer virtual_function_table_pointer;
    pdb_procedure procedure;
    pdb_pointer pointer;
    pdb_modifier modifier;
    pdb_enumeration enumeration;
    pdb_enumerate enumerate;
    pdb_array array;
    pdb_union union_type;
    pdb_bitfield bitfield;
    pdb_field_list field_list;
    pdb_virtual_table_shape virtual_table_shape;
    pdb_function_id function_id;
    pdb_member_function_id member_function_id;
    pdb_string_id string_id;
    pdb_type_source_id type_source_id;
} pdb_type_info;
/* to here */

/* A record of a table, and what it says. */
typedef struct pdb_type {
    pdb_record position; /* its index, and where it is in the stream of the table */
    pdb_fault fault;     /* PDB_OK, or why the record can't be read */
    pdb_type_info info;  /* what it says, or zeros if it can't be read */
} pdb_type;

/* Writes the next records of the walk along a table, in order. It writes as many as the array has
 * room for, or as are left before the walk stops, and sets `count` to their number. The status is
 * PDB_OK if the array is full; if not, it is PDB_END after the last record, and the error if the
 * walk stops before. A record that can't be read does not stop the walk. Records behind the indexes
 * that the header counts can't be asked for by index. */
uint32_t pdb_types_read(pdb_types *types, pdb_type *rows, size_t rows_length, size_t *count);

/* Moves the walk back to before the first item. */
uint32_t pdb_types_rewind(pdb_types *types);

/* Writes what the type or the id of an index is. The calls below end with PDB_TYPE_NOT_FOUND for an
 * index from the end of pdb_types_range on. */
uint32_t pdb_type_parse(pdb_types *types, uint32_t index, pdb_type_info *info);

/* Copies the bytes of the record of an index, without the length before it. The status is PDB_NONE
 * for a primitive type, which has no record. */
uint32_t pdb_type_record(pdb_types *types, uint32_t index, uint8_t *buffer, size_t buffer_length,
                         size_t *length);

/* The indexes from this one on are those of types that have a record. An index below is that of a
 * primitive type: its lowest byte is the kind, a number of TYPE_ENUM_e of cvinfo.h such as 0x74 for
 * a signed integer of 32 bits, and the bits above are the indirection, a number of CV_prmode_e: 0
 * for the type itself, 4 for a pointer of 32 bits to it, 6 for one of 64 bits. pdb_type_parse ends
 * with PDB_TYPE_NOT_FOUND if no primitive type has the index, and of a table of ids, which has no
 * such items, with PDB_UNIMPLEMENTED_TYPE_KIND. */
enum { PDB_FIRST_RECORD = 0x1000 };

/* Returns the name of a kind of primitive type in C++, as pdb_type_text writes it, or NULL if there
 * is no such kind. The name of kind 0, no type, is not C++. */
static inline const char *pdb_primitive_name(uint32_t kind) {
    switch (kind) {
    case 0x00: return "<no type>";
    case 0x03: return "void";
    case 0x08: return "HRESULT";
    case 0x10: return "signed char";
    case 0x11: return "short";
    case 0x12: return "long";
    case 0x13: return "__int64";
    case 0x14: return "__int128";
    case 0x20: return "unsigned char";
    case 0x21: return "unsigned short";
    case 0x22: return "unsigned long";
    case 0x23: return "unsigned __int64";
    case 0x24: return "unsigned __int128";
    case 0x30: return "bool";
    case 0x31: return "__bool16";
    case 0x32: return "__bool32";
    case 0x33: return "__bool64";
    case 0x40: return "float";
    case 0x41: return "double";
    case 0x42: return "long double";
    case 0x43: return "__float128";
    case 0x44: return "__float48";
    case 0x45: return "float";
    case 0x46: return "__half";
    case 0x50: return "_Complex float";
    case 0x51: return "_Complex double";
    case 0x52: return "_Complex long double";
    case 0x53: return "_Complex __float128";
    case 0x68: return "__int8";
    case 0x69: return "unsigned __int8";
    case 0x70: return "char";
    case 0x71: return "wchar_t";
    case 0x72: return "__int16";
    case 0x73: return "unsigned __int16";
    case 0x74: return "int";
    case 0x75: return "unsigned int";
    case 0x76: return "__int64";
    case 0x77: return "unsigned __int64";
    case 0x78: return "__int128";
    case 0x79: return "unsigned __int128";
    case 0x7a: return "char16_t";
    case 0x7b: return "char32_t";
    default: return NULL;
    }
}

/* Copies the name of a type, or of an id: of a function, a method or a text. The status is PDB_NONE
 * if it has none. */
uint32_t pdb_type_name(pdb_types *types, uint32_t index, char *buffer, size_t buffer_length,
                       size_t *length);

/* Copies the unique name of a class, a union or an enumeration. The status is PDB_NONE if there is
 * none. */
uint32_t pdb_type_unique_name(pdb_types *types, uint32_t index, char *buffer, size_t buffer_length,
                              size_t *length);

/* Copies the numbers that a record lists: the types of the arguments in a list of arguments; the
 * ids in the build information of a module or of the parts of a text; or the sizes in bytes in the
 * record of an array. Compilers write one size, that of the whole array: an `int[3][4]` has 48, and
 * its element type `int[4]` has 16. If there are several, the innermost is first. The status is
 * PDB_NONE for any other type or id. */
uint32_t pdb_type_numbers(pdb_types *types, uint32_t index, uint32_t *numbers,
                          size_t numbers_length, size_t *length);

/* Writes the methods in a list of methods, each of the shape PDB_METHOD. The status is PDB_NONE for
 * any other type. */
uint32_t pdb_type_methods(pdb_types *types, uint32_t index, pdb_type_info *methods,
                          size_t methods_length, size_t *length);

/* A field: what it says, and where its name is among the names. */
typedef struct pdb_field {
    pdb_type_info info;
    size_t name_offset;
    size_t name_length;
    uint32_t has_name; /* 0 or 1; a field without a name, such as a base class, has an empty one */
} pdb_field;

/* Writes the fields of a list of fields, and their names, each with a NUL at its end. If `whole` is
 * 0, these are the fields of its record alone, and the status is PDB_NONE for any other type.
 * Otherwise the fields of the lists in which it continues follow. Each of these lists has an index
 * below that of the list before it, and the status is PDB_UNIMPLEMENTED_TYPE_KIND, with the kind,
 * if a type that should be a list of fields is none. */
uint32_t pdb_type_fields(pdb_types *types, uint32_t index, uint32_t whole, pdb_field *rows,
                         size_t rows_length, size_t *count, char *names, size_t names_length,
                         size_t *size);

/* Converts the value of an enumerator (PDB_ENUMERATE) to the sign and the width of the type under
 * its enumeration. A record stores a value in as few bytes as it needs, and one byte (LF_CHAR) is
 * taken as unsigned, so 0x80 is 128. This call takes it as signed: 0x80 becomes -128 if the type is
 * `int`, and 0xffffff80 if it is `unsigned int`. Nothing changes if the type is no primitive
 * integer of at most 64 bits, or the record is no enumerator. */
void pdb_enumerator_typed(pdb_type_info *info, uint32_t underlying_type);

/* ---- definitions of types, their sizes and layouts
 *
 * A definition is a class, a union or an enumeration that is not only declared. A type that is only
 * declared (PDB_PROPERTY_FORWARD_REFERENCE) is defined by the first definition in the table that
 * has its unique name, or its name if it has no unique name.
 *
 * The first of these calls on a handle finds the definitions in one walk along the table, and keeps
 * them. The table has to end where the stream does, or else each of the calls ends with the error
 * at which the walk stops; a record that can't be read defines nothing. */

/* Copies the indexes of all definitions of a name, in increasing order. The name is the one in the
 * source, with its scopes, such as "Outer::Inner", byte by byte. There may be none, and then the
 * length is 0. */
uint32_t pdb_types_named(pdb_types *types, const char *name, size_t name_length, uint32_t *indexes,
                         size_t indexes_length, size_t *length);

/* Writes the index of the definition of a type, which is its own index if it is a definition. The
 * status is PDB_NONE if the table doesn't define it, or it is no class, union or enumeration. */
uint32_t pdb_type_definition(pdb_types *types, uint32_t index, uint32_t *definition);

/* Writes the size of a type in bytes. A type that is only declared is as large as its definition.
 * The status is PDB_NONE if nothing says the size, as of void, of a function or of a list. */
uint32_t pdb_type_size(pdb_types *types, uint32_t index, uint64_t *size);

/* Copies the C++ text that declares a name, which may be any text, with the type of an index, such
 * as "int (*compare)(char)", or the text of the type alone if the name is empty. "<no type>" stands
 * where a record names no type. It has at most 65,536 bytes, and ends with ".." if it is cut. What
 * the text says is tested, and not proved. */
uint32_t pdb_type_text(pdb_types *types, uint32_t index, const char *name, size_t name_length,
                       char *buffer, size_t buffer_length, size_t *length);

/* What a row of a layout is. */
enum pdb_layout_kind {
    PDB_LAYOUT_BASE = 0,                     /* a base class */
    PDB_LAYOUT_VIRTUAL_BASE_POINTER = 1,     /* the pointer to a table of virtual bases, once for
                                                each virtual base class */
    PDB_LAYOUT_VIRTUAL_FUNCTION_POINTER = 2, /* the pointer to a table of virtual functions */
    PDB_LAYOUT_MEMBER = 3,                   /* a data member */
    PDB_LAYOUT_HOLE = 4,                     /* whole bytes that no field takes */
    PDB_LAYOUT_UNUSED_BITS = 5,              /* bits that are left over in bytes of fields */
    PDB_LAYOUT_VIRTUAL_BASES = 6             /* the bytes after all fields, where virtual bases lie:
                                                no record says exactly where */
};

/* How the size of a row of a layout is given. */
enum pdb_extent {
    PDB_EXTENT_BYTES = 0,
    PDB_EXTENT_BITS = 1,
    PDB_EXTENT_UNKNOWN = 2 /* nothing says the size of the field's type */
};

/* A row of a layout: a field, or bits that no field takes. Numbers that don't apply are 0. */
typedef struct pdb_layout_row {
    uint64_t offset;        /* the byte where it begins, counted from the start of the class */
    uint64_t size;          /* if the extent is bytes: how many it takes */
    size_t name_offset;     /* of a member: where its name is among the names */
    size_t name_length;
    uint32_t kind;          /* a value of enum pdb_layout_kind */
    uint32_t extent;        /* a value of enum pdb_extent */
    uint32_t bit;           /* if the extent is bits: the first, counted from the lowest bit of the
                               byte at `offset` */
    uint32_t bits;          /* if the extent is bits: how many it takes */
    uint32_t type_index;    /* of a field: its type */
    uint32_t base_class;    /* of a pointer to a table of virtual bases: the virtual base class */
    uint32_t base_position; /* the position of that class in the table */
    uint32_t is_direct;     /* whether that class is a direct base, 0 or 1 */
} pdb_layout_row;

/* Writes the layout of a class, a structure, an interface or a union: a row for each base class,
 * pointer to a table and data member (none for methods, static members and nested types), in the
 * order of their records, and then rows for the bits that none of these fields takes. It also
 * writes the members' names, each with a NUL at its end. Each bit of the class (8 times
 * its size) is in a field, or else in exactly one of the other rows. Fields may overlap, as those
 * of a union do, and in a damaged file they may go beyond the size. The row of a base class ends
 * before its virtual bases, which the class holds elsewhere. The status is PDB_NONE if the type has
 * no definition, or its definition is an enumeration. */
uint32_t pdb_type_layout(pdb_types *types, uint32_t index, pdb_layout_row *rows, size_t rows_length,
                         size_t *count, char *names, size_t names_length, size_t *size);

/* ---- a null length
 *
 * Each of these functions stands for the call of its name, and also accepts null as the place for a
 * length. The library itself, which other languages call, does not. */

/* tools/bindings writes from here */
static inline uint32_t pdb_fault_text_(const pdb_fault *fault, char *buffer, size_t buffer_length,
                                       size_t *length) {
    size_t no_length = 0;
    return pdb_fault_text(fault, buffer, buffer_length, length ? length : &no_length);
}
#define pdb_fault_text pdb_fault_text_

static inline uint32_t pdb_validate_(const uint8_t *bytes, size_t bytes_length, uint32_t every,
                                     pdb_finding *findings, size_t findings_length,
                                     size_t *length) {
    size_t no_length = 0;
    return pdb_validate(bytes, bytes_length, every, findings, findings_length,
                        length ? length : &no_length);
}
#define pdb_validate pdb_validate_

static inline uint32_t pdb_file_stream_(pdb_file *file, uint32_t number, size_t limit,
                                        uint8_t *buffer, size_t buffer_length, size_t *length) {
    size_t no_length = 0;
    return pdb_file_stream(file, number, limit, buffer, buffer_length,
                           length ? length : &no_length);
}
#define pdb_file_stream pdb_file_stream_

static inline uint32_t pdb_file_named_stream_(pdb_file *file, const char *name, size_t name_length,
                                              uint8_t *buffer, size_t buffer_length,
                                              size_t *length) {
    size_t no_length = 0;
    return pdb_file_named_stream(file, name, name_length, buffer, buffer_length,
                                 length ? length : &no_length);
}
#define pdb_file_named_stream pdb_file_named_stream_

static inline uint32_t pdb_file_stream_names_(pdb_file *file, pdb_named_stream *rows,
                                              size_t rows_length, size_t *count, char *names,
                                              size_t names_length, size_t *size) {
    size_t no_count = 0, no_size = 0;
    return pdb_file_stream_names(file, rows, rows_length, count ? count : &no_count, names,
                                 names_length, size ? size : &no_size);
}
#define pdb_file_stream_names pdb_file_stream_names_

static inline uint32_t pdb_key_(const pdb_identity *identity, uint32_t form, char *buffer,
                                size_t buffer_length, size_t *length) {
    size_t no_length = 0;
    return pdb_key(identity, form, buffer, buffer_length, length ? length : &no_length);
}
#define pdb_key pdb_key_

static inline uint32_t pdb_names_get_(pdb_names *names, uint32_t offset, char *buffer,
                                      size_t buffer_length, size_t *length) {
    size_t no_length = 0;
    return pdb_names_get(names, offset, buffer, buffer_length, length ? length : &no_length);
}
#define pdb_names_get pdb_names_get_

static inline uint32_t pdb_names_places_(pdb_names *names, const uint32_t *offsets,
                                         size_t offsets_length, pdb_name *places,
                                         size_t places_length, size_t *length) {
    size_t no_length = 0;
    return pdb_names_places(names, offsets, offsets_length, places, places_length,
                            length ? length : &no_length);
}
#define pdb_names_places pdb_names_places_

static inline uint32_t pdb_omap_records_(pdb_omap *omap, pdb_omap_record *records,
                                         size_t records_length, size_t *length) {
    size_t no_length = 0;
    return pdb_omap_records(omap, records, records_length, length ? length : &no_length);
}
#define pdb_omap_records pdb_omap_records_

static inline uint32_t pdb_omap_ranges_(pdb_omap *omap, uint32_t start, uint32_t end,
                                        pdb_span *spans, size_t spans_length, size_t *length) {
    size_t no_length = 0;
    return pdb_omap_ranges(omap, start, end, spans, spans_length, length ? length : &no_length);
}
#define pdb_omap_ranges pdb_omap_ranges_

static inline uint32_t pdb_file_sections_(pdb_file *file, uint32_t number, pdb_section *sections,
                                          size_t sections_length, size_t *length) {
    size_t no_length = 0;
    return pdb_file_sections(file, number, sections, sections_length, length ? length : &no_length);
}
#define pdb_file_sections pdb_file_sections_

static inline uint32_t pdb_address_ranges_(pdb_address_map *map, uint32_t form, uint32_t start,
                                           uint32_t end, pdb_span *spans, size_t spans_length,
                                           size_t *length) {
    size_t no_length = 0;
    return pdb_address_ranges(map, form, start, end, spans, spans_length,
                              length ? length : &no_length);
}
#define pdb_address_ranges pdb_address_ranges_

static inline uint32_t pdb_frames_list_(pdb_frames *frames, pdb_frame *rows, size_t rows_length,
                                        size_t *length) {
    size_t no_length = 0;
    return pdb_frames_list(frames, rows, rows_length, length ? length : &no_length);
}
#define pdb_frames_list pdb_frames_list_

static inline uint32_t pdb_types_find_(pdb_types *types, const uint32_t *indexes,
                                       size_t indexes_length, pdb_found_record *records,
                                       size_t records_length, size_t *length) {
    size_t no_length = 0;
    return pdb_types_find(types, indexes, indexes_length, records, records_length,
                          length ? length : &no_length);
}
#define pdb_types_find pdb_types_find_

static inline uint32_t pdb_types_read_(pdb_types *types, pdb_type *rows, size_t rows_length,
                                       size_t *count) {
    size_t no_count = 0;
    return pdb_types_read(types, rows, rows_length, count ? count : &no_count);
}
#define pdb_types_read pdb_types_read_

static inline uint32_t pdb_type_record_(pdb_types *types, uint32_t index, uint8_t *buffer,
                                        size_t buffer_length, size_t *length) {
    size_t no_length = 0;
    return pdb_type_record(types, index, buffer, buffer_length, length ? length : &no_length);
}
#define pdb_type_record pdb_type_record_

static inline uint32_t pdb_type_name_(pdb_types *types, uint32_t index, char *buffer,
                                      size_t buffer_length, size_t *length) {
    size_t no_length = 0;
    return pdb_type_name(types, index, buffer, buffer_length, length ? length : &no_length);
}
#define pdb_type_name pdb_type_name_

static inline uint32_t pdb_type_unique_name_(pdb_types *types, uint32_t index, char *buffer,
                                             size_t buffer_length, size_t *length) {
    size_t no_length = 0;
    return pdb_type_unique_name(types, index, buffer, buffer_length, length ? length : &no_length);
}
#define pdb_type_unique_name pdb_type_unique_name_

static inline uint32_t pdb_type_numbers_(pdb_types *types, uint32_t index, uint32_t *numbers,
                                         size_t numbers_length, size_t *length) {
    size_t no_length = 0;
    return pdb_type_numbers(types, index, numbers, numbers_length, length ? length : &no_length);
}
#define pdb_type_numbers pdb_type_numbers_

static inline uint32_t pdb_type_methods_(pdb_types *types, uint32_t index, pdb_type_info *methods,
                                         size_t methods_length, size_t *length) {
    size_t no_length = 0;
    return pdb_type_methods(types, index, methods, methods_length, length ? length : &no_length);
}
#define pdb_type_methods pdb_type_methods_

static inline uint32_t pdb_type_fields_(pdb_types *types, uint32_t index, uint32_t whole,
                                        pdb_field *rows, size_t rows_length, size_t *count,
                                        char *names, size_t names_length, size_t *size) {
    size_t no_count = 0, no_size = 0;
    return pdb_type_fields(types, index, whole, rows, rows_length, count ? count : &no_count, names,
                           names_length, size ? size : &no_size);
}
#define pdb_type_fields pdb_type_fields_

static inline uint32_t pdb_types_named_(pdb_types *types, const char *name, size_t name_length,
                                        uint32_t *indexes, size_t indexes_length, size_t *length) {
    size_t no_length = 0;
    return pdb_types_named(types, name, name_length, indexes, indexes_length,
                           length ? length : &no_length);
}
#define pdb_types_named pdb_types_named_

static inline uint32_t pdb_type_text_(pdb_types *types, uint32_t index, const char *name,
                                      size_t name_length, char *buffer, size_t buffer_length,
                                      size_t *length) {
    size_t no_length = 0;
    return pdb_type_text(types, index, name, name_length, buffer, buffer_length,
                         length ? length : &no_length);
}
#define pdb_type_text pdb_type_text_

static inline uint32_t pdb_type_layout_(pdb_types *types, uint32_t index, pdb_layout_row *rows,
                                        size_t rows_length, size_t *count, char *names,
                                        size_t names_length, size_t *size) {
    size_t no_count = 0, no_size = 0;
    return pdb_type_layout(types, index, rows, rows_length, count ? count : &no_count, names,
                           names_length, size ? size : &no_size);
}
#define pdb_type_layout pdb_type_layout_
/* to here */

#ifdef __cplusplus
}
#endif

#endif
