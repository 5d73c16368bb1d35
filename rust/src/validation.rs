use crate::error::{Error, ErrorKind, Result};
use crate::handle::{check_version, items};
use crate::sys;

/// An enumeration whose values have the numbers of the library's constants. A newer library may have more of them.
macro_rules! numbered {
    ($(#[$what:meta])* $name:ident { $($(#[$about:meta])* $case:ident = $value:ident)* }) => {
        $(#[$what])*
        #[derive(Debug, Clone, Copy, PartialEq, Eq, Hash)]
        #[non_exhaustive]
        pub enum $name {
            $($(#[$about])* $case,)*
            /// One that this version of the crate does not know.
            Other,
        }

        impl $name {
            fn of(value: u32) -> $name {
                match value {
                    $(sys::$value => $name::$case,)*
                    _ => $name::Other,
                }
            }
        }
    };
}

numbered! {
/// The parts of a file.
Part {
    /// The header of the file.
    Header = PDB_PART_HEADER
    /// The directory of streams.
    Directory = PDB_PART_DIRECTORY
    /// The sizes of the directory and of the streams.
    Sizes = PDB_PART_SIZES
    /// The bytes of a stream.
    Stream = PDB_PART_STREAM
    /// The names of streams, in stream 1.
    Names = PDB_PART_NAMES
    /// The string table, in the stream `/names`.
    StringTable = PDB_PART_STRING_TABLE
    /// The header of stream 3 and the roles of streams.
    Roles = PDB_PART_ROLES
    /// The table of types, in stream 2.
    Types = PDB_PART_TYPES
    /// The table of ids, in stream 4.
    Ids = PDB_PART_IDS
    /// The section headers.
    SectionHeaders = PDB_PART_SECTION_HEADERS
    /// The section headers of the original image.
    OriginalSectionHeaders = PDB_PART_ORIGINAL_SECTION_HEADERS
    /// The OMAP table from the image as it is loaded to the original image.
    OmapToSource = PDB_PART_OMAP_TO_SOURCE
    /// The OMAP table from the original image to the image as it is loaded.
    OmapFromSource = PDB_PART_OMAP_FROM_SOURCE
    /// The frames in the older format.
    OldFrames = PDB_PART_OLD_FRAMES
    /// The frames in the newer format.
    NewFrames = PDB_PART_NEW_FRAMES
}
}

numbered! {
/// What can be inconsistent in a file whose parts can be read. What is in parentheses is the
/// number that goes with it.
Inconsistency {
    /// The directory is larger than the file.
    DirectoryTooLarge = PDB_DIRECTORY_TOO_LARGE
    /// The streams together are larger than the file.
    StreamsTooLarge = PDB_STREAMS_TOO_LARGE
    /// OMAP records or frames are not in increasing order.
    OutOfOrder = PDB_OUT_OF_ORDER
    /// A page has two owners (the page).
    PageShared = PDB_PAGE_SHARED
    /// A page is in use and marked as free; a warning (the page).
    PageFree = PDB_PAGE_FREE
    /// A stream that is named or numbered is missing (its number).
    StreamMissing = PDB_STREAM_MISSING
    /// The parts of stream 3 do not add up to its size.
    DebugSizes = PDB_DEBUG_SIZES
    /// A record refers to an index that is not below its own (it).
    ReferenceNotBelow = PDB_REFERENCE_NOT_BELOW
    /// A record takes no multiple of four bytes; a warning.
    RecordUnaligned = PDB_RECORD_UNALIGNED
    /// A record kind that is not read; a warning (the kind).
    KindNotRead = PDB_KIND_NOT_READ
    /// Not one hash value for each record (their number).
    HashCount = PDB_HASH_COUNT
    /// A hash value that is not below the number of buckets (it).
    HashTooLarge = PDB_HASH_TOO_LARGE
    /// A stored place is not that of its record (the index).
    IndexOffset = PDB_INDEX_OFFSET
    /// The string table ends before its buckets do.
    BucketsCut = PDB_BUCKETS_CUT
    /// A bucket's offset at which no name begins (the offset).
    NameOffset = PDB_NAME_OFFSET
    /// The buckets hold another number of names (the table's).
    NameCount = PDB_NAME_COUNT
    /// A section begins below the end of the one before it.
    SectionsOverlap = PDB_SECTIONS_OVERLAP
    /// The free page map is neither 1 nor 2 (its number).
    FreePageMap = PDB_FREE_PAGE_MAP
    /// More pages are in use than the file has (their number).
    PageCount = PDB_PAGE_COUNT
    /// Stream 1, stream 3 or a table has an unknown version (it).
    UnknownVersion = PDB_UNKNOWN_VERSION
    /// An unknown machine; a warning (its number).
    UnknownMachine = PDB_UNKNOWN_MACHINE
    /// The bits of the table of names are others (its count).
    NamedStreamCount = PDB_NAMED_STREAM_COUNT
    /// The records do not end where the header says (the field).
    RecordBytes = PDB_RECORD_BYTES
    /// No table has hashes or buckets so (the field).
    HashSize = PDB_HASH_SIZE
    /// Records without a hash stream; a warning.
    NoHashStream = PDB_NO_HASH_STREAM
    /// A part does not fit the hash stream (its size).
    HashPart = PDB_HASH_PART
    /// The hash of a name leads to another bucket (the offset).
    NameUnreached = PDB_NAME_UNREACHED
    /// A module's entry ends behind the list of modules.
    ModuleCut = PDB_MODULE_CUT
    /// A module takes more bytes than its stream has (its number).
    ModuleSizes = PDB_MODULE_SIZES
    /// No signature or version of a hash table of symbols (it).
    SymbolHashVersion = PDB_SYMBOL_HASH_VERSION
    /// A hash table of symbols does not have the size that its header says.
    SymbolHashSizes = PDB_SYMBOL_HASH_SIZES
    /// The parts of the publics do not add up to their stream.
    PublicSizes = PDB_PUBLIC_SIZES
    /// The record of a symbol ends behind its stream.
    SymbolCut = PDB_SYMBOL_CUT
}
}

/// What is wrong in a part of a file.
#[derive(Debug, Clone, Copy, PartialEq, Eq)]
pub enum Problem {
    /// The part can't be read, for this reason.
    Error(ErrorKind),
    /// The part can be read, and this is inconsistent in it, with the number that goes with it, or 0.
    Inconsistent(Inconsistency, u32),
}

/// What is wrong in a part of a file, and where.
#[derive(Debug, Clone, Copy, PartialEq, Eq)]
pub struct Finding {
    /// The part.
    pub part: Part,
    /// The number of the stream in which the fault is, if it is in one.
    pub stream: Option<u32>,
    /// The index of the record at which the fault is, if it is at one.
    pub index: Option<u64>,
    /// The byte of the stream at which it is: of a record, that at which its length begins.
    pub byte: Option<u64>,
    /// That byte's place in the file.
    pub file_byte: Option<u64>,
    /// Whether files of known tools have it too, which are whole.
    pub is_warning: bool,
    /// What is wrong.
    pub problem: Problem,
}

impl Finding {
    fn of(found: &sys::Finding) -> Finding {
        Finding {
            part: Part::of(found.part),
            stream: (found.has_stream != 0).then_some(found.stream),
            index: (found.has_index != 0).then_some(found.index),
            byte: (found.has_byte != 0).then_some(found.byte),
            file_byte: (found.has_file_byte != 0).then_some(found.file_byte),
            is_warning: found.is_warning != 0,
            problem: match found.inconsistency {
                sys::PDB_NO_INCONSISTENCY => Problem::Error(Error::of(&found.fault).kind),
                what => Problem::Inconsistent(Inconsistency::of(what), found.number),
            },
        }
    }
}

fn findings(file: &[u8], every: u32) -> Result<Vec<Finding>> {
    check_version()?;
    // SAFETY: the slices are as long as they say, and places that the library writes stay in the call.
    let found =
        items(64, |to, size, count| unsafe { sys::pdb_validate(file.as_ptr(), file.len(), every, to, size, count) })?;
    Ok(found.unwrap_or_default().iter().map(Finding::of).collect())
}

/// What is wrong in a file: the first error of each part, or its first warning if it has no error. The file is whole
/// exactly if all of them are warnings: its types, ids, names, sections, addresses and frames, since modules and symbols
/// are not read.
pub fn validate(file: &[u8]) -> Result<Vec<Finding>> {
    findings(file, 0)
}

/// Everything that is wrong in a file.
pub fn validate_all(file: &[u8]) -> Result<Vec<Finding>> {
    findings(file, 1)
}

#[cfg(test)]
mod tests {
    use super::*;

    #[test]
    fn numbers_of_a_newer_library() {
        let found = Finding::of(&sys::Finding { part: 99, inconsistency: 99, ..sys::Finding::default() });
        assert_eq!((found.part, found.problem), (Part::Other, Problem::Inconsistent(Inconsistency::Other, 0)));
    }
}
