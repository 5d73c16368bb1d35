use std::fmt;

use crate::handle::items;
use crate::sys;

/// The result of a call that reads a file. With a second parameter it is the standard library's, so that a glob import
/// of this crate hides nothing.
pub type Result<T, E = Error> = std::result::Result<T, E>;

/// Why a file, or a part of it, can't be read, and where that is.
#[derive(Debug, Clone, PartialEq, Eq)]
#[non_exhaustive]
pub struct Error {
    /// Which error it is.
    pub kind: ErrorKind,
    /// The number of the stream that has it, where that is known.
    pub stream: Option<u32>,
    /// The name of the stream that has it, or that is missing, where it was asked for by its name.
    pub name: Option<Box<str>>,
    /// The place in that stream of the record or the name that has it, where that is known.
    pub offset: Option<u32>,
}

impl Error {
    pub(crate) fn of(fault: &sys::Fault) -> Error {
        ErrorKind::of(fault).into()
    }

    /// The same error in a stream, and at an offset, unless it says already where it is.
    pub(crate) fn at(self, stream: Option<u32>, offset: Option<u32>) -> Error {
        match (self.stream, &self.name) {
            (None, None) => Error { stream, offset: stream.and(offset), ..self },
            _ => self,
        }
    }

    /// The same error in the stream of a name, and at an offset, unless it says already where it is.
    pub(crate) fn in_named(self, name: &[u8], offset: Option<u32>) -> Error {
        match (self.stream, &self.name) {
            (None, None) => Error { name: Some(String::from_utf8_lossy(name).into()), offset, ..self },
            _ => self,
        }
    }
}

impl From<ErrorKind> for Error {
    fn from(kind: ErrorKind) -> Error {
        Error { kind, stream: None, name: None, offset: None }
    }
}

impl fmt::Display for Error {
    fn fmt(&self, f: &mut fmt::Formatter<'_>) -> fmt::Result {
        self.kind.fmt(f)?;
        match (self.stream, &self.name) {
            (Some(stream), _) => write!(f, " [stream {stream}")?,
            (None, Some(name)) => write!(f, " [stream {name}")?,
            (None, None) => return Ok(()),
        }
        self.offset.map_or(Ok(()), |offset| write!(f, " byte {offset:#x}"))?;
        f.write_str("]")
    }
}

impl std::error::Error for Error {}

macro_rules! errors {
    ($( $(#[$about:meta])* $number:ident $name:ident $({ $($(#[$of:meta])* $field:ident: $place:ident),* })? )*) => {
        /// The errors of a file, and those of the library.
        #[derive(Debug, Clone, Copy, PartialEq, Eq)]
        #[non_exhaustive]
        pub enum ErrorKind {
            $( $(#[$about])* $name $({ $($(#[$of])* $field: u32),* })?, )*
            /// The library that is linked is of another version than this crate.
            LibraryVersion {
                /// Its version, as `PDB_VERSION` of the header.
                version: u32,
            },
            /// Any other status of the library.
            Other {
                /// The status, one of `enum pdb_status` of the header.
                status: u32,
                /// The first number of the fault.
                first: u32,
                /// The second number of the fault.
                second: u32,
            },
        }

        impl ErrorKind {
            fn of(fault: &sys::Fault) -> ErrorKind {
                match fault.status {
                    $( sys::$number => ErrorKind::$name $({ $($field: fault.$place),* })?, )*
                    status => ErrorKind::Other { status, first: fault.first, second: fault.second },
                }
            }

            fn fault(self) -> sys::Fault {
                match self {
                    $( ErrorKind::$name $({ $($field),* })? => sys::Fault {
                        status: sys::$number,
                        $( $($place: $field,)* )?
                        ..sys::Fault::default()
                    }, )*
                    ErrorKind::LibraryVersion { .. } => sys::Fault::default(),
                    ErrorKind::Other { status, first, second } => sys::Fault { status, first, second },
                }
            }
        }
    };
}

errors! {
    /// The file has no known magic, or fewer than 4096 bytes.
    PDB_UNRECOGNIZED_FILE_FORMAT UnrecognizedFileFormat
    /// A page number is 0, or above the number of used pages.
    PDB_PAGE_REFERENCE_OUT_OF_RANGE PageReferenceOutOfRange {
        /// The page.
        page: first
    }
    /// The page size is no power of two from 256 to 8,388,608.
    PDB_INVALID_PAGE_SIZE InvalidPageSize {
        /// The size.
        size: first
    }
    /// There is no such stream.
    PDB_STREAM_NOT_FOUND StreamNotFound {
        /// Its number.
        number: first
    }
    /// No stream has this name.
    PDB_STREAM_NAME_NOT_FOUND StreamNameNotFound
    /// A stream's length is not a multiple of the length of its records.
    PDB_INVALID_STREAM_LENGTH InvalidStreamLength {
        /// Tells which stream, in the text of the error.
        text: first
    }
    /// The file ends too soon.
    PDB_IO_ERROR Io {
        /// 1: the file ends too soon.
        why: first
    }
    /// The bytes end before the value that is to be read from them does.
    PDB_UNEXPECTED_EOF UnexpectedEof
    /// A part of the format that is not read.
    PDB_UNIMPLEMENTED_FEATURE UnimplementedFeature {
        /// Tells which part, in the text of the error.
        text: first
    }
    /// The header of a table of types or ids is damaged.
    PDB_INVALID_TYPE_INFORMATION_HEADER InvalidTypeInformationHeader {
        /// Tells how, in the text of the error.
        text: first
    }
    /// The length of an item leaves no room for its kind.
    PDB_TYPE_TOO_SHORT TypeTooShort
    /// The table has no type or id of this index.
    PDB_TYPE_NOT_FOUND TypeNotFound {
        /// The index.
        index: first
    }
    /// A record of a kind that is not read, such as `LF_LABEL` or `LF_VFTABLE`.
    PDB_UNIMPLEMENTED_TYPE_KIND UnimplementedTypeKind {
        /// The kind.
        kind: first
    }
    /// A number begins with a prefix that announces no width.
    PDB_UNEXPECTED_NUMERIC_PREFIX UnexpectedNumericPrefix {
        /// The prefix.
        prefix: first
    }
    /// The file has no address map, since it has no section headers.
    PDB_ADDRESS_MAP_NOT_FOUND AddressMapNotFound
    /// An allocation failed.
    PDB_OUT_OF_MEMORY OutOfMemory
}

impl fmt::Display for ErrorKind {
    fn fmt(&self, f: &mut fmt::Formatter<'_>) -> fmt::Result {
        if let ErrorKind::LibraryVersion { version } = self {
            return write!(f, "the library is of version {}.{}", version / 10_000, version / 100 % 100);
        }
        let fault = self.fault();
        // SAFETY: each pointer is to a value of its own, and the length is the array's.
        let text = items(256, |to, size, count| unsafe { sys::pdb_fault_text(&fault, to, size, count) });
        match text {
            Ok(Some(text)) => f.write_str(&String::from_utf8_lossy(&text)),
            _ => write!(f, "status {} of the library", fault.status),
        }
    }
}
