use std::{fmt, io};

use crate::ErrorKind;

/// The result of a call of this module. With a second parameter it is the standard library's.
pub type Result<T, E = Error> = std::result::Result<T, E>;

/// Why a file, or a part of it, can't be read.
#[derive(Debug)]
#[non_exhaustive]
pub enum Error {
    /// The file has no known magic, or fewer than 4096 bytes.
    UnrecognizedFileFormat,
    /// A page number is 0, or above the number of used pages.
    PageReferenceOutOfRange(u32),
    /// The page size is no power of two from 256 to 8,388,608.
    InvalidPageSize(u32),
    /// There is no stream of this number.
    StreamNotFound(u32),
    /// No stream has this name.
    StreamNameNotFound,
    /// A stream's length is not a multiple of the length of its records.
    InvalidStreamLength(crate::Error),
    /// The source can't be read.
    IoError(io::Error),
    /// The bytes end before the value that is to be read from them does.
    UnexpectedEof,
    /// A part of the format that is not read.
    UnimplementedFeature(crate::Error),
    /// The header of a table of types or ids is damaged.
    InvalidTypeInformationHeader(crate::Error),
    /// The length of an item leaves no room for its kind.
    TypeTooShort,
    /// There is no type or id of this index.
    TypeNotFound(u32),
    /// A finder was not updated up to this index, but only up to the other one. No call gives it, since each item is
    /// found without an update.
    TypeNotIndexed(u32, u32),
    /// A record of a kind that is not read.
    UnimplementedTypeKind(u16),
    /// A number begins with a prefix that announces no width.
    UnexpectedNumericPrefix(u16),
    /// The file has no section headers, and so no address map.
    AddressMapNotFound,
    /// Any other error of the library.
    Other(crate::Error),
}

impl From<crate::Error> for Error {
    fn from(error: crate::Error) -> Error {
        match error.kind {
            ErrorKind::UnrecognizedFileFormat => Error::UnrecognizedFileFormat,
            ErrorKind::PageReferenceOutOfRange { page } => Error::PageReferenceOutOfRange(page),
            ErrorKind::InvalidPageSize { size } => Error::InvalidPageSize(size),
            ErrorKind::StreamNotFound { number } => Error::StreamNotFound(number),
            ErrorKind::StreamNameNotFound => Error::StreamNameNotFound,
            ErrorKind::InvalidStreamLength { .. } => Error::InvalidStreamLength(error),
            ErrorKind::Io { .. } => Error::IoError(io::Error::new(io::ErrorKind::UnexpectedEof, error)),
            ErrorKind::UnexpectedEof => Error::UnexpectedEof,
            ErrorKind::UnimplementedFeature { .. } => Error::UnimplementedFeature(error),
            ErrorKind::InvalidTypeInformationHeader { .. } => Error::InvalidTypeInformationHeader(error),
            ErrorKind::TypeTooShort => Error::TypeTooShort,
            ErrorKind::TypeNotFound { index } => Error::TypeNotFound(index),
            ErrorKind::UnimplementedTypeKind { kind } => Error::UnimplementedTypeKind(kind as u16),
            ErrorKind::UnexpectedNumericPrefix { prefix } => Error::UnexpectedNumericPrefix(prefix as u16),
            ErrorKind::AddressMapNotFound => Error::AddressMapNotFound,
            _ => Error::Other(error),
        }
    }
}

impl From<io::Error> for Error {
    fn from(error: io::Error) -> Error {
        Error::IoError(error)
    }
}

impl fmt::Display for Error {
    fn fmt(&self, f: &mut fmt::Formatter<'_>) -> fmt::Result {
        let kind = match *self {
            Error::IoError(ref error) => return write!(f, "IO error while reading PDB: {error}"),
            Error::InvalidStreamLength(ref error)
            | Error::UnimplementedFeature(ref error)
            | Error::InvalidTypeInformationHeader(ref error)
            | Error::Other(ref error) => return error.fmt(f),
            Error::UnrecognizedFileFormat => ErrorKind::UnrecognizedFileFormat,
            Error::PageReferenceOutOfRange(page) => ErrorKind::PageReferenceOutOfRange { page },
            Error::InvalidPageSize(size) => ErrorKind::InvalidPageSize { size },
            Error::StreamNotFound(number) => ErrorKind::StreamNotFound { number },
            Error::StreamNameNotFound => ErrorKind::StreamNameNotFound,
            Error::UnexpectedEof => ErrorKind::UnexpectedEof,
            Error::TypeTooShort => ErrorKind::TypeTooShort,
            Error::TypeNotFound(index) | Error::TypeNotIndexed(index, _) => ErrorKind::TypeNotFound { index },
            Error::UnimplementedTypeKind(kind) => ErrorKind::UnimplementedTypeKind { kind: kind.into() },
            Error::UnexpectedNumericPrefix(prefix) => ErrorKind::UnexpectedNumericPrefix { prefix: prefix.into() },
            Error::AddressMapNotFound => ErrorKind::AddressMapNotFound,
        };
        kind.fmt(f)
    }
}

impl std::error::Error for Error {
    fn source(&self) -> Option<&(dyn std::error::Error + 'static)> {
        match self {
            Error::IoError(error) => Some(error),
            _ => None,
        }
    }
}
