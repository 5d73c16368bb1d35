//! The names of the Rust crate `pdb` 0.8, for the part of a file that this library reads: a program that stays within it
//! compiles when its `use pdb::` becomes `use pdb_container::pdb::`.
//!
//! ```
//! use pdb_container::pdb::{FallibleIterator, PDB, TypeData};
//!
//! let mut pdb = PDB::open(std::fs::File::open("../examples/sample.pdb")?)?;
//! let information = pdb.type_information()?;
//! let mut finder = information.finder();
//! let mut types = information.iter();
//! while let Some(item) = types.next()? {
//!     finder.update(&types);
//!     if let Ok(TypeData::Class(class)) = item.parse() {
//!         println!("{}: {}", item.index(), class.name);
//!     }
//! }
//! # Ok::<(), Box<dyn std::error::Error>>(())
//! ```
//!
//! What differs is on the page `docs/FROM_PDB_CRATE.md` of the repository. Besides: a finder finds each item at once, also
//! without an update; a GUID is a [`Guid`]; and what is above this layer, the symbols, modules and lines, is not there.

/// Numbers that have types of their own, and are printed in hexadecimal digits.
macro_rules! numbers {
    ($($(#[$about:meta])* $name:ident)*) => {
        $(
            $(#[$about])*
            #[derive(Clone, Copy, Default, PartialEq, Eq, PartialOrd, Ord, Hash)]
            pub struct $name(pub u32);

            impl From<u32> for $name {
                fn from(number: u32) -> $name {
                    $name(number)
                }
            }

            impl From<$name> for u32 {
                fn from(number: $name) -> u32 {
                    number.0
                }
            }

            impl std::fmt::Display for $name {
                fn fmt(&self, f: &mut std::fmt::Formatter<'_>) -> std::fmt::Result {
                    write!(f, "{:#x}", self.0)
                }
            }

            impl std::fmt::Debug for $name {
                fn fmt(&self, f: &mut std::fmt::Formatter<'_>) -> std::fmt::Result {
                    write!(f, concat!(stringify!($name), "({})"), self)
                }
            }
        )*
    };
}

mod addresses;
mod errors;
mod flags;
mod items;
mod iterator;
mod primitives;
mod source;
mod types;

use std::borrow::Cow;
use std::fmt;
use std::io;
use std::marker::PhantomData;
use std::ops::Deref;

pub use crate::file::Guid;
use crate::{Ids, sys};
pub use addresses::{
    AddressMap, FrameData, FrameDataIter, FrameTable, FrameType, ImageSectionHeader, PdbInternalRva,
    PdbInternalRvaRangeIter, PdbInternalSectionOffset, Rva, RvaRangeIter, SectionCharacteristics, SectionOffset,
};
pub use errors::{Error, Result};
pub use flags::{FieldAttributes, FunctionAttributes, PointerAttributes, PointerKind, PointerMode, TypeProperties};
pub use items::{
    Id, IdFinder, IdIndex, IdInformation, IdIter, Item, ItemFinder, ItemIndex, ItemInformation, ItemIter, Type,
    TypeFinder, TypeIndex, TypeInformation, TypeIter,
};
pub use iterator::FallibleIterator;
pub use source::{Source, SourceSlice, SourceView};
pub use types::*;

/// A program database, whose bytes are read when it is opened.
pub struct PDB<'s, S> {
    bytes: Vec<u8>,
    source: PhantomData<(&'s (), S)>,
}

impl<S> fmt::Debug for PDB<'_, S> {
    fn fmt(&self, f: &mut fmt::Formatter<'_>) -> fmt::Result {
        f.debug_struct("PDB").field("bytes", &self.bytes.len()).finish_non_exhaustive()
    }
}

impl<'s, S: Source<'s>> PDB<'s, S> {
    /// Reads the whole of a source, whose header and directory have to be those of a program database.
    pub fn open(mut source: S) -> Result<PDB<'s, S>> {
        let bytes = match source.file() {
            Err(error) if error.kind() == io::ErrorKind::UnexpectedEof => return Err(Error::UnrecognizedFileFormat),
            bytes => bytes?,
        };
        crate::Pdb::parse(&bytes)?;
        Ok(PDB { bytes, source: PhantomData })
    }

    fn file(&self) -> Result<crate::Pdb<'_>> {
        Ok(crate::Pdb::parse(&self.bytes)?)
    }

    /// The numbers and the names of streams in stream 1.
    pub fn pdb_information(&mut self) -> Result<PDBInformation<'s>> {
        let file = self.file()?;
        let crate::Information { version, signature, age, guid } = file.information()?;
        Ok(PDBInformation { version, signature, age, guid, streams: file.named_streams()?, file: PhantomData })
    }

    /// The table of types.
    pub fn type_information(&mut self) -> Result<TypeInformation<'s>> {
        Ok(ItemInformation::of(Ids::open(&self.file()?, sys::PDB_TYPES)?))
    }

    /// The table of ids.
    pub fn id_information(&mut self) -> Result<IdInformation<'s>> {
        Ok(ItemInformation::of(self.file()?.ids()?))
    }

    /// The string table.
    pub fn string_table(&mut self) -> Result<StringTable<'s>> {
        Ok(StringTable { names: self.file()?.names()?, file: PhantomData })
    }

    /// The headers of the sections of the image, if the file has them.
    pub fn sections(&mut self) -> Result<Option<Vec<ImageSectionHeader>>> {
        let (file, roles) = (self.file()?, self.file()?.roles()?);
        Ok(roles.section_headers.map(|_| file.sections()).transpose()?.map(addresses::headers))
    }

    /// The address map.
    pub fn address_map(&mut self) -> Result<AddressMap<'s>> {
        Ok(AddressMap::of(self.file()?.address_map()?))
    }

    /// The frame table.
    pub fn frame_table(&mut self) -> Result<FrameTable<'s>> {
        FrameTable::of(self.file()?.frames()?)
    }

    /// The bytes of the first stream of a name.
    pub fn named_stream(&mut self, name: &[u8]) -> Result<Stream<'s>> {
        Ok(Stream { bytes: self.file()?.named_stream(name)?, file: PhantomData })
    }

    /// The bytes of the stream that an index names, None if it names none.
    pub fn raw_stream(&mut self, index: StreamIndex) -> Result<Option<Stream<'s>>> {
        if index.is_none() {
            return Ok(None);
        }
        Ok(Some(Stream { bytes: self.file()?.stream(index.0.into())?, file: PhantomData }))
    }
}

/// The number of a stream, or 0xffff for none.
#[derive(Debug, Clone, Copy, PartialEq, Eq, PartialOrd, Ord, Hash)]
pub struct StreamIndex(pub u16);

impl StreamIndex {
    /// The index that names no stream.
    pub fn none() -> StreamIndex {
        StreamIndex(sys::PDB_NO_STREAM as u16)
    }

    /// Whether it names no stream.
    pub fn is_none(self) -> bool {
        self == StreamIndex::none()
    }

    /// Whether it names a stream, which the file may lack.
    pub fn is_some(self) -> bool {
        !self.is_none()
    }

    /// The bytes of the stream that it names, None if it names none.
    pub fn get<'s, S: Source<'s>>(self, pdb: &mut PDB<'s, S>) -> Result<Option<Stream<'s>>> {
        pdb.raw_stream(self)
    }
}

impl Default for StreamIndex {
    fn default() -> StreamIndex {
        StreamIndex::none()
    }
}

impl fmt::Display for StreamIndex {
    fn fmt(&self, f: &mut fmt::Formatter<'_>) -> fmt::Result {
        if self.is_none() { f.write_str("None") } else { self.0.fmt(f) }
    }
}

/// The bytes of a stream.
#[derive(Debug, Clone)]
pub struct Stream<'s> {
    bytes: Vec<u8>,
    file: PhantomData<&'s ()>,
}

impl Stream<'_> {
    /// The bytes.
    pub fn as_slice(&self) -> &[u8] {
        &self.bytes
    }
}

impl Deref for Stream<'_> {
    type Target = [u8];

    fn deref(&self) -> &[u8] {
        &self.bytes
    }
}

/// What stream 1 says of the file.
#[derive(Debug)]
pub struct PDBInformation<'s> {
    /// The version of the format, such as 20000404 for version 7.
    pub version: u32,
    /// The time at which the file was made, in seconds since 1970.
    pub signature: u32,
    /// How often the file was written.
    pub age: u32,
    /// What an image that belongs to the file names.
    pub guid: Guid,
    streams: Vec<crate::NamedStream>,
    file: PhantomData<&'s ()>,
}

impl PDBInformation<'_> {
    /// The streams that have names.
    pub fn stream_names(&self) -> Result<StreamNames<'_>> {
        let named = self.streams.iter().filter_map(|it| {
            let stream_id = StreamIndex(it.number.and_then(|number| number.try_into().ok())?);
            Some(StreamName { name: RawString(it.name()), stream_id })
        });
        Ok(StreamNames(named.collect()))
    }
}

/// A stream that has a name.
#[derive(Debug, Clone, Copy, PartialEq, Eq)]
pub struct StreamName<'n> {
    /// Its name.
    pub name: RawString<'n>,
    /// Its number.
    pub stream_id: StreamIndex,
}

/// The streams that have names, in the order of the file.
#[derive(Debug, Clone)]
pub struct StreamNames<'n>(Vec<StreamName<'n>>);

impl<'n> StreamNames<'n> {
    /// Each of them.
    pub fn iter(&self) -> std::slice::Iter<'_, StreamName<'n>> {
        self.0.iter()
    }
}

impl<'a, 'n> IntoIterator for &'a StreamNames<'n> {
    type Item = &'a StreamName<'n>;
    type IntoIter = std::slice::Iter<'a, StreamName<'n>>;

    fn into_iter(self) -> Self::IntoIter {
        self.iter()
    }
}

impl<'n> IntoIterator for StreamNames<'n> {
    type Item = StreamName<'n>;
    type IntoIter = std::vec::IntoIter<StreamName<'n>>;

    fn into_iter(self) -> Self::IntoIter {
        self.0.into_iter()
    }
}

/// A name, which is most often UTF-8; nothing ensures that.
#[derive(Clone, Copy, Default, PartialEq, Eq, PartialOrd, Ord, Hash)]
pub struct RawString<'b>(pub(crate) crate::Name<'b>);

impl<'b> RawString<'b> {
    /// Its bytes, without a NUL.
    pub fn as_bytes(&self) -> &'b [u8] {
        self.0.as_bytes()
    }

    /// How many bytes it has.
    pub fn len(&self) -> usize {
        self.as_bytes().len()
    }

    /// Whether it has no bytes.
    pub fn is_empty(&self) -> bool {
        self.as_bytes().is_empty()
    }

    /// The name as text, with U+FFFD for what is not UTF-8. Nothing is copied if all of it is.
    #[allow(clippy::inherent_to_string_shadow_display, clippy::wrong_self_convention)] // the name in that crate
    pub fn to_string(&self) -> Cow<'b, str> {
        self.0.to_string_lossy()
    }
}

impl fmt::Display for RawString<'_> {
    fn fmt(&self, f: &mut fmt::Formatter<'_>) -> fmt::Result {
        self.0.fmt(f)
    }
}

impl fmt::Debug for RawString<'_> {
    fn fmt(&self, f: &mut fmt::Formatter<'_>) -> fmt::Result {
        fmt::Debug::fmt(&self.0, f)
    }
}

impl<'b> From<&'b str> for RawString<'b> {
    fn from(text: &'b str) -> RawString<'b> {
        text.as_bytes().into()
    }
}

impl<'b> From<&'b [u8]> for RawString<'b> {
    fn from(bytes: &'b [u8]) -> RawString<'b> {
        RawString(crate::Name::new(bytes))
    }
}

numbers! {
    /// The offset of a name in the string table.
    StringRef
}

impl StringRef {
    /// The name.
    pub fn to_raw_string<'s>(self, strings: &'s StringTable<'_>) -> Result<RawString<'s>> {
        strings.get(self)
    }

    /// The name as text.
    pub fn to_string_lossy<'s>(self, strings: &'s StringTable<'_>) -> Result<Cow<'s, str>> {
        Ok(strings.get(self)?.to_string())
    }
}

/// The string table, which is the stream `/names`.
#[derive(Debug)]
pub struct StringTable<'s> {
    names: crate::Names,
    file: PhantomData<&'s ()>,
}

impl StringTable<'_> {
    /// The name at an offset.
    pub fn get(&self, offset: StringRef) -> Result<RawString<'_>> {
        Ok(RawString(self.names.get(offset.0)?))
    }
}
