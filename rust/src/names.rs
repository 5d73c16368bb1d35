use std::borrow::Cow;
use std::fmt;

use crate::error::{ErrorKind, Result};
use crate::file::Pdb;
use crate::handle::Handle;
use crate::sys;

/// A name, borrowed from the stream that has it. It is most often UTF-8, which nothing ensures, and is printed with
/// U+FFFD for what is not.
#[derive(Clone, Copy, Default, PartialEq, Eq, PartialOrd, Ord, Hash)]
pub struct Name<'a>(&'a [u8]);

impl<'a> Name<'a> {
    pub(crate) fn new(bytes: &'a [u8]) -> Name<'a> {
        Name(bytes)
    }

    /// The bytes of the name, without its NUL.
    pub fn as_bytes(self) -> &'a [u8] {
        self.0
    }

    /// The name as text, with U+FFFD for what is not UTF-8.
    pub fn to_string_lossy(self) -> Cow<'a, str> {
        String::from_utf8_lossy(self.0)
    }
}

impl fmt::Display for Name<'_> {
    fn fmt(&self, f: &mut fmt::Formatter<'_>) -> fmt::Result {
        f.pad(&self.to_string_lossy())
    }
}

impl fmt::Debug for Name<'_> {
    fn fmt(&self, f: &mut fmt::Formatter<'_>) -> fmt::Result {
        write!(f, "{:?}", self.to_string_lossy())
    }
}

impl PartialEq<str> for Name<'_> {
    fn eq(&self, other: &str) -> bool {
        self.0 == other.as_bytes()
    }
}

impl PartialEq<&str> for Name<'_> {
    fn eq(&self, other: &&str) -> bool {
        self.0 == other.as_bytes()
    }
}

impl PartialEq<[u8]> for Name<'_> {
    fn eq(&self, other: &[u8]) -> bool {
        self.0 == other
    }
}

impl AsRef<[u8]> for Name<'_> {
    fn as_ref(&self) -> &[u8] {
        self.0
    }
}

/// The stream that has the string table, and how many of its bytes stand before the names.
const STREAM: &[u8] = b"/names";
const HEADER: u32 = 12;

/// A string table, and the stream that has it.
pub struct Names {
    stream: Vec<u8>,
    table: Handle,
}

impl fmt::Debug for Names {
    fn fmt(&self, f: &mut fmt::Formatter<'_>) -> fmt::Result {
        f.debug_struct("Names").field("bytes", &self.stream.len()).finish_non_exhaustive()
    }
}

/// The offset of each name of a string table, and the name, in their order.
#[derive(Debug, Clone)]
pub struct NameIter<'n> {
    names: &'n Names,
    next: Option<u32>,
}

impl<'n> Iterator for NameIter<'n> {
    type Item = Result<(u32, Name<'n>)>;

    fn next(&mut self) -> Option<Self::Item> {
        let offset = self.next.take()?;
        match self.names.get(offset) {
            Ok(name) => {
                // Right after the NUL.
                self.next = u32::try_from(name.0.len()).ok().and_then(|it| offset.checked_add(it)?.checked_add(1));
                Some(Ok((offset, name)))
            }
            Err(error) if error.kind == ErrorKind::UnexpectedEof => None,
            Err(error) => Some(Err(error)),
        }
    }
}

impl std::iter::FusedIterator for NameIter<'_> {}

impl Names {
    pub(crate) fn open(pdb: &Pdb<'_>) -> Result<Names> {
        let stream = pdb.named_stream(STREAM)?;
        // SAFETY: the file is open, and the handle is all zero.
        let table = pdb.file.table(|file, names| unsafe { sys::pdb_names_open(file, names) });
        Ok(Names { stream, table: table.map_err(|error| error.in_named(STREAM, None))? })
    }

    /// The name at an offset of the table.
    pub fn get(&self, offset: u32) -> Result<Name<'_>> {
        // SAFETY: the arrays are of one item, and the places stay in one call.
        let place =
            self.table.value(|names, place| unsafe { sys::pdb_names_places(names, &offset, 1, place, 1, &mut 0) });
        let name = place.and_then(|place| match place {
            Some(sys::Name { offset: 0, .. }) | None => Err(ErrorKind::UnexpectedEof.into()),
            Some(place) => Ok(Name(&self.stream[place.offset..][..place.length])),
        });
        name.map_err(|error| error.in_named(STREAM, offset.checked_add(HEADER)))
    }

    /// The offset of each name, and the name, in their order.
    pub fn iter(&self) -> NameIter<'_> {
        NameIter { names: self, next: Some(0) }
    }
}
