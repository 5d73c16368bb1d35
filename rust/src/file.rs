use std::fmt;

use crate::addresses::{AddressMap, Omap, Section, sections};
use crate::error::{ErrorKind, Result};
use crate::frames::Frames;
use crate::handle::Handle;
use crate::identity::Identity;
use crate::ids::Ids;
use crate::layouts::Definitions;
use crate::names::{Name, Names};
use crate::sys;
use crate::table::Table;
use crate::types::Types;

/// A program database over bytes that it borrows: its header and its directory are kept.
pub struct Pdb<'f> {
    bytes: &'f [u8],
    pub(crate) file: Handle<sys::File>,
    sizes: sys::Sizes,
}

impl fmt::Debug for Pdb<'_> {
    fn fmt(&self, f: &mut fmt::Formatter<'_>) -> fmt::Result {
        f.debug_struct("Pdb").field("bytes", &self.bytes.len()).field("sizes", &self.sizes).finish_non_exhaustive()
    }
}

// SAFETY, in all of this file: slices are as long as they say, and places that the library writes stay in one call.

impl<'f> Pdb<'f> {
    /// Reads the header and the directory of a file.
    pub fn parse(bytes: &'f [u8]) -> Result<Pdb<'f>> {
        let file = Handle::open(|file| unsafe { sys::pdb_file_open(bytes.as_ptr(), bytes.len(), file) })?;
        let sizes = file.value(|file, sizes| unsafe { sys::pdb_file_sizes(file, sizes) })?.unwrap_or_default();
        Ok(Pdb { bytes, file, sizes })
    }

    /// The bytes of the file.
    pub fn bytes(&self) -> &'f [u8] {
        self.bytes
    }

    /// The size of the file's pages in bytes.
    pub fn page_size(&self) -> u32 {
        self.sizes.page_size
    }

    /// How many streams the directory has, including absent ones. Their numbers are those below this count.
    pub fn stream_count(&self) -> u32 {
        self.sizes.stream_count
    }

    /// The size of a stream in bytes, as the directory gives it.
    pub fn stream_size(&self, number: u32) -> Result<u32> {
        let size = self.file.value(|file, size| unsafe { sys::pdb_file_stream_size(file, number, size) });
        let size = size.and_then(|size| Ok(size.ok_or(ErrorKind::StreamNotFound { number })?));
        size.map_err(|error| error.at(Some(number), None))
    }

    /// The bytes of a stream.
    pub fn stream(&self, number: u32) -> Result<Vec<u8>> {
        self.stream_prefix(number, usize::MAX)
    }

    /// The bytes of a stream, at most `limit` of them.
    pub fn stream_prefix(&self, number: u32, limit: usize) -> Result<Vec<u8>> {
        let bytes = self
            .file
            .stream(|file, to, size, count| unsafe { sys::pdb_file_stream(file, number, limit, to, size, count) });
        bytes.map_err(|error| error.at(Some(number), None))
    }

    /// The numbers that identify the file.
    pub fn information(&self) -> Result<Information> {
        let Identity { version, signature, information_age: age, guid, .. } = self.identity()?;
        Ok(Information { version, signature, age, guid })
    }

    /// What identifies the file, and its key.
    pub fn identity(&self) -> Result<Identity> {
        Identity::of(&self.file)
    }

    /// The streams that have names, in the order in which the file lists them.
    pub fn named_streams(&self) -> Result<Vec<NamedStream>> {
        let found =
            self.file.named_items(|file, to: *mut sys::NamedStream, size, count, names, room, length| unsafe {
                sys::pdb_file_stream_names(file, to, size, count, names, room, length)
            })?;
        let (rows, names) = found.unwrap_or_default();
        let streams = rows.iter().map(|row| NamedStream {
            name: names[row.name_offset..][..row.name_length].to_vec(),
            number: Some(row.number).filter(|it| *it != sys::PDB_NO_STREAM),
        });
        Ok(streams.collect())
    }

    /// The bytes of the first stream with this name, such as `/names`.
    pub fn named_stream(&self, name: impl AsRef<[u8]>) -> Result<Vec<u8>> {
        let name = name.as_ref();
        let bytes = self.file.stream(|file, to, size, count| unsafe {
            sys::pdb_file_named_stream(file, name.as_ptr(), name.len(), to, size, count)
        });
        bytes.map_err(|error| error.in_named(name, None))
    }

    /// The numbers of the streams in eleven roles.
    pub fn roles(&self) -> Result<Roles> {
        let found = self.file.value(|file, to| unsafe { sys::pdb_file_roles(file, to) })?;
        Ok(Roles::of(&found.unwrap_or_default()))
    }

    /// The table of types.
    pub fn types(&self) -> Result<Types> {
        Ok(Types(Definitions(Table::open(self, sys::PDB_TYPES)?)))
    }

    /// The table of ids.
    pub fn ids(&self) -> Result<Ids> {
        Ids::open(self, sys::PDB_IDS)
    }

    /// The string table, which is the stream `/names`.
    pub fn names(&self) -> Result<Names> {
        Names::open(self)
    }

    /// The headers of the sections of the image, none if the file has no such stream.
    pub fn sections(&self) -> Result<Vec<Section>> {
        in_role(self.roles()?.section_headers, |number| sections(&self.file, number))
    }

    /// The headers of the sections that the image had before a tool rearranged it, none if the file has no such stream.
    pub fn original_sections(&self) -> Result<Vec<Section>> {
        in_role(self.roles()?.original_section_headers, |number| sections(&self.file, number))
    }

    /// The OMAP table by which addresses of the image as it is loaded go to the original image, if the file has one.
    pub fn omap_to_src(&self) -> Result<Option<Omap>> {
        in_role(self.roles()?.omap_to_src, |number| Omap::open(&self.file, number).map(Some))
    }

    /// The OMAP table by which addresses of the original image go to the image as it is loaded, if the file has one.
    pub fn omap_from_src(&self) -> Result<Option<Omap>> {
        in_role(self.roles()?.omap_from_src, |number| Omap::open(&self.file, number).map(Some))
    }

    /// The address map: the sections, and the OMAP tables of a tool that rearranged the image.
    pub fn address_map(&self) -> Result<AddressMap> {
        AddressMap::open(&self.file)
    }

    /// The frame table.
    pub fn frames(&self) -> Result<Frames> {
        Frames::open(&self.file)
    }
}

/// What is read of the stream in a role, nothing if the file has no such stream.
fn in_role<T: Default>(number: Option<u16>, read: impl FnOnce(u32) -> Result<T>) -> Result<T> {
    let Some(number) = number.map(u32::from) else { return Ok(T::default()) };
    read(number).map_err(|error| error.at(Some(number), None))
}

/// The numbers that identify a file.
#[derive(Debug, Clone, Copy, PartialEq, Eq)]
pub struct Information {
    /// The version of the format, such as 20000404 for version 7.
    pub version: u32,
    /// The time at which the file was made, in seconds since 1970, or a hash in its place.
    pub signature: u32,
    /// How often the file was written.
    pub age: u32,
    /// What an image that belongs to the file names.
    pub guid: Guid,
}

/// A GUID, by its bytes as they stand in the file. It is printed as `01234567-89AB-CDEF-0123-456789ABCDEF`.
#[derive(Debug, Clone, Copy, PartialEq, Eq, Hash)]
pub struct Guid(pub [u8; 16]);

impl fmt::Display for Guid {
    fn fmt(&self, f: &mut fmt::Formatter<'_>) -> fmt::Result {
        let [a, b, c, d, e, g, h, i, rest @ ..] = self.0;
        write!(f, "{:08X}", u32::from_le_bytes([a, b, c, d]))?;
        write!(f, "-{:04X}-{:04X}-", u16::from_le_bytes([e, g]), u16::from_le_bytes([h, i]))?;
        for (at, byte) in rest.iter().enumerate() {
            write!(f, "{}{byte:02X}", if at == 2 { "-" } else { "" })?;
        }
        Ok(())
    }
}

/// A stream that has a name.
#[derive(Debug, Clone, PartialEq, Eq)]
pub struct NamedStream {
    /// The bytes of its name.
    pub name: Vec<u8>,
    /// Its number, if the file gives one.
    pub number: Option<u32>,
}

impl NamedStream {
    /// Its name.
    pub fn name(&self) -> Name<'_> {
        Name::new(&self.name)
    }
}

macro_rules! roles {
    ($($(#[$about:meta])* $role:ident)*) => {
        /// The numbers of the streams in eleven roles, each None if the file has no such stream.
        #[derive(Debug, Clone, Copy, Default, PartialEq, Eq)]
        pub struct Roles { $($(#[$about])* pub $role: Option<u16>,)* }

        impl Roles {
            fn of(roles: &sys::Roles) -> Roles {
                Roles { $($role: Some(roles.$role).filter(|it| u32::from(*it) != sys::PDB_NO_STREAM),)* }
            }
        }
    };
}

roles! {
    /// Frames in the older format.
    fpo
    /// Exception data.
    exception
    /// Fixups.
    fixup
    /// The OMAP table from the image as it is loaded to the original one.
    omap_to_src
    /// The OMAP table from the original image to the image as it is loaded.
    omap_from_src
    /// The section headers of the image as it is loaded.
    section_headers
    /// Tokens of managed code.
    token_rid_map
    /// Data for unwinding.
    xdata
    /// The table of functions for unwinding.
    pdata
    /// Frames in the newer format.
    framedata
    /// The section headers of the original image.
    original_section_headers
}
