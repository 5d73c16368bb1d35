use crate::error::Result;
use crate::file::Guid;
use crate::handle::{Handle, items};
use crate::sys;

/// What identifies a file.
#[derive(Debug, Clone, Copy, PartialEq, Eq)]
pub struct Identity {
    /// The version of the format, such as 20000404 for version 7.
    pub version: u32,
    /// The time at which the file was made, in seconds since 1970, or a hash in its place.
    pub signature: u32,
    /// The age in stream 1: how often the file was written.
    pub information_age: u32,
    /// What an image that belongs to the file names.
    pub guid: Guid,
    /// The features that the file tells of itself, None if stream 1 ends before them, among the names of streams.
    pub features: Option<Features>,
    /// What the debug information says, None if there is none, as in the file of a type server.
    pub debug: Option<DebugIdentity>,
}

/// The features that a file tells of itself, in the numbers after the names of streams in stream 1.
#[derive(Debug, Clone, Copy, Default, PartialEq, Eq)]
pub struct Features {
    /// The file is in the format of Visual C++ 11, with a table of ids. No other feature is read after this one.
    pub vc110: bool,
    /// The file is in the format of Visual C++ 14, with a table of ids.
    pub vc140: bool,
    /// The types of the object files are not merged.
    pub no_type_merge: bool,
    /// The debug information is minimal, as /DEBUG:FASTLINK makes it: the rest is in the object files.
    pub minimal: bool,
}

impl Features {
    fn of(bits: u32) -> Features {
        Features {
            vc110: bits & sys::PDB_FEATURE_VC110 != 0,
            vc140: bits & sys::PDB_FEATURE_VC140 != 0,
            no_type_merge: bits & sys::PDB_FEATURE_NO_TYPE_MERGE != 0,
            minimal: bits & sys::PDB_FEATURE_MINIMAL != 0,
        }
    }
}

/// What the debug information of a file says of it.
#[derive(Debug, Clone, Copy, PartialEq, Eq)]
pub struct DebugIdentity {
    /// The age of the debug information.
    pub age: u32,
    /// The machine for which the program is, as the header of an image numbers it, such as 0x8664 for x86-64.
    pub machine: u16,
    /// Flags, added up: 1 if the file was linked incrementally, 2 if private symbols are stripped, 4 if types may
    /// conflict.
    pub flags: u16,
}

/// The forms of a key.
#[derive(Debug, Clone, Copy, PartialEq, Eq)]
#[repr(u32)]
pub enum KeyForm {
    /// As symbol stores and Breakpad have it: the GUID and then the age, in hexadecimal digits, in upper case.
    Upper = sys::PDB_KEY_UPPER,
    /// The same in lower case, as SSQP has it.
    Lower = sys::PDB_KEY_LOWER,
    /// The GUID alone, in upper case and with hyphens.
    Guid = sys::PDB_KEY_GUID,
}

// SAFETY, in all of this file: slices are as long as they say, and places that the library writes stay in one call.

impl Identity {
    pub(crate) fn of(file: &Handle<sys::File>) -> Result<Identity> {
        let found = file.value(|file, to| unsafe { sys::pdb_file_identity(file, to) })?.unwrap_or_default();
        let sys::Identity { version, signature, information_age, guid, debug_age, machine, flags, .. } = found;
        let debug = DebugIdentity { age: debug_age, machine, flags };
        let debug = (found.has_debug_header != 0).then_some(debug);
        let features = (found.has_features != 0).then(|| Features::of(found.features));
        Ok(Identity { version, signature, information_age, guid: Guid(guid), features, debug })
    }

    /// The age in the key: that of the debug information, or that of stream 1 if there is none.
    pub fn age(&self) -> u32 {
        self.debug.map_or(self.information_age, |debug| debug.age)
    }

    /// The key under which a symbol server stores the file.
    pub fn key(&self, form: KeyForm) -> Result<String> {
        let about = sys::Identity { age: self.age(), guid: self.guid.0, ..sys::Identity::default() };
        let text = items(64, |to, size, count| unsafe { sys::pdb_key(&about, form as u32, to, size, count) })?;
        Ok(String::from_utf8_lossy(&text.unwrap_or_default()).into_owned())
    }
}

/// What a file is, as its first bytes say.
#[derive(Debug, Clone, Copy, PartialEq, Eq)]
#[non_exhaustive]
pub enum Format {
    /// A program database in a multi-stream file of version 7.00, which this library reads.
    Msf7,
    /// A program database in a multi-stream file of version 2.00.
    Msf2,
    /// A portable program database, of .NET.
    Portable,
    /// A cabinet, in which symbol servers keep a compressed file.
    Compressed,
    /// A program or a library.
    Image,
    /// None of these.
    Unknown,
}

impl Format {
    /// What a file is that begins with these bytes. The first 42 bytes decide.
    pub fn of(file: &[u8]) -> Format {
        match unsafe { sys::pdb_format_of(file.as_ptr(), file.len()) } {
            sys::PDB_FORMAT_MSF_7 => Format::Msf7,
            sys::PDB_FORMAT_MSF_2 => Format::Msf2,
            sys::PDB_FORMAT_PORTABLE => Format::Portable,
            sys::PDB_FORMAT_COMPRESSED => Format::Compressed,
            sys::PDB_FORMAT_IMAGE => Format::Image,
            _ => Format::Unknown,
        }
    }
}
