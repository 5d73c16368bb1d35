use std::cmp::Ordering;
use std::fmt;
use std::marker::PhantomData;
use std::ops::Range;

use super::{Error, FallibleIterator, Result, StringRef};
use crate::{Address, FrameKind, Translation};

/// The address map of a file: its sections, and the OMAP tables of a tool that rearranged the image.
#[derive(Debug)]
pub struct AddressMap<'s> {
    map: crate::AddressMap,
    file: PhantomData<&'s ()>,
}

impl AddressMap<'_> {
    pub(super) fn of(map: crate::AddressMap) -> Self {
        AddressMap { map, file: PhantomData }
    }

    /// What there is of an address; what can't be translated is nowhere.
    fn translate(&self, address: Address) -> Translation {
        self.map.translate(address).unwrap_or_default()
    }

    /// Where the addresses of a range of the original image lie in the image as it is loaded.
    pub fn rva_ranges(&self, range: Range<PdbInternalRva>) -> RvaRangeIter<'_> {
        let found = self.map.rva_ranges(range.start.0..range.end.0).unwrap_or_default();
        RvaRangeIter { ranges: found.into_iter(), map: PhantomData }
    }

    /// Where the addresses of a range of the image as it is loaded lie in the original image.
    pub fn internal_rva_ranges(&self, range: Range<Rva>) -> PdbInternalRvaRangeIter<'_> {
        let found = self.map.internal_rva_ranges(range.start.0..range.end.0).unwrap_or_default();
        PdbInternalRvaRangeIter { ranges: found.into_iter(), map: PhantomData }
    }
}

macro_rules! ranges {
    ($($(#[$about:meta])* $name:ident of $address:ident)*) => {
        $(
            $(#[$about])*
            #[derive(Debug, Clone)]
            pub struct $name<'m> {
                ranges: std::vec::IntoIter<Range<u32>>,
                map: PhantomData<&'m ()>,
            }

            impl Iterator for $name<'_> {
                type Item = Range<$address>;

                fn next(&mut self) -> Option<Range<$address>> {
                    self.ranges.next().map(|it| $address(it.start)..$address(it.end))
                }
            }
        )*
    };
}

ranges! {
    /// Ranges of the image as it is loaded, one after another.
    RvaRangeIter of Rva
    /// Ranges of the original image, one after another.
    PdbInternalRvaRangeIter of PdbInternalRva
}

macro_rules! forms {
    ($($(#[$about:meta])* $name:ident $address:expr;)*) => {
        $(
            impl $name {
                /// The address in the image as it is loaded.
                pub fn to_rva(self, map: &AddressMap<'_>) -> Option<Rva> {
                    map.translate($address(self)).rva.map(Rva)
                }

                /// The place in a section of the image as it is loaded.
                pub fn to_section_offset(self, map: &AddressMap<'_>) -> Option<SectionOffset> {
                    let (section, offset) = map.translate($address(self)).place?;
                    Some(SectionOffset { offset, section })
                }

                /// The address in the original image.
                pub fn to_internal_rva(self, map: &AddressMap<'_>) -> Option<PdbInternalRva> {
                    map.translate($address(self)).internal_rva.map(PdbInternalRva)
                }

                /// The place in a section of the original image.
                pub fn to_internal_offset(self, map: &AddressMap<'_>) -> Option<PdbInternalSectionOffset> {
                    let (section, offset) = map.translate($address(self)).internal_place?;
                    Some(PdbInternalSectionOffset { offset, section })
                }
            }
        )*
    };
}

forms! {
    Rva |it: Rva| Address::Rva(it.0);
    SectionOffset |it: SectionOffset| Address::Place((it.section, it.offset));
    PdbInternalRva |it: PdbInternalRva| Address::InternalRva(it.0);
    PdbInternalSectionOffset |it: PdbInternalSectionOffset| Address::InternalPlace((it.section, it.offset));
}

macro_rules! addresses {
    ($($(#[$about:meta])* $name:ident)*) => {
        $(
            numbers! {
                $(#[$about])*
                $name
            }

            impl $name {
                /// The address so many bytes after it, None if it has more than 32 bits.
                pub fn checked_add(self, offset: u32) -> Option<$name> {
                    self.0.checked_add(offset).map($name)
                }

                /// How many bytes it is after another address, None if it is before it.
                pub fn checked_sub(self, other: $name) -> Option<u32> {
                    self.0.checked_sub(other.0)
                }

                /// The address so many bytes after it, or the last one.
                pub fn saturating_add(self, offset: u32) -> $name {
                    $name(self.0.saturating_add(offset))
                }

                /// How many bytes it is after another address, 0 if it is before it.
                pub fn saturating_sub(self, other: $name) -> u32 {
                    self.0.saturating_sub(other.0)
                }

                /// The address so many bytes after it, where 0 follows the last one.
                pub fn wrapping_add(self, offset: u32) -> $name {
                    $name(self.0.wrapping_add(offset))
                }

                /// How many bytes it is after another address, where 0 follows the last one.
                pub fn wrapping_sub(self, other: $name) -> u32 {
                    self.0.wrapping_sub(other.0)
                }
            }

            impl std::ops::Add<u32> for $name {
                type Output = $name;

                fn add(self, offset: u32) -> $name {
                    $name(self.0 + offset)
                }
            }

            impl std::ops::AddAssign<u32> for $name {
                fn add_assign(&mut self, offset: u32) {
                    self.0 += offset;
                }
            }

            impl std::ops::Sub for $name {
                type Output = u32;

                fn sub(self, other: $name) -> u32 {
                    self.0 - other.0
                }
            }
        )*
    };
}

addresses! {
    /// An address in the image as it is loaded.
    Rva
    /// An address in the original image, to which the parts of a program database refer.
    PdbInternalRva
}

macro_rules! places {
    ($($(#[$about:meta])* $name:ident)*) => {
        $(
            $(#[$about])*
            #[derive(Debug, Clone, Copy, Default, PartialEq, Eq, Hash)]
            pub struct $name {
                /// The offset in the section.
                pub offset: u32,
                /// The section, counted from 1; 0 is none.
                pub section: u16,
            }

            impl $name {
                /// The place at an offset of a section.
                pub fn new(section: u16, offset: u32) -> $name {
                    $name { offset, section }
                }

                /// The place so many bytes after it, None if its offset has more than 32 bits.
                pub fn checked_add(self, offset: u32) -> Option<$name> {
                    Some($name { offset: self.offset.checked_add(offset)?, ..self })
                }

                /// The place so many bytes after it, or the last one of the section.
                pub fn saturating_add(self, offset: u32) -> $name {
                    $name { offset: self.offset.saturating_add(offset), ..self }
                }

                /// The place so many bytes after it, where the offset 0 follows the last one.
                pub fn wrapping_add(self, offset: u32) -> $name {
                    $name { offset: self.offset.wrapping_add(offset), ..self }
                }

                /// Whether there is a section.
                pub fn is_valid(self) -> bool {
                    self.section != 0
                }
            }

            impl std::ops::Add<u32> for $name {
                type Output = $name;

                fn add(self, offset: u32) -> $name {
                    $name { offset: self.offset + offset, ..self }
                }
            }

            impl std::ops::AddAssign<u32> for $name {
                fn add_assign(&mut self, offset: u32) {
                    self.offset += offset;
                }
            }

            /// Places of one section alone are before or after one another.
            impl PartialOrd for $name {
                fn partial_cmp(&self, other: &$name) -> Option<Ordering> {
                    (self.section == other.section).then(|| self.offset.cmp(&other.offset))
                }
            }

            impl fmt::Display for $name {
                fn fmt(&self, f: &mut fmt::Formatter<'_>) -> fmt::Result {
                    write!(f, "{:#x}:{:#010x}", self.section, self.offset)
                }
            }
        )*
    };
}

places! {
    /// A place in a section of the image as it is loaded.
    SectionOffset
    /// A place in a section of the original image, to which the parts of a program database refer.
    PdbInternalSectionOffset
}

/// The characteristics of a section, as the PE format has them.
#[derive(Debug, Clone, Copy, Default, PartialEq, Eq, Hash)]
pub struct SectionCharacteristics(pub u32);

macro_rules! characteristics {
    ($($(#[$about:meta])* $name:ident = $bit:literal)*) => {
        impl SectionCharacteristics {
            $(
                $(#[$about])*
                pub fn $name(self) -> bool {
                    self.0 & $bit != 0
                }
            )*
        }
    };
}

characteristics! {
    /// Whether it holds code.
    executable = 0x0000_0020
    /// Whether it holds data that has values from the start.
    initialized_data = 0x0000_0040
    /// Whether it holds data that has no values at the start.
    uninitialized_data = 0x0000_0080
    /// Whether the bit for other contents is set.
    other = 0x0000_0100
    /// Whether it holds comments or other information for the linker.
    info = 0x0000_0200
    /// Whether it is left out of the image.
    remove = 0x0000_0800
    /// Whether it holds COMDAT data.
    comdat = 0x0000_1000
    /// Whether the bits that defer speculative exceptions are reset.
    defer_speculative_exceptions = 0x0000_4000
    /// Whether it holds data that is reached by the global pointer.
    global_pointer_relative = 0x0000_8000
    /// Whether the bit for memory that may be given back is set.
    purgeable = 0x0002_0000
    /// Whether the bit for memory that is kept in place is set.
    locked = 0x0004_0000
    /// Whether the bit for memory that is loaded ahead is set.
    preload = 0x0008_0000
    /// Whether it has more relocations than the header can count.
    lnk_nreloc_ovfl = 0x0100_0000
    /// Whether it may be discarded when it is not needed any more.
    discardable = 0x0200_0000
    /// Whether it may not be cached.
    not_cached = 0x0400_0000
    /// Whether it may not be paged out.
    not_paged = 0x0800_0000
    /// Whether it is shared in memory.
    shared = 0x1000_0000
    /// Whether it may be executed.
    execute = 0x2000_0000
    /// Whether it may be read.
    read = 0x4000_0000
    /// Whether it may be written.
    write = 0x8000_0000
}

impl fmt::Display for SectionCharacteristics {
    fn fmt(&self, f: &mut fmt::Formatter<'_>) -> fmt::Result {
        write!(f, "{:#010x}", self.0)
    }
}

impl SectionCharacteristics {
    /// The alignment of the section's start in bytes, if it is given.
    pub fn alignment(self) -> Option<u16> {
        match (self.0 & 8 != 0, self.0 >> 20 & 15) {
            (true, 0) => Some(1),
            (false, exponent @ 1..=14) => Some(1 << (exponent - 1)),
            _ => None,
        }
    }
}

/// The header of a section.
#[derive(Debug, Clone, Copy, Default, PartialEq, Eq)]
#[allow(missing_docs)]
pub struct ImageSectionHeader {
    pub name: [u8; 8],
    pub virtual_size: u32,
    pub virtual_address: u32,
    pub size_of_raw_data: u32,
    pub pointer_to_raw_data: u32,
    pub pointer_to_relocations: u32,
    pub pointer_to_line_numbers: u32,
    pub number_of_relocations: u16,
    pub number_of_line_numbers: u16,
    pub characteristics: SectionCharacteristics,
}

impl ImageSectionHeader {
    /// Its name, up to the first NUL, or up to what is not UTF-8.
    pub fn name(&self) -> &str {
        let name = self.name.utf8_chunks().next().map_or("", |it| it.valid());
        name.split('\0').next().unwrap_or_default()
    }
}

/// The headers of sections.
pub(super) fn headers(sections: Vec<crate::Section>) -> Vec<ImageSectionHeader> {
    let header = |it: crate::Section| ImageSectionHeader {
        name: it.name,
        virtual_size: it.virtual_size,
        virtual_address: it.virtual_address,
        size_of_raw_data: it.size_of_raw_data,
        pointer_to_raw_data: it.pointer_to_raw_data,
        pointer_to_relocations: it.pointer_to_relocations,
        pointer_to_line_numbers: it.pointer_to_line_numbers,
        number_of_relocations: it.number_of_relocations,
        number_of_line_numbers: it.number_of_line_numbers,
        characteristics: SectionCharacteristics(it.characteristics),
    };
    sections.into_iter().map(header).collect()
}

/// The kinds of frames.
#[derive(Debug, Clone, Copy, PartialEq, Eq, PartialOrd, Ord, Hash)]
#[non_exhaustive]
#[allow(missing_docs)]
pub enum FrameType {
    FPO,
    Trap,
    TSS,
    Standard,
    FrameData,
    Unknown,
}

impl fmt::Display for FrameType {
    fn fmt(&self, f: &mut fmt::Formatter<'_>) -> fmt::Result {
        f.write_str(match self {
            FrameType::FPO => "fpo",
            FrameType::Trap => "trap",
            FrameType::TSS => "tss",
            FrameType::Standard => "std",
            FrameType::FrameData => "fdata",
            FrameType::Unknown => "unknown",
        })
    }
}

/// What a stack walker needs to know about the frame of a piece of code.
#[derive(Debug, Clone, Copy, PartialEq, Eq)]
pub struct FrameData {
    /// Its kind.
    pub ty: FrameType,
    /// The first byte of the code.
    pub code_start: PdbInternalRva,
    /// The size of the code in bytes.
    pub code_size: u32,
    /// The size of local variables in bytes.
    pub locals_size: u32,
    /// The size of parameters in bytes.
    pub params_size: u32,
    /// The size of the prolog in bytes.
    pub prolog_size: u16,
    /// The size of saved registers in bytes.
    pub saved_regs_size: u16,
    /// The most bytes that are pushed on the stack, if that is known.
    pub max_stack_size: Option<u32>,
    /// Whether it has structured exception handling.
    pub has_structured_eh: bool,
    /// Whether it has exception handling of C++.
    pub has_cpp_eh: bool,
    /// Whether a function begins here.
    pub is_function_start: bool,
    /// Whether it uses the base pointer.
    pub uses_base_pointer: bool,
    /// The program by which the frame is walked.
    pub program: Option<StringRef>,
}

impl FrameData {
    /// Whether its record is of the newer format.
    fn is_newer(&self) -> bool {
        self.ty == FrameType::FrameData
    }

    fn of(it: &crate::Frame) -> FrameData {
        FrameData {
            ty: match it.kind {
                FrameKind::Fpo => FrameType::FPO,
                FrameKind::Trap => FrameType::Trap,
                FrameKind::Tss => FrameType::TSS,
                FrameKind::Standard => FrameType::Standard,
                FrameKind::Data => FrameType::FrameData,
                FrameKind::Unknown => FrameType::Unknown,
            },
            code_start: PdbInternalRva(it.code_start),
            code_size: it.code_size,
            locals_size: it.locals_size,
            params_size: it.params_size,
            prolog_size: it.prolog_size as u16,
            saved_regs_size: it.saved_regs_size as u16,
            max_stack_size: it.max_stack_size,
            has_structured_eh: it.has_structured_eh,
            has_cpp_eh: it.has_cpp_eh,
            is_function_start: it.is_function_start,
            uses_base_pointer: it.uses_base_pointer,
            program: it.program.map(StringRef),
        }
    }
}

/// The frame table of a file, of both formats.
#[derive(Debug)]
pub struct FrameTable<'s> {
    frames: Vec<FrameData>,
    file: PhantomData<&'s ()>,
}

impl FrameTable<'_> {
    pub(super) fn of(table: crate::Frames) -> Result<Self> {
        Ok(FrameTable { frames: table.list()?.iter().map(FrameData::of).collect(), file: PhantomData })
    }

    /// Whether there is no frame.
    pub fn is_empty(&self) -> bool {
        self.frames.is_empty()
    }

    /// All frames, ordered by their starts.
    pub fn iter(&self) -> FrameDataIter<'_> {
        self.iter_at_rva(PdbInternalRva(0))
    }

    /// The frames from an address on: of each format the last one that begins at the address or before it, if its code has
    /// the address, or else the first one behind it, and those that follow.
    pub fn iter_at_rva(&self, rva: PdbInternalRva) -> FrameDataIter<'_> {
        let up_to = &self.frames[..self.frames.partition_point(|it| it.code_start <= rva)];
        let start = |is_newer| {
            let last = up_to.iter().rfind(|it| it.is_newer() == is_newer);
            let has_it = |it: &&FrameData| rva.checked_sub(it.code_start).is_some_and(|at| at < it.code_size.max(1));
            last.filter(has_it).map_or(rva, |it| it.code_start)
        };
        FrameDataIter { frames: self.frames.iter(), older: start(false), newer: start(true) }
    }
}

/// Frames, one after another.
#[derive(Debug, Clone)]
pub struct FrameDataIter<'t> {
    frames: std::slice::Iter<'t, FrameData>,
    /// The address from which on there are frames of the older format.
    older: PdbInternalRva,
    /// The same for the newer format.
    newer: PdbInternalRva,
}

impl FallibleIterator for FrameDataIter<'_> {
    type Item = FrameData;
    type Error = Error;

    fn next(&mut self) -> Result<Option<FrameData>> {
        let (older, newer) = (self.older, self.newer);
        Ok(self.frames.find(|it| it.code_start >= if it.is_newer() { newer } else { older }).copied())
    }
}
