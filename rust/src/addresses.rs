use std::ops::Range;

use crate::error::Result;
use crate::handle::Handle;
use crate::names::Name;
use crate::sys;

/// The header of a section.
#[derive(Debug, Clone, Copy, PartialEq, Eq)]
pub struct Section {
    pub(crate) name: [u8; 8],
    /// The size of the section in the image in bytes.
    pub virtual_size: u32,
    /// The address at which it begins.
    pub virtual_address: u32,
    /// How many bytes of it the image's file has.
    pub size_of_raw_data: u32,
    /// Where in the image's file they begin.
    pub pointer_to_raw_data: u32,
    /// Where in the image's file its relocations begin, 0 if there are none.
    pub pointer_to_relocations: u32,
    /// Where in the image's file its line numbers begin, 0 if there are none.
    pub pointer_to_line_numbers: u32,
    /// How many relocations it has.
    pub number_of_relocations: u16,
    /// How many line numbers it has.
    pub number_of_line_numbers: u16,
    /// Its flags, added up, which the PE format calls `IMAGE_SCN_*`.
    pub characteristics: u32,
}

impl Section {
    fn of(section: &sys::Section) -> Section {
        Section {
            name: section.name,
            virtual_size: section.virtual_size,
            virtual_address: section.virtual_address,
            size_of_raw_data: section.size_of_raw_data,
            pointer_to_raw_data: section.pointer_to_raw_data,
            pointer_to_relocations: section.pointer_to_relocations,
            pointer_to_line_numbers: section.pointer_to_line_numbers,
            number_of_relocations: section.number_of_relocations,
            number_of_line_numbers: section.number_of_line_numbers,
            characteristics: section.characteristics,
        }
    }

    /// Its name, up to the first NUL.
    pub fn name(&self) -> Name<'_> {
        Name::new(self.name.split(|it| *it == 0).next().unwrap_or(&self.name))
    }
}

// SAFETY, in all of this file: slices are as long as they say, and places that the library writes stay in one call.

/// The section headers in the stream of a number.
pub(crate) fn sections(file: &Handle<sys::File>, number: u32) -> Result<Vec<Section>> {
    let found =
        file.items(0, |file, to, size, count| unsafe { sys::pdb_file_sections(file, number, to, size, count) })?;
    Ok(found.unwrap_or_default().iter().map(Section::of).collect())
}

fn ranges(found: Result<Option<Vec<sys::Span>>>) -> Result<Vec<Range<u32>>> {
    Ok(found?.unwrap_or_default().into_iter().map(|it| it.start..it.end).collect())
}

/// A table of moved addresses.
#[derive(Debug)]
pub struct Omap(Handle);

impl Omap {
    /// Opens the OMAP table in the stream of a number.
    pub(crate) fn open(file: &Handle<sys::File>, number: u32) -> Result<Omap> {
        file.table(|file, omap| unsafe { sys::pdb_omap_open(file, number, omap) }).map(Omap)
    }

    /// The address to which the table moves an address, or None if it moves it nowhere.
    pub fn lookup(&self, address: u32) -> Result<Option<u32>> {
        self.0.value(|omap, target| unsafe { sys::pdb_omap_lookup(omap, address, target) })
    }

    /// The records of the table, in their order: the first address that each moves, and where it moves that one, 0 if
    /// nowhere.
    pub fn records(&self) -> Result<Vec<(u32, u32)>> {
        let found = self.0.items(0, |omap, to: *mut sys::OmapRecord, size, count| unsafe {
            sys::pdb_omap_records(omap, to, size, count)
        })?;
        Ok(found.unwrap_or_default().iter().map(|it| (it.source, it.target)).collect())
    }

    /// Whether no record has a source below that of the record before it.
    pub fn is_sorted(&self) -> Result<bool> {
        Ok(self.0.value(|omap, is_sorted| unsafe { sys::pdb_omap_is_sorted(omap, is_sorted) })? == Some(1))
    }

    /// The ranges to which the table moves the addresses of a range: one for each record that moves some of them.
    pub fn ranges(&self, range: Range<u32>) -> Result<Vec<Range<u32>>> {
        ranges(self.0.items(4, |omap, to, size, count| unsafe {
            sys::pdb_omap_ranges(omap, range.start, range.end, to, size, count)
        }))
    }
}

/// The address map of a file: its sections, and the OMAP tables of a tool that rearranged the image.
///
/// An RVA is an address in the image as it is loaded, and an internal RVA is one in the original image, which the
/// parts of a program database refer to.
#[derive(Debug)]
pub struct AddressMap(Handle);

/// A place in a section: the section, counted from 1, and an offset.
pub type Place = (u16, u32);

/// An address or a place in its four forms. A form that doesn't exist is None.
#[derive(Debug, Clone, Copy, Default, PartialEq, Eq)]
pub struct Translation {
    /// The address in the image as it is loaded.
    pub rva: Option<u32>,
    /// The place in a section of the image as it is loaded.
    pub place: Option<Place>,
    /// The address in the original image.
    pub internal_rva: Option<u32>,
    /// The place in a section of the original image.
    pub internal_place: Option<Place>,
}

/// What is to be translated.
#[derive(Debug, Clone, Copy, PartialEq, Eq)]
pub enum Address {
    /// An address in the image as it is loaded.
    Rva(u32),
    /// A place in a section of the image as it is loaded.
    Place(Place),
    /// An address in the original image.
    InternalRva(u32),
    /// A place in a section of the original image.
    InternalPlace(Place),
}

impl AddressMap {
    pub(crate) fn open(file: &Handle<sys::File>) -> Result<AddressMap> {
        file.table(|file, map| unsafe { sys::pdb_address_map_open(file, map) }).map(AddressMap)
    }

    /// The four forms of an address or a place.
    pub fn translate(&self, address: Address) -> Result<Translation> {
        let (form, (section, offset)) = match address {
            Address::Rva(address) => (sys::PDB_RVA, (0, address)),
            Address::Place(place) => (sys::PDB_SECTION_OFFSET, place),
            Address::InternalRva(address) => (sys::PDB_INTERNAL_RVA, (0, address)),
            Address::InternalPlace(place) => (sys::PDB_INTERNAL_SECTION_OFFSET, place),
        };
        let to = self.0.value(|map, to| unsafe { sys::pdb_translate(map, form, section, offset, to) })?;
        let to: sys::Translation = to.unwrap_or_default();
        let place = |it: sys::SectionOffset| (it.section as u16, it.offset);
        Ok(Translation {
            rva: (to.has_rva != 0).then_some(to.rva),
            place: (to.has_section_offset != 0).then(|| place(to.section_offset)),
            internal_rva: (to.has_internal_rva != 0).then_some(to.internal_rva),
            internal_place: (to.has_internal_section_offset != 0).then(|| place(to.internal_section_offset)),
        })
    }

    /// Where the addresses of a range of the original image lie in the image as it is loaded.
    pub fn rva_ranges(&self, range: Range<u32>) -> Result<Vec<Range<u32>>> {
        self.ranges(sys::PDB_INTERNAL_RVA, range)
    }

    /// Where the addresses of a range of the image as it is loaded lie in the original image.
    pub fn internal_rva_ranges(&self, range: Range<u32>) -> Result<Vec<Range<u32>>> {
        self.ranges(sys::PDB_RVA, range)
    }

    fn ranges(&self, form: u32, range: Range<u32>) -> Result<Vec<Range<u32>>> {
        ranges(self.0.items(4, |map, to, size, count| unsafe {
            sys::pdb_address_ranges(map, form, range.start, range.end, to, size, count)
        }))
    }
}
