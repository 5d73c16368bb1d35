use crate::error::Result;
use crate::names::Name;
use crate::sys;
use crate::table::Table;

/// The definitions of a table of types: by name, with sizes, layouts and texts.
///
/// A definition is a class, a union or an enumeration that is not only declared. The definition of a type that is only
/// declared is the first one in the table of its unique name, or of its name if it has no unique name.
#[derive(Debug)]
pub struct Definitions(pub(crate) Table);

// SAFETY, in all of this file: slices are as long as they say, and places that the library writes stay in one call.

impl Definitions {
    /// The indexes of all definitions of a name, in increasing order.
    pub fn named(&self, name: impl AsRef<[u8]>) -> Result<Vec<u32>> {
        let name = name.as_ref();
        let found = self.0.handle.items(4, |table, to, size, count| unsafe {
            sys::pdb_types_named(table, name.as_ptr(), name.len(), to, size, count)
        });
        Ok(self.0.located(found)?.unwrap_or_default())
    }

    /// The index of the definition of a type, which is its own index if it is a definition. None if the table doesn't
    /// define it, and for any other type.
    pub fn definition_of(&self, index: u32) -> Result<Option<u32>> {
        self.0.located(self.0.handle.value(|table, to| unsafe { sys::pdb_type_definition(table, index, to) }))
    }

    /// The size of a type in bytes, that of its definition if it is only declared. None if nothing says it, as of
    /// `void`, of a function or of a list.
    pub fn size_of(&self, index: u32) -> Result<Option<u64>> {
        self.0.located(self.0.handle.value(|table, to| unsafe { sys::pdb_type_size(table, index, to) }))
    }

    /// The declaration of a name that has a type, in C++, or the text of the type alone if the name is empty. What the
    /// text says is tested, and not proved.
    pub fn text_of(&self, index: u32, name: impl AsRef<[u8]>) -> Result<String> {
        let name = name.as_ref();
        let text = self.0.handle.items(256, |table, to, size, count| unsafe {
            sys::pdb_type_text(table, index, name.as_ptr(), name.len(), to, size, count)
        });
        Ok(String::from_utf8_lossy(&self.0.located(text)?.unwrap_or_default()).into_owned())
    }

    /// The layout of a class, a structure, an interface or a union. None if the type has no definition, or its
    /// definition is an enumeration.
    pub fn layout_of(&self, index: u32) -> Result<Option<Layout>> {
        let found = self.0.handle.named_items(|table, to, size, count, names, room, length| unsafe {
            sys::pdb_type_layout(table, index, to, size, count, names, room, length)
        });
        let Some((rows, names)) = self.0.located(found)? else { return Ok(None) };
        let size = self.size_of(index)?.unwrap_or_default();
        Ok(Some(Layout { size, rows, names }))
    }
}

/// The layout of a class: its size, and a row for each field and for bits that no field takes.
#[derive(Debug, Clone, PartialEq, Eq)]
pub struct Layout {
    size: u64,
    rows: Vec<sys::LayoutRow>,
    names: Vec<u8>,
}

impl Layout {
    /// How many bytes an object takes.
    pub fn size(&self) -> u64 {
        self.size
    }

    /// How many rows there are.
    pub fn len(&self) -> usize {
        self.rows.len()
    }

    /// Whether there is no row.
    pub fn is_empty(&self) -> bool {
        self.rows.is_empty()
    }

    /// Each row: the fields in the order of their records, and then the bits that no field takes.
    pub fn iter(&self) -> LayoutIter<'_> {
        LayoutIter { rows: self.rows.iter(), names: &self.names }
    }
}

impl<'l> IntoIterator for &'l Layout {
    type Item = LayoutRow<'l>;
    type IntoIter = LayoutIter<'l>;

    fn into_iter(self) -> LayoutIter<'l> {
        self.iter()
    }
}

/// Each row of a layout: the fields in the order of their records, and then the bits that no field takes.
#[derive(Debug, Clone)]
pub struct LayoutIter<'l> {
    rows: std::slice::Iter<'l, sys::LayoutRow>,
    names: &'l [u8],
}

impl<'l> Iterator for LayoutIter<'l> {
    type Item = LayoutRow<'l>;

    fn next(&mut self) -> Option<LayoutRow<'l>> {
        let row = self.rows.next()?;
        Some(LayoutRow::of(row, Name::new(&self.names[row.name_offset..][..row.name_length])))
    }

    fn size_hint(&self) -> (usize, Option<usize>) {
        self.rows.size_hint()
    }
}

impl ExactSizeIterator for LayoutIter<'_> {}

impl std::iter::FusedIterator for LayoutIter<'_> {}

/// A row of a layout: a field, or bits that no field takes.
#[derive(Debug, Clone, Copy, PartialEq, Eq)]
pub struct LayoutRow<'l> {
    /// What it is.
    pub kind: LayoutKind<'l>,
    /// The byte where it begins, counted from the start of the class.
    pub offset: u64,
    /// How far it goes.
    pub extent: Extent,
}

/// What a row of a layout is. A field has its type.
#[derive(Debug, Clone, Copy, PartialEq, Eq)]
#[non_exhaustive]
pub enum LayoutKind<'l> {
    /// A base class.
    Base {
        /// The class.
        class: u32,
    },
    /// The pointer to a table of virtual bases. There is one row of it for each virtual base class.
    VirtualBasePointer {
        /// The type of the pointer.
        pointer: u32,
        /// The virtual base class.
        base: u32,
        /// The position of that class in the table.
        position: u32,
        /// Whether the class itself names that class, and not a base class.
        is_direct: bool,
    },
    /// The pointer to a table of virtual functions.
    VirtualFunctionPointer {
        /// The type of the pointer.
        pointer: u32,
    },
    /// A data member.
    Member {
        /// Its name.
        name: Name<'l>,
        /// Its type.
        type_index: u32,
    },
    /// Whole bytes that no field takes.
    Hole,
    /// Bits that are left over in bytes of fields.
    UnusedBits,
    /// The bytes after all fields of a class that has virtual bases, whose places no record says.
    VirtualBases,
    /// A kind that this version of the crate does not know.
    Other,
}

/// How far a row of a layout goes.
#[derive(Debug, Clone, Copy, PartialEq, Eq)]
pub enum Extent {
    /// It takes this number of whole bytes.
    Bytes(u64),
    /// It takes some bits.
    Bits {
        /// The first, counted from the lowest bit of the byte where the row begins.
        first: u32,
        /// How many.
        count: u32,
    },
    /// Nothing says the size of the field's type.
    Unknown,
}

impl<'l> LayoutRow<'l> {
    fn of(row: &sys::LayoutRow, name: Name<'l>) -> LayoutRow<'l> {
        let type_index = row.type_index;
        let kind = match row.kind {
            sys::PDB_LAYOUT_BASE => LayoutKind::Base { class: type_index },
            sys::PDB_LAYOUT_VIRTUAL_BASE_POINTER => LayoutKind::VirtualBasePointer {
                pointer: type_index,
                base: row.base_class,
                position: row.base_position,
                is_direct: row.is_direct != 0,
            },
            sys::PDB_LAYOUT_VIRTUAL_FUNCTION_POINTER => LayoutKind::VirtualFunctionPointer { pointer: type_index },
            sys::PDB_LAYOUT_MEMBER => LayoutKind::Member { name, type_index },
            sys::PDB_LAYOUT_HOLE => LayoutKind::Hole,
            sys::PDB_LAYOUT_UNUSED_BITS => LayoutKind::UnusedBits,
            sys::PDB_LAYOUT_VIRTUAL_BASES => LayoutKind::VirtualBases,
            _ => LayoutKind::Other,
        };
        let extent = match row.extent {
            sys::PDB_EXTENT_BYTES => Extent::Bytes(row.size),
            sys::PDB_EXTENT_BITS => Extent::Bits { first: row.bit, count: row.bits },
            _ => Extent::Unknown,
        };
        LayoutRow { kind, offset: row.offset, extent }
    }
}

#[cfg(test)]
mod tests {
    use super::*;

    #[test]
    fn a_row_of_a_newer_library() {
        let row = LayoutRow::of(&sys::LayoutRow { kind: 99, extent: 99, ..sys::LayoutRow::default() }, Name::default());
        assert_eq!((row.kind, row.extent), (LayoutKind::Other, Extent::Unknown));
    }
}
