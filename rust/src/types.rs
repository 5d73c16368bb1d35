use crate::error::Result;
use crate::layouts::{Definitions, Layout};
use crate::names::Name;
use crate::row::Row;
use crate::shapes::Shape;
use crate::sys;
use crate::table::{Record, Table, Walk};

/// A table of types, and the stream that has it.
#[derive(Debug)]
pub struct Types(pub(crate) Definitions);

impl Types {
    fn table(&self) -> &Table {
        &self.0.0
    }

    /// The index of the first type that has a record.
    pub fn first_index(&self) -> u32 {
        self.table().range.first
    }

    /// The number of indexes that the header counts. The table may have fewer types, or more.
    pub fn count(&self) -> u32 {
        self.table().range.end - self.first_index()
    }

    /// Each type of the table, from the first on.
    pub fn iter(&self) -> TypeIter<'_> {
        TypeIter(self.table().walk())
    }

    /// The type of an index, which may be that of a primitive type.
    pub fn get(&self, index: u32) -> Result<Type<'_>> {
        let found = self.table().find(index)?;
        Ok(Type::of(found, found.parse()?))
    }

    /// The definition of the first class, union or enumeration of a name, if there is one.
    ///
    /// # Errors
    /// Fails as `definitions` does: in a table whose walk stops early, a name that was not met may be behind.
    pub fn find(&self, name: impl AsRef<[u8]>) -> Result<Option<Type<'_>>> {
        match self.0.named(name)?.first() {
            Some(index) => self.get(*index).map(Some),
            None => Ok(None),
        }
    }

    /// The fields of the list of an index, and of the lists in which it continues.
    pub fn fields(&self, list: u32) -> Result<Fields> {
        self.table().fields(list, true)
    }

    /// The values of an enumeration, given the list of its fields and the type under it, of which they are numbers. In
    /// `fields` they have the signs that their records have, where -128 may be 128.
    pub fn enumerators(&self, list: u32, underlying_type: u32) -> Result<Fields> {
        let mut found = self.fields(list)?;
        for row in &mut found.rows {
            // SAFETY: the row is borrowed by this call alone.
            unsafe { sys::pdb_enumerator_typed(&mut row.info, underlying_type) };
        }
        Ok(found)
    }

    /// The definitions of the table, which are found once, and the sizes, layouts and texts of its types.
    pub fn definitions(&self) -> Result<&Definitions> {
        // Any call about them finds them, also that for `void`.
        self.0.definition_of(3)?;
        Ok(&self.0)
    }

    /// The layout of the first class, structure, interface or union of a name, if there is one.
    pub fn layout(&self, name: impl AsRef<[u8]>) -> Result<Option<Layout>> {
        for index in self.0.named(name)? {
            let layout = self.0.layout_of(index)?;
            if layout.is_some() {
                return Ok(layout);
            }
        }
        Ok(None)
    }
}

impl<'t> IntoIterator for &'t Types {
    type Item = Result<Type<'t>>;
    type IntoIter = TypeIter<'t>;

    fn into_iter(self) -> TypeIter<'t> {
        self.iter()
    }
}

/// Each type of a table. A record that can't be read is an error, and the iterator goes on; after an error of the
/// table itself it ends.
#[derive(Debug, Clone)]
pub struct TypeIter<'t>(Walk<'t>);

impl TypeIter<'_> {
    /// The index of the record that `next` returned last, also if that was an error.
    pub fn index(&self) -> u32 {
        self.0.index
    }
}

impl<'t> Iterator for TypeIter<'t> {
    type Item = Result<Type<'t>>;

    #[inline]
    fn next(&mut self) -> Option<Result<Type<'t>>> {
        Some(self.0.next()?.map(|(at, row)| Type::of(at, row)))
    }
}

impl std::iter::FusedIterator for TypeIter<'_> {}

/// A type: its index, and the numbers in its record.
#[derive(Debug, Clone, Copy, PartialEq, Eq)]
pub struct Type<'t> {
    /// Its index.
    pub index: u32,
    /// The bytes of its record, none for a primitive type.
    pub record: &'t [u8],
    /// The numbers in its record.
    pub row: Row,
    at: Record<'t>,
}

impl<'t> Type<'t> {
    fn of(at: Record<'t>, row: Row) -> Type<'t> {
        Type { index: at.index, record: at.bytes, row, at }
    }

    /// What shape it has.
    pub fn shape(&self) -> Shape {
        Shape::of(self.row.0.shape)
    }

    /// Whether it is a class, a union or an enumeration that is defined here, and not only declared.
    pub fn is_definition(&self) -> bool {
        matches!(self.shape(), Shape::Class | Shape::Union | Shape::Enumeration) && !self.row.is_forward()
    }

    /// Its name, if it has one.
    pub fn name(&self) -> Result<Option<Name<'t>>> {
        self.at.name()
    }

    /// The unique name of a class, a union or an enumeration, if it has one.
    pub fn unique_name(&self) -> Result<Option<Name<'t>>> {
        self.at.unique_name()
    }

    /// The types of the arguments in a list of arguments; None for any other type.
    pub fn arguments(&self) -> Result<Option<Vec<u32>>> {
        self.numbers(Shape::ArgumentList)
    }

    /// The size of an array in bytes up to each dimension, the innermost first: each size includes those before it.
    /// None for any other type.
    pub fn dimensions(&self) -> Result<Option<Vec<u32>>> {
        self.numbers(Shape::Array)
    }

    fn numbers(&self, of: Shape) -> Result<Option<Vec<u32>>> {
        if self.shape() == of { self.at.numbers() } else { Ok(None) }
    }

    /// The methods in a list of methods; None for any other type.
    pub fn methods(&self) -> Result<Option<Vec<Row>>> {
        self.at.methods()
    }
}

/// The fields of a list, and of the lists in which it continues.
#[derive(Debug, Clone, Default, PartialEq, Eq)]
pub struct Fields {
    pub(crate) rows: Vec<sys::Field>,
    pub(crate) names: Vec<u8>,
}

impl Fields {
    /// How many fields there are.
    pub fn len(&self) -> usize {
        self.rows.len()
    }

    /// Whether there is no field.
    pub fn is_empty(&self) -> bool {
        self.rows.is_empty()
    }

    /// Each field, in their order.
    pub fn iter(&self) -> FieldIter<'_> {
        FieldIter { rows: self.rows.iter(), names: &self.names }
    }
}

impl<'f> IntoIterator for &'f Fields {
    type Item = Field<'f>;
    type IntoIter = FieldIter<'f>;

    fn into_iter(self) -> FieldIter<'f> {
        self.iter()
    }
}

/// Each field of a list, in their order.
#[derive(Debug, Clone)]
pub struct FieldIter<'f> {
    rows: std::slice::Iter<'f, sys::Field>,
    names: &'f [u8],
}

impl<'f> Iterator for FieldIter<'f> {
    type Item = Field<'f>;

    fn next(&mut self) -> Option<Field<'f>> {
        let field = self.rows.next()?;
        let name = Name::new(&self.names[field.name_offset..][..field.name_length]);
        Some(Field { row: Row(field.info), name: (field.has_name != 0).then_some(name) })
    }

    fn size_hint(&self) -> (usize, Option<usize>) {
        self.rows.size_hint()
    }
}

impl ExactSizeIterator for FieldIter<'_> {}

impl std::iter::FusedIterator for FieldIter<'_> {}

/// A field of a list: its numbers, and its name if it has one.
#[derive(Debug, Clone, Copy, PartialEq, Eq)]
pub struct Field<'f> {
    /// The numbers of the field.
    pub row: Row,
    /// Its name.
    pub name: Option<Name<'f>>,
}

impl Field<'_> {
    /// What shape it has.
    pub fn shape(&self) -> Shape {
        Shape::of(self.row.0.shape)
    }
}
