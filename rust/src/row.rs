use crate::sys;

/// The numbers in a record: what it says besides names and lists, each by the name that it has in its shape, and by the
/// field of a row in which it is. Those that a record of its shape doesn't have are None.
#[derive(Debug, Clone, Copy, Default, PartialEq, Eq)]
#[repr(transparent)]
pub struct Row(pub(crate) sys::Row);

macro_rules! numbers {
    ($($(#[$about:meta])* $name:ident: $kind:ty = $has:ident)*) => {
        impl Row {
            $(
                $(#[$about])*
                pub fn $name(&self) -> Option<$kind> {
                    (self.0.has & sys::$has != 0).then_some(self.0.$name)
                }
            )*
        }
    };
}

numbers! {
    /// The size of a class or a union; the offset of a member or a base class; for a virtual base class, the offset of
    /// the pointer to its table; the 64 bits of an enumeration's value; for the source of a type, the offset of the
    /// file's name in the string table.
    number: u64 = PDB_HAS_NUMBER
    /// For a class or a base class, 0 for a class, 1 for a structure, 2 for an interface; for a virtual base class,
    /// whether it is a direct one; for an enumeration's value, whether it has a sign; for a type with modifiers, the sum
    /// of 1 for const, 2 for volatile and 4 for unaligned.
    kind: u32 = PDB_HAS_KIND
    /// The word of a member's, a function's or a pointer's attributes.
    attributes: u32 = PDB_HAS_ATTRIBUTES
    /// The word of the properties of a class, a union or an enumeration.
    properties: u32 = PDB_HAS_PROPERTIES
    /// The number of members, values, parameters, methods or functions, of the bits of a bit field, or of the bytes of
    /// an enumeration's value.
    count: u32 = PDB_HAS_COUNT
    /// The type that is pointed at, modified or held; the type of a member, an element or a method; the base class;
    /// the type that a function returns; the type of an id's function; the type that is declared.
    type_index: u32 = PDB_HAS_TYPE_INDEX
    /// The class of a method or of a pointer to a member; the pointer to a virtual base class's table; the type by
    /// which an array is indexed; the list of a class's base classes; the scope of an id; the id of the file that
    /// declares a type.
    second_index: u32 = PDB_HAS_SECOND_INDEX
    /// The type of a method's `this`; the shape of a class's table of virtual functions; for an id, the class of a
    /// method, or the module that declares a type.
    third_index: u32 = PDB_HAS_THIRD_INDEX
    /// The list of fields, of arguments, of methods or of the parts of a text; the list in which a list of fields
    /// continues.
    list_index: u32 = PDB_HAS_LIST_INDEX
    /// The place of a method in the table of virtual functions; how `this` is adjusted; the place of a virtual base
    /// class in its table; an array's stride; the lowest bit of a bit field; the line that declares a type.
    extra: u32 = PDB_HAS_EXTRA
}

impl Row {
    /// The bit of the properties that says that a class, a union or an enumeration is only declared.
    pub const FORWARD: u32 = sys::PDB_PROPERTY_FORWARD_REFERENCE;

    /// The value of an enumeration's value, which may be below 0.
    pub fn value(&self) -> Option<i128> {
        let bits = self.number()?;
        Some(if self.is_signed() == Some(true) { i128::from(bits as i64) } else { i128::from(bits) })
    }

    /// Whether a class, a union or an enumeration is only declared here, and defined by another record.
    pub fn is_forward(&self) -> bool {
        self.properties().is_some_and(|it| it & Row::FORWARD != 0)
    }
}

#[cfg(test)]
mod tests {
    use super::*;
    use crate::shapes::{IdShape, Shape};

    #[test]
    fn a_shape_that_is_not_known() {
        let row = Row(sys::Row { shape: 99, has: u32::MAX, number: 7, type_index: 8, ..sys::Row::default() });
        assert_eq!((Shape::of(row.0.shape), IdShape::of(row.0.shape)), (Shape::Other, IdShape::Other));
        assert_eq!((row.number(), row.size(), row.offset(), row.field_type()), (Some(7), None, None, None));
    }

    #[test]
    fn each_shape_has_its_number() {
        for shape in [Shape::Primitive, Shape::Member, Shape::Bitfield, Shape::VirtualTableShape] {
            assert_eq!(Shape::of(shape as u32), shape);
        }
        assert_eq!(IdShape::of(IdShape::TypeSource as u32), IdShape::TypeSource);
    }
}
