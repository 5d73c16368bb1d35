//! The shapes of types and of ids, and the names of the numbers of each. `tools/bindings` writes this file from
//! `tools/shapes`.

use crate::row::Row;
use crate::sys;

/// The shapes of types, and of the fields in a list.
#[derive(Debug, Clone, Copy, PartialEq, Eq, Hash)]
#[non_exhaustive]
#[repr(u32)]
pub enum Shape {
    /// A primitive type, which has no record.
    Primitive = sys::PDB_PRIMITIVE,
    /// A class, a structure or an interface.
    Class = sys::PDB_CLASS,
    /// A data member.
    Member = sys::PDB_MEMBER,
    /// The type of a method.
    MemberFunction = sys::PDB_MEMBER_FUNCTION,
    /// Methods of one name.
    OverloadedMethod = sys::PDB_OVERLOADED_METHOD,
    /// A method.
    Method = sys::PDB_METHOD,
    /// A static member.
    StaticMember = sys::PDB_STATIC_MEMBER,
    /// A type that is declared in a class.
    Nested = sys::PDB_NESTED,
    /// A base class.
    BaseClass = sys::PDB_BASE_CLASS,
    /// A virtual base class.
    VirtualBaseClass = sys::PDB_VIRTUAL_BASE_CLASS,
    /// The pointer to a table of virtual functions.
    VirtualFunctionTablePointer = sys::PDB_VIRTUAL_FUNCTION_TABLE_POINTER,
    /// The type of a function.
    Procedure = sys::PDB_PROCEDURE,
    /// A pointer, a reference or a pointer to a member.
    Pointer = sys::PDB_POINTER,
    /// A type with `const`, `volatile` or `unaligned`.
    Modifier = sys::PDB_MODIFIER,
    /// An enumeration.
    Enumeration = sys::PDB_ENUMERATION,
    /// A value of an enumeration.
    Enumerate = sys::PDB_ENUMERATE,
    /// An array.
    Array = sys::PDB_ARRAY,
    /// A union.
    Union = sys::PDB_UNION,
    /// The type of a bit field.
    Bitfield = sys::PDB_BITFIELD,
    /// A list of fields.
    FieldList = sys::PDB_FIELD_LIST,
    /// A list of arguments.
    ArgumentList = sys::PDB_ARGUMENT_LIST,
    /// A list of methods.
    MethodList = sys::PDB_METHOD_LIST,
    /// The shape of a table of virtual functions.
    VirtualTableShape = sys::PDB_VIRTUAL_TABLE_SHAPE,
    /// A shape that this version of the crate does not know.
    Other = u32::MAX,
}

impl Shape {
    pub(crate) fn of(shape: u32) -> Shape {
        match shape {
            sys::PDB_PRIMITIVE => Shape::Primitive,
            sys::PDB_CLASS => Shape::Class,
            sys::PDB_MEMBER => Shape::Member,
            sys::PDB_MEMBER_FUNCTION => Shape::MemberFunction,
            sys::PDB_OVERLOADED_METHOD => Shape::OverloadedMethod,
            sys::PDB_METHOD => Shape::Method,
            sys::PDB_STATIC_MEMBER => Shape::StaticMember,
            sys::PDB_NESTED => Shape::Nested,
            sys::PDB_BASE_CLASS => Shape::BaseClass,
            sys::PDB_VIRTUAL_BASE_CLASS => Shape::VirtualBaseClass,
            sys::PDB_VIRTUAL_FUNCTION_TABLE_POINTER => Shape::VirtualFunctionTablePointer,
            sys::PDB_PROCEDURE => Shape::Procedure,
            sys::PDB_POINTER => Shape::Pointer,
            sys::PDB_MODIFIER => Shape::Modifier,
            sys::PDB_ENUMERATION => Shape::Enumeration,
            sys::PDB_ENUMERATE => Shape::Enumerate,
            sys::PDB_ARRAY => Shape::Array,
            sys::PDB_UNION => Shape::Union,
            sys::PDB_BITFIELD => Shape::Bitfield,
            sys::PDB_FIELD_LIST => Shape::FieldList,
            sys::PDB_ARGUMENT_LIST => Shape::ArgumentList,
            sys::PDB_METHOD_LIST => Shape::MethodList,
            sys::PDB_VIRTUAL_TABLE_SHAPE => Shape::VirtualTableShape,
            _ => Shape::Other,
        }
    }
}

/// The shapes of ids.
#[derive(Debug, Clone, Copy, PartialEq, Eq, Hash)]
#[non_exhaustive]
#[repr(u32)]
pub enum IdShape {
    /// The id of a function.
    Function = sys::PDB_FUNCTION_ID,
    /// The id of a method.
    MemberFunction = sys::PDB_MEMBER_FUNCTION_ID,
    /// The build of a module.
    BuildInfo = sys::PDB_BUILD_INFO_ID,
    /// The parts of a text.
    StringList = sys::PDB_STRING_LIST_ID,
    /// A text.
    String = sys::PDB_STRING_ID,
    /// The place that declares a type.
    TypeSource = sys::PDB_TYPE_SOURCE_ID,
    /// A shape that this version of the crate does not know.
    Other = u32::MAX,
}

impl IdShape {
    pub(crate) fn of(shape: u32) -> IdShape {
        match shape {
            sys::PDB_FUNCTION_ID => IdShape::Function,
            sys::PDB_MEMBER_FUNCTION_ID => IdShape::MemberFunction,
            sys::PDB_BUILD_INFO_ID => IdShape::BuildInfo,
            sys::PDB_STRING_LIST_ID => IdShape::StringList,
            sys::PDB_STRING_ID => IdShape::String,
            sys::PDB_TYPE_SOURCE_ID => IdShape::TypeSource,
            _ => IdShape::Other,
        }
    }
}

/// The numbers of a record by their names, None if it has another shape.
impl Row {
    /// The `size` of a class, a structure or an interface, or of a union.
    pub fn size(&self) -> Option<u64> {
        match self.0.shape {
            sys::PDB_CLASS | sys::PDB_UNION => self.number(),
            _ => None,
        }
    }

    /// The `derived_from` of a class, a structure or an interface.
    pub fn derived_from(&self) -> Option<u32> {
        match self.0.shape {
            sys::PDB_CLASS => self.second_index(),
            _ => None,
        }
    }

    /// The `vtable_shape` of a class, a structure or an interface.
    pub fn vtable_shape(&self) -> Option<u32> {
        match self.0.shape {
            sys::PDB_CLASS => self.third_index(),
            _ => None,
        }
    }

    /// The `fields` of a class, a structure or an interface, or of an enumeration, or of a union.
    pub fn fields(&self) -> Option<u32> {
        match self.0.shape {
            sys::PDB_CLASS | sys::PDB_ENUMERATION | sys::PDB_UNION => self.list_index(),
            _ => None,
        }
    }

    /// The `offset` of a data member, or of a base class.
    pub fn offset(&self) -> Option<u64> {
        match self.0.shape {
            sys::PDB_MEMBER | sys::PDB_BASE_CLASS => self.number(),
            _ => None,
        }
    }

    /// The `field_type` of a data member, or of a static member.
    pub fn field_type(&self) -> Option<u32> {
        match self.0.shape {
            sys::PDB_MEMBER | sys::PDB_STATIC_MEMBER => self.type_index(),
            _ => None,
        }
    }

    /// The `parameter_count` of the type of a method, or of the type of a function.
    pub fn parameter_count(&self) -> Option<u32> {
        match self.0.shape {
            sys::PDB_MEMBER_FUNCTION | sys::PDB_PROCEDURE => self.count(),
            _ => None,
        }
    }

    /// The `return_type` of the type of a method, or of the type of a function.
    pub fn return_type(&self) -> Option<u32> {
        match self.0.shape {
            sys::PDB_MEMBER_FUNCTION | sys::PDB_PROCEDURE => self.type_index(),
            _ => None,
        }
    }

    /// The `class_type` of the type of a method.
    pub fn class_type(&self) -> Option<u32> {
        match self.0.shape {
            sys::PDB_MEMBER_FUNCTION => self.second_index(),
            _ => None,
        }
    }

    /// The `this_pointer_type` of the type of a method.
    pub fn this_pointer_type(&self) -> Option<u32> {
        match self.0.shape {
            sys::PDB_MEMBER_FUNCTION => self.third_index(),
            _ => None,
        }
    }

    /// The `argument_list` of the type of a method, or of the type of a function.
    pub fn argument_list(&self) -> Option<u32> {
        match self.0.shape {
            sys::PDB_MEMBER_FUNCTION | sys::PDB_PROCEDURE => self.list_index(),
            _ => None,
        }
    }

    /// The `this_adjustment` of the type of a method.
    pub fn this_adjustment(&self) -> Option<u32> {
        match self.0.shape {
            sys::PDB_MEMBER_FUNCTION => self.extra(),
            _ => None,
        }
    }

    /// The `method_list` of methods of one name.
    pub fn method_list(&self) -> Option<u32> {
        match self.0.shape {
            sys::PDB_OVERLOADED_METHOD => self.list_index(),
            _ => None,
        }
    }

    /// The `method_type` of a method.
    pub fn method_type(&self) -> Option<u32> {
        match self.0.shape {
            sys::PDB_METHOD => self.type_index(),
            _ => None,
        }
    }

    /// The `vtable_offset` of a method.
    pub fn vtable_offset(&self) -> Option<u32> {
        match self.0.shape {
            sys::PDB_METHOD => self.extra(),
            _ => None,
        }
    }

    /// The `nested_type` of a type that is declared in a class.
    pub fn nested_type(&self) -> Option<u32> {
        match self.0.shape {
            sys::PDB_NESTED => self.type_index(),
            _ => None,
        }
    }

    /// The `base_class` of a base class, or of a virtual base class.
    pub fn base_class(&self) -> Option<u32> {
        match self.0.shape {
            sys::PDB_BASE_CLASS | sys::PDB_VIRTUAL_BASE_CLASS => self.type_index(),
            _ => None,
        }
    }

    /// The `base_pointer_offset` of a virtual base class.
    pub fn base_pointer_offset(&self) -> Option<u64> {
        match self.0.shape {
            sys::PDB_VIRTUAL_BASE_CLASS => self.number(),
            _ => None,
        }
    }

    /// The `is_direct` of a virtual base class.
    pub fn is_direct(&self) -> Option<bool> {
        match self.0.shape {
            sys::PDB_VIRTUAL_BASE_CLASS => self.kind().map(|it| it == 1),
            _ => None,
        }
    }

    /// The `base_pointer` of a virtual base class.
    pub fn base_pointer(&self) -> Option<u32> {
        match self.0.shape {
            sys::PDB_VIRTUAL_BASE_CLASS => self.second_index(),
            _ => None,
        }
    }

    /// The `virtual_base_offset` of a virtual base class.
    pub fn virtual_base_offset(&self) -> Option<u32> {
        match self.0.shape {
            sys::PDB_VIRTUAL_BASE_CLASS => self.extra(),
            _ => None,
        }
    }

    /// The `table` of the pointer to a table of virtual functions.
    pub fn table(&self) -> Option<u32> {
        match self.0.shape {
            sys::PDB_VIRTUAL_FUNCTION_TABLE_POINTER => self.type_index(),
            _ => None,
        }
    }

    /// The `underlying_type` of a pointer, a reference or a pointer to a member, or of a type with `const`, `volatile`
    /// or `unaligned`, or of an enumeration, or of the type of a bit field.
    pub fn underlying_type(&self) -> Option<u32> {
        match self.0.shape {
            sys::PDB_POINTER | sys::PDB_MODIFIER | sys::PDB_ENUMERATION | sys::PDB_BITFIELD => self.type_index(),
            _ => None,
        }
    }

    /// The `containing_class` of a pointer, a reference or a pointer to a member.
    pub fn containing_class(&self) -> Option<u32> {
        match self.0.shape {
            sys::PDB_POINTER => self.second_index(),
            _ => None,
        }
    }

    /// The `modifiers` of a type with `const`, `volatile` or `unaligned`.
    pub fn modifiers(&self) -> Option<u32> {
        match self.0.shape {
            sys::PDB_MODIFIER => self.kind(),
            _ => None,
        }
    }

    /// The `is_signed` of a value of an enumeration.
    pub fn is_signed(&self) -> Option<bool> {
        match self.0.shape {
            sys::PDB_ENUMERATE => self.kind().map(|it| it == 1),
            _ => None,
        }
    }

    /// The `width` of a value of an enumeration.
    pub fn width(&self) -> Option<u32> {
        match self.0.shape {
            sys::PDB_ENUMERATE => self.count(),
            _ => None,
        }
    }

    /// The `element_type` of an array.
    pub fn element_type(&self) -> Option<u32> {
        match self.0.shape {
            sys::PDB_ARRAY => self.type_index(),
            _ => None,
        }
    }

    /// The `indexing_type` of an array.
    pub fn indexing_type(&self) -> Option<u32> {
        match self.0.shape {
            sys::PDB_ARRAY => self.second_index(),
            _ => None,
        }
    }

    /// The `stride` of an array.
    pub fn stride(&self) -> Option<u32> {
        match self.0.shape {
            sys::PDB_ARRAY => self.extra(),
            _ => None,
        }
    }

    /// The `length` of the type of a bit field.
    pub fn length(&self) -> Option<u32> {
        match self.0.shape {
            sys::PDB_BITFIELD => self.count(),
            _ => None,
        }
    }

    /// The `position` of the type of a bit field.
    pub fn position(&self) -> Option<u32> {
        match self.0.shape {
            sys::PDB_BITFIELD => self.extra(),
            _ => None,
        }
    }

    /// The `continuation` of a list of fields.
    pub fn continuation(&self) -> Option<u32> {
        match self.0.shape {
            sys::PDB_FIELD_LIST => self.list_index(),
            _ => None,
        }
    }

    /// The `function_type` of the id of a function, or of the id of a method.
    pub fn function_type(&self) -> Option<u32> {
        match self.0.shape {
            sys::PDB_FUNCTION_ID | sys::PDB_MEMBER_FUNCTION_ID => self.type_index(),
            _ => None,
        }
    }

    /// The `scope` of the id of a function.
    pub fn scope(&self) -> Option<u32> {
        match self.0.shape {
            sys::PDB_FUNCTION_ID => self.second_index(),
            _ => None,
        }
    }

    /// The `parent` of the id of a method.
    pub fn parent(&self) -> Option<u32> {
        match self.0.shape {
            sys::PDB_MEMBER_FUNCTION_ID => self.third_index(),
            _ => None,
        }
    }

    /// The `substrings` of a text.
    pub fn substrings(&self) -> Option<u32> {
        match self.0.shape {
            sys::PDB_STRING_ID => self.list_index(),
            _ => None,
        }
    }

    /// The `file_name` of the place that declares a type.
    pub fn file_name(&self) -> Option<u64> {
        match self.0.shape {
            sys::PDB_TYPE_SOURCE_ID => self.number(),
            _ => None,
        }
    }

    /// The `udt` of the place that declares a type.
    pub fn udt(&self) -> Option<u32> {
        match self.0.shape {
            sys::PDB_TYPE_SOURCE_ID => self.type_index(),
            _ => None,
        }
    }

    /// The `file_id` of the place that declares a type.
    pub fn file_id(&self) -> Option<u32> {
        match self.0.shape {
            sys::PDB_TYPE_SOURCE_ID => self.second_index(),
            _ => None,
        }
    }

    /// The `module` of the place that declares a type.
    pub fn module(&self) -> Option<u32> {
        match self.0.shape {
            sys::PDB_TYPE_SOURCE_ID => self.third_index(),
            _ => None,
        }
    }

    /// The `line` of the place that declares a type.
    pub fn line(&self) -> Option<u32> {
        match self.0.shape {
            sys::PDB_TYPE_SOURCE_ID => self.extra(),
            _ => None,
        }
    }
}
