//! What records say.

pub use super::primitives::{Indirection, PrimitiveKind, PrimitiveType};
use super::{Error, FieldAttributes, FunctionAttributes, IdIndex, PointerAttributes, RawString, Result, StringRef};
use super::{TypeIndex, TypeProperties};
use crate::row::Row;
use crate::shapes::{IdShape, Shape};
use crate::sys;
use crate::table::Record;

/// Whether a class is a `class`, a `struct` or an `interface`.
#[derive(Debug, Clone, Copy, PartialEq, Eq, Hash)]
pub enum ClassKind {
    /// A `class`.
    Class,
    /// A `struct`.
    Struct,
    /// An `interface`.
    Interface,
}

impl ClassKind {
    fn of(row: &Row) -> ClassKind {
        match row.kind() {
            Some(sys::PDB_KIND_STRUCTURE) => ClassKind::Struct,
            Some(sys::PDB_KIND_INTERFACE) => ClassKind::Interface,
            _ => ClassKind::Class,
        }
    }
}

/// A number of some width, with or without a sign.
#[derive(Debug, Clone, Copy, PartialEq, Eq, Hash)]
#[allow(missing_docs)]
pub enum Variant {
    U8(u8),
    U16(u16),
    U32(u32),
    U64(u64),
    I8(i8),
    I16(i16),
    I32(i32),
    I64(i64),
}

impl Variant {
    fn of(row: &Row) -> Variant {
        let bits = row.number().unwrap_or_default();
        match (row.is_signed() == Some(true), row.width()) {
            (false, Some(1)) => Variant::U8(bits as u8),
            (false, Some(2)) => Variant::U16(bits as u16),
            (false, Some(4)) => Variant::U32(bits as u32),
            (false, _) => Variant::U64(bits),
            (true, Some(1)) => Variant::I8(bits as i8),
            (true, Some(2)) => Variant::I16(bits as i16),
            (true, Some(4)) => Variant::I32(bits as i32),
            (true, _) => Variant::I64(bits as i64),
        }
    }
}

impl std::fmt::Display for Variant {
    fn fmt(&self, f: &mut std::fmt::Formatter<'_>) -> std::fmt::Result {
        match *self {
            Variant::U8(it) => it.fmt(f),
            Variant::U16(it) => it.fmt(f),
            Variant::U32(it) => it.fmt(f),
            Variant::U64(it) => it.fmt(f),
            Variant::I8(it) => it.fmt(f),
            Variant::I16(it) => it.fmt(f),
            Variant::I32(it) => it.fmt(f),
            Variant::I64(it) => it.fmt(f),
        }
    }
}

macro_rules! records {
    ($($(#[$about:meta])* $name:ident $(<$life:lifetime>)? { $($(#[$of:meta])* $field:ident: $kind:ty),* $(,)? })*) => {
        $(
            $(#[$about])*
            #[derive(Debug, Clone, PartialEq, Eq)]
            pub struct $name $(<$life>)? { $($(#[$of])* pub $field: $kind),* }
        )*
    };
}

records! {
    /// A class, a structure or an interface.
    ClassType<'t> {
        /// Which of these it is.
        kind: ClassKind,
        /// How many members it has.
        count: u16,
        /// Its properties.
        properties: TypeProperties,
        /// The list of its members.
        fields: Option<TypeIndex>,
        /// The list of the classes from which it is derived.
        derived_from: Option<TypeIndex>,
        /// The shape of its table of virtual functions.
        vtable_shape: Option<TypeIndex>,
        /// Its size in bytes.
        size: u64,
        /// Its name.
        name: RawString<'t>,
        /// Its unique name.
        unique_name: Option<RawString<'t>>,
    }
    /// A data member.
    MemberType<'t> {
        /// Its attributes.
        attributes: FieldAttributes,
        /// Its type.
        field_type: TypeIndex,
        /// Its offset in the class.
        offset: u64,
        /// Its name.
        name: RawString<'t>,
    }
    /// The type of a method.
    MemberFunctionType {
        /// What it returns.
        return_type: TypeIndex,
        /// The class of which it is a method.
        class_type: TypeIndex,
        /// The type of `this`, None for a static method.
        this_pointer_type: Option<TypeIndex>,
        /// Its attributes.
        attributes: FunctionAttributes,
        /// How many parameters it has.
        parameter_count: u16,
        /// The list of its arguments.
        argument_list: TypeIndex,
        /// How `this` is adjusted.
        this_adjustment: u32,
    }
    /// Methods of one name.
    OverloadedMethodType<'t> {
        /// How many there are.
        count: u16,
        /// The list of them.
        method_list: TypeIndex,
        /// Their name.
        name: RawString<'t>,
    }
    /// A method.
    MethodType<'t> {
        /// Its attributes.
        attributes: FieldAttributes,
        /// Its type.
        method_type: TypeIndex,
        /// Its place in the table of virtual functions, if it takes an entry of its own.
        vtable_offset: Option<u32>,
        /// Its name.
        name: RawString<'t>,
    }
    /// A static member.
    StaticMemberType<'t> {
        /// Its attributes.
        attributes: FieldAttributes,
        /// Its type.
        field_type: TypeIndex,
        /// Its name.
        name: RawString<'t>,
    }
    /// A type that is declared in a class.
    NestedType<'t> {
        /// Its attributes.
        attributes: FieldAttributes,
        /// The type.
        nested_type: TypeIndex,
        /// Its name.
        name: RawString<'t>,
    }
    /// A base class.
    BaseClassType {
        /// Whether it is a class, a structure or an interface.
        kind: ClassKind,
        /// Its attributes.
        attributes: FieldAttributes,
        /// The class.
        base_class: TypeIndex,
        /// Its offset in the class.
        offset: u32,
    }
    /// A virtual base class.
    VirtualBaseClassType {
        /// Whether the class itself names it.
        direct: bool,
        /// Its attributes.
        attributes: FieldAttributes,
        /// The class.
        base_class: TypeIndex,
        /// The type of the pointer to the table of virtual bases.
        base_pointer: TypeIndex,
        /// The offset of that pointer.
        base_pointer_offset: u32,
        /// The position of the class in that table.
        virtual_base_offset: u32,
    }
    /// The pointer to a table of virtual functions.
    VirtualFunctionTablePointerType {
        /// Its type.
        table: TypeIndex,
    }
    /// The type of a function.
    ProcedureType {
        /// What it returns.
        return_type: Option<TypeIndex>,
        /// Its attributes.
        attributes: FunctionAttributes,
        /// How many parameters it has.
        parameter_count: u16,
        /// The list of its arguments.
        argument_list: TypeIndex,
    }
    /// A pointer, a reference, or a pointer to a member.
    PointerType {
        /// What it points to.
        underlying_type: TypeIndex,
        /// Its attributes.
        attributes: PointerAttributes,
        /// The class to whose members it points.
        containing_class: Option<TypeIndex>,
    }
    /// A type with modifiers.
    ModifierType {
        /// The type that is modified.
        underlying_type: TypeIndex,
        /// Whether it is `const`.
        constant: bool,
        /// Whether it is `volatile`.
        volatile: bool,
        /// Whether it is not aligned.
        unaligned: bool,
    }
    /// An enumeration.
    EnumerationType<'t> {
        /// How many values it has.
        count: u16,
        /// Its properties.
        properties: TypeProperties,
        /// The type of its values.
        underlying_type: TypeIndex,
        /// The list of its values.
        fields: TypeIndex,
        /// Its name.
        name: RawString<'t>,
        /// Its unique name.
        unique_name: Option<RawString<'t>>,
    }
    /// A value of an enumeration.
    EnumerateType<'t> {
        /// Its attributes.
        attributes: FieldAttributes,
        /// The value.
        value: Variant,
        /// Its name.
        name: RawString<'t>,
    }
    /// An array.
    ArrayType {
        /// The type of its elements.
        element_type: TypeIndex,
        /// The type by which it is indexed.
        indexing_type: TypeIndex,
        /// How far its elements are apart, if the record says it.
        stride: Option<u32>,
        /// Its size in bytes up to each dimension, the innermost first.
        dimensions: Vec<u32>,
    }
    /// A union.
    UnionType<'t> {
        /// How many members it has.
        count: u16,
        /// Its properties.
        properties: TypeProperties,
        /// The list of its members.
        fields: TypeIndex,
        /// Its size in bytes.
        size: u64,
        /// Its name.
        name: RawString<'t>,
        /// Its unique name.
        unique_name: Option<RawString<'t>>,
    }
    /// The type of a bit field.
    BitfieldType {
        /// The type that holds the bits.
        underlying_type: TypeIndex,
        /// How many bits it takes.
        length: u8,
        /// The lowest of them.
        position: u8,
    }
    /// A list of fields.
    FieldList<'t> {
        /// The fields.
        fields: Vec<TypeData<'t>>,
        /// The list in which it continues.
        continuation: Option<TypeIndex>,
    }
    /// A list of arguments.
    ArgumentList {
        /// Their types.
        arguments: Vec<TypeIndex>,
    }
    /// A list of methods of one name.
    MethodList {
        /// The methods.
        methods: Vec<MethodListEntry>,
    }
    /// A method of a list.
    MethodListEntry {
        /// Its attributes.
        attributes: FieldAttributes,
        /// Its type.
        method_type: TypeIndex,
        /// Its place in the table of virtual functions, if it takes an entry of its own.
        vtable_offset: Option<u32>,
    }
    /// The shape of a table of virtual functions.
    VirtualTableShapeType {
        /// How many functions it has.
        count: u16,
    }
    /// A function.
    FunctionId<'t> {
        /// The scope that has it.
        scope: Option<IdIndex>,
        /// Its type.
        function_type: TypeIndex,
        /// Its name.
        name: RawString<'t>,
    }
    /// A method.
    MemberFunctionId<'t> {
        /// The class of which it is a method.
        parent: TypeIndex,
        /// Its type.
        function_type: TypeIndex,
        /// Its name.
        name: RawString<'t>,
    }
    /// How a module was built.
    BuildInfoId {
        /// The folder, the compiler, the source, the program database and the arguments, each a text.
        arguments: Vec<IdIndex>,
    }
    /// The parts of a text.
    StringListId {
        /// The parts.
        substrings: Vec<TypeIndex>,
    }
    /// A text.
    StringId<'t> {
        /// The parts that stand before it.
        substrings: Option<IdIndex>,
        /// The text.
        name: RawString<'t>,
    }
    /// Where a type is declared.
    UserDefinedTypeSourceId {
        /// The type.
        udt: TypeIndex,
        /// The file.
        source_file: UserDefinedTypeSourceFileRef,
        /// The line.
        line: u32,
    }
}

/// The file that declares a type.
#[derive(Debug, Clone, Copy, PartialEq, Eq)]
pub enum UserDefinedTypeSourceFileRef {
    /// A text of the table of ids.
    Local(IdIndex),
    /// The module, and the name in the string table.
    Remote(u16, StringRef),
}

/// What the record of a type says.
#[derive(Debug, Clone, PartialEq, Eq)]
#[non_exhaustive]
#[allow(missing_docs)]
pub enum TypeData<'t> {
    Primitive(PrimitiveType),
    Class(ClassType<'t>),
    Member(MemberType<'t>),
    MemberFunction(MemberFunctionType),
    OverloadedMethod(OverloadedMethodType<'t>),
    Method(MethodType<'t>),
    StaticMember(StaticMemberType<'t>),
    Nested(NestedType<'t>),
    BaseClass(BaseClassType),
    VirtualBaseClass(VirtualBaseClassType),
    VirtualFunctionTablePointer(VirtualFunctionTablePointerType),
    Procedure(ProcedureType),
    Pointer(PointerType),
    Modifier(ModifierType),
    Enumeration(EnumerationType<'t>),
    Enumerate(EnumerateType<'t>),
    Array(ArrayType),
    Union(UnionType<'t>),
    Bitfield(BitfieldType),
    FieldList(FieldList<'t>),
    ArgumentList(ArgumentList),
    MethodList(MethodList),
    VirtualTableShape(VirtualTableShapeType),
}

/// What the record of an id says.
#[derive(Debug, Clone, PartialEq, Eq)]
#[non_exhaustive]
#[allow(missing_docs)]
pub enum IdData<'t> {
    Function(FunctionId<'t>),
    MemberFunction(MemberFunctionId<'t>),
    BuildInfo(BuildInfoId),
    StringList(StringListId),
    String(StringId<'t>),
    UserDefinedTypeSource(UserDefinedTypeSourceId),
}

/// The numbers of a row as this module has them.
impl Row {
    fn counted(&self) -> u16 {
        self.count().unwrap_or_default() as u16
    }

    fn type_properties(&self) -> TypeProperties {
        TypeProperties(self.properties().unwrap_or_default() as u16)
    }

    fn of_field(&self) -> FieldAttributes {
        FieldAttributes(self.attributes().unwrap_or_default() as u16)
    }

    fn of_function(&self) -> FunctionAttributes {
        FunctionAttributes(self.attributes().unwrap_or_default() as u16)
    }
}

/// The type that a row refers to by a number which each record of its shape has.
fn index(number: Option<u32>) -> TypeIndex {
    TypeIndex(number.unwrap_or_default())
}

impl<'t> TypeData<'t> {
    /// The name of a type or of a field, if it has one.
    pub fn name(&self) -> Option<RawString<'t>> {
        match self {
            TypeData::Class(it) => Some(it.name),
            TypeData::Member(it) => Some(it.name),
            TypeData::OverloadedMethod(it) => Some(it.name),
            TypeData::Method(it) => Some(it.name),
            TypeData::StaticMember(it) => Some(it.name),
            TypeData::Nested(it) => Some(it.name),
            TypeData::Enumeration(it) => Some(it.name),
            TypeData::Enumerate(it) => Some(it.name),
            TypeData::Union(it) => Some(it.name),
            _ => None,
        }
    }

    /// Reads a record.
    pub(super) fn read(it: &Record<'t>) -> Result<TypeData<'t>> {
        let row = &it.parse()?;
        let name = || Ok::<_, Error>(RawString(it.name()?.unwrap_or_default()));
        Ok(match Shape::of(row.0.shape) {
            Shape::Primitive => {
                let primitive = PrimitiveType::of(TypeIndex(it.index)).ok_or(Error::TypeNotFound(it.index))?;
                TypeData::Primitive(primitive)
            }
            Shape::Class => TypeData::Class(ClassType {
                kind: ClassKind::of(row),
                count: row.counted(),
                properties: row.type_properties(),
                fields: row.fields().map(TypeIndex),
                derived_from: row.derived_from().map(TypeIndex),
                vtable_shape: row.vtable_shape().map(TypeIndex),
                size: row.size().unwrap_or_default(),
                name: name()?,
                unique_name: it.unique_name()?.map(RawString),
            }),
            Shape::MemberFunction => TypeData::MemberFunction(MemberFunctionType {
                return_type: index(row.return_type()),
                class_type: index(row.class_type()),
                this_pointer_type: row.this_pointer_type().map(TypeIndex),
                attributes: row.of_function(),
                parameter_count: row.counted(),
                argument_list: index(row.argument_list()),
                this_adjustment: row.this_adjustment().unwrap_or_default(),
            }),
            Shape::Procedure => TypeData::Procedure(ProcedureType {
                return_type: row.return_type().map(TypeIndex),
                attributes: row.of_function(),
                parameter_count: row.counted(),
                argument_list: index(row.argument_list()),
            }),
            Shape::Pointer => TypeData::Pointer(PointerType {
                underlying_type: index(row.underlying_type()),
                attributes: PointerAttributes(row.attributes().unwrap_or_default()),
                containing_class: row.containing_class().map(TypeIndex),
            }),
            Shape::Modifier => {
                let has = |bit| row.modifiers().unwrap_or_default() & bit != 0;
                TypeData::Modifier(ModifierType {
                    underlying_type: index(row.underlying_type()),
                    constant: has(sys::PDB_MODIFIER_CONST),
                    volatile: has(sys::PDB_MODIFIER_VOLATILE),
                    unaligned: has(sys::PDB_MODIFIER_UNALIGNED),
                })
            }
            Shape::Enumeration => TypeData::Enumeration(EnumerationType {
                count: row.counted(),
                properties: row.type_properties(),
                underlying_type: index(row.underlying_type()),
                fields: index(row.fields()),
                name: name()?,
                unique_name: it.unique_name()?.map(RawString),
            }),
            Shape::Array => TypeData::Array(ArrayType {
                element_type: index(row.element_type()),
                indexing_type: index(row.indexing_type()),
                stride: row.stride(),
                dimensions: it.numbers()?.unwrap_or_default(),
            }),
            Shape::Union => TypeData::Union(UnionType {
                count: row.counted(),
                properties: row.type_properties(),
                fields: index(row.fields()),
                size: row.size().unwrap_or_default(),
                name: name()?,
                unique_name: it.unique_name()?.map(RawString),
            }),
            Shape::Bitfield => TypeData::Bitfield(BitfieldType {
                underlying_type: index(row.underlying_type()),
                length: row.length().unwrap_or_default() as u8,
                position: row.position().unwrap_or_default() as u8,
            }),
            Shape::FieldList => {
                let continuation = row.continuation().filter(|index| *index != 0).map(TypeIndex);
                let fields = it.own_fields()?.into_iter().map(|(row, name)| field(&row, RawString(name), it));
                TypeData::FieldList(FieldList { fields: fields.collect::<Result<_>>()?, continuation })
            }
            Shape::ArgumentList => {
                let arguments = it.numbers()?.unwrap_or_default();
                TypeData::ArgumentList(ArgumentList { arguments: arguments.into_iter().map(TypeIndex).collect() })
            }
            Shape::MethodList => {
                let methods = it.methods()?.unwrap_or_default();
                let methods = methods.iter().map(|row| MethodListEntry {
                    attributes: row.of_field(),
                    method_type: index(row.method_type()),
                    vtable_offset: row.vtable_offset(),
                });
                TypeData::MethodList(MethodList { methods: methods.collect() })
            }
            Shape::VirtualTableShape => TypeData::VirtualTableShape(VirtualTableShapeType { count: row.counted() }),
            Shape::Member
            | Shape::OverloadedMethod
            | Shape::Method
            | Shape::StaticMember
            | Shape::Nested
            | Shape::BaseClass
            | Shape::VirtualBaseClass
            | Shape::VirtualFunctionTablePointer
            | Shape::Enumerate
            | Shape::Other => field(row, name()?, it)?,
        })
    }
}

/// A field of a list, or one that is a record of its own.
fn field<'t>(row: &Row, name: RawString<'t>, of: &Record<'t>) -> Result<TypeData<'t>> {
    Ok(match Shape::of(row.0.shape) {
        Shape::Member => TypeData::Member(MemberType {
            attributes: row.of_field(),
            field_type: index(row.field_type()),
            offset: row.offset().unwrap_or_default(),
            name,
        }),
        Shape::OverloadedMethod => TypeData::OverloadedMethod(OverloadedMethodType {
            count: row.counted(),
            method_list: index(row.method_list()),
            name,
        }),
        Shape::Method => TypeData::Method(MethodType {
            attributes: row.of_field(),
            method_type: index(row.method_type()),
            vtable_offset: row.vtable_offset(),
            name,
        }),
        Shape::StaticMember => TypeData::StaticMember(StaticMemberType {
            attributes: row.of_field(),
            field_type: index(row.field_type()),
            name,
        }),
        Shape::Nested => {
            TypeData::Nested(NestedType { attributes: row.of_field(), nested_type: index(row.nested_type()), name })
        }
        Shape::BaseClass => TypeData::BaseClass(BaseClassType {
            kind: ClassKind::of(row),
            attributes: row.of_field(),
            base_class: index(row.base_class()),
            offset: row.offset().unwrap_or_default() as u32,
        }),
        Shape::VirtualBaseClass => TypeData::VirtualBaseClass(VirtualBaseClassType {
            direct: row.is_direct().unwrap_or_default(),
            attributes: row.of_field(),
            base_class: index(row.base_class()),
            base_pointer: index(row.base_pointer()),
            base_pointer_offset: row.base_pointer_offset().unwrap_or_default() as u32,
            virtual_base_offset: row.virtual_base_offset().unwrap_or_default(),
        }),
        Shape::VirtualFunctionTablePointer => {
            TypeData::VirtualFunctionTablePointer(VirtualFunctionTablePointerType { table: index(row.table()) })
        }
        Shape::Enumerate => {
            TypeData::Enumerate(EnumerateType { attributes: row.of_field(), value: Variant::of(row), name })
        }
        // None of these is a field.
        Shape::Primitive
        | Shape::Class
        | Shape::MemberFunction
        | Shape::Procedure
        | Shape::Pointer
        | Shape::Modifier
        | Shape::Enumeration
        | Shape::Array
        | Shape::Union
        | Shape::Bitfield
        | Shape::FieldList
        | Shape::ArgumentList
        | Shape::MethodList
        | Shape::VirtualTableShape
        | Shape::Other => return Err(Error::UnimplementedTypeKind(of.kind().unwrap_or_default())),
    })
}

impl<'t> IdData<'t> {
    /// The name of a function or a method, or a text.
    pub fn name(&self) -> Option<RawString<'t>> {
        match self {
            IdData::Function(it) => Some(it.name),
            IdData::MemberFunction(it) => Some(it.name),
            IdData::String(it) => Some(it.name),
            _ => None,
        }
    }

    /// Reads a record.
    pub(super) fn read(it: &Record<'t>) -> Result<IdData<'t>> {
        if it.bytes.is_empty() {
            return Err(Error::TypeNotFound(it.index));
        }
        let row = &it.parse()?;
        let name = || Ok::<_, Error>(RawString(it.name()?.unwrap_or_default()));
        Ok(match IdShape::of(row.0.shape) {
            IdShape::Function => IdData::Function(FunctionId {
                scope: row.scope().map(IdIndex),
                function_type: index(row.function_type()),
                name: name()?,
            }),
            IdShape::MemberFunction => IdData::MemberFunction(MemberFunctionId {
                parent: index(row.parent()),
                function_type: index(row.function_type()),
                name: name()?,
            }),
            IdShape::BuildInfo => {
                let arguments = it.numbers()?.unwrap_or_default();
                IdData::BuildInfo(BuildInfoId { arguments: arguments.into_iter().map(IdIndex).collect() })
            }
            IdShape::StringList => {
                let substrings = it.numbers()?.unwrap_or_default();
                IdData::StringList(StringListId { substrings: substrings.into_iter().map(TypeIndex).collect() })
            }
            IdShape::String => IdData::String(StringId { substrings: row.substrings().map(IdIndex), name: name()? }),
            IdShape::TypeSource => IdData::UserDefinedTypeSource(UserDefinedTypeSourceId {
                udt: index(row.udt()),
                source_file: match row.module() {
                    Some(module) => {
                        let name = row.file_name().unwrap_or_default() as u32;
                        UserDefinedTypeSourceFileRef::Remote(module as u16, StringRef(name))
                    }
                    None => UserDefinedTypeSourceFileRef::Local(IdIndex(row.file_id().unwrap_or_default())),
                },
                line: row.line().unwrap_or_default(),
            }),
            IdShape::Other => return Err(Error::UnimplementedTypeKind(it.kind().unwrap_or_default())),
        })
    }
}
