"""The types of a table and the fields of their lists: a class for each shape."""

from enum import IntEnum
from typing import TYPE_CHECKING, Callable, Dict, List, Optional, TypeVar

from ._library import library
from ._rows import HAS, NO_SHAPE, SHAPE, Getter, Number, Raw, Record, Row, number, number_as, optional
from ._sys import PRIMITIVES, ClassKind, FieldAttribute, FunctionAttribute, ModifierBit, PointerAttribute, Property, Shape

if TYPE_CHECKING:
    from ._tables import Types

FIRST_RECORD = 0x1000  # the indexes below it are those of primitive types
_FORWARD = int(Property.FORWARD_REFERENCE)

_SHAPES = list(Shape)
_T = TypeVar("_T")


def target(about: str, header_name: str = "") -> "Number[Type]":
    """The type to which each record of the shape refers."""
    return Number(about, "Type", lambda place, _: lambda it: it._table[it._raw[place]], header_name, False)


def optional_target(about: str, header_name: str = "") -> "Number[Optional[Type]]":
    """The type to which only some records refer, None in the others."""

    def reader(place: int, bit: int) -> Getter:
        return lambda it: it._table[it._raw[place]] if it._raw[HAS] & bit else None

    return Number(about, "Optional[Type]", reader, header_name, False)


def bits(kind: Callable[[int], _T], mask: int, about: str) -> Number[_T]:
    """Some of the bits of the attributes, from the lowest one of a mask on."""
    shift = (mask & -mask).bit_length() - 1
    return Number(about, kind, lambda place, _: lambda it: kind((it._raw[place] & mask) >> shift), "attributes", False)


class Type(Record):
    """A type: its index, its shape, and the numbers in its record. Each shape has a class of its own, with its numbers by
    their names, and the types to which it refers. These are looked up where they are asked for, so that a damaged file is a
    `KeyError` or a `PdbError` there. In a damaged file a field may stand in place of a type: it is a plain `Type`."""

    __slots__ = ()
    _table: "Types"

    @classmethod
    def _register(cls, shape: IntEnum) -> None:
        CLASSES[shape] = cls

    @property
    def shape(self) -> Optional[Shape]:
        """What shape it has, None if its record can't be read."""
        return None if self._raw[3] else _SHAPES[self._raw[SHAPE]]

    @property
    def name(self) -> Optional[str]:
        """Its name; None if it has none."""
        return self._text(library().pdb_type_name)

    @property
    def is_definition(self) -> bool:
        """Whether it is a class, a union or an enumeration that is defined here, and not only declared."""
        return False


# The class of each shape, and of types that can't be read.
CLASSES: "Dict[int, type[Type]]" = dict.fromkeys(Shape, Type)


class Unreadable(Type):
    """A type whose record can't be read, as one of a kind that the library doesn't know: `error` says why."""

    __slots__ = ()
    _shown = ("index", "error")

    @property
    def name(self) -> None:
        """None."""


CLASSES[NO_SHAPE] = Unreadable


class Primitive(Type, shape=Shape.PRIMITIVE):
    """A type without a record, such as an `int`, or a pointer to one. Its index says all of it."""

    __slots__ = ()
    __match_args__ = ("name",)
    _shown = ("index",)

    kind = Number[int](
        "The number of the type in TYPE_ENUM_e of cvinfo.h, such as 0x74 for an `int`.", int, lambda *_: lambda it: it.index & 0xFF
    )

    @property
    def indirection(self) -> int:
        """The number in CV_prmode_e of cvinfo.h: 0 for the type itself, 4 for a pointer of 32 bits to it, 6 for one of 64."""
        return self.index >> 8

    @property
    def name(self) -> str:
        """Its name in C++."""
        return PRIMITIVES[self.kind] + (" *" if self.indirection else "")

    @property
    def target(self) -> "Optional[Type]":
        """The type that is pointed at, None if it is no pointer."""
        return self._table[self.kind] if self.indirection else None


class UserDefinedType(Type):
    """A class, a union or an enumeration, by its name."""

    __slots__ = ()
    __match_args__ = ("name",)
    _shown = ("index", "name")

    properties = number_as(Property)("The bits of its properties.")
    field_count = number("How many fields the record counts, 0 if it is only declared.", "count")

    @property
    def name(self) -> str:
        """Its name, with the namespaces and the classes that it is in."""
        return self._text(library().pdb_type_name) or ""

    @property
    def unique_name(self) -> Optional[str]:
        """Its decorated name, None if it has none."""
        return self._text(library().pdb_type_unique_name)

    @property
    def is_forward(self) -> bool:
        """Whether it is only declared here, and defined by another record."""
        return bool(self._raw[-7] & _FORWARD)

    @property
    def is_definition(self) -> bool:
        """Whether it is defined here, and not only declared."""
        return not self._raw[-7] & _FORWARD

    @property
    def definition(self) -> "Optional[UserDefinedType]":
        """The definition of a type that is only declared, or itself if it is one. None if the table doesn't define it."""
        index = self._table.definitions.definition_of(self.index)
        found = None if index is None else self._table[index]
        return found if isinstance(found, UserDefinedType) else None

    @property
    def fields(self) -> "List[Field]":
        """Its fields, of all its lists; none if it is only declared."""
        return self._table.fields(self._raw[-2]) if self._raw[-2] else []


class Class(UserDefinedType, shape=Shape.CLASS):
    """A class, a structure or an interface."""

    __slots__ = ()
    __match_args__ = ("name", "size")

    size = number("Its size in bytes, 0 if it is only declared.")
    kind = number_as(ClassKind)("Whether it is a class, a structure or an interface.")
    derived_from_index = optional("The list of the classes from which it is derived.")
    derived_from = optional_target("The list of the classes from which it is derived.")
    vtable_shape_index = optional("The shape of its table of virtual functions.")
    vtable_shape = optional_target("The shape of its table of virtual functions.")
    fields_index = optional("The list of its fields, None if it is only declared.")


class Union(UserDefinedType, shape=Shape.UNION):
    """A union."""

    __slots__ = ()
    __match_args__ = ("name", "size")

    size = number("Its size in bytes, 0 if it is only declared.")
    fields_index = number("The list of its fields, 0 if it is only declared.")


class Enum(UserDefinedType, shape=Shape.ENUMERATION):
    """An enumeration, whose fields are enumerators."""

    __slots__ = ()

    underlying_type_index = number("The type of its values.")
    underlying_type = target("The type of its values.")
    fields_index = number("The list of its enumerators, 0 if it is only declared.")

    @property
    def fields(self) -> "List[Field]":
        """Its enumerators, of all its lists, whose values are numbers of the type under it; none if it is only declared."""
        return self._table.fields(self._raw[-2], self.underlying_type_index) if self._raw[-2] else []


class Pointer(Type, shape=Shape.POINTER):
    """A pointer, a reference, or a pointer to a member."""

    __slots__ = ()
    __match_args__ = ("target",)

    attributes = number_as(PointerAttribute)("The bits of its attributes.")
    size = bits(int, PointerAttribute.SIZE_MASK, "Its size in bytes.")
    target_index = number("The type that is pointed at.", "underlying_type")
    target = target("The type that is pointed at.", "underlying_type")
    containing_class_index = optional("The class, of a pointer to a member.")
    containing_class = optional_target("The class, of a pointer to a member.")

    @property
    def mode(self) -> PointerAttribute:
        """What kind of pointer it is, such as `PointerAttribute.MODE_LVALUE_REFERENCE`."""
        return self.attributes & PointerAttribute.MODE_MASK


class Modifier(Type, shape=Shape.MODIFIER):
    """A type that is const, volatile or unaligned."""

    __slots__ = ()
    __match_args__ = ("underlying_type",)

    modifiers = number_as(ModifierBit)("The bits that say which.")
    underlying_type_index = number("The type that is modified.")
    underlying_type = target("The type that is modified.")


class Array(Type, shape=Shape.ARRAY):
    """An array."""

    __slots__ = ()
    __match_args__ = ("element_type", "size")

    element_type_index = number("The type of its elements.")
    element_type = target("The type of its elements.")
    indexing_type_index = number("The type of its indexes.")
    indexing_type = target("The type of its indexes.")
    stride = optional("The bytes from one element to the next, if the record says so.")

    @property
    def dimensions(self) -> List[int]:
        """Its size in bytes up to each dimension, the innermost first: each includes those before it."""
        return self._indexes()

    @property
    def size(self) -> int:
        """Its size in bytes."""
        return self.dimensions[-1]


class Bitfield(Type, shape=Shape.BITFIELD):
    """Some bits of a number, as the type of a member."""

    __slots__ = ()
    __match_args__ = ("underlying_type", "position", "length")

    underlying_type_index = number("The type of the number.")
    underlying_type = target("The type of the number.")
    position = number("Its lowest bit.")
    length = number("How many bits it takes.")


class Procedure(Type, shape=Shape.PROCEDURE):
    """A function that is no member, or a static one."""

    __slots__ = ()
    __match_args__ = ("return_type", "argument_list")

    attributes = number_as(FunctionAttribute)("The bits of its attributes.")
    calling_convention = bits(int, 0xFF, "The number of its calling convention in CV_call_e of cvinfo.h.")
    parameter_count = number("How many parameters it has.")
    return_type_index = optional("The type that it returns.")
    return_type = optional_target("The type that it returns.")
    argument_list_index = number("The list of the types of its arguments.")
    argument_list = target("The list of the types of its arguments.")


class MemberFunction(Type, shape=Shape.MEMBER_FUNCTION):
    """A function that is a member of a class."""

    __slots__ = ()
    __match_args__ = ("class_type", "return_type", "argument_list")

    attributes = number_as(FunctionAttribute)("The bits of its attributes.")
    calling_convention = bits(int, 0xFF, "The number of its calling convention in CV_call_e of cvinfo.h.")
    parameter_count = number("How many parameters it has.")
    return_type_index = number("The type that it returns.")
    return_type = target("The type that it returns.")
    class_type_index = number("The class of which it is a member.")
    class_type = target("The class of which it is a member.")
    this_pointer_type_index = optional("The type of `this`, None if it is static.")
    this_pointer_type = optional_target("The type of `this`, None if it is static.")
    argument_list_index = number("The list of the types of its arguments.")
    argument_list = target("The list of the types of its arguments.")
    this_adjustment = number("What is added to `this`.")


class ArgumentList(Type, shape=Shape.ARGUMENT_LIST):
    """The types of the arguments of a function."""

    __slots__ = ()
    __match_args__ = ("arguments",)

    @property
    def argument_indexes(self) -> List[int]:
        """The types of the arguments."""
        return self._indexes()

    @property
    def arguments(self) -> List[Type]:
        """The types of the arguments."""
        return [self._table[index] for index in self.argument_indexes]


class FieldList(Type, shape=Shape.FIELD_LIST):
    """The fields of a class, a union or an enumeration."""

    __slots__ = ()
    __match_args__ = ("fields",)

    continuation_index = optional("The list in which it continues.")
    continuation = optional_target("The list in which it continues.")

    @property
    def fields(self) -> "List[Field]":
        """Its fields, and those of the lists in which it continues."""
        return self._table.fields(self.index)


class MethodList(Type, shape=Shape.METHOD_LIST):
    """The methods of one name."""

    __slots__ = ()
    __match_args__ = ("methods",)

    @property
    def methods(self) -> "List[Method]":
        """The methods, in their order."""
        return self._table.methods(self.index)


class VirtualTableShape(Type, shape=Shape.VIRTUAL_TABLE_SHAPE):
    """The shape of a table of virtual functions."""

    __slots__ = ()

    count = number("How many functions the table has.")


class Field(Row):
    """A field of a list: its shape, its name, and its numbers. Each shape has a class of its own. In a damaged file a type may
    stand in place of a field: it is a plain `Field`."""

    __slots__ = ("_table", "_name")
    _shown = ("name",)

    def __init__(self, table: "Types", raw: Raw, name: Optional[str]):
        self._table, self._raw, self._name = table, raw, name

    @classmethod
    def _register(cls, shape: IntEnum) -> None:
        FIELDS[shape] = cls

    @property
    def shape(self) -> Shape:
        """What shape it has."""
        return _SHAPES[self._raw[SHAPE]]

    def __eq__(self, other: object) -> bool:
        return isinstance(other, Field) and (self._raw, self._name) == (other._raw, other._name)

    def __hash__(self) -> int:
        return hash((self._raw, self._name))

    @property
    def name(self) -> Optional[str]:
        """Its name, None if it has none."""
        return self._name


FIELDS: "Dict[int, type[Field]]" = dict.fromkeys(Shape, Field)  # the class of each shape


class _NamedField(Field):
    """A field that has a name."""

    __slots__ = ()

    @property
    def name(self) -> str:
        """Its name."""
        return self._name or ""


def _access() -> Number[FieldAttribute]:
    return bits(FieldAttribute, FieldAttribute.ACCESS_MASK, "Who may use it, such as `FieldAttribute.PUBLIC`; 0 if that is not said.")


class Member(_NamedField, shape=Shape.MEMBER):
    """A data member that each object has."""

    __slots__ = ()
    __match_args__ = ("name", "type", "offset")

    offset = number("Its offset in bytes from the start of the class.")
    type_index = number("Its type.", "field_type")
    type = target("Its type.", "field_type")
    attributes = number_as(FieldAttribute)("The bits of its attributes.")
    access = _access()


class StaticMember(_NamedField, shape=Shape.STATIC_MEMBER):
    """A data member of the class itself."""

    __slots__ = ()
    __match_args__ = ("name", "type")

    type_index = number("Its type.", "field_type")
    type = target("Its type.", "field_type")
    attributes = number_as(FieldAttribute)("The bits of its attributes.")
    access = _access()


class Nested(_NamedField, shape=Shape.NESTED):
    """A type that is declared in a class."""

    __slots__ = ()
    __match_args__ = ("name", "type")

    type_index = number("The type.", "nested_type")
    type = target("The type.", "nested_type")
    attributes = number_as(FieldAttribute)("The bits of its attributes.")
    access = _access()


class Enumerator(_NamedField, shape=Shape.ENUMERATE):
    """A value of an enumeration, by its name."""

    __slots__ = ()
    __match_args__ = ("name", "value")

    is_signed = number_as(bool)("Whether the record gives the value with a sign.")
    width = number("The number of bytes of the value in the record.")
    attributes = number_as(FieldAttribute)("The bits of its attributes.")
    access = _access()

    @property
    def value(self) -> int:
        """The value."""
        number = self._raw[-10]
        return number - (1 << 64) if self.is_signed and number >> 63 else number


class BaseClass(Field, shape=Shape.BASE_CLASS):
    """A base class."""

    __slots__ = ()
    __match_args__ = ("base_class", "offset")

    offset = number("Its offset in bytes from the start of the class.")
    kind = number_as(ClassKind)("Whether it is a class, a structure or an interface.")
    base_class_index = number("The base class.")
    base_class = target("The base class.")
    attributes = number_as(FieldAttribute)("The bits of its attributes.")
    access = _access()


class VirtualBaseClass(Field, shape=Shape.VIRTUAL_BASE_CLASS):
    """A virtual base class."""

    __slots__ = ()
    __match_args__ = ("base_class",)

    is_direct = number_as(bool)("Whether the class itself names it.")
    base_class_index = number("The base class.")
    base_class = target("The base class.")
    base_pointer_index = number("The type of the pointer to the table of virtual bases.")
    base_pointer = target("The type of the pointer to the table of virtual bases.")
    base_pointer_offset = number("The offset of that pointer in bytes from the start of the class.")
    virtual_base_offset = number("The position of the base class in that table.")
    attributes = number_as(FieldAttribute)("The bits of its attributes.")
    access = _access()


class VirtualFunctionTablePointer(Field, shape=Shape.VIRTUAL_FUNCTION_TABLE_POINTER):
    """The pointer to a table of virtual functions."""

    __slots__ = ()
    __match_args__ = ("table",)

    table_index = number("The type of the pointer.")
    table = target("The type of the pointer.")


class Method(Field, shape=Shape.METHOD):
    """A method: with its name as a field, without it in a list of methods."""

    __slots__ = ()
    __match_args__ = ("name", "type")

    type_index = number("Its type.", "method_type")
    type = target("Its type.", "method_type")
    vtable_offset = optional("Its offset in the table of virtual functions, if it is the first of its name there.")
    attributes = number_as(FieldAttribute)("The bits of its attributes.")
    access = _access()


class OverloadedMethod(_NamedField, shape=Shape.OVERLOADED_METHOD):
    """Methods of one name."""

    __slots__ = ()
    __match_args__ = ("name", "methods")

    count = number("How many methods there are.")
    method_list_index = number("The list of the methods.", "method_list")
    method_list = target("The list of the methods.")

    @property
    def methods(self) -> List[Method]:
        """The methods, in their order."""
        return self._table.methods(self.method_list_index)
