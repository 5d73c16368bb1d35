"""What a record says: the numbers of a row, and the names that the classes of records give them."""

import struct
from contextlib import suppress
from ctypes import c_uint32
from enum import IntEnum
from typing import TYPE_CHECKING, Any, Callable, ClassVar, Dict, Generic, List, Optional, Tuple, Type, TypeVar

from . import _sys
from ._library import PdbError, library
from ._sys import NUMBERS, Fault, Has, Shape

_T = TypeVar("_T")
_T_co = TypeVar("_T_co", covariant=True)

# What the library writes of a record: last come the shape, which numbers there are, and ten numbers. Of a field, those, and
# where its name is, how long, and whether it has one.
TYPE = struct.Struct("<6I2IQ9I4x")
FIELD, FIELD_NAME = struct.Struct("<2IQ9I4x24x"), struct.Struct("<56x2QI4x")
_ROW = struct.Struct("<2IQ9I4x")
NUMBERS_OF_A_ROW = 12
SHAPE, HAS = -12, -11
NO_SHAPE = -1  # in place of the shape of a record that can't be read

Raw = Tuple[int, ...]
Getter = Callable[[Any], Any]


def raw_of(row: _sys.Row) -> Raw:
    """The numbers of a row."""
    return _ROW.unpack(row)


# The bit that says whether a row has the number of a place.
_BITS = {place: int(Has[name.upper()]) for name, place in NUMBERS["row"].items()}


class Number(Generic[_T_co]):
    """What a number of a record says, which becomes a property: its type, and what reads it, given its place and its bit. The
    place is that of its name in the header, which may have `_index` behind it here."""

    def __init__(self, about: str, kind: Any, reader: Callable[[int, int], Getter], header_name: str = "", is_shown: bool = True):
        self.about, self.kind, self.reader, self.header_name, self.is_shown = about, kind, reader, header_name, is_shown

    if TYPE_CHECKING:

        def __get__(self, it: object, owner: object = None) -> _T_co: ...

    def property_of(self, cls: "Type[Row]", name: str, places: Dict[str, int]) -> property:
        """The property of this name, by the places of the numbers of its record."""
        known = self.header_name or (name if name in places else name[: -len("_index")])
        read = self.reader(places[known] - NUMBERS_OF_A_ROW, _BITS[places[known]])
        read.__name__, read.__qualname__, read.__module__ = name, f"{cls.__name__}.{name}", cls.__module__
        read.__doc__, read.__annotations__ = self.about, {"return": self.kind}
        return property(read)


def number(about: str, header_name: str = "") -> Number[int]:
    """A number that each record of the shape has."""
    return Number(about, int, lambda place, _: lambda it: it._raw[place], header_name)


def number_as(kind: Callable[[int], _T]) -> Callable[[str], Number[_T]]:
    """A number that each record of the shape has, as another type such as that of its flags."""
    return lambda about: Number(about, kind, lambda place, _: lambda it: kind(it._raw[place]))


def optional(about: str, header_name: str = "") -> Number[Optional[int]]:
    """A number that only some records have, None in the others."""
    return Number(about, Optional[int], lambda place, bit: lambda it: it._raw[place] if it._raw[HAS] & bit else None, header_name)


class Row:
    """The numbers in a record, under the names that all shapes share. Those that the record doesn't have are None."""

    __slots__ = ("_raw",)
    _raw: Raw
    _shown: ClassVar[Tuple[str, ...]] = ()

    def __init_subclass__(cls, shape: Optional[IntEnum] = None) -> None:
        word = "row" if shape is None else Shape(shape).name.lower()
        _name_numbers(cls, next((NUMBERS[it] for it in (word, f"{word}_type") if it in NUMBERS), NUMBERS["row"]))
        if shape is not None:
            cls._register(shape)

    @classmethod
    def _register(cls, shape: IntEnum) -> None:
        """Puts the class into the table of the classes of all shapes."""

    def __eq__(self, other: object) -> bool:
        return type(self) is type(other) and isinstance(other, Row) and self._raw == other._raw

    def __hash__(self) -> int:
        return hash(self._raw)

    def __repr__(self) -> str:
        shown = []
        for name in self._shown:
            with suppress(PdbError):  # of the name of a record behind those that the table's header counts
                it = getattr(self, name)
                if it is not None:
                    shown.append(f"{name}={it:#x}" if name.endswith("index") else f"{name}={it!r}")
        return f"{type(self).__name__}({', '.join(shown)})"

    number = optional(
        "The size of a class or a union; the offset of a member or a base class; for a virtual base class, the offset of the "
        "pointer to its table; the 64 bits of an enumerator's value; for the source of a type, the offset of the file's name."
    )
    kind = optional(
        "For a class or a base class, 0 for a class, 1 for a structure, 2 for an interface; for a virtual base class, whether it "
        "is a direct one; for an enumerator, whether its value has a sign; for a type with modifiers, their bits."
    )
    attributes = optional("The bits of the attributes of a field, a function or a pointer.")
    properties = optional("The bits of the properties of a class, a union or an enumeration.")
    count = optional(
        "The number of fields, parameters, methods or functions, of the bits of a bit field, or of the bytes of an "
        "enumerator's value."
    )
    type_index = optional(
        "The type that is pointed at, modified or held; the type of a member, an element or a method; the base class; the type "
        "that a function returns; the type of an id's function; the type that is declared."
    )
    second_index = optional(
        "The class of a method or of a pointer to a member; the pointer to a virtual base class's table; the type by which an "
        "array is indexed; the list of a class's base classes; the scope of an id; the id of the file that declares a type."
    )
    third_index = optional(
        "The type of a method's `this`; the shape of a class's table of virtual functions; for an id, the class of a method, or "
        "the module that declares a type."
    )
    list_index = optional(
        "The list of fields, of arguments, of methods or of the parts of a text; the list in which a list of fields continues."
    )
    extra = optional(
        "The place of a method in the table of virtual functions; how `this` is adjusted; the place of a virtual base class in "
        "its table; an array's stride; the lowest bit of a bit field; the line that declares a type."
    )


def _name_numbers(cls: Type[Row], places: Dict[str, int]) -> None:
    """Makes the properties of a class of the numbers that its body names."""
    named = {name: it for name, it in vars(cls).items() if isinstance(it, Number)}
    for name, it in named.items():
        setattr(cls, name, it.property_of(cls, name, places))
    cls._shown = (*cls._shown, *(name for name, it in named.items() if it.is_shown))


_name_numbers(Row, NUMBERS["row"])


class Record(Row):
    """A record of a table: its index, and where it is."""

    __slots__ = ("_table",)
    _table: Any  # the table, which finds the types and ids to which the record refers
    _shown: ClassVar[Tuple[str, ...]] = ("index",)

    def __init__(self, table: Any, raw: Raw):
        self._table, self._raw = table, raw

    @property
    def index(self) -> int:
        """Its index."""
        return self._raw[0]

    @property
    def error(self) -> Optional[PdbError]:
        """Why the record can't be read, None if it can."""
        return PdbError(Fault(*self._raw[3:6]), self._table.number, self._raw[1]) if self._raw[3] else None

    @property
    def record(self) -> memoryview:
        """The bytes of the record, none for a primitive type."""
        found = self._table._opened.copied(library().pdb_type_record, self._raw[0], offset=self._raw[1])
        return memoryview(found or b"")

    def _text(self, call: Callable[..., int]) -> Optional[str]:
        found = self._table._opened.copied(call, self._raw[0], offset=self._raw[1])
        return None if found is None else str(found, "utf-8", "replace")

    def _indexes(self) -> List[int]:
        return list(self._table._opened.items(c_uint32, library().pdb_type_numbers, self._raw[0], offset=self._raw[1]) or ())
