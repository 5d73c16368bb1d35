"""The ids of a table: a class for each shape."""

from enum import IntEnum
from typing import TYPE_CHECKING, Dict, List, Optional

from ._library import library
from ._rows import HAS, NO_SHAPE, SHAPE, Getter, Number, Record, number, optional
from ._sys import Shape
from ._types import Type

if TYPE_CHECKING:
    from ._tables import Ids


class IdShape(IntEnum):
    """The shapes of ids."""

    FUNCTION = Shape.FUNCTION_ID
    MEMBER_FUNCTION = Shape.MEMBER_FUNCTION_ID
    BUILD_INFO = Shape.BUILD_INFO_ID
    STRING_LIST = Shape.STRING_LIST_ID
    STRING = Shape.STRING_ID
    TYPE_SOURCE = Shape.TYPE_SOURCE_ID


def _type(about: str, header_name: str = "") -> Number[Type]:
    return Number(about, Type, lambda place, _: lambda it: it._table.types[it._raw[place]], header_name, False)


def _optional_id(about: str, header_name: str = "") -> "Number[Optional[Id]]":
    def reader(place: int, bit: int) -> Getter:
        return lambda it: it._table[it._raw[place]] if it._raw[HAS] & bit else None

    return Number(about, "Optional[Id]", reader, header_name, False)


class Id(Record):
    """An id: its index, its shape, and the numbers in its record. Each shape has a class of its own, with its numbers by their
    names, and the types and ids to which it refers."""

    __slots__ = ()
    _table: "Ids"

    @classmethod
    def _register(cls, shape: IntEnum) -> None:
        CLASSES[shape] = cls

    @property
    def shape(self) -> Optional[IdShape]:
        """What shape it has, None if its record can't be read."""
        return None if self._raw[3] else IdShape(self._raw[SHAPE])

    @property
    def name(self) -> Optional[str]:
        """The name of a function or a method, or a text; None for any other id."""
        return None


CLASSES: "Dict[int, type[Id]]" = {}  # the class of each shape, and of ids that can't be read


class UnreadableId(Id):
    """An id whose record can't be read: `error` says why."""

    __slots__ = ()
    _shown = ("index", "error")


CLASSES[NO_SHAPE] = UnreadableId


class _NamedId(Id):
    """An id that has a name."""

    __slots__ = ()
    _shown = ("index", "name")

    @property
    def name(self) -> str:
        """The name, or the text."""
        return self._text(library().pdb_type_name) or ""


class Function(_NamedId, shape=IdShape.FUNCTION):
    """A function that is no member."""

    __slots__ = ()
    __match_args__ = ("name", "type")

    type_index = number("Its type.", "function_type")
    type = _type("Its type.", "function_type")
    scope_index = optional("The id of the namespace that it is in.")
    scope = _optional_id("The id of the namespace that it is in.")


class MemberFunctionId(_NamedId, shape=IdShape.MEMBER_FUNCTION):
    """A function that is a member of a class."""

    __slots__ = ()
    __match_args__ = ("name", "type", "parent")

    type_index = number("Its type.", "function_type")
    type = _type("Its type.", "function_type")
    parent_index = number("The class of which it is a member.")
    parent = _type("The class of which it is a member.")


class BuildInfo(Id, shape=IdShape.BUILD_INFO):
    """How a module was built."""

    __slots__ = ()
    __match_args__ = ("arguments",)

    @property
    def argument_indexes(self) -> List[int]:
        """The ids of the texts: the folder, the compiler, the source, its database, and the arguments. 0 for none."""
        return self._indexes()

    @property
    def arguments(self) -> List[Optional[Id]]:
        """The texts: the folder, the compiler, the source, its database, and the arguments."""
        return [self._table[index] if index else None for index in self.argument_indexes]


class StringList(Id, shape=IdShape.STRING_LIST):
    """The parts of a long text."""

    __slots__ = ()
    __match_args__ = ("parts",)

    @property
    def part_indexes(self) -> List[int]:
        """The ids of the parts."""
        return self._indexes()

    @property
    def parts(self) -> List[Id]:
        """The parts, in their order."""
        return [self._table[index] for index in self.part_indexes]


class StringId(_NamedId, shape=IdShape.STRING):
    """A text, which is its name."""

    __slots__ = ()
    __match_args__ = ("name",)

    substrings_index = optional("The list of the parts that are put before the text.")
    substrings = _optional_id("The list of the parts that are put before the text.")


class UdtSource(Id, shape=IdShape.TYPE_SOURCE):
    """Where a class, a union or an enumeration is declared."""

    __slots__ = ()
    __match_args__ = ("udt", "line")

    udt_index = number("The type.")
    udt = _type("The type.")
    line = number("The line of its source.")
    file_index = optional("The id of the source's name, if that is an id.", "file_id")
    file = _optional_id("The id of the source's name, if that is an id.", "file_id")
    file_name_offset = optional("The offset of the source's name in the string table, if it is there.", "file_name")
    module = optional("The number of the module, if the name is in the string table.")
