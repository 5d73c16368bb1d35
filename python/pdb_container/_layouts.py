"""The definitions of types, their sizes and their layouts."""

from ctypes import c_uint32, c_uint64
from dataclasses import dataclass
from typing import List, Optional

from . import _sys
from ._library import Opened, library, unsigned, utf8
from ._sys import Extent, LayoutKind


@dataclass(frozen=True)
class LayoutRow:
    """A field of a class, or bits that no field takes. What doesn't apply is None."""

    kind: LayoutKind
    name: Optional[str]  # of a member
    offset: int  # the byte where it begins, counted from the start of the class
    size: Optional[int]  # in whole bytes; None for bits, and if nothing says the size of the field's type
    bit: Optional[int]  # the first of its bits, counted from the lowest bit of the byte where it begins
    bits: Optional[int]  # how many bits
    type_index: Optional[int]  # the type of a field
    base_class: Optional[int]  # the virtual base class of which a pointer to a table of virtual bases speaks
    base_position: Optional[int]  # the position of that class in the table
    is_direct: Optional[bool]  # whether the class itself names that class


@dataclass(frozen=True)
class Layout:
    """The layout of a class: the index of its definition, its size in bytes, and its rows. The fields come first, in the
    order of their records, and then the bits that no field takes."""

    index: int
    size: int
    rows: List[LayoutRow]


def _row(row: _sys.LayoutRow, name: str) -> LayoutRow:
    kind, extent = LayoutKind(row.kind), Extent(row.extent)
    is_field, is_virtual = kind <= LayoutKind.MEMBER, kind is LayoutKind.VIRTUAL_BASE_POINTER
    return LayoutRow(
        kind,
        name if kind is LayoutKind.MEMBER else None,
        row.offset,
        row.size if extent is Extent.BYTES else None,
        row.bit if extent is Extent.BITS else None,
        row.bits if extent is Extent.BITS else None,
        row.type_index if is_field else None,
        row.base_class if is_virtual else None,
        row.base_position if is_virtual else None,
        bool(row.is_direct) if is_virtual else None,
    )


class Definitions:
    """The definitions of a table of types, by name: its classes, unions and enumerations that are not only declared."""

    def __init__(self, table: Opened):
        self._table = table
        self.named("")  # finds them, or fails where the table is damaged

    def named(self, name: str) -> List[int]:
        """The indexes of all definitions of a name, in increasing order."""
        word = utf8(name)
        return list(self._table.items(c_uint32, library().pdb_types_named, word, len(word)) or ())

    def definition_of(self, index: int) -> Optional[int]:
        """The index of the definition of a type, which is its own index if it is a definition. None if the table doesn't
        define it, and for any other type."""
        found = self._table.value(c_uint32, library().pdb_type_definition, unsigned(index))
        return None if found is None else found.value

    def size_of(self, index: int) -> Optional[int]:
        """The size of a type in bytes. None if nothing says it, as of void, of a function or of a list."""
        found = self._table.value(c_uint64, library().pdb_type_size, unsigned(index))
        return None if found is None else found.value

    def text_of(self, index: int, name: str = "") -> str:
        """The declaration of a name that has a type, in C++, or the text of the type alone if the name is empty."""
        word = str.encode(name)
        return (self._table.copied(library().pdb_type_text, unsigned(index), word, len(word)) or b"").decode(errors="replace")

    def layout_of(self, index: int) -> Optional[Layout]:
        """The layout of a class or a union. None if the type has no definition, or that is an enumeration."""
        found = self._table.named_items(_sys.LayoutRow, library().pdb_type_layout, unsigned(index))
        if found is None:
            return None
        rows, count, names = found
        named = [_row(it, names[it.name_offset : it.name_offset + it.name_length].decode(errors="replace")) for it in rows[:count]]
        return Layout(self.definition_of(index) or index, self.size_of(index) or 0, named)
