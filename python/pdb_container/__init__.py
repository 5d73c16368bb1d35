"""Reads Microsoft program databases (PDB) by a formally verified library.

    import pdb_container

    with pdb_container.open("program.pdb") as pdb:
        for field in pdb.types["Derived"].fields:
            if isinstance(field, pdb_container.Member):
                print(field.offset, field.name, field.type)

The calls of the library are proved: for any bytes they terminate, read within the bytes, and give the answer that a written
grammar of the format gives, or its first error. This package calls them, and is not proved. Any thread may use what is
open.
"""

from ._file import AddressMap, Frame, Frames, Information, Names, Omap, Pdb, Roles, Section, Stream, Streams, Translation, open
from ._identity import Identity, format_of
from ._ids import BuildInfo, Function, Id, IdShape, MemberFunctionId, StringId, StringList, UdtSource, UnreadableId
from ._layouts import Definitions, Layout, LayoutRow
from ._library import LibraryError, PdbError
from ._rows import Row
from ._sys import (
    ClassKind, Feature, FieldAttribute, Format, FrameKind, FunctionAttribute, IdentityFlag, Inconsistency, KeyForm,
    LayoutKind, ModifierBit, Part, PointerAttribute, Property, SectionCharacteristics, Shape, Status,
)  # fmt: skip
from ._tables import Ids, Types
from ._types import (
    ArgumentList, Array, BaseClass, Bitfield, Class, Enum, Enumerator, Field, FieldList, Member, MemberFunction, Method, MethodList,
    Modifier, Nested, OverloadedMethod, Pointer, Primitive, Procedure, StaticMember, Type, Union, Unreadable, UserDefinedType,
    VirtualBaseClass, VirtualFunctionTablePointer, VirtualTableShape,
)  # fmt: skip
from ._validation import Finding, validate

__version__ = "0.2.0"
__all__ = [
    "AddressMap", "ArgumentList", "Array", "BaseClass", "Bitfield", "BuildInfo", "Class", "ClassKind",
    "Definitions", "Enum", "Enumerator", "Feature", "Field", "FieldAttribute", "FieldList", "Finding", "Format",
    "Frame", "FrameKind", "Frames", "Function", "FunctionAttribute", "Id", "IdShape", "Identity", "IdentityFlag",
    "Ids", "Inconsistency", "Information", "KeyForm", "Layout", "LayoutKind", "LayoutRow", "LibraryError", "Member",
    "MemberFunction", "MemberFunctionId", "Method", "MethodList", "Modifier", "ModifierBit", "Names", "Nested",
    "Omap", "OverloadedMethod", "Part", "Pdb", "PdbError", "Pointer", "PointerAttribute", "Primitive", "Procedure",
    "Property", "Roles", "Row", "Section", "SectionCharacteristics", "Shape", "StaticMember", "Status", "Stream",
    "Streams", "StringId", "StringList", "Translation", "Type", "Types", "UdtSource", "Union", "Unreadable",
    "UnreadableId", "UserDefinedType", "VirtualBaseClass", "VirtualFunctionTablePointer", "VirtualTableShape",
    "format_of", "open", "validate",
]  # fmt: skip
