"""The classes of types, fields and ids: their numbers are those in the bytes of the records, and what they refer to is found."""

import shutil
import struct
import subprocess
import sys
import unittest

import pdb_container
from pdb_container import (
    ArgumentList, Array, BaseClass, Bitfield, BuildInfo, Class, ClassKind, Enum, Enumerator, Field, FieldAttribute, FieldList,
    Function, Id, IdShape, Member, MemberFunction, MemberFunctionId, Method, MethodList, Modifier, ModifierBit, Nested,
    OverloadedMethod, Pdb, PdbError, Pointer, PointerAttribute, Primitive, Procedure, Property, Row, Shape, StaticMember, Status, StringId,
    Type, UdtSource, Union, Unreadable, UserDefinedType, VirtualBaseClass, VirtualFunctionTablePointer, VirtualTableShape,
)  # fmt: skip

from . import PACKAGE, SAMPLE, parts_of

TYPES = {
    Shape.CLASS: Class, Shape.UNION: Union, Shape.ENUMERATION: Enum, Shape.POINTER: Pointer, Shape.MODIFIER: Modifier,
    Shape.ARRAY: Array, Shape.BITFIELD: Bitfield, Shape.PROCEDURE: Procedure, Shape.MEMBER_FUNCTION: MemberFunction,
    Shape.ARGUMENT_LIST: ArgumentList, Shape.FIELD_LIST: FieldList, Shape.METHOD_LIST: MethodList,
    Shape.VIRTUAL_TABLE_SHAPE: VirtualTableShape,
}  # fmt: skip
FIELDS = {
    Shape.MEMBER: Member, Shape.STATIC_MEMBER: StaticMember, Shape.NESTED: Nested, Shape.ENUMERATE: Enumerator,
    Shape.BASE_CLASS: BaseClass, Shape.VIRTUAL_BASE_CLASS: VirtualBaseClass, Shape.METHOD: Method,
    Shape.VIRTUAL_FUNCTION_TABLE_POINTER: VirtualFunctionTablePointer, Shape.OVERLOADED_METHOD: OverloadedMethod,
}  # fmt: skip
IDS = {
    IdShape.FUNCTION: Function, IdShape.MEMBER_FUNCTION: MemberFunctionId, IdShape.BUILD_INFO: BuildInfo,
    IdShape.STRING: StringId, IdShape.TYPE_SOURCE: UdtSource,
}  # fmt: skip

# What a program with annotations sees, where mypy checks it.
ANNOTATED = """
import pdb_container
from pdb_container import *
from pdb_container import Union
from typing import List, Optional

with pdb_container.open("") as pdb:
    user: UserDefinedType = pdb.types["Derived"]
    name: str = user.name
    some: Type = pdb.types[0x1000]
    no_name: Optional[str] = some.name
    some.name.upper()  # refused
    if isinstance(some, Class):
        kind: ClassKind = some.kind
        size: int = some.size
        list_index: int = some.fields_index  # refused
        some.size = 5  # refused
        some.stride  # refused
    elif isinstance(some, Pointer):
        target: Type = some.target
        index: int = some.target_index
        attributes: PointerAttribute = some.attributes
        containing: Type = some.containing_class  # refused
    elif isinstance(some, Primitive):
        number: int = some.kind
    elif isinstance(some, Modifier):
        bits: ModifierBit = some.modifiers
    elif isinstance(some, FieldList):
        fields: List[Field] = some.fields
        for it in fields:
            if isinstance(it, Member):
                text, offset, access = it.name.upper(), it.offset + 1, it.access.name
                wrong: str = it.offset  # refused
    for id in pdb.ids:
        if isinstance(id, Function):
            function: Type = id.type
            scope: Optional[Id] = id.scope
    flags: SectionCharacteristics = pdb.sections[0].characteristics
    alignment: int = pdb.sections[0].alignment  # refused
    is_there: bool = "Derived" in pdb.types and 5 in pdb.names
"""

MATCH = """
def describe(it):
    match it:
        case Class(name, size): return f"class {name} of {size} bytes"
        case Pointer(Primitive(name)): return f"{name} *"
        case Pointer(target=Modifier(Primitive(name), modifiers=bits)) if ModifierBit.VOLATILE in bits: return f"volatile {name} *"
        case Pointer(target): return f"{describe(target)} *"
        case Array(element, size): return f"{describe(element)} in {size} bytes"
        case Bitfield(Primitive(name), position, length): return f"{name} : {position}, {length}"
        case Procedure(Primitive(name), ArgumentList(arguments)): return f"{name} of {len(arguments)}"
        case Primitive(name): return name
        case _: return type(it).__name__
"""


def references(it):
    """Each pair of properties of which one is an index, and the other what it leads to."""
    return {name: name[: -len("_index")] for name in dir(type(it)) if name.endswith("_index") and hasattr(type(it), name[: -len("_index")])}


class Typed(unittest.TestCase):
    def setUp(self):
        self.pdb = pdb_container.open(SAMPLE)
        self.addCleanup(self.pdb.close)
        self.types = self.pdb.types
        lists = [it.fields for it in self.types if type(it) is FieldList] + [it.methods for it in self.types if type(it) is MethodList]
        self.fields = [field for fields in lists for field in fields]

    def test_class_of_each_shape(self):
        for objects, classes in ((list(self.types), TYPES), (self.fields, FIELDS), (list(self.pdb.ids), IDS)):
            self.assertEqual({it.shape: type(it) for it in objects}, classes)
            for it in objects:
                self.assertIsNone(getattr(it, "error", None))
        for it in self.types:
            self.assertEqual((type(self.types[it.index]), self.types[it.index]), (type(it), it))
        self.assertIsInstance(self.types["Derived"], Class)
        self.assertEqual(sorted(Shape), sorted({Shape.PRIMITIVE, *TYPES, *FIELDS, *IdShape}))

    def test_numbers_of_the_records(self):
        """The numbers under their names, read from the records as cvinfo.h lays them out."""
        seen = set()
        for it in self.types:
            record, seen = bytes(it.record), seen | {type(it)}
            word = lambda at: struct.unpack_from("<I", record, at)[0]
            half = lambda at: struct.unpack_from("<H", record, at)[0]
            if type(it) is Pointer:
                self.assertEqual((it.target_index, it.attributes), (word(2), word(6)))
                self.assertEqual((it.mode >> 5, it.size), (word(6) >> 5 & 7, word(6) >> 13 & 63))
                is_member = word(6) >> 5 & 7 in (2, 3)
                self.assertEqual(it.containing_class_index, word(10) if is_member else None)
            elif type(it) is Modifier:
                self.assertEqual((it.underlying_type_index, it.modifiers), (word(2), half(6)))
            elif type(it) is Class:
                self.assertEqual((it.field_count, it.properties), (half(2), half(4)))
                numbers = it.fields_index, it.derived_from_index, it.vtable_shape_index, it.size
                self.assertEqual(numbers, (word(6) or None, word(10) or None, word(14) or None, half(18)))
                self.assertIs(it.kind, ClassKind.CLASS if half(0) == 0x1504 else ClassKind.STRUCTURE)
                self.assertEqual((it.is_forward, it.is_definition), (bool(half(4) & 0x80), not half(4) & 0x80))
            elif type(it) is Union:
                self.assertEqual((it.field_count, it.properties, it.fields_index, it.size), (half(2), half(4), word(6), half(10)))
            elif type(it) is Enum:
                self.assertEqual((it.field_count, it.properties, it.underlying_type_index, it.fields_index), (half(2), half(4), word(6), word(10)))
            elif type(it) is Array:
                self.assertEqual((it.element_type_index, it.indexing_type_index, it.size), (word(2), word(6), half(10)))
            elif type(it) is Bitfield:
                self.assertEqual((it.underlying_type_index, it.length, it.position), (word(2), record[6], record[7]))
            elif type(it) is Procedure:
                self.assertEqual((it.return_type_index, it.calling_convention, it.parameter_count), (word(2), record[6], half(8)))
                self.assertEqual((it.attributes, it.argument_list_index), (half(6), word(10)))
            elif type(it) is MemberFunction:
                self.assertEqual((it.return_type_index, it.class_type_index), (word(2), word(6)))
                self.assertEqual(it.this_pointer_type_index, word(10) or None)
                self.assertEqual((it.calling_convention, it.attributes, it.parameter_count), (record[14], half(14), half(16)))
                self.assertEqual((it.argument_list_index, it.this_adjustment), (word(18), word(22)))
            elif type(it) is ArgumentList:
                self.assertEqual(it.argument_indexes, list(struct.unpack_from(f"<{word(2)}I", record, 6)))
                self.assertEqual([one.index for one in it.arguments], it.argument_indexes)
            elif type(it) is VirtualTableShape:
                self.assertEqual(it.count, half(2))
        self.assertEqual(seen, set(TYPES.values()))
        for it in self.pdb.ids:
            record = bytes(it.record)
            if type(it) in (Function, MemberFunctionId):
                scope, function = struct.unpack_from("<2I", record, 2)
                self.assertEqual(it.type_index, function)
                self.assertEqual(it.scope_index or 0 if type(it) is Function else it.parent_index, scope)
            elif type(it) is UdtSource:
                self.assertEqual((it.udt_index, it.file_index, it.line), struct.unpack_from("<3I", record, 2))
                self.assertEqual((it.file_name_offset, it.module), (None, None))

    def test_numbers_are_those_of_the_row(self):
        """Each number under a name of its own is one under a name that all shapes share."""
        for it in [*self.types, *self.fields, *self.pdb.ids]:
            row = {getattr(it, name) for name in parts_of_row()} | {None, it._raw[-12]}
            for name in references(it):
                self.assertIn(getattr(it, name), row, name)

    def test_references(self):
        count = 0
        for it in [*self.types, *self.fields, *self.pdb.ids]:
            for index, name in references(it).items():
                number, found = getattr(it, index), getattr(it, name)
                if name != "fields":
                    self.assertEqual(None if found is None else found.index, number, (it, name))
                    self.assertIsInstance(found, (Type, Id, type(None)))
                    count += found is not None
        self.assertGreater(count, 100)
        for it in self.types:
            if isinstance(it, UserDefinedType):
                self.assertEqual(it.definition, self.types[it.name] if it.name in self.types else None)
                underlying_type = it.underlying_type_index if isinstance(it, Enum) else None
                self.assertEqual(it.fields, self.types.fields(it.list_index, underlying_type) if it.list_index else [])
        (overloaded,) = [it for it in self.fields if isinstance(it, OverloadedMethod)]
        self.assertEqual((overloaded.count, len(overloaded.methods), overloaded.methods), (2, 2, overloaded.method_list.methods))
        build = next(it for it in self.pdb.ids if isinstance(it, BuildInfo))
        self.assertEqual([it and it.index or 0 for it in build.arguments], build.argument_indexes)
        ids = self.pdb.ids
        self.pdb.close()
        self.assertRaises(ValueError, lambda: next(it for it in ids if isinstance(it, Function)).type)

    def test_fields(self):
        derived = {it.name: it for it in self.types["Derived"].fields if it.name}
        self.assertEqual((derived["state"].offset, derived["state"].type.name), (104, "Derived::State"))
        self.assertIs(derived["state"].access, FieldAttribute.PUBLIC)
        self.assertEqual(derived["state"].access.name, "PUBLIC")
        values = [(it.name, it.value) for it in self.types["shapes::Limit"].fields]
        self.assertEqual(values, [("Least", -5), ("Most", 70000)])
        bases = [it.base_class.name for it in self.types["Derived"].fields if isinstance(it, (BaseClass, VirtualBaseClass))]
        self.assertEqual(bases[-1], "Shared")

    def test_names_of_methods(self):
        methods = [it for it in self.types["Derived"].fields if type(it).__name__ in ("Method", "OverloadedMethod")]
        self.assertEqual([it.name for it in methods], ["Derived", "area", "share", "scale", "make"])

    def test_primitives(self):
        count, text_of = 0, self.types.definitions.text_of
        for index in range(0x1000):
            it = self.types.get(index)
            if it is not None:
                count += 1
                self.assertIsInstance(it, Primitive)
                self.assertEqual((it.kind, it.indirection), (index & 0xFF, index >> 8))
                self.assertEqual(it.name, text_of(index))
                self.assertEqual(it.target, self.types[index & 0xFF] if index >> 8 else None)
        self.assertEqual(count, 336)

    def test_objects_do_not_change(self):
        for it in [*self.types, *self.fields, *self.pdb.ids]:
            self.assertFalse(hasattr(it, "__dict__"))
            for name in parts_of(it):
                with self.assertRaises(AttributeError):
                    setattr(it, name, None)

    def test_match_args(self):
        for it in [*self.types, *self.fields, *self.pdb.ids, self.types[0x74]]:
            for name in getattr(type(it), "__match_args__", ()):
                self.assertTrue(hasattr(it, name), (it, name))

    @unittest.skipIf(sys.version_info < (3, 10), "a version without match")
    def test_match(self):
        described = dict(vars(pdb_container))
        exec(MATCH, described)
        derived = {it.name: described["describe"](it.type) for it in self.types["Derived"].fields if isinstance(it, Member)}
        wanted = {"compare": "int of 2 *", "watched": "volatile int *", "state": "Enum", "flags": "class Flags of 0 bytes"}
        self.assertEqual({name: derived[name] for name in wanted}, wanted)
        self.assertEqual(described["describe"](self.types["Flags"].fields[1].type), "unsigned int : 3, 13")

    def test_texts(self):
        derived = self.types["Derived"]
        text = repr(derived)
        self.assertTrue(text.startswith(f"Class(index={derived.index:#x}, name='Derived', "), text)
        self.assertIn("size=128", text)
        for it in [*self.types, *self.fields, *self.pdb.ids]:
            self.assertTrue(repr(it).startswith(f"{type(it).__name__}("))

    @unittest.skipIf(sys.platform == "win32" or not shutil.which("mypy"), "mypy is not here")
    def test_annotations(self):
        """What mypy refuses of a program are the lines that say so."""
        words = ["mypy", "--strict", "--cache-dir=/dev/null", "-c", ANNOTATED]
        ran = subprocess.run(words, cwd=PACKAGE, capture_output=True, text=True, timeout=300)
        refused = {int(line.split(":")[1]) for line in ran.stdout.splitlines() if ": error:" in line}
        wanted = {at for at, line in enumerate(ANNOTATED.splitlines(), 1) if line.endswith("# refused")}
        self.assertEqual(refused, wanted, ran.stdout + ran.stderr)


def parts_of_row():
    """The names of the numbers that all shapes share."""
    return [name for name, it in vars(Row).items() if isinstance(it, property)]


class Damaged(unittest.TestCase):
    """Records that are out of place, as only damaged files have them."""

    def setUp(self):
        self.data = SAMPLE.read_bytes()
        with Pdb(self.data) as pdb:
            self.records = {it.index: bytes(it.record) for it in pdb.types}

    def of_kind(self, old, new):
        """Files in which one record of a kind begins otherwise, each with the index of the record."""
        for index, record in self.records.items():
            if record.startswith(old) and self.data.count(record) == 1:
                yield index, self.data.replace(record, new + record[len(new) :])

    def test_fields_in_place_of_types(self):
        # The kinds of fields, and their shapes.
        kinds = {0x150D: Shape.MEMBER, 0x1511: Shape.METHOD, 0x1400: Shape.BASE_CLASS, 0x1409: Shape.VIRTUAL_FUNCTION_TABLE_POINTER}
        for kind, shape in kinds.items():
            found = set()
            for index, data in self.of_kind(b"", struct.pack("<H", kind)):
                with Pdb(data) as pdb:
                    it = next(one for one in pdb.types if one.index == index)
                    parts_of(it)
                    found.add((type(it), it.shape))
            self.assertLessEqual(found, {(Type, shape), (Unreadable, None)})
            self.assertIn((Type, shape), found)

    def test_types_in_place_of_fields(self):
        found = set()
        for index, data in self.of_kind(b"\x03\x12", b"\x03\x12\x04\x15"):
            with Pdb(data) as pdb:
                try:
                    fields = pdb.types.fields(index)
                except PdbError:
                    continue
                found.add((type(fields[0]), fields[0].shape))
                str([parts_of(it) for it in fields])
        self.assertEqual(found, {(Field, Shape.CLASS)})

    def test_lists_that_are_none(self):
        with Pdb(self.data) as pdb:
            derived = pdb.types["Derived"].index
            for call in (pdb.types.fields, pdb.types.methods):
                with self.assertRaises(PdbError) as raised:
                    call(derived)
                error = raised.exception
                self.assertEqual((error.status, error.first, error.stream), (Status.UNIMPLEMENTED_TYPE_KIND, 0x1504, 2))


if __name__ == "__main__":
    unittest.main()
