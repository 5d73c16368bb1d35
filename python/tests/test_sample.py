"""Reads examples/sample.pdb, and copies of it with damage."""

import contextlib
import dataclasses
import io
import mmap
import os
import pathlib
import random
import struct
import subprocess
import sys
import tempfile
import threading
import unittest
import uuid
from unittest import mock

import pdb_container
from pdb_container import (
    Feature, Format, IdShape, Inconsistency, KeyForm, LayoutKind, Part, Pdb, PdbError, SectionCharacteristics, Shape, Status,
    format_of, validate,
)  # fmt: skip
from pdb_container.__main__ import main

from . import PACKAGE, SAMPLE, parts_of


def damaged():
    """The names and bytes of files with damage: of copies of the sample, and of what the folder holds that
    PDB_CONTAINER_DAMAGED names."""
    for seed in range(40):
        numbers, copy = random.Random(seed), bytearray(SAMPLE.read_bytes())
        # The first pages have the header, the directory and short streams.
        for _ in range(numbers.choice([1, 4, 40])):
            copy[numbers.choice([numbers.randrange(len(copy)), numbers.randrange(16384)])] = numbers.choice([0, 1, 0x80, 0xFF])
        yield f"copy {seed}", bytes(copy)
    folder = os.environ.get("PDB_CONTAINER_DAMAGED")
    for path in sorted(pathlib.Path(folder).iterdir()) if folder else ():
        yield path.name, path.read_bytes()


def read_types(pdb):
    for it in pdb.types:
        parts = parts_of(it)
        str((it, parts))
        # A class and its list have the same fields.
        for field in parts.get("fields", ()) if it.shape is Shape.FIELD_LIST else parts.get("methods", ()):
            str((field, parts_of(field)))


def read_layouts(pdb):
    definitions = pdb.types.definitions
    for index in range(0x1000, 0x1000 + min(len(pdb.types), 1000)):
        with contextlib.suppress(PdbError):
            str((definitions.definition_of(index), definitions.size_of(index), definitions.layout_of(index), definitions.text_of(index)))


def read_omaps(pdb):
    for omap in filter(None, (pdb.omap_to_src, pdb.omap_from_src)):
        str((omap.records, omap.is_sorted, omap.lookup(0x1005), omap.ranges(range(0x1000, 0x3000))))


def read_addresses(pdb):
    to = pdb.address_map
    str([(to.rva(it), to.internal_rva(it), to.place(it % 5, it), to.internal_place(it % 5, it)) for it in range(0x1000, 0x1200)])
    str((to.rva_ranges(range(0x1000, 0x3000)), to.internal_rva_ranges(range(0x1000, 0x3000))))


def read_ids(pdb):
    for it in pdb.ids:
        str((it, parts_of(it)))


# What reads each part of a file.
EVERYTHING = [
    lambda pdb: [stream.read() for stream in pdb.streams if stream.size is not None],
    lambda pdb: (pdb.information, pdb.named_streams, pdb.roles),
    lambda pdb: (pdb.identity, pdb.identity.key()),
    lambda pdb: [(stream.name, stream.role) for stream in pdb.streams],
    lambda pdb: list(pdb.names),
    lambda pdb: pdb.sections + pdb.original_sections,
    read_omaps,
    read_addresses,
    lambda pdb: [pdb.frames.at(it) for it in range(0x1000, 0x1200)] + list(pdb.frames),
    read_types,
    read_layouts,
    read_ids,
    lambda pdb: pdb.types.get("Derived"),
]


class OfFile(unittest.TestCase):
    def setUp(self):
        self.pdb = pdb_container.open(SAMPLE)
        self.addCleanup(self.pdb.close)

    def test_header(self):
        self.assertEqual(self.pdb.page_size, 512)
        self.assertEqual(len(self.pdb.streams), 20)
        self.assertEqual([it.number for it in self.pdb.streams], list(range(20)))
        self.assertEqual((self.pdb.streams[0].size, self.pdb.streams[1].size), (0, 93))
        self.assertEqual((self.pdb.streams[14].name, self.pdb.streams[14].role), ("/names", None))
        self.assertEqual((self.pdb.streams[17].name, self.pdb.streams[17].role), (None, "omap_from_src"))
        with self.assertRaises(IndexError):
            self.pdb.streams[20]
        self.assertEqual(self.pdb.information.version, 20000404)
        self.assertEqual(self.pdb.information.age, 1)
        self.assertEqual(self.pdb.information.guid.bytes_le, bytes(self.pdb.stream(1)[12:28]))

    def test_identity(self):
        # As llvm-pdbutil says.
        guid = "CAD5A44E-0F4E-3F06-4C4C-44205044422E"
        it = self.pdb.identity
        self.assertEqual((it.version, it.signature, it.information_age, it.age), (20000404, 3402998862, 1, 1))
        self.assertEqual((it.guid, it.debug_age, it.machine), (uuid.UUID(guid), 1, 0x14C))
        self.assertEqual(it.features, {Feature.VC140})
        self.assertEqual(it.key(), guid.replace("-", "") + "1")
        self.assertEqual(it.key(KeyForm.LOWER), it.key().lower())
        self.assertEqual(it.key(KeyForm.GUID), guid)
        self.assertEqual(format_of(SAMPLE.read_bytes()), Format.MSF_7)
        begin = {b"MZ": Format.IMAGE, b"BSJB": Format.PORTABLE, b"MSCF": Format.COMPRESSED, b"": Format.UNKNOWN}
        for data, format in begin.items():
            self.assertEqual(format_of(data), format)

    def test_layouts(self):
        # As clang lays the classes out (-Xclang -fdump-record-layouts).
        def rows(name):
            return [(it.name or it.kind.name, it.offset, it.size) for it in self.pdb.types.layout(name).rows if it.bits is None]

        derived = self.pdb.types.layout("Derived")
        self.assertEqual((derived.index, derived.size), (self.pdb.types["Derived"].index, 128))
        members = [("grid", 20, 48), ("flags", 68, 8), ("compare", 76, 4), ("measure", 80, 4), ("axis", 84, 4), ("watched", 88, 4), ("inner", 92, 12)]
        front = [("BASE", 0, 8), ("BASE", 8, 1), ("VIRTUAL_BASE_POINTER", 12, 4)]
        gaps = [("HOLE", 9, 3), ("HOLE", 16, 4), ("VIRTUAL_BASES", 108, 20)]
        self.assertEqual(rows("Derived"), front + members + [("state", 104, 4)] + gaps)
        pointer = derived.rows[2]
        self.assertEqual(self.pdb.types[pointer.base_class].name, "Shared")
        self.assertTrue(pointer.is_direct)
        # The record has no member for 16 bits without a name.
        flags = [(it.name, it.offset, it.bit, it.bits) for it in self.pdb.types.layout("Flags").rows if it.bits is not None]
        self.assertEqual(flags, [("low", 0, 0, 3), ("high", 0, 3, 13), ("ready", 4, 0, 1), (None, 4, 1, 7)])
        self.assertEqual(rows("Flags"), [("HOLE", 2, 2), ("HOLE", 5, 3)])
        self.assertEqual(self.pdb.types.layout("Flags").rows[-1].kind, LayoutKind.UNUSED_BITS)
        self.assertEqual(self.pdb.types.layout(0x1000), derived)
        for key in ("Missing", "Code", 0x74):
            with self.assertRaises(KeyError):
                self.pdb.types.layout(key)

    def test_definitions(self):
        definitions = self.pdb.types.definitions
        self.assertEqual(definitions.named("Derived"), [self.pdb.types["Derived"].index])
        self.assertEqual(definitions.named("Missing"), [])
        self.assertEqual(definitions.definition_of(0x1000), self.pdb.types["Derived"].index)
        self.assertEqual((definitions.size_of(0x1000), definitions.size_of(0x74), definitions.size_of(3)), (128, 4, None))
        self.assertEqual(definitions.text_of(0x1000, "it"), "Derived it")
        with self.assertRaises(PdbError) as raised:
            definitions.size_of(0x99999)
        self.assertEqual((raised.exception.status, raised.exception.stream), (Status.TYPE_NOT_FOUND, 2))

    def test_streams(self):
        self.assertEqual(len(self.pdb.stream(10)), 160)
        self.assertEqual(bytes(self.pdb.stream(10, 5)), b".text")
        self.assertEqual(bytes(self.pdb.streams[10].read(5)), b".text")
        with self.assertRaises(PdbError) as raised:
            self.pdb.stream(99)
        error = raised.exception
        self.assertIsInstance(error, ValueError)
        self.assertEqual((error.status, error.first, error.stream, error.offset), (Status.STREAM_NOT_FOUND, 99, 99, None))
        self.assertIn("[stream 99]", str(error))

    def test_names_and_roles_of_streams(self):
        self.assertEqual(self.pdb.named_streams, {"/LinkInfo": 5, "/names": 14})
        self.assertEqual(bytes(self.pdb.named_stream("/names")), bytes(self.pdb.stream(14)))
        self.assertEqual(self.pdb.roles.framedata, 11)
        self.assertEqual(self.pdb.roles.fpo, 19)
        self.assertIsNone(self.pdb.roles.pdata)
        with self.assertRaises(PdbError):
            self.pdb.named_stream("/none")

    def test_types(self):
        types = list(self.pdb.types)
        self.assertEqual(len(types), len(self.pdb.types))
        self.assertEqual([it.index for it in types], list(range(0x1000, 0x1000 + len(types))))
        self.assertTrue(all(it.error is None for it in types))
        self.assertEqual(types[5], self.pdb.types[types[5].index])
        self.assertEqual(self.pdb.types[0x74].shape, Shape.PRIMITIVE)
        self.assertIn("Derived", self.pdb.types)
        self.assertNotIn("Missing", self.pdb.types)
        self.assertIsNone(self.pdb.types.get(0x99999))
        with self.assertRaises(KeyError):
            self.pdb.types[0x1000 + len(types)]

    def test_walks_beside_one_another(self):
        pairs = [(one.index, other.index) for one, other in zip(self.pdb.types, self.pdb.types)]
        self.assertTrue(all(one == other for one, other in pairs))
        self.assertEqual(len(pairs), len(self.pdb.types))
        for it in self.pdb.types:
            self.assertEqual(next(iter(self.pdb.types)).index, self.pdb.types.first_index)
            break

    def test_walks_of_many_batches(self):
        """Walks beside one another, which take few records at a time, when the file is closed too."""
        types, ids = self.pdb.types, self.pdb.ids
        want, count = list(types), len(ids)
        self.pdb.close()
        with mock.patch.object(pdb_container._tables, "BATCH", 4):
            walks, found = [iter(types) for _ in range(3)], [[], [], []]
            numbers = random.Random(5)
            while walks[0] or walks[1] or walks[2]:
                at = numbers.choice([at for at in range(3) if walks[at]])
                it = next(walks[at], None)
                if it is None:
                    walks[at] = None
                else:
                    found[at].append(it)
            self.assertEqual(found, [want] * 3)
            self.assertEqual([it.index for it in ids], list(range(ids.first_index, ids.first_index + count)))

    def test_long_texts(self):
        text_of = self.pdb.types.definitions.text_of
        for length in [*range(240, 260), 5_000]:
            self.assertEqual(text_of(0x74, "x" * length), "int " + "x" * length)

    def test_class(self):
        derived = self.pdb.types["Derived"]
        self.assertEqual((derived.shape, derived.number, derived.name, derived.unique_name), (Shape.CLASS, 128, "Derived", ".?AVDerived@@"))
        self.assertFalse(derived.is_forward)
        self.assertTrue(self.pdb.types[0x1000].is_forward)
        shapes = [field.shape for field in derived.fields[:3]]
        self.assertEqual(shapes, [Shape.BASE_CLASS, Shape.BASE_CLASS, Shape.VIRTUAL_BASE_CLASS])
        members = {field.name: field for field in derived.fields if field.shape is Shape.MEMBER}
        self.assertEqual(list(members), ["grid", "flags", "compare", "measure", "axis", "watched", "inner", "state"])
        self.assertEqual(members["state"].number, 104)
        grid = self.pdb.types[members["grid"].type_index]
        self.assertEqual((grid.shape, grid.dimensions), (Shape.ARRAY, [48]))
        compare = self.pdb.types[self.pdb.types[members["compare"].type_index].type_index]
        self.assertEqual(compare.shape, Shape.PROCEDURE)
        self.assertEqual(len(self.pdb.types[compare.list_index].arguments), 2)
        scale = next(field for field in derived.fields if field.name == "scale")
        self.assertEqual(len(self.pdb.types[scale.list_index].methods), 2)
        self.assertFalse(hasattr(derived, "arguments"))

    def test_bit_field(self):
        high = self.pdb.types["Flags"].fields[1]
        bits = self.pdb.types[high.type_index]
        self.assertEqual((high.name, bits.shape, bits.count, bits.extra), ("high", Shape.BITFIELD, 13, 3))

    def test_list_that_continues(self):
        code = self.pdb.types["Code"]
        self.assertEqual(len(code.fields), 800)
        self.assertEqual([field.value for field in code.fields], list(range(800)))
        self.assertIsNotNone(self.pdb.types[code.list_index].list_index)
        # Clang writes the number -5 without its sign, which the type under the enumeration gives back.
        limit = self.pdb.types["shapes::Limit"]
        self.assertEqual([field.value for field in limit.fields], [-5, 70000])
        self.assertEqual([field.value for field in self.pdb.types.fields(limit.list_index)], [0xFFFFFFFB, 70000])

    def test_ids(self):
        ids = list(self.pdb.ids)
        self.assertEqual(len(ids), len(self.pdb.ids))
        functions = [it.name for it in ids if it.shape is IdShape.FUNCTION]
        self.assertIn("mainCRTStartup", functions)
        build = next(it for it in ids if it.shape is IdShape.BUILD_INFO)
        self.assertEqual(self.pdb.ids[build.argument_indexes[2]].name, "sample.cpp")
        self.assertIn(0x1000, self.pdb.ids)
        with self.assertRaises(KeyError):
            self.pdb.ids[0xFFF]

    def test_names(self):
        names = dict(self.pdb.names)
        self.assertIn("/sample/sample.cpp", names.values())
        for offset, name in names.items():
            self.assertEqual(self.pdb.names[offset], name)
        with self.assertRaises(KeyError):
            self.pdb.names[1 << 20]

    def test_addresses(self):
        self.assertEqual([it.name for it in self.pdb.sections], [".text", ".rdata", ".data", ".reloc"])
        self.assertNotEqual(self.pdb.sections[0], self.pdb.original_sections[0])
        by_map, to_src, from_src = self.pdb.address_map, self.pdb.omap_to_src, self.pdb.omap_from_src
        for address in range(0x1000, 0x1190):
            original = by_map.rva(address).internal_rva
            self.assertEqual(original, to_src.lookup(address))
            self.assertEqual(from_src.lookup(original), address)
            self.assertEqual(by_map.internal_rva(original).rva, address)
        self.assertIsNone(by_map.internal_rva(0x1012).rva)
        self.assertEqual(by_map.rva(0x1005).place, (1, 5))
        self.assertEqual(by_map.place(1, 5), by_map.rva(0x1005))
        self.assertEqual(by_map.internal_place(*by_map.rva(0x1005).internal_place), by_map.rva(0x1005))
        self.assertTrue(to_src.is_sorted)
        self.assertEqual([to_src.lookup(source) or 0 for source, _ in to_src.records], [target for _, target in to_src.records])
        moved = by_map.internal_rva_ranges(range(0x1000, 0x1020))
        self.assertEqual([address for it in moved for address in it], [to_src.lookup(it) for it in range(0x1000, 0x1020)])
        self.assertEqual(to_src.ranges(range(0x1000, 0x1020)), moved)

    def test_sections(self):
        """The flags of a section, and its alignment, which is a number among their bits, as the PE format has them."""
        text, rdata, data, reloc = (it.characteristics for it in self.pdb.sections)
        of = SectionCharacteristics
        self.assertEqual(text, of.CODE | of.EXECUTE | of.READ)
        self.assertEqual(rdata, of.INITIALIZED_DATA | of.READ)
        self.assertEqual(data, of.INITIALIZED_DATA | of.READ | of.WRITE)
        self.assertEqual(reloc, of.INITIALIZED_DATA | of.DISCARDABLE | of.READ)
        self.assertEqual({type(it.characteristics) for it in self.pdb.sections + self.pdb.original_sections}, {of})
        self.assertIn(of.EXECUTE, text)
        self.assertNotIn(of.WRITE, text)
        headers = bytes(self.pdb.stream(self.pdb.roles.section_headers))
        self.assertEqual([text, rdata, data, reloc], [number for (number,) in struct.iter_unpack("<36xI", headers)])
        section = self.pdb.sections[0]
        self.assertIsNone(section.alignment)
        powers = [None, *(1 << power for power in range(14)), None]
        for number, power in enumerate(powers):
            aligned = of(text | number << 20)
            self.assertEqual(aligned & ~of.ALIGN_MASK, text)
            self.assertEqual(dataclasses.replace(section, characteristics=aligned).alignment, power)
            older = dataclasses.replace(section, characteristics=aligned | of.TYPE_NO_PAD)
            self.assertEqual(older.alignment, None if number else 1)

    def test_frames(self):
        older, newer = self.pdb.frames.at(0x1000), self.pdb.frames.at(0x10B1)
        self.assertEqual((older.code_start, older.code_size, older.program), (0x1000, 16, None))
        starts = [it.code_start for it in self.pdb.frames]
        self.assertEqual(starts, sorted(starts))
        self.assertLessEqual({0x1000, 0x10B1}, {*starts})
        self.assertEqual((newer.code_start, newer.saved_regs_size), (0x10B1, 4))
        self.assertIn("$esi", self.pdb.names[newer.program])
        self.assertIsNone(self.pdb.frames.at(0x100000))


class OfInput(unittest.TestCase):
    def test_kinds_of_input(self):
        data = SAMPLE.read_bytes()
        with open(SAMPLE, "rb") as file, mmap.mmap(file.fileno(), 0, access=mmap.ACCESS_READ) as mapped:
            for whole in (data, bytearray(data), memoryview(data), mapped):
                with self.subTest(kind=type(whole)), Pdb(whole) as pdb:
                    self.assertEqual(pdb.types["Derived"].number, 128)
                    del pdb
        for path in (SAMPLE, str(SAMPLE), os.fsencode(SAMPLE)):
            with pdb_container.open(path) as pdb:
                self.assertEqual(pdb.page_size, 512)

    def test_closed(self):
        pdb = pdb_container.open(SAMPLE)
        types = pdb.types
        pdb.close()
        pdb.close()
        self.assertEqual(types["Derived"].number, 128)
        with self.assertRaises(ValueError):
            pdb.stream(1)
        with self.assertRaises(ValueError):
            pdb.frames

    def test_no_program_database(self):
        for data in (b"", b"MZ" * 4096):
            with self.assertRaises(PdbError) as raised:
                Pdb(data)
            self.assertEqual(raised.exception.status, Status.UNRECOGNIZED_FILE_FORMAT)
        with tempfile.NamedTemporaryFile() as empty, self.assertRaises(PdbError):
            pdb_container.open(empty.name)
        with self.assertRaises(FileNotFoundError):
            pdb_container.open(SAMPLE.with_name("none.pdb"))
        with self.assertRaises(TypeError):
            Pdb("text")

    def test_a_record_that_cannot_be_read(self):
        # A type becomes an LF_LABEL, which the library doesn't read.
        with pdb_container.open(SAMPLE) as pdb:
            record = next(it for it in pdb.types if it.shape is Shape.MODIFIER)
            place, stream = bytes(record.record), bytes(pdb.stream(2))
        data = SAMPLE.read_bytes()
        self.assertEqual(data.count(place), 1)
        with Pdb(data.replace(place, b"\x0e\x00" + place[2:])) as pdb:
            types = list(pdb.types)
            self.assertEqual(len(types), len(pdb.types))
            (failed,) = [it for it in types if it.error]
            error = failed.error
            self.assertEqual((failed.index, failed.shape), (record.index, None))
            self.assertEqual((error.status, error.first), (Status.UNIMPLEMENTED_TYPE_KIND, 0xE))
            self.assertEqual((error.stream, error.offset), (2, stream.index(place)))
            with self.assertRaises(PdbError):
                pdb.types[record.index]

    def test_a_table_that_is_damaged(self):
        # The header, two items, and the length of the third, which becomes too short for its kind.
        with pdb_container.open(SAMPLE) as pdb:
            front = bytes(pdb.stream(2, 110))
        data = SAMPLE.read_bytes()
        self.assertEqual(data.count(front), 1)
        with Pdb(data.replace(front, front[:108] + b"\x01" + front[109:])) as pdb:
            types = iter(pdb.types)
            self.assertEqual([next(types).index, next(types).index], [0x1000, 0x1001])
            with self.assertRaises(PdbError) as raised:
                next(types)
            self.assertEqual((raised.exception.status, raised.exception.stream), (Status.TYPE_TOO_SHORT, 2))
            self.assertEqual(list(types), [])

    def test_whole_and_not(self):
        data = SAMPLE.read_bytes()
        self.assertEqual(validate(data), [])
        (found,) = validate(b"MZ")
        self.assertEqual((found.part, found.stream, found.index), (Part.HEADER, None, None))
        self.assertEqual(found.error.status, Status.UNRECOGNIZED_FILE_FORMAT)
        # The header, two items, and the length of the third, which becomes too short for its kind.
        with pdb_container.open(SAMPLE) as pdb:
            front = bytes(pdb.stream(2, 110))
        found, other = validate(data.replace(front, front[:108] + b"\x01" + front[109:]))
        self.assertEqual((found.part, found.stream, found.index), (Part.TYPES, 2, 0x1002))
        self.assertEqual((found.byte, found.error.status), (108, Status.TYPE_TOO_SHORT))
        self.assertEqual((data[found.file_byte - 108 : found.file_byte], found.is_warning), (front[:108], False))
        # The place that is stored for a later item is not found any more.
        self.assertEqual((other.part, other.inconsistency, other.error), (Part.TYPES, Inconsistency.INDEX_OFFSET, None))
        self.assertIn("[stream 2]", str(found))

    def test_damaged_files(self):
        """A call on a damaged file answers, or raises a PdbError, and no other error."""
        failed = 0
        for name, data in damaged():
            with self.subTest(name):
                str((format_of(data), *map(str, validate(data, every=True))))
                with contextlib.suppress(PdbError), Pdb(data) as pdb:
                    for part in EVERYTHING:
                        try:
                            part(pdb)
                        except PdbError:
                            failed += 1
        self.assertGreater(failed, 0)

    def test_another_thread(self):
        with pdb_container.open(SAMPLE) as pdb:
            read = []
            thread = threading.Thread(target=lambda: read.append(bytes(pdb.stream(1))))
            thread.start()
            thread.join()
            self.assertEqual(read, [bytes(pdb.stream(1))])


class OfProgram(unittest.TestCase):
    def run_main(self, *words):
        out, err = io.StringIO(), io.StringIO()
        with mock.patch.object(sys, "argv", ["pdb_container", *map(str, words)]), contextlib.redirect_stdout(out), contextlib.redirect_stderr(err):
            return main(), out.getvalue(), err.getvalue()

    def test_answers(self):
        status, out, err = self.run_main(SAMPLE)
        self.assertEqual((status, err), (0, ""))
        self.assertIn("stream 14: 176 bytes /names", out)
        status, out, err = self.run_main(SAMPLE, "Point", "shapes::Limit")
        self.assertEqual((status, err), (0, ""))
        self.assertIn("  member y 4\n", out)
        self.assertIn("  enumerate Most 70000\n", out)

    def test_misuse(self):
        self.assertEqual(self.run_main()[0], 2)
        self.assertEqual(self.run_main("--help")[0], 0)
        for words in ([SAMPLE, "Missing"], [SAMPLE.with_name("none.pdb")], [__file__]):
            status, out, err = self.run_main(*words)
            self.assertEqual((status, out, err.count("\n")), (1, "", 1), err)

    def test_library(self):
        with tempfile.TemporaryDirectory() as room:
            no_library = pathlib.Path(room, "libpdb_container.so.9")
            no_library.write_text("no library\n")
            for library in (no_library, pathlib.Path(room, "none.so"), "libc.so.6"):
                env = {**os.environ, "PYTHONPATH": str(PACKAGE), "PDB_CONTAINER": str(library)}
                words = [sys.executable, "-m", "pdb_container", str(SAMPLE)]
                ran = subprocess.run(words, env=env, capture_output=True, text=True, timeout=60)
                self.assertEqual((ran.returncode, ran.stdout, ran.stderr.count("\n")), (1, "", 1), ran.stderr)


if __name__ == "__main__":
    unittest.main()
