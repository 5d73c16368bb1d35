"""What callers do: threads over one table, numbers at their limits, a second try after damage, copies of errors, files of
their own that stay open, and many files in a row."""

import contextlib
import copy
import dataclasses
import gc
import inspect
import mmap
import multiprocessing
import os
import pathlib
import pickle
import re
import resource
import struct
import sys
import threading
import time
import unittest

import pdb_container
from pdb_container import FieldAttribute, Pdb, PdbError, PointerAttribute, Property, Shape, Status, validate

from . import SAMPLE

# How long threads read one table, in seconds.
LONG = float(os.environ.get("PDB_CONTAINER_THREADS_SECONDS", "2"))


def error_of(data: bytes) -> PdbError:
    try:
        Pdb(data)
    except PdbError as error:
        return error
    raise AssertionError("the file is read")


def public():
    """Each public function, class, method and property, by its name."""
    for name in pdb_container.__all__:
        it = getattr(pdb_container, name)
        yield name, it
        for word, part in vars(it).items() if inspect.isclass(it) else ():
            if not word.startswith("_") and not isinstance(part, it):
                part = part.fget if isinstance(part, property) else getattr(part, "func", part)
                if inspect.isfunction(part):
                    yield f"{name}.{word}", part


def answer(call, *words):
    """What a call gives, as a text, or its error."""
    try:
        given = call(*words)
    except Exception as error:
        return type(error), getattr(error, "stream", None)
    return repr(bytes(given) if isinstance(given, memoryview) else given)


class Threads(unittest.TestCase):
    def test_names_of_one_table(self):
        with pdb_container.open(SAMPLE) as pdb:
            types = list(pdb.types)
            names_of = lambda it: (it.name, getattr(it, "unique_name", None))
            want = [names_of(it) for it in types]
            wrong, until = [], time.monotonic() + LONG

            def read(start: int):
                while time.monotonic() < until and not wrong:
                    for at in range(start, len(types)):
                        names = names_of(types[at])
                        if names != want[at]:
                            wrong.append((types[at].index, names, want[at]))

            usual = sys.getswitchinterval()
            sys.setswitchinterval(1e-6)
            try:
                threads = [threading.Thread(target=read, args=(start,)) for start in range(8)]
                for thread in threads:
                    thread.start()
                for thread in threads:
                    thread.join()
            finally:
                sys.setswitchinterval(usual)
            self.assertEqual(wrong, [])

    def test_first_look_up_by_name(self):
        for _ in range(20):
            with pdb_container.open(SAMPLE) as pdb:
                types, found = pdb.types, []
                threads = [threading.Thread(target=lambda: found.append("Derived" in types)) for _ in range(4)]
                for thread in threads:
                    thread.start()
                for thread in threads:
                    thread.join()
                self.assertEqual(found, [True] * 4)

    def test_one_call_at_a_time(self):
        """A call on a file or a table waits while another thread makes one."""
        with pdb_container.open(SAMPLE) as pdb:
            types, ids, names = pdb.types, pdb.ids, pdb.names
            calls = {
                pdb._source: lambda: bytes(pdb.stream(1)),
                types._opened: lambda: [it.name for it in types],
                ids._opened: lambda: [it.name for it in ids],
                names._table: lambda: list(names),
            }
            for opened, call in calls.items():
                read = []
                thread = threading.Thread(target=lambda: read.append(call()))
                with opened.lock:
                    thread.start()
                    thread.join(0.1)
                    self.assertTrue(thread.is_alive())
                thread.join()
                self.assertEqual(read, [call()])

    def test_errors_of_one_table(self):
        """Each error has the numbers of its own call, whichever calls other threads make."""
        with pdb_container.open(SAMPLE) as pdb:
            types = pdb.types
            kinds = {it.index: int.from_bytes(it.record[:2], "little") for it in types if it.shape is not Shape.FIELD_LIST}
            wrong, until = [], time.monotonic() + LONG

            def read(start: int):
                while time.monotonic() < until and not wrong:
                    for index in list(kinds)[start:]:
                        try:
                            types.fields(index)
                        except PdbError as error:
                            if error.first != kinds[index]:
                                wrong.append((index, error.first, kinds[index]))

            usual = sys.getswitchinterval()
            sys.setswitchinterval(1e-6)
            try:
                threads = [threading.Thread(target=read, args=(start,)) for start in range(8)]
                for thread in threads:
                    thread.start()
                for thread in threads:
                    thread.join()
            finally:
                sys.setswitchinterval(usual)
            self.assertEqual(wrong, [])

    def test_closed_by_another_thread(self):
        """A thread that reads while another one closes has an answer, or the error of a closed file."""
        calls = [
            lambda pdb: pdb.streams[1].read(),
            lambda pdb: pdb.named_stream("/names"),
            lambda pdb: len(pdb.streams[:]),
            lambda pdb: pdb.address_map.rva(0x1000),
            lambda pdb: pdb.types[0x1000],
            lambda pdb: pdb_container.AddressMap(pdb._source),
        ]
        usual, failed = sys.getswitchinterval(), []
        sys.setswitchinterval(1e-6)

        def read(pdb, call):
            try:
                while True:
                    call(pdb)
            except ValueError as error:
                failed.append(error)

        try:
            for _ in range(10):
                pdb = pdb_container.open(SAMPLE)
                threads = [threading.Thread(target=read, args=(pdb, call)) for call in calls]
                for thread in threads:
                    thread.start()
                pdb.close()
                for thread in threads:
                    thread.join()
        finally:
            sys.setswitchinterval(usual)
        self.assertEqual(len(failed), 10 * len(calls))


class Numbers(unittest.TestCase):
    def setUp(self):
        self.pdb = pdb_container.open(SAMPLE)
        self.addCleanup(self.pdb.close)

    def calls(self):
        """Each public call that takes a number: by its name and the name of the number, the call, and the bits of the number."""
        pdb, types, definitions = self.pdb, self.pdb.types, self.pdb.types.definitions
        omap, by_map = pdb.omap_from_src, pdb.address_map
        fields, source = types["Derived"].list_index, pdb._source
        identity = lambda **ages: dataclasses.replace(pdb.identity, **ages).key()
        return {
            "Types[key]": (lambda it: types[it], 32),
            "Types.get(key)": (types.get, 32),
            "Types.fields(list_index)": (types.fields, 32),
            "Types.fields(underlying_type)": (lambda it: types.fields(fields, it), 32),
            "Types.methods(list_index)": (types.methods, 32),
            "Types.layout(key)": (types.layout, 32),
            "Ids[index]": (lambda it: pdb.ids[it], 32),
            "Names[offset]": (lambda it: pdb.names[it], 32),
            "Definitions.definition_of(index)": (definitions.definition_of, 32),
            "Definitions.size_of(index)": (definitions.size_of, 32),
            "Definitions.text_of(index)": (definitions.text_of, 32),
            "Definitions.layout_of(index)": (definitions.layout_of, 32),
            "Omap(number)": (lambda it: pdb_container.Omap(source, it).records, 32),
            "Omap.lookup(address)": (omap.lookup, 32),
            "Omap.ranges(start)": (lambda it: omap.ranges(range(it, 5)), 32),
            "Omap.ranges(stop)": (lambda it: omap.ranges(range(5, it)), 32),
            "AddressMap.place(section)": (lambda it: by_map.place(it, 5), 16),
            "AddressMap.place(offset)": (lambda it: by_map.place(1, it), 32),
            "AddressMap.internal_place(section)": (lambda it: by_map.internal_place(it, 5), 16),
            "AddressMap.internal_place(offset)": (lambda it: by_map.internal_place(1, it), 32),
            "AddressMap.rva(address)": (by_map.rva, 32),
            "AddressMap.internal_rva(address)": (by_map.internal_rva, 32),
            "AddressMap.rva_ranges(start)": (lambda it: by_map.rva_ranges(range(it, 5)), 32),
            "AddressMap.rva_ranges(stop)": (lambda it: by_map.rva_ranges(range(5, it)), 32),
            "AddressMap.internal_rva_ranges(start)": (lambda it: by_map.internal_rva_ranges(range(it, 5)), 32),
            "AddressMap.internal_rva_ranges(stop)": (lambda it: by_map.internal_rva_ranges(range(5, it)), 32),
            "Frames.at(address)": (pdb.frames.at, 32),
            "Pdb.stream(number)": (pdb.stream, 32),
            "Pdb.stream(limit)": (lambda it: pdb.stream(1, it), 64),
            "Stream.read(limit)": (lambda it: pdb.streams[1].read(it), 64),
            "Streams[number]": (lambda it: pdb_container.Streams(pdb, 1 << 65)[it], 32),
            "Stream(number)": (lambda it: pdb_container.Stream(pdb, it, 5).read(), 32),
            "Identity(information_age)": (lambda it: identity(information_age=it, debug_age=None), 32),
            "Identity(debug_age)": (lambda it: identity(debug_age=it), 32),
        }

    def test_limits(self):
        for name, (call, bits) in self.calls().items():
            with self.subTest(name):
                for past in (-1, 1 << bits, (1 << bits) + 0x1000, (1 << 64) + 0x1000, -(1 << 64) + 1):
                    with self.assertRaises(OverflowError):
                        call(past)
                for within in (0, (1 << bits) - 1):
                    with contextlib.suppress(KeyError, PdbError):
                        call(within)
                for other in (1.5, 4096.0, "4096", b"4096", [4096]):
                    if not (isinstance(other, str) and name in ("Types[key]", "Types.get(key)", "Types.layout(key)")):
                        with self.assertRaises(TypeError):
                            call(other)

    def test_limits_of_each_call(self):
        """Each function and method that takes a number is among those."""
        takers = set()
        for name, it in public():
            if inspect.isfunction(it):
                numbers = [word for word, it in inspect.signature(it).parameters.items() if re.search(r"\bint\b|range", str(it.annotation))]
                takers |= {(name, word) for word in numbers}
        tried = {tuple(name.rstrip(")").split("(")) for name in self.calls() if "." in name}
        as_ranges = {(name, "addresses") for name, word in tried if word == "start"}
        self.assertEqual({it for it in tried if it[1] not in ("start", "stop")} | as_ranges, takers)

    def test_numbers_that_are_no_int(self):
        """What stands for a whole number, as numbers of other packages do, is one."""

        class Whole:
            def __init__(self, number: int):
                self.number = number

            def __index__(self) -> int:
                return self.number

        for name, (call, _) in self.calls().items():
            for number in (0, 1, 5, 0x74, 0x1000, 0x1005):
                with self.subTest(name, number=number):
                    self.assertEqual(answer(call, Whole(number)), answer(call, number))
        self.assertIn(Whole(0x1000), self.pdb.types)
        self.assertIn(Whole(0x1000), self.pdb.ids)

    def test_flags_of_calls(self):
        """What is true, is true."""
        data = SAMPLE.read_bytes()
        for record in [bytes(it.record) for it in self.pdb.types if it.shape is Shape.MODIFIER]:
            data = data.replace(record, b"\x0e\x00" + record[2:])
        self.assertEqual((len(validate(data)), len(validate(data, every=True))), (1, 6))
        for number in (1, 256, 1 << 32, -1, 0.5):
            self.assertEqual(len(validate(data, every=number)), 6)

    def test_forms_of_keys(self):
        for form in (-1, 3, 1 << 32, (1 << 32) + 1, 1.5, None, "UPPER"):
            with self.assertRaises(ValueError):
                self.pdb.identity.key(form)

    def test_ranges_that_do_not_fit(self):
        for addresses in (range(0, 1 << 32), range(-1, 5)):
            with self.assertRaises(OverflowError):
                self.pdb.omap_from_src.ranges(addresses)
        with self.assertRaises(ValueError):
            self.pdb.address_map.rva_ranges(range(0x1000, 0x2000, 2))

    def test_keys_of_types(self):
        types = self.pdb.types
        for key in (1, 0xFFF, 0x99999, 0x7FFF_FFFF, "Nobody", "\ud800", "Derived\ud800", "Derived\0"):
            with self.subTest(key):
                self.assertNotIn(key, types)
                for call in (types.__getitem__, types.layout):
                    with self.assertRaises(KeyError):
                        call(key)
                self.assertIsNone(types.get(key))
                self.assertEqual(types.get(key, types[0x1000]), types[0x1000])
        for index in (1, 0xFFF, 0x99999, 0x7FFF_FFFF):
            for call in (types.fields, types.methods):
                with self.subTest(index), self.assertRaises(KeyError) as raised:
                    call(index)
                self.assertEqual(raised.exception.args, (index,))
        for key in (None, 1.5, -1, 1 << 32, (1 << 32) + 0x1000, b"Derived", ["Derived"]):
            self.assertNotIn(key, types)
        for key in ("Derived", 0x1000, 0x74):
            self.assertIn(key, types)

    def test_keys_of_ids_and_names(self):
        for table, within, past in ((self.pdb.ids, 0x1000, 0x7FFF_FFFF), (self.pdb.names, 1, 1 << 20)):
            self.assertIn(within, table)
            for key in (past, -1, 1 << 32, (1 << 32) + within, None, 1.5, "Derived", b"Derived"):
                self.assertNotIn(key, table)
            with self.assertRaises(KeyError):
                table[past]
        for index in (0x74, 0xFFF):
            self.assertNotIn(index, self.pdb.ids)

    def test_tables_backwards(self):
        """Indexes don't begin at 0, so a table has no order of a sequence."""
        for table in (self.pdb.types, self.pdb.ids, self.pdb.names):
            with self.assertRaises(TypeError):
                reversed(table)

    def test_names_of_streams(self):
        names = self.pdb.named_stream("/names")
        for name in (b"/names", bytearray(b"/names"), memoryview(b"/names")):
            self.assertEqual(self.pdb.named_stream(name), names)
        for name in ("", "\ud800", "/names\0", b"\0" * 5):
            with self.assertRaises(PdbError) as raised:
                self.pdb.named_stream(name)
            self.assertEqual(raised.exception.status, Status.STREAM_NAME_NOT_FOUND)
        for name in (5, None, ["/names"], [47, 110]):
            with self.assertRaises(TypeError):
                self.pdb.named_stream(name)

    def test_names_of_definitions(self):
        definitions = self.pdb.types.definitions
        self.assertEqual(definitions.named("\ud800"), [])
        for name in (5, None, b"Derived", ["Derived"]):
            for call in (definitions.named, lambda it: definitions.text_of(0x74, it)):
                with self.assertRaises(TypeError):
                    call(name)
        with self.assertRaises(UnicodeEncodeError):
            definitions.text_of(0x74, "\ud800")

    def test_streams_as_a_sequence(self):
        streams = self.pdb.streams
        self.assertEqual(streams[-1].number, 19)
        self.assertEqual([it.number for it in streams[17:]], [17, 18, 19])
        self.assertEqual([it.number for it in reversed(streams)], list(range(19, -1, -1)))
        for past in (20, -21, 1 << 32, -(1 << 64)):
            with self.assertRaises(IndexError):
                streams[past]
        for other in (1.5, "/names", b"/names", None):
            self.assertNotIn(other, streams)
            with self.assertRaises(TypeError):
                streams[other]
        self.assertIn(streams[1], streams)
        self.assertEqual((streams.index(streams[5]), streams.count(streams[5])), (5, 1))
        self.assertEqual(len({*streams, *streams}), 20)
        self.assertEqual(repr(streams[1]), "Stream(number=1, size=93)")
        with pdb_container.open(SAMPLE) as other:
            self.assertNotIn(other.streams[1], streams)


class Damage(unittest.TestCase):
    def test_second_try(self):
        """A look-up by name in a table whose walk stops early ends alike each time."""
        whole = SAMPLE.read_bytes()
        with pdb_container.open(SAMPLE) as pdb:
            types = pdb.types
            record = bytes(types["Derived"].record)
            at = whole.index(record) - 2
        damaged = bytearray(whole)
        damaged[at : at + 2] = b"\x01\x00"
        with Pdb(bytes(damaged)) as pdb:
            tries = []
            for _ in range(3):
                try:
                    tries.append(pdb.types["Derived"].index)
                except (PdbError, KeyError) as error:
                    tries.append((type(error), str(error)))
            self.assertEqual(tries, tries[:1] * 3)


    def test_index_that_is_missing(self):
        """What a record refers to and the table doesn't have is a KeyError, of each property that leads there."""
        whole = SAMPLE.read_bytes()
        with pdb_container.open(SAMPLE) as pdb:
            types = pdb.types
            code, derived = types["Code"], types["Derived"]
            (overloaded,) = [it for it in derived.fields if isinstance(it, pdb_container.OverloadedMethod)]
            references = {
                "fields of a class": (derived.record, derived.fields_index, lambda it: it["Derived"].fields),
                "fields of an enumeration": (code.record, code.fields_index, lambda it: it["Code"].fields),
                "methods": (
                    types[derived.fields_index].record, overloaded.method_list_index,
                    lambda it: [one.methods for one in it["Derived"].fields if isinstance(one, pdb_container.OverloadedMethod)]
                ),
            }  # fmt: skip
        for what, (record, index, call) in references.items():
            with self.subTest(what):
                old = bytes(record)
                self.assertEqual(whole.count(old), 1)
                new = old.replace(struct.pack("<I", index), struct.pack("<I", 0x99999))
                with Pdb(whole.replace(old, new)) as pdb, self.assertRaises(KeyError) as raised:
                    call(pdb.types)
                self.assertEqual(raised.exception.args, (0x99999,))

    def test_record_that_cannot_be_read(self):
        """It is in its table, as a walk shows it."""
        whole = SAMPLE.read_bytes()
        with pdb_container.open(SAMPLE) as pdb:
            type = next(it for it in pdb.types if it.shape is Shape.MODIFIER)
            records = {"types": (type.index, bytes(type.record)), "ids": (0x1000, bytes(pdb.ids[0x1000].record))}
        for part, (index, record) in records.items():
            self.assertEqual(whole.count(record), 1)
            with Pdb(whole.replace(record, b"\x0e\x00" + record[2:])) as pdb:
                table = getattr(pdb, part)
                self.assertTrue(next(it for it in table if it.index == index).error)
                self.assertIn(index, table)
                with self.assertRaises(PdbError):
                    table[index]


class Documents(unittest.TestCase):
    def test_all_is_documented_and_annotated(self):
        for name, it in public():
            with self.subTest(name):
                about = it.__doc__
                self.assertTrue(about and not about.startswith((f"{name}(", "An enumeration.")))
                if inspect.isfunction(it):
                    signature = inspect.signature(it)
                    self.assertIsNot(signature.return_annotation, inspect.Signature.empty)
                    for parameter in list(signature.parameters.values())[0 if "." not in name else 1 :]:
                        self.assertIsNot(parameter.annotation, inspect.Parameter.empty, parameter)

    def test_flags(self):
        with pdb_container.open(SAMPLE) as pdb:
            inner, derived = pdb.types["Derived::Inner"], pdb.types["Derived"]
            self.assertEqual(Property(inner.properties), Property.NESTED | Property.HAS_UNIQUE_NAME)
            fields = {it.name: it for it in derived.fields if it.shape is Shape.MEMBER}
            access = FieldAttribute(fields["state"].attributes) & FieldAttribute.ACCESS_MASK
            self.assertEqual(access, FieldAttribute.PUBLIC)
            pointer = pdb.types[fields["watched"].type_index]
            self.assertEqual(pointer.attributes & PointerAttribute.KIND_MASK, PointerAttribute.KIND_NEAR_32)


class Copies(unittest.TestCase):
    def test_errors_and_findings(self):
        data = SAMPLE.read_bytes()
        error = error_of(data[:100])
        for same in (pickle.loads(pickle.dumps(error)), copy.copy(error), copy.deepcopy(error)):
            self.assertEqual((same.status, same.first, same.second, str(same)), (error.status, error.first, error.second, str(error)))
        findings = validate(data[:60_000], every=True)
        self.assertTrue(findings)
        self.assertEqual(list(map(str, pickle.loads(pickle.dumps(findings)))), list(map(str, findings)))
        with pdb_container.open(SAMPLE) as pdb:
            self.assertEqual(pickle.loads(pickle.dumps(pdb.identity)), pdb.identity)
            layout = pdb.types.layout("Derived")
            self.assertEqual(copy.deepcopy(layout), layout)

    def test_pool(self):
        with multiprocessing.get_context("spawn").Pool(1) as pool:
            with self.assertRaises(PdbError) as raised:
                pool.apply_async(Pdb, (b"no database",)).get(timeout=60)
        self.assertEqual(raised.exception.status, Status.UNRECOGNIZED_FILE_FORMAT)


class Closing(unittest.TestCase):
    def test_mapping_of_the_caller(self):
        with open(SAMPLE, "rb") as file, mmap.mmap(file.fileno(), 0, access=mmap.ACCESS_READ) as data:
            with Pdb(data) as pdb:
                types = pdb.types
            self.assertFalse(data.closed)
            self.assertEqual(data[:4], b"Micr")
            self.assertEqual(types["Derived"].name, "Derived")
            with self.assertRaises(ValueError):
                pdb.types
            with self.assertRaises(ValueError):
                pdb.roles
            pdb.close()

    @unittest.skipUnless(sys.platform == "linux", "no list of what is mapped")
    def test_mapping_of_the_package(self):
        """What `open` maps is there until the file is closed, and no longer, also where an error of it is kept."""
        is_mapped = lambda: str(SAMPLE) in pathlib.Path("/proc/self/maps").read_text(encoding="utf-8")
        with pdb_container.open(SAMPLE) as pdb:
            types = pdb.types
            self.assertTrue(is_mapped())
            with self.assertRaises(PdbError) as raised:
                pdb.named_stream("/none")
        self.assertFalse(is_mapped())
        self.assertEqual(raised.exception.status, Status.STREAM_NAME_NOT_FOUND)
        self.assertEqual(types["Derived"].name, "Derived")

    def test_files_in_a_row(self):
        """Files that were closed, or that no one has any more, give back what was read of them, without a collection."""
        gc.disable()
        self.addCleanup(gc.enable)

        def peak() -> int:
            return resource.getrusage(resource.RUSAGE_SELF).ru_maxrss

        def read(count: int, closes: bool):
            for _ in range(count):
                pdb = pdb_container.open(SAMPLE)
                str((pdb.types["Derived"], list(pdb.types)[5], len(pdb.ids), pdb.ids[0x1000], pdb.named_streams, len(pdb.streams)))
                if closes:
                    pdb.close()

        for closes in (True, False):
            read(50, closes)
            before = peak()
            read(400, closes)
            self.assertLess(peak() - before, 4_096)


if __name__ == "__main__":
    unittest.main()
