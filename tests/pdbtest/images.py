"""What a program says of its database, read from its bytes by the Portable Executable specification; and programs that
are made by hand."""

import re
import struct
import uuid
from dataclasses import dataclass

from pdbtest.identities import CPUS
from pdbtest.msf import word, words_of

MACHINE = 0x8664
MAGICS = {0x10B: 92, 0x20B: 108}  # where the optional header has the number of its directories
DEBUG_DIRECTORY = 6
CODEVIEW = 2
MOST_ENTRIES = 4096
MOST_RECORD = 24 + 65536

NO_HEADER = "not a program (PE): it has no PE header"
NO_WIDTH = "a program (PE) of neither 32 nor 64 bits"
NO_DIRECTORY = "a program (PE) without a debug directory"
LARGE_DIRECTORY = "a program (PE) whose debug directory has more than 4,096 entries"
UNMAPPED = "a program (PE) whose debug directory is in no section"
UNNAMED = "a program (PE) that names no database"
FOLDER_NAME = "a program (PE) that names a folder in place of a database"
OLDER = "a program (PE) that names a database of an older format (NB10)"
UNKNOWN = "a program (PE) whose debug record has an unknown format"
LARGE_RECORD = "a program (PE) whose debug record has more than 65,560 bytes"
CUT_RECORD = "a program (PE) whose debug record is cut short"
CUT = "a program (MZ) that is cut short"


class Nameless(Exception):
    """Why a program names no database."""


@dataclass(frozen=True)
class Named:
    """What a program says of its database."""

    machine: int
    guid: str
    age: int
    path: bytes

    @property
    def key(self):
        """The key of the database."""
        return f"{self.guid.replace('-', '')}{self.age:X}"

    @property
    def name(self):
        """The last part of the path."""
        return self.path.replace(b"\\", b"/").split(b"/")[-1].decode(errors="replace")

    @property
    def cpu(self):
        """The name of the machine."""
        return CPUS.get(self.machine, "unknown")

    def line(self, style, name=None):
        """The line of a format."""
        name = name or self.name
        return {
            "key": f"{name}/{self.key}/{name}\n",
            "ssqp": f"{name}/{self.key}/{name}\n".lower(),
            "breakpad": f"MODULE windows {self.cpu} {self.key} {name}\n",
            "guid": f"{self.guid}\n",
        }[style].encode()

    def members(self):
        """The object that `id --json` is to write."""
        return {
            "name": self.name, "format": "PE", "image": True, "path": self.path.decode(errors="replace"),
            "guid": self.guid, "age": self.age, "machine": self.machine, "cpu": self.cpu, "key": self.key,
        }  # fmt: skip

    @property
    def told(self):
        """What other commands tell of the program."""
        return f"a program (PE); its database is {self.name}, key {self.key}"


def part(data, start, size):
    """So many bytes from a place on, which have to be there."""
    if start + size > len(data):
        raise Nameless(CUT)
    return data[start : start + size]


def half(data, place):
    """The number of two bytes at a place."""
    return int.from_bytes(data[place : place + 2], "little")


def debug_place(optional):
    """The address and the size of the debug directory."""
    magic = half(optional, 0) if len(optional) >= 2 else None
    if magic not in MAGICS:
        raise Nameless(NO_WIDTH)
    place = MAGICS[magic]
    entry = place + 4 + 8 * DEBUG_DIRECTORY
    if len(optional) < entry + 8 or word(optional, place) <= DEBUG_DIRECTORY:
        raise Nameless(NO_DIRECTORY)
    address, size = word(optional, entry), word(optional, entry + 4)
    if not address or size < 28:
        raise Nameless(NO_DIRECTORY)
    if size // 28 > MOST_ENTRIES:
        raise Nameless(LARGE_DIRECTORY)
    return address, size


def in_file(table, address, size):
    """Where in the file an address is, with so many bytes behind it that the section stores."""
    for place in range(0, len(table), 40):
        memory, start, stored, at = struct.unpack_from("<4I", table, place + 8)
        if start <= address < start + (memory or stored):
            if address - start + size > stored:
                break
            return at + address - start
    raise Nameless(UNMAPPED)


def record_of(record):
    """The GUID, the age and the path of a record."""
    if record[:4] == b"NB10":
        raise Nameless(OLDER)
    if record[:4] != b"RSDS":
        raise Nameless(UNKNOWN)
    path, nul, _ = record[24:].partition(b"\0")
    if not nul:
        raise Nameless(CUT_RECORD)
    if not path:
        raise Nameless(UNNAMED)
    if not re.split(rb"[\\/]", path)[-1].strip(b". "):
        raise Nameless(FOLDER_NAME)
    return str(uuid.UUID(bytes_le=record[4:20])).upper(), word(record, 20), path


def read_image(data):
    """What a program says of its database; Nameless says why there is nothing."""
    opening = part(data, 0, 64)
    if opening[:2] != b"MZ":
        raise Nameless(NO_HEADER)
    start = word(opening, 60)
    header = part(data, start, 24)
    if header[:4] != b"PE\0\0":
        raise Nameless(NO_HEADER)
    machine, sections, optional_size = half(header, 4), half(header, 6), half(header, 20)
    optional = part(data, start + 24, min(optional_size, 168)) if optional_size >= 2 else b""
    address, size = debug_place(optional)
    table = part(data, start + 24 + optional_size, 40 * sections)
    at = in_file(table, address, size)
    for entry in struct.iter_unpack("<12x4I", part(data, at, size // 28 * 28)):
        kind, size, _, place = entry
        if kind == CODEVIEW:
            break
    else:
        raise Nameless(UNNAMED)
    if not size:
        raise Nameless(UNKNOWN)
    if size > MOST_RECORD:
        raise Nameless(LARGE_RECORD)
    return Named(machine, *record_of(part(data, place, size)))


def fields_of(data):
    """Where the fields of the headers of a program are, by name: the place and the size of each."""
    start = word(data, 60)
    optional_size, sections = half(data, start + 20), half(data, start + 6)
    optional = start + 24
    count = optional + MAGICS[half(data, optional)]
    table = optional + optional_size
    fields = {
        "start": (60, 4), "pe": (start, 4), "machine": (start + 4, 2), "sections": (start + 6, 2),
        "optional_size": (start + 20, 2), "magic": (optional, 2), "directories": (count, 4),
        "debug_address": (count + 52, 4), "debug_size": (count + 56, 4),
    }  # fmt: skip
    for number in range(sections):
        for at, name in enumerate(("memory", "address", "stored", "at")):
            fields[f"section_{number}_{name}"] = (table + 40 * number + 8 + 4 * at, 4)
    address, size = word(data, count + 52), word(data, count + 56)
    at = in_file(data[table : table + 40 * sections], address, size)
    for number in range(size // 28):
        entry = at + 28 * number
        for offset, name in ((12, "type"), (16, "size"), (20, "address"), (24, "place")):
            fields[f"entry_{number}_{name}"] = (entry + offset, 4)
        if word(data, entry + 12) == CODEVIEW:
            place = word(data, entry + 24)
            fields |= {"signature": (place, 4), "age": (place + 20, 4), "path": (place + 24, 1)}
    return fields


def changed_fields(data):
    """Copies of a program in which one field is 0, all ones, doubled, or one more or less."""
    copies = {}
    for name, (place, size) in fields_of(data).items():
        number = int.from_bytes(data[place : place + size], "little")
        most = (1 << 8 * size) - 1
        others = {"zero": 0, "ones": most, "doubled": 2 * number, "more": number + 1, "less": number - 1}
        for told, new in others.items():
            changed = (new & most).to_bytes(size, "little")
            copies[f"{name}_{told}"] = data[:place] + changed + data[place + size :]
    return copies


def debug_record(path, age=1, signature=b"RSDS"):
    """A record with a path."""
    return signature + bytes(range(0x81, 0x91)) + words_of([age]) + path


def hand_made(records, magic=0x20B, sections=None, kinds=None, extra=b""):
    """A program of one section at address 0x1000 and byte 0x400 of the file, with these records; the debug directory is
    at the start of the section."""
    kinds = kinds or [CODEVIEW] * len(records)
    directory, behind = b"", b""
    place = 0x400 + 28 * len(records)
    for kind, record in zip(kinds, records):
        directory += struct.pack("<12x4I", kind, len(record), 0, place + len(behind))
        behind += record
    body = directory + behind + extra
    place = MAGICS[magic]
    directories = words_of([16]) + bytes(8 * DEBUG_DIRECTORY) + words_of([0x1000, len(directory)]) + bytes(8 * 9)
    optional = struct.pack("<H", magic).ljust(place, b"\0") + directories
    sections = sections or [(0x2000, 0x1000, 0x2000, 0x400)]
    header = b"PE\0\0" + struct.pack("<2H12x2H", MACHINE, len(sections), len(optional), 0x22)
    table = b"".join(b".rdata\0\0" + struct.pack("<4I16x", *section) for section in sections)
    front = b"MZ".ljust(60, b"\0") + words_of([64]) + header + optional + table
    return front.ljust(0x400, b"\0") + body
