"""A file whose tables stand here, about which tests/c/calls.c asks the library for C."""

import struct

from pdbtest.addresses import omap_bytes
from pdbtest.msf import words_of
from pdbtest.roles import NO_STREAM
from pdbtest.tables import Leaf, class_of, member, padded, record, table

# Sections: name, virtual size, address, size in the file, characteristics.
LOADED = [
    (".text", 0xF80, 0x1000, 0x1000, 0x60000020),
    (".data", 0x2000, 0x2000, 0x800, 0xC0000040),
    (".rsrc", 0x100, 0x4400, 0x200, 0x40000040),
]
ORIGINAL = [(".text", 0x1800, 0x1000, 0x1800, 0x60000020), (".data", 0x300, 0x3000, 0x400, 0xC0000040)]
# Records: source, target. A target of 0 is nowhere.
TO_SOURCE = [(0x1000, 0x1400), (0x1180, 0), (0x1400, 0x1000), (0x2000, 0x3000), (0x2800, 0), (0x4400, 0xFFFFFF00)]
FROM_SOURCE = [(0x1000, 0x1400), (0x1400, 0x1000), (0x1580, 0), (0x3000, 0x2000), (0x3380, 0x4400)]
# Frames: start, size, locals in units of 4 bytes, parameters in units of 4 bytes, kind.
OLD_FRAMES = [(0x1000, 0x90, 3, 1, 0), (0x1200, 0x40, 0, 2, 3), (0x2000, 0x800, 7, 0, 1)]
# Frames: start, size, locals and parameters in bytes.
NEW_FRAMES = [(0x1100, 0x20, 8, 12), (0x1200, 0x40, 4, 4), (0x3000, 0x1000, 16, 20)]
NAMES = ["", "first", "a second name", "", "last"]
NAMED = [("/names", 4), ("/LinkInfo", 0), ("nothing", NO_STREAM), ("/names", 2)]
GUID = bytes(range(16))
DEBUG_AGE, MACHINE, FLAGS = 0xAB, 0x8664, 2
# The numbers after the names: one of no feature, those of minimal debug information and of Visual C++ 14.
FEATURES, FEATURE_BITS = [12, 0x494E494D, 20140508], 8 | 2


def section_bytes(sections):
    """The headers of sections."""
    return b"".join(
        name.encode().ljust(8, b"\0") + words_of([size, at, raw, 0, 0, 0, 0, flags])
        for name, size, at, raw, flags in sections
    )


def information():
    """Stream 1: what identifies the file, the named streams, and the features."""
    names, entries, places = b"", [], {}
    for name, number in NAMED:
        if name not in places:
            places[name] = len(names)
            names += name.encode() + b"\0"
        entries += [places[name], number]
    front = words_of([20000404, 1700000000, 3]) + GUID + words_of([len(names)])
    return front + names + words_of([len(NAMED), 8, 1, 0xF, 0]) + words_of(entries) + words_of(FEATURES)


def debug_header(numbers):
    """Stream 3: its header, and the numbers of the streams in their roles."""
    header = bytearray(words_of([0xFFFFFFFF, 19990903, DEBUG_AGE]).ljust(64, b"\0"))
    struct.pack_into("<I", header, 48, 2 * len(numbers))
    struct.pack_into("<HH", header, 56, FLAGS, MACHINE)
    return bytes(header) + struct.pack(f"<{len(numbers)}H", *numbers)


def fields():
    """A base class, a bit field, and a union."""
    base = struct.pack("<HHIH", 0x1400, 3, 0x1002, 0)
    bits = member(0x1005, 20, b"flag")
    union = member(0x1003, 24, b"u")
    return b"".join(map(padded, (base, bits, union)))


def virtual_fields():
    """A pointer to a table of virtual functions, a virtual base class behind another such pointer, and a member."""
    functions = struct.pack("<HHI", 0x1409, 0, 0x1009)
    virtual = struct.pack("<HHIIHH", 0x1401, 3, 0x1002, 0x1009, 4, 7)
    return b"".join(map(padded, (functions, virtual, member(0x74, 8, b"last"))))


def types():
    """Stream 2: types for each call that tells of a list, and then types that have layouts."""
    methods = struct.pack("<HHIHHII", 3, 0, 0x1100, 0x13, 0, 0x1101, 24)
    # an array of arrays
    array = struct.pack("<II", 0x74, 0x75) + struct.pack("<HHH", 40, 0x8002, 4000) + b"\0"
    union = struct.pack("<HHIH", 1, 0x200, 0, 8) + b"U\0.?ATU@@\0"
    enumeration = struct.pack("<HHII", 1, 0, 0x74, 0) + b"E\0"
    return table([
        record(Leaf.LF_METHODLIST, methods),
        record(Leaf.LF_ARRAY, array),
        class_of(Leaf.LF_STRUCTURE, 0x200, 0, 16, b"S\0.?AUS@@\0", count=2),
        record(Leaf.LF_UNION, union),
        record(Leaf.LF_ENUM, enumeration),
        record(Leaf.LF_BITFIELD, struct.pack("<IBB", 0x75, 3, 5)),
        record(Leaf.LF_FIELDLIST, fields()),
        # declared, and then defined
        class_of(Leaf.LF_STRUCTURE, 0x280, 0, 0, b"T\0.?AUT@@\0"),
        class_of(Leaf.LF_STRUCTURE, 0x200, 0x1006, 36, b"T\0.?AUT@@\0"),
        record(Leaf.LF_POINTER, struct.pack("<II", 0x1007, 0x800A)),
        record(Leaf.LF_FIELDLIST, virtual_fields()),
        class_of(Leaf.LF_CLASS, 0, 0x100A, 24, b"V\0"),
        # two definitions of one name
        class_of(Leaf.LF_STRUCTURE, 0, 0, 1, b"Q\0"),
        class_of(Leaf.LF_STRUCTURE, 0, 0, 2, b"Q\0"),
    ])  # fmt: skip


def frames():
    """Both tables of frames."""
    old = (struct.pack("<IIIHH", *numbers, kind << 14) for *numbers, kind in OLD_FRAMES)
    return b"".join(old), b"".join(words_of([*numbers, 0, 0, 0, 0]) for numbers in NEW_FRAMES)


def streams():
    """The streams of the file. The last name of its string table has no end."""
    names = b"".join(name.encode() + b"\0" for name in NAMES) + b"cut"
    old, new = frames()
    roles = [6, NO_STREAM, NO_STREAM, 7, 8, 9, NO_STREAM, NO_STREAM, NO_STREAM, 11, 10]
    return [
        b"", information(), types(), debug_header(roles), words_of([0xEFFEEFFE, 1, len(names)]) + names, None, old,
        omap_bytes(TO_SOURCE), omap_bytes(FROM_SOURCE), section_bytes(LOADED), section_bytes(ORIGINAL), new,
    ]  # fmt: skip
