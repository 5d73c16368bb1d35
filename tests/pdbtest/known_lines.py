"""What tests/c/calls.c has to print of the file that is known, by the format's rules."""

import re
import uuid

from pdbtest.addresses import moved_ranges
from pdbtest.calls import SENTENCES
from pdbtest.known_file import (
    DEBUG_AGE, FEATURE_BITS, FLAGS, FROM_SOURCE, GUID, LOADED, MACHINE, NAMED, NAMES, NEW_FRAMES, OLD_FRAMES, ORIGINAL,
    TO_SOURCE, streams,
)  # fmt: skip
from pdbtest.reading import PARTS, Reading
from pdbtest.relations import INCONSISTENCIES, WARNINGS

FIRST, LAST, STEP = 0x800, 0x5000, 0x80
NOWHERE = "nowhere"


def moved(table, address):
    """Where a table moves an address, or None where that doesn't fit 32 bits."""
    below = [record for record in table if record[0] <= address]
    if not below or not below[-1][1]:
        return None
    target = below[-1][1] + address - below[-1][0]
    return target if target <= 0xFFFFFFFF else None


def place_in(sections, address):
    """The section that has an address, and the offset there."""
    if address is None:
        return None
    for number, (_, _, at, size, _) in enumerate(sections, 1):
        if at <= address < at + size:
            return number, address - at
    return None


def address_in(sections, number, offset):
    """The address of an offset in a section, if there is the section."""
    return sections[number - 1][2] + offset if 0 < number <= len(sections) else None


def shown(address):
    """An address as calls.c prints it."""
    return NOWHERE if address is None else f"{address:#x}"


def shown_place(place):
    """A place in a section as calls.c prints it."""
    return NOWHERE if place is None else f"{place[0]}:{place[1]:#x}"


def to_source(address):
    """Where the table to the source moves an address, if there is one."""
    return None if address is None else moved(TO_SOURCE, address)


def from_source(address):
    """Where the table from the source moves an address, if there is one."""
    return None if address is None else moved(FROM_SOURCE, address)


def address_lines():
    """Addresses and places, each in all its forms, and ranges of addresses."""
    yield "address of no form 106"
    yield from (f"ranges of form {form} 106" for form in (1, 3, 4))
    for asked in range(FIRST, LAST, STEP):
        number = asked // STEP % 4
        yield f"own0 {asked:#x} {asked:#x}"
        yield f"own1 {asked:#x} {asked:#x}"
        yield f"own2 {asked:#x} {number}:{asked:#x}"
        yield f"own3 {asked:#x} {number}:{asked:#x}"
        loaded, internal = address_in(LOADED, number, asked), address_in(ORIGINAL, number, asked)
        yield f"address0 {asked:#x} {shown(to_source(asked))}"
        yield f"address1 {asked:#x} {shown(from_source(asked))}"
        places = [place_in(LOADED, asked), place_in(ORIGINAL, to_source(asked))]
        places += [place_in(LOADED, from_source(asked)), place_in(ORIGINAL, asked)]
        addresses = [loaded, to_source(loaded), internal, from_source(internal)]
        for i in range(4):
            yield f"place{i} {asked:#x} {shown_place(places[i])}"
            yield f"from{i} {asked:#x} {shown(addresses[i])}"
        across = [place_in(ORIGINAL, to_source(loaded)), place_in(LOADED, from_source(internal))]
        for i, table in enumerate([FROM_SOURCE, TO_SOURCE]):
            yield f"across{i} {asked:#x} {shown_place(across[i])}"
            ranges = moved_ranges(table, asked, asked + 0x300)
            yield f"ranges{i} {asked:#x}" + "".join(f" {low:#x}..{high:#x}" for low, high in ranges)


def omap_lines():
    """The records of the table to the source, which is sorted, and one that is not."""
    yield from (f"omap {source:#x} {target:#x}" for source, target in TO_SOURCE)
    yield "omap sorted 1 unmapped 107 7"
    yield "omap sorted 0"


def frames_from(frames, address):
    """The frames from an address on: from the one that starts there or covers it, or from the next."""
    return [frame for frame in frames if frame[0] >= address or frame[0] + frame[1] > address]


def frame_lines():
    """The frames at addresses."""
    old = [(at, size, 4 * locals_, 4 * parameters, kind) for at, size, locals_, parameters, kind in OLD_FRAMES]
    new = [(*frame, 4) for frame in NEW_FRAMES]
    for asked in range(FIRST, LAST, STEP):
        # of two that start at one address, the newer
        heads = [frames[0] for frames in (frames_from(new, asked), frames_from(old, asked)) if frames]
        first = min(heads, key=lambda frame: frame[0], default=None)
        yield f"frame {asked:#x} " + (NOWHERE if first is None else "{:#x} {} {} {} {}".format(*first))
    starts = {frame[0] for frame in new}
    for at, size, _, _, kind in sorted([*new, *(frame for frame in old if frame[0] not in starts)]):
        yield f"listed {at:#x} {size} {kind}"


def stream_lines(all_streams, page_size):
    """The streams of the file, and one that it lacks."""
    yield "closed 101 7"
    yield "again 100"
    yield f"pages {page_size} streams {len(all_streams)}"
    for number, stream in enumerate([*all_streams, None]):
        if stream is None:
            yield f"stream {number} absent {number}"
        else:
            size = len(stream)
            yield f"stream {number} size {size} needs {size} begins {stream[:40].hex()}"


def type_lines():
    """Lists of types, and unique names."""
    yield "method 0x1000 5 0x3 0x1100 4294967295"
    yield "method 0x1000 5 0x13 0x1101 24"
    yield "dimension 0x1001 40"
    yield "dimension 0x1001 4000"
    yield "unique 0x1002 .?AUS@@"
    yield "unique 0x1003 .?ATU@@"
    yield "unique 0x1007 .?AUT@@"
    yield "unique 0x1008 .?AUT@@"
    yield from ("primitive 0x74 int 0", "primitive 0x674 int 6", "primitive 0x103 void 1")
    yield from ("primitive 0x874 status 15", "primitive 0x80 status 15")
    # of each prefix of a number, its width and the number
    yield "enumerate 2 12345"
    yield from ("enumerate 2 -2", "enumerate 2 65534", "enumerate 4 -2", "enumerate 4 4294967294")
    yield from ("enumerate 8 -2", "enumerate 8 18446744073709551614")
    # 0x80 of one byte, as numbers of types
    yield from ("enumerator of 0x68 -128", "enumerator of 0x69 128", "enumerator of 0x23 18446744073709551488")
    yield "enumerator of 0x1000 128"


def id_lines():
    """An id of each shape: its shape, which numbers it has, these, its name and its list."""
    yield "id 32 16 0x1002 0x0 0x0 0x0 0 0 named f"
    yield "id 33 80 0x1006 0x0 0x1005 0x0 0 0 named g"
    yield "id 34 0 0x0 0x0 0x0 0x0 0 0 0x1001 0x1002"
    yield "id 35 0 0x0 0x0 0x0 0x0 0 0 0x1007"
    yield "id 36 128 0x0 0x0 0x0 0x1008 0 0 named text"
    yield "id 37 304 0x1009 0x100a 0x0 0x0 0 11"
    yield "id 37 848 0x1009 0x0 0xc 0x0 10 11"


def identity_lines():
    """The key by Python's uuid."""
    guid = uuid.UUID(bytes_le=GUID)
    numbers = f"20000404 1700000000 {DEBUG_AGE} 3 1 {DEBUG_AGE} {MACHINE} {FLAGS} 1 {FEATURE_BITS}"
    yield f"identity {numbers} guid {GUID.hex()}"
    texts = [f"{guid.hex.upper()}{DEBUG_AGE:X}", f"{guid.hex}{DEBUG_AGE:x}", str(guid).upper()]
    yield from (f"key {form} needs {len(text)} is {text}" for form, text in enumerate(texts))
    yield "key of no form 106 0"
    yield "format 1 2 3 4 5 0"


# Of each type from 0x1000 on: its definition, its size, and the rows of its layout, which are those of its definition.
# A row: kind, offset, size, extent, first bit, bits, type, virtual base class, its position, if it is direct, name.
OF_T = [
    (0, 0, 16, 0, 0, 0, 0x1002, 0, 0, 0, ""),
    (3, 20, 0, 1, 5, 3, 0x1005, 0, 0, 0, "flag"),
    (3, 24, 8, 0, 0, 0, 0x1003, 0, 0, 0, "u"),
    (4, 16, 4, *[0] * 7, ""),
    (4, 21, 3, *[0] * 7, ""),
    (4, 32, 4, *[0] * 7, ""),
    (5, 20, 0, 1, 0, 5, 0, 0, 0, 0, ""),
]
OF_V = [
    (2, 0, 4, 0, 0, 0, 0x1009, 0, 0, 0, ""),
    (1, 4, 4, 0, 0, 0, 0x1009, 0x1002, 7, 1, ""),
    (3, 8, 4, 0, 0, 0, 0x74, 0, 0, 0, "last"),
    (6, 12, 12, *[0] * 7, ""),
]
DEFINED = [
    (None, None, None),
    (None, 4000, None),
    (0x1002, 16, [(4, 0, 16, *[0] * 7, "")]),
    (0x1003, 8, [(4, 0, 8, *[0] * 7, "")]),
    (0x1004, 4, None),
    (None, 4, None),
    (None, None, None),
    (0x1008, 36, OF_T),
    (0x1008, 36, OF_T),
    (None, 4, None),
    (None, None, None),
    (0x100B, 24, OF_V),
    (0x100C, 1, [(4, 0, 1, *[0] * 7, "")]),
    (0x100D, 2, [(4, 0, 2, *[0] * 7, "")]),
]


def definition_lines():
    """Definitions of types, and their sizes, layouts and texts."""
    yield from ("named S 0x1002", "named T 0x1008", "named E 0x1004", "named none", "named Q 0x100c 0x100d")
    for index, (definition, size, rows) in enumerate(DEFINED, 0x1000):
        yield f"definition {index:#x} {shown(definition)}"
        yield f"size {index:#x} {NOWHERE if size is None else size}"
        for *place, of, base, position, direct, name in rows or []:
            where = " ".join(map(str, place))
            yield f"layout {index:#x} {where} {of:#x} {base:#x} {position} {direct} {name}"
        if rows is None:
            yield f"layout {index:#x} {NOWHERE}"
    yield from ("text 0x74 int it", "text 0x1001 int it[100][10]", "text 0x1007 T it", "text 0x1009 T *it")


# What is told of calls that are refused, with plenty of memory: the status, and the number that goes with it.
CLOSED = [
    "sizes", "stream size", "stream", "named stream", "stream names", "roles", "identity", "sections", "names", "omap",
    "addresses", "frames", "types",
]  # fmt: skip
NOT_OPEN = 101


def refused_file(what, status, number):
    """The calls on a file that can't be opened: the others take an open one."""
    return [(f"{what} open", status, number), *((f"{what} {call}", NOT_OPEN, 0) for call in CLOSED)]


REFUSED = [
    *refused_file("cut", 1, 0), *refused_file("empty", 1, 0), *refused_file("page size", 3, 768),
    ("no named stream", 5, 0), ("no names", 5, 0), ("name of no stream", 5, 0), ("no stream", 4, 99), ("no size", 4, 99),
    ("no sections", 4, 99), ("no omap", 4, 99), ("no types", 4, 99), ("names", 8, 0), ("signature", 9, 6), ("omap", 6, 1),
    ("table", 8, 0), ("header", 13, 10), ("sections", 8, 0), ("no name", 8, 0), ("no place", 8, 0), ("short record", 14, 0),
    ("kind of row", 17, 0x151D), ("pointer", 17, 0x1002), ("prefix", 20, 0x8005), ("primitive", 15, 0x874),
    ("cut name", 8, 0), ("false count", 8, 0), ("array", 8, 0), ("cut method", 8, 0), ("cut unique name", 8, 0),
    ("cut field", 8, 0), ("list in a list", 17, 0x1203), ("continuation", 9, 9), ("cut id", 8, 0), ("kind of id", 17, 0x1608),
    ("cut name of an id", 8, 0), ("false count of ids", 8, 0), ("definitions of a cut table", 14, 0),
    ("size in a cut table", 14, 0), ("size in a cut table", 14, 0),
]  # fmt: skip
REFUSED_OF_TABLE = [
    ("no type", 15, 0xFFFFFFFF), ("no record", 15, 0xFFFFFFFF), ("record of an integer", 106, 0),
    ("fields of an integer", 17, 0xFFFF), ("fields of an array", 17, 0x1503), ("own fields of an array", 106, 0),
    ("fields of no type", 15, 0x2000), ("no definition", 15, 0x2000), ("size of no type", 15, 0x2000), ("text of no type", 15, 0x2000),
    ("layout of no type", 15, 0x2000), ("closed types", NOT_OPEN, 0),
]  # fmt: skip

# The texts of faults by their statuses, with the number that goes with each.
TEXTS = {
    0: "success",
    1: "not a program database of version 7.00",
    2: "MSF referred to page number ({}) out of range",
    3: "The MSF header specifies an invalid page size ({} bytes)",
    4: "The requested stream ({}) is not stored in this file",
    5: "no stream has this name",
    6: "{} stream has an invalid length or alignment for its records",
    7: "the file ends too soon",
    8: "the bytes end too soon",
    9: "Unimplemented PDB feature: {}",
    13: "The type information header was invalid: {}",
    14: "a record's length leaves no room for its kind",
    15: "Type {} not found",
    17: "Support for types of kind 0x{:04x} is not implemented",
    20: "Variable-length numeric parsing encountered an unexpected prefix (0x{:04x})",
    21: "the file has no section headers, and so no address map",
    28: "an allocation failed",
    100: "the handle is open already",
    101: "the handle is not open",
    102: "the array has no room for the answer",
    104: "no text for this fault",
    105: "the walk is at its end",
    106: "there is no such value",
    107: "the table moves the address nowhere",
}
NUMBERS = {2: 7, 3: 7, 4: 7, 7: 1, 15: 7, 17: 7, 20: 7}  # what goes with these where texts are asked for
# What is named by a number in the faults of these statuses.
NAMED_BY_NUMBER = {
    6: {1: "OMAP", 2: "FPO", 3: "FrameData"},
    9: {
        4: "small MSF file format", 5: "ancient DBI header", 6: "invalid string table signature",
        7: "unknown string table hash version", 8: "u64 array sizes", 9: "field list continuation not below its list",
        14: "OMAP table that is not sorted", 15: "frames that are not sorted",
        16: "directory that is larger than its file", 17: "streams that are larger than their file",
        18: "stream names that share bytes",
    },
    13: {
        10: "header size is impossibly small", 11: "header size is unreasonably large",
        12: "minimum type index is < 4096", 13: "maximum type index is < minimum type index",
    },
}  # fmt: skip


# What pdbq says by a name or by the system's texts, or pdbdump in a line, and the status of the library for C.
STATUSES = {
    "UnrecognizedFileFormat": 1, "IO error while reading PDB.*": 7, f"UnexpectedEof|{SENTENCES['UnexpectedEof']}": 8,
    f"TypeTooShort|{SENTENCES['TypeTooShort']}": 14,
}  # fmt: skip


def in_words_of_c(err):
    """What pdbq tells of an error, in the words of the library for C."""
    for pattern, status in STATUSES.items():
        err = re.sub(f"^(?:{pattern})$".encode(), TEXTS[status].encode(), err, flags=re.MULTILINE)
    return err


def text_of(status, number):
    """The text of a fault."""
    return TEXTS[status].format(NAMED_BY_NUMBER.get(status, {}).get(number, number))


def told_lines(refused):
    """What is told of refused calls."""
    return (f"told {what} {status} {number} 0 {text_of(status, number)}" for what, status, number in refused)


def text_lines():
    """The text of each fault that a call can leave, and of others, which have one if it names no number."""
    for status in TEXTS:
        for number in NAMED_BY_NUMBER.get(status, [NUMBERS.get(status, 0)]):
            yield f"text of {status} {number} is {text_of(status, number)}"
    for status, number in ((5, 1), (7, 0)):
        yield f"text of {status} {number} is {text_of(status, number)}"
    for status, number in ((6, 0), (17, 0x10000), (29, 0), (103, 0), (108, 0)):
        yield f"text of {status} {number} is none"


def finding_lines(data):
    """What is wrong in the file, and in its first bytes, by the reader of whole files."""
    for part in (data, data[:4095]):
        faults = Reading(part).faults
        yield f"findings {len(faults)}"
        for fault in faults:
            said = [fault.stream, fault.byte, fault.file_byte]
            stream, byte, file_byte = (f"{int(number is not None)}:{number or 0}" for number in said)
            index = f"{int(fault.index is not None)}:{fault.index or 0:#x}"
            numbers = [*INCONSISTENCIES].index(fault.code) + 1 if fault.code in INCONSISTENCIES else 0
            is_warning = int(fault.code in WARNINGS)
            yield f"finding {PARTS.index(fault.part)} {stream} {index} {byte} {file_byte} {is_warning} {numbers}"


def lines(page_size, data):
    """All that is printed, of the file, which is these bytes, over pages of a size."""
    all_streams = streams()
    yield from stream_lines(all_streams, page_size)
    yield f"named {len(NAMED)} {sum(len(name) + 1 for name, _ in NAMED)}"
    yield from (f"named {number} {name}" for name, number in NAMED)
    yield "roles 6 7 8 9 10"
    yield from identity_lines()
    for name, size, at, raw, flags in [*LOADED, *ORIGINAL]:
        yield f"section {name} {size:#x} {at:#x} {raw:#x} {flags:#x}"
    yield from address_lines()
    yield from omap_lines()
    yield from frame_lines()
    offset, found = 0, []
    for name in NAMES:
        yield f"name {offset} {name}"
        found.append(f"found {offset} {12 + offset} {len(name)}")
        offset += len(name) + 1
    yield from found
    yield f"found {offset} 0 0"
    yield f"names of {len(all_streams[4])} bytes"
    yield from type_lines()
    yield from id_lines()
    yield from definition_lines()
    yield from finding_lines(data)
    yield from told_lines(REFUSED)
    yield f"not found 15 {0xFFFFFFFF}"
    yield from told_lines(REFUSED_OF_TABLE)
    yield from text_lines()
