"""Files with records that can't be read."""

import struct

from pdbtest.exploding import structure
from pdbtest.msf import TYPES, streams_of, with_bytes, with_stream, write_scattered
from pdbtest.tables import FIRST_INDEX, Leaf, item_places, member, padded, record, table, table_of

UNKNOWN = 0x1234  # a kind that no record has
BAD_PREFIX = 0x801B  # with which no number begins
FAULTS = {
    "kind": f"Support for types of kind {UNKNOWN:#06x} is not implemented",
    "number": f"Variable-length numeric parsing encountered an unexpected prefix ({BAD_PREFIX:#x})",
}
NAMES = (b"First", b"Second", b"Third")


def damaged(one, fault):
    """A structure that can't be read for a fault."""
    if fault == "kind":
        return with_bytes(one, 2, struct.pack("<H", UNKNOWN))
    return with_bytes(one, 20, struct.pack("<H", BAD_PREFIX))


def index_of(name):
    """The index of the structure of a name."""
    return FIRST_INDEX + 1 + NAMES.index(name)


def write_types(file, faults, others=()):
    """Writes a file of three structures, of which some can't be read, each for its fault, and of other records."""
    fields = record(Leaf.LF_FIELDLIST, padded(member(0x74, 0, b"m")))
    made = {name: structure(FIRST_INDEX, 4, name) for name in NAMES}
    made |= {name: damaged(made[name], fault) for name, fault in faults.items()}
    return write_scattered(file, [b"", b"", table([fields, *made.values(), *others])], 4096, in_order=True)


def cases(room):
    """Files of which structures can't be read: each with the names of those, and with what is told of them."""
    for fault, text in FAULTS.items():
        told = f"the record {index_of(b'Second'):#x} can't be read: {text}"
        one = write_types(room / f"one_{fault}.pdb", {b"Second": fault})
        yield one, [b"Second"], told
        two = write_types(room / f"two_{fault}.pdb", {b"Second": fault, b"Third": "kind"})
        yield two, [b"Second", b"Third"], f"{told}; nor can 1 more"


def without_definitions(room):
    """A file of which no structure is unread: only records of kinds that define nothing are."""
    others = [record(kind, b"\0\0") for kind in (Leaf.LF_LABEL, Leaf.LF_VFTABLE, Leaf.LF_POINTER, Leaf.LF_MODIFIER)]
    return write_types(room / "nothing_unread.pdb", {}, others)


def each_unknown(room, file):
    """Copies of a file, in each of which another record of a type has a kind that no record has."""
    streams = streams_of(file)
    begin, _, _ = table_of(streams[TYPES])
    for start, _ in item_places(streams[TYPES], begin):
        stream = with_bytes(streams[TYPES], start, struct.pack("<H", UNKNOWN))
        yield write_scattered(room / "unknown.pdb", with_stream(streams, TYPES, stream), 512)


def each_unknown_field(room, file):
    """Copies of a file, in each of which the first field of another list has a kind that no field has."""
    streams = streams_of(file)
    begin, _, _ = table_of(streams[TYPES])
    for start, end in item_places(streams[TYPES], begin):
        if streams[TYPES][start : start + 2] == struct.pack("<H", Leaf.LF_FIELDLIST) and end - start > 2:
            stream = with_bytes(streams[TYPES], start + 2, struct.pack("<H", UNKNOWN))
            yield write_scattered(room / "unknown_field.pdb", with_stream(streams, TYPES, stream), 512)
