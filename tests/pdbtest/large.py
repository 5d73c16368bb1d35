"""A table of as many types as a large program has."""

import struct

from pdbtest.tables import FIRST_INDEX, Leaf, class_of, member, modifier, padded, record

TYPES, EACH = 1_270_000, 8  # types of the large table, and how many of them belong to one class


def large_table(types):
    """Items of so many types: a class of eight members, its list, and six more types, over and over."""
    made = []
    while len(made) < types:
        base = FIRST_INDEX + len(made)
        name = b"Class%d\0" % len(made)
        indexes = [0x74, base + 1, 0x13, base + 1, base + 3, 0x41, 0x70, base + 1]
        members = (padded(member(index, n * 8, b"member%d" % n)) for n, index in enumerate(indexes))
        made += [
            class_of(Leaf.LF_STRUCTURE, 0x80, 0, 0, name, count=0),
            record(Leaf.LF_POINTER, struct.pack("<II", base, 0x1000C)),
            modifier(base),
            record(Leaf.LF_ARRAY, struct.pack("<IIH", 0x74, 0x23, 32) + b"\0"),
            record(Leaf.LF_ARGLIST, struct.pack("<III", 2, base + 1, 0x74)),
            record(Leaf.LF_PROCEDURE, struct.pack("<IBBHI", 0x74, 0, 0, 2, base + 4)),
            record(Leaf.LF_FIELDLIST, b"".join(members)),
            class_of(Leaf.LF_STRUCTURE, 0, base + 6, 104, name, count=8),
        ]
    return made
