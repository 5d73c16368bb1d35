"""Small tables that say much: types within types, lists that many classes share, names that are long, and a name that
many entries share."""

import struct

from pdbtest.tables import FIRST_INDEX, Leaf, class_of, member, padded, record

ROOM = 0xF000  # bytes of a record that are filled


def structure(fields, size, name):
    """A structure by its list of fields, its size and its name."""
    return class_of(Leaf.LF_STRUCTURE, 0, fields, size, name + b"\0")


def lists_of(members, first):
    """Lists of fields with these members, of which each goes on in the one before; the first has this index."""
    lists, body = [], b""
    for each in map(padded, members):
        if len(body) + len(each) > ROOM:
            lists.append(record(Leaf.LF_FIELDLIST, body + going_on(lists, first)))
            body = b""
        body += each
    return [*lists, record(Leaf.LF_FIELDLIST, body + going_on(lists, first))]


def going_on(lists, first):
    """The entry that says that a list goes on in the last of these, if there is one."""
    return struct.pack("<HHI", Leaf.LF_INDEX, 0, first + len(lists) - 1) if lists else b""


def with_members(types, name, count):
    """Types, and a class of so many members of the last of them."""
    last = FIRST_INDEX + len(types) - 1
    lists = lists_of((member(last, 0, b"m%d" % n) for n in range(count)), last + 1)
    return [*types, *lists, structure(last + len(lists), 8, name)]


def function(arguments, first):
    """A list of arguments, which has this index, a function with them, and a pointer to it."""
    count = len(arguments)
    return [
        record(Leaf.LF_ARGLIST, struct.pack(f"<I{count}I", count, *arguments)),
        record(Leaf.LF_PROCEDURE, struct.pack("<IBBHI", 0x74, 0, 0, count & 0xFFFF, first)),
        record(Leaf.LF_POINTER, struct.pack("<II", first + 1, 0x1000C)),
    ]


def arguments(members):
    """A class of members that are functions of 15,000 functions of 15,000 arguments."""
    inner = function([0x74] * 15_000, FIRST_INDEX)
    return with_members(inner + function([FIRST_INDEX + 2] * 15_000, FIRST_INDEX + 3), b"Arguments", members)


def named(members):
    """A class of members that are functions of 8,000 arguments of a class with a name of 60,000 bytes."""
    return with_members([structure(0, 8, b"N" * 60_000), *function([FIRST_INDEX] * 8_000, FIRST_INDEX + 1)], b"Named", members)


def long_named(members):
    """A class of members of a class with a name of 60,000 bytes."""
    return with_members([structure(0, 8, b"N" * 60_000)], b"Holder", members)


def shared(members, classes):
    """Classes that share one list of members."""
    lists = lists_of((member(0x74, 0, b"m") for _ in range(members)), FIRST_INDEX)
    last = FIRST_INDEX + len(lists) - 1
    return [*lists, *(structure(last, 8, b"S%d" % n) for n in range(classes))]


def nested(depth):
    """Classes of which each has a member of the one before."""
    made = [structure(0, 4, b"N")]
    for _ in range(depth):
        inner = FIRST_INDEX + len(made) - 1
        made += [record(Leaf.LF_FIELDLIST, padded(member(inner, 0, b"n"))), structure(inner + 1, 4, b"N")]
    return made


def itself():
    """A class with a member of its own type."""
    return [record(Leaf.LF_FIELDLIST, padded(member(FIRST_INDEX + 1, 0, b"a"))), structure(FIRST_INDEX, 8, b"C")]


def chained(lists):
    """Lists of which each goes on in the one before, and a class for each."""
    made = [record(Leaf.LF_FIELDLIST, padded(member(0x74, 0, b"m")))]
    for _ in range(lists):
        body = padded(member(0x74, 0, b"m")) + struct.pack("<HHI", Leaf.LF_INDEX, 0, FIRST_INDEX + len(made) - 1)
        made.append(record(Leaf.LF_FIELDLIST, body))
    return made + [structure(FIRST_INDEX + n, 4, b"K%d" % n) for n in range(1, lists + 1)]


def many(members):
    """A class of many members."""
    return with_members([record(Leaf.LF_POINTER, struct.pack("<II", 0x74, 0x1000C))], b"Many", members)


def one_name(entries, length):
    """A stream 1 of which all of so many entries give stream 5 the same name, which has so many bytes."""
    words = -(-entries // 32)
    present = struct.pack("<I", words) + ((1 << entries) - 1).to_bytes(4 * words, "little")
    table = struct.pack("<II", entries, entries) + present + struct.pack("<I", 0) + struct.pack("<II", 0, 5) * entries
    head = struct.pack("<III16xI", 20000404, 1, 1, length + 1)
    return head + b"N" * length + b"\0" + table
