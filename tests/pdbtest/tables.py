"""Tables of types and of ids: the items that a stream has, and streams that are made of items."""

import itertools
import struct
from enum import IntEnum

from pdbtest.msf import EOF, Refused

FIRST_INDEX = 0x1000


class Leaf(IntEnum):
    """The kinds of records and of some fields, as cvinfo.h numbers them."""

    LF_VTSHAPE = 0x000A
    LF_LABEL = 0x000E
    LF_MODIFIER = 0x1001
    LF_POINTER = 0x1002
    LF_PROCEDURE = 0x1008
    LF_MFUNCTION = 0x1009
    LF_ARGLIST = 0x1201
    LF_FIELDLIST = 0x1203
    LF_BITFIELD = 0x1205
    LF_METHODLIST = 0x1206
    LF_ARRAY = 0x1503
    LF_CLASS = 0x1504
    LF_STRUCTURE = 0x1505
    LF_UNION = 0x1506
    LF_ENUM = 0x1507
    LF_INTERFACE = 0x1519
    LF_VFTABLE = 0x151D
    LF_FUNC_ID = 0x1601
    LF_MFUNC_ID = 0x1602
    LF_BUILDINFO = 0x1603
    LF_SUBSTR_LIST = 0x1604
    LF_STRING_ID = 0x1605
    LF_UDT_SRC_LINE = 0x1606
    LF_UDT_MOD_SRC_LINE = 0x1607
    LF_INDEX = 0x1404  # a field: the list goes on in another, whose index stands behind two bytes of padding
    LF_MEMBER = 0x150D  # a field: a member of a class


# Reading.


def table_of(stream):
    """Where the items of a table begin, and its least index and its maximum."""
    if not stream:
        return 0, 0, 0
    if len(stream) < 56:
        raise Refused(EOF)
    _, size, minimum, maximum = struct.unpack_from("<4I", stream)
    invalid = "The type information header was invalid: "
    if size < 56:
        raise Refused(f"{invalid}header size is impossibly small")
    if size > 1024:
        raise Refused(f"{invalid}header size is unreasonably large")
    if len(stream) < size:
        raise Refused(EOF)
    if minimum < FIRST_INDEX:
        raise Refused(f"{invalid}minimum type index is < 4096")
    if maximum < minimum:
        raise Refused(f"{invalid}maximum type index is < minimum type index")
    return size, minimum, maximum


def item_places(stream, begin):
    """Where each item's bytes begin and end, as far as the walk goes."""
    at = begin
    while at < len(stream):
        if at + 2 > len(stream):
            raise Refused(EOF)
        length = int.from_bytes(stream[at : at + 2], "little")
        if length < 2:
            raise Refused("TypeTooShort")
        if at + 2 + length > len(stream):
            raise Refused(EOF)
        yield at + 2, at + 2 + length
        at += 2 + length


def item_of(stream, index):
    """The bytes of the item of an index."""
    begin, minimum, maximum = table_of(stream)
    if index < minimum:
        return b"\xff\xff"
    if index >= maximum:
        raise Refused(f"Type {index} not found")
    for start, end in itertools.islice(item_places(stream, begin), index - minimum, None):
        return stream[start:end]
    raise Refused(EOF)


def kind_at(stream, start):
    """The kind of the item whose bytes begin at a place."""
    return int.from_bytes(stream[start : start + 2], "little")


# Making.


def padded(data, front=0):
    """A field with its padding, by how far it stands from a place that four divides."""
    return data + b"\xf3\xf2\xf1"[3 - -(front + len(data)) % 4 :]


def sized(data):
    """The bytes of an item behind their length."""
    return struct.pack("<H", len(data)) + data


def record(kind, body):
    """An item of a kind, with its length and its padding."""
    return sized(padded(struct.pack("<H", kind) + body, 2))


def modifier(index):
    """The type of an index, made constant."""
    return record(Leaf.LF_MODIFIER, struct.pack("<IH", index, 1))


def class_of(kind, properties, fields, size, names, count=1):
    """A class of a kind, a structure mostly, with the list of its fields and its names."""
    return record(kind, struct.pack("<HHIIIH", count, properties, fields, 0, 0, size) + names)


def member(index, offset, name):
    """The field of a list that is a member of a class, without its padding."""
    return struct.pack("<HHIH", Leaf.LF_MEMBER, 3, index, offset) + name + b"\0"


def table_header(count, size):
    """The header of a table of so many items, which take so many bytes."""
    numbers = [20040203, 56, FIRST_INDEX, FIRST_INDEX + count, size]
    return struct.pack("<5I2H8I", *numbers, 0xFFFF, 0xFFFF, 4, 0x3FFFF, *[0] * 6)


def table(items):
    """The stream of a table of items, with their lengths."""
    return table_header(len(items), sum(map(len, items))) + b"".join(items)
