"""The reader of records of types and of ids: from the format's rules, whether a record is refused."""

import functools

from pdbtest.msf import EOF, Refused
from pdbtest.tables import Leaf

UNSIGNED = {0x8000: 1, 0x8002: 2, 0x8004: 4, 0x800A: 8}
SIGNED = {**UNSIGNED, 0x8001: 2, 0x8003: 4, 0x8009: 8}
UNIQUE = 1 << 9  # of the properties of a class: it has a second name
INTRO, PURE_INTRO = 4, 6  # properties of a method that has an offset
SHORT_TEXTS = 0x1500  # a record of a kind up to this has texts behind their lengths


class Cursor:
    """The bytes of a record, how far they were read, and the properties that it has."""

    def __init__(self, data):
        self.data, self.at, self.properties = data, 0, 0
        self.leaf = self.number(2)

    def skip(self, size):
        """Passes so many bytes."""
        if self.at + size > len(self.data):
            raise Refused(EOF)
        self.at += size

    def number(self, size):
        """Reads a number of so many bytes."""
        self.skip(size)
        return int.from_bytes(self.data[self.at - size : self.at], "little")

    def text(self):
        """A text that ends with a NUL, or one behind its length."""
        if self.leaf <= SHORT_TEXTS:
            self.skip(self.number(1))
            return
        end = self.data.find(b"\0", self.at)
        if end < 0:
            raise Refused(EOF)
        self.at = end + 1

    def numeral(self, kinds):
        """A number of variable width."""
        prefix = self.number(2)
        if prefix < 0x8000:
            return prefix
        if prefix not in kinds:
            raise Refused(f"prefix {prefix:#x}")
        return self.number(kinds[prefix])

    def size(self):
        """A number of variable width that is not negative."""
        return self.numeral(UNSIGNED)

    def value(self):
        """A number of variable width."""
        return self.numeral(SIGNED)

    def flags(self):
        """The properties of a class, of two bytes."""
        self.properties = self.number(2)

    def wide_flags(self):
        """The properties of a class, of four bytes."""
        self.properties = self.number(4)

    def names(self):
        """The name of a class, and its second name if it has one."""
        self.text()
        if self.properties & UNIQUE:
            self.text()

    def pointer(self):
        """The attributes of a pointer, and the class where it points to a member."""
        attributes = self.number(4)
        mode = attributes >> 5 & 7
        if attributes & 0x1F > 0x0C or mode > 4:
            raise Refused("a pointer of no kind")
        if mode in (2, 3):
            self.skip(4)

    def method(self, behind=4):
        """The attributes of a method, so many bytes, and the offset of one that has one."""
        attributes = self.number(2)
        self.skip(behind)
        if attributes >> 2 & 7 in (INTRO, PURE_INTRO):
            self.skip(4)

    def methods(self):
        """Methods up to the end."""
        while self.at < len(self.data):
            self.method(behind=6)

    def shape(self):
        """What a table of virtual functions is made of, in half bytes."""
        self.skip((self.number(2) + 1) // 2)

    def indexes(self):
        """Indexes behind their number of four bytes."""
        self.skip(4 * self.number(4))

    def few_indexes(self):
        """Indexes behind their number of two bytes."""
        self.skip(4 * self.number(2))

    def dimensions(self):
        """The dimensions of an array, up to a byte of zero, with nothing but padding behind."""
        while True:
            if self.size() > 0xFFFFFFFF:
                raise Refused("u64 array sizes")
            if self.at >= len(self.data):
                raise Refused(EOF)
            if self.data[self.at] == 0:
                break
        self.skip(1)
        self.padding()
        if self.at < len(self.data):
            raise Refused(EOF)

    def padding(self):
        """Passes the padding that stands here."""
        while self.at < len(self.data) and self.data[self.at] >= 0xF0:
            self.skip(max(1, self.data[self.at] & 15))

    def read(self, parts):
        """Reads parts, one after another: so many bytes, or what a method reads."""
        for part in parts:
            if isinstance(part, int):
                self.skip(part)
            else:
                part(self)


# The parts of the types and fields of each kind, and of the ids.
TYPES = {
    **dict.fromkeys([0x1504, 0x1004, 0x1505, 0x1005, 0x1519], (2, Cursor.flags, 12, Cursor.size, Cursor.names)),
    0x1609: (Cursor.wide_flags, 14, Cursor.size, Cursor.names),
    **dict.fromkeys([0x1506, 0x1006], (2, Cursor.flags, 4, Cursor.size, Cursor.names)),
    **dict.fromkeys([0x1507, 0x1007], (2, Cursor.flags, 8, Cursor.names)),
    **dict.fromkeys([0x1502, 0x0403], (2, Cursor.value, Cursor.text)),
    **dict.fromkeys([0x150D, 0x1405], (6, Cursor.size, Cursor.text)),
    **dict.fromkeys([0x1510, 0x1408, 0x1512, 0x140D, 0x150E, 0x1406, 0x150F, 0x1407], (6, Cursor.text)),
    **dict.fromkeys([0x1511, 0x140B], (Cursor.method, Cursor.text)),
    **dict.fromkeys([0x1400, 0x151A], (6, Cursor.size)),
    **dict.fromkeys([0x1401, 0x1402], (10, Cursor.size, Cursor.size)),
    **dict.fromkeys([0x1503, 0x1003], (8, Cursor.dimensions)),
    0x1516: (12, Cursor.dimensions),
    Leaf.LF_POINTER: (4, Cursor.pointer),
    Leaf.LF_VTSHAPE: (Cursor.shape,),
    Leaf.LF_ARGLIST: (Cursor.indexes,),
    Leaf.LF_METHODLIST: (Cursor.methods,),
    Leaf.LF_MFUNCTION: (24,),
    Leaf.LF_PROCEDURE: (12,),
    Leaf.LF_MODIFIER: (6,),
    Leaf.LF_BITFIELD: (6,),
    0x1409: (6,),
}
IDS = {
    **dict.fromkeys([Leaf.LF_FUNC_ID, Leaf.LF_MFUNC_ID], (8, Cursor.text)),
    Leaf.LF_BUILDINFO: (Cursor.few_indexes,),
    Leaf.LF_SUBSTR_LIST: (Cursor.indexes,),
    Leaf.LF_STRING_ID: (4, Cursor.text),
    Leaf.LF_UDT_SRC_LINE: (12,),
    Leaf.LF_UDT_MOD_SRC_LINE: (14,),
}


def read_fields(cursor):
    """The fields of a list. Returns the index in its last LF_INDEX, or None."""
    continuation = None
    while cursor.at < len(cursor.data):
        cursor.leaf = cursor.number(2)
        if cursor.leaf == Leaf.LF_INDEX:
            cursor.skip(2)
            continuation = cursor.number(4)
        elif cursor.leaf in TYPES:
            cursor.read(TYPES[cursor.leaf])
        else:
            raise Refused(f"a field of kind {cursor.leaf:#x}")
        cursor.padding()
    return continuation


@functools.lru_cache(1 << 17)
def type_fault(record):
    """Why the record of a type is refused, or None, and the index of the list that continues it."""
    cursor = Cursor(record)
    try:
        if cursor.leaf == Leaf.LF_FIELDLIST:
            return None, read_fields(cursor)
        cursor.read(TYPES.get(cursor.leaf, ()))
    except Refused as refusal:
        return str(refusal), None
    return None, None


@functools.lru_cache(1 << 17)
def id_fault(record):
    """Why the record of an id is refused, or None."""
    cursor = Cursor(record)
    try:
        cursor.read(IDS.get(cursor.leaf, ()))
    except Refused as refusal:
        return str(refusal)
    return None
