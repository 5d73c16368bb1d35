"""Files that are damaged: what stands where in them, what they are asked, and what has to be answered."""

import functools
import struct

from pdbtest.addresses import moved_lines
from pdbtest.asker import NOT_BELOW, some
from pdbtest.calls import BAD_WORDS, Outcome, answered, refused, told, unread
from pdbtest.damage import SIZES
from pdbtest.llvm import stream_names
from pdbtest.msf import ABSENT, EOF, IDS, TYPES, Msf, Refused, example_with, word
from pdbtest.tables import FIRST_INDEX, Leaf, item_of, item_places, kind_at, table_of

ASKED = 40  # items of a table and names, or all where there are fewer


class File:
    """A file that is damaged, what stands where in it, and what it is asked."""

    def __init__(self, path):
        self.name = path.name
        self.data = path.read_bytes()
        self.msf = Msf(self.data)
        self.streams, self.pages = self.msf.streams(), self.msf.page_lists()
        named = stream_names(path)
        # llvm-pdbutil names no stream of a copy that lacks some.
        self.names = named.get("/names") or find_names(self.streams)
        self.omap = named.get("omap") or (len(self.streams) - 1 if self.name.startswith("scattered") else None)
        self.tables = {TYPES: "type", IDS: "id"}
        self.items = {stream: items_in(self.streams[stream]) for stream in self.tables}
        self.all_items = [(stream, n) for stream, items in self.items.items() for n in range(len(items))]
        self.numbered = self.items_of(SIZES)
        self.arrays = self.items_of({Leaf.LF_ARRAY})
        self.lists = self.items_of({Leaf.LF_FIELDLIST})
        self.continued = [(stream, n) for stream, n in self.lists if self.continuation(n) is not None]
        self.questions = list(self.some_questions())
        # What is told of items: first of the one that stands below the least index, which is no record.
        self.known = {(command, b"\xff\xff"): unread(0xFFFF) for command in self.tables.values()}
        # What is told of the fields of a list by itself, and the list in which it goes on.
        self.fields = {}

    def some_questions(self):
        """Questions about the whole file."""
        yield ("stream", "all")
        count = len(self.streams)
        for number in [*range(count + 2), ABSENT]:
            yield ("stream", number)
            yield ("stream", number, 1 + number % self.msf.page_size)
        for stream, command in self.tables.items():
            behind = FIRST_INDEX + len(self.items[stream])
            for index in [0x74, *some(range(FIRST_INDEX, behind), ASKED), behind, ABSENT]:
                yield (command, stream, index)
        lists = [FIRST_INDEX + n for _, n in self.lists]
        for index in [0x74, FIRST_INDEX, *some(lists, ASKED), FIRST_INDEX + len(self.items[TYPES]), ABSENT]:
            yield ("fields", TYPES, index)
        if self.names is not None:
            for place in [*some(range(word(self.streams[self.names], 8)), ASKED), ABSENT]:
                yield ("name", self.names, place)
        if self.omap is not None:
            for start in range(0, 0x9000, 0x400):
                yield ("ranges", self.omap, start, start + 0x900)
            yield ("ranges", self.omap, 0, ABSENT)
            yield ("ranges", TYPES, 0, 1)

    def items_of(self, kinds):
        """The items of these kinds."""
        kind_of = lambda stream, n: kind_at(self.streams[stream], self.items[stream][n][0])
        return [item for item in self.all_items if kind_of(*item) in kinds]

    def continuation(self, number):
        """The index of the list in which a list of fields goes on, if its last entry says that it does."""
        start, end = self.items[TYPES][number]
        leaf, index = struct.unpack("<II", self.streams[TYPES][max(start, end - 8) : end].rjust(8, b"\0"))
        number_there = index - FIRST_INDEX
        is_list = leaf == Leaf.LF_INDEX and 0 <= number_there < number and (TYPES, number_there) in self.lists
        return index if is_list else None

    def place(self, number, at):
        """Where in the file a byte of a stream stands."""
        page, rest = divmod(at, self.msf.page_size)
        return self.pages[number][page] * self.msf.page_size + rest

    @functools.cache
    def wanted(self, question):
        """What is answered where nothing is damaged."""
        return wanted(self, lambda: self.msf, question)


def items_in(stream):
    """Where each item of a table begins and ends."""
    return list(item_places(stream, table_of(stream)[0]))


def find_names(streams):
    """The stream that is a string table, if there is one."""
    found = [n for n, stream in enumerate(streams) if stream.startswith(b"\xfe\xef\xfe\xef")]
    return found[0] if found else None


# What is to come.


def record_told(file, kind, index, item):
    """What is told of an item, where its bytes are those of an item that is known, else None."""
    told_of = file.known.get((kind, bytes(item)))
    if told_of is None:
        return None
    return Outcome(told_of.status, f"{index:#x} ".encode() + told_of.out if told_of.out else b"", told_of.err)


def fields_told(file, data, index):
    """The lines of the fields of a list, where the bytes of all its lists are known, else None."""
    item = bytes(item_of(data, index))
    kind = kind_at(item, 0)
    if kind != Leaf.LF_FIELDLIST:
        raise Refused(f"Support for types of kind 0x{kind:04x} is not implemented")
    if item not in file.fields:
        return None
    lines, continuation = file.fields[item]
    if continuation is None:
        return lines
    if continuation >= index:
        raise Refused(NOT_BELOW)
    behind = fields_told(file, data, continuation)
    return None if behind is None else lines + behind


def wanted(file, opened, question):
    """What is answered, or None where this script can't say."""
    command, stream, *numbers = question
    if stream == "all":
        return BAD_WORDS
    try:
        if command == "stream":
            return answered(opened().bytes_of(stream, *numbers))
        data = opened().bytes_of(stream)
        if command == "name":
            return told(name_of(data, *numbers))
        if command == "ranges":
            moved = ranges_of(data, *numbers)
            return None if moved is None else Outcome(0, moved.encode())
        (index,) = numbers
        if command == "fields":
            lines = fields_told(file, data, index)
            return None if lines is None else Outcome(0, lines)
        item = item_of(data, index)
        if index < FIRST_INDEX and command == "type":
            return told("0x74 0xffff -") if index == 0x74 else None
        return record_told(file, command, index, item)
    except Refused as refusal:
        return refused(str(refusal))


# What is answered, by the format's rules.


def name_of(stream, place):
    """The name at a place of a string table."""
    if len(stream) < 12:
        raise Refused(EOF)
    signature, version, size = struct.unpack_from("<3I", stream)
    if signature != 0xEFFEEFFE:
        raise Refused("Unimplemented PDB feature: invalid string table signature")
    if 12 + size > len(stream):
        raise Refused(EOF)
    if version not in (1, 2):
        raise Refused("Unimplemented PDB feature: unknown string table hash version")
    names = stream[12 : 12 + size]
    end = names.find(b"\0", place)
    if place >= size or end < 0:
        raise Refused(EOF)
    return names[place:end].decode(errors="replace")


def ranges_of(stream, start, end):
    """Where a table moves a range of addresses, or None where its records are in no order."""
    if len(stream) % 8:
        raise Refused("OMAP stream has an invalid length or alignment for its records")
    records = list(struct.iter_unpack("<2I", stream))
    if any(one > next_one for (one, _), (next_one, _) in zip(records, records[1:])):
        return None
    return moved_lines(records, start, end)


# The example file.


class Damaged:
    """The file S1 with a byte set or cut short, by a number."""

    def __init__(self, example, number):
        place, change = divmod(number, 3)
        if place < len(example.data):
            byte = (0, 0xFF, example.data[place] + 1 & 0xFF)[change]
            self.data = example.data[:place] + bytes([byte]) + example.data[place + 1 :]
        else:
            self.data = example.data[: number - 3 * len(example.data)]


class Example:
    """The file S1, of four streams, and how many damages of it there are."""

    name = "S1"
    data = example_with(b"hello")
    count = 4 * len(data)

    @functools.cache
    def wanted(self, question):
        return wanted(self, lambda: Msf(self.data), question)

    def questions(self, data, number):
        """What a damaged copy is asked: for each stream and an absent one; for one of these if it can't be opened."""
        questions = [("stream", stream) for stream in range(5)]
        try:
            Msf(data)
        except Refused:
            return [questions[number % 5]]
        return questions
