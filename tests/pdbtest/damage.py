"""Damage to files, by the numbers of a seed."""

import random
import struct

from pdbtest.msf import ABSENT, DEBUG, IDS, INFORMATION, OPENING_SIZE, SMALL_MAGIC, TYPES, Msf
from pdbtest.roles import role_numbers
from pdbtest.tables import FIRST_INDEX, Leaf, kind_at

# Where the size stands in records that have one.
SIZES = {Leaf.LF_ARRAY: 10, Leaf.LF_CLASS: 18, Leaf.LF_STRUCTURE: 18, Leaf.LF_UNION: 10}

# The numbers that bytes and words are set to, beside others.
BYTES = [0, 0xFF]
SHORTS = [0, 1, 0x7FFF, 0x8000, 0x8005, 0x800A, 0xFFFF]
WORDS = [0, 1, 0x7FFFFFFF, 0xFFFFFFFF]


class Damage:
    """One way to damage a file, drawn by a number, and the questions that it makes one curious about."""

    def __init__(self, file, draw):
        self.file = file
        self.draw = draw
        self.data = bytearray(file.data)
        self.curious = []
        aims = [self.header, self.sizes, self.page_numbers, self.table_header, self.length, self.anywhere] * 2
        aims += [self.record] * 5 + [self.number] * 3 + [self.long_array, self.long_chain, self.names, self.moved]
        aims += [self.location, self.zeroed, self.swapped, self.cut, self.other_magic]
        drawn = draw.choices(aims, k=draw.choice([1, 1, 1, 2, 4]))
        # The other damage is aimed at places of the whole file.
        for damage in sorted(drawn, key=lambda it: it == self.cut):
            damage()

    def set(self, places, widths=(1, 1, 2, 4, 4)):
        """Sets some bytes that lie at places of the file one behind the other."""
        width = self.draw.choice(widths)
        if width == 1:
            place = places[0]
            numbers = [*BYTES, self.data[place] + 1 & 0xFF, self.draw.randrange(0x100)]
        else:
            numbers = [*(SHORTS if width == 2 else WORDS), self.draw.randrange(1 << 8 * width)]
        number = self.draw.choice(numbers)
        for place, byte in zip(places, number.to_bytes(width, "little")):
            self.data[place] = byte

    def set_at(self, place):
        """Sets some bytes at a place of the file."""
        self.set(range(place, min(place + 4, len(self.data))))

    def places(self, stream, at, count):
        """Where bytes of a stream lie in the file."""
        return [self.file.place(stream, n) for n in range(at, min(at + count, len(self.file.streams[stream])))]

    def set_in(self, stream, at, *widths):
        """Sets some bytes of a stream."""
        self.set(self.places(stream, at, 4), *widths)

    def write(self, stream, at, written):
        """Writes bytes into a stream."""
        for place, byte in zip(self.places(stream, at, len(written)), written):
            self.data[place] = byte

    def header(self):
        """Sets bytes of the file's header."""
        self.set_at(self.draw.choice([*range(32, 56, 4), self.draw.randrange(56)]))

    def location(self):
        """Sets a number of a page of the directory."""
        page = self.draw.choice(self.file.msf.location)
        self.set_at(page * self.file.msf.page_size + 4 * self.draw.randrange(self.file.msf.directory_count))

    def directory(self, start, end):
        """Sets a word of the directory, which lies on the pages that the location lists."""
        container = self.file.msf
        page, rest = divmod(self.draw.randrange(start, end, 4), container.page_size)
        self.set_at(container.directory_pages[page] * container.page_size + rest)

    def sizes(self):
        """Sets the number of streams, or the size of one."""
        self.directory(0, 4 + 4 * len(self.file.streams))

    def page_numbers(self):
        """Sets a number of a page of a stream."""
        self.directory(4 + 4 * len(self.file.streams), self.file.msf.directory_size)

    def table_header(self):
        """Sets bytes of the header of a table."""
        stream = self.draw.choice([TYPES, IDS, *(it for it in (self.file.names,) if it is not None)])
        at = self.draw.choice([0, 4, 8, 12, self.draw.randrange(56)])
        self.set_in(stream, at if at < len(self.file.streams[stream]) else 0)
        self.curious += [question for question in self.draw.sample(self.file.questions, 20) if question[1] == stream]

    def item(self, drawn):
        """Draws one of these items: the stream, and where its bytes begin and end. A question asks for it, or for a
        later one."""
        stream, number = self.draw.choice(drawn)
        items = self.file.items[stream]
        asked = self.draw.choice([number, number, self.draw.randrange(number, len(items))])
        self.curious.append((self.file.tables[stream], stream, FIRST_INDEX + asked))
        if stream == TYPES:
            self.curious.append(("fields", stream, FIRST_INDEX + asked))
        return stream, *items[number]

    def length(self):
        """Sets the length of an item."""
        stream, start, _ = self.item(self.file.all_items)
        self.set_in(stream, start - 2)

    def record(self):
        """Sets bytes of an item, its first ones mostly."""
        stream, start, end = self.item(self.file.all_items)
        front = range(start, min(end, start + 26), 2)
        self.set_in(stream, self.draw.choice([*front, self.draw.randrange(start, end)]))

    def number(self):
        """Sets the prefix of a size."""
        if self.file.numbered:
            stream, start, _ = self.item(self.file.numbered)
            self.set_in(stream, start + SIZES[kind_at(self.file.streams[stream], start)], [2])

    def long_array(self):
        """Gives an array a size of eight bytes, which reach into the items behind it."""
        if self.file.arrays:
            stream, start, end = self.item(self.file.arrays)
            self.write(stream, start - 2, (end - start + 16).to_bytes(2, "little"))
            self.write(stream, start + SIZES[Leaf.LF_ARRAY], b"\x0a\x80")

    def long_chain(self):
        """Lets a list of fields go on elsewhere."""
        if self.file.continued:
            stream, number = self.draw.choice(self.file.continued)
            start, end = self.file.items[stream][number]
            below = FIRST_INDEX + self.draw.randrange(number)
            index = self.draw.choice([FIRST_INDEX + number, FIRST_INDEX, FIRST_INDEX - 1, ABSENT, below])
            self.write(stream, end - 4, index.to_bytes(4, "little"))
            self.curious.append(("fields", stream, FIRST_INDEX + number))

    def names(self):
        """Sets bytes of the string table."""
        if self.file.names is not None:
            at = self.draw.randrange(len(self.file.streams[self.file.names]))
            self.set_in(self.file.names, at)
            self.curious.append(("name", self.file.names, max(at - 12, 0)))

    def moved(self):
        """Sets bytes of the table of moved addresses."""
        if self.file.omap is not None:
            at = self.draw.randrange(0, len(self.file.streams[self.file.omap]), 4)
            self.set_in(self.file.omap, at)
            self.curious.append(("ranges", self.file.omap, 0, self.draw.choice([0x9000, ABSENT])))

    def anywhere(self):
        """Sets bytes anywhere."""
        self.set_at(self.draw.randrange(len(self.data)))

    def block(self):
        """Draws a page of the file."""
        size = self.file.msf.page_size
        at = self.draw.randrange(len(self.data) // size) * size
        return slice(at, at + size)

    def zeroed(self):
        """Sets a page to zeros."""
        block = self.block()
        self.data[block] = bytes(len(self.data[block]))

    def swapped(self):
        """Swaps two pages."""
        one, other = self.block(), self.block()
        self.data[one], self.data[other] = self.data[other], self.data[one]

    def cut(self):
        """Cuts the end off."""
        size = self.file.msf.page_size
        length = self.draw.randrange(len(self.data) + 1)
        del self.data[self.draw.choice([length, length // size * size, length % OPENING_SIZE]) :]

    def other_magic(self):
        """Begins the file as the older format does, now and then."""
        if not self.draw.randrange(4):
            self.data[: len(SMALL_MAGIC)] = SMALL_MAGIC


def with_some_bytes(data, seed):
    """These bytes with one, four or forty of them set, and sometimes cut short."""
    rng, copy = random.Random(seed), bytearray(data)
    for _ in range(rng.choice([1, 4, 40])):
        copy[rng.randrange(len(copy))] = rng.choice([0, 1, 0x80, 0xFF, rng.randrange(256)])
    return bytes(copy[: rng.choice([len(copy)] * 5 + [rng.randrange(len(copy))])])


def regions(file):
    """Where in a file what is read stands: pairs of an offset and a size."""
    msf = Msf(file)
    pages, lists = [*msf.location, *msf.directory_pages], msf.page_lists()
    debug = msf.bytes_of(DEBUG)
    symbols = {kind_at(debug, at) for at in (12, 16, 20)}
    for number in {INFORMATION, TYPES, DEBUG, IDS, *symbols, *role_numbers(debug).values()}:
        pages += lists[number]
    return [(0, 60), *((page * msf.page_size, msf.page_size) for page in pages)]


def with_damage(numbers, file, places):
    """A file with one to three damages."""
    data = bytearray(file)
    for _ in range(numbers.choice([1, 1, 1, 2, 3])):
        start, size = numbers.choice(places) if numbers.random() < 0.9 else (0, len(data))
        if numbers.random() < 0.5:
            size = min(size, 128)
        at = min(start + numbers.randrange(size), len(data) - 1)
        how = numbers.randrange(8)
        if how < 3:
            data[at] = numbers.randrange(256)
        elif how < 5:
            data[at] ^= 1 << numbers.randrange(8)
        elif how < 7:
            drawn = [numbers.randrange(1 << 32), numbers.randrange(1 << 16)]
            new = numbers.choice([0, 1, 2, 0xFFFF, 0xFFFFFFFF, 0x1000, 0x80000000, *drawn])
            at &= ~3
            data[at : at + 4] = struct.pack("<I", new)[: len(data) - at]
        elif numbers.random() < 0.1:
            del data[numbers.randrange(len(data)) :]
            data += b"\0" * (not data)
    return bytes(data)
