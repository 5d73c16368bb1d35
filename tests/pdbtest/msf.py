"""MSF files: a reader, which says by the format's rules what streams a file has or why it is refused; and a writer."""

import functools
import itertools
import random
import struct

from pdbtest.report import Trouble

MAGIC = b"Microsoft C/C++ MSF 7.00\r\n\x1aDS\0\0\0"
SMALL_MAGIC = b"Microsoft C/C++ program database 2.00\r\n\x1aJG"
OPENING_SIZE = 4096  # a file with fewer bytes is no database
ABSENT = 0xFFFFFFFF  # the size of a stream that is absent
INFORMATION, TYPES, DEBUG, IDS = 1, 2, 3, 4  # the streams that have fixed numbers

EOF = "UnexpectedEof"
PAST_END = "IO error while reading PDB: unexpected end of file"


# Reading.


class Refused(Trouble):
    """Why there is no answer, as the program tells it."""


def word(data, place):
    """The number of four bytes at a place."""
    if place + 4 > len(data):
        raise Refused(EOF)
    return int.from_bytes(data[place : place + 4], "little")


class Msf:
    """The streams of a file. What is wrong is refused where it is read, and not before."""

    def __init__(self, data):
        if len(data) < OPENING_SIZE:
            raise Refused("UnrecognizedFileFormat")
        if data.startswith(SMALL_MAGIC):
            raise Refused("Unimplemented PDB feature: small MSF file format")
        if not data.startswith(MAGIC):
            raise Refused("UnrecognizedFileFormat")
        self.data = data
        self.page_size, _, self.pages_used, self.directory_size = struct.unpack_from("<4I", data, len(MAGIC))
        if self.page_size not in (1 << n for n in range(8, 24)):
            raise Refused(f"The MSF header specifies an invalid page size ({self.page_size} bytes)")
        self.directory_count = self.pages(self.directory_size)
        # the pages that list those of the directory
        self.location = self.numbers(data[:OPENING_SIZE], 52, self.pages(4 * self.directory_count))

    def pages(self, size):
        """How many pages hold so many bytes."""
        return -(-size // self.page_size)

    def numbers(self, data, place, count):
        """So many page numbers from a place on, each judged before the next is read."""
        numbers = []
        for at in itertools.islice(itertools.count(place, 4), count):
            number = word(data, at)
            if not 0 < number <= self.pages_used:
                raise Refused(f"MSF referred to page number ({number}) out of range")
            numbers.append(number)
        return numbers

    def gather(self, pages, size):
        """So many bytes of these pages."""
        parts = []
        for number, page in enumerate(pages):
            start = page * self.page_size
            end = start + min(self.page_size, size - number * self.page_size)
            if end > len(self.data):
                raise Refused(PAST_END)
            parts.append(self.data[start:end])
        return b"".join(parts)

    @functools.cached_property
    def directory_pages(self):
        """The pages of the directory."""
        return self.numbers(self.gather(self.location, 4 * self.directory_count), 0, self.directory_count)

    @functools.cached_property
    def directory(self):
        """The bytes of the directory."""
        return self.gather(self.directory_pages, self.directory_size)

    @functools.cached_property
    def count(self):
        """How many streams the directory says that there are."""
        return word(self.directory, 0)

    @functools.cached_property
    def sizes(self):
        """The size of each stream, None where it is absent; fewer where the directory ends before."""
        known = min(self.count, len(self.directory) // 4 - 1)
        return [None if size == ABSENT else size for size in struct.unpack_from(f"<{known}I", self.directory, 4)]

    @functools.cached_property
    def starts(self):
        """Where in the directory the page numbers of each stream begin."""
        taken = (4 * self.pages(size or 0) for size in self.sizes)
        return list(itertools.accumulate(taken, initial=4 + 4 * self.count))

    def stream(self, number):
        """The pages of a stream, and its size."""
        if number >= self.count or number < len(self.sizes) and self.sizes[number] is None:
            raise Refused(f"The requested stream ({number}) is not stored in this file")
        if number >= len(self.sizes) or self.starts[number] > len(self.directory):
            raise Refused(EOF)
        size = self.sizes[number]
        return self.numbers(self.directory, self.starts[number], self.pages(size)), size

    def bytes_of(self, number, limit=None):
        """The bytes of a stream, at most so many."""
        pages, size = self.stream(number)
        size = size if limit is None else min(size, limit)
        return self.gather(pages[: self.pages(size)], size)

    def page_lists(self):
        """The pages of each stream, none of one that is absent."""
        return [[] if size is None else self.stream(number)[0] for number, size in enumerate(self.sizes)]

    def streams(self):
        """The bytes of each stream, none of one that is absent."""
        return [b"" if size is None else self.bytes_of(number) for number, size in enumerate(self.sizes)]


def streams_of(file):
    """The bytes of each stream of the file at a path, none of one that is absent."""
    return Msf(file.read_bytes()).streams()


# Writing.


def words_of(numbers):
    """Numbers of four bytes each."""
    return struct.pack(f"<{len(numbers)}I", *numbers)


def pieces(data, size):
    """What is cut into pieces of a size; the last may be shorter."""
    return [data[at : at + size] for at in range(0, len(data), size)]


def with_bytes(data, offset, new):
    """These bytes, with others at an offset."""
    return data[:offset] + new + data[offset + len(new) :]


def with_stream(streams, number, stream):
    """These streams, with another in the place of one."""
    return [*streams[:number], stream, *streams[number + 1 :]]


def example_with(stream):
    """The file S1, as the worked rows describe it, with these bytes as stream 3."""
    header = MAGIC + words_of([512, 1, 8, 32, 0, 3])
    directory = words_of([4, 0, 600, ABSENT, len(stream), 6, 5, 7])
    pages = [header, b"", directory, words_of([2]), b"", b"b" * 512, b"a" * 512, stream]
    return b"".join(page.ljust(512, b"\0") for page in pages)


def scatter(streams, page_size, in_order=False):
    """A file of these streams, None where one is absent, over pages in no order or in order, a stream's page last."""
    cut = [pieces(stream or b"", page_size) for stream in streams]
    count = sum(map(len, cut))
    directory_size = 4 * (1 + len(streams) + count)
    directory_count = -(-directory_size // page_size)
    # The second and the third of every page_size pages tell which pages are free: none is.
    usable = (n for n in itertools.count(3) if n % page_size not in (1, 2))
    block_map, *of_directory = itertools.islice(usable, 1 + directory_count)
    of_streams = list(itertools.islice(usable, count))
    page_count = of_streams[-1] + 1
    if not in_order:
        random.Random(count).shuffle(of_streams)

    sizes = [ABSENT if stream is None else len(stream) for stream in streams]
    directory = words_of([len(streams), *sizes, *of_streams])
    pages = dict(zip(of_streams, itertools.chain(*cut)))
    pages.update(zip(of_directory, pieces(directory, page_size)))
    pages[block_map] = words_of(of_directory)
    pages[0] = MAGIC + words_of([page_size, 1, page_count, len(directory), 0, block_map])
    return b"".join(pages.get(n, b"").ljust(page_size, b"\0") for n in range(page_count))


def write_scattered(file, streams, page_size, in_order=False):
    """Writes a file of these streams, as `scatter` makes it, and returns its path."""
    file.write_bytes(scatter(streams, page_size, in_order))
    return file


def write_apart(file, streams, page_size, page_count):
    """Writes a sparse file of so many pages, over which these streams lie far apart, None where one is absent. The pages
    of each are neighbors. Returns its path."""
    parts = [pieces(stream or b"", page_size) for stream in streams]
    sizes = [ABSENT if stream is None else len(stream) for stream in streams]
    directory_size = 4 * (1 + len(streams) + sum(map(len, parts)))
    apart = page_count // (3 + len(parts))
    starts = [apart * (2 + number) for number in range(len(parts))]
    numbers = [start + n for start, part in zip(starts, parts) for n in range(len(part))]
    directory = pieces(words_of([len(streams), *sizes, *numbers]), page_size)
    placed = {
        0: [MAGIC + words_of([page_size, 1, page_count, directory_size, 0, apart])],
        apart: [words_of([apart + 1 + n for n in range(len(directory))])],
        apart + 1: directory,
        **dict(zip(starts, parts)),
    }
    with open(file, "wb") as out:
        out.truncate(page_count * page_size)
        for start, part in placed.items():
            out.seek(start * page_size)
            out.write(b"".join(piece.ljust(page_size, b"\0") for piece in part))
    return file
