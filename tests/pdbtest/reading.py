"""The reader of whole files: from the format's rules, what is wrong in each part of a file."""

import functools
import struct
from typing import NamedTuple

from pdbtest import records
from pdbtest.msf import DEBUG, EOF, IDS, INFORMATION, PAST_END, TYPES, Msf, Refused, word
from pdbtest.relations import Relations, named_in, told
from pdbtest.roles import NO_STREAM, role_numbers
from pdbtest.tables import Leaf, item_places, kind_at, table_of


OUT_OF_ORDER = "the records are out of order"
CONTINUATION = "a list that is continued by no list below it"

# What the text of an error begins with, and the end of its code.
ENDS = {
    EOF: "-CUT",
    PAST_END: "-CUT",
    "MSF referred to page number": "-PAGE-RANGE",
    "The MSF header specifies an invalid page size": "-PAGE-SIZE",
    "The requested stream": "-MISSING",
}


class Fault(NamedTuple):
    """What is wrong in a part of a file, and where."""

    part: str
    code: str
    stream: int | None = None
    index: int | None = None
    byte: int | None = None
    file_byte: int | None = None


def code_of(part, index, why):
    """The code of what is wrong, which says what its text says."""
    if why == OUT_OF_ORDER:
        return "OUT-OF-ORDER"
    if part == "SIZES":
        return why
    end = next((end for front, end in ENDS.items() if why.startswith(front)), "")
    return part + ("" if index is None else "-RECORD") + end


def names_number(stream):
    """The number of the first stream that stream 1 names /names, None if there is none."""
    found = [number for name, number in named_in(stream) if name == b"/names"]
    return found[0] if found and found[0] < NO_STREAM else None


def read_string_table(stream):
    """A string table, whose names all end."""
    if len(stream) < 12:
        raise Refused(EOF)
    signature, version, size = struct.unpack_from("<3I", stream)
    names = stream[12 : 12 + size]
    if signature != 0xEFFEEFFE:
        raise Refused("no string table")
    if len(names) < size:
        raise Refused(EOF)
    if version not in (1, 2):
        raise Refused("a string table of another version")
    if size and names[-1]:
        raise Refused(EOF)


def read_sections(stream):
    """Section headers, of 40 bytes each."""
    if len(stream) % 40:
        raise Refused(EOF)


def read_omap(stream):
    """An OMAP table, whose records are in order."""
    if len(stream) % 8:
        raise Refused("OMAP stream has an invalid length or alignment for its records")
    sources = [source for source, _ in struct.iter_unpack("<2I", stream)]
    if sources != sorted(sources):
        raise Refused(OUT_OF_ORDER)


def read_frames(stream, size):
    """Frames of a size each, whose addresses increase."""
    if len(stream) % size:
        raise Refused("a stream with an invalid length")
    starts = [int.from_bytes(stream[at : at + 4], "little") for at in range(0, len(stream), size)]
    if any(one >= next_one for one, next_one in zip(starts, starts[1:])):
        raise Refused(OUT_OF_ORDER)


def items(stream, begin, minimum, maximum):
    """The index, the place and the bytes of each record; in the end why there is none where there has to be one."""
    index, place = minimum, begin
    try:
        for start, end in item_places(stream, begin):
            yield index, place, stream[start:end]
            index, place = index + 1, end
    except Refused as refusal:
        yield index, place, str(refusal)
        return
    if index < maximum:
        yield index, place, EOF


# The parts that streams in roles are, and how each is read.
IN_ROLES = {
    "SECTION-HEADERS": ("section_headers", read_sections),
    "ORIGINAL-SECTION-HEADERS": ("original_section_headers", read_sections),
    "OMAP-TO-SOURCE": ("omap_to_src", read_omap),
    "OMAP-FROM-SOURCE": ("omap_from_src", read_omap),
    "OLD-FRAMES": ("fpo", functools.partial(read_frames, size=16)),
    "NEW-FRAMES": ("framedata", functools.partial(read_frames, size=32)),
}
PARTS = ["HEADER", "DIRECTORY", "SIZES", "STREAM", "NAMES", "STRING-TABLE", "ROLES", "TYPES", "IDS", *IN_ROLES]


class Reading:
    """What is wrong in a file: of each part the first fault, or every one."""

    def __init__(self, data, is_every=False):
        self.is_every = is_every
        self.faults = []
        self.streams = {}  # the bytes of each stream that can be read, None where they can't be
        if self.open(data):
            self.read_streams()
            self.read_names()
            numbers = self.read_roles()
            self.read_types()
            self.read_ids()
            for part, (role, read) in IN_ROLES.items():
                if role in numbers:
                    self.read_part(part, numbers[role], read)
            for found in Relations(self, data).groups:
                for part, code, stream, index, byte in told(found, is_every):
                    self.faults.append(Fault(part, code, stream, index, byte, self.file_byte(stream, byte)))

    def file_byte(self, stream, byte):
        """Where in the file a byte of a stream is, None if there is no such byte."""
        if byte is None:
            return None
        pages, size = self.msf.stream(stream)
        if byte >= size:
            return None
        return pages[byte // self.msf.page_size] * self.msf.page_size + byte % self.msf.page_size

    def add(self, part, why, stream=None, index=None, byte=None):
        """Adds what is wrong in a part. Returns whether no more of it is told."""
        code = code_of(part, index, why)
        self.faults.append(Fault(part, code, stream, index, byte, self.file_byte(stream, byte)))
        return not self.is_every

    def open(self, data):
        """Whether a file can be opened, and says no sizes that are larger than it."""
        try:
            self.msf = Msf(data)
        except Refused as refusal:
            self.add("HEADER", str(refusal))
            return False
        if self.msf.directory_size > len(data):
            self.add("SIZES", "DIRECTORY-TOO-LARGE")
            return False
        try:
            directory = self.msf.directory
        except Refused as refusal:
            self.add("DIRECTORY", str(refusal))
            return False
        self.sizes = self.msf.sizes if len(directory) >= 4 else []
        self.count = min(self.msf.count, NO_STREAM) if len(directory) >= 4 else NO_STREAM
        sized = zip(self.sizes[: self.count], self.msf.starts if self.sizes else [])
        if sum(size or 0 for size, start in sized if start <= len(directory)) > len(data):
            self.add("SIZES", "STREAMS-TOO-LARGE")
            return False
        return True

    def read_streams(self):
        """The streams, and which can't be read."""
        is_done = False
        for number in range(self.count):
            if number < len(self.sizes) and self.sizes[number] is None:
                continue
            try:
                self.streams[number] = self.msf.bytes_of(number)
            except Refused as refusal:
                self.streams[number] = None
                is_done = is_done or self.add("STREAM", str(refusal), number)

    def read_part(self, part, number, read):
        """What is read of a stream, or None where it can't be read or is refused. It is a fault if it is absent."""
        if number not in self.streams:
            self.add(part, "The requested stream is missing", number)
        elif self.streams[number] is not None:
            try:
                return read(self.streams[number])
            except Refused as refusal:
                self.add(part, str(refusal), number)
        return None

    def read_names(self):
        """The names of streams, and the string table that they name."""
        number = self.read_part("NAMES", INFORMATION, names_number)
        if number is not None:
            self.read_part("STRING-TABLE", number, read_string_table)

    def read_roles(self):
        """The number of the stream in each role, none where there is no stream 3."""
        return DEBUG in self.streams and self.read_part("ROLES", DEBUG, role_numbers) or {}

    def read_types(self):
        """The types, and which are refused."""
        table = TYPES in self.streams and self.read_part("TYPES", TYPES, table_of)
        if not table:
            return
        _, minimum, maximum = table
        kinds = []
        for index, byte, record in items(self.streams[TYPES], *table):
            why = record
            if isinstance(record, bytes):
                kinds.append(kind_at(record, 0))
                why, continuation = records.type_fault(record)
                if continuation is not None:
                    is_below = minimum <= continuation < min(index, maximum)
                    is_list = is_below and kinds[continuation - minimum] == Leaf.LF_FIELDLIST
                    why = None if is_list else CONTINUATION
            if why is not None and self.add("TYPES", why, TYPES, index, byte):
                return

    def read_ids(self):
        """The ids, and which are refused."""
        table = IDS in self.streams and self.read_part("IDS", IDS, table_of)
        if not table:
            return
        for index, byte, record in items(self.streams[IDS], *table):
            why = records.id_fault(record) if isinstance(record, bytes) else record
            if why is not None and self.add("IDS", why, IDS, index, byte):
                return
