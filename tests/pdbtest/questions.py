"""What the programs are asked about a file that is whole, and what they have to answer by what LLVM tells of it."""

import itertools
import random
from dataclasses import dataclass, field
from pathlib import Path

from pdbtest import dumps, llvm
from pdbtest.addresses import OMAP, moved_lines
from pdbtest.asker import Asker, some
from pdbtest.calls import (
    IO_ERROR, NO_NAMES, NO_OMAP, UNRECOGNIZED, Outcome, answered, difference, not_stored, refused, told, unread,
)  # fmt: skip
from pdbtest.msf import ABSENT, IDS, OPENING_SIZE, TYPES, Msf
from pdbtest.report import Tally
from pdbtest.tables import FIRST_INDEX, Leaf

ASKED = 200  # types, ids and names of a file, or all where there are fewer: a run of the program asks for one
RANGES = 40  # ranges of a file
UNREAD = {"LF_LABEL", "LF_VFTABLE"}  # the library reads no record of these kinds


def kind_of(record):
    """What makes a record one of a kind."""
    return record.kind, record.is_continued


def recorded(record):
    """What is told of a type or an id, or why it is refused."""
    if record.kind in UNREAD:
        return unread(Leaf[record.kind])
    return told(f"{record.index:#x} 0x{Leaf[record.kind]:04x} {'-' if record.name is None else record.name}")


@dataclass
class Questions:
    """Asks one program about a file, and checks what comes."""

    tally: Tally
    program: Path
    compared: int = 0
    asked: list = field(default_factory=list)

    def __post_init__(self):
        self.asker = Asker([self.program], is_limited=False)

    def take(self, name, data):
        """Takes the bytes of the file of a name, which is asked about from now on."""
        self.name = name
        self.asker.load(data)

    def ask(self, wanted, *words):
        """A question: the file comes by a pipe where a whole stream is asked for, and else as itself."""
        came = self.asker.ask(self.name, words, is_piped=len(words) == 2)
        asked = " ".join(map(str, words))
        self.asked.append((asked, wanted))
        wrong = difference(wanted, came)
        self.tally.check(not wrong, f"{self.name}: {self.program.name} {asked}: {wrong}")

    def has_streams(self, streams, wanted):
        """Whether a file has streams of these names; each that it lacks is a failure."""
        missing = [name for name in wanted if name not in streams]
        for name in missing:
            self.tally.check(False, f"{self.name} has no stream of the name {name}")
        return not missing

    def ask_bytes(self, stream, number, limit=None):
        """A stream, whole or cut."""
        wanted = stream[:limit]
        self.compared += len(wanted)
        self.ask(answered(wanted), "stream", number, *([] if limit is None else [limit]))

    def ask_all(self, msf, streams, limits):
        """Every stream, with each limit, and numbers of no stream."""
        for number, (size, stream) in enumerate(zip(msf.sizes, streams)):
            if size is not None:
                for limit in limits:
                    self.ask_bytes(stream, number, limit)
        absent = [number for number, size in enumerate(msf.sizes) if size is None]
        for number in [*absent, len(streams), len(streams) + 1, ABSENT]:
            self.ask(not_stored(number), "stream", number)
            self.ask(not_stored(number), "stream", number, 0)

    def ask_cut(self, msf, streams):
        """The file without all that follows some byte of it."""
        name = f"{self.name}, cut"
        for size, wanted in ((0, UNRECOGNIZED), (OPENING_SIZE - 1, UNRECOGNIZED), (OPENING_SIZE, IO_ERROR)):
            self.take(name, msf.data[:size])
            self.ask(wanted, "stream", 1)

        # The last page that is in use goes.
        of_directory = [*msf.location, *msf.directory_pages]
        end = max(itertools.chain(of_directory, *msf.page_lists()))
        self.take(name, msf.data[: end * msf.page_size])
        for number, (pages, stream) in enumerate(zip(msf.page_lists(), streams)):
            if end in of_directory:
                self.ask(IO_ERROR, "stream", number)
            elif end in pages:
                kept = pages.index(end) * msf.page_size
                self.ask(IO_ERROR, "stream", number)
                self.ask(IO_ERROR, "stream", number, kept + 1)
                self.ask_bytes(stream, number, kept)
            elif msf.sizes[number] is not None:
                self.ask_bytes(stream, number)

    def ask_records(self, command, stream, chosen, behind):
        """Types or ids, one by one, and the index behind the last."""
        for record in chosen:
            self.ask(recorded(record), command, stream, hex(record.index))
        self.ask(refused(f"Type {behind} not found"), command, stream, behind)

    def ask_fields(self, lists, types):
        """The fields of lists, one by one, and of a type that is no list."""
        for index, (fields, _) in lists:
            shown = "".join(f"{'-' if name is None else name}\n" for name in fields)
            self.ask(Outcome(0, shown.encode()), "fields", TYPES, hex(index))
        others = [record for record in types if record.kind != "LF_FIELDLIST"]
        for record in others[:1]:
            self.ask(unread(Leaf[record.kind]), "fields", TYPES, hex(record.index))
        self.ask(unread(0xFFFF), "fields", TYPES, "0x74")
        behind = FIRST_INDEX + len(types)
        self.ask(refused(f"Type {behind} not found"), "fields", TYPES, behind)

    def ask_names(self, streams, chosen):
        """Names, one by one, a place behind all of them, and a stream that is no string table."""
        self.ask(NO_NAMES, "name", TYPES, 0)
        if not self.has_streams(streams, ["/names"]):
            return
        for place, name in chosen:
            self.ask(told(name), "name", streams["/names"], place)
        self.ask(refused("UnexpectedEof"), "name", streams["/names"], ABSENT)

    def ask_ranges(self, streams):
        """Where the table that this script made moves ranges, and streams that are no such table."""
        if not self.has_streams(streams, ["omap", *(f"bytes_{size}" for size in (1, 31, 33, 4097))]):
            return
        numbers = random.Random(len(OMAP))
        ends = [sorted(numbers.sample(range(0x9000), 2)) for _ in range(RANGES)]
        for start, end in [(0, 0), (0, 0x9000), *ends]:
            wanted = Outcome(0, moved_lines(OMAP, start, end).encode())
            self.ask(wanted, "ranges", streams["omap"], hex(start), end)
        for size in (1, 31, 33, 4097):
            self.ask(NO_OMAP, "ranges", streams[f"bytes_{size}"], 0, 1)

    def tell(self):
        """Tells of the runs that gave what no run may give."""
        self.tally.add(0, self.asker.failures)


# The checks.


def check_streams(tally, programs, room, file, is_cut=True):
    """Every stream of a file, as it is, and as it is cut where that is wanted."""
    msf = Msf(file.read_bytes())
    # llvm-pdbutil crashes where it is to export an absent stream.
    streams = [b"" if size is None else llvm.export(room, file, number) for number, size in enumerate(msf.sizes)]
    for number, (ours, theirs) in enumerate(zip(msf.streams(), streams)):
        tally.check(ours == theirs, f"{file.name}: LLVM exports other bytes of stream {number} than this script finds")
    compared = 0
    for program in programs:
        questions = Questions(tally, program)
        questions.take(file.name, msf.data)
        questions.ask_all(msf, streams, (None, 0, 1, msf.page_size) if is_cut else (None,))
        if is_cut:
            questions.ask_cut(msf, streams)
        questions.tell()
        compared += questions.compared
    pages = f"{len(streams)} streams, pages of {msf.page_size} bytes"
    print(f"{file.name}: {pages}, {compared} bytes compared", flush=True)


def check_tables(tally, programs, dumpers, file, has_ranges=False, most=ASKED):
    """Types, ids and names as LLVM lists them, so many of each, and ranges as this script moves them."""
    types, ids, table = llvm.records(file, "types"), llvm.records(file, "ids"), llvm.names(file)
    streams = llvm.stream_names(file)
    some_types, some_ids = (some(listed, most, kind_of) for listed in (types, ids))
    some_names = some(table, most)
    lists = list(llvm.field_lists(file).items())
    some_lists = lists if len(lists) <= most else [it for it in lists if it[1][1] > 1] + lists[:most]
    for number, program in enumerate(programs):
        questions = Questions(tally, program)
        questions.take(file.name, file.read_bytes())
        questions.ask_records("type", TYPES, some_types, FIRST_INDEX + len(types))
        questions.ask_records("id", IDS, some_ids, FIRST_INDEX + len(ids))
        questions.ask(told("0x74 0xffff -"), "type", TYPES, "0x74")
        questions.ask_fields(some_lists, types)
        if table or "/names" in streams:
            questions.ask_names(streams, some_names)
        if has_ranges:
            questions.ask_ranges(streams)
        questions.tell()
        if number == 0:
            dumps.check_questions(tally, dumpers, file, questions.asked)
            dumps.check_map(tally, dumpers, file, streams)
            dumps.check_several(tally, dumpers, file)
    few, all_of = [some_types, some_ids, some_names, some_lists], [types, ids, table, lists]
    counts = zip(few, all_of, ("types", "ids", "names", "field lists"))
    told_of = ", ".join(f"{len(asked)} of {len(whole)} {what}" for asked, whole, what in counts)
    print(f"{file.name}: {told_of} compared", flush=True)
