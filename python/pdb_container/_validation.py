"""Whether a program database is whole."""

from ctypes import byref, c_size_t
from dataclasses import dataclass
from typing import List, Optional

from . import _sys
from ._library import OK, TOO_SMALL, Buffer, Lent, PdbError, library
from ._sys import Fault, Inconsistency, Part

USUAL = 64  # findings for which there is room at once


@dataclass(frozen=True)
class Finding:
    """What is wrong in a part of a file, and where."""

    part: Part
    stream: Optional[int]  # the number of the stream in which the fault is
    index: Optional[int]  # the index of the record at which the fault is
    byte: Optional[int]  # the byte of the stream: of a record, that at which its length begins
    file_byte: Optional[int]  # that byte's place in the file
    is_warning: bool  # whether files of known tools have it too, which are whole
    inconsistency: Optional[Inconsistency]  # what is inconsistent, if the part can be read
    number: int  # the number that goes with it, or 0
    error: Optional[PdbError]  # why the part can't be read, if it can't

    def __str__(self) -> str:
        at = "" if self.index is None else f" at {self.index:#x}"
        if self.inconsistency is None:
            return f"{self.part.name.lower()}{at}: {self.error}"
        what = self.inconsistency.name.lower().replace("_", " ")
        return f"{self.part.name.lower()}{at}: {what}" + (f" ({self.number})" if self.number else "")


def _finding(it: _sys.Finding) -> Finding:
    stream = it.stream if it.has_stream else None
    what = Inconsistency(it.inconsistency) if it.inconsistency else None
    return Finding(
        Part(it.part),
        stream,
        it.index if it.has_index else None,
        it.byte if it.has_byte else None,
        it.file_byte if it.has_file_byte else None,
        bool(it.is_warning),
        what,
        it.number,
        None if what else PdbError(it.fault, stream),
    )


def validate(data: Buffer, every: bool = False) -> List[Finding]:
    """What is wrong in the bytes of a file: the first error of each part, or its first warning if it has no error; with
    `every`, everything. The file is whole exactly if all of it are warnings: its types, ids, names, sections, addresses
    and frames; modules and symbols are not read, only their sizes are checked."""
    lent, count, status = Lent(data), c_size_t(USUAL), TOO_SMALL
    with lent as place:
        lent.release()
        while status == TOO_SMALL:
            findings = (_sys.Finding * count.value)()
            status = library().pdb_validate(*place, bool(every), findings, len(findings), byref(count))
    if status != OK:
        raise PdbError(Fault(status))
    return [_finding(it) for it in findings[: count.value]]
