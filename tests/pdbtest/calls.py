"""What a run of a program gives, or has to give; and calls of programs with words, as a shell makes them."""

import json
import subprocess
from dataclasses import dataclass

from pdbtest.msf import pieces
from pdbtest.report import Trouble
from pdbtest.tools import SECONDS


@dataclass(frozen=True)
class Outcome:
    """What a run gives, or has to give. Where a wanted line of standard error has no line feed, it may go on."""

    status: int
    out: bytes = b""
    err: bytes = b""


def told(text):
    """An answer of one line."""
    return Outcome(0, text.encode() + b"\n")


def refused(text):
    """A refusal, whose text is the one line on standard error."""
    return Outcome(1, b"", text.encode() + b"\n")


def answered(stream):
    """The bytes of a stream, 32 on a line."""
    return Outcome(0, "".join(piece.hex() + "\n" for piece in pieces(stream, 32)).encode())


def unread(kind):
    """The refusal of a record of a kind."""
    return refused(f"Support for types of kind 0x{kind:04x} is not implemented")


def not_stored(number):
    """The refusal of a stream by its number."""
    return refused(f"The requested stream ({number}) is not stored in this file")


def about(name, refusal):
    """A refusal as pdbdump writes it, which names the file."""
    return Outcome(refusal.status, refusal.out, f"pdbdump: {name}: ".encode() + refusal.err)


def line_of(name, code, text, is_json):
    """The line with which pdbdump tells of an error of a file."""
    told = json.dumps({"file": str(name), "error": {"code": code, "text": text}}, separators=(",", ":"))
    return f"{told if is_json else f'pdbdump: {name}: {text}'}\n".encode()


# What pdbdump says of the errors that pdbq tells by their names.
SENTENCES = {
    "UnexpectedEof": "data ends in the middle of a record or a table",
    "TypeTooShort": "the length of a record leaves no room for its kind",
    "StreamNameNotFound": "no stream has the name or the role that is looked for",
}
NOT_ALL = b"not all records that are listed can be read"
UNRECOGNIZED = refused("UnrecognizedFileFormat")
NO_OMAP = refused("OMAP stream has an invalid length or alignment for its records")
NO_NAMES = refused("Unimplemented PDB feature: invalid string table signature")
OUT_OF_MEMORY = refused("OutOfMemory")
IO_ERROR = Outcome(1, b"", b"IO error while reading PDB: ")
USAGE = b"usage: pdbq stream N [LIMIT] | type S I | id S I | name S O | ranges S A B | fields S I\n"
BAD_WORDS = Outcome(2, b"", USAGE)


def difference(wanted, came):
    """What is wrong with an outcome, as one line, or None."""
    said = repr(came.err.decode(errors="replace"))[:300]
    if came.status != wanted.status:
        return f"status {came.status} and not {wanted.status}; standard error {said}"
    if came.out != wanted.out:
        at = next((i for i, (a, b) in enumerate(zip(came.out, wanted.out)) if a != b), None)
        where = f"first wrong at byte {at + 1}" if at is not None else "one goes on where the other ends"
        return f"{len(came.out)} bytes on standard output and not {len(wanted.out)}: {where}"
    is_whole = not wanted.err or wanted.err.endswith(b"\n")
    line, feed, rest = came.err.partition(b"\n")
    if came.err != wanted.err and (is_whole or rest or not feed or not line.startswith(wanted.err)):
        return f"standard error {said} and not {wanted.err.decode()!r}{'' if is_whole else ' and more'}"
    return None


# Calls.


def call(program, words, given=None, seconds=SECONDS, **channels):
    """What a program gives that is called with words, and with bytes on its standard input, or nothing there."""
    how = {"stdout": subprocess.PIPE, "stderr": subprocess.PIPE, "timeout": seconds}
    how |= {"stdin": subprocess.DEVNULL} if given is None else {"input": given}
    command = [word if isinstance(word, bytes) else str(word) for word in (program, *words)]
    try:
        ran = subprocess.run(command, **{**how, **channels})
    except (OSError, subprocess.TimeoutExpired) as error:
        raise Trouble(f"{program} failed, and no more is asked: {error}") from error
    return Outcome(ran.returncode, ran.stdout or b"", ran.stderr)


def check_call(tally, program, words, wanted, given=None):
    """That a call gives what is wanted."""
    wrong = difference(wanted, call(program, words, given))
    tally.check(not wrong, f"{program.name} {' '.join(map(str, words))}: {wrong}")


def check_misused(tally, dumper, words):
    """That pdbdump refuses arguments as programs in Rust do."""
    came = call(dumper, words)
    is_text = came.err.startswith(b"error: ") and came.err.endswith(b"\n\nFor more information, try '--help'.\n")
    is_told = came.status == 2 and not came.out and is_text
    tally.check(is_told, f"{dumper.name} {words}: status {came.status}, {came.out[:80]!r}, {came.err[:80]!r}")


def objects_of(tally, dumper, words):
    """The objects that pdbdump writes as lines of JSON, none where a line is something else. The status has to be 1 if one
    of them says that a record can't be read, and a list of types or ids has to report that."""
    came = call(dumper, words)
    what = f"{dumper.name} {' '.join(map(str, words))}"
    try:
        found = [json.loads(line) for line in came.out.splitlines()]
    except ValueError as error:
        tally.check(False, f"{what} shows a line that is no JSON: {error}")
        return []
    wanted = 1 if any("error" in one for one in found) else 0
    is_list = wanted == 1 and words[0] in ("types", "ids")
    is_told = NOT_ALL in came.err if is_list else not came.err
    tally.check(came.status == wanted and is_told, f"{what}: status {came.status}, {came.err[:300]!r}")
    return found
