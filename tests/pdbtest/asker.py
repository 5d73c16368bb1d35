"""Asks the program pdbq about files, within limits of time, memory and stack."""

import contextlib
import os
import random
import re
import resource
import signal

from pdbtest.calls import BAD_WORDS, Outcome, difference
from pdbtest.report import Trouble

SECONDS = 2  # of a processor's time for one run, and ten times as many by the clock
MEMORY = 64 << 20  # bytes of addresses that a run may have, and so many times the file's size
MULTIPLE = 6
STACK = 128 << 10  # bytes of stack that a run may take

INVALID_HEADER = "The type information header was invalid: "
NOT_BELOW = "Unimplemented PDB feature: field list continuation not below its list"

# What the program may tell of a file: the library's refusals, and how each is told.
REFUSALS = {
    "UnrecognizedFileFormat": "UnrecognizedFileFormat",
    "UnimplementedFeature, the small format": "Unimplemented PDB feature: small MSF file format",
    "InvalidPageSize": r"The MSF header specifies an invalid page size \(\d+ bytes\)",
    "PageReferenceOutOfRange": r"MSF referred to page number \(\d+\) out of range",
    "StreamNotFound": r"The requested stream \(\d+\) is not stored in this file",
    "IoError at the file's end": "IO error while reading PDB: unexpected end of file",
    "UnexpectedEof": "UnexpectedEof",
    "InvalidTypeInformationHeader, small": INVALID_HEADER + "header size is impossibly small",
    "InvalidTypeInformationHeader, large": INVALID_HEADER + "header size is unreasonably large",
    "InvalidTypeInformationHeader, minimum": INVALID_HEADER + "minimum type index is < 4096",
    "InvalidTypeInformationHeader, maximum": INVALID_HEADER + "maximum type index is < minimum type index",
    "TypeTooShort": "TypeTooShort",
    "TypeNotFound": r"Type \d+ not found",
    "UnimplementedTypeKind": "Support for types of kind 0x[0-9a-f]{4} is not implemented",
    "UnexpectedNumericPrefix": r"Variable-length numeric parsing encountered an unexpected prefix \(0x[0-9a-f]{4}\)",
    "UnimplementedFeature, an array's size": "Unimplemented PDB feature: u64 array sizes",
    "UnimplementedFeature, a string table's signature": "Unimplemented PDB feature: invalid string table signature",
    "UnimplementedFeature, a string table's version": "Unimplemented PDB feature: unknown string table hash version",
    "UnimplementedFeature, a list that goes on above itself": NOT_BELOW,
    "InvalidStreamLength of OMAP": "OMAP stream has an invalid length or alignment for its records",
}


def some(things, most, kind=None):
    """The things to be asked for, about so many: the first and the last, one of each kind, and others."""
    one_of_each = {kind(thing): thing for thing in things}.values() if kind else []
    others = random.Random(len(things)).sample(things, min(most, len(things)))
    return sorted({*things[:1], *things[-1:], *one_of_each, *others})


def refusal_of(outcome):
    """The name of a refusal, None where there is none or an unknown one."""
    line = outcome.err.decode(errors="replace")
    matching = (name for name, text in REFUSALS.items() if re.fullmatch(text + "\n", line))
    return next(matching, None)


def fault_of(outcome, seconds):
    """What no run may give, or None."""
    if outcome.status < 0:
        killed = f"it is killed after {10 * SECONDS} s by the clock"
        return f"ended by signal {-outcome.status}, after {seconds:.3f} s; {killed}"
    if seconds > SECONDS:
        return f"took {seconds:.3f} s"
    if outcome.status == 0:
        return "status 0 with something on standard error" if outcome.err else None
    if outcome.out:
        return "a refusal with something on standard output"
    if outcome.status == 2:
        return difference(BAD_WORDS, outcome)
    if outcome.status != 1:
        return f"status {outcome.status}"
    return None if refusal_of(outcome) else f"a refusal of no known text: {outcome.err[:200]!r}"


class Asker:
    """Asks programs about bytes in memory, with a limit to their memory or without, and keeps what no run may give."""

    def __init__(self, programs, is_limited=True):
        self.programs = programs
        self.is_limited = is_limited
        self.input, self.out, self.err = (os.memfd_create(name) for name in ("input", "out", "err"))
        self.data = b""
        self.slowest = (0, "")
        self.runs = 0
        self.failures = []

    def load(self, data):
        """Takes these bytes as the file."""
        os.ftruncate(self.input, 0)
        os.pwrite(self.input, data, 0)
        self.data = data

    def start(self, program, words, given):
        """Starts a program with a channel on its standard input."""
        os.lseek(self.input, 0, os.SEEK_SET)
        for output in (self.out, self.err):
            os.ftruncate(output, 0)
            os.lseek(output, 0, os.SEEK_SET)
        channels = [(os.POSIX_SPAWN_DUP2, fd, n) for n, fd in enumerate((given, self.out, self.err))]
        # The program inherits the limits, which this process has as well until it has started it.
        limits = {resource.RLIMIT_STACK: STACK}
        if self.is_limited:
            limits[resource.RLIMIT_AS] = MEMORY + MULTIPLE * len(self.data)
        before = {which: resource.getrlimit(which) for which in limits}
        for which, most in limits.items():
            resource.setrlimit(which, (most, before[which][1]))
        try:
            return os.posix_spawn(program, [program, *map(str, words)], {}, file_actions=channels)
        except OSError as error:
            raise Trouble(f"{program} does not run: {error}") from error
        finally:
            for which, limit in before.items():
                resource.setrlimit(which, limit)

    def run(self, program, words, is_piped=False):
        """Runs a program, with the file on its standard input or with a pipe there. Returns what it gives, and its
        processor time. One that does not end is killed."""
        given, pipe = os.pipe() if is_piped else (self.input, None)
        child = self.start(program, words, given)
        signal.signal(signal.SIGALRM, lambda *_: os.kill(child, signal.SIGKILL))
        signal.setitimer(signal.ITIMER_REAL, 10 * SECONDS)
        if is_piped:
            os.close(given)
            with contextlib.suppress(BrokenPipeError), os.fdopen(pipe, "wb") as writing:
                writing.write(self.data)
        _, status, used = os.wait4(child, 0)
        signal.setitimer(signal.ITIMER_REAL, 0)
        self.runs += 1
        out, err = (os.pread(fd, os.fstat(fd).st_size, 0) for fd in (self.out, self.err))
        return Outcome(os.waitstatus_to_exitcode(status), out, err), used.ru_utime + used.ru_stime

    def ask(self, name, words, is_piped=False):
        """What the programs answer to words about the file of a name, each of which has to answer alike."""
        came = None
        for program in self.programs:
            what = f"{name}: {program.name} {' '.join(map(str, words))}"
            outcome, seconds = self.run(str(program), words, is_piped)
            self.slowest = max(self.slowest, (seconds, f"{what}, {len(self.data)} bytes"))
            if fault := fault_of(outcome, seconds):
                self.failures.append(f"{what}: {fault}")
            if came and came != outcome:
                self.failures.append(f"{what}: the other build answers {came}, this one {outcome}"[:600])
            came = came or outcome
        return came
