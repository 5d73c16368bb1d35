"""Counts of checks, and a line for each that fails."""

import sys
import tempfile
from dataclasses import dataclass, field
from pathlib import Path

SHOWN = 20  # lines of checks that failed elsewhere


class Trouble(Exception):
    """Why checks cannot be made."""


@dataclass
class Tally:
    """Counts checks, and prints a line for each that fails."""

    passed: int = 0
    failed: int = 0

    def check(self, is_well, line):
        """Counts a check, whose line says what is wrong if it fails."""
        if is_well:
            self.passed += 1
        else:
            self.failed += 1
            print(f"FAILED: {line}", flush=True)

    def add(self, passed, lines):
        """Counts checks that were made elsewhere, and prints the first lines of those that failed."""
        self.passed += passed
        for line in lines:
            self.failed += 1
            if self.failed <= SHOWN:
                print(f"FAILED: {line}", flush=True)


@dataclass
class Kept:
    """Counts checks in a process of its own, and keeps a line for each that fails."""

    passed: int = 0
    lines: list = field(default_factory=list)

    def check(self, is_well, line):
        """Counts a check, whose line says what is wrong if it fails."""
        if is_well:
            self.passed += 1
        else:
            self.lines.append(str(line))


def run(checks):
    """Makes checks, by a function of a tally and a folder for files. The last line has the counts; ends the script."""
    tally = Tally()
    try:
        with tempfile.TemporaryDirectory(prefix=f"{Path(sys.argv[0]).name.replace('_', '-')}-") as room:
            checks(tally, Path(room).resolve())
    except Trouble as trouble:
        tally.check(False, trouble)
    print(f"{tally.passed} passed, {tally.failed} failed")
    sys.exit(0 if tally.passed and not tally.failed else 1)
