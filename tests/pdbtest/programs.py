"""Where the repository is, and the programs that `rt ci` leaves in it."""

import argparse
import os
from pathlib import Path

ROOT = Path(__file__).resolve().parents[2]
PDBQ = ["crates/pdbq/out/pdbq", "crates/pdbq/out/pdbq.by-rattle"]
PDBDUMP = ["crates/pdbdump/out/pdbdump", "crates/pdbdump/out/pdbdump.by-rattle"]


def options(doc, *flags):
    """The parser of a script's words, by its docstring, with flags that name programs in place of the built ones."""
    about, _, usage = doc.partition("\n\nusage: ")
    parser = argparse.ArgumentParser(description=about, usage=usage.partition("\n\n")[0] or None)
    for flag in flags:
        parser.add_argument(flag, action="append", type=Path, help="asks this program; may come more than once")
    return parser


def is_program(tally, path):
    """Whether there is a program; it is a failure where there is none."""
    is_there = path.is_file() and os.access(path, os.X_OK)
    tally.check(is_there, f"there is no program {path}")
    return is_there


def find_programs(tally, chosen, built):
    """The programs that were chosen, or the builds that `rt ci` leaves."""
    return [path.resolve() for path in chosen or [ROOT / it for it in built] if is_program(tally, path)]
