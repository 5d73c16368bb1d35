#!/usr/bin/env python3
"""Times the walk over all types of a file in Python, alone and with the fields of each list, and says what memory it takes.

usage: bench/scripts/walk.py FILE

The times are those of the processor, the least of five. The package is the one that is installed, or else that of the
repository.
"""

import resource
import sys
import time
from pathlib import Path

sys.path.append(str(Path(__file__).resolve().parents[2] / "python"))
import pdb_container  # noqa: E402

ROUNDS = 5


def megabytes():
    """The most that the process has had, with the pages of the file that it read."""
    return resource.getrusage(resource.RUSAGE_SELF).ru_maxrss // 1024


def timed(work, *words):
    """What a call gives, and its seconds."""
    started = time.process_time()
    return work(*words), time.process_time() - started


def least(work, types):
    """What a walk gives, and its seconds in the best round."""
    return min((timed(work, types) for _ in range(ROUNDS)), key=lambda it: it[1])


def walk(types):
    """The number of the types."""
    return sum(1 for _ in types)


def walk_with_fields(types):
    """The number of the fields in all lists."""
    return sum(len(it.fields) for it in types if isinstance(it, pdb_container.FieldList))


def main():
    with pdb_container.open(sys.argv[1]) as pdb:
        before = megabytes()
        types, opened = timed(lambda: pdb.types)
        at = megabytes()
        count, walked = least(walk, types)
        fields, read = least(walk_with_fields, types)
        print(f"{count} types of {pdb.streams[types.number].size >> 20} MB and {fields} fields, opened in {opened:.2f} s")
        print(f"walked in {walked:.2f} s, with fields in {read:.2f} s")
        print(f"{before} MB before, {at} MB with the table, {megabytes()} MB after the walks")


if __name__ == "__main__":
    main()
