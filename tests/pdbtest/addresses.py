"""OMAP tables, and where they move addresses."""

import itertools
import random

from pdbtest.msf import words_of


def omap(count):
    """The source and the target of so many records, by sources that increase. A target of 0 is nowhere."""
    numbers = random.Random(count)
    sources = sorted(numbers.sample(range(0x1000, 0x40 * count), count))
    return [(source, numbers.choice([0, numbers.randrange(0x1000, 0x100000)])) for source in sources]


OMAP = omap(500)


def omap_bytes(records):
    """The bytes of a table of records."""
    return words_of(list(itertools.chain(*records)))


def moved_ranges(records, start, end):
    """Where the addresses of a range go: the first and the end of each part, one for each record that moves some."""
    moved = []
    for (source, target), (behind, _) in zip(records, [*records[1:], (end, 0)]):
        low, high = max(source, start), min(behind, end)
        first, last = target + low - source, min(target + high - source, 0xFFFFFFFF)
        if target and low < high and first < last:
            moved.append((first, last))
    return moved


def moved_lines(records, start, end):
    """The lines in which the program tells where the addresses of a range go."""
    return "".join(f"{first:#x}..{last:#x}\n" for first, last in moved_ranges(records, start, end))
