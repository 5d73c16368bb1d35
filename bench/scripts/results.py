"""What bench/run tells of its measurements: lines, a page and a plot."""

import statistics

from scripts import plot

# What each workload does, and beside what.
WORKS = {
    "streams": ("open a file, read all streams", "streams", "LLVM"),
    "walk": ("walk along the types", "types", "LLVM"),
    "parse": ("walk, and parse each type", "types", "LLVM"),
    "build": ("build a finder", "types", "LLVM"),
    "find": ("100,000 finds", "types", "LLVM"),
    "build_and_find": ("build a finder, 100,000 finds, parse each", "types", "LLVM"),
    "queries": ("100,000 queries of types in one run", "types", "LLVM"),
    "queries_beside_finds": ("100,000 queries, against our finder and parse", "types", "ours"),
    "few_queries": ("10,000 queries, against our finder and parse", "types", "ours"),
    "omap": ("100,000 OMAP look-ups", "records", "C"),
    "ranges": ("100,000 OMAP ranges of 256", "records", "C"),
    "frames": ("100,000 frames at an address", "frames", "C"),
    "names": ("100,000 names", "names", "LLVM"),
    "border_rows": ("walk, and parse each type as a row, through C", "types", "LLVM"),
    "border_rows_beside_ours": ("walk and parse through C, against our own", "types", "ours"),
    "border_find": ("100,000 finds, through C", "types", "LLVM"),
    "border_find_beside_ours": ("100,000 finds through C, against our own", "types", "ours"),
    "border_names": ("100,000 names, through C", "names", "LLVM"),
    "border_names_beside_ours": ("100,000 names through C, against our own", "names", "ours"),
}

# The panels of the plot: a workload, what it is over, and what its size counts.
PANELS = [
    ("parse", "the first of", "Types walked and parsed", "types"),
    ("streams", "made", "Streams opened and read", "streams"),
    ("omap", "made", "100,000 OMAP look-ups", "records in the table"),
]

UNITS = [(1e9, "s"), (1e6, "ms"), (1e3, "µs"), (1, "ns")]


def time(nanoseconds):
    """A time in three digits."""
    size, unit = next((pair for pair in UNITS if nanoseconds >= pair[0]), UNITS[-1])
    return f"{nanoseconds / size:.3g} {unit}"


def megabytes(count):
    """A number of bytes, shown."""
    return f"{count / 1e6:.1f} MB"


def ratio(row):
    """The ratio of a row with its quartiles."""
    return f"{row['ratio']:.2f} ({row['low']:.2f} to {row['high']:.2f})"


def cells(row):
    """A row as the page and the lines have it."""
    if row.get("differs"):
        return [WORKS[row["work"]][0], row["on"], f"{row['size']:,}", "", "", "the sums differ"]
    what, unit, peer = WORKS[row["work"]]
    theirs = f"{time(row['theirs'])} {'' if peer == 'LLVM' else f'({peer})'}".strip()
    return [what, row["on"], f"{row['size']:,} {unit}", time(row["ours"]), theirs, ratio(row)]


def line(row):
    """A row as a line."""
    return " · ".join(cells(row))


def table(heads, rows):
    """A table of the page."""
    return "\n".join([f"| {' | '.join(cells)} |" for cells in [heads, ["---"] * len(heads), *rows]]) + "\n"


def program_cells(name, turns):
    """The medians of a program's turns beside LLVM's, each a pair of seconds and bytes."""
    (ours, our_bytes), (theirs, their_bytes) = (tuple(map(statistics.median, zip(*side))) for side in zip(*turns))
    ratios = sorted(a[0] / b[0] for a, b in turns)
    spread = f"{statistics.median(ratios):.2f} ({ratios[0]:.2f} to {ratios[-1]:.2f})"
    return [name, time(ours * 1e9), time(theirs * 1e9), spread, megabytes(our_bytes), megabytes(their_bytes)]


def page(about, rows, taken, programs):
    """The whole page."""
    size = megabytes(about["file"].stat().st_size)
    text = f"""# Measured

By `bench/run` on {about['date']} at {about['commit']}: {about['machine']}; {about['kit']}; LLVM {about['LLVM']}. Both sides ran in one process, in turns, {about['rounds']} rounds; each time is the median of a thread's processor time, each ratio ours divided by theirs, with its quartiles in brackets. Where the second time says (ours), another part of this library did the same work. [README](../README.md) says what is measured. In each row both sides had the same answers, by a sum over them.

{table(["work", "on", "size", "ours", "LLVM's", "ratio"], map(cells, rows))}
![How time grows with the number of types, streams and OMAP records](growth.svg)

## Memory

Over {about['file'].name}, a file of {size}: the bytes by which the process grows at most. Our finder's figure doesn't include the stream, which our table holds in memory; LLVM's finder reads from the file.

{table(["", "ours", "LLVM's"], [[what, *map(megabytes, pair)] for what, pair in taken.items()])}"""
    if programs:
        text += f"""
## Programs

Over the same file, as processes: processor time, the ratio with its least and greatest, and memory at most. Beside them `llvm-pdbutil` with `dump -types -type-index`, `bytes -stream-data` and `dump -types`, which print the same records and bytes in other words.

{table(["program", "ours", "LLVM's", "ratio", "our memory", "LLVM's"], [program_cells(*program) for program in programs])}"""
    return text


def series(rows, work, on):
    """The sizes of a workload over what is made, with the times of both sides."""
    chosen = (row for row in rows if row["work"] == work and row["on"].startswith(on))
    return sorted((row["size"], row["ours"], row["theirs"]) for row in chosen)


def write(folder, about, rows, taken, programs):
    """Writes the page and the plot into a folder, and prints the page."""
    panels = [(title, what, WORKS[work][2], series(rows, work, on)) for work, on, title, what in PANELS]
    (folder / "growth.svg").write_text(plot.svg(panels), encoding="utf-8")
    text = page(about, rows, taken, programs)
    (folder / "RESULTS.md").write_text(text, encoding="utf-8")
    print(text)
