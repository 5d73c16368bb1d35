"""What the program pdbdump lists of a file, compared with what LLVM lists, and with what the program pdbq answers."""

import itertools
import json
import random

from pdbtest import llvm
from pdbtest.addresses import OMAP, moved_lines
from pdbtest.calls import SENTENCES, Outcome, about, call, check_call, objects_of, refused
from pdbtest.msf import TYPES, Msf
from pdbtest.roles import HEADER_ROLES, ROLES
from pdbtest.tables import Leaf

ADDRESSES = 40  # that are mapped, of a file

# The flags of a section, as the PE format numbers them, and the bits that say where it is aligned.
FLAGS = {
    "executable": 0x20, "initialized_data": 0x40, "uninitialized_data": 0x80, "other": 0x100, "info": 0x200,
    "remove": 0x800, "comdat": 0x1000, "defer_speculative_exceptions": 0x4000, "global_pointer_relative": 0x8000,
    "purgeable": 0x20000, "locked": 0x40000, "preload": 0x80000, "lnk_nreloc_ovfl": 0x1000000,
    "discardable": 0x2000000, "not_cached": 0x4000000, "not_paged": 0x8000000, "shared": 0x10000000,
    "execute": 0x20000000, "read": 0x40000000, "write": 0x80000000,
}  # fmt: skip
ALIGNMENT = 0xF00000


# What Unicode 18 has as Default_Ignorable_Code_Point.
IGNORED = [
    (0xAD, 0xAD), (0x34F, 0x34F), (0x61C, 0x61C), (0x115F, 0x1160), (0x17B4, 0x17B5), (0x180B, 0x180F), (0x200B, 0x200F),
    (0x202A, 0x202E), (0x2060, 0x206F), (0x3164, 0x3164), (0xFE00, 0xFE0F), (0xFEFF, 0xFEFF), (0xFFA0, 0xFFA0),
    (0xFFF0, 0xFFF8), (0x1BCA0, 0x1BCA3), (0x1D173, 0x1D17A), (0xE0000, 0xE0FFF),
]  # fmt: skip


def is_hidden(c):
    """Whether a reader wouldn't see a character as one."""
    is_ignored = any(first <= ord(c) <= last for first, last in IGNORED)
    return c < " " or "\x7f" <= c < "\xa0" or c in "\u2028\u2029" or is_ignored


def escaped(text):
    """A text as it is shown: what a reader wouldn't see as JSON escapes it, which text does too."""
    return "".join(json.dumps(c)[1:-1] if is_hidden(c) else c for c in text)


def rows_of(words, outcome):
    """The rows with which pdbdump answers what pdbq answers so."""
    lines = outcome.out.decode().split("\n")[:-1]
    verb = words.split()[0]
    if outcome.err:
        rows = [f"error={outcome.err.decode().rstrip()}"]
    elif verb == "stream":
        rows = [f"bytes={''.join(lines)}"]
    elif verb in ("type", "id"):
        index, kind, name = lines[0].split(" ", 2)
        kind = next((leaf.name for leaf in Leaf if leaf == int(kind, 16)), kind)
        rows = [" ".join([index, kind] + [escaped(name)] * (name != "-"))]
    elif verb == "ranges":
        rows = ["start={} end={}".format(*line.split("..")) for line in lines]
    elif verb == "fields":
        rows = ["" if name == "-" else f"field={escaped(name)}" for name in lines]
    else:
        rows = [f"string={escaped(lines[0])}"]
    return "".join(f"{row}\n" for row in rows).encode()


def check_questions(tally, dumpers, file, asked):
    """The same questions in one run of pdbdump, which repeats each before its answer."""
    given = "".join(f"{words}\n" for words, _ in asked).encode()
    wanted = [f"question={words}\n".encode() + rows_of(words, outcome) for words, outcome in asked]
    status = int(any(outcome.status for _, outcome in asked))
    for dumper in dumpers:
        what = f"{file.name}: {dumper.name} ask"
        came, at = call(dumper, ["ask", file], given), 0
        for answer in wanted:
            if not came.out.startswith(answer, at):
                tally.check(False, f"{what}: {came.out[at:at + 200]!r} and not {answer[:200]!r}")
                break
            at += len(answer)
            tally.check(True, "")
        more = len(came.out) - at
        is_whole = not more and not came.err and came.status == status
        tally.check(is_whole, f"{what}: status {came.status}, {more} bytes more, {came.err[:200]!r}")


def check_map(tally, dumpers, file, streams):
    """Where an address map of the table that was made for the file moves addresses, either way."""
    if "omap" not in streams:
        return
    ways = (("rva", "internal_rva"), ("internal_rva", "rva"))
    for dumper, option, way in itertools.product(dumpers, ("--to", "--from"), ways):
        for address in sorted(random.Random(len(OMAP)).sample(range(0x9000), ADDRESSES)):
            came = call(dumper, ["map", option, streams["omap"], file, hex(address), "--json"])
            rows = [json.loads(line) for line in came.out.splitlines()]
            found = [row.get("address") for row in rows if (row["from"], row["to"]) == way]
            moves = (option == "--to") == (way[0] == "rva")
            line = moved_lines(OMAP, address, address + 1) if moves else f"{address:#x}.."
            wanted = int(line.partition("..")[0], 16) if line else None
            is_well = came.status == 0 and not came.err and len(rows) == 6 and found == [wanted]
            what = f"{file.name}: {dumper.name} map {address:#x} {option}"
            tally.check(is_well, f"{what}: {way} {found} and not {wanted}")


def check_several(tally, dumpers, file):
    """Several addresses in one call, and places in sections, by single addresses."""
    sections = llvm.sections(file)
    if not sections:
        return
    start = sections[0][2]
    words = [hex(start), str(start + 8), "1:0x8", "1:8", "0xffffffff", "99:0", "0:0"]
    for dumper in dumpers:
        singles = {word: call(dumper, ["map", file, word]).out.decode() for word in words}
        lines = [f"of={word} {line}" for word in words for line in singles[word].splitlines(keepends=True)]
        check_call(tally, dumper, ["map", file, *words], Outcome(0, "".join(lines).encode()))
        rows = lambda word: {
            (row["from"], row["to"]): {key: row.get(key) for key in ("found", "address", "section", "offset")}
            for row in map(json.loads, call(dumper, ["map", "--json", file, word]).out.splitlines())
        }  # fmt: skip
        of_place, of_address = rows("1:0x8"), rows(hex(start + 8))
        is_there = of_place["section_offset", "rva"]["address"] == start + 8
        ways = {"section_offset": ("rva", "internal_rva", "internal_offset")}
        ways["internal_offset"] = ("internal_rva", "rva", "section_offset")
        is_same = all(of_place[way, to] == of_address[of, to] for way, (of, *others) in ways.items() for to in others)
        tally.check(is_there and is_same, f"{file.name}: {dumper.name} map 1:0x8: {of_place} and not {of_address}")


def named_record(record):
    """What is compared of a record that LLVM lists: a name where it tells one."""
    return record.index, record.kind, record.name if record.kind in llvm.NAMES else None


def named_row(row):
    """What is compared of a record that pdbdump lists."""
    return row["index"], row["kind"], row.get("name") if row["kind"] in llvm.NAMES else None


def section_row(row):
    """A section header in the order in which LLVM tells of it, with the flags but for the alignment."""
    sizes = [row[part] for part in ("virtual_size", "virtual_address", "size_of_raw_data", "pointer_to_raw_data")]
    return [row["name"], *sizes, sum(FLAGS[word] for word in row["characteristics"])]


def listed_by_llvm(file):
    """Roles, named streams, kinds of types, and every section header, name, type and id."""
    numbers, sizes = llvm.roles(file), Msf(file.read_bytes()).sizes
    roles = ROLES | HEADER_ROLES
    return {
        "roles": {numbers[label]: role for role, label in roles.items() if label in numbers},
        "kinds": llvm.kinds(file),
        # A name may be of a stream that is absent, which the program passes by.
        "named": {number: name for name, number in llvm.stream_names(file).items() if sizes[number] is not None},
        "sections": [[*header[:5], header[5] & ~ALIGNMENT] for header in llvm.sections(file)],
        "names": [name for name in sorted(llvm.names(file)) if name[1]],
        "types": list(map(named_record, llvm.records(file, "types"))),
        "ids": list(map(named_record, llvm.records(file, "ids"))),
    }


def listed_by(tally, dumper, file, has_names):
    """The same as pdbdump shows it. Of a file without a stream /names it says so."""
    commands = ("summary", "sections", "types", "ids") + (("names",) if has_names else ())
    rows = {"names": []} | {command: objects_of(tally, dumper, [command, "--json", file]) for command in commands}
    if not has_names:
        check_call(tally, dumper, ["names", file], about(file, refused(SENTENCES["StreamNameNotFound"])))
    streams = [row for row in rows["summary"] if "stream" in row]
    kinds = [row for row in rows["summary"] if row.get("table") == TYPES and "kind" in row]
    roles = ROLES | HEADER_ROLES
    return {
        "roles": {row["stream"]: row["role"] for row in streams if row.get("role") in roles},
        "kinds": {row["kind"]: (row["count"], row["bytes"]) for row in kinds},
        "named": {row["stream"]: row["name"] for row in streams if "name" in row},
        "sections": list(map(section_row, rows["sections"])),
        "names": [(row["offset"], row["name"]) for row in rows["names"] if row["name"]],
        "types": list(map(named_row, rows["types"])),
        "ids": list(map(named_row, rows["ids"])),
    }


def check_dump(tally, dumpers, file):
    """That pdbdump lists what LLVM lists."""
    wanted = listed_by_llvm(file)
    for dumper in dumpers:
        came = listed_by(tally, dumper, file, "/names" in wanted["named"].values())
        for what, rows in wanted.items():
            pairs = itertools.zip_longest(came[what], rows) if isinstance(rows, list) else [(came[what], rows)]
            first = next((pair for pair in pairs if pair[0] != pair[1]), None)
            told = first and f"{first[0]} and not {first[1]}"
            tally.check(first is None, f"{file.name}: {dumper.name} tells of {what} {told}")
    print(f"{file.name}: {', '.join(f'{len(rows)} {what}' for what, rows in wanted.items())} compared", flush=True)
