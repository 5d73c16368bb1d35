"""Layouts of classes as pdbdump shows them and as Clang lays them out, and what has to hold of each."""

import re
import subprocess

from pdbtest.calls import objects_of
from pdbtest.tools import run_tool, tool

GAPS = ("hole", "padding", "unused_bits", "virtual_bases")  # the kinds of rows that are of no field


def layouts(tally, dumper, words):
    """The objects that `layout --json` writes."""
    return objects_of(tally, dumper, ["layout", "--json", *words])


def target(machine):
    """How Clang compiles for a machine."""
    return [f"--target={machine}-pc-windows-msvc", "-fno-rtti", "-fno-exceptions", "-std=c++17", "-w"]


def plain_name(name):
    """The name of a class without the words by which Clang and the file tell it in different ways."""
    return re.sub(r"\b(struct|class|union|enum) ", "", name).replace("> >", ">>").replace(", ", ",")


def compiled_layouts(room, source, machine):
    """What Clang says of each class: its size, and the first bit and the width of each own member, by their names."""
    dumping = ["-S", "-emit-llvm", "-o", f"{source}.ll", "-Xclang", "-fdump-record-layouts"]
    told = run_tool(["clang", *target(machine), *dumping, source], room)
    found = {}
    for block in told.split("*** Dumping AST Record Layout")[1:]:
        block = block.split("*** Dumping IRgen")[0]
        head, *lines = re.findall(r"^ *([\d:-]+) \| (.*)$", block, re.MULTILINE)
        name = plain_name(head[1].removesuffix(" (empty)"))
        members = {}
        for place, text in lines:
            text = text.removesuffix(" (empty)")
            if text.startswith("    ") or text.endswith(")"):
                continue  # a member of a member, a pointer to a table, or a base class
            offset, _, bits = place.partition(":")
            if bits == "-":
                continue  # a bit field without a bit
            low, _, high = bits.partition("-")
            width = int(high) - int(low) + 1 if bits else None
            members[text.rsplit(" ", 1)[-1]] = (int(offset) * 8 + int(low or 0), width)
        found[name] = (int(re.search(r"sizeof=(\d+)", block)[1]), members)
    return found


def first_bit(row):
    """Where in its class a row begins, in bits."""
    return row["offset"] * 8 + row.get("bit", 0)


def own_rows(made, kind):
    """The rows of a kind that are of the class itself."""
    return [row for row in made["rows"] if row["kind"] == kind and row["depth"] == 0]


def check_layout(tally, where, made, wanted):
    """That a class has the size and the members that the compiler says, but for bit fields without a name."""
    size, members = wanted
    ours = {row["name"]: (first_bit(row), row.get("bits")) for row in own_rows(made, "member")}
    theirs = {name: place for name, place in members.items() if name in ours or place[1] is None}
    tally.check(made["size"] == size, f"{where}: size {made['size']}, and the compiler says {size}")
    tally.check(ours == theirs, f"{where}: members {ours}, and the compiler says {theirs}")


def check_cover(tally, where, made):
    """That each bit of a class is one of a field, or of one gap."""
    total = made["size"] * 8
    fields, gaps = bytearray(total), bytearray(total)
    for row in made["rows"]:
        start = first_bit(row)
        width = row["bits"] if "bits" in row else row.get("size", 0) * 8
        for bit in range(start, min(start + width, total)):
            if row["kind"] in GAPS:
                gaps[bit] += 1
            else:
                fields[bit] = 1
    wrong = [bit for bit in range(total) if fields[bit] + gaps[bit] != 1]
    tally.check(not wrong, f"{where}: these bits are of no row, or of several: {wrong[:8]}")
    starts = [first_bit(row) for row in made["rows"]]
    tally.check(starts == sorted(starts), f"{where}: rows out of order: {starts}")
    holes, unused = own_rows(made, "hole"), own_rows(made, "unused_bits")
    sums = (len(holes), sum(row["size"] for row in holes), sum(row["bits"] for row in unused))
    told = (made["holes"], made["hole_bytes"], made["unused_bits"])
    tally.check(told == sums, f"{where}: holes, their bytes and unused bits are told as {told}, and are {sums}")
    padding = sum(row["size"] for row in own_rows(made, "padding"))
    tally.check(made["padding_bytes"] == padding, f"{where}: padding is told as {made['padding_bytes']}, and is {padding}")


def is_spelled(name):
    """Whether C++ can name a class."""
    return "<unnamed" not in name and "(" not in name and "`" not in name


def assertions(made):
    """C++ that says of a class what the program says."""
    name, lines = made["name"], [f"static_assert(sizeof({made['name']}) == {made['size']}, \"size\");"]
    for number, row in enumerate(own_rows(made, "member")):
        member_name, declaration = row["name"], row["declaration"]
        of_offset = f"__builtin_offsetof({name}, {member_name}) == {row['offset']}"
        if "bits" not in row:
            lines.append(f"static_assert({of_offset}, \"{name}.{member_name}\");")
        if "<unnamed" in row["type"]:
            continue
        own = f"decltype({name}::{member_name})"
        holder = f"declared_{made['index']}_{number}"
        lines.append(f"struct {holder} {{ {declaration}; }};")
        is_same = f"__is_same({own}, decltype({holder}::{member_name}))"
        lines.append(f"static_assert({is_same}, \"{name}.{member_name} as {declaration}\");")
        if "bits" not in row:
            lines.append(f"static_assert(__is_same({own}, {row['type']}), \"{name}.{member_name} is {row['type']}\");")
    return lines


def refused_assertions(room, machine, source, made):
    """How many assertions say what the program says of the classes that C++ can name, and why Clang refuses some of
    these behind a source, for a machine."""
    lines = [line for one in made if is_spelled(one["name"]) for line in assertions(one)]
    asserted = room / f"asserted_{machine}.cpp"
    asserted.write_text("\n".join([source, *lines, ""]))
    flags = [*target(machine), "-fno-access-control", "-fsyntax-only", "-ferror-limit=0"]
    ran = subprocess.run([tool("clang"), *flags, asserted.name], cwd=room, capture_output=True, text=True, check=False)
    return len(lines), [line for line in ran.stderr.splitlines() if "error:" in line]
