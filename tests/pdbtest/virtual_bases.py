"""Classes with virtual bases, drawn at random, and how far their base classes go by Clang's layouts."""

import random
import re
from typing import NamedTuple

from pdbtest.layouts import check_cover, check_layout, compiled_layouts, layouts, own_rows, target
from pdbtest.making import make_pdb
from pdbtest.tools import run_tool

COUNT = 500  # classes in a file
FAMILY = 10  # of which so many in a row may be bases of each other
MEMBERS = ["char", "short", "int", "long long", "double", "char *", "char[3]", "int[2]"]
SIZES = {"char": 1, "short": 2, "int": 4, "long long": 8, "double": 8}
POINTERS = {"x86_64": 8, "i686": 4, "aarch64": 8}
BLOCK = re.compile(r"\*\*\* Dumping AST Record Layout\n *0 \| (?:struct|class) (R\d+)\n(.*?)\n\n", re.DOTALL)
SUMS = re.compile(r"\[sizeof=(\d+), align=\d+,\s*\| *nvsize=(\d+), nvalign=(\d+)\]")
LINE = re.compile(r"^ *(\d+)(?::\d+-(\d+))? \|   (\S.*)$", re.MULTILINE)  # of the class itself, by its indentation
BASE = re.compile(r"struct (R\d+) \((primary )?base\)")


class Class(NamedTuple):
    """What Clang tells of a class: its size, that without virtual bases and the alignment of this, and its lines."""

    size: int
    part: int
    alignment: int
    lines: list  # the byte, the last bit of a bit field, and the text of each that is of the class itself

    @property
    def is_virtual(self):
        """Whether it has virtual bases."""
        return any("(virtual base)" in text for *_, text in self.lines)

    @property
    def bases(self):
        """The place and the name of each base that isn't virtual."""
        return [(offset, match[1]) for offset, _, text in self.lines if (match := BASE.fullmatch(text))]


def drawn_members(draw, number, is_empty):
    """The members of a class."""
    for at in range(draw.choice([0, 1, 1, 2, 3]) if is_empty else 1):
        kind, _, length = draw.choice(MEMBERS).partition("[")
        yield f"{kind} m{number}_{at}{'[' * bool(length)}{length};"
    if draw.random() < 0.2:
        yield f"int b{number} : {draw.randint(1, 20)};"
    if draw.random() < 0.3:
        yield f"virtual int f{number}() {{ return {number}; }}"


def drawn_source(seed):
    """The source of a program with a variable of each of some classes, of which each may be a base of later ones."""
    draw, above, lines = random.Random(seed), [], []
    for number in range(COUNT):
        earlier = range(number - number % FAMILY, number)
        bases = draw.sample(earlier, min(len(earlier), draw.choice([0, 1, 1, 2, 2, 3])))
        # C++ can't name a base that another base has too.
        bases = [base for base in bases if not any(base in above[other] for other in bases)]
        above.append(set(bases).union(*(above[base] for base in bases)))
        named = ", ".join(f"{draw.choice(['', '', 'virtual '])}R{base}" for base in bases)
        body = " ".join(drawn_members(draw, number, bool(bases)))
        lines.append(f"struct R{number}{' : ' * bool(bases)}{named} {{ {body} }};\nR{number} r{number};")
    return "\n".join([*lines, 'extern "C" int mainCRTStartup() { return 0; }', ""])


def compiled_classes(room, source, machine):
    """What Clang tells of each class of a source."""
    dumping = ["-fms-extensions", "-fsyntax-only", "-Xclang", "-fdump-record-layouts-complete"]
    told = run_tool(["clang", *target(machine), *dumping, source], room)
    found = {}
    for name, text in BLOCK.findall(told + "\n\n"):
        size, part, alignment = map(int, SUMS.search(text).groups())
        lines = [(int(offset), last and int(last), line) for offset, last, line in LINE.findall(text)]
        found[name] = Class(size, part, alignment, lines)
    return found


def size_of(text, pointer):
    """How many bytes a line is of that tells of a member or of a pointer to a table."""
    kind = text.rsplit(" ", 1)[0]
    if text.endswith("pointer)") or kind.endswith("*"):
        return pointer
    kind, _, length = kind.partition("[")
    return SIZES[kind] * int(length.rstrip("]") or 1) if length else SIZES[kind]


def part_of(classes, name, pointer):
    """How many bytes of a class lie in a class derived from it: all, or those up to the end of its last line that is of
    no virtual base."""
    one = classes[name]
    if not one.is_virtual:
        return one.size
    ends = [offset + part_of(classes, base, pointer) for offset, base in one.bases]
    for offset, last, text in one.lines:
        if not text.endswith("base)"):
            ends.append(offset + (last // 8 + 1 if last is not None and last != "" else size_of(text, pointer)))
    return max(ends)


def check_virtual_bases(tally, room, dumpers, machine, seed):
    """That each base class goes as far as Clang says, whose nvsize is that rounded up, and that all else is as it says."""
    source, pointer = f"bases_{machine}.cpp", POINTERS[machine]
    file = make_pdb(room, f"bases_{machine}", {source: drawn_source(seed)}, machine=machine)
    classes, members = compiled_classes(room, source, machine), compiled_layouts(room, source, machine)
    parts = {name: part_of(classes, name, pointer) for name in classes}
    for name, one in classes.items():
        is_so = parts[name] <= one.part < parts[name] + one.alignment
        tally.check(is_so, f"{machine} {name}: ends at {parts[name]}, and Clang has nvsize {one.part}")
    for dumper in dumpers:
        made = [one for one in layouts(tally, dumper, ["--all", file]) if one["name"] in classes]
        compared = 0
        for one in made:
            name = one["name"]
            where = f"{dumper.name} {file.name} {name}"
            check_cover(tally, where, one)
            check_layout(tally, where, one, members[name])
            ours = sorted((row["offset"], row["type"], row["size"]) for row in own_rows(one, "base"))
            theirs = sorted((offset, base, parts[base]) for offset, base in classes[name].bases)
            tally.check(ours == theirs, f"{where}: bases {ours}, and the compiler says {theirs}")
            compared += any(classes[base].is_virtual for _, base in classes[name].bases)
        is_all = len(made) == COUNT and compared >= COUNT // 10
        tally.check(is_all, f"{dumper.name} {file.name}: {len(made)} classes, {compared} whose bases have virtual bases")
        print(f"{dumper.name} {file.name}: {compared} classes whose bases have virtual bases, seed {seed}")
