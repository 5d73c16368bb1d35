"""Layouts of a file's classes by its records, as llvm-pdbutil tells of them, and as Microsoft's library tells them, by
what LLVM's own tests of `llvm-pdbutil pretty` list, which runs on Windows alone."""

import re
from collections import Counter
from typing import NamedTuple

from pdbtest import llvm
from pdbtest.calls import objects_of
from pdbtest.facts import FIELDS, RECORDS, facts_told, fields_told
from pdbtest.layouts import check_cover, first_bit, layouts, own_rows
from pdbtest.tables import FIRST_INDEX

# The sizes of the types without a record, as cvinfo.h numbers them; those of pointers by their bits 8 to 10.
SIZES = {
    0x03: 0, 0x08: 4, 0x10: 1, 0x20: 1, 0x68: 1, 0x69: 1, 0x30: 1, 0x70: 1, 0x7C: 1, 0x11: 2, 0x21: 2, 0x71: 2, 0x72: 2,
    0x73: 2, 0x7A: 2, 0x12: 4, 0x22: 4, 0x74: 4, 0x75: 4, 0x7B: 4, 0x40: 4, 0x13: 8, 0x23: 8, 0x76: 8, 0x77: 8, 0x41: 8,
}  # fmt: skip
POINTERS = {4: 4, 6: 8}
CLASSES = {"LF_CLASS", "LF_STRUCTURE", "LF_UNION", "LF_INTERFACE"}
VIRTUAL = {"LF_VBCLASS", "LF_IVBCLASS"}
DEFINITION = re.compile(r"forward ref \((?:->|<-) (0x[0-9A-F]+)\)")


class Classes:
    """The classes of a file, by what LLVM tells of its types."""

    def __init__(self, file):
        told = llvm.told_records(llvm.dump(file, "types"))
        self.texts = {at: text for at, _, text in told}
        self.kinds = {at: kind for at, kind, _ in told}

    def facts(self, at):
        """The facts of a type."""
        return facts_told(RECORDS, self.kinds[at], self.texts[at])

    def size(self, at):
        """The size of a type, None where LLVM doesn't tell it, as of a pointer to a member."""
        if at < FIRST_INDEX:
            mode = at >> 8 & 7
            return POINTERS[mode] if mode else SIZES[at]
        kind, facts = self.kinds[at], self.facts(at)
        if kind in CLASSES:
            return self.facts(self.definition(at))["size"]
        if kind == "LF_POINTER":
            is_of_member = facts["pointer_mode"] in ("Member", "MemberFunction")
            return None if is_of_member else {"Near32": 4, "Ptr64": 8}[facts["pointer_kind"]]
        if kind == "LF_ARRAY":
            return facts["dimensions"][0]
        return self.size(facts["underlying_type"]) if kind in ("LF_ENUM", "LF_MODIFIER") else None

    def fields(self, at):
        """The kind and the facts of each field of a class."""
        told = fields_told(self.texts.get(self.facts(self.definition(at))["fields"], ""))
        return [(kind, facts_told(FIELDS, kind, text)) for kind, text in told]

    def definition(self, at):
        """The definition of a class, itself if there is no other."""
        found = DEFINITION.search(self.texts[at])
        return int(found[1], 16) if found else at

    def has_virtual_bases(self, at):
        """Whether a class or one of its bases has virtual bases."""
        return any(
            kind in VIRTUAL or kind == "LF_BCLASS" and self.has_virtual_bases(facts["base_class"])
            for kind, facts in self.fields(at)
        )

    def part(self, at):
        """How many bytes of a base class lie where it stands: all, or those before its virtual bases."""
        if not self.has_virtual_bases(at):
            return self.size(at)
        return max(-(-(first + (bits or 0)) // 8) + (size or 0) for *_, first, bits, size in self.rows(at))

    def rows(self, at):
        """The kind, the name, the type, the first bit, the bits of a bit field and the size of each base, member and
        pointer to a table of a class."""
        for kind, facts in self.fields(at):
            if kind == "LF_BCLASS":
                base = facts["base_class"]
                yield "base", None, base, facts["offset"] * 8, None, self.part(base)
            elif kind == "LF_MEMBER":
                yield self.member_row(facts)
            elif kind == "LF_VFUNCTAB":
                yield "vfptr", None, facts["table"], 0, None, self.size(facts["table"])
            elif kind in VIRTUAL:
                table = facts["base_pointer"]
                yield "vbptr", None, table, facts["base_pointer_offset"] * 8, None, self.size(table)

    def member_row(self, facts):
        """The row of a member."""
        name, at, first = facts["name"], facts["field_type"], facts["offset"] * 8
        if self.kinds.get(at) != "LF_BITFIELD":
            return "member", name, at, first, None, self.size(at)
        bits = self.facts(at)
        return "member", name, at, first + bits["position"], bits["length"], None


def row_shown(row):
    """The same of a row that pdbdump shows."""
    return row["kind"], row.get("name"), row["type_index"], first_bit(row), row.get("bits"), row.get("size")


def check_layouts(tally, dumper, file):
    """That the layout of each class has what its records say. Returns how many classes there are."""
    classes, named = Classes(file), llvm.classes(file)
    made = layouts(tally, dumper, ["--all", file])
    ours = {one["index"]: (one["name"], one["size"]) for one in made}
    tally.check(ours == named, f"{dumper.name} {file.name}: classes {set(ours.items()) ^ set(named.items())}")
    for one in made:
        where = f"{dumper.name} {file.name} {one['name']}"
        check_cover(tally, where, one)
        wanted = list(classes.rows(one["index"]))
        unsized = {row[:5] for row in wanted if row[5] is None}
        shown = [row_shown(row) for kind in ("base", "member", "vfptr", "vbptr") for row in own_rows(one, kind)]
        came = [row[:5] + (None if row[:5] in unsized else row[5],) for row in shown]
        tally.check(Counter(came) == Counter(wanted), f"{where}: {came}, and by the records {wanted}")
    return len(made)


# As Microsoft's library tells them.

CLASS = re.compile(r"(?:^|(?:struct|class|union) )(\S+) \[sizeof = (\d+)\]")
ROW = re.compile(r"^ *(?:(data|base|vfptr|vbptr|vbase|ivbase) )?\+0x([0-9a-f]+) \[sizeof=(\d+)\]")
PADDING = re.compile(r"<padding> \((\d+) bytes\)")
KINDS = {"data": "member", None: "member", "base": "base", "vfptr": "vfptr"}


class ToldRow(NamedTuple):
    """A row of a layout that LLVM's tests list: padding behind a base may be counted as part of the base."""

    depth: int
    kind: str
    offset: int
    sizes: set


def listed_layouts(test):
    """Of each class that a test lists in full, its size and its rows, without those of virtual bases."""
    found = {}
    for tag in dict.fromkeys(re.findall(r"-check-prefix=(\w+)", test)):
        lines = re.findall(rf"^;? ?{tag}(?:-NEXT|-DAG)?: (.*)$", test, re.MULTILINE)
        heads = [(at, match) for at, match in enumerate(CLASS.search(line.strip()) for line in lines) if match]
        for (at, head), (end, _) in zip(heads, [*heads[1:], (len(lines), None)]):
            if "{{" not in head[1]:
                found[head[1]] = int(head[2]), list(rows_listed(lines[at:end]))
    return found


def rows_listed(lines):
    """The rows of the lines that list a class."""
    shown = [(len(line) - len(line.lstrip()), line) for line in lines]
    rows = [at for at, (_, line) in enumerate(shown) if ROW.search(line)]
    virtual = None  # how far the virtual base is indented whose rows follow
    for at in rows:
        indent, line = shown[at]
        kind, offset, size = ROW.search(line).groups()
        virtual = None if virtual is not None and indent <= virtual else virtual
        virtual = indent if kind in ("vbase", "ivbase") else virtual
        if virtual is None and kind in KINDS:
            behind = next((after for deep, after in shown[at + 1 :] if deep <= indent), "")
            padding = PADDING.search(behind) if kind == "base" else None
            sizes = {int(size), int(size) + int(padding[1] if padding else 0)}
            yield ToldRow((indent - shown[rows[0]][0]) // 2, KINDS[kind], int(offset, 16), sizes)


def check_listed(tally, dumper, file, test):
    """That pdbdump lays the classes out that a test lists as the test does. Returns how many there are."""
    listed = listed_layouts(test)
    for name, (size, wanted) in listed.items():
        found = objects_of(tally, dumper, ["layout", "--json", "--expand", "100", file, name])
        where = f"{dumper.name} {file.name} {name}"
        tally.check(len(found) == 1 and found[0]["size"] == size, f"{where}: {found}, and it has size {size}")
        rows = [row for one in found for row in one["rows"] if row["kind"] in KINDS.values()]
        came = [(row["depth"], row["kind"], row["offset"]) for row in rows] if wanted else []
        is_same = came == [row[:3] for row in wanted]
        is_same = is_same and all("bits" in row or row["size"] in told.sizes for row, told in zip(rows, wanted))
        tally.check(is_same, f"{where}: {rows}, and Microsoft's library tells {wanted}")
    return len(listed)
