"""What people ask `layout` for beside whole classes: members by their paths, enumerations, names that are nearly right,
members that take no place, and holes."""

import re
import struct

from pdbtest.calls import Outcome, call, check_call, objects_of
from pdbtest.exploding import lists_of, structure
from pdbtest.layouts import GAPS, target
from pdbtest.making import make_pdb
from pdbtest.tables import FIRST_INDEX
from pdbtest.tools import run_tool

SOURCE = """
struct Empty {};
struct Far { int far_; int hidden; short tag; };
struct Base : Far { int id_; int tag; };
struct Second { char second_; double other; };
struct Payload { short kind; int numbers[3]; };
struct Link { char mark; Link *next; Payload payload; const Link *const kept; Link &self;
  Link() : kept(0), self(*this) {} };
namespace outer { struct Deep : Base { char deep_; }; }
struct Derived : Base, Second {
  enum State : signed char { Idle = -1, Running = 2, Last = 127 };
  typedef int number;
  struct Within { int w; };
  int tag; int grid[2][3]; Link inner; Link links[4]; outer::Deep deep; Empty empty; unsigned low : 3; unsigned : 13;
  unsigned high : 9; State state; Within within;
  static int made;
  int area(int by) const; virtual void reset(); virtual void reset(int to); static Derived *first();
  char last;
};
enum class Top : unsigned long long { All = 0xffffffffffffffff, None = 0 };
enum Plain { Red, Green = -7, Blue = 2147483647 };
int Derived::made;
int Derived::area(int by) const { return by; }
void Derived::reset() {}
void Derived::reset(int) {}
Derived *Derived::first() { return 0; }
extern "C" Derived *derived; extern "C" Top *top; extern "C" Plain *plain; extern "C" Empty *empty;
Derived *derived; Top *top; Plain *plain; Empty *empty;
outer::Deep held_deep; Derived::Within held_within; Derived held_derived; Empty held_empty;
extern "C" int mainCRTStartup() { derived->reset(); return derived->area(*plain) + (int)*top + derived->state; }
"""

# Each path, the class from which its offset counts, the designator of the same member, and the path of the pointer.
PATHS = {
    "Derived.tag": ("Derived", "tag", None),
    "Derived.id_": ("Derived", "id_", None),
    "Derived.far_": ("Derived", "far_", None),
    "Derived.second_": ("Derived", "second_", None),
    "Derived.other": ("Derived", "other", None),
    "Derived.grid": ("Derived", "grid", None),
    "Derived.grid[1]": ("Derived", "grid[1]", None),
    "Derived.grid[1][2]": ("Derived", "grid[1][2]", None),
    "Derived.inner.payload.numbers[2]": ("Derived", "inner.payload.numbers[2]", None),
    "Derived.links[3].payload.kind": ("Derived", "links[3].payload.kind", None),
    "Derived.deep.hidden": ("Derived", "deep.hidden", None),
    "outer::Deep.far_": ("outer::Deep", "far_", None),
    "Derived.inner.next": ("Derived", "inner.next", None),
    "Derived.inner.next.payload": ("Link", "payload", "Derived.inner.next"),
    "Derived.inner.next.next.payload.numbers[1]": ("Link", "payload.numbers[1]", "Derived.inner.next.next"),
    "Derived.links[1].kept.mark": ("Link", "mark", "Derived.links[1].kept"),
    "Derived.inner.self.payload.kind": ("Link", "payload.kind", "Derived.inner.self"),
}

# Each path of a base class, the class from which its offset counts, the base class, and a member of it.
BASES = {
    "Derived.Base": ("Derived", "Base", "id_"),
    "Derived.Second": ("Derived", "Second", "second_"),
    "Derived.Far": ("Derived", "Far", "far_"),
    "Derived.deep.Base": ("Derived", "Base", None),
    "outer::Deep.Base.Far": ("outer::Deep", "Far", "far_"),
}

# What is said of paths that lead to nothing.
REFUSED = {
    "Derived.nope": "Derived has no member nope",
    "Derived.taga": "Derived has no member taga; did you mean tag?",
    "Derived.STATE": "Derived has no member STATE; did you mean state?",
    "Derived.inner.paylaod.kind": "Link has no member paylaod; did you mean payload?",
    "Derived.inner.next.nxt": "Link has no member nxt; did you mean next?",
    "Derived.tag.x": "int has no member x",
    "Derived.grid[2]": "Derived.grid has 2 elements",
    "Derived.grid[1][18446744073709551615]": "Derived.grid[1] has 3 elements",
    "Derived.grid[18446744073709551616]": "Derived.grid is followed by no number in brackets",
    "Derived.grid[-1]": "Derived.grid is followed by no number in brackets",
    "Derived.grid[1": "Derived.grid is followed by no number in brackets",
    "Derived.grid[1]x": "Derived.grid is followed by no number in brackets",
    "Derived.tag[0]": "Derived.tag has no elements of a known size",
    "Derived.": "a name is missing behind a point",
    "Derived..tag": "a name is missing behind a point",
    "derived": "no class, union or enumeration is called so; did you mean Derived?",
    "derived.tag": "no class, union or enumeration is called so; did you mean Derived?",
    "PLAIN": "no class, union or enumeration is called so; did you mean Plain?",
    "Unheard": "no class, union or enumeration is called so",
    "d*": "no class, union or enumeration is called so",
}

ENUMERATIONS = {
    "Derived::State": ("signed char", 1, {"Idle": -1, "Running": 2, "Last": 127}),
    "Top": ("unsigned __int64", 8, {"All": 2**64 - 1, "None": 0}),
    "Plain": ("int", 4, {"Red": 0, "Green": -7, "Blue": 2**31 - 1}),
}

OTHERS = {
    ("static_member", "made"), ("nested_type", "State"), ("nested_type", "number"), ("nested_type", "Within"),
    ("method", "area"), ("virtual_method", "reset"), ("static_method", "first"),
}  # fmt: skip
OTHER_LINES = ["static int made;", "enum State;", "typedef int number;", "struct Within;"]


def compiled(room, lines):
    """Whether Clang compiles assertions behind the source."""
    (room / "asserted_paths.cpp").write_text("\n".join([SOURCE, *lines, ""]))
    flags = [*target("x86_64"), "-fno-access-control", "-fsyntax-only", "-ferror-limit=0"]
    return run_tool(["clang", *flags, "asserted_paths.cpp"], room)


def check_paths(tally, room, dumper, file):
    """That Clang compiles assertions of what is told of members, and where base classes are."""
    lines = []
    for path, (owner, designator, pointer) in PATHS.items():
        made = objects_of(tally, dumper, ["layout", "--json", file, path])
        tally.check(len(made) == 1, f"{dumper.name} {path}: {made}")
        if not made:
            continue
        one = made[0]
        tally.check(one.get("pointer") == pointer, f"{dumper.name} {path}: {one}")
        lines.append(f"static_assert(__builtin_offsetof({owner}, {designator}) == {one['offset']}, \"{path}\");")
        lines.append(f"static_assert(sizeof((({owner} *)0)->{designator}) == {one['size']}, \"{path}\");")
        through = f" through the pointer {pointer}:" if pointer else ""
        text = f"{path}:{through} offset 0x{one['offset']:x}, size 0x{one['size']:x}, {one['type']}\n"
        check_call(tally, dumper, ["layout", file, path], Outcome(0, text.encode()))
    for path, (owner, base, name) in BASES.items():
        (one,) = objects_of(tally, dumper, ["layout", "--json", file, path])
        tally.check((one["kind"], one["type"]) == ("base", base), f"{dumper.name} {path}: {one}")
        lines.append(f"static_assert(sizeof({base}) == {one['size']}, \"{path}\");")
        if name:
            offset = f"__builtin_offsetof({owner}, {name}) - __builtin_offsetof({base}, {name})"
            lines.append(f"static_assert({offset} == {one['offset']}, \"{path}\");")
    compiled(room, lines)
    tally.check(len(lines) == 2 * len(PATHS) + 2 * len(BASES) - 1, f"{dumper.name}: {len(lines)} assertions of paths")


def check_refused(tally, dumper, file):
    """What is said of names and paths that lead to nothing, and what they lead to where the case doesn't count."""
    for path, why in REFUSED.items():
        told = f"pdbdump: {file}: {path}: {why}\n".encode()
        check_call(tally, dumper, ["layout", file, path], Outcome(1, b"", told))
    for path, same in (("DERIVED.tag", "Derived.tag"), ("derived.INNER.NEXT.Payload", "Derived.inner.next.payload")):
        wanted = call(dumper, ["layout", file, same]).out.replace(same.encode(), path.encode())
        wanted = wanted.replace(same.rpartition(".")[0].encode(), path.rpartition(".")[0].encode())
        for option in ("-i", "--ignore-case"):
            check_call(tally, dumper, ["layout", option, file, path], Outcome(0, wanted))
    for name in ("derived", "DER?VED", "dERI*ed"):
        check_call(tally, dumper, ["layout", "-i", file, name], call(dumper, ["layout", file, "Derived"]))


def check_enumerations(tally, dumper, file):
    """Enumerations by their names, by patterns and by their indexes, in each form."""
    for name, (type_text, size, values) in ENUMERATIONS.items():
        (one,) = objects_of(tally, dumper, ["layout", "--json", file, name])
        told = (one["kind"], one["name"], one["type"], one["size"])
        tally.check(told == ("enum", name, type_text, size), f"{dumper.name} {name}: {told}")
        rows = {row["name"]: row["value"] for row in one["rows"]}
        tally.check(rows == values, f"{dumper.name} {name}: {rows}")
        head = f"enum {name} : {type_text} {{"
        lines = [f"{head:<41}// 0x{one['index']:x}, size 0x{size:x}"]
        lines += [f"    {own} = {value}," for own, value in values.items()]
        text = "\n".join([*lines, "};", ""]).encode()
        for asked in (name, name[:-1] + "?", f"0x{one['index']:x}"):
            check_call(tally, dumper, ["layout", file, asked], Outcome(0, text))
        lines = [name, *(f"   {own} = 0n{value}" for own, value in values.items()), ""]
        check_call(tally, dumper, ["layout", "--style", "dt", file, name], Outcome(0, "\n".join(lines).encode()))
        check_call(tally, dumper, ["layout", "--holes", file, name], Outcome(0))
    every = objects_of(tally, dumper, ["layout", "--json", "--all", file])
    tally.check(all(one["kind"] != "enum" for one in every), f"{dumper.name}: --all shows enumerations")


def check_others(tally, dumper, file):
    """Methods, static members and nested types, the unnamed bit field, and the lines of a cache."""
    (one,) = objects_of(tally, dumper, ["layout", "--all-members", "--json", file, "Derived"])
    (plain,) = objects_of(tally, dumper, ["layout", "--json", file, "Derived"])
    rows = one["rows"][len(plain["rows"]):]  # fmt: skip
    tally.check(one["rows"][:len(plain["rows"])] == plain["rows"], f"{dumper.name} --all-members: other fields")  # fmt: skip
    others = {(row["kind"], row["name"]) for row in rows}
    tally.check(others >= OTHERS, f"{dumper.name} --all-members: {sorted(OTHERS - others)} of {sorted(others)}")
    declared = sum(row["name"] == "reset" for row in rows)
    tally.check(declared == 2, f"{dumper.name} --all-members: {declared} methods are called reset")
    text = call(dumper, ["layout", "--all-members", file, "Derived"]).out.decode()
    for line in OTHER_LINES:
        tally.check(f"\n    {line}\n" in text, f"{dumper.name} --all-members: no line {line}: {text}")
    found = re.findall(r"\n    (.*\b(?:area|reset|first)\(.*);\n", text)
    tally.check(len(found) >= 2, f"{dumper.name} --all-members: methods {found}")
    unnamed = re.findall(r"\n    (unsigned int +: 13);", text)
    tally.check(unnamed in ([], ["unsigned int : 13"]), f"{dumper.name}: the bit field without a name: {unnamed}")
    check_cache_lines(tally, dumper, file, plain)


def check_cache_lines(tally, dumper, file, plain):
    """The lines of a cache against the ends of the rows."""
    for size in (8, 64):
        text = call(dumper, ["layout", "--cacheline", str(size), file, "Derived"]).out.decode()
        told = re.findall(r"/\* --- cacheline (\d+) boundary \((\d+) bytes\)(?: was (\d+) bytes ago)? --- \*/", text)
        wanted, ended = [], 0
        for row in plain["rows"]:
            width = row["bits"] if "bits" in row else row.get("size", 0) * 8
            end = -(-(row["offset"] * 8 + row.get("bit", 0) + width) // 8)
            if end // size > ended:
                ended = end // size
                ago = end - ended * size
                wanted.append((str(ended), str(ended * size), str(ago) if ago else ""))
        tally.check(told == wanted, f"{dumper.name} --cacheline {size}: {told}, not {wanted}")


def holes_of(one):
    """The bytes before the end of the last field of a class in which no field has a bit."""
    taken = set()
    for row in one["rows"]:
        if row["kind"] not in GAPS:
            start = row["offset"] * 8 + row.get("bit", 0)
            width = row["bits"] if "bits" in row else row.get("size", 0) * 8
            taken.update(range(start // 8, -(-(start + width) // 8)) if width else ())
    return [byte for byte in range(min(max(taken, default=0), one["size"])) if byte not in taken]


def check_holes(tally, dumper, file):
    """Which classes have holes, and how many bytes of them and of padding, by the fields of all classes."""
    every = objects_of(tally, dumper, ["layout", "--json", "--all", file])
    shown = objects_of(tally, dumper, ["layout", "--json", "--all", "--holes", file])
    wanted = []
    for one in every:
        holes = holes_of(one)
        padding = sum(row["size"] for row in one["rows"] if row["kind"] == "padding")
        told = (one["hole_bytes"], one["padding_bytes"])
        tally.check(told == (len(holes), padding), f"{dumper.name} {file.name} {one['name']}: {told}, not {holes}")
        if holes:
            wanted.append(one["index"])
    came = [one["index"] for one in shown]
    tally.check(came == wanted, f"{dumper.name} {file.name} --holes: {came}, not {wanted}")


def check_empty(tally, dumper, file):
    """A class without fields."""
    (one,) = objects_of(tally, dumper, ["layout", "--json", file, "Empty"])
    tally.check((one["holes"], one["padding_bytes"]) == (0, 1), f"{dumper.name}: an empty class: {one}")
    check_call(tally, dumper, ["layout", "--holes", file, "Empty"], Outcome(0))
    text = call(dumper, ["layout", file, "Empty"]).out.decode()
    is_so = "hole" not in text and "// padding" in text and text.endswith("};  // 1 byte of padding\n")
    tally.check(is_so, f"{dumper.name}: an empty class: {text}")


def check_asked(tally, room, dumpers):
    """All of this."""
    file = make_pdb(room, "asked", {"asked.cpp": SOURCE})
    for dumper in dumpers:
        check_paths(tally, room, dumper, file)
        check_refused(tally, dumper, file)
        check_enumerations(tally, dumper, file)
        check_others(tally, dumper, file)
        check_holes(tally, dumper, file)
        check_empty(tally, dumper, file)


# Hostile base classes.


def base(index):
    """The field of a list that is a base class."""
    return struct.pack("<HHIH", 0x1400, 3, index, 0)


def with_bases(bases, name, first):
    """A class with base classes of these indexes, behind the items before an index."""
    lists = lists_of(map(base, bases), first)
    return [*lists, structure(first + len(lists) - 1, 4, name)]


def base_cycle():
    """Two classes of which each is the base class of the other."""
    return [*with_bases([FIRST_INDEX + 3], b"Round", FIRST_INDEX), *with_bases([FIRST_INDEX + 1], b"Other", FIRST_INDEX + 2)]


def many_bases(many=10_000):
    """A class of many base classes, each of which has many, which are the first class."""
    each = len(with_bases([0] * many, b"", FIRST_INDEX))
    first, inner = FIRST_INDEX + each - 1, FIRST_INDEX + 2 * each - 1
    outer = with_bases([inner] * many, b"Many", FIRST_INDEX)
    return [*outer, *with_bases([first] * many, b"Inner", FIRST_INDEX + each)]


def long_bases(many=20_000):
    """A class with many base classes of one long name."""
    return [structure(0, 4, b"n" * 60_000), *with_bases([FIRST_INDEX] * many, b"Long", FIRST_INDEX + 1)]


def hostile_paths():
    """Tables in which a path is looked up, what is asked, and the status."""
    return {
        "own_base": (with_bases([FIRST_INDEX + 1], b"Own", FIRST_INDEX), "FILE Own.x", 1),
        "base_cycle": (base_cycle(), "FILE Round.x", 1),
        "many_bases": (many_bases(), "FILE Many.x", 1),
        "long_bases": (long_bases(), "FILE Long.x", 1),
    }
