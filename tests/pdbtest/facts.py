"""Every fact that llvm-pdbutil tells of a record, compared with what pdbdump shows of it."""

import re
from collections import Counter

from pdbtest import llvm
from pdbtest.calls import objects_of
from pdbtest.report import Trouble

# What llvm-pdbutil and pdbdump call the same thing.
WORDS = {
    # properties of a class
    "has ctor / dtor": "constructors", "contains nested class": "contains_nested_types", "packed": "packed",
    "has unique name": "has_unique_name", "forward ref": "forward_reference", "is nested": "is_nested_type",
    "overloaded operator": "overloaded_operators", "overloaded operator=": "overloaded_assignment",
    "conversion operator": "overloaded_casting", "scoped": "scoped_definition", "sealed": "sealed",
    "intrin": "intrinsic_type",
    # of a function
    "constructor": "is_constructor", "constructor with virtual bases": "is_constructor_with_virtual_bases",
    "returns cxx udt": "cxx_return_udt",
    # of a modifier
    "const": "constant", "volatile": "volatile", "unaligned": "unaligned",
    # of a pointer
    "pointer": "Pointer", "ref": "LValueReference", "rvalue ref": "RValueReference", "data member pointer": "Member",
    "member fn pointer": "MemberFunction", "ptr32": "Near32", "ptr64": "Ptr64",
}  # fmt: skip
OPTIONS = {"const": "is_const", "volatile": "is_volatile", "restrict": "is_restrict", "unaligned": "is_unaligned"}
CONVENTIONS = {"cdecl": 0, "fastcall": 4, "stdcall": 7, "thiscall": 11, "vectorcall": 24}
# Of the attributes of a method pdbdump shows neither that one which introduces an entry is pure, nor that a compiler
# made it.
METHODS = {
    "": [], "static": ["is_static"], "virtual": ["is_virtual"], "intro virtual": ["is_intro_virtual"],
    "pure virtual": ["is_pure_virtual"], "pure intro virtual": ["is_intro_virtual"],
}  # fmt: skip
UNSHOWN = " compiler-generated"


# How llvm-pdbutil writes values.


def number(text):
    """A number."""
    return int(text)


def index(text):
    """An index, None for no type."""
    return None if text == "<no type>" else int(text, 16)


def many(text):
    """The indexes at the starts of lines, 0 for no type."""
    return [index(at) or 0 for at in re.findall(r"^ +(0x[0-9A-F]+|<no type>):? ", text, re.MULTILINE)]


def word(text):
    """A word of a list."""
    return WORDS[text]


def words(text, names=WORDS):
    """A set of words. LLVM tells of a forward reference also to which definition it belongs."""
    listed = re.sub(r" \([^)]*0x\w+\)| \(<no type>\)", "", text).split(" | ")
    return sorted(names[each] for each in listed if each != "None")


def options(text):
    """The options of a pointer."""
    return words(text, OPTIONS)


def convention(text):
    """The calling convention of a function."""
    return CONVENTIONS[text]


def access(text):
    """Who may use a field."""
    return text.split(" ")[0]


def method(text):
    """What kind of method a field is."""
    return METHODS[text.removesuffix(UNSHOWN).partition(" ")[2]]


def place(text):
    """The offset in a table of virtual functions, None for none."""
    return None if text == "-1" else int(text)


INDEX = r"(0x[0-9A-F]+|<no type>)"
LIST = r"(?s:(.*))"
NAMED = {"name": (str, r"\A `(.*)`$"), "unique_name": (str, r"unique name: `(.*)`$")}
CLASS = {
    **NAMED, "properties": (words, "options: (.*), sizeof"), "fields": (index, "field list: " + INDEX),
    "size": (number, r"sizeof (\d+)"),
}  # fmt: skip
STRUCTURE = {**CLASS, "vtable_shape": (index, "vtable: " + INDEX), "derived_from": (index, "base list: " + INDEX)}
PROCEDURE = {
    "return_type": (index, "return type = " + INDEX), "parameter_count": (number, r"# args = (\d+)"),
    "argument_list": (index, "param list = " + INDEX), "calling_convention": (convention, r"calling conv = (\w+)"),
    "attributes": (words, "calling conv = .*, options = (.*)$"),
}  # fmt: skip
FIELD = {"name": (str, r"\[name = `(.*?)`[,\]]"), "access": (access, r"attrs = ([\w -]+)")}
PLACED = {**FIELD, "offset": (number, r"offset = (\d+)")}
VIRTUAL_BASE = {
    "access": FIELD["access"], "base_class": (index, "base = " + INDEX), "base_pointer": (index, "vbptr = " + INDEX),
    "base_pointer_offset": (number, r"vbptr offset = (\d+)"), "virtual_base_offset": (number, r"vtable index = (\d+)"),
}  # fmt: skip
SOURCE_LINE = {
    "udt": (index, "udt = " + INDEX), "source_file": (number, r"file = (\d+)"), "line": (number, r"line = (\d+)"),
}  # fmt: skip

# Of each kind of record the facts that are compared: how pdbdump calls each, and where LLVM tells it.
RECORDS = {
    **dict.fromkeys(["LF_CLASS", "LF_STRUCTURE", "LF_INTERFACE"], STRUCTURE),
    # A union without a list of fields is shown with index 0, where a class is shown without one.
    "LF_UNION": {**CLASS, "fields": (lambda text: index(text) or 0, "field list: " + INDEX)},
    "LF_ENUM": {
        **NAMED, "properties": (words, "options: (.*)$"), "fields": CLASS["fields"],
        "underlying_type": (index, "underlying type: " + INDEX),
    },
    "LF_POINTER": {
        "underlying_type": (index, "referent = " + INDEX), "pointer_mode": (word, "mode = (.*), opts"),
        "attributes": (options, "opts = (.*), kind"), "pointer_kind": (word, r"kind = (\w+)"),
    },
    "LF_MODIFIER": {"underlying_type": (index, "referent = " + INDEX), "modifiers": (words, "modifiers = (.*)$")},
    "LF_PROCEDURE": PROCEDURE,
    "LF_MFUNCTION": {
        **PROCEDURE, "class_type": (index, "class type = " + INDEX),
        "this_pointer_type": (index, "this type = " + INDEX),
        "this_adjustment": (number, r"this adjust = (-?\d+)"),
    },
    "LF_ARGLIST": {"arguments": (many, LIST)},
    "LF_BITFIELD": {
        "underlying_type": (index, "type = " + INDEX), "position": (number, r"bit offset = (\d+)"),
        "length": (number, r"# bits = (\d+)"),
    },
    "LF_METHODLIST": {"methods": (lambda text: [index(at) for at in re.findall("type = " + INDEX, text)], LIST)},
    "LF_ARRAY": {
        "dimensions": (lambda text: [int(text)], r"size: (\d+)"), "indexing_type": (index, "index type: " + INDEX),
        "element_type": (index, "element type: " + INDEX),
    },
    "LF_FIELDLIST": {"count": (lambda text: len(re.findall("^ +- LF_", text, re.MULTILINE)), LIST)},
    "LF_VTSHAPE": {},  # LLVM tells nothing of what one is made of
    "LF_FUNC_ID": {
        "name": (str, "name = (.*), type = "), "function_type": (index, ", type = " + INDEX),
        "scope": (index, "parent scope = " + INDEX),
    },
    "LF_MFUNC_ID": {
        "name": (str, "name = (.*), type = "), "function_type": (index, ", type = " + INDEX),
        "parent": (index, "class type = " + INDEX),
    },
    "LF_STRING_ID": {"name": (str, "String: (.*)$"), "substrings": (index, "ID: " + INDEX)},
    "LF_BUILDINFO": {"arguments": (many, LIST)},
    "LF_SUBSTR_LIST": {"substrings": (many, LIST)},
    "LF_UDT_SRC_LINE": SOURCE_LINE,
    "LF_UDT_MOD_SRC_LINE": {**SOURCE_LINE, "module": (number, r"mod = (\d+)")},
}  # fmt: skip
FIELDS = {
    "LF_MEMBER": {**PLACED, "field_type": (index, "Type = " + INDEX)},
    "LF_STMEMBER": {**FIELD, "field_type": (index, "type = " + INDEX)},
    "LF_ENUMERATE": {"name": (str, r"\[(.*) = "), "value": (number, r" = (-?\d+)\]")},
    "LF_NESTTYPE": {"name": FIELD["name"], "nested_type": (index, "parent = " + INDEX)},
    "LF_METHOD": {
        "name": FIELD["name"], "count": (number, r"# overloads = (\d+)"),
        "method_list": (index, "overload list = " + INDEX),
    },
    "LF_ONEMETHOD": {
        **FIELD, "attributes": (method, r"attrs = ([\w -]+)"), "method_type": (index, "type = " + INDEX),
        "vtable_offset": (place, r"vftable offset = (-?\d+)"),
    },
    "LF_BCLASS": {
        "access": FIELD["access"], "base_class": (index, "type = " + INDEX), "offset": (number, r"offset = (\d+)"),
    },
    **dict.fromkeys(["LF_VBCLASS", "LF_IVBCLASS"], VIRTUAL_BASE),
    "LF_VFUNCTAB": {"table": (index, "type = " + INDEX)},
}  # fmt: skip


def facts_told(kinds, kind, text):
    """The facts of a record or a field that LLVM tells, by how pdbdump calls them."""
    if kind not in kinds:
        raise Trouble(f"llvm-pdbutil tells of a {kind}, of which this script does not know the facts")
    found = {name: (read, re.search(where, text, re.MULTILINE)) for name, (read, where) in kinds[kind].items()}
    return {name: read(match[1]) if match else None for name, (read, match) in found.items()}


def facts_shown(kinds, kind, row):
    """The same facts as pdbdump shows them."""
    values = {name: row.get(name) for name in kinds.get(kind, ())}
    return {name: sorted(value) if name in ("properties", "attributes") else value for name, value in values.items()}


def check_facts(tally, where, kinds, kind, text, row, may_differ=False):
    """That a row has the kind and the facts that LLVM tells. Returns how many facts agree; of one that may differ none,
    if it does."""
    wanted, came = facts_told(kinds, kind, text), facts_shown(kinds, kind, row)
    differing = {name: (came[name], value) for name, value in wanted.items() if came[name] != value}
    is_same = row.get("kind") == kind and not differing
    if not is_same and may_differ:
        return 0
    tally.check(is_same, f"{where} {kind}: {row.get('kind')}, shown and not told: {differing}")
    return len(wanted)


def fields_told(text):
    """The kind of each field of a list, and what LLVM tells of it."""
    _, *parts = re.split(r"^ +- (LF_\w+)", text, flags=re.MULTILINE)
    return list(zip(parts[0::2], parts[1::2]))


# The integer types under enumerations, as cvinfo.h numbers them: how many bytes they have, and whether they have a sign.
INTEGERS = {
    0x10: (1, True), 0x20: (1, False), 0x68: (1, True), 0x69: (1, False), 0x30: (1, False), 0x70: (1, True),
    0x11: (2, True), 0x21: (2, False), 0x72: (2, True), 0x73: (2, False), 0x71: (2, False), 0x7A: (2, False),
    0x12: (4, True), 0x22: (4, False), 0x74: (4, True), 0x75: (4, False), 0x7B: (4, False),
    0x13: (8, True), 0x23: (8, False), 0x76: (8, True), 0x77: (8, False),
}  # fmt: skip


def value_under(value, underlying_type):
    """A value as a number of the type under its enumeration."""
    size, is_signed = INTEGERS[underlying_type]
    return int.from_bytes((value % (1 << 64)).to_bytes(8, "little")[:size], "little", signed=is_signed)


def check_enumerators(tally, dumper, file):
    """That pdbdump shows the values of each enumeration as numbers of the type under it: those that LLVM tells, which
    reads one byte with a sign. Returns how many there are."""
    records = {at: (kind, text) for at, kind, text in llvm.told_records(llvm.dump(file, "types"))}
    count = 0
    for at, (kind, text) in records.items():
        facts = facts_told(RECORDS, kind, text) if kind == "LF_ENUM" else {}
        if not facts.get("fields"):
            continue
        under = facts["underlying_type"]
        told = [facts_told(FIELDS, *field) for field in fields_told(records[facts["fields"]][1])]
        wanted = [(one["name"], value_under(one["value"], under)) for one in told if "value" in one]
        _, *rows = objects_of(tally, dumper, ["types", "--json", "--index", at, file])
        came = [(row["name"], row["value"]) for row in rows if "value" in row]
        tally.check(came == wanted, f"{file.name}: {dumper.name} {at:#x}: {came}, and by LLVM {wanted}")
        count += len(came)
    return count


def check_records(tally, dumper, file, known=()):
    """That pdbdump shows of each type, each id and each field what LLVM tells; the fields of these names may differ.
    Returns how many records, fields and facts agree, and which of those fields differ."""
    counts, differing = Counter(), []
    for part in ("types", "ids"):
        told = llvm.told_records(llvm.dump(file, part))
        rows = objects_of(tally, dumper, [part, "--json", file])
        tally.check(len(told) == len(rows), f"{file.name}: {dumper.name} shows {len(rows)} {part} and not {len(told)}")
        for (at, kind, text), row in zip(told, rows):
            where = f"{file.name}: {dumper.name} {part} {at:#x}"
            tally.check(row.get("index") == at, f"{where}: {row.get('index')}")
            counts["facts"] += check_facts(tally, where, RECORDS, kind, text, row)
            counts["records"] += 1
            if kind != "LF_FIELDLIST":
                continue
            wanted, (_, *came) = fields_told(text), objects_of(tally, dumper, [part, "--json", "--index", at, file])
            tally.check(len(wanted) == len(came), f"{where}: {len(came)} fields and not {len(wanted)}")
            for (field, field_text), shown in zip(wanted, came):
                name = shown.get("name")
                same = check_facts(tally, where, FIELDS, field, field_text, shown, name in known)
                differing += [] if same else [name]
                counts["facts"] += same
                counts["fields"] += bool(same)
    return counts, differing
