"""What llvm-pdbutil and llvm-readobj find in files."""

import re
import uuid
from collections import namedtuple

from pdbtest.msf import pieces
from pdbtest.report import Trouble
from pdbtest.tables import Leaf
from pdbtest.tools import run_tool

# Where a record is told of, and where its name is told behind its size, if it has one.
RECORD = re.compile(r"^ +(0x[0-9A-F]+) \| (LF_\w+) \[size = \d+\]", re.MULTILINE)
NAMES = {
    **dict.fromkeys(["LF_CLASS", "LF_STRUCTURE", "LF_UNION", "LF_ENUM", "LF_INTERFACE"], r" `(.*)`$"),
    **dict.fromkeys(["LF_FUNC_ID", "LF_MFUNC_ID"], r"\s*name = (.*), type = "),
    "LF_STRING_ID": r" ID: [^,]*, String: (.*)$",
}

# What is told of a field of a list. Fields of these kinds have a name that the program shows.
FIELD = re.compile(r"^ +- (LF_\w+)(?: \[(?:name = `(.*?)`|(.*?) = )| continuation = (0x[0-9A-F]+))?", re.MULTILINE)
NAMED_FIELDS = {"LF_MEMBER", "LF_STMEMBER", "LF_NESTTYPE", "LF_METHOD", "LF_ENUMERATE"}

# A type or an id: its index, the name of its kind, its own name or None, and whether its list goes on in another.
Record = namedtuple("Record", "index kind name is_continued")


def unknown_form(tool, what, file):
    """That a tool tells of a file as no version did that was known here."""
    return Trouble(f"{tool} tells of {what} of {file.name} in a form that this script does not know")


def export(room, file, number):
    """The bytes of a stream."""
    to = room / "exported"
    to.unlink(missing_ok=True)
    run_tool(["llvm-pdbutil", "export", f"-stream={number}", f"-out={to}", str(file)])
    return to.read_bytes()


def all_bytes(file, numbers, tool="llvm-pdbutil"):
    """The bytes of several streams, as they are listed in one run."""
    text = run_tool([tool, "bytes", *(f"-stream-data={number}" for number in numbers), str(file)])
    _, *streams = re.split(r"^  Stream \d+: .* \(dumping [\d,]+ / [\d,]+ bytes\)$", text, flags=re.MULTILINE)
    lines = (re.findall(r"^ +[0-9A-F]+: ([0-9A-F ]+) +\|", stream, re.MULTILINE) for stream in streams)
    return [bytes.fromhex("".join(words)) for words in lines]


def dump(file, *parts, tool="llvm-pdbutil"):
    """What is told of parts of a file."""
    return run_tool([tool, "dump", *(f"-{part}" for part in parts), str(file)])


def told_records(text):
    """The index and the kind of each record that is told of, and what is told behind them."""
    _, *parts = RECORD.split(text)
    return [(int(index, 16), kind, body) for index, kind, body in zip(parts[0::3], parts[1::3], parts[2::3])]


def record_of(index, kind, text):
    """A record by what is told of it."""
    if kind not in Leaf.__members__:
        raise Trouble(f"llvm-pdbutil tells of a record of kind {kind}, which this script does not know")
    name = re.match(NAMES.get(kind, "(?!)"), text, re.MULTILINE)
    return Record(index, kind, name and name[1], "- LF_INDEX" in text)


def records(file, part):
    """The types of a file, or its ids."""
    text = dump(file, part)
    found = [record_of(*told) for told in told_records(text)]
    count = re.search(r"Showing ([\d,]+) records", text)
    if not count or int(count[1].replace(",", "")) != len(found):
        raise unknown_form("llvm-pdbutil", part, file)
    return found


def field_lists(file):
    """The names of the fields of each list of a file, by its index, and how many lists each takes."""
    lists = {}
    for index, kind, body in told_records(dump(file, "types")):
        if kind == "LF_FIELDLIST":
            fields, lists_taken = [], 1
            for field, name, enumerator, continuation in FIELD.findall(body):
                if field == "LF_INDEX":
                    more, count = lists[int(continuation, 16)]
                    fields, lists_taken = fields + more, lists_taken + count
                else:
                    fields.append(name or enumerator if field in NAMED_FIELDS else None)
            lists[index] = fields, lists_taken
    return lists


def classes(file):
    """The name and the size of each class that a file defines, by its index."""
    found = {}
    for index, kind, body in told_records(dump(file, "types")):
        if kind in ("LF_STRUCTURE", "LF_CLASS", "LF_UNION", "LF_INTERFACE") and "forward ref" not in body:
            found[index] = (re.match(NAMES[kind], body, re.MULTILINE)[1], int(re.search(r"sizeof (\d+)", body)[1]))
    return found


def names(file):
    """The place of each name of the string table, and the name."""
    text = dump(file, "string-table")
    found = re.findall(r"^ *(\d+) \| '(.*)'$", text, re.MULTILINE)
    if not found and "ID | String" not in text and "Not present in file" not in text:
        raise unknown_form("llvm-pdbutil", "names", file)
    return [(int(place), name) for place, name in found]


def stream_names(file):
    """The number of each named stream."""
    found = re.findall(r'^ *Stream +(\d+) .*: \[Named Stream "(.*)"\]$', dump(file, "streams"), re.MULTILINE)
    return {name: int(number) for number, name in found}


def roles(file):
    """The number of each stream that has a role, by how LLVM calls it."""
    found = re.findall(r"^ *Stream +(\d+) .*: \[([^\[\"]*)\]$", dump(file, "streams"), re.MULTILINE)
    return {label: int(number) for number, label in found}


def kinds(file):
    """How many types of each kind there are, and how many bytes they take."""
    found = re.findall(r"^ +(LF_\w+): +([\d,]+) entries \( *([\d,]+) bytes", dump(file, "type-stats"), re.MULTILINE)
    return {kind: (int(count.replace(",", "")), int(size.replace(",", ""))) for kind, count, size in found}


def sections(file):
    """What is told of each section header: a name, and five numbers."""
    text, _, _ = dump(file, "section-headers").partition("Original Section Headers")
    parts = "name|virtual size|virtual address|size of raw data|file pointer to raw data|flags"
    found = re.findall(rf"^ *(\S*) ?\b(?:{parts})$", text, re.MULTILINE)
    if not found and "DBI stream not present" in text:
        return []
    if not found or len(found) % 6:
        raise unknown_form("llvm-pdbutil", "sections", file)
    return [[name, *(int(number, 16) for number in numbers)] for name, *numbers in pieces(found, 6)]


def summary(file):
    """The GUID of a file, the age of stream 1, the signature, and whether it is stripped."""
    found = dict(re.findall(r"^ +([A-Za-z ]+): (.*)$", dump(file, "summary"), re.MULTILINE))
    return found["GUID"].strip("{}"), int(found["Age"]), int(found["Signature"]), found.get("Is stripped") == "true"


def features(file):
    """The features of a file, by what LLVM calls them, in the order of their numbers in stream 1."""
    found = re.search(r"Features: +\[ (.*) \]", run_tool(["llvm-pdbutil", "pdb2yaml", "--pdb-stream", str(file)]))
    return found[1].split(", ") if found else []


def debug_header(file):
    """The age in the header of stream 3, and the name of the machine."""
    text = run_tool(["llvm-pdbutil", "pdb2yaml", "--pdb-stream", "--dbi-stream", str(file)])
    debug = text[text.index("DbiStream:") :]
    return int(re.search(r"Age: +(\d+)", debug)[1]), re.search(r"MachineType: +(\w+)", debug)[1]


def maker(file):
    """Who linked a file, by the linker's own module; or which version of Microsoft's library wrote it, by the header of
    stream 3; or that it has no such header, as what a compiler writes beside its objects."""
    text = dump(file, "symbols")
    by_clang = ", compiled by Clang" if re.search("Ver = [^,]*version", text) else ""
    own = text.partition("`* Linker *`")[2]
    linker = re.search(r"Ver = (.*?) *, language = link\s+frontend = [\d.]+, backend = ([\d.]+)", own)
    if linker:
        return " ".join(linker.groups()) + by_clang
    text = run_tool(["llvm-pdbutil", "pdb2yaml", "--dbi-stream", str(file)])
    numbers = [int(found) for found in re.findall(r"(?:BuildNumber|PdbDllVersion|PdbDllRbld): +(\d+)", text)]
    if not numbers:
        return "a compiler's type server"
    version, *build = numbers
    return f"mspdb {version >> 8 & 0x7F}.{version & 0xFF}." + ".".join(map(str, build))


def debug_directory(image):
    """The GUID and the age in the debug directory of a program."""
    text = run_tool(["llvm-readobj", "--coff-debug-directory", str(image)])
    guid = re.search(r"PDBGUID: [({]([0-9A-F -]+)[)}]", text)
    age = re.search(r"PDBAge: (\d+)", text)
    if not guid or not age:
        raise unknown_form("llvm-readobj", "the debug directory", image)
    digits = guid[1].replace(" ", "")
    # Older ones list the bytes as they are stored.
    number = uuid.UUID(digits) if "-" in digits else uuid.UUID(bytes_le=bytes.fromhex(digits))
    return str(number).upper(), int(age[1])
