"""Compares include/pdb_container.h with what the crates of the library for C export: prototypes, and how structures lie
in memory."""

import re

from pdbtest.calls import call
from pdbtest.programs import ROOT
from pdbtest.tools import tool

HEADER = ROOT / "include/pdb_container.h"

# What the header calls the structures that it shares with the crates, and the kinds of numbers.
STRUCTURES = {
    "Fault": "pdb_fault", "Sizes": "pdb_sizes", "Roles": "pdb_roles", "NamedStream": "pdb_named_stream", "Span": "pdb_span",
    "FileIdentity": "pdb_identity", "FoundFault": "pdb_finding", "NamePlace": "pdb_name", "OmapRow": "pdb_omap_record",
    "Section": "pdb_section", "Place": "pdb_section_offset", "Translation": "pdb_translation", "Frame": "pdb_frame",
    "IndexRange": "pdb_index_range", "Located": "pdb_record", "FoundRecord": "pdb_found_record", "Row": "pdb_row",
    "TypeRow": "pdb_type", "FieldRow": "pdb_field", "LayoutRow": "pdb_layout_row",
}  # fmt: skip
# Errors of what this library doesn't read, or looks up otherwise: no call returns their statuses.
UNRETURNED = {
    "GlobalSymbolsNotFound", "SymbolTooShort", "UnimplementedSymbolKind", "TypeNotIndexed", "NotACrossModuleRef",
    "CrossModuleRefNotFound", "UnimplementedDebugSubsection", "UnimplementedFileChecksumKind", "InvalidFileChecksumOffset",
    "LinesNotFound", "InvalidCompressedAnnotation", "UnknownBinaryAnnotation",
}  # fmt: skip
NUMBERS = {"u64": "uint64_t", "u32": "uint32_t", "u16": "uint16_t", "u8": "uint8_t", "usize": "size_t"}
SIZES = {"u64": 8, "u32": 4, "u16": 2, "u8": 1, "usize": 8}
# What a parameter or a field may be of. In C a Row is seen through the union of its shapes.
KINDS = {**STRUCTURES, **NUMBERS, "Row": "pdb_type_info", "OpenFile": "pdb_file"}
# The header has a structure for each kind of handle, by the name of the parameter.
HANDLES = {
    "names": "pdb_names", "omap": "pdb_omap", "map": "pdb_address_map", "frames": "pdb_frames", "types": "pdb_types",
    "handle": "pdb_handle",
}  # fmt: skip

PLACE = re.compile(r"(?<![a-z])place$")  # what a field of a crate is named by, which is a section offset in C
EXPORT = re.compile(r"no_mangle\)\]\s*pub extern \"C\" fn (\w+)(?:<'\w+>)?\(([^)]*)\)( -> u32)?")
STRUCTURE = re.compile(r"#\[repr\(C\)\].*?pub struct (\w+)(?:<[^>]*>)? \{(.*?)^\}", re.DOTALL | re.MULTILINE)


def sources_of(*crates):
    """The text of each file of code of some crates."""
    return [file.read_text() for crate in crates for file in (ROOT / "crates" / crate / "src").rglob("*.rt")]


def parameter_of(name, kind):
    """The words by which C passes a parameter: a number, a pointer, or one with a length."""
    kind = re.sub(r"<'\w+>|'\w+ ", "", kind)  # without lifetimes
    if kind == "Global":
        return []
    if kind in NUMBERS:
        return [NUMBERS[kind]]
    is_changed = not kind.startswith("&") or kind.startswith("&mut")
    inner = kind[4:].strip() if is_changed else kind[1:]
    front = "" if is_changed else "const "
    if inner.startswith("["):
        return [f"{front}{KINDS[inner[1:-1]]}*", "size_t"]
    return [f"{front}{HANDLES[name] if inner == 'Handle' else KINDS[inner]}*"]


def exported():
    """The result and the parameters of each export, as C has them."""
    found = {}
    for text in sources_of("pdb_c"):
        for name, parameters, result in EXPORT.findall(text):
            named = re.findall(r"(\w+): ([^,]+?)\s*(?:,|$)", parameters)
            words = [word for name_and_kind in named for word in parameter_of(*name_and_kind)]
            found[name] = ("uint32_t" if result else "void", words)
    return found


def declared(text):
    """The result and the parameters of each function that the header declares. A text is of bytes to the crate."""
    found = {}
    for result, name, parameters in re.findall(r"^(\w+) (pdb_\w+)\(([^)]*)\);", text, re.MULTILINE):
        words = [it for it in re.split(r",\s+", parameters) if it != "void"]
        kinds = (it.rpartition(" ")[0] + ("*" if "*" in it else "") for it in words)
        found[name] = (result, [it.replace("char", "uint8_t") for it in kinds])
    return found


def fields_of_header(text):
    """The fields of each structure, each with its kind."""
    bare = re.sub(r"/\*.*?\*/", "", text, flags=re.DOTALL)
    bodies = re.findall(r"typedef struct (\w+) \{(.*?)\} \1;", bare, re.DOTALL)
    return {name: re.findall(r"(\w+) +(\w+(?:\[\d+\])?);", body) for name, body in bodies}


def field_of(name, kind):
    """A field of a crate's structure, as C has it."""
    name = PLACE.sub("section_offset", name)
    array = re.fullmatch(r"\[u8; (\d+)\]", kind)
    return ("uint8_t", f"{name}[{array[1]}]") if array else (KINDS.get(kind, kind), name)


def fields_of_crates():
    """The fields of each structure of the crates, as C has them."""
    found = {}
    for text in sources_of("pdb_handles"):
        for name, body in STRUCTURE.findall(text):
            rows = re.findall(r"^ +(?:pub )?(\w+): ([^,]+),", body, re.MULTILINE)
            found[name] = [field_of(*row) for row in rows]
    return found


def layouts():
    """The size and the alignment of each structure of the crates, and the offset of each field, as `repr(C)` has them."""
    found, bodies = {}, {}
    for text in sources_of("pdb_handles"):
        bodies.update(STRUCTURE.findall(text))

    def size_and_alignment(kind):
        array = re.fullmatch(r"\[(\w+); (\d+)\]", kind)
        if array:
            size, alignment = size_and_alignment(array[1])
            return size * int(array[2]), alignment
        return (SIZES[kind], SIZES[kind]) if kind in SIZES else layout_of(kind)[:2]

    def layout_of(name):
        if name not in found:
            end, widest, offsets = 0, 1, {}
            for field, kind in re.findall(r"^ +(?:pub )?(\w+): ([^,]+),", bodies[name], re.MULTILINE):
                size, alignment = size_and_alignment(kind)
                end += -end % alignment
                offsets[field] = end
                end, widest = end + size, max(widest, alignment)
            found[name] = end + -end % widest, widest, offsets
        return found[name]

    return {name: layout_of(name) for name in STRUCTURES}


# Names of the union where the definitions have others: of a shape, and of a number of one.
MEMBERS = {"class": "class_type", "union": "union_type"}
WORDS = {("virtual_base_class", "direct"): "is_direct", ("modifier", "unaligned"): "modifiers"}
ENUMERATE = {"kind": "is_signed", "count": "width", "number": "value"}
# The numbers that definitions give by a word, in the order of what follows it.
SHARED = {"typed": ("attributes", "type_index"), "counted": ("properties", "count")}
# The numbers of the source of a type, which is one of two records.
SOURCE = {"udt": "type_index", "file_id": "second_index", "module": "third_index", "file_name": "number", "line": "extra"}
SAID = re.compile(r"^\w+ \((values|ids)\.(\w+) [^=]*\) =\s+zeroed_row (\d+)(.*?)(?=^\S)(?!^\})", re.MULTILINE | re.DOTALL)


def definitions_of_shapes():
    """The definition of each shape's row: the shape by its name there, whether it is of ids, its number, and its text."""
    for path in sorted((ROOT / "crates/pdb_handles/specs").glob("*.antt")):
        for module, shape, number, body in SAID.findall(path.read_text()):
            yield shape, module == "ids", number, body


def words_of_union():
    """The numbers of each shape by the definitions that say which number of a row is which: of the union's member, the
    name there, the name in a row, and whether some records lack it."""
    for shape, is_of_ids, _, body in definitions_of_shapes():
        member = f"{shape}_id" if is_of_ids else MEMBERS.get(shape, shape)
        for shared, *words in re.findall(r"\((\w+) v\.(\w+) v\.(\w+)\)", body):
            yield from ((member, word, slot, False) for word, slot in zip(words, SHARED[shared]))
        for slot, said in re.findall(r"(\w+) = ([^;}]+)", body):
            word = re.findall(r"[ .]([a-z]\w+)\b", said)[-1]
            word = ENUMERATE.get(slot, word) if shape == "enumerate" else WORDS.get((shape, word), word)
            yield member, word, slot, "Some" not in said
    for word, slot in SOURCE.items():
        yield "type_source_id", word, slot, False


def members_of(text):
    """The names of the members of the union, each with its structure."""
    union = re.search(r"^typedef union pdb_type_info \{(.*?)^\} pdb_type_info;", text, re.DOTALL | re.MULTILINE)[1]
    return {member: structure for structure, member in re.findall(r"(\w+) (\w+);", union) if member != "row"}


def words_of_header(text):
    """The names of the numbers of each member of the union."""
    for member, structure in members_of(text).items():
        body = re.search(rf"^typedef struct {structure} \{{(.*?)^\}}", text, re.DOTALL | re.MULTILINE)[1]
        for word in re.findall(r"\w+(?=[,;])", body):
            if word not in ("shape", "has") and not word.startswith("reserved"):
                yield member, word


def asserted(text):
    """A program in C that compiles only if structures lie in memory as those of the crates do."""
    yield "#include <pdb_container.h>"
    for name, (size, _, offsets) in layouts().items():
        yield f"_Static_assert(sizeof({STRUCTURES[name]}) == {size}, \"size of {name}\");"
        for field, offset in offsets.items():
            field = field_of(field, "")[1]
            yield f"_Static_assert(offsetof({STRUCTURES[name]}, {field}) == {offset}, \"{name}.{field}\");"
    yield '_Static_assert(sizeof(pdb_type_info) == sizeof(pdb_row), "size of pdb_type_info");'
    for member, word, slot, is_optional in words_of_union():
        place = f"offsetof(pdb_type_info, {member}.{word})"
        yield f"_Static_assert({place} == offsetof(pdb_row, {slot}), \"{member}.{word}\");"
        if is_optional:
            yield f"_Static_assert(PDB_HAS_{word.upper()} == PDB_HAS_{slot.upper()}, \"{word}\");"
    for member in members_of(text):
        yield f'_Static_assert(offsetof(pdb_type_info, {member}.has) == 4, "{member}");'
    for handle in HANDLES.values():
        yield f"_Static_assert(sizeof({handle}) == 24 && offsetof(pdb_handle, kind) == 8, \"{handle}\");"
    yield '_Static_assert(offsetof(pdb_handle, fault) == 12, "pdb_handle.fault");'
    # A slice in a structure is a pointer and a length.
    for field, offset in (("handle", 0), ("bytes", 24), ("length", 32)):
        yield f'_Static_assert(sizeof(pdb_file) == 40 && offsetof(pdb_file, {field}) == {offset}, "pdb_file.{field}");'
    names = {"user_defined_type_source": "type_source"}
    for shape, is_of_ids, number, _ in definitions_of_shapes():
        name = f"PDB_{names.get(shape, shape).upper()}{'_ID' if is_of_ids else ''}"
        yield f'_Static_assert({name} == {number}, "{name}");'


def constant_of(error):
    """What the header calls the status of an error."""
    return re.sub(r"(?<!^)(?=[A-Z])", "_", error).upper().replace("I_O_", "IO_")


def check_statuses(tally, text):
    """That each status of the crates has its number in the header."""
    statuses = dict(re.findall(r"^    PDB_(\w+) = (\d+)", text, re.MULTILINE))
    source = ROOT / "crates/pdb_handles/src"
    for name, number in re.findall(r"pub const (\w+): u32 = (\d+);", (source / "fault.rt").read_text()):
        name = {"FINE": "OK"}.get(name, name)
        tally.check(statuses.get(name) == number, f"PDB_{name} is {number} in the crate")
    arm = r"Error::(\w+?)(?:\([^)]*\))? => Fault::new\((\d+),"
    refusals = re.findall(arm, (source / "fault.rt").read_text())
    for name, number in refusals:
        wanted = None if name in UNRETURNED else number
        tally.check(statuses.get(constant_of(name)) == wanted, f"PDB_{constant_of(name)} is {number} in the crate")
    tally.check(len(refusals) == 28, f"{len(refusals)} refusals have a status")


def check_header(tally):
    """That the header, and what Rust and Python have of it, is what the crates export."""
    text = HEADER.read_text()
    for line in text.splitlines():
        tally.check(len(line) <= 100, f"a line of {len(line)} columns: {line}")
    exports, names = exported(), declared(text)
    for name in sorted({*exports, *names}):
        ours, theirs = exports.get(name), names.get(name)
        tally.check(ours == theirs, f"{name}: exported as {ours}, declared as {theirs}")
    calls = [*names, *re.findall(r"^static inline [^;{]*?(pdb_\w+[a-z])\(", text, re.MULTILINE)]
    tally.check(len({*calls}) == len(calls) <= 50, f"{len(calls)} calls: {calls}")
    crate, header = fields_of_crates(), fields_of_header(text)
    for name, other in STRUCTURES.items():
        ours, theirs = crate.get(name), header.get(other)
        tally.check(ours == theirs, f"{other}: {theirs} in the header, {ours} in {name}")
    check_statuses(tally, text)
    defined, named = ({(member, word) for member, word, *_ in words_of_union()}, {*words_of_header(text)})
    for member, word in sorted(defined ^ named):
        where = "the definitions" if (member, word) in defined else "the header"
        tally.check(False, f"{member}.{word} is in {where} alone")
    tally.check(len(defined) > 60, f"{len(defined)} numbers of records have a name in the header")
    words = ["-std=c11", "-Werror", f"-I{HEADER.parent}", "-fsyntax-only", "-x", "c", "-"]
    ran = call(tool("cc"), words, "\n".join([*asserted(text), ""]).encode())
    tally.check(ran.status == 0, f"structures lie elsewhere: {ran.err.decode()}")
