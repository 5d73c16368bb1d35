"""Makes program databases with many records of types, by Clang and LLD."""

from pdbtest.tools import run_tool

# A class with an enumeration, and with members whose types take records of their own.
RECORD = """
enum class Kind_of_the_record_@ : unsigned short { First_@, Second_@ = @, Third_of_the_kind_@ = 40000 };
struct Record_of_many_members_@ {
    Kind_of_the_record_@ kind_of_the_record;
    Record_of_many_members_# *previous_record;
    const Record_of_many_members_# *unchanged_record;
    Record_of_many_members_# **table_of_records[$];
    double values_of_the_record[$];
    unsigned bits_of_the_record : %;
    int (*compare_with_previous)(const Record_of_many_members_@ &, const Record_of_many_members_# &);
    void (*visit_of_some_kind)(Record_of_many_members_@ *, Kind_of_the_record_@);
    Record_of_many_members_# *(*find_in_records)(Record_of_many_members_@ **, int);
    unsigned long long (*measure_by_kind)(Record_of_many_members_@ &, double, Kind_of_the_record_@ *);
    bool (*test_of_the_record)(const Record_of_many_members_@ *const *, char);
    int use_the_record(int by, Record_of_many_members_# *from) { return by; }
    static Record_of_many_members_@ *make_record(const Record_of_many_members_# &from, unsigned long long size);
};
Record_of_many_members_@ *record_@;
"""


def source(module, classes):
    """C++ with so many classes, whose names no other module has."""
    text = f"namespace module_{module}_of_the_database_that_is_measured {{\nstruct Record_of_many_members_m1;\n"
    for n in range(classes):
        previous = f"Record_of_many_members_{n - 1}" if n else "Record_of_many_members_m1"
        # An array of the class's own length is a type of its own.
        record = RECORD.replace("Record_of_many_members_#", previous).replace("@", str(n))
        text += record.replace("$", str(n % 977 + 1)).replace("%", str(n % 31 + 1))
    text += "}\n"
    return text + ('extern "C" int mainCRTStartup() { return 0; }\n' if module == 0 else "")


def make(room, name, modules, classes):
    """The path of a program database of so many modules with so many classes each, which is made once."""
    file = room / f"{name}.pdb"
    if file.exists():
        return file
    objects = []
    for module in range(modules):
        code, compiled = room / f"{name}_{module}.cpp", room / f"{name}_{module}.obj"
        code.write_text(source(module, classes))
        flags = ["--target=x86_64-pc-windows-msvc", "-g", "-gcodeview", "-w", "-fstandalone-debug"]
        flags += ["-fno-rtti", "-fno-exceptions"]
        run_tool(["clang", *flags, "-c", code, "-o", compiled])
        objects.append(compiled)
    made = room / f"{name}.made"
    flags = ["/nologo", "/debug", "/nodefaultlib", "/entry:mainCRTStartup", "/subsystem:console"]
    run_tool(["lld-link", *flags, *objects, f"/out:{room / name}.exe", f"/pdb:{made}"])
    for path in [*objects, *(path.with_suffix(".cpp") for path in objects)]:
        path.unlink()
    return made.rename(file)
