"""Headers that `pdbdump declare` writes, as Clang compiles them."""

import re
import subprocess

from pdbtest import llvm
from pdbtest.calls import call
from pdbtest.tools import tool

LANGUAGES = {"c++": ("cpp", [], ["-std=c++11"]), "c": ("c", ["--c"], ["-std=c11"])}
MACHINES = {32: "i686", 64: "x86_64"}
FIRST_LINE = re.compile(r"// Types of a program database, in (C\+\+|C) for a program of (32|64) bits\.\n")

# A definition: its index and its name in the comment before it, and its size as it is asserted behind it.
DEFINITION = re.compile(
    r"^// 0x([0-9a-f]+) \"(.*)\"\n(?:.*\n)*?^_?[Ss]tatic_assert\(sizeof\([^()]*\) == (\d+), \"[\w:]*\"\);$", re.MULTILINE
)
BYTES = "];  // bytes "  # what a member has behind it that the language can't say

# Types with all that is hard to declare, beside those of tests/c/members.cpp.
ZOO = """
union Word { unsigned long long all; struct { unsigned low, high; }; unsigned char bytes[8]; };
struct Flattened {
  int before;
  union { int a; struct { short b; union { char c; struct { unsigned char d : 3, e : 5; }; }; }; double f; };
  char between; struct { long long g; char h; }; union { char i; char j[3]; }; int last;
};
struct Split { unsigned a : 3; unsigned : 0; unsigned b : 3; short c : 4; char d : 2; long long e : 33, f : 31; bool g : 1; };
struct Member { struct Own { int x; } Own; enum Kind { None, Some } Kind; union Word Word; int Member_; };
struct Other { enum Kind { None = -1, Some = 7 } kind; };
enum class Wide : unsigned long long { Least, Most = 0xffffffffffffffffull };
enum class Low : long long { Least = (-0x7fffffffffffffffll - 1) };
enum Small : signed char { Minus = -128, Plus = 127 };
enum class Truth : bool { No, Yes };
struct Later; struct Refers { Later *later; Later &(*call)(Later, Later **, Wide); Small small; Truth truth; Low low; Wide wide; };
struct Later { int x; };
struct Flexible { int count; char rest[]; };
struct alignas(16) Vector { float x[4]; };
struct HoldsVector { char tag; Vector vector; };
struct Nothing {}; struct OnlyBase : Nothing {}; struct TwoBases : Nothing, OnlyBase { int x; };
struct Root { virtual void run(); char tag; }; struct Plain { short s; };
struct Mixed : Plain, Root { char c; }; struct Deeper : Mixed { Plain plain; char d; };
struct Shared : virtual Root { int s; }; struct Lower : Shared { int l; }; struct Tip : Lower { char t; };
namespace first { namespace second { struct Inside { int x; struct Nested { Inside *up; } nested; }; enum class Color { Red }; } }
namespace first { struct Uses { second::Inside inside; second::Color color; struct Inside *other; }; struct Inside { char c; }; }
namespace { struct Hidden { int h; }; }
template <class T, class U> struct Pair { T first; U second; };
template <class T> struct Chain { Chain *next; Pair<T, Chain<T> *> pair; T (*apply)(const T &, Chain<Pair<T, T>> *); };
typedef struct { int first; struct { char inner; } second; } Unnamed;
typedef struct { long other; } Unnamed2;
#pragma pack(push, 2)
struct Two { char a; int b; struct { char c; double d; }; };
#pragma pack(pop)
void Root::run() {}
"""
HELD = [
    "Word", "Flattened", "Split", "Member", "Other", "Wide", "Low", "Small", "Truth", "Refers", "Flexible", "HoldsVector",
    "TwoBases", "OnlyBase", "Mixed", "Deeper", "Tip", "first::second::Inside", "first::Uses", "first::Inside", "Hidden",
    "Chain<int>", "Chain<Pair<char, double>>", "Chain<Unnamed>", "Pair<Unnamed2, first::second::Color>", "Two",
]  # fmt: skip
LAMBDA = """
struct Local { int x; };
int use(int by) {
  struct Local { char c; Local *next; } local; local.c = by; auto adds = [by, local](int to) { return to + by + local.c; };
  return adds(by);
}
"""
SOURCE = ZOO + LAMBDA + "\n".join(f"struct Holder{n} {{ {name} held; }} held_{n};" for n, name in enumerate(HELD)) + """
extern "C" int _fltused = 0;
extern "C" int _purecall() { return 0; }
extern "C" int mainCRTStartup() { return use(1); }
"""

# Types of C: the unions and structures of their members have no name, and no type has a decorated one.
SOURCE_C = """
typedef struct { int x; union { float f; struct { short low, high; }; }; } Plain;
typedef enum { First, Second = 0x7fffffff } Order;
struct Node { struct Node *class; Order template; Plain new[2]; unsigned flag : 1; union { char a; long b; } inner; };
struct Node node; Plain plain;
int mainCRTStartup(void) { return node.flag; }
"""

# Types of libc++, by its own headers.
LIBRARY = "\n".join(f"#include <{name}>" for name in "vector map string unordered_map functional memory list deque set tuple optional variant".split()) + """
struct Held {
  std::vector<int> v; std::map<std::string, int> m; std::unordered_map<std::string, std::vector<double>> u;
  std::function<int(std::string const &)> f; std::unique_ptr<int> p; std::shared_ptr<std::string> s; std::list<int> l;
  std::deque<char> d; std::set<long> t; std::tuple<int, char, double> a; std::optional<std::string> o;
  std::variant<int, std::string, double> x;
};
Held *held;
int use() {
  return held->v[0] + held->m.size() + held->u.size() + held->f("a") + *held->p + held->s->size() + held->l.size()
      + held->d.size() + held->t.size() + std::get<0>(held->a) + held->o->size() + held->x.index();
}
"""


def header(dumper, file, language, names=("--all",)):
    """What a call of `declare` gives."""
    flags = LANGUAGES[language][1]
    words = [*flags, "--all", file] if names == ("--all",) else [*flags, file, *names]
    return call(dumper, ["declare", *words])


def compile_errors(room, text, language):
    """Why Clang refuses a header, for the machine that its first line tells of."""
    ending, _, flags = LANGUAGES[language]
    machine = MACHINES[int(FIRST_LINE.match(text)[2])]
    path = room / f"declared.{ending}"
    path.write_text(text, encoding="utf-8")
    words = [f"--target={machine}-pc-windows-msvc", "-fms-extensions", "-fsyntax-only", "-w", "-ferror-limit=0", *flags]
    ran = subprocess.run([tool("clang"), *words, path.name], cwd=room, capture_output=True, text=True, check=False)
    lines = [line for line in ran.stderr.splitlines() if "error:" in line]
    return lines or ([ran.stderr] if ran.returncode else [])


def definitions(text):
    """The name and the size of each type that a header defines, by its index."""
    return {int(index, 16): (name, int(size)) for index, name, size in DEFINITION.findall(text)}


def check_file(tally, room, dumper, file):
    """That the headers of all types of a file compile, in both languages, that no class is missing, and that each is as
    large as LLVM tells. Returns how many classes there are, and how many have an array of bytes, by language."""
    classes = {index: it for index, it in llvm.classes(file).items() if it[1]}
    found = {}
    for language in LANGUAGES:
        where = f"{dumper.name} declare {file.name} in {language}"
        came = header(dumper, file, language)
        tally.check(came.status == 0 and not came.err, f"{where}: status {came.status}, {came.err[:200]!r}")
        text = came.out.decode()
        begins = FIRST_LINE.match(text)
        tally.check(begins, f"{where}: begins with {text[:80]!r}")
        if not begins:
            continue
        for line in compile_errors(room, text, language):
            tally.check(False, f"{where}: {line[-300:]}")
        told = definitions(text)
        ours = {index: told.get(index) for index in classes}
        tally.check(ours == classes, f"{where}: classes {set(ours.items()) ^ set(classes.items())}")
        found[language] = len(told), sum(BYTES in block for block in text.split("\n\n"))
    return found
