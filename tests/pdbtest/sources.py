"""The sources in C and C++ of the files that are made."""

TINY = """
int square(int number) { return number * number; }
int mainCRTStartup(void) { return square(3); }
"""

CALLER = """
struct point { int x, y; struct point *next; };
int distance(const struct point *from, const struct point *to);
int mainCRTStartup(void) {
    struct point to = {3, 4, 0}, from = {1, 2, &to};
    return distance(&from, &to);
}
"""

CALLED = """
struct point { int x, y; struct point *next; };
int distance(const struct point *from, const struct point *to) {
    int x = to->x - from->x, y = to->y - from->y;
    return x * x + y * y;
}
"""

SHAPE = """
#line 1 "höhe_@.h"
enum class Colour_@ : unsigned char { Red_@, Green_@ = 7, Blue_@ = 255 };
union Weight_@ { int whole; float part; char bytes[@ + 4]; };
struct Shape_@ : $ {
    Colour_@ colour_@;
    Weight_@ weight_@;
    Shape *next_@[@ + 1];
    int area(int by) const override { return by * @ + (int)colour_@; }
};
static Shape_@ shape_@;
int measure_@(const Shape_@ &shape, Colour_@ colour, int by) {
    int total = by;
    for (int at = 0; at < @; at++) total += shape.area(at) + (int)colour;
    return total;
}
"""


# Frames in both formats: LLD takes the old ones from .debug$F, where the assembler puts them by hand.
FRAMES = """
int called(int a, int b, int c);
int twice(int a, int b) { return called(a, b, a * b) + called(b, a, 3); }
int called(int a, int b, int c) {
    int many[20];
    for (int i = 0; i < 20; i++) many[i] = a * i + b;
    return many[c & 15];
}
int mainCRTStartup(void) { return twice(1, 2); }
"""

OLD_FRAMES = """
.section .debug$F,"dr"
.long _mainCRTStartup@IMGREL, 16, 0
.short 0, 0
.long 0x2000, 8, 1
.short 2, 0x9a05
"""

# A class with a virtual base, and with members of several kinds.
DERIVED = """
struct Base { static int count; virtual int first(int by); int second(); int second(int by); };
int Base::count = 0;
int Base::first(int by) { return by; }
int Base::second() { return 2; }
int Base::second(int by) { return by; }
enum class Colour : unsigned char { Red, Green = 200, Blue = 255 };
union Weight { int whole; float part; char bytes[12]; };
struct Derived : virtual Base { Colour colour; Weight weight; Derived *next[3]; unsigned low : 3;
    int Base::*member; int (Base::*method)(int); };
extern "C" int _purecall() { return 0; }
Derived derived;
extern "C" int mainCRTStartup() { return derived.first(1) + derived.second() + derived.second(2) + Base::count; }
"""


def wide_source(members, enumerators):
    """C++ with a class and an enumeration whose fields take several lists, and smaller ones of every kind of field."""
    fields = " ".join(f"int field_{n};" for n in range(members))
    entries = ", ".join(f"Item_{n}" for n in range(enumerators))
    return f"""
    extern "C" int _fltused = 0;
    extern "C" int _purecall() {{ return 0; }}
    struct Base {{
        static int count; struct Inner {{ int x; }} inner; virtual int first(int by); int second(); int second(int by);
    }};
    int Base::count = 0;
    int Base::first(int by) {{ return by; }}
    int Base::second() {{ return 2; }}
    int Base::second(int by) {{ return by; }}
    struct Other {{ int other; }};
    struct Derived : virtual Base, Other {{ int third() const {{ return 3; }} }};
    struct Wide : Other {{ {fields} int last() {{ return field_0; }} }};
    enum Wider {{ {entries} }};
    Wide wide; Wider wider; Base base; Derived derived;
    extern "C" int mainCRTStartup() {{
        return wide.last() + base.first(1) + base.second() + base.second(2) + derived.third() + Base::count + wider;
    }}
    """


def large_source(count):
    """C++ with a hierarchy of so many classes, and an enum, a union, functions and a header's name for each."""
    text = 'extern "C" int _fltused = 0;\nextern "C" int _purecall() { return 0; }\n'
    text += "struct Shape { int id; virtual int area(int by) const = 0; };\n"
    calls = ""
    for n in range(count):
        base = f"Shape_{n - 1}" if n % 4 else "Shape"
        text += SHAPE.replace("$", base).replace("@", str(n))
        calls += f"    total += measure_{n}(shape_{n}, Colour_{n}::Green_{n}, total);\n"
    # Enumerators that one record cannot hold: so their list is continued in another.
    entries = ", ".join(f"Entry_{n}" for n in range(16 * count))
    text += f"enum Long {{ {entries} }};\nLong longest;\n"
    return text + f'extern "C" int mainCRTStartup() {{\n    int total = longest;\n{calls}    return total;\n}}\n'


def classes_source():
    """C++ of a few classes, and an enumeration whose values are continued in a second list."""
    text = large_source(12)
    entries = ", ".join(f"Continued_{n}" for n in range(4200))
    return text.replace("int total = longest;", "int total = longest + continued;").replace(
        "Long longest;", f"Long longest;\nenum More {{ {entries} }};\nMore continued;"
    )
