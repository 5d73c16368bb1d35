//! Programs that were written for the crate `pdb`, run over examples/sample.pdb. What they print is compared with what
//! examples/sample.cpp declares, and with what llvm-pdbutil tells of the file.

mod declarations;
mod frames;

const SAMPLE: &str = concat!(env!("CARGO_MANIFEST_DIR"), "/../examples/sample.pdb");

/// The members and base classes are those of the source; sizes and offsets are those of Clang's layouts.
const DERIVED: &str = "\
class Base { // 8 bytes
public:
    static int count;
protected:
    int id_; // +4
public:
    virtual int area(int) const;
    int id() const;
};
struct Tagged { // 1 bytes
    char tag; // +0
};
struct Shared { // 16 bytes
    double weight; // +8
    virtual void share();
};
struct Flags { // 8 bytes
    unsigned low : 3; // +0
    unsigned high : 13; // +0
    bool ready : 1; // +4
};
union Payload { // 8 bytes
    int whole; // +0
    float part; // +0
    Point *at; // +0
    char bytes[8]; // +0
};
struct Derived::Inner { // 12 bytes
    Derived::Inner *next; // +0
    Payload payload; // +4
};
enum Derived::State : int { Idle = 0, Busy = 1 };
class Derived : public Base, private Tagged, public virtual Shared { // 128 bytes
public:
    int grid[3][4]; // +20
    Flags flags; // +68
    int (*compare)(const char *, int); // +76
    int (Base::*measure)(int) const; // +80
    int Point::*axis; // +84
    const volatile int *watched; // +88
    Derived::Inner inner; // +92
    Derived::State state; // +104
    Derived(int);
    virtual int area(int) const;
    virtual void share();
    int scale(int);
    int scale(int, char);
    static Derived *make(const Point &, Payload &&);
};
";

const ARRAY: &str = "\
struct Point { // 8 bytes
    int x; // +0
    int y; // +4
};
struct Array<Point,4> { // 32 bytes
    Point items[4]; // +0
    Point &operator[](int);
};
";

#[test]
fn declarations_of_classes() {
    assert_eq!(declarations::declarations(SAMPLE, "Derived").unwrap(), DERIVED);
    assert_eq!(declarations::declarations(SAMPLE, "Array<Point,4>").unwrap(), ARRAY);
    assert_eq!(declarations::declarations(SAMPLE, "Missing").unwrap_err().to_string(), "no such class");
}

/// The functions were moved in the image: where to is in the tables of which tests/upstream.rs tells.
const LISTING: &str = "\
section .text: 0x1000 to 0x11a0, xr
section .rdata: 0x2000 to 0x206f, r
section .data: 0x3000 to 0x30b0, rw
section .reloc: 0x4000 to 0x4060, r
frame 0x1000 at 0x1190, 16 bytes, fpo: locals 0, parameters 4, prolog 0, registers 0
frame 0x1010 at nowhere, 3 bytes, fdata: locals 0, parameters 0, prolog 0, registers 0, starts a function
    $T0 .raSearch = $eip $T0 ^ = $esp $T0 4 + =
frame 0x1020 at 0x1120, 100 bytes, fdata: locals 0, parameters 8, prolog 0, registers 0, starts a function
    $T0 .raSearch = $eip $T0 ^ = $esp $T0 4 + =
frame 0x1090 at 0x1100, 21 bytes, fdata: locals 0, parameters 12, prolog 0, registers 0, starts a function
    $T0 .raSearch = $eip $T0 ^ = $esp $T0 4 + =
frame 0x10b0 at 0x1050, 170 bytes, fdata: locals 0, parameters 0, prolog 1, registers 0, starts a function
    $T0 .raSearch = $eip $T0 ^ = $esp $T0 4 + =
frame 0x10b1 at 0x1051, 169 bytes, fdata: locals 0, parameters 0, prolog 0, registers 4
    $T0 .raSearch = $eip $T0 ^ = $esp $T0 4 + = $esi $T0 4 - ^ =
frame 0x1160 at 0x1030, 13 bytes, fdata: locals 0, parameters 8, prolog 0, registers 0, starts a function
    $T0 .raSearch = $eip $T0 ^ = $esp $T0 4 + =
frame 0x1180 at 0x1010, 11 bytes, fdata: locals 0, parameters 4, prolog 0, registers 0, starts a function
    $T0 .raSearch = $eip $T0 ^ = $esp $T0 4 + =
frame 0x11a0 at 0x1000, 1 bytes, fdata: locals 0, parameters 0, prolog 0, registers 0, starts a function
    $T0 .raSearch = $eip $T0 ^ = $esp $T0 4 + =
longest 0x10b0, 4 frames behind it
stream 14 /names: 176 bytes
stream 5 /LinkInfo: 0 bytes
";

#[test]
fn frames_sections_and_streams() {
    assert_eq!(frames::listing(SAMPLE).unwrap(), LISTING);
}
