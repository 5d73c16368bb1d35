// The program of which examples/sample.pdb tells. examples/make-sample compiles it for Windows on 32 bits.

extern "C" {
int _fltused = 0;
int _purecall() { return 0; }
int checksum(int seed);
int mainCRTStartup();
}

// Written by hand: the compiler describes no frame of it, so make-sample does, in the older format.
asm(R"(
    .globl _checksum
_checksum:
    movl 4(%esp), %eax
    imull $31, %eax
    retl
)");

namespace shapes {

enum class Colour : unsigned char { Red, Green = 7, Blue = 255 };
enum Limit { Least = -5, Most = 70000 };

} // namespace shapes

struct Point {
    int x, y;
};

union Payload {
    int whole;
    float part;
    Point *at;
    char bytes[8];
};

struct Flags {
    unsigned low : 3;
    unsigned high : 13;
    int : 16;
    bool ready : 1;
};

class Base {
  public:
    virtual int area(int by) const = 0;
    int id() const { return id_; }
    static int count;

  protected:
    int id_;
};

struct Tagged {
    char tag;
};

struct Shared {
    virtual void share() {}
    double weight;
};

class Derived : public Base, private Tagged, public virtual Shared {
  public:
    enum State { Idle, Busy };
    struct Inner {
        Inner *next;
        Payload payload;
    };

    Derived(int id) { id_ = id; }
    int area(int by) const override { return by * grid[1][2]; }
    void share() override { ++count; }
    int scale(int by) { return by; }
    int scale(int by, char unit) { return by + unit; }
    static Derived *make(const Point &at, Payload &&payload);

    int grid[3][4];
    Flags flags;
    int (*compare)(const char *, int);
    int (Base::*measure)(int) const;
    int Point::*axis;
    const volatile int *watched;
    Inner inner;
    State state;
};

int Base::count = 0;

Derived *Derived::make(const Point &at, Payload &&payload) {
    static Derived only(at.x);
    only.inner.payload = payload;
    return &only;
}

// Its 800 values take more than one list of fields.
#define TEN(name) name##0, name##1, name##2, name##3, name##4, name##5, name##6, name##7, name##8, name##9
#define HALF(name) TEN(name##0), TEN(name##1), TEN(name##2), TEN(name##3), TEN(name##4)
#define HUNDRED(name) HALF(name), TEN(name##5), TEN(name##6), TEN(name##7), TEN(name##8), TEN(name##9)
enum Code {
    HUNDRED(A_code_whose_name_is_so_long_that_a_single_list_of_fields_cannot_hold_all_0),
    HUNDRED(A_code_whose_name_is_so_long_that_a_single_list_of_fields_cannot_hold_all_1),
    HUNDRED(A_code_whose_name_is_so_long_that_a_single_list_of_fields_cannot_hold_all_2),
    HUNDRED(A_code_whose_name_is_so_long_that_a_single_list_of_fields_cannot_hold_all_3),
    HUNDRED(A_code_whose_name_is_so_long_that_a_single_list_of_fields_cannot_hold_all_4),
    HUNDRED(A_code_whose_name_is_so_long_that_a_single_list_of_fields_cannot_hold_all_5),
    HUNDRED(A_code_whose_name_is_so_long_that_a_single_list_of_fields_cannot_hold_all_6),
    HUNDRED(A_code_whose_name_is_so_long_that_a_single_list_of_fields_cannot_hold_all_7),
};

template <class T, int N> struct Array {
    T items[N];
    T &operator[](int at) { return items[at]; }
};

Code code;
Array<Point, 4> points;

static int compare(const char *text, int length) { return text[length]; }

int __stdcall measure(Base &base, shapes::Colour colour, shapes::Limit limit) {
    return base.area((int)colour) + limit;
}

int mainCRTStartup() {
    Point at = {3, 4};
    Derived *it = Derived::make(at, Payload{7});
    it->compare = compare;
    it->measure = &Base::area;
    it->axis = &Point::y;
    int scaled = it->scale(1) + it->scale(2, 'c');
    return measure(*it, shapes::Colour::Green, shapes::Least) + checksum(scaled) + points[0].x + code;
}
