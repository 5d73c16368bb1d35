// Classes with every kind of member. None has a constructor of its own, so that a script may declare such members.
extern "C" int _fltused = 0;
extern "C" int _purecall() { return 0; }
void operator delete(void *, decltype(sizeof 0)) {}
void operator delete(void *) {}
struct Empty {};
struct Empty2 {};
struct Base { virtual int first(int by); int id; bool check(int); int last() const; };
struct Second { virtual int other(); short s; };
struct VirtualA { int vb_a; double vb_b; };
struct VirtualB { char vb_c; };
struct EmptyBase : Empty, Empty2 { char after; };
struct Many : Base, Second { char many; };
struct Derived : Base, virtual VirtualA { char tag; double w; };
struct Twice : Derived, virtual VirtualB { long long wide; char end; };
struct Numbers {
  char c; signed char sc; unsigned char uc; short s; unsigned short us; int i; unsigned int ui; long l;
  unsigned long ul; long long ll; unsigned long long ull; float f; double d; bool b; wchar_t w; char16_t c16;
  char32_t c32;
};
struct Bits {
  unsigned lo : 3; unsigned hi : 13; unsigned : 2; unsigned more : 14; int next : 31; char c;
  unsigned long long big : 40; unsigned long long rest : 20; bool flag : 1; short last : 9;
};
enum Plain { Red, Green };
enum class Scoped : short { A, B };
union Either { int whole; float part; char bytes[7]; double wide; };
struct Members {
  enum Inner : unsigned char { X }; struct Nested { char a; int b; struct Deeper { short z; } deeper; };
  int (*function)(const char *, int); int (**functions[3])(int, double); int table[3][4]; char name[5];
  const char *text; int (*row)[4]; void *any; const volatile int cv; const int *const both; volatile char *loud;
  Plain plain; Scoped scoped; Inner inner; Nested nested; const Nested fixed; Nested several[2]; Either either;
  Empty empty; Base *base; Members *self; bool (Base::*method)(int); int Base::*data; int (*(*returns)(int))(char);
  const char *const names[2]; int &reference; Base &&moved; const Nested &constant; int (&array)[4];
  union { int inside; short half; } local; struct { char u; } anonymous; int (Base::*constant_method)() const;
  void (*variadic)(const char *, ...);
};
#pragma pack(push, 1)
struct Packed { char a; int b; short c; double d; };
#pragma pack(pop)
struct alignas(32) Aligned { char a; };
struct Holder { char before; Aligned aligned; char behind; };
template <class T> struct Box { T value; char end; };
template <class T, int N> struct Array { T values[N]; };
namespace outer { namespace inner { struct Deep { char a; long long b; }; } }
class Private { char hidden; protected: int shown; public: short open; };
typedef struct { int first; char second; } Untagged;
int Base::first(int by) { return by; }
bool Base::check(int by) { return by; }
int Base::last() const { return 1; }
int Second::other() { return 2; }
