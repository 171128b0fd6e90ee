"""Texts of declarations that are refused, each with its fault: its number (docs/LANGUAGE.md), the schema's number or 0,
and the line and the column of its place (RFC 4506 section 6, RFC 5531 section 12)."""

# A text, and the number, the schema's number, the line and the column.
# Bytes that begin no token, and comments that do not end (RFC 4506 section 6.2).
STRAY = [
    (b"/* x", 1, 0, 1, 1),
    (b"/*/ const a = 1;", 1, 0, 1, 1),
    (b"const a = 1; /* x *\n/ const b = 2;", 1, 0, 1, 14),
    (b"const a = 1;\nconst b = @;", 1, 0, 2, 11),
    (b"const a \x00= 1;", 1, 0, 1, 9),
    (b"const a = - 1;", 1, 0, 1, 11),
    (b"const a = -x;", 1, 0, 1, 11),
    (b"const A = 1 -", 1, 0, 1, 13),
    (b"const a = 1 / 2;", 1, 0, 1, 13),
    (b"struct s { int _a; };", 1, 0, 1, 16),
    (b"const a = 1;\r\x80", 1, 0, 1, 14),
]
# Constants that are none, or too great or too small for the language.
WRONG = [
    (b"const A = 08;", 2, 0, 1, 11),
    (b"const A = 0x;", 2, 0, 1, 11),
    (b"const A = 0xg;", 2, 0, 1, 11),
    (b"const A = 0X1;", 2, 0, 1, 11),
    (b"const A = -0;", 2, 0, 1, 11),
    (b"const A = -0x1;", 2, 0, 1, 11),
    (b"const A = 12ab;", 2, 0, 1, 11),
    (b"typedef opaque x[1_0];", 2, 0, 1, 18),
    (b"const A =\n\t18446744073709551616;", 2, 0, 2, 2),
    (b"const A = -9223372036854775809;", 2, 0, 1, 11),
]
# Tokens that no definition or declaration goes on with (RFC 4506 section 6.3, RFC 5531 section 12.2).
UNEXPECTED = [
    (b"const a = 1", 3, 0, 1, 12),
    (b"const a = b;", 3, 0, 1, 11),
    (b"const a = 1;\n\n  case", 3, 0, 3, 3),
    (b"int a;", 3, 0, 1, 1),
    (b"float a;", 3, 0, 1, 1),
    (b"typedef unsigned u;", 3, 0, 1, 18),
    (b"typedef void;", 3, 0, 1, 9),
    (b"typedef opaque a;", 3, 0, 1, 17),
    (b"typedef string a[3];", 3, 0, 1, 17),
    (b"typedef int a[];", 3, 0, 1, 15),
    (b"typedef int *a<3>;", 3, 0, 1, 15),
    (b"struct case { int a; };", 3, 0, 1, 8),
    (b"struct s { };", 3, 0, 1, 12),
    (b"struct s { int a; }", 3, 0, 1, 20),
]
# Tokens that enums, unions and programs do not go on with.
UNENDED = [
    (b"enum e { A = 1, };", 3, 0, 1, 17),
    (b"enum e { A };", 3, 0, 1, 12),
    (b"union u switch (void) { case 1: void; };", 3, 0, 1, 17),
    (b"union u switch (int d) { default: void; };", 3, 0, 1, 26),
    (b"union u switch (int d) { case 1: void; default: void; case 2: void; };", 3, 0, 1, 55),
    (b"program P { } = 5;", 3, 0, 1, 13),
    (b"program P { version V { void N() = 0; } = 1; } = 5;", 3, 0, 1, 32),
    (b"program P { version V { void N(void, int) = 0; } = 1; } = 5;", 3, 0, 1, 36),
    (b"program P { version V { void N(int, void) = 0; } = 1; } = 5;", 3, 0, 1, 37),
    (b"program P { version V { opaque N(void) = 0; } = 1; } = 5;", 3, 0, 1, 25),
]
# Words of floating kinds where a type may begin.
FLOATING_KINDS = [
    (b"typedef double d;", 4, 0, 1, 9),
    (b"typedef float *f;", 4, 0, 1, 9),
    (b"struct s {\n  float f;\n};", 4, 0, 2, 3),
    (b"union u switch (float d) { case 1: void; };", 4, 0, 1, 17),
    (b"union u switch (int d) { case 1: quadruple q; };", 4, 0, 1, 34),
    (b"program P { version V { double N(void) = 0; } = 1; } = 5;", 4, 0, 1, 25),
    (b"program P { version V { void N(quadruple) = 0; } = 1; } = 5;", 4, 0, 1, 32),
    (b"program P { version V { void N(int, float) = 0; } = 1; } = 5;", 4, 0, 1, 37),
]
# Chains of typedefs that do not end, at the first typedef that leads into one.
ENDLESS_TYPEDEFS = [
    (b"typedef a b; typedef b a;", 9, 0, 1, 11),
    (b"typedef a a;", 9, 0, 1, 11),
    (b"typedef c a; typedef c b; typedef b c;", 9, 0, 1, 11),
    (b"typedef opaque x[0]; typedef a a;", 9, 0, 1, 32),
    (b"struct s { t x; };\ntypedef t t;", 9, 0, 2, 11),
]
# Sizes of zero, and void fields.
EMPTY_KINDS = [
    (b"typedef opaque x[0];", 10, 2, 1, 9),
    (b"typedef int x[0];", 10, 2, 1, 9),
    (b"const N = 0; typedef int x[N];", 10, 2, 1, 22),
    (b"struct s {\n  int a;\n  opaque x[0];\n};", 10, 2, 3, 3),
    (b"struct s { void; };", 10, 3, 1, 1),
    (b"struct s { void; void; };", 10, 3, 1, 1),
    (b"struct a {\n  struct {\n    void;\n  } b;\n};", 10, 3, 2, 3),
    (b"\n program P { version V { void N(struct { void; }) = 0; } = 1; } = 1;", 10, 3, 2, 2),
    (b"const a = 1; program P { version V { struct { void; } N(void) = 0; } = 1; } = 1;", 10, 3, 1, 14),
]
# Discriminants and cases that make no union.
UNIONS = [
    (b"union u switch (hyper d) { case 1: void; };", 10, 4, 1, 1),
    (b"union u switch (string d<4>) { case 1: void; };", 10, 4, 1, 1),
    (b"typedef opaque t[4]; union u switch (t d) { case 1: void; };", 10, 4, 1, 22),
    (b"union u switch (int d) { case 1: case 1: void; };", 10, 5, 1, 1),
    (b"const A = 1; union u switch (int d) { case A: void; case 1: int x; };", 10, 5, 1, 14),
    (b"typedef int a; union u switch (bool b) { case 2: void; };", 10, 6, 1, 16),
    (b"union u switch (unsigned int d) { case -1: void; };", 10, 6, 1, 1),
    (b"union u switch (int d) { case 4294967295: void; };", 10, 6, 1, 1),
    (b"enum e { A = 1 }; union u switch (e d) { case 2: void; };", 10, 6, 1, 19),
]
# Kinds without a finite value.
ENDLESS_KINDS = [
    (b"struct a { a x; };", 10, 7, 1, 1),
    (b"struct a { b x; }; struct b { a x; };", 10, 7, 1, 1),
    (b"struct a { a x[2]; };", 10, 7, 1, 12),
    (b"union u switch (bool b) { case TRUE: u x; case FALSE: u y; default: void; };", 10, 7, 1, 1),
    (b"enum e { A = 0, B = 1 }; union u switch (e d) { case A: u x; case B: u y; default: void; };", 10, 7, 1, 26),
    (b"typedef union switch (int d) { case 1: u x; } u;", 10, 7, 1, 9),
]
# Constants, members of enums, types and programs that are there twice (RFC 4506 section 6.4, RFC 5531 section 12.3).
DECLARED_TWICE = [
    (b"const A = 1; const A = 2;", 5, 0, 1, 20),
    (b"const A = 1; typedef int A;", 5, 0, 1, 26),
    (b"const TRUE = 1;", 5, 0, 1, 7),
    (b"struct FALSE { int a; };", 5, 0, 1, 8),
    (b"enum e { A = 1, A = 2 };", 5, 0, 1, 17),
    (b"enum e { A = 1 }; enum f { A = 1 };", 5, 0, 1, 28),
    (b"enum e { e = 1 };", 5, 0, 1, 10),
    (b"const A = 1; struct s { enum { A = 2 } e; };", 5, 0, 1, 32),
    (b"typedef int P; program P { version V { void N(void) = 0; } = 1; } = 1;", 5, 0, 1, 24),
    (b"program P { version V { void N(void) = 0; } = 1; } = 1; const P = 1;", 5, 0, 1, 63),
]
# Fields, arms, versions and procedures that are there twice.
TWICE_IN_SCOPE = [
    (b"struct s { int a; int a; };", 5, 0, 1, 23),
    (b"struct s { int a; opaque a<>; };", 5, 0, 1, 26),
    (b"struct s { int a; struct { int a; } a; };", 5, 0, 1, 37),
    (b"union u switch (int d) { case 1: int a; case 2: int a; };", 5, 0, 1, 53),
    (b"union u switch (int d) { case 1: int a; default: int a; };", 5, 0, 1, 54),
    (b"program P { version V { void N(void) = 0; } = 1; version V { void N(void) = 0; } = 2; } = 1;", 5, 0, 1, 58),
    (b"program P { version V { void N(void) = 0; void N(void) = 1; } = 1; } = 1;", 5, 0, 1, 48),
]
# Numbers of procedures, and pairs of a program and a version, that are there twice.
NUMBERED_TWICE = [
    (b"program P { version V { void N(void) = 0; void M(void) = 0; } = 1; } = 1;", 5, 0, 1, 58),
    (b"program P { version A { void N(void) = 0; } = 1; version B { void N(void) = 0; } = 1; } = 5;", 5, 0, 1, 84),
    (
        b"program P { version V { void N(void) = 0; } = 1; } = 7;\nprogram Q { version V { void N(void) = 0; } = "
        b"1; } = 7;",
        5,
        0,
        2,
        47,
    ),
    (
        b"program P { version V { void N(void) = 0; } = 1; version W { void N(void) = 0; } = 1; } = 4294967296;",
        5,
        0,
        1,
        84,
    ),
]
# Sizes that are negative, or no constant of `const` (RFC 4506 sections 4 and 6.4).
NO_SIZES = [
    (b"typedef opaque o<TRUE>;", 7, 0, 1, 18),
    (b"typedef string s<FALSE>;", 7, 0, 1, 18),
    (b"enum e { A = 1 }; typedef opaque o[A];", 7, 0, 1, 36),
    (b"typedef int x[-1];", 7, 0, 1, 15),
    (b"const N = -1; typedef int x<N>;", 7, 0, 1, 29),
]
# Sizes, members of enums and cases out of range.
OUT_OF_RANGE = [
    (b"typedef opaque o<4294967296>;", 8, 0, 1, 18),
    (b"const N = 4294967296; typedef string x<N>;", 8, 0, 1, 40),
    (b"enum e { A = 2147483648 };", 8, 0, 1, 14),
    (b"enum e { A = -2147483649 };", 8, 0, 1, 14),
    (b"const N = 2147483648; enum e { A = N };", 8, 0, 1, 36),
    (b"union u switch (unsigned int d) { case 4294967296: void; };", 8, 0, 1, 40),
    (b"union u switch (int d) { case -2147483649: void; };", 8, 0, 1, 31),
    (b"const N = 4294967296; union u switch (int d) { case 1: case N: void; };", 8, 0, 1, 61),
]
# Numbers of programs, versions and procedures out of range.
PROGRAM_NUMBERS = [
    (b"program P { version V { void N(void) = 0; } = 1; } = 4294967296;", 8, 0, 1, 54),
    (b"program P { version V { void N(void) = 0; } = 1; } = -1;", 8, 0, 1, 54),
    (b"program P { version V { void N(void) = 0; } = -1; } = 1;", 8, 0, 1, 47),
    (b"program P { version V { void N(void) = 0; } = 4294967296; } = 1;", 8, 0, 1, 47),
    (b"program P { version V { void N(void) = 4294967296; } = 1; } = 1;", 8, 0, 1, 40),
]
# Names of constants that are not declared, not yet, or as something else (RFC 4506 section 6.4).
UNKNOWN_CONSTANTS = [
    (b"typedef int t<N>; const N = 3;", 6, 0, 1, 15),
    (b"typedef opaque x[N];", 6, 0, 1, 18),
    (b"typedef opaque x[t]; typedef int t;", 6, 0, 1, 18),
    (b"enum e { A = A };", 6, 0, 1, 14),
    (b"enum e { A = 1, B = C, C = 2 };", 6, 0, 1, 21),
    (b"const A = 1; enum e { B = a };", 6, 0, 1, 27),
    (b"union u switch (int d) { case N: void; };", 6, 0, 1, 31),
]
# Names of types that are not declared, not yet, or as something else.
UNKNOWN_TYPES = [
    (b"struct s { t x; };", 6, 0, 1, 12),
    (b"typedef TRUE t;", 6, 0, 1, 9),
    (b"const A = 1; typedef A b;", 6, 0, 1, 22),
    (b"struct s { x a; }; const x = 1; typedef int x;", 6, 0, 1, 12),
    (b"struct s { P a; }; program P { version V { void N(void) = 0; } = 1; } = 1;", 6, 0, 1, 12),
    (b"union u switch (t d) { case 1: void; };", 6, 0, 1, 17),
    (b"const A = 1;\nunion u switch (int d) {\n  case A: int a;\n  default: b *c;\n};", 6, 0, 4, 12),
    (b"program P { version V { t N(void) = 0; } = 1; } = 1;", 6, 0, 1, 25),
    (b"program P { version V { void N(int, t) = 0; } = 1; } = 1;", 6, 0, 1, 37),
]
# Texts with two faults, of several passes: tokens, the grammar, names and numbers, typedefs, kinds.
FIRST_OF_PASSES = [
    (b"typedef double d; const a = $;", 1, 0, 1, 29),
    (b"const a = 08; const b = @;", 2, 0, 1, 11),
    (b"const a = @; const b = 08;", 1, 0, 1, 11),
    (b"typedef int t<N>; const = 3;", 3, 0, 1, 25),
    (b"typedef double d; const = 3;", 4, 0, 1, 9),
    (b"typedef opaque a<-1>; typedef int b<N>;", 7, 0, 1, 18),
    (b"struct s { t x; int x; };", 6, 0, 1, 12),
    (b"struct s { int a; int a; t b; };", 5, 0, 1, 23),
    (b"enum e { A = 4294967296, A = B };", 8, 0, 1, 14),
    (b"typedef a b; typedef b a; typedef opaque x[N];", 6, 0, 1, 44),
    (b"union u switch (hyper d) { case N: void; };", 6, 0, 1, 33),
    (b"struct c { c x; }; typedef a b; typedef b a;", 9, 0, 1, 30),
    (b"struct a { a x; }; typedef opaque y[0];", 10, 2, 1, 28),
]
# Of two faults a name or a number that is there twice comes first.
TWICE_FIRST = [
    (b"const A = 1; const A = 2; typedef int x<N>;", 5, 0, 1, 20),
    (b"enum e { A = 1, A = 4294967296 };", 5, 0, 1, 17),
    (b"typedef int t; struct t { u x; };", 5, 0, 1, 23),
    (b"typedef int P; program P { version V { t N(void) = 0; } = 1; } = 1;", 5, 0, 1, 24),
    (b"union u switch (int d) { case 1: int a; case 2: int a; case N: void; };", 5, 0, 1, 53),
    (b"union u switch (int d) { case 1: int a; default: int a; }; typedef t x;", 5, 0, 1, 54),
    (b"program P { version V { void N(void) = 0; } = 1; version V { void N(t) = 0; } = 2; } = 1;", 5, 0, 1, 58),
    (b"program P { version V { void N(void) = 0; void N(t) = 1; } = 1; } = 1;", 5, 0, 1, 48),
    (b"program P { version V { void N(void) = 0; void M(void) = 0; } = -1; } = 1;", 5, 0, 1, 58),
    (b"typedef a a; enum e { A = 1, A = 2 };", 5, 0, 1, 30),
]
# Of two faults a name that is not declared, or as something else, comes first.
UNKNOWN_FIRST = [
    (b"struct s { t *x; int x; };", 6, 0, 1, 12),
    (b"struct s { t x[2]; int x; };", 6, 0, 1, 12),
    (b"struct s { t x<>; int x; };", 6, 0, 1, 12),
    (b"union u switch (t d) { case N: void; };", 6, 0, 1, 17),
    (b"union u switch (int d) { case 1: void; default: t x; }; typedef z y;", 6, 0, 1, 49),
    (b"union u switch (int d) { case 1: t x; case N: void; };", 6, 0, 1, 34),
    (b"union u switch (int d) { case N: t x; };", 6, 0, 1, 31),
    (b"program P { version V { void N(t) = 0; } = -1; } = 1;", 6, 0, 1, 32),
    (b"program P { version V { t N(void) = 0; } = -1; } = 1;", 6, 0, 1, 25),
    (
        b"program P { version V { void N(void) = 0; } = 1; } = 7; program Q { version V { void N(void) = 0; } = "
        b"1; } = 8; typedef t u;",
        6,
        0,
        1,
        121,
    ),
    (b"struct s { P a; }; program P { version V { void N(void) = 0; } = 1; } = 1; typedef int P;", 6, 0, 1, 12),
    (b"typedef TRUE t; typedef int TRUE;", 6, 0, 1, 9),
    (b"struct s { FALSE x; }; struct FALSE { int a; };", 6, 0, 1, 12),
    (b"struct s { int a; t a; };", 6, 0, 1, 19),
    (b"union u switch (int d) { case 1: int a; case N: int a; };", 6, 0, 1, 46),
    (b"program P { version V { void N(void) = 0; t N(void) = 1; } = 1; } = 1;", 6, 0, 1, 43),
    (b"enum e { A = N, B = 4294967296 };", 6, 0, 1, 14),
    (b"typedef opaque x[N]; typedef opaque y[-1];", 6, 0, 1, 18),
    (b"typedef string x<N>; typedef opaque y<4294967296>;", 6, 0, 1, 18),
    (b"typedef t x[N];", 6, 0, 1, 9),
    (b"typedef int x[N]; typedef t y;", 6, 0, 1, 15),
    (b"typedef t *x; typedef int x;", 6, 0, 1, 9),
    (b"typedef t x; typedef int x;", 6, 0, 1, 9),
    (b"union u switch (t d) { case 4294967296: void; };", 6, 0, 1, 17),
    (b"union u switch (int d) { case 1: t a; case 2: int a; };", 6, 0, 1, 34),
    (b"union u switch (int d) { case 1: int a; default: t a; };", 6, 0, 1, 50),
    (b"program P { version V { t N(u) = 0; } = 1; } = 1;", 6, 0, 1, 25),
    (b"program P { version V { void N(int, t) = -1; } = 1; } = 1;", 6, 0, 1, 37),
    (b"typedef TRUE TRUE;", 6, 0, 1, 9),
    (b"struct s { TRUE x; }; program TRUE { version V { void N(void) = 0; } = 1; } = 1;", 6, 0, 1, 12),
    (b"union u switch (int d) { case 1: FALSE a; }; enum e { FALSE = 1 };", 6, 0, 1, 34),
]
# Of two faults a value that is no size comes first.
SIZE_FIRST = [
    (b"typedef string a<-1>; typedef int b<N>;", 7, 0, 1, 18),
    (b"typedef opaque x[TRUE]; typedef int y[4294967296];", 7, 0, 1, 18),
    (b"typedef opaque x<-1>; typedef t y;", 7, 0, 1, 18),
    (b"typedef int x[-1]; typedef int x;", 7, 0, 1, 15),
    (b"enum e { A = 1 }; typedef int x<A>; typedef opaque y<N>;", 7, 0, 1, 33),
]
# Of two faults a number out of its range comes first.
RANGE_FIRST = [
    (b"program P { version V { void N(void) = 0; } = 1; } = 4294967296; typedef int x<N>;", 8, 0, 1, 54),
    (b"program P { version V { void N(void) = -1; } = -1; } = 1;", 8, 0, 1, 40),
    (b"program P { version V { void N(void) = 0; } = -1; } = -1;", 8, 0, 1, 47),
    (b"union u switch (int d) { case 4294967296: t x; };", 8, 0, 1, 31),
    (b"enum e { A = 2147483648, B = N };", 8, 0, 1, 14),
    (b"typedef opaque x<4294967296>; typedef opaque y<TRUE>;", 8, 0, 1, 18),
    (b"union u switch (int d) { case -2147483649: int a; case 1: int a; };", 8, 0, 1, 31),
    (
        b"program P { version V { void N(void) = 0; } = 4294967296; version V { void N(void) = 0; } = 1; } = 1;",
        8,
        0,
        1,
        47,
    ),
    (b"program P { version V { void N(void) = 4294967296; void N(void) = 1; } = 1; } = 1;", 8, 0, 1, 40),
    (b"program P { version V { void N(void) = -1; void M(void) = -1; } = 1; } = 1;", 8, 0, 1, 40),
    (b"program P { version V { void N(void) = 0; } = 1; } = -1; const P = 1;", 8, 0, 1, 54),
]
# A typedef that never ends comes before kinds that are no schema.
LOOP_FIRST = [
    (b"typedef a a; typedef int x[0];", 9, 0, 1, 11),
]
# `struct` and a name that no definition of a struct declares.
UNKNOWN_STRUCTS = [
    (b"typedef struct nope n;", 6, 0, 1, 16),
    (b"enum e { A = 0 }; typedef struct e f;", 6, 0, 1, 34),
    (b"typedef struct t t;", 6, 0, 1, 16),
    (b"typedef int a; typedef struct a b;", 6, 0, 1, 31),
    (b"typedef struct { int x; } s; typedef struct s t;", 6, 0, 1, 45),
    (b"union u switch (int d) { case 1: int x; }; typedef struct u t;", 6, 0, 1, 59),
    (b"const A = 1; typedef struct A t;", 6, 0, 1, 29),
    (b"typedef struct TRUE t;", 6, 0, 1, 16),
    (b"program P { version V { struct P N(void) = 0; } = 1; } = 1;", 6, 0, 1, 32),
    (b"typedef struct A t; enum e { A = 1 }; struct A { int x; };", 6, 0, 1, 16),
    (b"program P { version V { struct s N(void) = 0; } = 1; } = 1;", 6, 0, 1, 32),
    (b"program P { version V { void N(struct s) = 0; } = 1; } = 1;", 6, 0, 1, 39),
    (b"union u switch (struct s d) { case N: void; };", 6, 0, 1, 24),
    (b"struct s { struct t *next; int x; int x; };", 6, 0, 1, 19),
]
# `long` and `struct` where no type is due, and words that are not of the language.
UNEXPECTED_WORDS = [
    (b"struct long { int x; };", 3, 0, 1, 8),
    (b"const long = 1;", 3, 0, 1, 7),
    (b"typedef struct s;", 3, 0, 1, 17),
    (b"typedef struct s", 3, 0, 1, 17),
    (b"typedef struct;", 3, 0, 1, 15),
    (b"typedef struct s { int a; } b;", 3, 0, 1, 18),
    (b"struct s t;", 3, 0, 1, 10),
    (b"struct s;", 3, 0, 1, 9),
    (b"typedef long;", 3, 0, 1, 13),
    (b"typedef unsigned unsigned u;", 3, 0, 1, 18),
    (b"typedef long long l;", 3, 0, 1, 14),
    (b"typedef unsigned long int l;", 3, 0, 1, 23),
    (b"typedef long int l;", 3, 0, 1, 14),
    (b"enum e { long = 1 };", 3, 0, 1, 10),
    (b"struct s { int long; };", 3, 0, 1, 16),
    (b"typedef int a[long];", 3, 0, 1, 15),
    (b"typedef enum e t;", 3, 0, 1, 14),
    (b"typedef union u t;", 3, 0, 1, 15),
    (b"typedef struct float f;", 3, 0, 1, 16),
    (b"typedef struct enum e;", 3, 0, 1, 16),
    (b"typedef unsigned float f;", 3, 0, 1, 18),
    (b"typedef unsigned struct s t;", 3, 0, 1, 18),
    (b"typedef unsigned long", 3, 0, 1, 22),
]
# Other faults of texts with `long`, or `struct` before a name.
OTHER_FAULTS = [
    (b"union u switch (struct s d) { case 1: void; }; struct s { int x; };", 10, 4, 1, 1),
    (b"struct s { struct s x; };", 10, 7, 1, 1),
    (b"struct s { int x; }; enum s { A = 1 }; typedef struct s t;", 5, 0, 1, 27),
    (b"enum s { A = 1 }; struct s { int x; }; typedef struct s t;", 5, 0, 1, 26),
]
# Texts with two faults, one of them a name after `struct`: the first in the text is told.
FIRST_OF_WORDS = [
    (b"typedef struct n a; struct s { int x; int x; };", 6, 0, 1, 16),
    (b"struct s { int x; int x; }; typedef struct n a;", 5, 0, 1, 23),
    (b"typedef struct s t; struct s { int x; }; enum s { A = 1 };", 5, 0, 1, 47),
    (b"typedef struct TRUE t; struct TRUE { int x; };", 6, 0, 1, 16),
    (b"typedef struct s t; typedef struct t u; struct s { int x; };", 6, 0, 1, 36),
    (b"typedef struct n x[-1];", 6, 0, 1, 16),
    (b"typedef struct n x[N];", 6, 0, 1, 16),
    (b"typedef opaque x<-1>; typedef struct n y;", 7, 0, 1, 18),
    (b"typedef m b; typedef struct n a;", 6, 0, 1, 9),
    (b"typedef struct n a; typedef m b;", 6, 0, 1, 16),
    (b"union u switch (int d) { case 1: struct n x; case N: void; };", 6, 0, 1, 41),
    (b"union u switch (int d) { case 1: int x; default: struct n y; };", 6, 0, 1, 57),
    (b"program P { version V { void N(int, struct n) = -1; } = 1; } = 1;", 6, 0, 1, 44),
    (b"typedef a a; typedef struct n t;", 6, 0, 1, 29),
]
# A typedef that never ends is told before kinds that are no schema, and those where the declaration of the kind begins,
# at the word.
LATER_FAULTS = [
    (b"struct s { int x; }; typedef struct s t; typedef a b; typedef b a;", 9, 0, 1, 52),
    (b"struct s { struct s x; }; typedef a a;", 9, 0, 1, 37),
    (b"struct s { int x; }; typedef struct s a[0];", 10, 2, 1, 30),
    (b"struct s { int x; }; struct t { struct s x[0]; };", 10, 2, 1, 33),
    (b"typedef long a[0];", 10, 2, 1, 9),
    (b"typedef unsigned long a[0];", 10, 2, 1, 9),
]
# Spellings of the RFCs that are not read: a const and a procedure's number that are names, a star before the name of a
# struct's definition (RFC 1833), an array of size 0 and a name after a definition's body (RFC 5531), two names that
# nothing declares (RFC 1813), floating-point types (RFC 4506 sections 4.6 to 4.8).
LEFT_OUT = [
    (b"const rpcb_highproc_2 = RPCBPROC_CALLIT;", 3, 0, 1, 25),
    (b"program P { version V { int RPCBPROC_BCAST(int) = RPCBPROC_CALLIT; } = 4; } = 1;", 3, 0, 1, 51),
    (b"struct *pmaplist { int map; pmaplist next; };", 3, 0, 1, 8),
    (b"union u switch (int stat) { case 0: opaque results[0]; };", 10, 2, 1, 37),
    (b"union reply_body switch (int stat) { case 0: void; } reply;", 3, 0, 1, 54),
    (
        b"enum mountstat3 { MNT3_OK = 0 }; union mountres3 switch (mountstat3 s) { case MNT_OK: int x; default: "
        b"void; };",
        6,
        0,
        1,
        79,
    ),
    (
        b"struct FSINFOargs { int fsroot; }; program P { version V { int N(FSINFO3args) = 19; } = 3; } = 100003;",
        6,
        0,
        1,
        66,
    ),
    (b"typedef float identifier;", 4, 0, 1, 9),
    (b"typedef double identifier;", 4, 0, 1, 9),
    (b"typedef quadruple identifier;", 4, 0, 1, 9),
]
# The first of two places where one could be missed: the second case of an arm, and names behind members without any;
# and columns, which count bytes, where only a line feed begins a line.
OTHER_PLACES = [
    (b"union u switch (int d) { case 1: case N: t x; };", 6, 0, 1, 39),
    (b"union u switch (int d) { case 1: void; case 2: void; }; typedef t x;", 6, 0, 1, 65),
    (b"struct s { void; void; }; typedef t x;", 6, 0, 1, 35),
    (b"/* \xc3\xa9 */ const a = 08;", 2, 0, 1, 20),
    (b"\x0b\x0c const a = 08;", 2, 0, 1, 14),
]
# One name declared three times, in each order: the second in the text is told, whatever each declares.
THREE_TIMES = [
    (b"program A { version V { void N(void) = 1; } = 1; } = 1; typedef int A; const A = 1;", 5, 0, 1, 69),
    (b"program A { version V { void N(void) = 1; } = 1; } = 1; const A = 1; typedef int A;", 5, 0, 1, 63),
    (b"typedef int A; program A { version V { void N(void) = 1; } = 1; } = 1; const A = 1;", 5, 0, 1, 24),
    (b"typedef int A; const A = 1; program A { version V { void N(void) = 1; } = 1; } = 1;", 5, 0, 1, 22),
    (b"const A = 1; program A { version V { void N(void) = 1; } = 1; } = 1; typedef int A;", 5, 0, 1, 22),
    (b"const A = 1; typedef int A; program A { version V { void N(void) = 1; } = 1; } = 1;", 5, 0, 1, 26),
    (b"typedef int A; typedef int A; const A = 1; const A = 1;", 5, 0, 1, 28),
    (b"const B = 1; typedef int A; typedef int B; const A = 1;", 5, 0, 1, 41),
]
# The same behind a typedef of that name: it names a type where a typedef is the first of the three.
THREE_TIMES_NAMED = [
    (b"typedef A t; program A { version V { void N(void) = 1; } = 1; } = 1; typedef int A; const A = 1;", 6, 0, 1, 9),
    (b"typedef A t; program A { version V { void N(void) = 1; } = 1; } = 1; const A = 1; typedef int A;", 6, 0, 1, 9),
    (b"typedef A t; typedef int A; program A { version V { void N(void) = 1; } = 1; } = 1; const A = 1;", 5, 0, 1, 37),
    (b"typedef A t; typedef int A; const A = 1; program A { version V { void N(void) = 1; } = 1; } = 1;", 5, 0, 1, 35),
    (b"typedef A t; const A = 1; program A { version V { void N(void) = 1; } = 1; } = 1; typedef int A;", 6, 0, 1, 9),
    (b"typedef A t; const A = 1; typedef int A; program A { version V { void N(void) = 1; } = 1; } = 1;", 6, 0, 1, 9),
    (b"typedef struct A t; struct A { int x; }; const A = 1; typedef int A;", 5, 0, 1, 48),
    (b"typedef struct A t; typedef int A; const A = 1; struct A { int x; };", 6, 0, 1, 16),
]
# Fields, arms and procedures of one name, three of them or two pairs in one another.
THREE_IN_SCOPE = [
    (b"struct s { int a; int a; int a; };", 5, 0, 1, 23),
    (b"struct s { int x; int a; int x; int a; int x; };", 5, 0, 1, 30),
    (b"struct s { int x; int a; int a; int x; };", 5, 0, 1, 30),
    (b"union u switch (int d) { case 1: int a; case 2: int a; default: int a; };", 5, 0, 1, 53),
    (b"program P { version V { void N(void) = 0; void N(void) = 1; void N(void) = 2; } = 1; } = 1;", 5, 0, 1, 48),
]
# Sixteen fields, of seven bytes each with the space behind it, after the eleven of their beginning.
FIELDS = (
    b"struct s { int a; int b; int c; int d; int e; int f; int g; "
    b"int h; int i; int j; int k; int l; int m; int n; "
)
SIXTEEN = FIELDS + b"int o; int p; "
# Fourteen constants, of thirteen bytes each, which with TRUE and FALSE are sixteen names; and as many types, of fifteen
# bytes.
CONSTANTS = (
    b"const a = 1; const b = 1; const c = 1; const d = 1; const e = 1; const f = 1; const g = 1; const h = 1; "
    b"const i = 1; const j = 1; const k = 1; const l = 1; const m = 1; const n = 1; "
)
TYPES = (
    b"typedef int a; typedef int b; typedef int c; typedef int d; typedef int e; typedef int f; typedef int g; "
    b"typedef int h; typedef int i; typedef int j; typedef int k; typedef int l; typedef int m; typedef int n; "
)
# Scopes of fifteen to eighteen names: apart, where a later fault is told, and with a name that is there twice.
MANY_NAMES = [
    (SIXTEEN + b"}; typedef t x;", 6, 0, 1, 135),
    (SIXTEEN + b"int q; }; typedef t x;", 6, 0, 1, 142),
    (FIELDS + b"int o; int a; };", 5, 0, 1, 121),
    (FIELDS + b"int o; int o; };", 5, 0, 1, 121),
    (SIXTEEN + b"int a; };", 5, 0, 1, 128),
    (SIXTEEN + b"int p; };", 5, 0, 1, 128),
    (SIXTEEN + b"int q; int a; };", 5, 0, 1, 135),
    (FIELDS + b"int a; int b; int b; int a; };", 5, 0, 1, 114),
    (CONSTANTS + b"typedef t x;", 6, 0, 1, 191),
    (CONSTANTS + b"const o = 1; typedef t x;", 6, 0, 1, 204),
    (CONSTANTS[:-13] + b"const a = 1; ", 5, 0, 1, 176),
    (CONSTANTS + b"const a = 1;", 5, 0, 1, 189),
    (CONSTANTS + b"const n = 1; const a = 1;", 5, 0, 1, 189),
    (CONSTANTS + b"typedef int a;", 5, 0, 1, 195),
    (TYPES + b"typedef t x;", 6, 0, 1, 219),
    (TYPES[:-15] + b"typedef int a;", 5, 0, 1, 208),
    (TYPES + b"typedef int a;", 5, 0, 1, 223),
    (TYPES + b"const TRUE = 1; typedef int n;", 5, 0, 1, 217),
    (TYPES + b"typedef int o; const o = 1; typedef int o; const b = 1;", 5, 0, 1, 232),
    (TYPES + b"program a { version V { void N(void) = 1; } = 1; } = 1;", 5, 0, 1, 219),
]
# Void has no name: eighteen arms of void, and two void fields behind sixteen others, where a later fault is told.
ARMS = b"".join(b"case %d: void; " % number for number in range(1, 19))
MANY_VOIDS = [
    (b"union u switch (int d) { " + ARMS + b"}; typedef t x;", 6, 0, 1, 298),
    (SIXTEEN + b"void; void; }; typedef t x;", 6, 0, 1, 147),
]
TABLES = [
    STRAY,
    WRONG,
    UNEXPECTED,
    UNENDED,
    FLOATING_KINDS,
    ENDLESS_TYPEDEFS,
    EMPTY_KINDS,
    UNIONS,
    ENDLESS_KINDS,
    DECLARED_TWICE,
    TWICE_IN_SCOPE,
    NUMBERED_TWICE,
    NO_SIZES,
    OUT_OF_RANGE,
    PROGRAM_NUMBERS,
    UNKNOWN_CONSTANTS,
    UNKNOWN_TYPES,
    FIRST_OF_PASSES,
    TWICE_FIRST,
    UNKNOWN_FIRST,
    SIZE_FIRST,
    RANGE_FIRST,
    LOOP_FIRST,
    UNKNOWN_STRUCTS,
    UNEXPECTED_WORDS,
    OTHER_FAULTS,
    FIRST_OF_WORDS,
    LATER_FAULTS,
    LEFT_OUT,
    OTHER_PLACES,
    THREE_TIMES,
    THREE_TIMES_NAMED,
    THREE_IN_SCOPE,
    MANY_NAMES,
    MANY_VOIDS,
]
