"""The tokens of texts, and what the definitions that they spell declare (RFC 4506 section 6, RFC 5531 section 12)."""

# A text and its tokens, each with the count of bytes from it to the end.
TEXT = b"const A_1 = 0x1F; /* * / */ -5 007<Const>\t18446744073709551615/**/-9223372036854775808"
TOKENS = [
    "word Const 86",
    "name A_1 80",
    "mark Equal 76",
    "number 31 74",
    "mark Semicolon 70",
    "number -5 58",
    "number 7 55",
    "mark Less 52",
    "name Const 51",
    "mark Greater 46",
    "number 18446744073709551615 44",
    "number -9223372036854775808 20",
]
# Texts that have none, and the count of bytes from the refused one to the end: constants that are no numbers, and
# characters that begin no token.
BAD_NUMBERS = [
    (b"a 08;", 3),
    (b"0x", 2),
    (b"0X1", 3),
    (b"12a", 3),
    (b"-0", 2),
    (b"-0x1", 4),
    (b"18446744073709551616", 20),
    (b"0x10000000000000000", 19),
    (b"-9223372036854775809", 20),
]
BAD_CHARACTERS = [
    (b"int - 1", 3),
    (b"-a1", 3),
    (b"a /* x", 4),
    (b"/*/ a", 5),
    (b"a / b", 3),
    (b"_a", 2),
    (b"a\x00", 1),
]
# Each form of definition and of declaration: a text, and how many constants, kinds, types and programs it declares.
DECLARING = [
    (b"typedef struct s *t; struct s { unsigned long a; long b; };", [0, 2, 2, 0]),
    (b"", [0, 0, 0, 0]),
    (b"const A = -5;", [1, 0, 0, 0]),
    (b"struct entry { string item<>; entry *next; }; typedef entry *list;", [0, 4, 2, 0]),
    (b"enum e { A = 1, B = A }; typedef unsigned hyper t; typedef t u[2];", [2, 2, 3, 0]),
    (
        b"union u switch (bool b) { case TRUE: case 3: opaque x[3]; case FALSE: void; "
        b"default: struct { int a; void; } y; };",
        [0, 3, 1, 0],
    ),
    (
        b"program P { version V { void NIL(void) = 0; string ECHO(string, hyper) = 1; } = 1; "
        b"version W { int N(enum { X = 1 }) = 0; } = 2; } = 9;",
        [1, 1, 0, 1],
    ),
    (b"typedef int a<>; typedef opaque b<5>; typedef union switch (int d) { case 0: void; } c;", [0, 3, 3, 0]),
]
# Texts of which no definition goes on, and the rest of each from the first token that cannot stand.
UNEXPECTED = [
    (b"const long = 1;", b"long = 1;"),
    (b"struct s t;", b"t;"),
    (b"typedef enum e t;", b"e t;"),
    (b"const a = 1", b""),
    (b"const a = b;", b"b;"),
    (b"int a;", b"int a;"),
    (b"float a;", b"float a;"),
    (b"typedef unsigned u;", b"u;"),
    (b"typedef unsigned float u;", b"float u;"),
    (b"typedef void;", b"void;"),
    (b"typedef string a[3];", b"[3];"),
    (b"typedef opaque a;", b";"),
    (b"typedef int a[];", b"];"),
    (b"typedef int *a<3>;", b"<3>;"),
    (b"struct s { };", b"};"),
    (b"enum e { A };", b"};"),
    (b"enum e { A = 1, };", b"};"),
    (b"union u switch (int d) { default: void; };", b"default: void; };"),
    (b"union u switch (void) { case 1: void; };", b"void) { case 1: void; };"),
    (b"union u switch (int d) { case 1: void; default: void; case 2: void; };", b"case 2: void; };"),
    (b"program P { version V { void N(void, int) = 0; } = 1; } = 5;", b", int) = 0; } = 1; } = 5;"),
    (b"program P { version V { void N() = 0; } = 1; } = 5;", b") = 0; } = 1; } = 5;"),
    (b"program P { } = 5;", b"} = 5;"),
    (b"program P { version V { opaque N(void) = 0; } = 1; } = 5;", b"opaque N(void) = 0; } = 1; } = 5;"),
]
# Texts with kinds of floating point, and the rest of each from the word of one.
FLOATING = [
    (b"typedef double d;", b"double d;"),
    (b"struct s { int a; quadruple *b; };", b"quadruple *b; };"),
    (b"program P { version V { void N(int, float) = 0; } = 1; } = 5;", b"float) = 0; } = 1; } = 5;"),
]
# What stands inside 32 bodies: bodies, and what looks like one; the byte of it that is refused, and why.
INSIDE = [
    (b"union switch (struct s d) { case 1: void; } b;", 26, "NestedTooDeep"),
    (b"struct s b, c;", 10, "Unexpected"),
    (b"struct { int a; } b;", 7, "NestedTooDeep"),
    (b"enum { A = 1 } b;", 5, "NestedTooDeep"),
    (b"struct s { int a; } b;", 9, "Unexpected"),
    (b"union switch (int d) { case 1: void; } b;", 21, "NestedTooDeep"),
    (b"union switch (opaque d<4>) x", 27, "Unexpected"),
    (b"union switch (struct { int a; } d) { case 1: void; } b;", 21, "NestedTooDeep"),
    (b"union { case 1: void; } b;", 6, "Unexpected"),
]
