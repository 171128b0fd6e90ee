"""Texts in rpcgen's dialect, each with a text of the RFCs' language that means the same by the tables of
docs/LANGUAGE.md, and texts that are refused. The name DEFINED is defined for them, and OTHER is not."""

# A text of the RFCs' language, and texts of the dialect that mean the same.
SAME = [
    (
        b"struct s { int x; };",
        b"struct s { int x; };",
        # Lines of `%`, which go on behind a reversed solidus, and lines of `#` that are nothing.
        b"%line for C\nstruct s { int x; };",
        b"struct s {\n  %line ] }\n int x; };\n%",
        b"  %line\n#include <a>\n#pragma once\n#ident \"a\"\n#\nstruct s { int x; };",
        b"# include <a>\n  #  pragma once\n\t#\tident \"a\"\nstruct s { int x; };",
        b"%#define A \\\n  5 \\\n  6\nstruct s { int x; };",
        # No line begins inside a comment.
        b"/*\n%no line\n*/ struct s { int x; };",
        b"/*\n#endif\n#other\n*/ struct s { int x; };",
        b"/* %\n */struct s { int x; };",
        # The branch that is chosen, also inside one that is and one that is not.
        b"#if 0\nstruct s { bool x; };\n#else\nstruct s { int x; };\n#endif\n",
        b"#if 1\nstruct s { int x; };\n#else\nstruct s { bool x; };\n#endif\n",
        b"#ifdef DEFINED\nstruct s { int x; };\n#else\nstruct s { bool x; };\n#endif\n",
        b"#ifndef DEFINED\nstruct s { bool x; };\n#else\nstruct s { int x; };\n#endif\n",
        b"#if DEFINED\nstruct s { int x; };\n#endif\n",
        b"#ifdef OTHER\nstruct s { bool x; };\n#endif\nstruct s { int x; };",
        b"#if OTHER\n#ifdef DEFINED\nodd \" text\n#else\n#endif\n#else\nstruct s { int x; };\n#endif\n",
        b"#if 1/* one */\nstruct s { int x; };\n#endif // and no more",
        # The first branch whose condition holds; behind it no condition is read.
        b"#if 0\n@\n#elif DEFINED\nstruct s { int x; };\n#elif DEFINED\n@\n#else\n@\n#endif\n",
        b"#ifdef DEFINED\nstruct s { int x; };\n#elif 1\n@\n#elif A > 1\n@\n#endif\n",
        b"#ifdef OTHER\n@\n#elif OTHER\n@\n#elif 0\n@\n#else\nstruct s { int x; };\n#endif\n",
        b"#if 0\n#if 0\n#elif A > 1\n@\n#else\n@\n#endif\n#endif\nstruct s { int x; };",
        b"#ifdef DEFINED\n#ifndef OTHER\nstruct s { int x; };\n#endif\n#else\nodd @\n#endif",
        b"struct s {\n#ifdef DEFINED\nint x;\n#else\nbool x;\n#endif\n};",
        b"#ifndef OTHER\n%line\n#include <a>\nstruct s { int x; };\n#endif\n",
        # Where no text is shown, a condition of another form, another line and a #define are nothing.
        b"#if 0\n#undef A\n#if B > 1\n#other\n#endif\n#define A 5\n#endif\n#if 1\nstruct s { int x; };\n#endif",
        # A constant in quotation marks, and a name that is defined as nothing.
        b"const C = \"text\";\nstruct s { int x; };",
        b"const C = \"a;b } %\";struct s { int x; };",
        b"#define C\nstruct s { int x; };",
        # Behind its #define a name is defined, where that line is shown.
        b"#define GUARD\n#ifdef GUARD\nstruct s { int x; };\n#else\nstruct s { bool x; };\n#endif\n",
        b"#ifndef GUARD\n#define GUARD\nstruct s { int x; };\n#endif\n",
        b"#if 0\n#define GUARD\n#endif\n#ifdef GUARD\nstruct s { bool x; };\n#else\nstruct s { int x; };\n#endif\n",
        # Comments and quotes: what ends one, what opens none, and that no line begins inside one that is not shown.
        b"/*/\n%no line\n*/struct s { int x; };",
        b"/***/\n%line\nstruct s { int x; };\n/* * / **/\n%",
        b"/* \" */\n%\"\n%/*\nstruct s { int x; };\n%\"/*",
        b"const C = \"/*\";\nstruct s { int x; };",
        b"#if 0\n/*\n#endif\n*/\n@\n#endif\nstruct s { int x; };",
        b"#if 0\n%/*\n#endif\nstruct s { int x; };",
        # Lines of `#` that go on, or end with a carriage return, and what stands behind their words.
        b"#include <a> \\\n #endif\nstruct s { int x; };\n%line \\",
        b"%line \\\r\n#endif\r\n#ifdef DEFINED\r\nstruct s { int x; };\r\n#endif\r\n",
        b"%line \\ \nstruct s { int x; };\n%\\\\\n#endif",
        b"#ifdef DEFINED one\nstruct s { int x; };\n#else two\n@\n#endif three",
        # A comment in a line of `#` is a blank, and what it has of lines goes with that line; behind `//` none begins.
        b"#if 0 /* a */\n@\n#endif /* b */\nstruct s { int x; };",
        b"#ifdef/**/DEFINED/* a */\nstruct s { int x; };\n#/***/else/*/*/\n@\n# /* b **/ endif",
        b"#if /* a\n b */ 1 /* c\n#endif\n*/\nstruct s { int x; };\n#endif",
        b"#ifdef OTHER /* a\n*/ words\n@\n#else /* b\n * c */\nstruct s { int x; };\n#endif /* d\n%e */ f\n",
        b"#if 1\nstruct s { int x; };\n#endif /* a\n*/ #endif\n",
        b"#if 0\n#other /* a\n#endif\n*/ @\n#endif\nstruct s { int x; };",
        b"#if 1 // a /* b\nstruct s { int x; };\n#endif // c",
        b"#if 1 //\\\n/* a\nstruct s { int x; };\n#endif",
        b"#if 0\n@\n#elif/* a */1/* b */\nstruct s { int x; };\n#endif",
        b"#include <a/b> /* c\n%\n#endif */\nstruct s { int x; };\n#pragma / * a",
        b"#pragma a \\\n b /* c\n#endif */ \\\r\n#endif\nstruct s { int x; };",
        b"#define GUARD /* a\n b */\n#ifdef GUARD\nstruct s { int x; };\n#endif",
        b"#/* a */\n#/* b\n */\nstruct s { int x; };",
        # A name is the whole word.
        b"#ifdef DEFINE\n@\n#endif\n#ifdef DEFINED_\n@\n#endif\n#ifndef Defined\nstruct s { int x; };\n#endif",
        b"#define GUARD_\n#ifdef GUARD\n@\n#endif\n#ifdef GUARD_\nstruct s { int x; };\n#endif",
        # What leaves the marks of the RFCs' language is read as what leaves them; and `%:`, which C has for `#`.
        b"const C = = =;\nstruct s { int x; };",
        b"%:else\nstruct s { int x; };",
        # What C's `struct` declares again.
        b"struct s { int x; };\ntypedef struct s s;",
        b"typedef struct s s;\nstruct s { int x; };",
    ),
    (
        b"struct s { unsigned int a; unsigned int b; unsigned int c; unsigned long d; unsigned hyper e; hyper f; };",
        b"struct s { unsigned a; unsigned char b; unsigned short c; unsigned long d; unsigned hyper e; hyper f; };",
        b"struct s { unsigned a; unsigned int b; unsigned short int c; unsigned long int d; unsigned hyper int e;"
        b" hyper int f; };",
        b"struct s { unsigned a; unsigned b; unsigned c; unsigned d; unsigned hyper e; hyper f; };",
    ),
    (
        b"typedef unsigned int t[2]; typedef unsigned int u<>; typedef unsigned int *v;",
        b"typedef unsigned t[2]; typedef unsigned u<>; typedef unsigned *v;",
    ),
    (
        b"union u switch (unsigned int d) { case 1: void; };",
        b"union u switch (unsigned d) { case 1: void; };",
    ),
    (b"typedef int short; struct s { short a; int b; };", b"struct s { short int a; long int b; };",
     b"struct s { short a; long b; };"),
    (b"struct s { int a; int b; };", b"struct s { long a; long int b; };"),
    (b"const A = 5;\nstruct s { int x; };", b"#define A 5\n#ifdef A\nstruct s { int x; };\n#endif\n"),
    (b"const A = 5; typedef int t[A];", b"#define A 5\ntypedef int t[A];", b"#define A 0x5 /* five */\ntypedef int t[A];",
     b"#define A /* five */ 5\ntypedef int t[A];", b"#/* a\n*/define/* b */A/**/5 /* c\n d */\ntypedef int t[A];",
     b"= define A 5 typedef int t[A];"),
    (b"enum e { A = 0, B = 1, C = 5, D = 6 };", b"enum e { A, B, C = 5, D };", b"enum e { A = 0, B, C = 5, D = 6 };"),
    (b"enum e { A = -1, B = 0 };", b"enum e { A = -1, B };"),
    (b"typedef enum { A = 0, B = 1 } t; struct s { enum { C = 0 } x; };",
     b"typedef enum { A, B } t; struct s { enum { C } x; };"),
    (b"struct e { int a; }; struct s { struct e x; };", b"struct e { int a; }; struct s { struct enum e x; };",
     b"struct e { int a; }; struct s { struct union e x; };"),
    (b"const C = 7; enum e { A = C };", b"#define C 7\nenum e { A = C };"),
    (b"const A = 5; enum e { B = 8, C = 9 };", b"#\tdefine\tA\t5\r\nenum e { B = 010, C };"),
    (
        b"enum e { A = 1 }; union u switch (e d) { case A: void; }; struct s { e a; u b; };",
        b"enum e { A = 1 }; union u switch (enum e d) { case A: void; }; struct s { enum e a; union u b; };",
        b"enum e { A = 1 }; typedef enum e e; union u switch (e d) { case A: void; }; typedef union u u;"
        b" struct s { e a; u b; };",
    ),
    (
        b"program P { version V { void F(void) = 1; void G(int, string) = 2; } = 1; } = 2;",
        b"program P { version V { void F() = 1; void G(int count, string name) = 2; } = 1; } = 2;",
        b"program P { version V { void F( ) = 1; void G(int, string name) = 2; } = 1; } = 2;",
    ),
    # What stands as an argument and as a result, with a name and without.
    (
        b"enum e { A = 1 }; struct s { int x; }; union u switch (e d) { case A: void; };"
        b" program P { version V { e F(e, struct s, u) = 1; u G(unsigned int, unsigned hyper, hyper) = 2;"
        b" unsigned int H(unsigned int, unsigned int, s) = 3; struct s K(string, bool, s) = 4; } = 1; } = 2;",
        b"enum e { A = 1 }; struct s { int x; }; union u switch (enum e d) { case A: void; };"
        b" program P { version V { enum e F(enum e, struct s, union u) = 1; union u G(unsigned, unsigned hyper, hyper) = 2;"
        b" unsigned H(unsigned char, unsigned short int, s) = 3; struct s K(string, bool, s) = 4; } = 1; } = 2;",
        b"enum e { A = 1 }; struct s { int x; }; union u switch (e d) { case A: void; };"
        b" program P { version V { e F(enum e a, struct s b, union u c) = 1; u G(unsigned a, unsigned hyper int b, hyper int c)"
        b" = 2; unsigned int H(unsigned char a, unsigned short b, s c) = 3; struct s K(string a, bool b, s c) = 4; } = 1; } = 2;",
    ),
    (
        b"typedef int char; typedef unsigned int u_int; typedef hyper int64_t; typedef bool bool_t;"
        b" typedef opaque netobj<1024>; struct s { char a; u_int b; int64_t c; bool_t d; netobj e; };",
        b"struct s { char a; u_int b; int64_t c; bool_t d; netobj e; };",
    ),
    (
        b"struct netbuf { unsigned int maxlen; opaque buf<>; }; struct s { struct netbuf a; };",
        b"struct s { struct netbuf a; };",
    ),
    # The number that the text gives to a name, before it or behind it.
    (
        b"const N = 7; program P { version V { void F(void) = 7; } = 7; } = 7; const M = 7;",
        b"const N = 7; program P { version V { void F(void) = N; } = N; } = N; const M = N;",
    ),
    (
        b"const A = 6; const B = 5; program P { version V { void F(void) = 5; void G(int) = 6; } = 1; } = 2;",
        b"const A = G; const B = 5; program P { version V { void F(void) = B; void G(int) = 6; } = 1; } = 2;",
        b"const A = G; const B = 5; program P { version V { void F() = B; void G(int count) = 6; } = 1; } = 2;",
    ),
    (b"enum e { A = 0, B = 1 }; const C = 1;", b"enum e { A, B }; const C = B;"),
    (
        b"const A = 1; program P { version V { void F(void) = 1; } = 1; version W { void F(void) = 1; } = 2; } = 3;",
        b"const A = F; program P { version V { void F(void) = 1; } = 1; version W { void F(void) = 1; } = 2; } = 3;",
    ),
    # The number of a name that was given a name before it, by a const, a member or a procedure: what rpcgen's macros are.
    (
        b"const Y = 3; const Z = 3; const X = 3; typedef int t[3];",
        b"const Y = 3; const Z = Y; const X = Z; typedef int t[X];",
        b"#define Y 3\nconst Z = Y;\nconst X = Z; typedef int t[X];",
    ),
    (
        b"const Z = -1; const X = -1; const Y = -1; const W = -1;",
        b"const Z = Y; const X = Z; const Y = -1; const W = X;",
    ),
    (
        b"const X = 3; enum e { A = 3 }; const B = 3; const C = 3;",
        b"const X = 3; enum e { A = X }; const B = A; const C = B;",
    ),
    (
        b"const C = 3; const D = 3; program P { version V { void F(void) = 3; } = 3; } = 3; const G = 3; const H = 3;",
        b"const C = 3; const D = C; program P { version V { void F(void) = D; } = D; } = D; const G = F; const H = G;",
        b"const C = 3; const D = C; program P { version V { void F() = D; } = D; } = D; const G = F; const H = G;",
    ),
    # Where a name has two numbers by names, it may stand where it is no name for a number.
    (
        b"const A = 1; const B = 2;"
        b" program P { version V { void F(void) = 1; } = 1; version W { void F(void) = 2; } = 2; } = 3;",
        b"const A = 1; const B = 2;"
        b" program P { version V { void F(void) = A; } = A; version W { void F(void) = B; } = B; } = 3;",
    ),
    (b"typedef opaque netobj<9>; typedef netobj t;", b"typedef opaque netobj<9>; typedef netobj t;"),
]

# The names of rpcgen's library, and the kind that a field of each has: the place of a basic one, or one more kind.
LIBRARY = [
    (0, "", "char short int8_t int16_t int32_t"),
    (1, "", "u_char u_short u_int u_long uint8_t uint16_t uint32_t u_int8_t u_int16_t u_int32_t"),
    (1, "", "rpcprog_t rpcvers_t rpcproc_t"),
    (2, "", "int64_t quad_t longlong_t"),
    (3, "", "uint64_t u_int64_t u_quad_t u_longlong_t"),
    (4, "", "bool_t"),
    (8, "opaque<1024>", "netobj"),
    (8, "opaque[8]", "des_block double"),
    (8, "opaque[4]", "float"),
]

# A text of the dialect, and the number, the schema's number, the line and the column.
REFUSED = [
    # A line of `%` begins its line, and of `#` another line than those.
    (b"struct s { int x; %line\n};", 1, 0, 1, 19),
    (b"struct s {\n int x;\n};\n#else\n", 1, 0, 4, 1),
    (b"\n #endif", 1, 0, 2, 2),
    (b"#if A > 1\n#endif", 1, 0, 1, 1),
    (b"#if 2\n#endif", 1, 0, 1, 1),
    (b"#if defined(A)\n#endif", 1, 0, 1, 1),
    (b"#if\n#endif", 1, 0, 1, 1),
    (b"#ifdef\n#endif", 1, 0, 1, 1),
    (b"#ifdef 9\n#endif", 1, 0, 1, 1),
    (b"#if 00\n#endif", 1, 0, 1, 1),
    (b"#if DEFINED DEFINED\n#endif", 1, 0, 1, 1),
    (b"#if 1 \\\n&& 1\n#endif", 1, 0, 1, 1),
    (b"#if 1/2\n#endif", 1, 0, 1, 1),
    (b"#elif 1\n", 1, 0, 1, 1),
    (b"#if 0\n#elif A > 1\n#endif", 1, 0, 2, 1),
    (b"#if 1\n#else\n#elif 1\n#endif", 1, 0, 3, 1),
    (b"#if 0\n#else\n#elif 1\n#endif", 1, 0, 3, 1),
    (b"#if 0\n#if 1\n#else\n#else\n#endif\n#endif", 1, 0, 4, 1),
    (b"#ifdef A\n#else\n#else\n#endif", 1, 0, 3, 1),
    (b"#define A 0\n#if A\n#endif", 1, 0, 2, 1),
    (b"#define A B\n", 1, 0, 1, 1),
    (b"#define A 5 6\n", 1, 0, 1, 1),
    (b"#define A 5/2\n", 1, 0, 1, 1),
    (b"#define A(b) 5\n", 1, 0, 1, 1),
    (b"#define 9 5\n", 1, 0, 1, 1),
    (b"#define A -\n", 1, 0, 1, 1),
    (b"#define A 5\\\n6\n", 1, 0, 1, 1),
    (b"#define A \\\n5\n", 1, 0, 1, 1),
    (b"#define A 5x\n", 2, 0, 1, 11),
    (b"#define A 5 /* a */ 6\n", 1, 0, 1, 1),
    (b"#define A 5 /* a\n */ 6\n", 1, 0, 1, 1),
    (b"#define A /* a */ B\n", 1, 0, 1, 1),
    (b"#define A -/**/5\n", 1, 0, 1, 1),
    (b"#define A 5 // five\n", 1, 0, 1, 13),
    (b"typedef int \\\nt;", 1, 0, 1, 13),
    (b"# #\n", 1, 0, 1, 1),
    (b"#other", 1, 0, 1, 1),
    (b"#includes <a>", 1, 0, 1, 1),
    (b"#undef A", 1, 0, 1, 1),
    (b"/* c */ #ifdef A\n", 1, 0, 1, 9),
    # Behind a comment of the line there are more words; a comment parts two; one that does not end.
    (b"#if 0 /* a */ || 1\n#endif", 1, 0, 1, 1),
    (b"\n#if DEFINED /* a\n */ DEFINED\n#endif", 1, 0, 2, 1),
    (b"#if/* a */\n#endif", 1, 0, 1, 1),
    (b"#if 1/**// 2\n#endif", 1, 0, 1, 1),
    (b"#el/**/se", 1, 0, 1, 1),
    (b"#/* a */typedef int t;", 1, 0, 1, 1),
    (b"#if 1 /*/\n#endif", 1, 0, 1, 1),
    (b"#if 1\n  #endif /* a\n", 1, 0, 2, 3),
    (b"#include <a> /* b *", 1, 0, 1, 1),
    (b"#if 0\n#endif /* a\n", 3, 0, 3, 1),
    (b"#ifdef DEFINED /* a\n b */\nstruct s { t y; };\n#endif", 6, 0, 3, 12),
    (b"#define A /* a\n b */ 5\ntypedef t u[A];", 6, 0, 3, 9),
    # A branch behind the last one, and a section that was ended: what is not shown makes no difference.
    (b"#ifdef DEFINED\n#else\n#else\n#endif", 1, 0, 3, 1),
    (b"#if 1\n#elif 1\n#else\n#else\n#endif", 1, 0, 4, 1),
    (b"#if 0\n#elif 1\n#else\n#elif 1\n#endif", 1, 0, 4, 1),
    (b"#if 0\n#if 1\n#else\n#elif 1\n#endif\n#endif", 1, 0, 4, 1),
    (b"#if 1\n#if 0\n#else\n#endif\n#else\n #else\n#endif", 1, 0, 6, 2),
    (b"#if 1\n#endif\n#else\n", 1, 0, 3, 1),
    (b"#if 1\n#endif\n#elif 1\n", 1, 0, 3, 1),
    (b"#if 1\n#endif\n#endif\n", 1, 0, 3, 1),
    (b"#if 0\n#else\n#endif\n  #endif\n", 1, 0, 4, 3),
    (b"#if 0\n#if 1\n#endif\n#endif\n#endif\n", 1, 0, 5, 1),
    # A section that is open at the end.
    (b"const A = 1;\n#ifdef A\n", 3, 0, 3, 1),
    (b"#if 1\n#if 0\n#endif\nconst A = 1;", 3, 0, 4, 13),
    (b"#ifdef DEFINED\n#else\n", 3, 0, 3, 1),
    # Places are those of the text as it was given.
    (b"%line\nstruct s { unsigned x y; };", 3, 0, 2, 23),
    (b"%line\n\nstruct s { unsigned x; t y; };", 6, 0, 3, 24),
    (b"%line \\\nmore\nstruct s { t y; };", 6, 0, 3, 12),
    (b"#if 0\n@\n#else\nstruct s { t y; };\n#endif", 6, 0, 4, 12),
    (b"const C = \"x\"; struct s { t y; };", 6, 0, 1, 27),
    (b"enum e { A, B, A };", 5, 0, 1, 16),
    (b"typedef int t; typedef struct t t; typedef int t;", 5, 0, 1, 48),
    # A member behind one whose value is a name; a name that is no number.
    (b"const C = 1;\nenum f { B = C, D };", 3, 0, 2, 19),
    (b"const C = \"text\";\ntypedef int t[C];", 6, 0, 2, 15),
    (b"enum e { A = 2147483647, B };", 8, 0, 1, 26),
    # Names that are there twice, a definition in the midst of another, pointers as arguments.
    (b"#define A 5\n#define A 6\n", 5, 0, 2, 9),
    (b"struct s {\n#define A 5\n int x; };", 3, 0, 2, 1),
    (b"program P { version V { void F(int *x) = 1; } = 1; } = 2;", 3, 0, 1, 36),
    (b"typedef quadruple q;", 4, 0, 1, 9),
    # A kind behind another, a kind as a name, two names of one argument.
    (b"struct s { int enum x; };", 3, 0, 1, 16),
    (b"typedef int float;", 3, 0, 1, 13),
    (b"program P { version V { void F(int a b) = 1; } = 1; } = 2;", 3, 0, 1, 36),
    # A name to which the text gives no number, or, to any name, two numbers; a name that is given a name behind it, or
    # itself; a name that two versions give different names, and each name that is given a name then.
    (b"const A = B;", 3, 0, 1, 11),
    (b"const A = B; const B = C; const C = 5;", 3, 0, 1, 11),
    (b"const A = B; const B = 1; enum e { C = 1 }; program P { version V { void C(void) = 2; } = 1; } = 2;", 3, 0, 1, 11),
    (b"program P { version V { void F(void) = 1; } = W; } = 2;", 3, 0, 1, 47),
    (b"const Y = 3; const A = B; const B = Y;", 3, 0, 1, 24),
    (b"const S = S;", 3, 0, 1, 11),
    (b"const A = B; const B = A;", 3, 0, 1, 11),
    (b"const Y = 3; const Z = Y; const X = W;", 3, 0, 1, 37),
    (b"const T = TRUE;", 3, 0, 1, 11),
    (
        b"const A = 1; const B = 2;\n"
        b"program P { version V { void F(void) = A; } = 1; version W { void F(void) = B; } = 2; } = 3;\nconst Z = F;",
        *(3, 0, 3, 11),
    ),
    (
        b"const A = 1; const B = 2; const C = A;\n"
        b"program P { version V { void F(void) = A; } = 1; version W { void F(void) = B; } = 2; } = 3;\nconst Z = C;",
        *(3, 0, 3, 11),
    ),
    # The number that stands in place of a name stands where the name does.
    (b"const N = -1; program P { version V { void F(void) = 1; } = 1; } = N;", 8, 0, 1, 68),
    # Which fault of two it is: one of the lines of `#`, then a token, then the grammar, then a name.
    (b"@\n#else\n", 1, 0, 2, 1),
    (b"const A = 08;\n#ifdef A\n", 3, 0, 3, 1),
    (b"struct s { t x; };\n  #other\n", 1, 0, 2, 3),
    (b"struct s { unsigned x y; };\nconst A = 08;", 2, 0, 2, 11),
    (b"typedef t u;\nstruct s { unsigned x y; };", 3, 0, 2, 23),
    (b"const A = B;\nconst A = 08;", 2, 0, 2, 11),
    # A name of the library that the text has, declares in no way that is looked for, and so declares once more.
    (b"typedef struct { int x; } netbuf;", 5, 0, 1, 27),
    (b"enum e { short = 1 };", 5, 0, 1, 10),
    (b"program netobj { version V { void F(void) = 1; } = 1; } = 2;", 5, 0, 1, 9),
    # Kinds of two words and of three, a tag of none, an argument of none, and quotation marks elsewhere.
    (b"struct s { short int int x; };", 3, 0, 1, 22),
    (b"struct s { hyper int int x; };", 3, 0, 1, 22),
    (b"struct s { unsigned unsigned x; };", 3, 0, 1, 21),
    (b"struct s { unsigned short long x; };", 3, 0, 1, 27),
    (b"struct s { unsigned u_int x; };", 3, 0, 1, 27),
    (b"struct s { enum t x; };", 6, 0, 1, 17),
    (b"struct s { union t x; };", 6, 0, 1, 18),
    (b"program P { version V { void F(,) = 1; } = 1; } = 2;", 3, 0, 1, 32),
    (b"const C = \"a;\nstruct s { int x; };", 3, 0, 1, 11),
    (b"const C = \"a\" \"b\";", 3, 0, 1, 11),
    (b"typedef opaque t[\"a\"];", 3, 0, 1, 18),
    (b"const C \"a\";", 3, 0, 1, 11),
    # What rpcgen and C take, and the tables of docs/LANGUAGE.md do not.
    (b"struct _s { int x; };", 1, 0, 1, 8),
    (b"union u switch (int d) { case 'c': void; };", 1, 0, 1, 31),
    (b"const A = -017;", 2, 0, 1, 11),
    (b"program P { version V { void F(string<5>) = 1; } = 1; } = 2;", 3, 0, 1, 38),
    (b"program P { version V { void F(int 5) = 1; } = 1; } = 2;", 3, 0, 1, 36),
    (b"struct s { time_t t; };", 6, 0, 1, 12),
    # What neither takes: rpcgen has no `*` behind `string` and `opaque`.
    (b"struct s { string *x; };", 3, 0, 1, 19),
    (b"struct s { opaque *x; };", 3, 0, 1, 19),
    (b"enum e { A, B, };", 3, 0, 1, 16),
    (b"struct s { struct float x; };", 6, 0, 1, 19),
    (b"struct s { int x; int y }", 3, 0, 1, 25),
    # Each other fault of a text: a number, a size, a chain of typedefs, a schema, and bodies inside one another.
    (b"%line\nconst A = 08;", 2, 0, 2, 11),
    (b"#define A -1\ntypedef int x[A];", 7, 0, 2, 15),
    (b"%line\ntypedef enum b a; typedef enum a b;", 9, 0, 2, 16),
    (b"%line\nstruct s { unsigned x[0]; };", 10, 2, 2, 12),
    (b"%line\nstruct a { " + b"struct { " * 32 + b"int x; " + b"} x; " * 32 + b"};", 12, 0, 2, 298),
    (b"/* x", 1, 0, 1, 1),
    (b"\x80", 1, 0, 1, 1),
]
# Texts that are read by `read` with the same fault, since nothing of the dialect stands in them.
ALIKE = [b"const a = b;", b"typedef int x[-1];", b"enum e { A = 2147483648 };", b"struct a { a x; };", b"const A = 08;"]

# Files that are one text: each with the place of each of its lines, worked by hand. A text has a line more than line
# feeds, and the last one has all lines that are left.
FILES = [
    ([], [(1, 0, 1), (7, 0, 7)]),
    ([b""], [(1, 0, 1), (2, 0, 2)]),
    ([b"a"], [(1, 0, 1), (9, 0, 9)]),
    ([b"a", b"b"], [(1, 0, 1), (2, 1, 1), (3, 1, 2)]),
    ([b"a\n", b"b"], [(1, 0, 1), (2, 0, 2), (3, 1, 1), (4, 1, 2)]),
    ([b"a\nb\nc", b"", b"d\n"], [(1, 0, 1), (3, 0, 3), (4, 1, 1), (5, 2, 1), (6, 2, 2), (7, 2, 3)]),
    ([b"", b"", b""], [(1, 0, 1), (2, 1, 1), (3, 2, 1), (4, 2, 2)]),
    ([b"\n\n", b"\n"], [(3, 0, 3), (4, 1, 1), (5, 1, 2)]),
]
# What each of Debian's files has of the dialect, in other words: the file, those whose texts stand before its own, its
# text, and what it means together with theirs. Four of the files have nothing of it.
COPIES = [
    ("mount", [], b"typedef unsigned where;", b"typedef unsigned int where;"),
    (
        "nfs_prot",
        [],
        b"struct stamp { unsigned s; unsigned us; }; struct attributes { unsigned mode; struct stamp at; };",
        b"struct stamp { unsigned int s; unsigned int us; };"
        b" struct attributes { unsigned int mode; struct stamp at; };",
    ),
    (
        "rex",
        [],
        b"struct start { string command<9>; unsigned lines; };"
        b" program R { version V { start S(start) = 1; } = 1; } = 7;",
        b"struct start { string command<9>; unsigned int lines; };"
        b" program R { version V { start S(start) = 1; } = 1; } = 7;",
    ),
    (
        "klm_prot",
        [],
        b"struct lock { netobj who; unsigned from; unsigned to; };",
        b"typedef opaque netobj<1024>; struct lock { netobj who; unsigned int from; unsigned int to; };",
    ),
    (
        "yp",
        [],
        b"struct key {\n#ifdef OLD_BUG\n int status;\n string name<9>;\n#else\n string name<9>;\n int status;\n"
        b"#endif\n unsigned port;\n};",
        b"struct key { string name<9>; int status; unsigned int port; };",
    ),
    (
        "rstat",
        [],
        b"#ifdef RPC_HDR\n%#ifndef IDLE\n%#define IDLE 4\n%#endif\n#endif /* def RPC_HDR */\n"
        b"struct load { int ticks[4]; };",
        b"struct load { int ticks[4]; };",
    ),
    (
        "rusers",
        [],
        b"%/*\n% * What C sees alone\n% */\n#ifdef RPC_HDR\n%struct c { char *name; };\n#endif\n"
        b"const MOST = 8;\n#ifdef\tRPC_XDR\n%bool_t xdr_c();\n%{\n%}\n#endif\nstruct user { string line<MOST>; };",
        b"const MOST = 8; struct user { string line<MOST>; };",
    ),
    (
        "bootparam_prot",
        [],
        b"%#include <c.h>\n#ifdef RPC_HDR\n%#include <d.h>\n#endif\nstruct address { char net; char host; };",
        b"typedef int char; struct address { char net; char host; };",
    ),
    (
        "key_prot",
        [],
        b"%#if 0\n%#pragma ident \"a\"\n%#endif\nconst ROOT = 3;\nconst MODULUS = \"d4a0ba\";\n"
        b"enum status { DONE, NO_SECRET, UNKNOWN, FAULT };\nstruct pair { u_int low; des_block key; netobj name; };\n"
        b"typedef string person<MAXNETNAMELEN>;\n#ifdef RPC_HDR\n%extern int x();\n#endif\n",
        b"typedef unsigned int u_int; typedef opaque des_block[8]; typedef opaque netobj<1024>;"
        b" const MAXNETNAMELEN = 255; const ROOT = 3; enum status { DONE = 0, NO_SECRET = 1, UNKNOWN = 2, FAULT = 3 };"
        b" struct pair { u_int low; des_block key; netobj name; }; typedef string person<MAXNETNAMELEN>;",
    ),
    (
        "nis_object",
        [],
        b"#if RPC_HDR\n%\n%#ifndef C\n#endif\nstruct right { u_char bits; uint32_t until; netobj key; };\n"
        b"#if RPC_HDR\n%#endif\n%\n#endif",
        b"typedef unsigned int u_char; typedef unsigned int uint32_t; typedef opaque netobj<1024>;"
        b" struct right { u_char bits; uint32_t until; netobj key; };",
    ),
    (
        "nis",
        ["nis_object"],
        b"#ifdef RPC_HDR\n%#include <c.h>\n#endif\n#include \"nis_object.x\"\nstruct bound { right of; u_int port; };\n"
        b"typedef struct bound bound;\n%#define ALL ((READ +\\\n MODIFY +\\\n CREATE +\\\n DESTROY) << 24)\n",
        b"typedef unsigned int u_char; typedef unsigned int u_int; typedef unsigned int uint32_t;"
        b" typedef opaque netobj<1024>; struct right { u_char bits; uint32_t until; netobj key; };"
        b" struct bound { right of; u_int port; };",
    ),
    (
        "nis_callback",
        ["nis_object", "nis"],
        b"%/*\n% */\n#ifdef RPC_HDR\n%#include <c.h>\n#endif\n#ifdef RPC_XDR\n%#include \"c.h\"\n#endif\n"
        b"typedef struct bound *found;",
        b"typedef unsigned int u_char; typedef unsigned int u_int; typedef unsigned int uint32_t;"
        b" typedef opaque netobj<1024>; struct right { u_char bits; uint32_t until; netobj key; };"
        b" struct bound { right of; u_int port; }; typedef struct bound *found;",
    ),
    (
        "nlm_prot",
        [],
        b"const LM_MAXSTRLEN = 1024;\n#ifdef RPC_HDR\n%#define LM_MAXSTRLEN 1024\n#endif\n"
        b"struct lock { string caller<LM_MAXSTRLEN>; netobj owner; unsigned from; };",
        b"typedef opaque netobj<1024>; const LM_MAXSTRLEN = 1024;"
        b" struct lock { string caller<LM_MAXSTRLEN>; netobj owner; unsigned int from; };",
    ),
    (
        "crypt",
        [],
        b"#ifndef RPC_HDR\n%#include \"crypt.h\"\n#endif\nenum mode { CBC, ECB };\nenum way { ENCRYPT, DECRYPT };\n"
        b"struct done { u_char key[8]; mode m; way w; };",
        b"typedef unsigned int u_char; enum mode { CBC = 0, ECB = 1 }; enum way { ENCRYPT = 0, DECRYPT = 1 };"
        b" struct done { u_char key[8]; mode m; way w; };",
    ),
    (
        "rpcb_prot",
        [],
        b"%/* C */\n#ifdef RPC_HDR\n%typedef int i;\n#endif\t/* def RPC_HDR */\n"
        b"struct row { rpcprog_t p; rpcvers_t v; };\n"
        b"struct call { rpcproc_t n; };\nconst high_2 = CALLIT;\nconst high_3 = ADDRESS;\nprogram P {\n version TWO {\n"
        b"  row CALLIT(call) = 5;\n  netbuf ADDRESS(string) = 7;\n } = 2;\n"
        b" version THREE {\n  row BROADCAST(call) = CALLIT;\n } = 3;\n} = 100000;",
        b"typedef unsigned int rpcprog_t; typedef unsigned int rpcvers_t; typedef unsigned int rpcproc_t;"
        b" struct netbuf { unsigned int maxlen; opaque buf<>; }; struct row { rpcprog_t p; rpcvers_t v; };"
        b" struct call { rpcproc_t n; }; const high_2 = 5; const high_3 = 7; program P { version TWO {"
        b" row CALLIT(call) = 5; netbuf ADDRESS(string) = 7; } = 2; version THREE { row BROADCAST(call) = 5; } = 3; }"
        b" = 100000;",
    ),
]
# Files of declarations that Debian's packages rpcsvc-proto, libnsl-dev and libtirpc-dev have below /usr/include, and
# what is read before them.
DEBIAN = [
    *((f"rpcsvc/{name}.x", []) for name in (
        "bootparam_prot key_prot klm_prot mount nfs_prot rex rquota rstat rusers sm_inter spray yp yppasswd nis_object"
    ).split()),
    ("rpcsvc/nis.x", ["rpcsvc/nis_object.x"]),
    ("rpcsvc/nis_callback.x", ["rpcsvc/nis_object.x", "rpcsvc/nis.x"]),
    ("tirpc/rpcsvc/crypt.x", []),
    ("tirpc/rpc/rpcb_prot.x", []),
    ("ntirpc/rpc/rpcb_prot.x", []),
]
# Sizes that a file takes from elsewhere.
NLM = b"const LM_MAXSTRLEN = 1024; const MAXNAMELEN = 1025;", "rpcsvc/nlm_prot.x"
