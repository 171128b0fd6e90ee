"""Paths to the parts of values, worked by hand: of each part its place, its depth, its kind, its name, what stands in
it, its bytes, and its number (RFC 4506 section 4, docs/LIBRARY.md)."""
from .shared import FILE, LIST, MORE, PARTS, SILLYPROG, TWO_ENTRIES, AROUND

NESTED = b"typedef int pair[2]; typedef pair pairs<2>; struct deep { pairs many[2]; hyper h; unsigned hyper u; };"
DEEP = """00000001 00000001 fffffffe 00000002 00000003 00000004 00000005 00000006
    ffffffff ffffffff ffffffff ffffffff"""
TWICE = b"typedef int *maybe; typedef maybe *twice; struct both { twice a; twice b; twice c; };"
# A text, a kind, the bytes of a value, and paths with the part that each names. The file is that of RFC 4506 section 7.
FOUND = [
    (FILE, "file", SILLYPROG, [
        ("", "0 1 15 - Group ; none"),
        ("filename", "4 2 12 filename Content 73696c6c7970726f67; none"),
        ("type", "16 2 11 type Number 00000002; 2"),
        ("type.interpretor", "24 3 10 interpretor Content 6c697370; none"),
        ("owner", "32 2 13 owner Content 6a6f686e; none"),
        ("data", "40 2 14 data Content 287175697429; none"),
    ]),
    (LIST, "list", TWO_ENTRIES, [
        ("", "4 2 10 - Group ; none"),
        ("item", "8 3 8 item Content 61; none"),
        ("next", "16 4 10 - Group ; none"),
        ("next.item", "20 5 8 item Content 6263; none"),
        ("next.next", "24 5 9 next Flag 00000000; 0"),
    ]),
    (LIST, "list", "00000000", [("", "0 1 11 - Flag 00000000; 0")]),
    (MORE, "few", "00000002 00000007 fffffff8", [
        ("", "0 1 12 - Length 00000002; 2"),
        ("[0]", "4 2 0 - Number 00000007; 7"),
        ("[1]", "8 2 0 - Number fffffff8; -8"),
    ]),
    (b"", "int", "80000000", [("", "0 1 0 - Number 80000000; -2147483648")]),
    (b"", "unsigned", "80000000", [("", "0 1 1 - Number 80000000; 2147483648")]),
    (b"", "bool", "00000001", [("", "0 1 4 - Number 00000001; 1")]),
    (b"", "void", "", [("", "0 1 5 - Group ; none")]),
    (b"", "opaque", "00000000", [("", "4 1 6 - Content ; none")]),
    (NESTED, "deep", DEEP, [
        ("many[0]", "0 3 9 - Length 00000001; 1"),
        ("many[0][0][1]", "8 5 0 - Number fffffffe; -2"),
        ("many[1][1][0]", "24 5 0 - Number 00000005; 5"),
        ("h", "32 2 2 h Number ffffffffffffffff; -1"),
        ("u", "40 2 3 u Number ffffffffffffffff; 18446744073709551615"),
    ]),
    (TWICE, "both", "00000000 00000001 00000000 00000001 00000001 00000007", [
        ("a", "0 2 9 a Flag 00000000; 0"),
        ("b", "8 3 8 - Flag 00000000; 0"),
        ("c", "20 4 0 - Number 00000007; 7"),
    ]),
    (PARTS, "around", AROUND, [
        ("at.y", "8 4 2 y Number 0000000100000000; 4294967296"),
        ("one", "16 2 18 one Number 00000005; 5"),
        ("one.seven[6]", "44 4 0 - Number 00000007; 7"),
    ]),
]
# Paths that name nothing: another name, one that only begins as a name does, what leads on from a number, from content,
# from void and from optional data that is not there, indices that are none or past the last, and what is no path.
NO_PATHS = [
    (FILE, "file", SILLYPROG, ["x", "filenam", "filenames", "FILENAME", "filename.x", "filename[0]", "type.creator",
                               "type.kind", "type.x", "[0]", ".", ".filename", "filename.", "type..interpretor", "type[0]"]),
    (LIST, "list", TWO_ENTRIES, ["next.next.item", "[0]", "item[0]", "next.next.next", "entry"]),
    (LIST, "list", "00000000", ["item", "next"]),
    (MORE, "few", "00000002 00000007 fffffff8", ["[2]", "[4294967295]", "[4294967296]", "[18446744073709551616]", "[00]",
                                                "[01]", "[-0]", "[+1]", "[ 1]", "[1", "[1]]", "1", "[]", "[0x0]", "[0][0]",
                                                "[0].x", "[0]x", "x[0]"]),
    (b"", "int", "80000000", ["x", "[0]"]),
    (b"", "void", "", ["x", "[0]", "."]),
    (NESTED, "deep", DEEP, ["many[2]", "many[0][1]", "many[0][0][2]", "h.x", "u[0]", "many.h", "many[0].h"]),
]
