"""Values by each call of the codec and the lines that show them, bytes that are refused, and the parts that are lent of
bytes (RFC 4506): rows as they stand, in pieces."""
from .shared import FILE, LIST, MORE, SILLYPROG, WIDEST, word

# Texts of one kind each, and more.
ALIKE = b"enum alike { a = 5, b = 5 };"
SIGNED_ALIKE = b"enum alike { a = 5, b = 5, c = -1 };"
PAIR = b"typedef int pair[2];"
PAIRS = b"typedef int pair[2]; typedef pair pairs<2>;"
SIX = b"typedef opaque six[6];"
TWO = b"typedef int two<2>;"
HYPERS = b"typedef hyper hypers[3];"
OWNER = b"typedef string owner<32>;"
HOLDER = b"struct holder { int x; };"
OPTIONAL = b"typedef string text<>; typedef text *optional;"
NEST = b"typedef nest *nest;"
VOID_CHOICE = b"union choice switch (int d) { case 1: void; };"
COUNT_CHOICE = b"union choice switch (unsigned int d) { case 1: void; };"
BOOL_CHOICE = b"union choice switch (bool d) { case FALSE: int x; };"
FLAG_CHOICE = b"union choice switch (bool d) { case TRUE: int x; default: void; };"
KIND_CHOICE = FILE + b"union choice switch (filekind kind) { case TEXT: int x; };"
CHOICES = b"union u switch (int d) { case 1: int x; }; typedef u choices[2];"
# A text, a kind, all bytes of a value, and its lines.
CODED = [
    (SIX, "six", "61626364 65660000", b"0x616263646566\n"),
    (b"", "unsigned-hyper", "ffffffff ffffffff", b"18446744073709551615\n"),
    (ALIKE, "alike", "00000005", b"a = 5\n"),
    (b"", "void", "", b"void\n"),
    (PAIR, "pair", "ffffffff 7fffffff", b"array of 2\n  -1\n  2147483647\n"),
    (VOID_CHOICE, "choice", "00000001", b"case 1\n  void\n"),
]
# A text, a kind, bytes, the reason of their refusal and its place.
WIDE = [
    # Booleans and numbers.
    (b"", "bool", "00000002", "BadBool", 0),
    (LIST, "list", "00000002", "BadBool", 0),
    (LIST, "list", "00000001 00000001 61000000 80000000", "BadBool", 12),
    (BOOL_CHOICE, "choice", "00000002", "BadBool", 0),
    (FILE, "filekind", "ffffffff", "BadNumbered", 0),
    (ALIKE, "alike", "00000004", "BadNumbered", 0),
    (KIND_CHOICE, "choice", "00000003", "BadNumbered", 0),
    (FILE, "file", "00000001 61000000 00000003", "BadNumbered", 8),
    (MORE, "u", "00000002", "BadCase", 0),
    (BOOL_CHOICE, "choice", "00000001", "BadCase", 0),
    (KIND_CHOICE, "choice", "00000001", "BadCase", 0),
    (CHOICES, "choices", "00000001 00000007 00000002", "BadCase", 8),
    (COUNT_CHOICE, "choice", "00000002", "BadCase", 0),
    (COUNT_CHOICE, "choice", "ffffffff", "BadCase", 0),
    # Content. The owner's name in a file has 33 characters.
    (MORE, "five", "00000006", "TooLong", 0),
    (OWNER, "owner", "00000021", "TooLong", 0),
    (TWO, "two", "00000003", "TooLong", 0),
    (FILE, "file", "00000001 61000000 00000000 00000021", "TooLong", 12),
    (SIX, "six", "61626364 65660001", "BadPadding", 4),
    (b"", "string", "00000005 61626364 65000100", "BadPadding", 8),
    # The unit of the padding is not whole.
    (MORE, "five", "00000002 616101", "Truncated", 7),
    (SIX, "six", "61626364 656601", "Truncated", 7),
    (b"", "string", "00000009 73696c6c 79", "Truncated", 9),
    (b"", "bool", "", "Truncated", 0),
    (b"", "hyper", "00000000 0000", "Truncated", 6),
    (TWO, "two", "00000002 00000007", "Truncated", 8),
    # Hyper integers one after another, cut after a unit and inside one.
    (HYPERS, "hypers", "00000000 00000001 00000000 00000002 00000000", "Truncated", 20),
    (HYPERS, "hypers", "00000000 00000001 00000000 000000", "Truncated", 15),
]
# The same behind the limits on depth and on bytes.
LIMITED = [
    (1, WIDEST, HOLDER, "holder", "", "TooDeep", 0),
    (1, WIDEST, VOID_CHOICE, "choice", "00000001", "TooDeep", 4),
    (1, WIDEST, TWO, "two", "00000001", "TooDeep", 4),
    (2, WIDEST, LIST, "list", "00000001", "TooDeep", 4),
    (1, WIDEST, PAIR, "pair", "00000001", "TooDeep", 0),
    # Deep comes before large, and a deep part of no bytes is deep at the limit on bytes.
    (1, 4, VOID_CHOICE, "choice", "00000001", "TooDeep", 4),
    (1, 4, TWO, "two", "00000001", "TooDeep", 4),
    (4096, 8, b"", "opaque", "00000008 61616161 62", "TooLarge", 8),
    (4096, 4, b"", "hyper", "00000000", "TooLarge", 4),
    (4096, 4, PAIR, "pair", "00000001", "TooLarge", 4),
    (4096, 8, TWO, "two", "00000002 00000001", "TooLarge", 8),
    # Hyper integers one after another, up to the limit and past it, and at the limit inside one.
    (4096, 16, HYPERS, "hypers", "00000000 00000001 00000000 00000002", "TooLarge", 16),
    (4096, 16, HYPERS, "hypers", "00000000 00000001 00000000 00000002 00000000 00000003", "TooLarge", 16),
    (4096, 12, HYPERS, "hypers", "00000000 00000001 00000000 00000002", "TooLarge", 12),
    # The limit on bytes is looked at before the next unit is.
    (4096, 8, FILE, "file", "00000001 61000000 00000003", "TooLarge", 8),
]
# A text, a kind, the bytes of a value and its lines.
SHOWN = [
    (b"", "int", "fffffffb", b"-5\n"),
    (b"", "unsigned", "ffffffff", b"4294967295\n"),
    (b"", "unsigned-hyper", "ffffffff ffffffff", b"18446744073709551615\n"),
    (b"", "bool", "00000000", b"FALSE\n"),
    (SIGNED_ALIKE, "alike", "00000005", b"a = 5\n"),
    (SIGNED_ALIKE, "alike", "ffffffff", b"c = -1\n"),
    (SIX, "six", "000ff0ff 61620000", b"0x000ff0ff6162\n"),
    (b"", "opaque", "00000000", b"0x\n"),
    (b"", "string", "00000003 22095c00", b'"\\x22\\x09\\x5c"\n'),
    (b"", "string", "00000005 1f207e7f ff000000", b'"\\x1f ~\\x7f\\xff"\n'),
    (b"", "string", "00000000", b'""\n'),
    (PAIR, "pair", "ffffffff 7fffffff", b"array of 2\n  -1\n  2147483647\n"),
    (
        PAIRS,
        "pairs",
        "00000002 00000001 00000002 ffffffff 7fffffff",
        b"list of 2\n  array of 2\n    1\n    2\n  array of 2\n    -1\n    2147483647\n",
    ),
    (PAIRS, "pairs", "00000000", b"list of 0\n"),
    (OPTIONAL, "optional", "00000001 00000002 61620000", b'present\n  "ab"\n'),
    (OPTIONAL, "optional", "00000000", b"absent\n"),
    (FILE, "filetype", "00000000", b"case TEXT = 0\n  void\n"),
    (FLAG_CHOICE, "choice", "00000001 00000007", b"case TRUE\n  x: 7\n"),
    (FLAG_CHOICE, "choice", "00000000", b"case FALSE\n  void\n"),
]
# A text, a kind, bytes, and the parts of the value that begins them: the place of each, its depth, kind and name, what
# stands in it, and its bytes.
LENT = [
    (
        FILE,
        "file",
        SILLYPROG,
        [
            (0, 1, 15, "", "Group", b""),
            (0, 2, 12, "filename", "Length", b"\0\0\0\x09"),
            (4, 2, 12, "filename", "Content", b"sillyprog"),
            (16, 2, 11, "type", "Number", b"\0\0\0\x02"),
            (20, 3, 10, "interpretor", "Length", b"\0\0\0\x04"),
            (24, 3, 10, "interpretor", "Content", b"lisp"),
            (28, 2, 13, "owner", "Length", b"\0\0\0\x04"),
            (32, 2, 13, "owner", "Content", b"john"),
            (36, 2, 14, "data", "Length", b"\0\0\0\x06"),
            (40, 2, 14, "data", "Content", b"(quit)"),
        ],
    ),
    (b"", "opaque", "00000000 0000002a", [(0, 1, 6, "", "Length", b"\0\0\0\0"), (4, 1, 6, "", "Content", b"")]),
    (b"", "string", "00000003 61626300", [(0, 1, 7, "", "Length", b"\0\0\0\x03"), (4, 1, 7, "", "Content", b"abc")]),
    (SIX, "six", "61626364 65660000 00000007", [(0, 1, 8, "", "Content", b"abcdef")]),
    (b"", "int", "fffffffb", [(0, 1, 0, "", "Number", b"\xff\xff\xff\xfb")]),
    (b"", "bool", "00000001", [(0, 1, 4, "", "Number", b"\0\0\0\x01")]),
    (b"", "hyper", "80000000 00000000", [(0, 1, 2, "", "Number", b"\x80\0\0\0\0\0\0\0")]),
    (b"", "void", "", [(0, 1, 5, "", "Group", b"")]),
    (
        PAIR,
        "pair",
        "ffffffff 7fffffff",
        [
            (0, 1, 8, "", "Group", b""),
            (0, 2, 0, "", "Number", b"\xff\xff\xff\xff"),
            (4, 2, 0, "", "Number", b"\x7f\xff\xff\xff"),
        ],
    ),
    (
        TWO,
        "two",
        "00000001 00000007",
        [(0, 1, 8, "", "Length", b"\0\0\0\x01"), (4, 2, 0, "", "Number", b"\0\0\0\x07")],
    ),
    (
        VOID_CHOICE,
        "choice",
        "00000001",
        [(0, 1, 8, "", "Number", b"\0\0\0\x01"), (4, 2, 5, "", "Group", b"")],
    ),
    (
        FLAG_CHOICE,
        "choice",
        "00000000",
        [(0, 1, 8, "", "Number", b"\0\0\0\0"), (4, 2, 5, "", "Group", b"")],
    ),
    (
        CHOICES,
        "choices",
        "00000001 00000007 00000001 00000008",
        [
            (0, 1, 9, "", "Group", b""),
            (0, 2, 8, "", "Number", b"\0\0\0\x01"),
            (4, 3, 0, "x", "Number", b"\0\0\0\x07"),
            (8, 2, 8, "", "Number", b"\0\0\0\x01"),
            (12, 3, 0, "x", "Number", b"\0\0\0\x08"),
        ],
    ),
    (
        LIST,
        "list",
        "00000001 00000001 61000000 00000000",
        [
            (0, 1, 11, "", "Flag", b"\0\0\0\x01"),
            (4, 2, 10, "", "Group", b""),
            (4, 3, 8, "item", "Length", b"\0\0\0\x01"),
            (8, 3, 8, "item", "Content", b"a"),
            (12, 3, 9, "next", "Flag", b"\0\0\0\0"),
        ],
    ),
]
# A text, a kind, the limit on bytes, and three pieces: each with what is answered to it, and what is held then, frames,
# nodes, bytes of content, and bytes of a unit that is not whole. Content and an unfinished unit; a declared length; the
# item that is due; a whole value, and what follows it; and what is refused.
NOTHING, ALONE, WITH_UNIT, WITH_ITEM = (0, 0, 0, 0), (0, 1, 4, 0), (1, 1, 4, 2), (2, 2, 0, 0)
BAD_BOOL = "refused BadBool at 0"
HELD = [
    (b"", "opaque", WIDEST, [("00000006 61626364 6566", "more", WITH_UNIT)] + [("", "more", WITH_UNIT)] * 2),
    (b"", "opaque", WIDEST, [("", "more", (1, 1, 0, 0)), ("ffffffff", "more", (1, 1, 0, 0)), ("61", "more", (1, 1, 0, 1))]),
    (MORE, "big", WIDEST, [("ffffffff", "more", WITH_ITEM)] + [("", "more", WITH_ITEM)] * 2),
    (b"", "opaque", 8, [("00000004 61616161", "done 8", ALONE), ("", "done 0", ALONE), ("62", "done 0", ALONE)]),
    (b"", "bool", WIDEST, [("000000", "more", (1, 1, 0, 3)), ("0205", BAD_BOOL, NOTHING), ("00000001", BAD_BOOL, NOTHING)]),
]
# The numbers below 524288, a unit each, as content of two mebibytes; and those below 100,000 as items.
UNITS = b"".join(map(word, range(524288)))
CONTENT, CONTENT_LINES = word(2097152) + UNITS, b"0x%s\n" % UNITS.hex().encode()
ITEMS = word(100000) + UNITS[:400000]
ITEMS_LINES = b"list of 100000\n" + b"".join(b"  %d\n" % number for number in range(100000))
# Values above a mebibyte of the other kinds that can have as many bytes: a text, a kind, the bytes and the lines.
LARGE = 1048580
LETTERS, NUMBERS = b"a" * LARGE, b"".join(b"  %d\n" % number for number in range(LARGE // 4))
OF_LETTERS, LETTERS_LINE = word(LARGE) + LETTERS, b"0x%s\n" % LETTERS.hex().encode()
LONG = [
    (b"", "string", OF_LETTERS, b'"%s"\n' % LETTERS),
    (b"typedef opaque blob[%d];" % LARGE, "blob", LETTERS, LETTERS_LINE),
    (b"struct s { int x; opaque y<>; };", "s", word(7) + OF_LETTERS, b"struct\n  x: 7\n  y: " + LETTERS_LINE),
    (b"union u switch (int d) { case 1: opaque y<>; };", "u", word(1) + OF_LETTERS, b"case 1\n  y: " + LETTERS_LINE),
    (b"typedef opaque y<>; typedef y *maybe;", "maybe", word(1) + OF_LETTERS, b"present\n  " + LETTERS_LINE),
    (b"typedef int many[%d];" % (LARGE // 4), "many", UNITS[:LARGE], b"array of %d\n" % (LARGE // 4) + NUMBERS),
    (MORE, "big", word(LARGE // 4) + UNITS[:LARGE], b"list of %d\n" % (LARGE // 4) + NUMBERS),
]
