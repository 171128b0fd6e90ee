"""Values that are written item by item, and items that are refused (RFC 4506)."""
from .codec import (
    BOOL_CHOICE,
    CHOICES,
    FLAG_CHOICE,
    HOLDER,
    HYPERS,
    KIND_CHOICE,
    OPTIONAL,
    OWNER,
    PAIR,
    SIGNED_ALIKE,
    SIX,
    TWO,
    VOID_CHOICE,
)
from .shared import FILE, LIST, MORE, PARTS, WIDEST

UNSIGNED_CHOICE = b"union choice switch (unsigned int n) { case 4294967295: bool b; default: int x; };"
FIXED = b"typedef opaque two[2]; typedef two three[3]; typedef two some<3>;"
# A text, a kind, and the items of a value, each with its bytes.
WRITTEN = [
    # Integers and hyper integers, both ends of each (sections 4.1, 4.2, 4.5).
    (b"", "int", [("number:-1", "ffffffff")]),
    (b"", "int", [("number:-2147483648", "80000000")]),
    (b"", "int", [("number:2147483647", "7fffffff")]),
    (b"", "unsigned", [("number:0", "00000000")]),
    (b"", "unsigned", [("number:4294967295", "ffffffff")]),
    (b"", "hyper", [("number:-9223372036854775808", "80000000 00000000")]),
    (b"", "hyper", [("number:9223372036854775807", "7fffffff ffffffff")]),
    (b"", "hyper", [("number:-2", "ffffffff fffffffe")]),
    (b"", "unsigned-hyper", [("number:0", "00000000 00000000")]),
    (b"", "unsigned-hyper", [("number:18446744073709551615", "ffffffff ffffffff")]),
    # Booleans and enumerations (4.3, 4.4).
    (b"", "bool", [("number:0", "00000000")]),
    (b"", "bool", [("number:1", "00000001")]),
    (FILE, "filekind", [("number:2", "00000002")]),
    (SIGNED_ALIKE, "alike", [("number:-1", "ffffffff")]),
    # Content, of a fixed size, of a length, and none (4.9 to 4.11).
    (SIX, "six", [("content:616263646566", "61626364 65660000")]),
    (b"", "opaque", [("content:", "00000000")]),
    (b"", "opaque", [("content:ff", "00000001 ff000000")]),
    (MORE, "five", [("content:6162636465", "00000005 61626364 65000000")]),
    (b"", "string", [("content:61626364", "00000004 61626364")]),
    (OWNER, "owner", [("content:" + "61" * 32, "00000020" + "61" * 32)]),
    # Arrays (4.12, 4.13).
    (PAIR, "pair", [("number:-1", "ffffffff"), ("number:2147483647", "7fffffff")]),
    (FIXED, "three", [("content:6162", "61620000"), ("content:6364", "63640000"), ("content:0000", "00000000")]),
    (TWO, "two", [("count:0", "00000000")]),
    (TWO, "two", [("count:2", "00000002"), ("number:7", "00000007"), ("number:-8", "fffffff8")]),
    (FIXED, "some", [("count:1", "00000001"), ("content:6162", "61620000")]),
    (HYPERS, "hypers", [("number:1", "00000000 00000001"), ("number:-1", "ffffffff ffffffff"),
                        ("number:4294967296", "00000001 00000000")]),
    # Structures (4.14).
    (HOLDER, "holder", [("number:5", "00000005")]),
    (FILE, "file", [("content:73696c6c7970726f67", "00000009 73696c6c 7970726f 67000000"), ("number:2", "00000002"),
                    ("content:6c697370", "00000004 6c697370"), ("content:6a6f686e", "00000004 6a6f686e"),
                    ("content:287175697429", "00000006 28717569 74290000")]),
    (FILE, "file", [("content:", "00000000"), ("number:0", "00000000"), ("content:", "00000000"),
                    ("content:", "00000000")]),
    # Unions: an arm, a void arm, a default with a part and one without (4.15, 4.16).
    (MORE, "u", [("number:1", "00000001"), ("number:7", "00000007")]),
    (VOID_CHOICE, "choice", [("number:1", "00000001")]),
    (FLAG_CHOICE, "choice", [("number:1", "00000001"), ("number:-7", "fffffff9")]),
    (FLAG_CHOICE, "choice", [("number:0", "00000000")]),
    (UNSIGNED_CHOICE, "choice", [("number:4294967295", "ffffffff"), ("number:1", "00000001")]),
    (UNSIGNED_CHOICE, "choice", [("number:4294967294", "fffffffe"), ("number:-1", "ffffffff")]),
    (KIND_CHOICE, "choice", [("number:0", "00000000"), ("number:1", "00000001")]),
    (PARTS, "arm", [("number:5", "00000005")] + [(f"number:{n}", f"0000000{n}") for n in range(7)]),
    (PARTS, "arm", [("number:2", "00000002"), ("number:3", "00000003"), ("number:4", "00000000 00000004")]),
    (CHOICES, "choices", [("number:1", "00000001"), ("number:7", "00000007")] * 2),
    # A void has no item (4.16).
    (b"", "void", []),
    # Optional data (4.19).
    (OPTIONAL, "optional", [("flag:0", "00000000")]),
    (OPTIONAL, "optional", [("flag:1", "00000001"), ("content:6162", "00000002 61620000")]),
    (LIST, "list", [("flag:1", "00000001"), ("content:61", "00000001 61000000"), ("flag:1", "00000001"),
                    ("content:6263", "00000002 62630000"), ("flag:0", "00000000")]),
]
NUMBERS, OTHERS = ["number:0"], ["flag:0", "flag:1", "count:0", "count:1", "content:", "content:00000000"]
# A text, a kind, items with their bytes that are taken, and items each of which is another than the one that is due.
WRONG = [
    (b"", "int", [], OTHERS),
    (b"", "unsigned", [], OTHERS),
    (b"", "hyper", [], OTHERS + ["content:0000000000000000"]),
    (b"", "unsigned-hyper", [], OTHERS),
    # A boolean is a number, and no flag.
    (b"", "bool", [], OTHERS),
    (FILE, "filekind", [], OTHERS),
    (BOOL_CHOICE, "choice", [], OTHERS),
    (MORE, "u", [], OTHERS),
    (MORE, "u", [("number:1", "00000001")], OTHERS),
    (LIST, "list", [], ["number:0", "number:1", "count:0", "count:1", "content:", "content:00000001"]),
    (TWO, "two", [], ["number:0", "number:2", "flag:0", "flag:1", "content:", "content:00000001"]),
    # An array of a fixed size has no count, and content no length of its own.
    (PAIR, "pair", [], ["count:2"]),
    (b"", "opaque", [], ["count:3", "number:3", "flag:0"]),
    (b"", "string", [], ["count:3", "number:3", "flag:0"]),
    (FIXED, "some", [("count:2", "00000002"), ("content:6162", "61620000")], ["count:2", "content:61", "number:0"]),
    # Content of another fixed size.
    (SIX, "six", [], ["content:", "content:6162636465", "content:61626364656667", "content:6162636465660000",
                      "count:6", "number:6", "flag:1"]),
]
# A text, a kind, items with their bytes that are taken, and numbers that are too small and too large.
NOT_IN_RANGE = [
    (b"", "int", [], [-2147483649, 2147483648, -(2**127), 2**127 - 1]),
    (b"", "unsigned", [], [-1, 4294967296, -(2**127), 2**127 - 1]),
    (b"", "hyper", [], [-9223372036854775809, 9223372036854775808]),
    (b"", "unsigned-hyper", [], [-1, 18446744073709551616]),
    (b"", "bool", [], [-1, 4294967296]),
    (FILE, "filekind", [], [-2147483649, 2147483648, 4294967296]),
    # A discriminant's range is that of its kind: an integer, an unsigned one, a boolean, an enumeration.
    (MORE, "u", [], [-2147483649, 2147483648, 4294967297]),
    (UNSIGNED_CHOICE, "choice", [], [-1, 4294967296]),
    (BOOL_CHOICE, "choice", [], [-1, 4294967296]),
    (KIND_CHOICE, "choice", [], [-2147483649, 2147483648, 4294967296]),
    (HYPERS, "hypers", [("number:1", "00000000 00000001")], [9223372036854775808]),
]
# A text, a kind, items with their bytes that are taken, the item that is refused, the reason, and the limits.
IN_LIST = [("flag:1", "00000001"), ("content:61", "00000001 61000000")]
REFUSED_ITEMS = [
    (b"", "bool", [], "number:2", "BadBool at 0", 4096, WIDEST),
    (b"", "bool", [], "number:4294967295", "BadBool at 0", 4096, WIDEST),
    (BOOL_CHOICE, "choice", [], "number:2", "BadBool at 0", 4096, WIDEST),
    (FILE, "filekind", [], "number:3", "BadNumbered at 0", 4096, WIDEST),
    (FILE, "filekind", [], "number:-1", "BadNumbered at 0", 4096, WIDEST),
    (KIND_CHOICE, "choice", [], "number:3", "BadNumbered at 0", 4096, WIDEST),
    (FILE, "file", [("content:61", "00000001 61000000")], "number:3", "BadNumbered at 8", 4096, WIDEST),
    (MORE, "u", [], "number:2", "BadCase at 0", 4096, WIDEST),
    (BOOL_CHOICE, "choice", [], "number:1", "BadCase at 0", 4096, WIDEST),
    (KIND_CHOICE, "choice", [], "number:1", "BadCase at 0", 4096, WIDEST),
    (CHOICES, "choices", [("number:1", "00000001"), ("number:7", "00000007")], "number:2", "BadCase at 8", 4096,
     WIDEST),
    # Content and a count above their greatest.
    (MORE, "five", [], "content:616263646566", "TooLong at 0", 4096, WIDEST),
    (OWNER, "owner", [], "content:" + "61" * 33, "TooLong at 0", 4096, WIDEST),
    (FILE, "file", [("content:", "00000000"), ("number:0", "00000000")], "content:" + "61" * 33, "TooLong at 8", 4096,
     WIDEST),
    (TWO, "two", [], "count:3", "TooLong at 0", 4096, WIDEST),
    (TWO, "two", [], "count:4294967295", "TooLong at 0", 4096, WIDEST),
    # A part that is too deep refuses the item after which it is due.
    (HOLDER, "holder", [], "number:5", "TooDeep at 0", 1, WIDEST),
    (PAIR, "pair", [], "number:5", "TooDeep at 0", 1, WIDEST),
    (VOID_CHOICE, "choice", [], "number:1", "TooDeep at 4", 1, WIDEST),
    (TWO, "two", [], "count:1", "TooDeep at 4", 1, WIDEST),
    (LIST, "list", [], "flag:1", "TooDeep at 4", 2, WIDEST),
    (LIST, "list", IN_LIST, "flag:1", "TooDeep at 16", 4, WIDEST),
    # More bytes than the limit; and as many, where more are due.
    (b"", "opaque", [], "content:6162636465", "PastLimit", 4096, 8),
    (b"", "hyper", [], "number:1", "PastLimit", 4096, 4),
    (SIX, "six", [], "content:616263646566", "PastLimit", 4096, 4),
    (HYPERS, "hypers", [("number:1", "00000000 00000001")], "number:2", "PastLimit", 4096, 12),
    (FILE, "file", [("content:61", "00000001 61000000"), ("number:2", "00000002")], "content:61", "PastLimit", 4096,
     16),
    (PAIR, "pair", [], "number:1", "TooLarge at 4", 4096, 4),
    (TWO, "two", [], "count:1", "TooLarge at 4", 4096, 4),
    (TWO, "two", [("count:2", "00000002")], "number:1", "TooLarge at 8", 4096, 8),
    (LIST, "list", IN_LIST, "flag:1", "TooLarge at 16", 4096, 16),
    # Two faults: depth comes before all of the item, then its sort, then its range, then the limit on bytes.
    (HOLDER, "holder", [], "flag:1", "TooDeep at 0", 1, WIDEST),
    (HOLDER, "holder", [], "number:4294967296", "TooDeep at 0", 1, WIDEST),
    (b"", "hyper", [], "flag:1", "WrongItem", 4096, 4),
    (b"", "hyper", [], "number:9223372036854775808", "NotInRange", 4096, 4),
    (SIX, "six", [], "content:61626364656667", "WrongItem", 4096, 4),
    (OWNER, "owner", [], "content:" + "61" * 33, "PastLimit", 4096, 8),
    # Two faults of bytes within the limit: as in decoding, a unit that none has, then depth, then the limit on bytes.
    (MORE, "u", [], "number:2", "BadCase at 0", 1, 4),
    (VOID_CHOICE, "choice", [], "number:1", "TooDeep at 4", 1, 4),
    (TWO, "two", [], "count:3", "TooLong at 0", 1, 4),
]
# A text, a kind, the limit on depth, and what comes next: before any byte, and behind each unit of the bytes.
AWAITED = [
    (b"", "int", 4096, [("", "unit 0"), ("fffffffb", "nothing")]),
    (b"", "hyper", 4096, [("", "hyper"), ("ffffffff", "low of hyper"), ("fffffffe", "nothing")]),
    (b"", "unsigned-hyper", 4096,
     [("", "unsigned hyper"), ("00000000", "low of unsigned hyper"), ("00000001", "nothing")]),
    (b"", "void", 4096, [("", "nothing")]),
    (SIX, "six", 4096, [("", "content 6"), ("61626364", "content 2"), ("65660000", "nothing")]),
    (b"", "opaque", 4096,
     [("", "unit 6"), ("00000008", "content 8"), ("61626364", "content 4"), ("65666768", "nothing")]),
    (b"", "string", 4096, [("", "unit 7"), ("00000000", "nothing")]),
    # A structure and an array of fixed size have no unit of their own: their first part has it.
    (HOLDER, "holder", 4096, [("", "unit 0"), ("00000005", "nothing")]),
    (HYPERS, "hypers", 4096, [("", "hyper"), ("00000000", "low of hyper"), ("00000001", "hyper")]),
    (TWO, "two", 4096, [("", "unit 8"), ("00000002", "unit 0"), ("00000007", "unit 0"), ("00000008", "nothing")]),
    (VOID_CHOICE, "choice", 4096, [("", "unit 8"), ("00000001", "nothing")]),
    (FLAG_CHOICE, "choice", 4096, [("", "unit 8"), ("00000001", "unit 0"), ("00000007", "nothing")]),
    # Nothing comes behind a refusal.
    (b"", "bool", 4096, [("", "unit 4"), ("00000002", "nothing"), ("00000001", "nothing")]),
    (HOLDER, "holder", 1, [("", "nothing"), ("00000005", "nothing")]),
    (LIST, "list", 2, [("", "unit 11"), ("00000001", "nothing")]),
]
