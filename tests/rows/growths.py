"""Growths of memory that are refused, each in turn, alone and with all later ones."""
from .shared import FILE, PING, Refused, WIDEST, Whole

# Tasks that are refused before any input is read or in the midst of a long one, and one of an argument: whether lines
# are shown, whether the input is hexadecimal, the kind, the text, the input, the status, and what is printed and said.
TASKS = [
    (True, False, "file", PING, b"", "2", b"", b"no such name: file\n"),
    (True, False, "file", b"typedef opaque x[0];", b"", "2", b"", b"declaration refused: 10 (2) at 1:9\n"),
    (False, True, "536870912.1.1.1", PING, b"00000002 68690001", "1", b"refused BadPadding at 4\n", b""),
    (False, True, "opaque", b"", b"00001194" + b"61" * 4500, "0", b"ok 4504\n", b""),
]
MESSAGES = [
    (
        "read_call",
        "00000001 00000000 00000002 000186a0 00000002 00000000 00000001 0000001c 00000000 00000003 626f7800 000003e8 "
        "00000064 00000001 00000064 00000000 00000000 0000002a",
    ),
    ("read_reply", "00000001 00000001 00000000 00000002 00000001 61000000 00000000 0000002a"),
    ("read_reply", "00000001 00000001 00000001 00000001 00000063"),
    ("read_auth_sys", "00000000 00000003 626f7800 000003e8 00000064 00000001 00000064"),
]
# A text, a kind without nodes, the bytes of a value, how many of them are the value's, and its lines: they are read
# without memory. And such bytes that are refused.
WITHOUT_NODES = [
    Whole(b"", "int", "80000000", 4, b"-2147483648\n"),
    Whole(b"", "int", "0000004d 00", 4, b"77\n"),
    Whole(b"", "unsigned", "ffffffff", 4, b"4294967295\n"),
    Whole(b"", "hyper", "80000000 00000000", 8, b"-9223372036854775808\n"),
    Whole(b"", "hyper", "00000000 0000004d", 8, b"77\n"),
    Whole(b"", "unsigned-hyper", "ffffffff ffffffff 00", 8, b"18446744073709551615\n"),
    Whole(b"", "bool", "00000001", 4, b"TRUE\n"),
    Whole(FILE, "filekind", "00000002", 4, b"EXEC = 2\n"),
    Whole(b"", "void", "", 0, b"void\n"),
    Whole(b"", "void", "00", 0, b"void\n"),
]
REFUSED_WITHOUT = [
    Refused(b"", "bool", "00000002", WIDEST, "BadBool", 0, 4),
    Refused(FILE, "filekind", "00000003", WIDEST, "BadNumbered", 0, 4),
    Refused(b"", "int", "000000", WIDEST, "Truncated", 3, 4),
    Refused(b"", "hyper", "00000000", 4, "TooLarge", 4, 4),
]
# A type with parts of its own, and lengths of a chain of them, under some of which a block of the nodes at work is
# full.
CHAINED = b"struct t { t parts<>; };"
LENGTHS = range(1, 64)
