"""Tasks of the program, by all that is told of each: names that are refused, files of declarations, streams that are
closed, and inputs and outputs of many bytes."""
from .shared import LIST, MORE, WIDEST
from .written import CHECK, SHOW

# Names of no kind of PING, of its arguments and of its results (RFC 5531 section 12.3).
UNKNOWN = [
    "536870912.1.0.result",
    "536870912.1.0.1",
    "536870912.1.1.0",
    "536870912.1.1.2",
    "536870912.1.1.01",
    "0536870912.1.1.1",
    "536870912.01.1.1",
    "536870912.1.01.1",
    "536870912.1.1.4294967296",
    "536870912.1.1.4294967297",
    "4831838208.1.1.1",
    "536870912.4294967297.1.1",
    "536870912.1.2.1",
    "536870912.2.1.1",
    "536870911.1.1.1",
    "536870912.1.1",
    "536870912.1.1.",
    "536870912.1.1.1.",
    "536870912.1.1.1.1",
    "536870912..1.1",
    ".1.1.1",
    "+536870912.1.1.1",
    "536870912.1.1.+1",
    "536870912.1.1.-1",
    "536870912.1.1.Result",
    "536870912.1.1.results",
    " 536870912.1.1.1",
    "536870912.1.1.1 ",
    "0x20000000.1.1.1",
    "PING",
    "ECHO",
    "void",
    "",
]
# The name comes before the limits, and both before the input: the file of PING, if it is named, a name, the limit on
# bytes, and what is said.
ORDER = [
    ("a.x", "list", 6, b"no such name: list\n"),
    ("a.x", "536870912.1.1.1", 6, b"limits refused\n"),
    ("a.x", "int", 0, b"limits refused\n"),
    (None, "void", WIDEST, b"no such name: void\n"),
    (None, "int", 6, b"limits refused\n"),
    (None, "void", 6, b"no such name: void\n"),
    (None, "", 4, b"no such name: \n"),
    (None, "536870912.1.1.1", 4, b"no such name: 536870912.1.1.1\n"),
    (None, "int", WIDEST + 4, b"limits refused\n"),
]
# A byte of declarations, how many of them there are, how many are read at once, the read of them that fails, and how a
# check of four bytes ends. The 262145th byte is the last that is read, and of one byte less the end is found by a read.
INT, TOO_LONG, UNREAD = (0, b"ok 4\n", b""), (2, b"", b"declaration refused: 11 at 1:1\n"), (3, b"", b"read fault\n")
LONG_TEXTS = [
    (b" ", 262144, 4096, 0, INT),
    (b" ", 262144, 1, 262145, UNREAD),
    (b" ", 262144, 1, 262146, INT),
    (b" ", 262145, 4096, 0, TOO_LONG),
    (b"x", 400000, 1, 262146, TOO_LONG),
]
# What is done without declarations, whose first read would fail, the name, the input as hexadecimal, and how it ends.
UNOPENED = [
    (SHOW, "list", b"", (2, b"", b"no such name: list\n")),
    (CHECK, "int", b"00000000", INT),
]
# The input of up to five bytes, the status and what is printed.
FIVE = [
    ("00000003 61626300", 0, b"ok 8\n"),
    ("00000003 61626301", 1, b"refused BadPadding at 4\n"),
    ("00000006", 1, b"refused TooLong at 0\n"),
    ("00000001 61000000 62", 0, b"ok 8, more follows\n"),
]
# Values as JSON whose bytes are written: a text of declarations, a kind, the JSON, and the bytes; no bytes and what is said
# where it is refused.
ENCODED = [
    (b"", "int", b"-1", "ffffffff", b""),
    (b"", "string", b' "a\\u0062c"\n', "00000003 61626300", b""),
    (LIST, "list", b'{"next":null,"item":"a"}', "00000001 00000001 61000000 00000000", b""),
    (MORE, "few", b"[7, -1]", "00000002 00000007 ffffffff", b""),
    (LIST, "list", b'{"item":"a",\n"next":{}}', None, b"refused MissingMember at 2:8\n"),
    (MORE, "few", b"[\n\n7, 1.5]", None, b"refused NotWhole at 3:4\n"),
    (b"", "int", b"", None, b"refused NotJson at 1:1\n"),
    (b"", "bool", b"\n\xff", None, b"refused NotJson at 2:1\n"),
]
# The same that is refused before it is read, or not read: the kind, the limit on bytes, what is said, and the status.
UNENCODED = [
    ("lists", 4, b"no such name: lists\n"),
    ("list", 6, b"limits refused\n"),
]
