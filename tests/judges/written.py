"""Rows that are run as they stand, by all that is told of each: streams that are served, answers that are printed,
tasks of the program, and texts of declarations. A row has what the RFCs or the documents want of it."""
import itertools

from rows.shared import AT_9, Case, LIST, NULL, PIECES, call, marked, octets, reply, word
from rows.written import (
    ANSWERS,
    BYTES,
    CHECK,
    DEPTHS,
    NESTED,
    READS,
    RECORDS,
    REFUSED_ANSWERS,
    SERVED_SO,
    SHOW,
    STOPS,
    STREAMS,
    TEXTS,
    VALUES,
)

from .large import refused_text


def served_cases():
    """Streams of calls, each with the reply to it."""
    for rows, piece in itertools.product(SERVED_SO, PIECES):
        given = b"".join(marked(record) for record, _ in rows)
        sent = b"".join(marked(reply) for _, reply in rows)
        wanted = f"{len(rows)} records, {len(rows)} replies", sent
        case = Case("serve", (piece, 0), given=given)
        yield case, lambda told, wanted=wanted: (told.answer, told.streams[0]) == wanted
    # A record has at most 65536 bytes; behind the arguments of the null call any bytes are ignored.
    for count, wanted in (
        (65536, ("1 records, 1 replies", marked(reply("00000000")))),
        (65537, ("refused TooLong at 0", b"")),
    ):
        case = Case("serve", given=marked(NULL.ljust(count, b"\xff")))
        yield case, lambda told, wanted=wanted: (told.answer, told.streams[0]) == wanted
    # So have arguments: 36 bytes stand before the owner's.
    for owner, sent in ((65500, "00000000 00000001"), (65504, "00000004")):
        args = f"00000007 00000001 00000003 74637000 {AT_9} {owner:08x}" + "61" * owner
        wanted = f"reply {reply(sent).hex()}"
        yield Case("answer", given=call(3, 1, args)), lambda told, wanted=wanted: told.answer == wanted


def asked_cases():
    """What is printed of an answer, and the call that was sent for it."""
    rows = ANSWERS + [(4, marked(octets(digits)), 1, b"refused %s\n" % why) for digits, why in REFUSED_ANSWERS]
    for (vers, given, status, printed), piece in itertools.product(rows, PIECES):
        wanted = str(status), [marked(call(vers, 4, "")), printed, b""]
        case = Case("info_over", (piece, 0), (piece, 0), version=vers, given=given)
        yield case, lambda told, wanted=wanted: (told.answer, told.streams) == wanted


def bodies(depth):
    """A structure of so many bodies inside one another: the brace of the 33rd is the 298th byte."""
    return b"struct a { " + b"struct { " * (depth - 1) + b"int x; " + b"} x; " * (depth - 1) + b"};"


def task_rows():
    """Tasks, each with its status, what it prints and what it says of faults."""
    for (task, text, name, given, status, printed), piece in itertools.product(VALUES, PIECES):
        case = Case(task, (piece, 0), (piece, 0), hex=True, kind=name, types="a.x", text=text, given=given)
        yield case, status, printed, b""
    limited = Case(CHECK, hex=True, kind="opaque", types="a.x", given=b"00000008 61616161", bytes=8)
    yield limited, 1, b"refused TooLarge at 8\n", b""
    for task, name, byte, count, line in (
        (CHECK, "opaque", b" ", 1048576, b"refused Truncated at 0\n"),
        (CHECK, "opaque", b"x", 1048577, b"refused hex too long\n"),
        (SHOW, "string", b" ", 1048577, b"refused hex too long\n"),
    ):
        yield Case(task, hex=True, kind=name, types="a.x", given=byte * count), 1, line, b""
    for text, fault in TEXTS:
        case = Case(CHECK, (4096, 1), (4096, 1), hex=True, kind="nosuchkind", types="a.x", text=text, bytes=6)
        yield case, 2, b"", b"declaration refused: %s\n" % fault
    for (limit, in_hex, given, *ending), piece in itertools.product(STREAMS, PIECES):
        yield Case(RECORDS, (piece, 0), (piece, 0), hex=in_hex, limit=limit, given=given), *ending
    for name, given, piece, failing, *ending in STOPS:
        yield Case(CHECK, (piece, failing), kind=name, types="a.x", given=given), *ending
    for most, failing, *ending in BYTES:
        given = b"\0\0\0\x04abcd\0\0\0\0"
        yield Case(CHECK, (1, failing), kind="opaque", types="a.x", given=given, bytes=most), *ending
    for count, depth, status, line in DEPTHS:
        given = (word(1) + word(0)) * count + word(0)
        case = Case(CHECK, kind="list", types="a.x", text=LIST, given=given, depth=depth)
        yield case, status, line, b""
    for depth, *ending in ((32, 0, b"ok 4\n", b""), (33, 2, b"", b"declaration refused: 12 at 1:298\n")):
        yield Case(CHECK, kind="a", types="a.x", text=bodies(depth), given=bytes(4)), *ending
    for zeros, piece, *ending in READS:
        case = Case(RECORDS, (piece, 0), (piece, 0), limit=4, zeros=zeros, given=b"\x80\0\0\0")
        yield case, *ending


def task_cases():
    for case, status, printed, said in task_rows():
        wanted = str(status), [printed, said]
        yield case, lambda told, wanted=wanted: (told.answer, told.streams) == wanted


def nested(inside, depth):
    return b"typedef " + b"struct { " * depth + inside + b" } x;" * depth


def procedures(count):
    """A program of one version with so many procedures (RFC 5531 section 12)."""
    made = b"".join(b"void N%d(void) = %d; " % (number, number) for number in range(count))
    return b"program P { version V { " + made + b"} = 1; } = 1;"


def versions(count):
    """A program of so many versions, each with a procedure."""
    made = b"".join(b"version V%d { void N(void) = 0; } = %d; " % (number, number) for number in range(count))
    return b"program P { " + made + b"} = 1;"


def constants_of(told):
    """The constants that a text declares. The streams of `read` are its kinds, names, constants and programs."""
    return told.streams[2].decode().split("; ")


def is_read(told):
    return told.answer == "ok"


def same_answers():
    """Whether the first of two texts is read, and the second means the same."""
    first = []

    def is_same(told):
        first.append(told.streams)
        return is_read(told) and told.streams == first[0]

    return is_same


def has_each_number(told):
    """Whether the names n, n1 and so on are declared as constants, each with its number, and all below 10,000."""
    wanted = ["TRUE = 1", "FALSE = 0", *(f"n{number or ''} = {number}" for number in range(10000))]
    return constants_of(told) == wanted


def declaration_cases():
    """Texts that are long or nested, and what they declare."""
    yield Case("read", text=b"@" * 262145), refused_text(11, 0, 1, 1)
    for inside, depth, fault in NESTED:
        yield Case("read", text=nested(inside, depth)), refused_text(*fault) if fault else is_read
    # Inside 32 bodies `struct s` is what `s` is, and no body.
    is_same = same_answers()
    for field in (b"struct s y;", b"s y;"):
        yield Case("read", text=nested(field, 32) + b" struct s { int x; };"), is_same
    for text in (procedures(1000), versions(1000)):
        yield Case("read", text=text), is_read
    for name, before, after in (
        (b", n%d = %d", b"enum e { n = 0", b" };"),
        (b"; const n%d = %d", b"const n = 0", b";"),
    ):
        text = before + b"".join(name % (number, number) for number in range(1, 10000)) + after
        yield Case("read", text=text), has_each_number
