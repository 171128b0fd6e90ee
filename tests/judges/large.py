"""Rows written out, large and deep inputs, and lengths that are only declared."""
import itertools

from rows.codec import NEST
from rows.growths import CHAINED
from rows.large import MANY, NULL_REPLY, WIDE
from rows.shared import (
    ASKED_AFTER,
    Case,
    LIST,
    MORE,
    NULL,
    PIECES,
    Refused,
    SERVED,
    SET,
    WIDEST,
    Whole,
    call,
    marked,
    octets,
    told_after,
    word,
)

from .growths import decoded_well, joined_well
from .streams import handed_out, normalised
from .values import checked, fault_of, fed, typed, value_task
from .writer import is_refused, is_told, put


def literal_cases():
    """Rows written out: the engine, what it is given, and what is told."""
    twice = SERVED[1]
    silent = told_after(False)
    rows = [(Case("serve", given=b""), "0 records, 0 replies", [b"", silent])]
    for length, piece in itertools.product(range(1, 48), PIECES):
        case = Case("serve", (piece, 0), given=SERVED[0][:length])
        rows.append((case, f"refused Truncated at {length}", [b"", silent]))
    for count, piece in itertools.product(range(28), PIECES):
        case = Case("serve", (piece, 0), (1, count + 1), given=SERVED[0])
        rows.append((case, f"write fault after {count}", [NULL_REPLY[:count], silent]))
    rows.append((Case("serve", (48, 2), given=twice), "read fault", [NULL_REPLY, silent]))
    case = Case("serve", (4096, 0), (4096, 1), given=marked(SET))
    rows.append((case, "write fault after 0", [b"", told_after(True)]))
    rows.append((Case("serve", (4096, 0), (4096, 2), given=twice), "write fault after 28", [NULL_REPLY, silent]))
    # Behind a null call: nothing, an empty record, a header and a record that are cut, one that is too long, and one as
    # long as the limit and cut.
    stops = [
        ("", "1 records, 1 replies"),
        ("80000000", "2 records, 1 replies"),
        ("8000", "refused Truncated at 50"),
        ("0000000100", "refused Truncated at 53"),
        ("80010001", "refused TooLong at 48"),
        ("8001000000", "refused Truncated at 53"),
    ]
    for (digits, answer), piece in itertools.product(stops, PIECES):
        rows.append((Case("serve", (piece, 0), given=SERVED[0] + octets(digits)), answer, [NULL_REPLY, silent]))
    # A check stops at a refusal, and after a value at the byte that follows: the next read is not made.
    for digits, piece, failing, ending in [
        ("00000002", 4, 2, (1, b"refused BadBool at 0\n", b"")),
        ("00000002", 4096, 2, (1, b"refused BadBool at 0\n", b"")),
        ("00000001", 4, 2, (3, b"", b"read fault\n")),
        ("00000001 00", 5, 2, (0, b"ok 4, more follows\n", b"")),
    ]:
        case = value_task(False, False, octets(digits), {"kind": "bool"}, (piece, failing))
        rows.append((case, str(ending[0]), [*ending[1:]]))
    case = value_task(False, True, b"00000003 61626300", {"kind": "opaque"}, writes=(4096, 1))
    rows.append((case, "3", [b"", b"write fault\n"]))
    for case, answer, streams in rows:
        wanted = answer, streams
        changed = case._replace(after=ASKED_AFTER) if case.call == "serve" else case
        yield changed, lambda told, wanted=wanted: (told.answer, told.streams) == wanted


def large_cases():
    """A million empty fragments, and 1048577 reads of a byte."""
    empty, zeros = octets("80000000"), {"zeros": 4000000, "given": octets("80000000")}
    once, never = ("1 records, 4 bytes", [empty]), ("too many reads", [b""])
    unread = "3", [b"", b"too many reads\n"]
    many = {"kind": "many", "text": MANY, "types": "a.x"}
    rows = [
        (Case("normalise", limit=WIDEST, **zeros), *once),
        (Case("normalise", (1, 0), limit=WIDEST, zeros=1048577), *never),
        (Case("serve", **zeros), "1 records, 0 replies", [b"", b""]),
        (Case("serve", (1, 0), zeros=1048577), "too many reads", [b"", b""]),
        (Case("exchange", (1, 0), zeros=1048577), "too many reads", [marked(NULL)]),
        (Case("info_over", (1, 0), version=4, zeros=1048577), "3", [marked(call(4, 4, "")), b"", b"too many reads\n"]),
        (Case("Task::Records", (1, 0), limit=WIDEST, zeros=1048577), *unread),
        (Case("Task::Check", (1, 0), zeros=1200000, **many), *unread),
        (Case("Task::Check", (1, 0), zeros=1048576, **many), *unread),
        (
            Case("Task::Check", (1, 0), zeros=1048575, **many),
            "1",
            [b"refused Truncated at 1048575\n", b""],
        ),
        (Case("Task::Check", zeros=1200000, **many), "0", [b"ok 1200000\n", b""]),
    ]
    for case, *wanted in rows:
        yield case, lambda told, wanted=wanted: [told.answer, told.streams] == wanted


def refused_text(number, inner, line, column):
    wanted = f"declaration refused: {number}{f' ({inner})' if inner else ''} at {line}:{column}"
    return lambda told: told.answer == wanted


def bodies(depth):
    return b"struct { " * (depth - 1) + b"int x; " + b"} x; " * (depth - 1)


def text_cases():
    """The longest text, the most kinds and the most bodies inside one another, and one more of each."""
    is_read = lambda told: told.answer == "ok"
    lines = [b"typedef opaque a%d[1];\n" % number for number in range(1017)]
    for text, is_well in [
        (b" " * 262144, is_read),
        (b" " * 262145, refused_text(11, 0, 1, 1)),
        (b"".join(lines[:1016]), is_read),
        (b"".join(lines), refused_text(10, 8, 1, 1)),
        (b"struct s { " + bodies(32) + b"};", is_read),
        (b"struct s { " + bodies(33) + b"};", refused_text(12, 0, 1, 10 + 32 * 9)),
    ]:
        yield Case("read", text=text), is_well


def chained(count):
    """A chain of so many typedefs, each of the next, and the last of hyper."""
    lines = (b"typedef t%x t%x;" % (number + 1, number) for number in range(count))
    return b"\n".join(lines) + b"typedef hyper t%x;" % count


def typedef_cases():
    """A chain of 12,000 typedefs: what one of them names is learnt once for all."""
    yield Case("read", text=chained(12000)), lambda told: told.answer == "ok" and b'("t0", 2)' in told.streams[1]


def picked_cases():
    """A million numbers, each that of the last among thousands of members or arms: it is found in few steps. One by one
    they take some ten seconds and more. `show` of a tenth of them, whose lines are more than the output takes."""
    members = b"".join(b"e%d=%d," % (number, number) for number in range(1, 15000))
    arms = b"".join(b"case %d:void;" % number for number in range(1, 11250))
    for text in (
        b"enum e{%slast=0};typedef e many[1000000];" % members,
        b"union u switch(int d){%scase 0:void;};typedef u many[1000000];" % arms,
    ):
        case = Case("Task::Check", zeros=4000000, kind="many", text=text, types="a.x")
        yield case, lambda told: (told.answer, told.streams) == ("0", [b"ok 4000000\n", b""])
        case = Case("Task::Show", zeros=400000, kind="many", text=text.replace(b"1000000", b"100000"), types="a.x")
        yield case, lambda told: (told.answer, told.streams[1]) == ("3", b"write fault\n")


def wide_part_cases():
    """Parts that are looked at in vain, before many bytes: forty of 65,604 bytes, more than are looked at for one, the
    last of them whole or refused, and the first of 5000 parts of 404 bytes, which is refused. They are begun then, and
    not looked at anew for each byte behind them."""
    text = b"struct part { int rest[16400]; bool last; }; typedef part parts[40];"
    given = bytes(40 * 65604)
    whole = Whole(text, "parts", "", len(given), b"")
    last = Refused(text, "parts", "", WIDEST, "BadBool", len(given) - 4, len(given))
    text = b"struct part { int rest[100]; bool last; }; typedef part parts<>;"
    first = Refused(text, "parts", "", WIDEST, "BadBool", 404, 408)
    behind = word(5000) + bytes(400) + word(2) + bytes(4999 * 404)
    for row, bytes_of in ((whole, given), (last, given[:-1] + b"\2"), (first, behind)):
        kind = {"given": bytes_of, **typed(row)}
        yield Case("Checker", (len(bytes_of), 0), **kind), fed(row, bytes_of, len(bytes_of), True)
    yield Case("decode", **kind), decoded_well(first)


def deep_cases():
    """The list of 2047 empty strings, of depth 4096 and 16380 bytes, whole and byte by byte, and one string more."""
    given = (word(1) + word(0)) * 2047 + word(0)
    deeper = (word(1) + word(0)) * 2048 + word(0)
    lines = ["present"]
    for depth in range(2047):
        margin = "    " * depth
        lines += [f"{margin}  struct", f'{margin}    item: ""']
        lines += [f"{margin}    next: {'absent' if depth == 2046 else 'present'}"]
    shown = "".join(line + "\n" for line in lines).encode()
    whole = Whole(LIST, "list", given.hex(), 16380, shown)
    refused = Refused(LIST, "list", deeper.hex(), WIDEST, "TooDeep", 16380, 16380)
    for row, bytes_of in ((whole, given), (refused, deeper)):
        kind = {"given": bytes_of, **typed(row)}
        yield Case("decode", **kind), decoded_well(row)
        yield Case("parts", **kind), joined_well(row, bytes_of)
        for engine, piece in itertools.product(("Decoder", "Checker"), PIECES):
            yield Case(engine, (piece, 0), **kind), fed(row, bytes_of, piece, engine == "Checker")
        yield value_task(False, False, bytes_of, typed(row)), checked(row, bytes_of, False, False, (4096, 0), (4096, 0))
    kind = {"given": given, **typed(whole)}
    for engine, streams in (("encode", [given]), ("show", [shown])):
        wanted = "ok", streams
        yield Case(engine, **kind), lambda told, wanted=wanted: (told.answer, told.streams) == wanted
    yield Case("Value::copy", **kind), lambda told: told.answer == "equal"
    # Optionals inside one another, and arrays.
    for text, name in ((NEST, "nest"), (b"typedef list list<>;", "list")):
        case = Case("Value::copy", kind=name, text=text, given=word(1) * 4095 + word(0))
        yield case, lambda told: told.answer == "equal"
    yield Case("encode_to", writes=(1, 0), **kind), lambda told: (told.answer, told.streams) == ("ok 16380", [given])
    yield Case("Writer::put", **kind), is_told(4094, ["done", "ok 16380"], [given], b"")
    entries = ["flag:1", "content:"] * 2047
    yield put(LIST, "list", [*entries, "flag:0"]), is_told(4094, ["done", "ok 16380"], [given])
    is_well = is_refused(4094, [*entries, "flag:1"], "refused TooDeep at 16380", [given[:-4]])
    yield put(LIST, "list", [*entries, "flag:1"]), is_well


def declared_cases():
    """Lengths and counts of gibibytes, and a byte behind them, or a number that is put behind a count, 2000 wide
    structures that have begun, and 1000 arrays of gibibytes with an item each, where there are 64 MiB."""
    items, pieces = ["count:4294967295", "number:97"], [octets("ffffffff 00000061")]
    yield put(MORE, "big", items), is_told(2, ["refused Unfinished, item 2"], pieces)
    for text, name, piece in ((b"", "opaque", 1), (b"", "string", 4), (MORE, "big", 4), (MORE, "big", 1)):
        for engine in ("Decoder", "Checker"):
            case = Case(engine, (piece, 0), kind=name, text=text, given=octets("ffffffff 61"))
            wanted = f"{-(-5 // piece)} pieces; more; more; {fault_of('Truncated', 5)}; 0 growths"
            yield case, lambda told, wanted=wanted: told.answer == wanted
    for engine, piece in itertools.product(("Decoder", "Checker"), (4, 4096)):
        given = word(1) * 2000
        wanted = f"{-(-8000 // piece)} pieces; more; more; {fault_of('Truncated', 8000)}; 0 growths"
        case = Case(engine, (piece, 0), kind="wide", text=WIDE, given=given)
        yield case, lambda told, wanted=wanted: told.answer == wanted
    # A thousand arrays inside one another, each of 2^32 - 1 items, of which the first has come.
    given = octets("ffffffff 00000000") * 1000
    for engine, piece in itertools.product(("Decoder", "Checker"), (4, 4096)):
        case = Case(engine, (piece, 0), kind="t", text=CHAINED, given=given)
        wanted = f"{-(-8000 // piece)} pieces; more; more; {fault_of('Truncated', 8000)}; 0 growths"
        yield case, lambda told, wanted=wanted: told.answer == wanted
    # What is enough to be read.
    case = Case("FromRead", limit=4294967295, given=b"abc")
    yield case, lambda told: (told.answer, told.streams) == ("ok; ok", [b"abc", b""])
    given = octets("ffffffff 61")
    yield Case("RecordReader", (1, 0), limit=2147483647, given=given), handed_out(2147483647, given)
    yield Case("normalise", (1, 0), limit=2147483647, given=given), normalised(2147483647, given, (1, 0), (1, 0))
