"""Tasks of the program, by all that is told of each: names that are refused, files of declarations, streams that are
closed, and inputs and outputs of many bytes."""
from rows.shared import Case, LIST, PIECES, PING, octets, word
from rows.tasks import ENCODED, FIVE, LONG_TEXTS, ORDER, UNENCODED, UNKNOWN, UNOPENED, UNREAD
from rows.written import CHECK, RECORDS, SHOW


def name_rows():
    # No input is read.
    for name in UNKNOWN:
        ending = 2, b"", b"no such name: %s\n" % name.encode()
        yield Case(CHECK, (4096, 1), hex=True, kind=name, types="a.x", text=PING), ending
    for types, name, most, said in ORDER:
        case = Case(CHECK, (4096, 1), hex=True, kind=name, types=types, text=PING, given=b"00", bytes=most)
        yield case, (2, b"", said)


def declaration_rows():
    for byte, count, piece, failing, ending in LONG_TEXTS:
        case = Case(CHECK, (piece, 0), (piece, 0), hex=True, kind="int", types="a.x", text=byte * count)
        yield case._replace(types_read_fails=failing, given=b"00000000"), ending
    for file in ("b.x", "a.x ", ""):
        yield Case(CHECK, hex=True, kind=file, types=file, text=LIST), UNREAD
    # Each read of three bytes of the declarations.
    for failing in range(1, 24):
        case = Case(CHECK, (3, 0), (3, 0), hex=True, kind="list", types="a.x", text=LIST, given=b"00000000")
        yield case._replace(types_read_fails=failing), UNREAD
    for task, name, given, ending in UNOPENED:
        yield Case(task, hex=True, kind=name, text=LIST, types_read_fails=1, given=given), ending


def basic_rows():
    lines = 0, b'"\\x22\\x09\\x5c"\nok 8\n', b""
    yield Case(SHOW, hex=True, kind="string", given=b"00000003 22095c00"), lines
    threes = {"reads": (3, 0), "writes": (3, 0)}
    lines = 0, b"TRUE\nok 4, more follows\n", b""
    yield Case(SHOW, kind="bool", given=octets("00000001 00"), depth=1, bytes=4, **threes), lines
    for digits, status, printed in FIVE:
        case = Case(CHECK, kind="five", types="a.x", text=b"typedef opaque five<5>;", given=octets(digits), **threes)
        yield case, (status, printed, b"")
    # The status stays where the stream of faults is closed.
    yield Case(CHECK, (1, 0), (1, 0), hex=True, kind="void", faults_write_fails=1), (2, b"", b"")


def long_rows():
    # 1048576 digits, the greatest text of hexadecimal; an opaque of 65536 bytes; and one of 2 MiB, which is read by
    # whole pages: one of fewer than two bytes would need more than 1048576 reads.
    greatest, long = b"0007fffc" + b"0" * 1048568, b"61" * 65536
    yield Case(CHECK, hex=True, kind="opaque", given=greatest), (0, b"ok 524288\n", b"")
    lines = b"0x" + long + b"\nok 65540\n"
    yield Case(SHOW, hex=True, kind="opaque", given=b"00010000" + long), (0, lines, b"")
    pages = octets("00200000") + b"abcdefghijklmnop" * 131072
    yield Case(CHECK, kind="opaque", given=pages), (0, b"ok 2097156\n", b"")
    # The longest record in one fragment, as hexadecimal, and in two halves.
    yield Case(RECORDS, hex=True, limit=65536, given=b"80010000" + long), (0, b"80010000" + long + b"\n", b"")
    half = b"a" * 32768
    halves = octets("00008000") + half + octets("80008000") + half
    yield Case(RECORDS, limit=65536, given=halves), (0, octets("80010000") + half + half, b"")


def most_read_rows():
    """A text of a value, read byte by byte: 1048576 reads are made, the last of which finds the end, and no more."""
    for spaces, ending in ((1048574, (0, word(7), b"")), (1048575, (3, b"", b"too many reads\n"))):
        yield Case("encode_over", (1, 0), kind="int", given=b" " * spaces + b"7", bytes=4), ending


def ended_by(given, written, said, reads, writes):
    """How a value that is read as JSON ends where this read or this write fails. All is read, with one read more at the
    end; then all is written, or nothing."""
    (piece, failing), (most, failing_write) = reads, writes
    if 0 < failing <= -(-len(given) // piece) + 1:
        return 3, b"", b"read fault\n"
    if written is None:
        return 1, b"", said
    if 0 < failing_write <= -(-len(written) // most):
        return 3, written[: (failing_write - 1) * most], b"write fault\n"
    return 0, written, b""


def encoded_rows():
    """Values as JSON, their bytes or their hexadecimal, with each read and each write failing."""
    for text, kind, given, digits, said in ENCODED:
        for in_hex in (False, True):
            asked = {"kind": kind, "text": text, "types": "a.x" if text else None, "hex": in_hex}
            # (the input of a case with `hex` is written as text)
            written = None if digits is None else octets(digits)
            written = written and (written.hex().encode() + b"\n" if in_hex else written)
            for piece in PIECES:
                for failing in range(len(given) // piece + 3):
                    reads = piece, failing
                    ending = ended_by(given, written, said, reads, (piece, 0))
                    yield Case("encode_over", reads, (piece, 0), given=given, **asked), ending
                for failing in range(1, len(written or b"") // piece + 3):
                    writes = piece, failing
                    ending = ended_by(given, written, said, (piece, 0), writes)
                    yield Case("encode_over", (piece, 0), writes, given=given, **asked), ending
            case = Case("encode_over", faults_write_fails=1, given=given, **asked)
            yield case, (1, b"", b"") if written is None else (0, written, b"")
    for name, most, said in UNENCODED:
        case = Case("encode_over", (4096, 1), kind=name, types="a.x", text=LIST, given=b"null", bytes=most)
        yield case, (2, b"", said)
    yield Case("encode_over", kind="list", types="b.x", text=LIST, given=b"null"), UNREAD


def program_cases():
    """Tasks, each with its status, what it prints and what it says of faults."""
    for rows in (name_rows, declaration_rows, basic_rows, long_rows, most_read_rows, encoded_rows):
        for case, (status, *streams) in rows():
            wanted = str(status), streams
            yield case, lambda told, wanted=wanted: (told.answer, told.streams) == wanted
