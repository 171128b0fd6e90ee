"""Rows of 'oncrpc encode': which stream has what, the texts of tests/rows as bytes and back, and the deepest values."""
import subprocess
import sys

from .json_lines import DEEPEST, OWN, ROOT, STACK

sys.path.append(f"{ROOT}/tests")

from judges.spelled import place_of
from rows.json_grammar import INVALID, OPEN, VALID, WELL_FORMED
from rows.json_read import LIMITED, READ, REFUSED
from rows.json_texts import INDENTED, JSON
from telling import tell
from timing import LIMIT

FILE = "file.x"
# A text of this many bytes is the longest for a value of four bytes: 16 for each of them, and 1048576 more.
LONGEST = 64 + 1048576
# The words, the text, the status, and what is printed on each stream.
SAID = [
    ("--name int", b"-1", 0, b"\xff\xff\xff\xff", b""),
    ("--name int --hex", b" -1\n", 0, b"ffffffff\n", b""),
    ("--name opaque --hex", b'"00Ff"', 0, b"0000000200ff0000\n", b""),
    (f"--types {FILE} --name filetype --hex", b'{"creator":"a","case":1}', 0, b"000000010000000161000000\n", b""),
    (f"--types {FILE} --name filetype --hex", b'{"case":"DATA",\n "author":"a"}', 1, b"", b"refused UnknownMember at 2:2\n"),
    ("--name int", b"", 1, b"", b"refused NotJson at 1:1\n"),
    ("--name int", b"1 2", 1, b"", b"refused NotJson at 1:3\n"),
    ("--name int", b"\n\n\xff", 1, b"", b"refused NotJson at 3:1\n"),
    ("--name int --bytes 4", b"7" + b" " * (LONGEST - 1), 0, b"\0\0\0\7", b""),
    ("--name int --bytes 4", b"7" + b" " * LONGEST, 1, b"", b"refused text too long\n"),
    ("--name int --bytes 4", b"x" * (LONGEST + 1), 1, b"", b"refused text too long\n"),
    ("--name hyper --bytes 4", b"7", 1, b"", b"refused TooLarge at 1:2\n"),
    ("--name int --bytes 6", b"7", 2, b"", b"limits refused\n"),
    ("--name int --depth 0", b"7", 2, b"", b"limits refused\n"),
    ("--name void", b"{}", 2, b"", b"no such name: void\n"),
    ("--name void --bytes 6", b"{}", 2, b"", b"no such name: void\n"),
    ("--types loop.x --name void --bytes 6", b"{}", 2, b"", b"declaration refused: 10 (7) at 1:1\n"),
    ("--types loop.x --name a", b"{}", 2, b"", b"declaration refused: 10 (7) at 1:1\n"),
    ("--types ping.x --types loop.x --name a", b"{}", 2, b"", b"declaration refused: 10 (7) at loop.x:1:1\n"),
    ("--types none.x --name int", b"7", 3, b"", b"read fault\n"),
    ("--types ping.x --name 536870912.1.1.1 --hex", b'"hi"', 0, b"0000000268690000\n", b""),
    ("--types size.x --dialect rpcgen --name size --hex", b"42", 0, b"0000002a\n", b""),
    ("--types size.x --dialect rpcgen --define LONG --name size --hex", b"42", 0, b"000000000000002a\n", b""),
]


def ended(program, folder, words, given, stack="unlimited"):
    shell = ["sh", "-c", f"ulimit -s {stack}; exec '{program}' {words}"]
    got = subprocess.run(shell, cwd=folder, input=given, capture_output=True, timeout=LIMIT)
    return got.returncode, got.stdout, got.stderr


def row(name, well, got):
    return tell(f"oncrpc {name}", well, got)


def said_rows(program, folder):
    for words, given, status, output, faults in SAID:
        got = ended(program, folder, f"encode {words}", given)
        yield row(f"encode {words}, {given[:40]}", got == (status, output, faults), got)


def declared(folder, text):
    with open(f"{folder}/json.x", "wb") as it:
        it.write(text)


def value_rows(program, folder):
    """Each text whose kind can be declared gives the bytes, and what 'show --json' prints of a value comes back."""
    for text, name, given, digits in [*READ, *VALID, *((t, n, j.encode(), d) for t, n, d, j in JSON + INDENTED)]:
        if name not in OWN:
            declared(folder, text)
            got = ended(program, folder, f"encode --types json.x --name {name}", given)
            yield row(f"encode of {name}, {given[:60]}", got == (0, bytes.fromhex(digits), b""), got)
    for layout, rows in (("", JSON), (" --indent", INDENTED)):
        for text, name, digits, wanted in rows:
            if name not in OWN:
                declared(folder, text)
                words = f"--types json.x --name {name}"
                made = ended(program, folder, f"encode {words}", wanted.encode() + b"\n")
                got = ended(program, folder, f"show --json{layout} {words}", made[1])
                yield row(f"encode and show of {name}, {wanted[:60]}", got == (0, wanted.encode() + b"\n", b""), got)


def refused_rows(program, folder):
    """What is refused has its reason, its line and its column on standard error, and no byte on standard output."""
    marked = [(4096, 16777216, *row) for row in REFUSED + WELL_FORMED]
    marked += [(4096, 16777216, *row, "NotJson") for row in INVALID + OPEN]
    for depth, most, text, name, given, why in marked + [row for row in LIMITED if row[5]]:
        if name in OWN:
            continue
        declared(folder, text)
        plain = given.replace(b"^", b"")
        place = place_of(plain, given.index(b"^"))
        words = f"encode --types json.x --name {name} --depth {depth} --bytes {most}"
        got = ended(program, folder, words, plain)
        yield row(f"{words}, {plain[:60]}", got == (1, b"", f"refused {why} at {place}\n".encode()), got)


def deepest_rows(program, folder):
    for text, name, count, (times, front, inmost, back) in DEEPEST:
        given = front * times + inmost + back * times
        wanted = b"\0\0\0\1" * count + b"\0\0\0\0"
        got = ended(program, folder, f"encode --types {text} --name {name}", given.encode(), STACK)
        name = f"encode --types {text}, {count} deep, {STACK} KiB of stack"
        yield row(name, got == (0, wanted, b""), (got[0], got[1][-99:], got[2]))


def long_rows(program, folder):
    """The longest content and a hundred thousand numbers, where an allocation failure is wrong."""
    content, numbers = bytes(range(256)) * 65535, range(100000)
    declared(folder, b"typedef unsigned int numbers<>;")
    items = b"".join(number.to_bytes(4, "big") for number in (len(numbers), *numbers))
    whole = len(content).to_bytes(4, "big") + content
    for words, given, wanted in (
        ("--name opaque", f'"{content.hex()}"', whole),
        ("--name opaque --hex", f'"{content.hex()}"', whole.hex().encode() + b"\n"),
        ("--types json.x --name numbers", f"[{', '.join(map(str, numbers))}]", items),
    ):
        got = ended(program, folder, f"encode {words}", given.encode())
        yield row(f"encode {words}, {len(given)} bytes", got == (0, wanted, b""), (got[0], got[1][:99], got[2]))


def encode_rows(program, folder):
    yield from said_rows(program, folder)
    yield from value_rows(program, folder)
    yield from refused_rows(program, folder)
    yield from deepest_rows(program, folder)
    yield from long_rows(program, folder)
