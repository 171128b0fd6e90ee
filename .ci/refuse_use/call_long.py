"""Rows of 'oncrpc call' whose replies are long: the most bytes of a record and of a datagram, fewer, and a few more.
What is printed in each form is compared with what Python makes of the same bytes.

Expected bytes are those of RFC 5531 sections 9 and 11 and of RFC 4506 sections 4.10 and 4.13; lines and JSON are those
of docs/FORMATS.md.
"""
import random

from refuse_use.answering import Server, replying
from refuse_use.called import HOST, call, call_words, opaque, run, success, words
from refuse_use.refusing import counted, first_growth
from telling import tell

# The program that is called has the number that `call` has.
FILE = "longest.x"
DECLARED = b"""typedef opaque blob<>; typedef unsigned int numbers<>;
program LONG { version FIRST {
    blob BLOB(void) = 1;
    numbers NUMBERS(void) = 2;
    blob SAME(blob) = 3;
} = 1; } = 536870913;
"""
BLOB, NUMBERS, SAME = range(1, 4)
FORMS = ("", "--indent", "--text", "--hex")
# The most bytes of a record that is read, and of a datagram over IPv4: 65535 without its headers of 20 and of 8 bytes.
RECORD, DATAGRAM = 16777216, 65507
# The bytes of a reply before its results (RFC 5531 section 9), and of results before content (RFC 4506 section 4.10).
FRONT, LENGTH = len(success()), 4
# The content of a reply whose record has the most bytes.
MOST_CONTENT = RECORD - FRONT - LENGTH
# The content of results of 1000 bytes, of a reply of 9000, and of the longest reply of whole words in a datagram.
IN_DATAGRAMS = (1000 - LENGTH, 9000 - FRONT - LENGTH, 65504 - FRONT - LENGTH)
# How many numbers are results of 1000 bytes, and how many are long.
FEW, MANY = 249, 100000
# How a run ends whose memory is refused: nothing else is printed.
WANTING = 4, b"", b"out of memory\n"


def content_of(size):
    """Bytes at random, of which no two pieces are alike, and the same in each run."""
    return random.Random(size).randbytes(size)


def numbers_of(count):
    """Numbers of one to ten digits, the same in each run."""
    chance = random.Random(count)
    return [chance.getrandbits(chance.randrange(1, 33)) for _ in range(count)]


def of_content(content):
    """The results that content is, and what is printed of them in each form."""
    results, digits = opaque(content), content.hex()
    texts = f'"{digits}"', f'"{digits}"', f"0x{digits}", results.hex()
    return results, {form: f"{text}\n".encode() for form, text in zip(FORMS, texts)}


def of_numbers(numbers):
    """The same of a list of numbers."""
    results, digits = words(len(numbers), *numbers), [*map(str, numbers)]
    indented = "[\n  " + ",\n  ".join(digits) + "\n]"
    lines = f"list of {len(numbers)}\n  " + "\n  ".join(digits)
    texts = f"[{','.join(digits)}]", indented, lines, results.hex()
    return results, {form: f"{text}\n".encode() for form, text in zip(FORMS, texts)}


def in_fragments(message, size):
    """Gives a record of fragments of so many bytes, of which the last may have fewer (RFC 5531 section 11)."""
    pieces = [message[at : at + size] for at in range(0, len(message), size)]
    headers = [words(len(it)) for it in pieces[:-1]] + [words(0x80000000 | len(pieces[-1]))]
    record = b"".join(header + piece for header, piece in zip(headers, pieces))
    return lambda server, message, datagram: [record]


def line_of(port, procedure, options):
    return call_words(port, [f"LONG.FIRST.{procedure}", "--types", FILE, *options.split()])


def differing(got, wanted):
    """What a run gave and what was wanted, of outputs their lengths, and the place of the first 4096 bytes that are
    others."""
    output, right = got[1] or b"", wanted[1]
    places = range(0, max(len(output), len(right)), 4096)
    place = next((at for at in places if output[at : at + 4096] != right[at : at + 4096]), None)
    return got[0], got[2], len(output), place, wanted[0], wanted[2], len(right)


class Caller:
    """Calls of the program in a folder."""

    def __init__(self, program, folder):
        self.program, self.folder = program, folder

    def row(self, what, answer, procedure, options, wanted, given=b"", arguments=b""):
        """A row: whether a call that is so answered gives what is wanted, and is the one that came; by datagrams it may
        have come again."""
        with Server(answer) as server:
            got, _ = run(self.program, self.folder, line_of(server.port, procedure, options), given)
        well = got == wanted and {*server.calls} == {call(procedure, arguments)}
        found = "" if well else (differing(got, wanted), [len(it) for it in server.calls])
        return f"{what}, {options or 'JSON'}", well, found

    def printed(self, what, of_it, procedure, over):
        """Rows of results that are printed in each form."""
        results, printed = of_it
        for form, text in printed.items():
            yield self.row(what, replying(success(results)), procedure, f"{over} {form}".strip(), (0, text, b""))


def record_rows(caller):
    """The longest record, of content with each padding, and of four bytes more, of which the line alone is printed. The
    same in fragments, where the place is that of the header that is too much."""
    content = content_of(MOST_CONTENT + 1)
    for form, more in zip(FORMS, range(1, 5)):
        results, printed = of_content(content[:-more])
        assert len(success(results)) == RECORD
        wanted = 0, printed[form], b""
        yield caller.row(f"a record of {RECORD} bytes", replying(success(results)), BLOB, form, wanted)
        if form == "--hex":
            answer = in_fragments(success(results), 1000003)
            yield caller.row("the same in fragments of 1000003 bytes", answer, BLOB, form, wanted)
    longer = success(opaque(content))
    for form in FORMS:
        wanted = 1, b"", b"refused TooLong at 0\n"
        yield caller.row(f"a record of {len(longer)} bytes", replying(longer), BLOB, form, wanted)
    wanted = 1, b"", b"refused TooLong at 9000005\n"
    yield caller.row("the same in fragments of 9000001 bytes", in_fragments(longer, 9000001), BLOB, "", wanted)


def limited_rows(caller):
    """The longest result within a limit on its bytes, which is just enough, and four bytes less."""
    results, printed = of_content(content_of(MOST_CONTENT))
    most, less = len(results), len(results) - 4
    refused = 1, b"", b"result refused TooLarge at %d\n" % less
    for limit, wanted in ((most, (0, printed["--hex"], b"")), (less, refused)):
        answer = replying(success(results))
        yield caller.row(f"a result of {most} bytes", answer, BLOB, f"--hex --bytes {limit}", wanted)


def datagram_rows(caller):
    """Results by datagram in each form, up to the longest reply of whole words; and replies of the most bytes: three
    stand behind the value, or its last byte, which is padding, is missing."""
    for size in IN_DATAGRAMS:
        content = of_content(content_of(size))
        yield from caller.printed(f"a datagram of {FRONT + LENGTH + size} bytes", content, BLOB, "--udp")
    yield from caller.printed(f"{FEW} numbers", of_numbers(numbers_of(FEW)), NUMBERS, "--udp")
    longest = IN_DATAGRAMS[-1]
    for results, said in (
        (opaque(content_of(longest)) + bytes(3), b"result ends at %d, more follows\n" % (LENGTH + longest)),
        (opaque(content_of(longest + 3))[:-1], b"result refused Truncated at %d\n" % (LENGTH + longest + 3)),
    ):
        reply = success(results)
        assert len(reply) == DATAGRAM
        what = f"a datagram of {DATAGRAM} bytes, {said.decode().strip()}"
        yield caller.row(what, replying(reply), BLOB, "--udp", (1, b"", said))


def same_rows(caller):
    """The longest call of whole words by datagram, whose arguments come back."""
    arguments = opaque(content_of(65504 - len(call(SAME)) - LENGTH))
    given = b'"%s"' % arguments[LENGTH:].hex().encode()
    wanted = 0, given + b"\n", b""
    yield caller.row(
        "a call by a datagram of 65504 bytes", replying(success(arguments)), SAME, "--udp", wanted, given, arguments
    )


def listed_rows(caller):
    """Numbers, a line for each where that is asked for."""
    yield from caller.printed(f"{MANY} numbers", of_numbers(numbers_of(MANY)), NUMBERS, "")


def wanting_rows(program, folder, heap):
    """Each growth refused, from that on which comes once the declarations are read, alone and with all later ones: a
    long result is printed whole or not at all."""
    limits = ["call", HOST, f"LONG.FIRST.{BLOB}", "--types", FILE, "--bytes", "6", "--port", "1", "--xid", "1"]
    first = first_growth(program, folder, heap, limits)
    results, printed = of_content(content_of(100000))
    for form in FORMS:
        wanted = 0, printed[form], b""
        with Server(replying(success(results))) as server:
            line = line_of(server.port, BLOB, form)
            last = counted(program, folder, line, b"", heap, "COUNT_GROWTHS")
            refused = [it for number in range(first, last + 1) for it in (str(number), f"{number}..")]
            got = {it: run(program, folder, line, LD_PRELOAD=heap, REFUSE_GROWTH=it)[0] for it in refused}
        bad = [(it, differing(its, wanted)) for it, its in got.items() if its not in (wanted, WANTING)]
        well = not bad and got[f"{first}.."] == got[f"{last}.."] == WANTING
        yield f"content of 100000 bytes, {form or 'JSON'}, growths {first} to {last} refused", well, bad[:3]


def long_call_rows(program, folder, heap):
    """The rows, each whether it is as it should be."""
    with open(f"{folder}/{FILE}", "wb") as it:
        it.write(DECLARED)
    caller = Caller(program, folder)
    for rows in (record_rows, limited_rows, listed_rows, datagram_rows, same_rows):
        for name, is_well, told in rows(caller):
            yield tell(f"oncrpc call, {name}", is_well, told)
    for name, is_well, told in wanting_rows(program, folder, heap) if heap else ():
        yield tell(f"oncrpc call, {name}", is_well, told)
