"""Rows of 'oncrpc encode' where a stream fails or memory is refused: nothing but the line of that is printed, and a
value in part only where a write failed. And of texts with two faults, of which one is told, by 'oncrpc call' too.

Expected bytes are those of RFC 4506, and lines and places those of docs/FORMATS.md, sections 5 and 6.
"""
import random
import subprocess

from refuse_use.answering import Server, replying
from refuse_use.called import call_words, opaque, run, success, words
from refuse_use.messages_streams import ended
from refuse_use.refusing import counted
from telling import tell
from timing import LIMIT

ENCODE = ("encode",)
FILE = "failing.x"
DECLARED = b"""struct link { int number; link *next; };
typedef deep deep<>; typedef unsigned int numbers<>;
program FAILING { version FIRST { int ONE(deep) = 1; int TWO(deep, deep) = 2; } = 1; } = 536870913;
"""
WANTING, UNREAD, UNWRITTEN = (4, b"", b"out of memory\n"), (3, b"", b"read fault\n"), (3, b"", b"write fault\n")
# The words, the text, what a shell does to the streams, and the status and what is printed on each stream. A stream
# that is closed or full gets nothing.
STREAMS = [
    ("--name int", b"7", "> /dev/full", UNWRITTEN),
    ("--name int", b"7", ">&-", UNWRITTEN),
    ("--name int --hex", b"7", "> /dev/full", UNWRITTEN),
    ("--name int --hex", b"7", ">&-", UNWRITTEN),
    ("--name int", b"7", "> /dev/full 2> /dev/full", (3, b"", b"")),
    ("--name int", b"7", ">&- 2>&-", (3, b"", b"")),
    (f"--types {FILE} --name numbers", b"[]", "> /dev/full", UNWRITTEN),
    (f"--types {FILE} --name numbers", b"[]", ">&-", UNWRITTEN),
    ("--name int", b"", "<&-", UNREAD),
    ("--name int --hex", b"", "< .", UNREAD),
    ("--name int", b"", "<&- 2> /dev/full", (3, b"", b"")),
    ("--name int", b"", "< . 2>&-", (3, b"", b"")),
    ("--name int", b"", "<&- > /dev/full", UNREAD),
    (f"--types {FILE} --name numbers", b"", "<&-", UNREAD),
    ("--name int", b"x", "> /dev/full", (1, b"", b"refused NotJson at 1:1\n")),
    ("--name int", b"x", ">&- 2>&-", (1, b"", b"")),
    ("--name int", b"7", "2> /dev/full", (0, b"\0\0\0\7", b"")),
    ("--name int --bytes 6", b"", "<&-", (2, b"", b"limits refused\n")),
    ("--name void", b"", "< .", (2, b"", b"no such name: void\n")),
]


def stream_rows(program, folder):
    for options, given, redirected, wanted in STREAMS:
        shell = ["sh", "-c", f"exec '{program}' encode {options} {redirected}"]
        it = subprocess.run(shell, cwd=folder, input=given, capture_output=True, timeout=LIMIT)
        got = it.returncode, it.stdout, it.stderr
        yield f"{options} {redirected}, {given}", got == wanted, got


def long_texts():
    """Texts that are more than one read: the words, the text, and how the run ends."""
    content = random.Random(4096).randbytes(20000)
    text, whole = b'"%s"' % content.hex().encode(), opaque(content)
    yield "--name opaque", text, (0, whole, b"")
    yield "--name opaque --hex", text, (0, whole.hex().encode() + b"\n", b"")
    yield "--name opaque", text + b"x", (1, b"", b"refused NotJson at 1:40003\n")
    yield "--name int", b"x" + b"\n" * 9000, (1, b"", b"refused NotJson at 1:1\n")
    # (1500 numbers of four digits, with a comma and a space behind each)
    numbers = [*range(1000, 2500)]
    listed = words(len(numbers), *numbers)
    yield f"--types {FILE} --name numbers", str(numbers).encode(), (0, listed, b"")
    yield f"--types {FILE} --name numbers", str([*numbers, -1]).encode(), (1, b"", b"refused OutOfRange at 1:9002\n")


# Texts that are one read.
SHORT = [
    ("--name int", b"-7", (0, words(0xFFFFFFF9), b"")),
    ("--name int --hex", b"-7", (0, b"fffffff9\n", b"")),
    (f"--types {FILE} --name link", b'{"number":7,"next":null}', (0, words(7, 0), b"")),
    (f"--types {FILE} --name link --hex", b'{"next":{"number":8}}', (1, b"", b"refused MissingMember at 1:1\n")),
]


def is_wanting(whole, got):
    """Memory that is refused ends a run with its line alone, unless the run comes to the same without it."""
    return got in (whole, WANTING)


def is_unread(whole, got):
    """Each read is wanted, be it of the declarations or of the text: also that which finds its end."""
    return got == UNREAD


def is_unwritten(whole, got):
    """A write that fails is that of the value, which may have come in part, or that of the line that refuses it."""
    if whole[0] == 0:
        return (got[0], got[2]) == UNWRITTEN[::2] and whole[1].startswith(got[1]) and got[1] != whole[1]
    return got == (whole[0], b"", b"")


# What is counted, what refuses one of them, and whether a run is well then.
REFUSED = [
    ("COUNT_GROWTHS", "REFUSE_GROWTH", is_wanting),
    ("COUNT_READS", "REFUSE_READ", is_unread),
    ("COUNT_WRITES", "REFUSE_WRITE", is_unwritten),
]


def ended_by(program, folder, heap, options, given, refuse, refused):
    return ended(program, folder, options, given, ENCODE, LD_PRELOAD=heap, **{refuse: refused})


def swept(program, folder, heap, options, given, whole):
    """How many growths, reads and writes a run makes, and which refused go wrong; of growths also with all later ones,
    where the first and the last of them end the run. Behind the last nothing is refused."""
    counts, bad = [], []
    for count, refuse, is_well in REFUSED:
        last = counted(program, folder, ["encode", *options.split()], given, heap, count)
        counts.append(last)
        forms = ("{}", "{}..") if refuse == "REFUSE_GROWTH" else ("{}",)
        for refused in (form.format(number) for number in range(1, last + 1) for form in forms):
            got = ended_by(program, folder, heap, options, given, refuse, refused)
            is_end = refused in ("1..", f"{last}..")
            if not is_well(whole, got) or is_end and got != WANTING:
                bad.append((refuse, refused, shown(got)))
        got = ended_by(program, folder, heap, options, given, refuse, str(last + 1))
        if got != whole:
            bad.append((refuse, last + 1, shown(got)))
    return counts, bad


def shown(got):
    """A run whose output may be long."""
    return got[0], len(got[1]), got[1][:40], got[2]


def refused_rows(program, folder, heap):
    """Each growth, read and write refused, of texts that are one read, and of others that are more."""
    longs = [*long_texts()]
    for options, given, wanted in (*SHORT, *longs):
        got = ended(program, folder, options, given, ENCODE)
        counts, bad = swept(program, folder, heap, options, given, wanted)
        few = 2 if (options, given, wanted) not in longs else 3
        well = got == wanted and not bad and counts[0] > 1 and counts[1] >= few and counts[2] >= 1
        what = f"{options}, {given[:20]}, {counts} growths, reads and writes refused"
        yield what, well, (shown(got), bad[:3])


# As many brackets as may be open, and the depth of a value.
DEEPEST = 4096
OPEN, KEYS = b"[" * DEEPEST, b'{"number":' * DEEPEST
# Texts with two faults, of a kind of lists in lists without a limit on depth but the greatest: a bracket that is too
# deep, and what is no JSON, behind it and before it; and which is told.
DEEP = [
    (OPEN + b"[x", "TooDeep", "1:4097"),
    (OPEN + b"[" + b"]" * 4097 + b" x", "TooDeep", "1:4097"),
    (OPEN + b"[" + b"]" * 4096, "TooDeep", "1:4097"),
    (OPEN + b"[" + b"]" * 4098, "TooDeep", "1:4097"),
    (OPEN + b'[],"a', "TooDeep", "1:4097"),
    (OPEN + b"{x", "TooDeep", "1:4097"),
    (b"[\n" * DEEPEST + b"  [\n x", "TooDeep", "4097:3"),
    (KEYS + b"[x", "TooDeep", f"1:{10 * 4095 + 2}"),
    (KEYS + b'{"number" 7}', "TooDeep", f"1:{10 * 4095 + 2}"),
    (OPEN + b"x,[", "NotJson", "1:4097"),
    (OPEN + b"] [", "NotJson", "1:4099"),
    (b"[x," + OPEN, "NotJson", "1:2"),
    (b"[[] " + OPEN, "NotJson", "1:5"),
    (b'["a,' + OPEN, "NotJson", "1:2"),
    (b"[\n" * 4095 + b"x,[[[", "NotJson", "4096:1"),
    (b'{"number":tru,' + KEYS, "NotJson", "1:11"),
    (b'{"number",' + KEYS, "NotJson", "1:2"),
    # What is no UTF-8 is told before all else, wherever it stands.
    (OPEN + b"[\xff", "NotJson", "1:4098"),
    (b"\xff" + OPEN + b"[", "NotJson", "1:1"),
    # Brackets are told before what is no value of the kind, and the first of two that are too deep.
    (b"[7," + OPEN, "TooDeep", f"1:{3 + 4096}"),
    (b"[" + OPEN + b"]" * 4095 + b",[", "TooDeep", "1:4097"),
    (b"[" * 5000, "TooDeep", "1:4097"),
]
# The same of a value that is deeper than a limit on its depth, which is told where the text has no other fault.
LIMITED = [
    (2, b"[[[]]]", "TooDeep", "1:7"),
    (2, b"[[[]]] x", "NotJson", "1:8"),
    (2, b"[[[],x]]", "NotJson", "1:6"),
    (2, b"[x,[[]]]", "NotJson", "1:2"),
    (2, b"[[[]],\n7]", "WrongType", "2:1"),
    (2, b"[7,\n[[]]]", "WrongType", "1:2"),
    (2, OPEN + b"[x", "TooDeep", "1:4097"),
    (2, OPEN + b"x", "NotJson", "1:4097"),
    (2, OPEN + b"]" * 4096, "TooDeep", "1:8193"),
]


def fault_rows(program, folder):
    """Which of two faults is told."""
    for depth, given, why, place in (*((DEEPEST, *it) for it in DEEP), *LIMITED):
        options = f"--types {FILE} --name deep --depth {depth}"
        got = ended(program, folder, options, given, ENCODE)
        well = got == (1, b"", f"refused {why} at {place}\n".encode())
        yield f"{options}, {given[:6]} to {given[-8:]}, {why} at {place}", well, got


def arguments_of():
    """The same of the arguments of a call, of which each is a text of its own: the procedure, the text, and what is
    said."""
    for given, why, place in DEEP[:4] + DEEP[9:13]:
        yield 1, given, why, place
    one = OPEN + b"]" * DEEPEST
    yield 2, b"[[%s],[x]]" % one, "TooDeep", f"1:{2 + 4096}"
    yield 2, b"[[x],[%s]]" % one, "NotJson", "1:3"
    yield 2, b"[%s,[%s]]" % (one, one), "TooDeep", f"1:{2 * 4096 + 3 + 4096}"


def argument_rows(program, folder):
    """Nothing is sent, and nothing else printed."""
    for procedure, given, why, place in arguments_of():
        with Server(replying(success(words(0)))) as server:
            line = call_words(server.port, [f"FAILING.FIRST.{procedure}", "--types", FILE])
            got, _ = run(program, folder, line, given)
        well = got == (2, b"", f"refused {why} at {place}\n".encode()) and server.calls == []
        yield f"arguments of {procedure}, {given[:6]} to {given[-8:]}, {why} at {place}", well, (got, server.calls)


def encode_failing_rows(program, folder, heap):
    """The rows, each whether it is as it should be; nothing is refused in turn where nothing refuses it."""
    with open(f"{folder}/{FILE}", "wb") as it:
        it.write(DECLARED)
    for name, is_well, told in (*stream_rows(program, folder), *fault_rows(program, folder)):
        yield tell(f"oncrpc encode {name}", is_well, told)
    for name, is_well, told in argument_rows(program, folder):
        yield tell(f"oncrpc call, {name}", is_well, told)
    for name, is_well, told in refused_rows(program, folder, heap) if heap else ():
        yield tell(f"oncrpc encode {name}", is_well, told)
