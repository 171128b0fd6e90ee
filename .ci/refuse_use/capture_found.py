"""Rows of 'oncrpc capture' about which bytes of a connection are a record: behind a hole, in two segments, of a first
segment that is no message, and of segments that come once more or late.

What is wanted follows from the layouts of RFC 5531 sections 8, 9 and 11, the sequence numbers of RFC 9293 section 3.4,
the greatest window of RFC 7323 section 2.3, and docs/FORMATS.md.
"""
import resource
import subprocess
import tempfile

from refuse_use.capture_connections import CALLS, pieces
from refuse_use.capture_made import FROM, GETPORT, GETPORT_LINES, NOTHING, SYN, SYN_ACK, SYN_BIT, TO, at, null, null_line
from refuse_use.capture_made import of_client, of_server, void
from refuse_use.messages_streams import RPCBIND, call, counts, fragment, header, words
from refuse_use.packets import classic
from telling import tell
from timing import LIMIT

# How many bytes a run of a row may print: one that prints without end is ended by the system.
PRINTED = 1 << 20
TWO = counts(2, 0, 0, 0, 0, 0)
# A window has at most so many bytes.
WINDOW = 1 << 30
# What rows are about, words, the packets, the status and the output.
BEHIND = [
    (
        "a header above the limit, behind a hole",
        "--port 111",
        [of_client(7, header(2**31 - 4) + null(1)[4:] + null(2))],
        0,
        at(1, TO + b"passed 44 bytes\n") + at(1, TO + null_line(2)) + CALLS,
    ),
    (
        "one of four bytes more than a record has",
        "--port 111",
        [of_client(7, header(16781316) + null(1)[4:] + null(2))],
        0,
        at(1, TO + b"passed 44 bytes\n") + at(1, TO + null_line(2)) + CALLS,
    ),
    (
        "a record behind a hole whose front goes on in the next segment",
        "--port 111",
        [of_client(7, null(0)[9:] + null(1)[:10]), of_client(52, null(1)[10:])],
        0,
        at(2, TO + b"passed 35 bytes\n") + at(2, TO + null_line(1)) + CALLS,
    ),
    (
        "a front of nineteen bytes, which goes on",
        "--port 111",
        [of_client(7, b"abc" + null(1)[:19]), of_client(29, null(1)[19:])],
        0,
        at(2, TO + b"passed 3 bytes\n") + at(2, TO + null_line(1)) + CALLS,
    ),
    (
        "a reply that is denied, behind a hole",
        "--port 111",
        [of_server(500, b"abc" + fragment(words(5, 1, 1, 1, 13)))],
        0,
        at(1, FROM + b"passed 3 bytes\n") + at(1, FROM + b"reply 5 no call AUTH_ERROR 13\n") + counts(0, 1, 0, 0, 0, 1),
    ),
    (
        "a fragment that is not the last, behind a hole",
        "--port 111",
        [of_client(7, header(40, False) + null(1)[4:] + null(2))],
        0,
        at(1, TO + b"passed 44 bytes\n") + at(1, TO + null_line(2)) + CALLS,
    ),
    (
        "a call of version 3, behind a hole",
        "--port 111",
        [of_client(7, header(40) + words(1, 0, 3) + bytes(28) + null(2))],
        0,
        at(1, TO + b"passed 44 bytes\n") + at(1, TO + null_line(2)) + CALLS,
    ),
    (
        "a reply that is neither accepted nor denied, behind a hole",
        "--port 111",
        [of_server(7, header(24) + words(5, 1, 2, 0, 0, 0) + void(4))],
        0,
        at(1, FROM + b"passed 28 bytes\n") + at(1, FROM + b"reply 4 no call SUCCESS, 0 bytes\n")
        + counts(0, 1, 0, 0, 1, 1),
    ),
]
# A call whose arguments are a record themselves: they begin behind a header and 40 bytes.
WITHIN = fragment(call(7, 200000, 1, 1, null(1)))
FIRST = [
    (
        "records of a connection with a SYN that are no messages",
        "",
        [SYN, of_client(100, fragment(b"abcd")), of_client(108, fragment(b"efgh" * 10))],
        0,
        NOTHING,
    ),
    ("one of eight bytes alone", "", [SYN, of_client(100, fragment(b"abcd"))], 0, NOTHING),
    (
        "a first fragment of eight bytes, whose record is passed over without a port",
        "",
        [SYN, of_client(100, pieces(GETPORT, 8) + null(2))],
        0,
        at(2, TO + null_line(2)) + CALLS,
    ),
    (
        "the same at a port that is named",
        "--port 111",
        [SYN, of_client(100, pieces(GETPORT, 8) + null(2))],
        0,
        at(2, TO + GETPORT_LINES) + at(2, TO + null_line(2)) + TWO,
    ),
    (
        "one of twelve bytes, which is enough",
        "",
        [SYN, of_client(100, pieces(GETPORT, 12) + null(2))],
        0,
        at(2, TO + GETPORT_LINES) + at(2, TO + null_line(2)) + TWO,
    ),
    (
        "a SYN with a record, whose first byte has the number behind that of the SYN",
        "",
        [of_client(99, null(0), SYN_BIT), of_client(144, null(1))],
        0,
        at(1, TO + null_line(0)) + at(2, TO + null_line(1)) + TWO,
    ),
    (
        "arguments that are a record themselves, in a segment of their own",
        "",
        [SYN, of_client(100, WITHIN[:44]), of_client(144, WITHIN[44:]), of_client(188, null(2))],
        0,
        at(3, TO + b"call 7 200000.1.1 AUTH_NONE, 44 bytes\n") + at(4, TO + null_line(2)) + counts(2, 0, 0, 0, 1, 0),
    ),
]


def in_segments(number, content, size=60000):
    return [of_client(number + place, content[place : place + size]) for place in range(0, len(content), size)]


LONG = fragment(call(7, 200000, 1, 1, bytes(1 << 21)))
AGAIN = [SYN, *in_segments(100, LONG), of_client(100, LONG[:60000]), of_client(100 + len(LONG), null(2))]
ONCE_MORE = [
    (
        "an old segment behind an end that was not captured",
        "",
        [SYN, of_client(100, null(0) + null(1)[:30]), of_client(188, b""), of_client(100, null(0))],
        0,
        at(2, TO + null_line(0)) + at(4, TO + b"unfinished 30 bytes\n") + at(4, TO + b"missing 14 bytes\n") + CALLS,
    ),
    (
        "the first segment of a call of 2 MiB once more",
        "",
        AGAIN,
        0,
        at(len(AGAIN) - 2, TO + b"call 7 200000.1.1 AUTH_NONE, 2097152 bytes\n")
        + at(len(AGAIN), TO + null_line(2)) + counts(2, 0, 0, 0, 1, 0),
    ),
    (
        "bytes that stand a window back but for some",
        "",
        [SYN, of_client(100, null(0)), of_client(144 + 1000 - WINDOW, null(1))],
        0,
        at(2, TO + null_line(0)) + CALLS,
    ),
    (
        "bytes that stand further back than a window",
        "",
        [SYN, of_client(100, null(0)), of_client(144 - 1000 - WINDOW, null(1))],
        0,
        at(2, TO + null_line(0)) + at(3, TO + null_line(1)) + TWO,
    ),
    (
        "a SYN that comes behind the first bytes of its connection",
        "",
        [of_client(100, null(0)), SYN, of_client(144, null(1))],
        0,
        at(1, TO + null_line(0)) + at(3, TO + null_line(1)) + TWO,
    ),
    (
        "one that comes behind later bytes of it counts as that of another",
        "",
        [of_client(144, null(1)), SYN, of_client(100, null(0)), of_client(188, null(2))],
        0,
        at(1, TO + null_line(1)) + at(3, TO + null_line(0)) + at(4, TO + b"missing 44 bytes\n")
        + at(4, TO + null_line(2)) + counts(3, 0, 0, 0, 0, 0),
    ),
]
FOUND = BEHIND + FIRST + ONCE_MORE


def bounded():
    """Begins a run that ends by a signal once it prints too much, and leaves no image of its memory."""
    resource.setrlimit(resource.RLIMIT_FSIZE, (PRINTED, PRINTED))
    resource.setrlimit(resource.RLIMIT_CORE, (0, 0))


def printed(program, options, given):
    """The status, the output and what is said of faults."""
    line = [program, "capture", "-", *options.split(), *RPCBIND.split()]
    with tempfile.TemporaryFile() as output:
        how = {"stdout": output, "stderr": subprocess.PIPE, "preexec_fn": bounded, "timeout": LIMIT}
        ended = subprocess.run(line, input=given, **how)
        output.seek(0)
        return ended.returncode, output.read(), ended.stderr


# How many calls a segment has, and how many such segments come between a call and its reply.
EACH, SEGMENTS = 1000, 70


def one_waits():
    """A call, 70,000 others that are answered, and then its reply: the file, and its counts, with the first of the slow
    replies."""
    packets, first = [SYN, SYN_ACK, of_client(100, null(0))], 1
    for count in range(SEGMENTS):
        xids = range(first, first + EACH)
        packets.append(of_client(100 + 44 * first, b"".join(map(null, xids))))
        packets.append(of_server(500 + 28 * (first - 1), b"".join(map(void, xids))))
        first += EACH
    packets.append(of_server(500 + 28 * (first - 1), void(0)))
    row = b"procedure 100000.2.0 NULL calls %d replies %d refused 0\n" % (first, first)
    # (the call is in the third packet, and packets come each a microsecond behind the one before)
    slow = b"slow %d ns packet %d xid 0 100000.2.0 NULL\n" % (1000 * (len(packets) - 3), len(packets))
    return classic(packets), [row, slow, counts(first, first, 0, 0, 0, 0)]


def waiting(program):
    given, wanted = one_waits()
    line = [program, "capture", "-", "--stats", *RPCBIND.split()]
    ended = subprocess.run(line, input=given, capture_output=True, timeout=LIMIT)
    lines = ended.stdout.splitlines(keepends=True)
    well = (ended.returncode, lines[:2] + lines[-1:], ended.stderr) == (0, wanted, b"")
    return tell("capture, a call that waits while 70,000 are answered", well, [ended.returncode, lines, wanted])


def found_rows(program):
    for what, options, packets, status, output in FOUND:
        got = printed(program, options, classic(packets))
        yield tell(f"capture, {what}", got == (status, output, b""), [(got[0], got[1][:999], got[2]), (status, output)])
    yield waiting(program)
