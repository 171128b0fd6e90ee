"""Rows of 'oncrpc capture' about the memory that it holds at most: of bytes behind holes, and of records.

What is wanted follows from the bounds and lines of docs/FORMATS.md.
"""
import struct
import subprocess
import sys
import tempfile

from refuse_use.capture_made import SYN, SYN_BIT, TO, at, null, null_line, of_client
from refuse_use.messages_streams import RPCBIND, call, counts, fragment, header
from refuse_use.packets import classic
from telling import tell
from timing import LIMIT

# What all directions hold at most, and what a piece behind a hole counts beside its bytes.
MOST_TOTAL, PIECE = 268435456, 128
# The port of the first client, and the most bytes of a segment here.
PORT, MOST_SEGMENT = 1000, 60000


def recorded(packet):
    """A packet of a file in the classic format, at second 1."""
    return struct.pack("<IIII", 1, 0, len(packet), len(packet)) + packet


def in_segments(port, content):
    """A connection with these bytes, from its SYN on."""
    yield recorded(of_client(99, b"", SYN_BIT, port))
    for place in range(0, len(content), MOST_SEGMENT):
        yield recorded(of_client(100 + place, content[place : place + MOST_SEGMENT], 16, port))


# ---- bytes behind holes

def hoarders(count, size):
    """So many connections, each of which has a hole of 100 bytes and so many bytes behind it. Then each has as many
    once more; and a call of another connection."""
    yield classic([])
    for port in range(PORT, PORT + count):
        yield recorded(of_client(99, b"", SYN_BIT, port)) + recorded(of_client(200, bytes(size), 16, port))
    for port in range(PORT, PORT + count):
        yield recorded(of_client(200 + size, bytes(size), 16, port))
    yield recorded(SYN) + recorded(of_client(100, null(7)))


def hoarded(count, size):
    """What is said of these while the file is read, and at its end: a direction by which all hold too much lets its own
    go, and in each other one its bytes are passed over behind its hole."""
    each, dropped, left = size + PIECE, [], []
    held = count * each
    for number in range(count):
        frame, way = 2 * count + 1 + number, b"127.0.0.1:%d > 127.0.0.1:111 " % (PORT + number)
        held += each
        if held > MOST_TOTAL:
            held -= 2 * each
            dropped.append(at(frame, way + b"dropped %d bytes\n" % (2 * each), 0))
        else:
            left += [at(frame, way + b"missing 100 bytes\n", 0), at(frame, way + b"passed %d bytes\n" % (2 * size), 0)]
    return [*dropped, at(3 * count + 2, TO + null_line(7), 0)], left


def is_hoarded(printed, count, size):
    """Whether this is printed of them. In which order connections end is not looked at."""
    first, left = hoarded(count, size)
    behind = printed[len(first) : -1]
    well = printed[: len(first)] == first and sorted(behind) == sorted(left)
    return well and printed[-1:] == [counts(1, 0, 0, 0, 0, 0)]


# ---- records

def whole_records(count, size):
    """So many connections, each with a call behind which so many zeros stand in its record."""
    yield classic([])
    for port in range(PORT, PORT + count):
        yield from in_segments(port, fragment(call(7, 100000, 2, 0, bytes(size))))


def begun_records(count, size):
    """So many connections, each with so many bytes of a record of 16 MiB."""
    yield classic([])
    for port in range(PORT, PORT + count):
        yield from in_segments(port, (header(1 << 24) + call(7, 100000, 2, 0)).ljust(size, b"\0"))


def is_begun(printed, count, size):
    """Whether these are the sums of what is said of them. No more is unfinished at the end than may be held. Of the
    others a part was dropped, and the rest passed over; what is dropped counts memory, and may be a segment off."""
    lines = [line.split() for line in printed[:-1]]
    if [it[0] for it in lines] != [b"unfinished", b"passed", b"dropped"] or printed[-1] != counts(0, 0, 0, 0, 0, 0):
        return False
    unfinished, passed, dropped = (int(it[1]) for it in lines)
    is_held = unfinished % size == 0 and 0 < unfinished <= MOST_TOTAL
    return is_held and abs(unfinished + passed + dropped - count * size) <= count * MOST_SEGMENT


# What rows are about, words, the pieces of the file, the status, the most MiB of memory, and whether lines are as they
# should be.
HOARDERS, BEGUN = (4000, 60000), (40, 8 << 20)
LARGE = [
    ("4000 connections that send 120,000 bytes each behind a hole", "--port 111", hoarders(*HOARDERS), 0, 330,
     lambda it: is_hoarded(it, *HOARDERS)),
    ("40 connections with a record of 8 MiB each", "", whole_records(40, 8 << 20), 1, 64,
     lambda it: it[-1:] == [counts(40, 0, 0, 40, 0, 0)]),
    ("40 connections with 8 MiB of a record each", "--port 111 --stats", begun_records(*BEGUN), 0, 300,
     lambda it: is_begun(it, *BEGUN)),
]


# Runs words, and writes into a file the most memory that the run had, in KiB. What this process has itself counts for a
# run that it begins, and is less than what is allowed.
MEASURE = """
import resource, subprocess, sys
status = subprocess.run(sys.argv[2:]).returncode
with open(sys.argv[1], "w") as it:
    it.write(str(resource.getrusage(resource.RUSAGE_CHILDREN).ru_maxrss))
sys.exit(status)
"""


def measured(program, room, options, pieces):
    """The status, the lines, and the MiB of memory of a run over a file that comes in pieces."""
    line = [program, "capture", "-", *options.split(), *RPCBIND.split()]
    words = [sys.executable, "-c", MEASURE, f"{room}/memory", *line]
    with tempfile.TemporaryFile() as output:
        run = subprocess.Popen(words, stdin=subprocess.PIPE, stdout=output)
        with run.stdin as given:
            for it in pieces:
                given.write(it)
        run.wait(LIMIT)
        output.seek(0)
        printed = output.read().splitlines(keepends=True)
    with open(f"{room}/memory", encoding="ascii") as it:
        return run.returncode, printed, int(it.read()) >> 10


def memory_rows(program):
    with tempfile.TemporaryDirectory() as room:
        for what, options, pieces, status, most, is_wanted in LARGE:
            ended, printed, memory = measured(program, room, options, pieces)
            well = ended == status and is_wanted(printed) and memory <= most
            found = (memory, ended, len(printed), printed[:2], printed[-3:])
            yield tell(f"capture, {what}", well, found, f"{memory} MiB")
