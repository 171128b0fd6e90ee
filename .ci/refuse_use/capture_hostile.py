"""Rows of 'oncrpc capture' over hostile files: lengths that lie, files that are cut at each byte, holes behind which much
is held, more connections than are followed, and bytes at random.

What is wanted follows from the layouts of the formats, and from the bounds and lines of docs/FORMATS.md.
"""
import os
import random
import re
import resource
import select
import struct
import subprocess

from refuse_use.capture_connections import CONNECTIONS
from refuse_use.capture_formats import ASKED, FORMATS, PAIR
from refuse_use.capture_made import FROM, GETPORT, GETPORT_LINES, PORT, PORT_LINES, SYN, SYN_ACK, SYN_BIT, TO, at, null, null_line
from refuse_use.capture_made import of_client, of_server
from refuse_use.capture_memory import memory_rows
from refuse_use.messages_streams import RPCBIND, counts, fragment
from refuse_use.packets import block, classic, datagram, enhanced, interface, pcapng, section, simple
from telling import tell
from timing import LIMIT, WAIT

# How many pairs are followed, what a direction holds behind a hole, and what a piece of it counts beside its bytes.
PAIRS, HELD, PIECE = 4096, 1048576, 128
# How many random files are read, and the bytes of addresses that each run may have.
RANDOM, SPACE = 2000, 1 << 30
BROKEN = counts(0, 0, 0, 1, 0, 0)
CONNECTION = [SYN, SYN_ACK, of_client(100, fragment(GETPORT)), of_server(500, fragment(PORT))]
LINES = [b"", b"", at(3, TO + GETPORT_LINES), at(4, FROM + PORT_LINES)]


def refused(why, place):
    return b"file refused %s at %d\n" % (why, place)


def record(kept, size, content=b""):
    """A record of the classic format, whose lengths may lie."""
    return struct.pack("<IIII", 1, 0, kept, size) + content


HEADER = classic([])
HEAD = section() + interface(101)


def lying(kept, size, total=None, number=0):
    """A block with a packet, whose lengths may lie, at place 48."""
    made = bytearray(enhanced(ASKED, 10**6, number=number))
    made[20:28] = struct.pack("<II", kept, size)
    if total is not None:
        made[4:8] = struct.pack("<I", total)
    return HEAD + bytes(made)


# A connection with a hole of 44 bytes, and what is told of it at its end.
OPEN = [SYN, of_client(100, null(0)), of_client(188, null(2))]
LEFT = at(3, TO + b"missing 44 bytes\n") + at(3, TO + null_line(2)) + counts(2, 0, 0, 1, 0, 0)
# What rows are about, words, the file, the status and the output.
FILES = [
    ("no file of packets", "", b"oncrpc", 1, refused(b"NotACapture", 0) + BROKEN),
    ("no byte", "", b"", 1, refused(b"Truncated", 0) + BROKEN),
    ("version 2.3", "", HEADER[:6] + b"\3\0" + HEADER[8:], 1, refused(b"UnknownVersion", 0) + BROKEN),
    ("a packet of 262145 bytes", "", HEADER + record(262145, 262145, b"x"), 1, refused(b"PacketTooLong", 24) + BROKEN),
    ("one of 2^32 - 1 bytes", "", HEADER + record(2**32 - 1, 2**32 - 1), 1, refused(b"PacketTooLong", 24) + BROKEN),
    ("one of which more was captured than it had", "", HEADER + record(5, 4, b"abcde"), 1, refused(b"BadLength", 24) + BROKEN),
    ("one that is not there", "", HEADER + record(9, 9, b"abc"), 1, refused(b"Truncated", 24) + BROKEN),
    ("a section of no order of bytes", "", section()[:8] + b"abcd" + section()[12:], 1, refused(b"NotACapture", 0) + BROKEN),
    ("a section of version 2.0", "", section()[:12] + b"\2\0" + section()[14:], 1, refused(b"UnknownVersion", 0) + BROKEN),
    ("a block whose length is no multiple of four", "", HEAD + struct.pack("<II", 5, 13), 1, refused(b"BadLength", 48) + BROKEN),
    ("one of 8 bytes", "", HEAD + struct.pack("<II", 5, 8), 1, refused(b"BadLength", 48) + BROKEN),
    ("one of 4 GiB that ends", "", HEAD + struct.pack("<II", 5, 2**32 - 4) + b"abcd", 1, refused(b"Truncated", 60) + BROKEN),
    ("one that ends with another length", "", HEAD + block("<", 5, b"abcd")[:-4] + b"\x14\0\0\0", 1, refused(b"BadLength", 60) + BROKEN),
    ("a packet above the length of its block", "", lying(85, 85), 1, refused(b"BadLength", 48) + BROKEN),
    ("a packet in a block that is too short", "", lying(84, 84, 28), 1, refused(b"BadLength", 48) + BROKEN),
    ("a packet of 262145 bytes in a block", "", lying(262145, 262145), 1, refused(b"PacketTooLong", 48) + BROKEN),
    ("a packet of an interface that is not described", "", lying(84, 84, number=1), 1, refused(b"UnknownInterface", 48) + BROKEN),
    ("a packet before any interface", "", section() + simple(ASKED), 1, refused(b"UnknownInterface", 28) + BROKEN),
    ("257 interfaces", "", section() + interface() * 257, 1, refused(b"TooManyInterfaces", 28 + 256 * 20) + BROKEN),
    ("an option that is longer than its block", "", section() + interface(options=b"\2\0\x09\0abcd"), 1, refused(b"BadLength", 44) + BROKEN),
    (
        "what was printed before a file ceases to be one stays",
        "",
        classic(PAIR, 101) + record(9, 4),
        1,
        at(1, TO + GETPORT_LINES) + at(2, FROM + PORT_LINES) + refused(b"BadLength", 24 + 2 * 16 + 84 + 56) + counts(1, 1, 0, 1, 0, 0),
    ),
    ("the same as JSON", "--json", HEADER + record(5, 4), 1,
     b'{"type":"file","refused":"BadLength","at":24}\n'
     b'{"type":"counts","calls":0,"replies":0,"others":0,"refused":1,"unjudged":0,"unasked":0}\n'),
    (
        "what connections leave comes behind the line of a file that ceases to be one",
        "",
        classic(OPEN) + record(9, 4),
        1,
        at(2, TO + null_line(0)) + refused(b"BadLength", len(classic(OPEN))) + LEFT,
    ),
    (
        "the same of one that is cut",
        "",
        classic(OPEN) + record(9, 9, b"abc"),
        1,
        at(2, TO + null_line(0)) + refused(b"Truncated", len(classic(OPEN))) + LEFT,
    ),
]


def cuts():
    """A file of the classic format that is cut at each byte: what was whole before, and why it is refused."""
    whole = classic(CONNECTION)
    ends = [24]
    for it in CONNECTION:
        ends.append(ends[-1] + 16 + len(it))
    for size in range(len(whole)):
        there = sum(it <= size for it in ends[1:])
        place = max([it for it in ends if it <= size], default=0)
        is_cut = size not in ends
        wanted = b"".join(LINES[:there]) + refused(b"Truncated", place) * is_cut
        yield whole[:size], int(is_cut), wanted, counts(there > 2, there > 3, 0, is_cut, 0, 0)


def block_cuts():
    """A file of pcapng that is cut at each byte: a packet is whole with its last byte, and a block with its length."""
    whole, place, ends, wholes = pcapng(CONNECTION), 48, [28, 48], []
    for it in CONNECTION:
        wholes.append(place + 28 + len(it))
        place += 32 + len(it) + -len(it) % 4
        ends.append(place)
    for size in range(len(whole)):
        there = sum(it <= size for it in wholes)
        is_cut = size not in ends
        yield whole[:size], int(is_cut), b"".join(LINES[:there]), counts(there > 2, there > 3, 0, is_cut, 0, 0)


def cut_rows(program):
    """Files that are cut at each byte. Of pcapng the place that is told is any, since it is that of a part of a block."""
    for what, cases, told in (("the classic format", cuts(), rb""), ("pcapng", block_cuts(), rb"file refused Truncated at \d+\n")):
        bad = []
        for given, status, lines, last in cases:
            ended = subprocess.run([program, "capture", "-", *RPCBIND.split()], input=given, capture_output=True, timeout=LIMIT)
            said = ended.stdout.removeprefix(lines).removesuffix(last)
            well = lines + said + last == ended.stdout and re.fullmatch(told if status else rb"", said)
            if not well or (ended.returncode, ended.stderr) != (status, b""):
                bad.append((len(given), ended))
        yield tell(f"capture, {what} that is cut at each byte", not bad, (len(bad), bad[:3]))


def held():
    """A hole, and behind it more than may be held: all of it is read, once the first piece is refused."""
    calls, each = 20, 44 * 20
    pieces = HELD // (each + PIECE)
    packets, wanted = [SYN], b""
    for count in range(pieces + 9):
        packets.append(of_client(144 + each * count, b"".join(null(calls * count + it) for it in range(calls))))
    full = pieces + 2
    for count in range(pieces + 9):
        frame = max(count + 2, full)
        if count == 0:
            wanted += at(full, TO + b"missing 44 bytes\n")
        wanted += b"".join(at(frame, TO + null_line(calls * count + it)) for it in range(calls))
    total = calls * (pieces + 9)
    return "a hole behind which too much is held", "--port 111", classic(packets), 0, wanted + counts(total, 0, 0, 0, 0, 0)


def many_holes():
    """Holes of a byte between calls, until too much is held: none of the calls is lost, whichever hole is skipped."""
    pieces = HELD // (44 + PIECE)
    packets = [SYN, of_client(100, null(0)), *(of_client(145 + 45 * it, null(it + 1)) for it in range(pieces + 5))]
    wanted = at(2, TO + null_line(0))
    for count in range(5):
        wanted += at(pieces + 3 + count, TO + b"missing 1 bytes\n") + at(pieces + 3 + count, TO + null_line(count + 1))
    for count in range(5, pieces + 5):
        wanted += at(pieces + 7, TO + b"missing 1 bytes\n") + at(pieces + 7, TO + null_line(count + 1))
    return "thousands of holes", "", classic(packets), 0, wanted + counts(pieces + 6, 0, 0, 0, 0, 0)


def forgotten():
    """More connections than are followed: the one that was not seen for the longest time ends, and is read."""
    packets = [SYN, of_client(100, null(0)), of_client(188, null(2))]
    packets += [of_client(99, b"", SYN_BIT, 1000 + it) for it in range(PAIRS)]
    packets += [of_client(232, null(3))]
    wanted = at(2, TO + null_line(0)) + at(3, TO + b"missing 44 bytes\n") + at(3, TO + null_line(2))
    return "one connection too many", "", classic(packets), 0, wanted + at(PAIRS + 4, TO + null_line(3)) + counts(3, 0, 0, 0, 0, 0)


def talks():
    """More pairs over UDP than are followed: a call of the first is forgotten, so that its reply is not looked for."""
    calls = [datagram((b"\x7f\0\0\1", 1000 + it), (b"\x7f\0\0\1", 111), GETPORT) for it in range(PAIRS + 1)]
    replies = [datagram((b"\x7f\0\0\1", 111), (b"\x7f\0\0\1", 1000 + it), PORT) for it in (1, 0)]
    wanted = b"".join(
        at(it + 1, b"127.0.0.1:%d > 127.0.0.1:111 " % (1000 + it) + GETPORT_LINES) for it in range(PAIRS + 1)
    ) + at(PAIRS + 2, b"127.0.0.1:111 > 127.0.0.1:1001 " + PORT_LINES)
    return "one pair over UDP too many", "", classic(calls + replies, 101), 0, wanted + counts(PAIRS + 1, 1, 0, 0, 0, 0)


# ---- bytes at random

def changed(files, chance):
    """A file with some bytes changed, cut out or said twice."""
    made = bytearray(chance.choice(files))
    for _ in range(chance.randrange(1, 12)):
        place = chance.randrange(len(made) + 1)
        what = chance.randrange(4)
        if what == 0:
            made[place : place + 4] = struct.pack(">I", chance.choice((0, 1, 2**31, 2**32 - 1, chance.getrandbits(32))))
        elif what == 1:
            made[place : place + 1] = bytes([chance.getrandbits(8)])
        elif what == 2:
            del made[place : place + chance.randrange(40)]
        else:
            made[place:place] = made[place : place + chance.randrange(90)]
    return bytes(made)


def limited(program, options, given):
    how = {"preexec_fn": lambda: resource.setrlimit(resource.RLIMIT_AS, (SPACE, SPACE)), "capture_output": True}
    return subprocess.run([program, "capture", "-", *options], input=given, timeout=LIMIT, **how)


def at_random(program, count, seed=1):
    """Random files: the status is 0 or 1, nothing is said of faults, and the output ends with counts."""
    chance, bad = random.Random(seed), []
    files = [row[2] for row in CONNECTIONS + FORMATS + FILES]
    for _ in range(count):
        given = changed(files, chance)
        options = chance.choice(([], ["--port", "111"], ["--stats"], ["--json"]))
        ended = limited(program, options, given)
        last = ended.stdout.splitlines()[-1:]
        well = ended.returncode in (0, 1) and not ended.stderr and last and last[0].startswith((b"calls ", b'{"type":"counts"'))
        if not well:
            bad.append((options, ended.returncode, ended.stderr, given.hex()[:200]))
    return bad


# ---- a capture that goes on

def as_it_comes(program):
    """A message is printed as soon as its packet is there, while the capture goes on."""
    whole = pcapng(CONNECTION)
    # (the packet before the last ends before its padding and the length of its block)
    first = 48 + sum(32 + len(it) + -len(it) % 4 for it in CONNECTION[:2]) + 28 + len(CONNECTION[2])
    words = [program, "capture", "-", *RPCBIND.split()]
    run = subprocess.Popen(words, stdin=subprocess.PIPE, stdout=subprocess.PIPE)
    run.stdin.write(whole[:first])
    run.stdin.flush()
    got = b""
    while len(got) < len(LINES[2]) and select.select([run.stdout], [], [], WAIT)[0]:
        part = os.read(run.stdout.fileno(), 4096)
        if not part:
            break
        got += part
    rest, _ = run.communicate(whole[first:], timeout=LIMIT)
    return got == LINES[2] and rest == LINES[3] + counts(1, 1, 0, 0, 0, 0)


def hostile_rows(program, row):
    """Rows over hostile files; `row` runs one."""
    for it in [*FILES, held(), many_holes(), forgotten(), talks()]:
        yield row(*it)
    yield from cut_rows(program)
    yield from memory_rows(program)
    bad = at_random(program, RANDOM)
    yield tell(f"capture of {RANDOM} random files", not bad, (len(bad), bad[:3]))
    yield tell("capture, a message as soon as it is whole", as_it_comes(program), "late, or another one")
