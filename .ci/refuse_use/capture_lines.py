"""Rows of 'oncrpc capture': files worked by hand, those of a capture whose messages tshark names, and hostile ones."""
import json
import os
import random
import shutil
import subprocess
import tempfile

from refuse_use.capture_connections import ANSWERS, CONNECTIONS, HOLES
from refuse_use.capture_counts import counted_rows
from refuse_use.capture_formats import FORMATS, PAIR
from refuse_use.capture_found import found_rows
from refuse_use.capture_further import FURTHER
from refuse_use.capture_hostile import hostile_rows
from refuse_use.capture_made import FROM, GETPORT, PORT, SYN, SYN_ACK, TO, at, null, of_client, of_server, void
from refuse_use.messages_streams import ROOT, RPCBIND, Sweep, call, counts, fragment, reply, words
from refuse_use.packets import CLIENT, SERVER, classic, connections, datagram, ethernet, frames, ip4, segment, segments, udp
from telling import tell
from timing import LIMIT

CAPTURES = f"{ROOT}/tests/captures"
# A hole in a record, a packet that is not read, and bytes behind which no record comes; a header that no record has.
TORN = [SYN, of_client(100, null(0) + null(1)[:20]), of_client(174, null(1)[30:] + null(2)[:9]),
        ethernet(ip4(CLIENT, SERVER, 17, udp(CLIENT, SERVER, GETPORT)[:32], fragment=0x2000))]
LYING = [SYN, of_client(100, null(0) + words(2**32 - 1))]
# A call of SET, a reply to it that is no bool, 20 bytes of another reply of 32, and behind these a third one.
SET, NO_BOOL = fragment(call(9, 100000, 2, 1, words(7, 1, 6, 99))), fragment(reply(9, 0, results=words(2)))
BEHIND = [SYN, SYN_ACK, of_client(100, SET), of_server(500, NO_BOOL + fragment(PORT)[:20]), of_server(564, void(4))]
CLOSED = b'{"type":"counts","calls":%d,"replies":%d,"others":0,"refused":%d,"unjudged":0,"unasked":0}\n'
NULL_JSON = b'"type":"call","xid":0,"program":100000,"version":2,"procedure":0,"name":"NULL","flavor":"AUTH_NONE","arguments":[]}\n'
FRONT = b'{"packet":%d,"time":"1.%09d","from":"127.0.0.1:700","to":"127.0.0.1:111",'
# What rows are about, words, the file, the status and the output.
OTHERS = [
    (
        "counts",
        "--stats",
        classic(PAIR, 101),
        0,
        b"procedure 100000.2.3 GETPORT calls 1 replies 1 refused 0\n"
        b"slow 1000 ns packet 2 xid 8 100000.2.3 GETPORT\n" + counts(1, 1, 0, 0, 0, 0),
    ),
    (
        "counts of what is refused, as JSON",
        "--stats --json",
        classic([datagram(CLIENT, SERVER, GETPORT + b"\0")], 101),
        1,
        b'{"type":"procedure","name":"100000.2.3 GETPORT","calls":1,"replies":0,"refused":1}\n'
        b'{"type":"refused","reason":"MoreFollows","count":1}\n' + CLOSED % (1, 0, 1),
    ),
    (
        "JSON",
        "--json",
        classic(PAIR[:1], 101),
        0,
        FRONT % (1, 0) + b'"type":"call","xid":8,"program":100000,"version":2,"procedure":3,"name":"GETPORT",'
        b'"flavor":"AUTH_NONE","arguments":[{"prog":100003,"vers":3,"prot":6,"port":0}]}\n' + CLOSED % (1, 0, 0),
    ),
    (
        "a call and its reply, in brief",
        "--brief",
        classic(PAIR, 101),
        0,
        b"1 1.000000000 127.0.0.1:700 > 127.0.0.1:111 call 8 100000.2.3 GETPORT AUTH_NONE\n"
        b"2 1.000001000 127.0.0.1:111 > 127.0.0.1:700 reply 8 100000.2.3 GETPORT SUCCESS\n" + counts(1, 1, 0, 0, 0, 0),
    ),
    (
        "arguments that are refused, in brief and as JSON",
        "--brief --json",
        classic([datagram(CLIENT, SERVER, GETPORT + b"\0")], 101),
        1,
        FRONT % (1, 0) + b'"type":"call","xid":8,"program":100000,"version":2,"procedure":3,"name":"GETPORT",'
        b'"flavor":"AUTH_NONE","refused":"MoreFollows","at":56}\n' + CLOSED % (1, 0, 1),
    ),
    (
        "results that are refused, and what has no message, in brief",
        "--brief",
        classic(BEHIND),
        1,
        at(3, TO + b"call 9 100000.2.1 SET AUTH_NONE\n")
        + at(4, FROM + b"reply 9 100000.2.1 SET SUCCESS\nrefused BadBool at 24\n")
        + at(5, FROM + b"unfinished 20 bytes\n") + at(5, FROM + b"missing 12 bytes\n")
        + at(5, FROM + b"reply 4 no call SUCCESS, 0 bytes\n") + counts(1, 2, 0, 1, 1, 1),
    ),
    (
        "JSON of what has no message",
        "--json",
        classic(TORN),
        0,
        FRONT % (2, 1000) + NULL_JSON
        + b'{"packet":4,"time":"1.000003000","type":"unread","why":"Fragment"}\n'
        + FRONT % (3, 2000) + b'"type":"unfinished","bytes":20}\n'
        + FRONT % (3, 2000) + b'"type":"missing","bytes":10}\n'
        + FRONT % (3, 2000) + b'"type":"passed","bytes":23}\n' + CLOSED % (1, 0, 0),
    ),
    (
        "counts of what has no message",
        "--stats",
        classic(TORN),
        0,
        b"procedure 100000.2.0 NULL calls 1 replies 0 refused 0\n"
        b"missing 10 bytes\nunfinished 20 bytes\npassed 23 bytes\nunread Fragment 1\n" + counts(1, 0, 0, 0, 0, 0),
    ),
    (
        "JSON of a header that no record has",
        "--json",
        classic(LYING),
        1,
        FRONT % (2, 1000) + NULL_JSON + FRONT % (2, 1000) + b'"type":"record","refused":"TooLong","at":0}\n'
        + FRONT % (2, 1000) + b'"type":"passed","bytes":4}\n' + CLOSED % (1, 0, 1),
    ),
    (
        "counts of it, as JSON",
        "--stats --json",
        classic(LYING),
        1,
        b'{"type":"procedure","name":"100000.2.0 NULL","calls":1,"replies":0,"refused":0}\n'
        b'{"type":"refused","reason":"TooLong","count":1}\n{"type":"passed","bytes":4}\n' + CLOSED % (1, 0, 1),
    ),
    (
        "how long replies took: not of one that stood behind a hole",
        "--stats",
        classic([SYN, SYN_ACK, of_client(100, null(1) + null(2)), of_server(500, void(1)), of_server(530, void(2))]),
        0,
        b"procedure 100000.2.0 NULL calls 2 replies 2 refused 0\nmissing 2 bytes\n"
        b"slow 1000 ns packet 4 xid 1 100000.2.0 NULL\n" + counts(2, 2, 0, 0, 0, 0),
    ),
]


def row_of(sweep, swept):
    """Runs a row, and with its growths, reads and writes refused where that is asked for."""

    def run(what, options, given, status, output):
        line = f"{options} {RPCBIND}"
        if swept:
            return sweep.row(what, line, given, (status, output))
        got = sweep.ended(line, given)
        return tell(f"capture, {what}", got == (status, output, b""), [got, (status, output)])

    return run


def named(program):
    """The messages of a capture are those that tshark names, and none is refused; the same from standard input."""
    with open(f"{CAPTURES}/libnfs.pcap", "rb") as it:
        given = it.read()
    with open(f"{CAPTURES}/libnfs.txt", encoding="ascii") as it:
        wanted = [it.split() for it in it]
    runs = (([f"{CAPTURES}/libnfs.pcap"], b""), (["-"], given))
    ended = [subprocess.run([program, "capture", *line], input=it, capture_output=True, timeout=LIMIT) for line, it in runs]
    if ended[0].stdout != ended[1].stdout or (ended[0].returncode, ended[0].stderr) != (0, b""):
        return f"status {ended[0].returncode}: {ended[0].stdout[-200:]}, {ended[0].stderr}"
    lines = [it.split() for it in ended[0].stdout.decode().splitlines()]
    found = [[it[0], *it[5:9]] for it in lines if it[5:6] in (["call"], ["reply"]) and it[3] == ">"]
    # A name is printed where the procedure is declared: of NFS in version 3.
    for told, known in zip(found, wanted):
        declared = not known[3].startswith(("100003.0.", "100003.4."))
        if told[: 5 if declared else 4] != known[: 5 if declared else 4]:
            return f"{told}, and tshark has {known}"
    if len(found) != len(wanted) or "refused 0" not in " ".join(lines[-1]):
        return f"{len(found)} messages, {lines[-1]}"
    return ""


def mixed(path, chance):
    """The segments of a capture, each in pieces of some bytes, out of order, and each of them twice."""
    packets = []
    for source, target, number, begins, content in segments(path):
        cut = sorted({0, len(content), *(chance.randrange(len(content) + 1) for _ in range(4))})
        pieces = [segment(source, target, number + at, content[at:end]) for at, end in zip(cut, cut[1:])] * 2
        chance.shuffle(pieces)
        packets += [segment(source, target, number, b"", begins)] if begins else pieces
    return classic(packets, 101)


def found_mixed(program):
    """The messages over TCP of a capture are found in its segments when these are mixed."""
    path, told = f"{CAPTURES}/libnfs.pcap", set()
    over_udp = {str(count + 1) for count, (frame, _) in enumerate(frames(path)) if frame[23] == 17}
    with open(f"{CAPTURES}/libnfs.txt", encoding="ascii") as it:
        wanted = [tuple(line[1:4]) for line in map(str.split, it) if line[0] not in over_udp]
    for seed in range(9):
        ended = subprocess.run(
            [program, "capture", "-"], input=mixed(path, random.Random(seed)), capture_output=True, timeout=LIMIT
        )
        lines = [it.split() for it in ended.stdout.decode().splitlines()]
        got = [tuple(it[5:8]) for it in lines if it[5:6] in (["call"], ["reply"]) and it[3] == ">"]
        told |= {it[5] for it in lines if it[3:4] == [">"]}
        if (ended.returncode, got, told) != (0, wanted, {"call", "reply"}):
            return f"seed {seed}: {len(got)} messages of {len(wanted)}, {told}, {lines[-1:]}"
    return ""


def objects(printed):
    """The objects of JSON that were printed, without what tells a packet, in an order of their own; none, where it is no
    JSON."""
    try:
        found = [json.loads(it) for it in printed.splitlines()]
    except ValueError:
        return []
    for it in found:
        for member in ("packet", "time", "from", "to"):
            it.pop(member, None)
    return sorted(json.dumps(it, sort_keys=True) for it in found)


def as_messages(program, room):
    """Of the bytes of a connection 'capture' prints what 'messages' does, but for what tells the packets."""
    for count, (calls, replies) in enumerate(connections(f"{CAPTURES}/libnfs.pcap")):
        with open(f"{room}/replies.bin", "wb") as it:
            it.write(replies)
        packets = [SYN, SYN_ACK]
        packets += [of_client(100 + at, calls[at : at + 999]) for at in range(0, len(calls), 999)]
        packets += [of_server(500 + at, replies[at : at + 999]) for at in range(0, len(replies), 999)]
        runs = ((["messages", "--replies", f"{room}/replies.bin"], calls), (["capture", "-", "--port", "111"], classic(packets)))
        ended = [
            subprocess.run([program, *line, "--json"], input=given, capture_output=True, timeout=LIMIT) for line, given in runs
        ]
        told = [objects(it.stdout) for it in ended]
        if told[0] != told[1] or not told[0] or [it.returncode for it in ended] != [0, 0]:
            return f"connection {count}: {ended}"
    return ""


def placed(folder):
    """The program in a folder of its own, with the installed texts beside it."""
    os.makedirs(f"{folder}/bin")
    os.makedirs(f"{folder}/share")
    os.symlink(f"{ROOT}/share/oncrpc", f"{folder}/share/oncrpc")
    return shutil.copy(f"{ROOT}/crates/oncrpc/out/oncrpc", f"{folder}/bin/oncrpc")


def capture_rows(program, folder, heap):
    sweep, swept = Sweep(program, folder, heap, ("capture", "-")), {it[0] for it in ANSWERS + HOLES + OTHERS}
    for it in CONNECTIONS + FORMATS + OTHERS + FURTHER:
        yield row_of(sweep, it[0] in swept)(*it)
    yield from counted_rows(folder, row_of(sweep, False))
    yield from found_rows(program)
    with tempfile.TemporaryDirectory() as room:
        said = named(placed(room))
        yield tell("capture of tests/captures/libnfs.pcap", not said, said, "as tshark names it")
        said = as_messages(placed(f"{room}/streams"), room)
        yield tell("capture of each of its connections beside messages", not said, said, "the same")
        said = found_mixed(placed(f"{room}/mixed"))
        yield tell("capture of its segments in pieces, twice and out of order", not said, said, "the same")
    yield from hostile_rows(program, row_of(sweep, False))
