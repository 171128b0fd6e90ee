"""Rows of 'oncrpc call', 'oncrpc ping' and 'oncrpc info' with each growth of memory, each read and each write refused
in turn, by .ci/heap.c."""
import re

from refuse_use.answering import Server, replying
from refuse_use.call_recorded import NUMBERS, declarations_of
from refuse_use.called import ASKED, HOST, LONG, PINGED, UNASKED, XID, call_words, placed_program, run
from refuse_use.called import success, words
from refuse_use.recorded_json import exchanges

# READDIRPLUS, and DUMP of the registry.
SWEPT = [("nfs", 3, 17), ("rpcbind", 4, 4)]


def counted(program, folder, line, given, heap, variable):
    """How many growths, reads or writes a run makes."""
    at = f"{folder}/count"
    run(program, folder, line, given, LD_PRELOAD=heap, **{variable: at})
    with open(at, encoding="ascii") as it:
        return int(it.read())


def is_wanting(whole, got):
    """Whether a run is the whole one, or ended where memory was refused."""
    return got == whole or (got[0], got[2]) == (4, b"out of memory\n") and whole[1].startswith(got[1])


def is_unread(whole, got):
    """Whether a run is the whole one, or ended where a read failed: of a file, a connection, or by a datagram."""
    return got == whole or (got[0], got[1]) == (3, b"") and got[2] in (b"read fault\n", b"socket fault\n")


def is_unwritten(whole, got):
    """Whether a run is the whole one, or ended where a write failed: over a socket, of the output, or of the line."""
    if got[0] == 3 and got[2] in (b"write fault\n", b"socket fault\n"):
        return whole[1].startswith(got[1])
    return got == whole or got == (whole[0], whole[1], b"")


REFUSED = [
    ("COUNT_GROWTHS", "REFUSE_GROWTH", is_wanting),
    ("COUNT_READS", "REFUSE_READ", is_unread),
    ("COUNT_WRITES", "REFUSE_WRITE", is_unwritten),
]


def timeless(got):
    """What a run gave, but for the time that a ping took."""
    return got[0], re.sub(rb"in \d+ microseconds", b"in N microseconds", got[1]), got[2]


def swept(program, folder, heap, line, given=b"", begin=1):
    """A run, and with each growth from a number on, each read and each write refused: how many, and which go wrong."""
    whole, bad, counts = timeless(run(program, folder, line, given)[0]), [], []
    for count, refuse, is_well in REFUSED:
        counts.append(counted(program, folder, line, given, heap, count))
        first = begin if refuse == "REFUSE_GROWTH" else 1
        for number in range(first, counts[-1] + 2):
            for refused in (str(number), f"{number}..") if refuse == "REFUSE_GROWTH" else (str(number),):
                got = timeless(run(program, folder, line, given, LD_PRELOAD=heap, **{refuse: refused})[0])
                if not is_well(whole, got):
                    bad.append((refuse, refused, got))
    return whole, counts, bad


def first_growth(program, folder, heap, line=None):
    """The number of a growth shortly before the first that comes once words and declarations are read. A run of these
    words ends there; else that of limits that are refused."""
    limits = ["call", HOST, "ASKED.FIRST.NIL", "--types", "asked.x", "--bytes", "6", "--port", "1", "--xid", str(XID)]
    return max(counted(program, folder, line or limits, b"", heap, "COUNT_GROWTHS") - 20, 1)


def refused_rows(program, folder, heap):
    """Each growth, read and write of a call refused: of three rows from the first growth on, of each other from that on
    which comes once the declarations are read."""
    later = first_growth(program, folder, heap)
    whole = [ASKED[7], ASKED[10], ASKED[16]]
    for row in ASKED:
        more, _, reply = row[:3]
        for over in ([], ["--udp"]):
            with Server(replying(reply)) as server:
                line = call_words(server.port, [*more, *over])
                begin = 1 if row in whole and not over else later
                got, counts, bad = swept(program, folder, heap, line, begin=begin)
            well = got == row[3:] and not bad and counts[0] > begin and counts[1] > 1 and counts[2] > 1
            yield f"{' '.join([*more, *over])}, {counts} growths, reads and writes refused", well, (got, bad[:3])
    for more, given, status, _ in UNASKED:
        line = call_words(1, more)
        got, counts, bad = swept(program, folder, heap, line, given, later)
        yield f"{' '.join(more)}, {counts} growths, reads and writes refused", got[0] == status and not bad, bad[:3]


def refused_pings(program, folder, heap):
    """The same of a ping, and of 'info' with a time."""
    later = first_growth(program, folder, heap, ["ping", HOST, "ASKED.FIRST", "--port", "1"])
    for over in ([], ["--udp"]):
        lines = [(["ping", HOST, *more], reply, status) for more, reply, status, _, _ in PINGED]
        lines.append((["info", HOST], success(words(0), xid=1), 0))
        for words_of_it, reply, status in lines:
            with Server(replying(reply)) as server:
                port = ["--port", str(server.port)] if "ping" in words_of_it else [str(server.port)]
                line = [*words_of_it, *port, *LONG, *over]
                got, counts, bad = swept(program, folder, heap, line, begin=later)
            name = f"{' '.join([*words_of_it, *over])}, {counts} growths, reads and writes refused"
            yield name, got[0] == status and not bad, (got, bad[:3])


def refused_recorded(program, folder, heap):
    """The same of two calls that were recorded, with long arguments and a long result: lists of structures and unions."""
    for (name, version, procedure), arguments, given, results, said in exchanges():
        if (name, version, procedure) not in SWEPT:
            continue
        types, numbers = ["--types", declarations_of(name)], (NUMBERS[name], version, procedure)
        at = ".".join(map(str, numbers))
        limits = ["call", HOST, at, *types, "--bytes", "6", "--port", "1", "--xid", str(XID)]
        later = first_growth(program, folder, heap, limits)
        with Server(replying(success(results))) as server:
            line = call_words(server.port, [at, *types, *(["--arguments", given] if given else [])])
            got, counts, bad = swept(program, folder, heap, line, begin=later)
        well = got == (0, f"{said}\n".encode(), b"") and not bad and counts[0] > later and counts[1] > 1
        yield f"{at} as recorded, {counts} growths, reads and writes refused", well, (got, bad[:3])


def placed_rows(program, folder, heap):
    """The same of an installed text that is found by its name, and by that of its program."""
    by_itself = placed_program(program, folder)
    for line, given, whole in (
        (["check", "--types", "mount", "--name", "mountstat3"], b"\0\0\0\r", (0, b"ok 4\n", b"")),
        (["call", HOST, "mount.3.NONE"], b"", (2, b"", b"no such procedure\n")),
    ):
        begin = 1 if "check" in line else first_growth(program, folder, heap, ["call", HOST, "1.3.NONE"])
        got, counts, bad = swept(by_itself, folder, heap, line, given, begin)
        yield f"{' '.join(line)}, {counts} growths, reads and writes refused", got == whole and not bad, (got, bad[:3])
