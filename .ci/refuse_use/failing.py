"""Rows of 'oncrpc serve' without a count, of which each read fails in its turn, then each write, and then each growth
of memory, at each step of three connections: one of them ends, or one call has no reply or SYSTEM_ERR, and all others
go on. Where all later growths are refused too, nothing else comes than these. What a signal interrupts ends nothing.

The heap of '.ci/heap.c' has the call fail, by its number. Expected bytes are those of RFC 5531 sections 9 and 11 and of
RFC 1833 section 3.
"""
import collections
import contextlib
import errno

from refuse_use.kept import Kept, call, first_growth, is_answered, is_closed, marked, no_answer, read, replied
from refuse_use.network_files import allow_files
from refuse_use.turns import asking, setting
from telling import tell
from timing import SOON

CLIENTS, STEPS = 3, 4
# What fails: the variable that refuses it; how many are refused in turn, behind which no more come of these connections
# nor of what is asked after them; how many may come before it listens; what comes of whom it hits; and the steps at
# which a client is hit. Half a call has no reply, which the next one is, so step 1 is not seen.
Kind = collections.namedtuple("Kind", "refused most early words seen")
# The first writes are a line on standard error, where few files may be open, and the line that it listens.
KINDS = [
    Kind("REFUSE_READ", 40, 0, {"ended", "no reply"}, {0, 2, 3}),
    Kind("REFUSE_WRITE", 40, 2, {"ended", "no reply"}, {0, 2, 3}),
]
# Those before the line that it listens are refused by keeping.py.
GROWTH = Kind("REFUSE_GROWTH", 110, 0, {"ended", "missed"}, {0, 2, 3})
# The most reads of one connection of 'serve --count'.
MOST_READS = 1048576


def row_of(client):
    """The row that a client sets, at a port of its own."""
    return 0x20000000 + client, 1, 6, 2049 + client


def step(client, number):
    """What a client sends at a step, and what it gets for it: a row is set, a call comes in two pieces, and two calls
    come at once."""
    asked, told = asking(3, row_of(client)), marked(replied(3, 2049 + client))
    return [
        (setting(1, row_of(client)), marked(replied(1, 1))),
        (asked[:20], b""),
        (asked[20:], told),
        (marked(call(4)) + marked(call(5)), marked(replied(4)) + marked(replied(5))),
    ][number]


def record_from(made):
    """The next record that comes over a connection, with its header; what there is of it where it is cut."""
    head = read(made, 4)
    return head + read(made, int.from_bytes(head, "big") & 0x7FFFFFFF)


def said_to(made, given, wanted):
    """What comes of what is sent over a connection: 'well' where it is these replies, 'missed' where SYSTEM_ERR is in
    the place of one, 'ended' where the connection ends, and else what it is."""
    if made is None:
        return "ended"
    got = b""
    with contextlib.suppress(OSError):
        made.sendall(given)
        while len(got) < len(wanted):
            record = record_from(made)
            if record and wanted.startswith(got + record):
                got += record
            elif record == marked(no_answer(int.from_bytes(record[4:8], "big"))):
                return "missed"
            else:
                return "ended" if not record and is_closed(made, 0) else (got, record)
        return "well"
    return "ended"


def client_of(kept, opened):
    """A connection, or none where it cannot be made."""
    with contextlib.suppress(OSError):
        return opened.enter_context(kept.client())
    return None


def left_at(clients):
    """The clients that get something else at a step, each with the step and what that is, while all others go on by
    turns."""
    left = {}
    for number in range(STEPS):
        for client, made in enumerate(clients):
            if client not in left and (said := said_to(made, *step(client, number))) != "well":
                left[client] = number, said
    return left


def datagram_said(kept, xid):
    """The same of a call by a datagram."""
    said = kept.asked(call(xid), SOON)
    return {replied(xid): "well", no_answer(xid): "missed", b"": "no reply"}.get(said, said)


def later_said(kept, left):
    """What comes then of a new client that asks for the rows of those that were not left, and of two datagrams."""
    with contextlib.ExitStack() as opened:
        made = client_of(kept, opened)
        whole = [client for client in range(CLIENTS) if client not in left]
        said = (said_to(made, asking(6, row_of(it)), marked(replied(6, 2049 + it))) for it in whole)
        told = "ended" if made is None else next((it for it in said if it != "well"), "well")
    return [told, datagram_said(kept, 7), datagram_said(kept, 8)]


def told_of(program, **variables):
    """Which clients are left at which step, what comes of others then, and whether it goes on; nothing where it does
    not listen."""
    with Kept(program, **variables) as kept, contextlib.ExitStack() as opened:
        if not kept.port:
            return None
        left = left_at([client_of(kept, opened) for _ in range(CLIENTS)])
        return left, later_said(kept, left), kept.process.poll() is None


def hit_by(told):
    """What comes of each client and each datagram that has not what it should."""
    left, later, _ = told
    return [said for _, said in left.values()] + [said for said in later if said != "well"]


def failing(program, heap, kind, before=0):
    """Each call behind so many fails alone: no more than one connection or datagram is the worse for it, but that one
    of the first may keep it from listening. At some number each client is, and at some number each step."""
    wrong, seen, last = [], set(), 0
    for number in range(1, kind.most):
        told = told_of(program, LD_PRELOAD=heap, **{kind.refused: str(before + number)})
        if told is None and number <= kind.early:
            continue
        hit = hit_by(told) if told else []
        last = number if hit else last
        seen |= {(client, number) for client, (number, _) in (told or [{}])[0].items()}
        if told is None or not told[2] or len(hit) > 1 or not kind.words.issuperset(hit):
            wrong.append((number, told))
    clients, steps = ({it[place] for it in seen} for place in (0, 1))
    is_all = len(clients) == CLIENTS and steps >= kind.seen and last < kind.most - 5
    yield f"each of {kind.most - 1}, {kind.refused}", not wrong and is_all, (wrong[:3], seen, last)


def failing_on(program, heap, kind, before):
    """Each growth fails with all later ones: whoever is hit has SYSTEM_ERR or ends, and nothing else comes of it. It
    goes on until a signal ends it."""
    wrong = []
    for number in range(1, kind.most):
        told = told_of(program, LD_PRELOAD=heap, **{kind.refused: f"{before + number}.."})
        if told is None or not told[2] or not kind.words.issuperset(hit_by(told)):
            wrong.append((number, told))
    yield f"each of {kind.most - 1} and all later, {kind.refused}", not wrong, wrong[:3]


def interrupted(program, heap, refused, early=0, lost=0):
    """A call that a signal interrupts (EINTR) ends nothing, and is made again. But so many of the first are those of
    lines without which it does not listen, and of so many datagrams the reply is not sent again."""
    wrong, missing = [], 0
    for number in range(1, 40):
        told = told_of(program, LD_PRELOAD=heap, REFUSE_ERROR=str(errno.EINTR), **{refused: str(number)})
        if told is None and number <= early:
            continue
        missing += (told or [0, []])[1].count("no reply")
        if told is None or told[0] or not {"well", "no reply"}.issuperset(told[1]) or not told[2]:
            wrong.append((number, told))
    yield f"each of 39 interrupted, {refused}", not wrong and missing <= lost, (wrong[:3], missing)


def read_on(program, heap):
    """A connection is read more often than 'serve --count' reads one, and is answered then."""
    often = {"REFUSE_READ": f"1-{MOST_READS + 1}", "REFUSE_ERROR": str(errno.EINTR)}
    with Kept(program, LD_PRELOAD=heap, **often) as kept, kept.client() as made:
        well = is_answered(made, 1)
    yield f"{MOST_READS + 1} reads that are interrupted, and a reply", well, None


def failing_rows(program, heap):
    """The rows, each whether it is as it should be; none where nothing has a call fail."""
    allow_files()
    before = first_growth(program, heap) - 1 if heap else 0
    rows = [failing(program, heap, kind) for kind in KINDS]
    rows += [failing(program, heap, GROWTH, before), failing_on(program, heap, GROWTH, before)]
    rows += [interrupted(program, heap, f"REFUSE_{it}") for it in ("READ", "WAIT")]
    rows += [interrupted(program, heap, "REFUSE_WRITE", 2, 2)]
    for each in [*rows, read_on(program, heap)] if heap else ():
        for name, is_well, told in each:
            yield tell(f"oncrpc serve, {name}", is_well, told)
