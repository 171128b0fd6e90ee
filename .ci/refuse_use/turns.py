"""Rows of 'oncrpc serve' without a count, of clients that take turns: one record of each is answered before the next
has its turn. One that sends without an end holds up no other, one that takes its replies slowly gets all of them, and
one that takes none is idle, also where it sends no more.

A registry that a signal has stopped does nothing until it goes on: what clients did meanwhile is there then, all of it.
The rows of a list are in the order in which they were set, so they tell in which order calls were answered. Expected
bytes are those of RFC 5531 sections 9 and 11 and of RFC 1833 section 3.
"""
import contextlib
import fcntl
import itertools
import os
import signal
import socket
import struct
import tempfile
import termios
import threading

from refuse_use.kept import (
    HOST,
    Kept,
    call,
    call_greedily,
    is_answered,
    is_closed,
    marked,
    read,
    replied,
    wait_for_quiet,
)
from refuse_use.local import at_path, second_line
from telling import tell
from timing import SOON, WAIT, wait_until

# Rows of two programs, and what sets one and asks for it.
ONE, OTHER = (0x20000000, 1, 6, 2049), (0x20000001, 1, 6, 2050)
# Records that are no calls, which have no reply.
SILENT = marked(b"") * 16384
# How many calls each of three clients makes at once. All of one are read at once, and their replies are few bytes.
BURSTS = [(16, 16, 16), (64, 64, 64), (1, 16, 64), (64, 1, 1)]
# Clients of which each asks for the list and sets a row, and rows that make the list long: a reply of 20148 bytes.
LISTING, LONG_ROWS = 8, [(1000 + it, 1, 6, 9) for it in range(1000)]
# Datagrams that wait at once, and calls of one client.
WAITING, OWED = 100, 800
# How many bytes of its replies that client takes at a time.
TAKEN = (1, 3, 27, 28, 29, 4096, 20000, 65536)


def setting(xid, row):
    return marked(call(xid, 1, 2, *row))


def asking(xid, row):
    return marked(call(xid, 3, 2, *row))


@contextlib.contextmanager
def stopped(kept, *clients):
    """Stops a registry, and has it go on once all that these clients have sent has come to its host."""
    kept.process.send_signal(signal.SIGSTOP)
    os.waitid(os.P_PID, kept.process.pid, os.WSTOPPED | os.WNOWAIT)
    yield
    wait_until(lambda: all(fcntl.ioctl(made, termios.TIOCOUTQ, bytes(4)) == bytes(4) for made in clients))
    kept.process.send_signal(signal.SIGCONT)


def in_turn(program):
    """Of two records of a client the second waits until the other client has had its turn."""
    with Kept(program) as kept, kept.client() as first:
        well = is_answered(first, 1)
        with kept.client() as second:
            well = is_answered(second, 2) and well
            with stopped(kept, first, second):
                first.sendall(setting(3, ONE) + setting(4, OTHER))
                second.sendall(asking(5, OTHER))
            said = read(first, 64), read(second, 32)
            second.sendall(asking(6, OTHER))
            later = read(second, 32)
    wanted = marked(replied(3, 1)) + marked(replied(4, 1)), marked(replied(5, 0))
    well = well and said == wanted and later == marked(replied(6, 2050))
    yield "a second record waits for the other client's first", well, (said, later)


def row_of(client, place):
    """The row that a client sets by its call at this place."""
    return 0x20000000 + 1000 * client + place, 1, 6, 2049


def listed(xid, port, rows):
    """The list of the registry's own rows and of these."""
    own = [(100000, version, protocol, port) for version in (2, 3, 4) for protocol in (6, 17)]
    return replied(xid, *(word for row in [*own, *rows] for word in (1, *row)), 0)


def set_all(made, rows):
    """Whether all of these rows are set over a connection."""
    made.sendall(b"".join(setting(1, row) for row in rows))
    return read(made, 32 * len(rows)) == marked(replied(1, 1)) * len(rows)


def programs_of(listing):
    """The programs of a list's rows behind the registry's own, in their order; none where its length is none."""
    rows = listing[24:-4]
    return [row[1] for row in struct.iter_unpack(">5I", rows)][6:] if len(rows) % 20 == 0 else []


def is_in_rounds(programs, counts):
    """Whether these are the rows of clients with so many calls each, in rounds: in each round every client that has
    calls left has one answered, whichever of them first."""
    left = iter(programs)
    for place in range(max(counts)):
        those = {row_of(client, place)[0] for client, count in enumerate(counts) if place < count}
        if set(itertools.islice(left, len(those))) != those:
            return False
    return not [*left]


def bursts_of(program, counts):
    """Whether clients that make so many calls at once have them answered in rounds, and get their replies in order."""
    with Kept(program) as kept, contextlib.ExitStack() as opened:
        clients = [opened.enter_context(kept.client()) for _ in counts]
        well = all([is_answered(made, 1) for made in clients])
        with stopped(kept, *clients):
            for client, (made, count) in enumerate(zip(clients, counts)):
                made.sendall(b"".join(setting(place, row_of(client, place)) for place in range(count)))
        said = [read(made, 32 * count) for made, count in zip(clients, counts)]
        programs = programs_of(kept.asked(call(9, 4)))
    wanted = [b"".join(marked(replied(place, 1)) for place in range(count)) for count in counts]
    return well and said == wanted and is_in_rounds(programs, counts), (said == wanted, programs)


def in_rounds(program):
    """Each client has one of its calls answered before any has its next one."""
    for counts in BURSTS:
        yield f"clients with {', '.join(map(str, counts))} calls at once", *bursts_of(program, counts)


def beside_long(program):
    """No client has its second call answered before each has had its first, also where the first ones are lists that
    are together longer than what is made before others are looked for: none shows a row of a second call."""
    with Kept(program) as kept, contextlib.ExitStack() as opened:
        clients = [opened.enter_context(kept.client()) for _ in range(LISTING)]
        well = set_all(clients[0], LONG_ROWS) and all([is_answered(made, 1) for made in clients])
        with stopped(kept, *clients):
            for client, made in enumerate(clients):
                made.sendall(marked(call(2, 4)) + setting(3, row_of(client, 0)))
        wanted = marked(listed(2, kept.port, LONG_ROWS)) + marked(replied(3, 1))
        said = [read(made, len(wanted)) == wanted for made in clients]
    yield "first calls for a long list, and second ones that set rows", well and all(said), (well, said)


def among_datagrams(program):
    """A client's call is answered before the last of many datagrams that wait, and each of these gets its reply."""
    with Kept(program) as kept, kept.client() as made, socket.socket(type=socket.SOCK_DGRAM) as sending:
        well, last = is_answered(made, 1), row_of(0, WAITING - 1)
        sending.settimeout(WAIT)
        with stopped(kept, made):
            for place in range(WAITING):
                sending.sendto(call(place, 1, 2, *row_of(0, place)), (HOST, kept.port))
            made.sendall(asking(2, last))
        first, later = read(made, 32), []
        with contextlib.suppress(OSError):
            while len(later) < WAITING:
                later.append(sending.recv(65536))
    well = well and first == marked(replied(2, 0)) and later == [replied(place, 1) for place in range(WAITING)]
    yield f"a call beside {WAITING} datagrams that wait", well, (first, len(later))


def read_in_parts(made, count, parts):
    """So many bytes that come over a connection, of which some are taken at a time, or those before its end."""
    got = b""
    while len(got) < count:
        more = read(made, min(next(parts), count - len(got)))
        if not more:
            break
        got += more
    return got


def taking_parts(program):
    """A client makes many calls, and takes their replies part after part once no more of them can be written: each
    comes once, in the order of the calls. They are longer than what the system keeps, so that writes take parts."""
    parts, wrong = itertools.cycle(TAKEN), []
    with Kept(program, "--verbose") as kept, kept.client() as made:
        well = set_all(made, LONG_ROWS)
        made.sendall(b"".join(marked(call(xid, 4)) for xid in range(OWED)))
        wait_for_quiet(made)
        for xid in range(OWED):
            wanted = marked(listed(xid, kept.port, LONG_ROWS))
            if read_in_parts(made, len(wanted), parts) != wanted:
                wrong.append(xid)
                break
        made.shutdown(socket.SHUT_WR)
        rest, count = read(made, 1), OWED + len(LONG_ROWS)
        line = f"connection 1 from {HOST}:{made.getsockname()[1]}: {count} records, {count} replies\n".encode()
        told = kept.lines(1) if rest == b"" and not wrong else b""
    well = well and not wrong and rest == b"" and told == line
    yield f"{OWED} replies that are taken part after part", well, (wrong, rest, told)


def socket_first(program):
    """Of connections that wait that at the Unix socket is taken first, and so has its turn before the other."""
    with tempfile.TemporaryDirectory() as folder:
        path = f"{folder}/socket"
        with Kept(program, "--local", path) as kept, contextlib.ExitStack() as opened:
            second_line(kept)
            with stopped(kept):
                over_tcp = opened.enter_context(kept.client())
                over_tcp.sendall(asking(3, ONE))
                local = opened.enter_context(at_path(path))
                local.sendall(setting(4, ONE))
                wait_until(lambda: fcntl.ioctl(over_tcp, termios.TIOCOUTQ, bytes(4)) == bytes(4))
            said = read(over_tcp, 32), read(local, 32)
    wanted = marked(replied(3, 2049)), marked(replied(4, 1))
    yield "who waits at the Unix socket is taken before who came over TCP", said == wanted, said


def send_on(made, stop):
    """Sends records without replies until it is to stop, or its connection is shut."""
    with contextlib.suppress(OSError):
        while not stop.is_set():
            made.sendall(SILENT)


def unanswered(program):
    """Beside a client that sends records without replies for ever a datagram and a new client are answered."""
    stop = threading.Event()
    with Kept(program) as kept, kept.client() as made:
        sender = threading.Thread(target=send_on, args=(made, stop))
        sender.start()
        try:
            said = kept.asked(call(7), SOON)
            with kept.client() as other:
                well = is_answered(other, 8, SOON)
        finally:
            stop.set()
            made.shutdown(socket.SHUT_RDWR)
            sender.join()
    yield "a datagram beside records without replies", said == replied(7), said
    yield "a new client beside them", well, None


def untaken(program):
    """A client that takes none of its replies is idle, however much waits for it."""
    with Kept(program, "--verbose", "--idle", "1") as kept, kept.client() as made:
        wanted = f"connection 1 from {HOST}:{made.getsockname()[1]}: Idle\n".encode()
        call_greedily(made)
        told = kept.lines(1)
    yield "the line of one that takes no replies", told == wanted, told


def shut_greedily(made):
    """Asks for the list of rows until no more is taken, and sends no more then: how many bytes were sent."""
    sent, asked = 0, marked(call(2, 4)) * 100
    made.setblocking(False)
    with contextlib.suppress(BlockingIOError):
        while True:
            sent += made.send(asked[sent % len(asked) :])
    made.shutdown(socket.SHUT_WR)
    return sent


def half_open(program):
    """A client that sends no more and takes none of its replies is idle. One that takes them in the end has them all,
    and then its connection ends, inside a record or behind the last."""
    with Kept(program, "--verbose", "--idle", "1") as kept, kept.client() as made:
        wanted = f"connection 1 from {HOST}:{made.getsockname()[1]}: Idle\n".encode()
        shut_greedily(made)
        told = kept.lines(1)
    yield "the line of one that sends no more and takes no replies", told == wanted, told
    with Kept(program, "--verbose", "--idle", "3600") as kept, kept.client() as made:
        sent = shut_greedily(made)
        each, size = marked(listed(2, kept.port, ())), len(marked(call(2, 4)))
        count = sent // size
        said = read(made, len(each) * count)
        is_end, told = is_closed(made), kept.lines(1)
        line = f"Truncated at {sent}" if sent % size else f"{count} records, {count} replies"
        wanted = f"connection 1 from {HOST}:{made.getsockname()[1]}: {line}\n".encode()
    well = said == each * count and is_end and told == wanted
    yield f"one that sends no more, and takes {count} replies late", well, (len(said), is_end, told)


def turn_rows(program):
    """The rows, each whether it is as it should be."""
    some = in_turn, in_rounds, beside_long, among_datagrams, socket_first, unanswered, taking_parts, untaken, half_open
    for rows in some:
        for name, is_well, told in rows(program):
            yield tell(f"oncrpc serve, {name}", is_well, told)
