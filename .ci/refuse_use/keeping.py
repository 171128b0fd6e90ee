"""Rows of 'oncrpc serve' without a count: many clients at once, of whom none holds up another, whatever some of them do.

Expected bytes are those of RFC 5531 sections 9 and 11 and of RFC 1833 section 3. A client is a connection over loopback.
"""
import contextlib
import os
import re
import select
import signal
import socket
import struct
import subprocess
import sys
import threading
import time

sys.dont_write_bytecode = True
sys.path.insert(0, os.path.dirname(os.path.dirname(os.path.realpath(__file__))))

from refuse_use.kept import BEHIND, FIRST, HOST, Kept, call, call_greedily, call_unread, called, first_growth
from refuse_use.kept import hindering, is_answered, is_closed, marked, no_answer, read, replied, wait_for_quiet
from refuse_use.network_files import BESIDE, allow_files, warning
from refuse_use.ports import over_udp_alone
from telling import tell
from timing import SOON, WAIT, in_time


def at_once(program):
    """Each of 300 clients that come at once gets its 16 replies, in their order, beside those that hinder; and so does
    who asks by a datagram."""
    with Kept(program, "--idle", "3600") as kept, hindering(kept), contextlib.ExitStack() as opened:
        clients = [opened.enter_context(kept.client()) for _ in range(300)]
        for number, made in enumerate(clients):
            made.sendall(b"".join(marked(call(number * 16 + it)) for it in range(16)))
        wanted = [b"".join(marked(replied(number * 16 + it)) for it in range(16)) for number in range(300)]
        got = [read(made, 28 * 16) for made in clients]
        wrong = sum(mine != other for mine, other in zip(got, wanted))
        yield "300 clients at once, 16 calls of each", wrong == 0, f"{wrong} got other replies"
        said = kept.asked(call(7))
        yield "a datagram beside them", said == replied(7), said
        row = (0x20000000, 1, 6, 2049)
        said = kept.asked(call(8, 1, 2, *row)), kept.asked(call(9, 3, 2, *row))
        yield "a row that a datagram sets", said == (replied(8, 1), replied(9, 2049)), said
        clients[0].sendall(marked(call(10, 3, 2, *row)))
        said = read(clients[0], 32)
        yield "a connection finds it", said == marked(replied(10, 2049)), said
        said = kept.end()
    yield "SIGTERM ends it, and nothing more was printed", said == (-signal.SIGTERM, b"", b""), said


def lines(program):
    """The line of each connection, as its client's port and what it sent have it."""
    sent = [
        (marked(call(1)) * 2 + marked(b"no call"), "3 records, 2 replies"),
        (b"\xff\xff\xff\xff", "TooLong at 0"),
        (marked(call(1)) + b"\x80\x00\x00\x28abc", "Truncated at 51"),
        (b"", "0 records, 0 replies"),
    ]
    with Kept(program, "--verbose", "--idle", "3600") as kept:
        wanted = []
        for number, (bytes_sent, line) in enumerate(sent, 1):
            with kept.client() as made:
                wanted.append(f"connection {number} from {HOST}:{made.getsockname()[1]}: {line}\n")
                made.sendall(bytes_sent)
                made.shutdown(socket.SHUT_WR)
                read(made, 1 << 20)
        # A connection is closed before its line is written.
        told = kept.lines(len(wanted))
        said = kept.end(signal.SIGINT)
    well = told == "".join(wanted).encode() and said == (-signal.SIGINT, b"", b"")
    yield "the line of each connection, and SIGINT", well, (told, said, wanted)
    with Kept(program, "--verbose", "--idle", "1") as kept, kept.client() as made:
        wanted = f"connection 1 from {HOST}:{made.getsockname()[1]}: Idle\n"
        is_idle, told = is_closed(made), kept.lines(1)
    yield "the line of one that says nothing", is_idle and told == wanted.encode(), (is_idle, told, wanted)


def reset(program):
    """Clients that reset their connection, the second while replies wait: each ends alone, and has its line."""
    for begin, fault in ((call_unread, "Read"), (call_greedily, "Write")):
        yield f"a connection that is reset, {fault}", *in_time(lambda: is_reset(program, begin, fault))


def is_reset(program, begin, fault):
    """Whether the line of a connection that is reset tells this fault, and another connection is answered still."""
    with Kept(program, "--verbose", "--idle", "3600") as kept, kept.client() as other:
        with kept.client() as made:
            wanted = f"connection 2 from {HOST}:{made.getsockname()[1]}: {fault}\n"
            begin(made)
            wait_for_quiet(made)
            # Closed so it is reset.
            made.setsockopt(socket.SOL_SOCKET, socket.SO_LINGER, struct.pack("ii", 1, 0))
        told = kept.lines(1)
        return told == wanted.encode() and is_answered(other, 2), (told, wanted)


def held(kept, clients, name):
    """Of clients that all call some are answered, and the others once as many have gone."""
    for number, made in enumerate(clients):
        made.sendall(marked(call(number)))
    # (the first is answered, however late; of the others those are, or are not yet, for which the time is short)
    seconds = [WAIT, *[0.2] * len(clients)]
    got = [read(made, 28, seconds[number]) == marked(replied(number)) for number, made in enumerate(clients)]
    first = [made for made, is_answer in zip(clients, got) if is_answer]
    said = kept.asked(call(7))
    later = [made for made in clients if made not in first]
    for made in first:
        made.close()
    got = [read(made, 28) == marked(replied(clients.index(made))) for made in later[: len(first)]]
    is_well = first and later and all(got) and said == replied(7)
    yield f"{name}: others wait", is_well, (len(first), len(later), got, said)


def full(program):
    """A table that is full, and a process that has no more descriptors."""
    for name, words, room in (("4 connections at most", ["--connections", "4"], 0), ("16 descriptors", [], 16)):
        with Kept(program, *words, room=room) as kept, contextlib.ExitStack() as opened:
            clients = [opened.enter_context(kept.client()) for _ in range(8 if words else 24)]
            yield from held(kept, clients, name)


def short(program):
    """A limit on open files that is below the connections and 32 files beside them has a line on standard error, which
    is there before the first on standard output. At the very limit there is none."""
    for connections in (None, 4, 1000):
        words = [] if connections is None else ["--connections", str(connections)]
        enough = (1024 if connections is None else connections) + BESIDE
        for room in (enough - 1, enough):
            with Kept(program, *words, room=room) as kept:
                is_there = select.select([kept.process.stderr], [], [], 0)[0] != []
                with kept.client() as made:
                    well = is_answered(made, 1)
                said, wanted = kept.end(), warning(connections, room)
            well = well and said == (-signal.SIGTERM, b"", wanted) and is_there == (room < enough)
            yield f"{' '.join(words)} where {room} files may be open", well, (said, wanted, is_there)


def resting(program):
    """A client that says nothing for three seconds takes next to no processor time."""
    with Kept(program) as kept, kept.client() as silent:
        well = is_answered(silent, 1)
        time.sleep(3)
        used = kept.used()
    yield "a silent client takes no processor time", well and used < 0.3, (well, used)


def idle(program):
    """Those that hinder go after the time; who calls stays."""
    yield "who calls stays, the others go", *in_time(lambda: is_left_alone(program))


def is_left_alone(program, seconds=3):
    """Whether who calls all the time is answered for twice the time after which idle connections go, and these go."""
    well, gone = [], []
    with contextlib.suppress(OSError), Kept(program, "--idle", str(seconds)) as kept:
        with kept.client() as caller, hindering(kept) as (silent, slow, half, _):
            began = time.monotonic()
            while time.monotonic() < began + 2 * seconds + 1:
                well.append(is_answered(caller, len(well)))
                time.sleep(0.3)
            gone = [is_closed(made, SOON) for made in (silent, slow, half)]
    return all(well) and gone == [True] * 3, (well, gone)


def bounded(program):
    """The same by a process of its own, since a program begins with the memory of the one that starts it."""
    words = [sys.executable, "-B", os.path.realpath(__file__), program]
    said = subprocess.run(words, capture_output=True, text=True, check=False)
    yield "32 clients that take no replies", said.stdout == "True\n", (said.stdout, said.stderr)


def holds_little(program):
    """Whether clients that take no replies of a list of 1024 rows make it hold little."""
    with Kept(program) as kept, contextlib.ExitStack() as opened:
        with kept.client() as setting:
            setting.sendall(b"".join(marked(call(1, 1, 2, 1000 + it, 1, 6, 9)) for it in range(1018)))
            sets = read(setting, 32 * 1018)
        greedy = [opened.enter_context(kept.client()) for _ in range(32)]
        for made in greedy:
            call_greedily(made)
        with kept.client() as caller:
            began = time.monotonic()
            well = all(is_answered(caller, it) for it in range(100))
            took = time.monotonic() - began
        most = kept.peak()
        # Beside the program and its rows each holds what it reads and writes, and a list of 1024 rows of 20 bytes.
        return sets == marked(replied(1, 1)) * 1018 and well and took < 2 * SOON and most < 16 << 20


def ended(program, *words, **more):
    """The status, standard output and standard error of a registry that is to end by itself."""
    words, how = called(*words, **more)
    with subprocess.Popen([program, *words], **how) as it:
        late = threading.Timer(WAIT, it.kill)
        late.start()
        printed, faults = it.communicate()
        late.cancel()
    return it.returncode, printed, faults


def unheard(program, heap):
    """What could not be had, or failed, and why: by the line, behind which the system's own word stands."""
    with socket.create_server((HOST, 0)) as tcp, over_udp_alone(HOST) as udp:
        (_, first), (_, second) = tcp.getsockname(), udp.getsockname()
        rows = [
            ("a port that is taken", {"port": first}, f"127.0.0.1 {first} over tcp: address in use"),
            ("one that is taken over UDP", {"port": second}, f"127.0.0.1 {second} over udp: address in use"),
            ("no descriptor for TCP", {"room": 4}, "127.0.0.1 0 over tcp: error 24"),
            ("none for UDP", {"room": 5}, r"127.0.0.1 [1-9]\d* over udp: error 24"),
        ]
        if heap:
            rows.append(("no random bytes", {"LD_PRELOAD": heap, "REFUSE_RANDOM": "1"}, "random bytes: [a-z0-9 ]+"))
        for name, more, wanted in rows:
            said = ended(program, **more)
            well = said[:2] == (3, b"") and re.fullmatch(f"socket fault: {wanted}\n", said[2].decode())
            yield name, well, said
    if heap:
        status, printed, faults = ended(program, LD_PRELOAD=heap, REFUSE_WAIT="2")
        well = (status, faults) == (3, b"socket fault: waiting: error 5\n") and FIRST.fullmatch(printed)
        yield "a wait that fails", well, (status, printed, faults)


def growths(program, heap):
    """With each growth refused, alone and with all later ones: it ends before it listens, or answers all but what that
    growth was for. Without all later ones that may be all, and it goes on, and answers a datagram as it can."""
    wrong, listened = [], 0
    for number in range(1, first_growth(program, heap, "--verbose") + BEHIND):
        for refused in (str(number), f"{number}.."):
            with Kept(program, "--verbose", LD_PRELOAD=heap, REFUSE_GROWTH=refused) as kept:
                if not kept.port:
                    said = kept.process.wait(WAIT), kept.process.stderr.read()
                    if said != (4, b"out of memory\n"):
                        wrong.append((refused, said))
                    continue
                listened += 1
                got = [answered(kept) for _ in range(4)]
                said = kept.asked(call(7))
                hit = sum(it != whole(kept.port) for it in got) + (said != replied(7))
                is_one = hit <= 1 or ".." in refused
                if not is_one or said not in (replied(7), no_answer(7)) or kept.process.poll() is not None:
                    wrong.append((refused, got, said))
    is_well = not wrong and listened >= 2 * BEHIND
    yield f"each growth refused, {listened} times behind the first line", is_well, wrong[:3]


def listed(xid, port):
    """What a client gets for a call of DUMP of a registry that has its own rows alone."""
    rows = [word for version in (2, 3, 4) for protocol in (6, 17) for word in (1, 100000, version, protocol, port)]
    return marked(replied(xid, *rows, 0))


def whole(port):
    """What it gets for a call of NULL and that one."""
    return marked(replied(5)) + listed(6, port)


def answered(kept):
    """What a client gets for these two calls; nothing where it is not even taken."""
    with contextlib.suppress(OSError), kept.client() as made:
        made.sendall(marked(call(5)) + marked(call(6, 4)))
        made.shutdown(socket.SHUT_WR)
        return read(made, 1 << 20)
    return b""


def kept_rows(program, heap):
    """The rows, each whether it is as it should be."""
    allow_files()
    some = [at_once, lines, reset, full, short, resting, idle, bounded, lambda it: unheard(it, heap)]
    for rows in [*some, lambda it: growths(it, heap)] if heap else some:
        for name, is_well, told in rows(program):
            yield tell(f"oncrpc serve, {name}", is_well, told)


if __name__ == "__main__":
    print(holds_little(sys.argv[1]))
