"""Rows of the words of 'oncrpc info', 'call', 'ping' and 'serve': what they ask of the network and of the clock, for
which '.ci/sockets.c' stands, so that each port, each host and each time can be asked for."""
import contextlib
import itertools
import os
import re
import shutil
import socket
import struct
import subprocess
import tempfile
import time

from refuse_use.answering import Server
from refuse_use.called import HOST, marked, opaque, run, success, words
from refuse_use.kept import call, is_answered, is_closed, read, replied
from refuse_use.network_asked import CALLS, COUNTED, ENDLESS, ENDLESS_LINE, FILES, INFOS, KEPT, PINGS, long_calls
from refuse_use.network_called import called_rows
from refuse_use.network_files import allow_files, warning
from refuse_use.network_info import info_rows
from refuse_use.network_running import Clock, Network, Running, port_in
from refuse_use.turns import LONG_ROWS, listed, set_all
from telling import tell
from timing import WAIT, wait_until

ROOT = os.path.dirname(os.path.dirname(os.path.dirname(os.path.realpath(__file__))))
# Another host, from which clients of a registry come, and what it answers them that set a row: that it is denied
# (RFC 5531 section 9, AUTH_TOOWEAK), or done.
AFAR = "10.9.8.7"
ROW = (0x20000000, 1, 6, 2049)
TOO_WEAK, DONE = struct.pack(">5I", 7, 1, 1, 1, 5), replied(7, 1)
# The registry's call for an address in version 4, and the address that it tells, of port 2049.
GETADDR, AT_2049 = words(100000, 4, 3), opaque(b"127.0.0.1.8.1")
# The seconds after which a client is idle that takes a long reply, and how many bytes of it are taken at first: more
# than the system keeps of a connection whose ends have little room.
IDLE, FIRST = 5, 8000
# The clients at once of a registry that may have more, and the seconds in which one has not answered that is to wait.
MANY, WAITED = 1100, 0.2


@contextlib.contextmanager
def placed(program):
    """A folder with the files of the rows, and the program as it is installed beside it."""
    with tempfile.TemporaryDirectory() as folder:
        os.makedirs(f"{folder}/placed/bin")
        shutil.copy(program, f"{folder}/placed/bin/oncrpc")
        shutil.copytree(f"{ROOT}/share/oncrpc", f"{folder}/placed/share/oncrpc")
        for name, text in FILES.items():
            with open(f"{folder}/{name}", "wb") as it:
                it.write(text)
        os.mkdir(f"{folder}/run")
        yield f"{folder}/placed/bin/oncrpc", folder


def answering(results):
    """Answers a registry's call for an address, and each other call by these results."""

    def answer(server, message, datagram):
        told = success(AT_2049 if message[12:24] == GETADDR else results, xid=int.from_bytes(message[:4], "big"))
        return [told if datagram else marked(told)]

    return answer


def is_sent(row, calls):
    """Whether the program got the call, with the xid where one is asked for, behind the question of the registry."""
    if row.sent is None:
        return all(message[12:24] == GETADDR for message in calls)
    *asked, last = calls or [b""]
    xid = row.xid is None or last[:4] == words(row.xid)
    # (a ping calls more than once)
    return xid and last[4:] == row.sent and all(it[4:] == row.sent or it[12:24] == GETADDR for it in asked)


def asked_row(program, folder, sockets, row):
    """A run with a reply: what it looks up and connects to, how long it would wait, what it sends and prints."""
    network = Network(sockets, folder)
    with Server(answering(row.results)) as server:
        got, _ = run(program, folder, row.line, row.given, **network.variables, AT=str(server.port))
        calls = list(server.calls)
    looked, connected, waits = (network.asked(what) for what in ("looks up", "connects", "waits"))
    well = got == (row.status, row.output, row.faults) and connected == row.connected
    well = well and looked == ([] if row.looked is None else [row.looked]) and is_sent(row, calls)
    if connected and "--udp" not in row.line:
        well = well and set(waits) == {str(0 if row.seconds is None else 1000 * row.seconds + 1)}
    return well, ((got[0], got[1][:200], got[2]), looked, connected, waits[:2], [it[:80].hex() for it in calls])


def unanswered_row(program, folder, sockets, row):
    """The same where nothing comes: it says for how many seconds it waited."""
    network = Network(sockets, folder)
    with Server(answering(b"")) as server:
        got, _ = run(program, folder, row.line, row.given, **network.variables, AT=str(server.port), SILENT="1")
    return got == (3, b"", b"no answer within %d seconds\n" % row.seconds), got


def endless_row(program, folder, sockets):
    """A ping that goes on prints its line again and again."""
    network = Network(sockets, folder)
    with Server(answering(b"")) as server:
        with Running(program, folder, ENDLESS, **network.variables, AT=str(server.port)) as it:
            told = it.lines(5)
            return told == ENDLESS_LINE * 5 and it.process.poll() is None, told


def told_by_datagram(port):
    """What a registry answers to a datagram."""
    with socket.socket(type=socket.SOCK_DGRAM) as asking:
        asking.settimeout(WAIT)
        asking.connect((HOST, port))
        asking.send(call(7))
        return asking.recv(65536)


def counted_row(program, folder, sockets, row):
    """A registry serves so many connections and then so many datagrams, each with its line, and ends or goes on."""
    line, asked, clients, datagrams, ends = row
    network = Network(sockets, folder)
    with Running(program, folder, line, **network.variables) as it:
        port, well = port_in(it.lines(1)), []
        for _ in range(clients):
            with socket.create_connection((HOST, port), WAIT) as made:
                well.append(is_answered(made, 7))
        printed = it.lines(clients)
        well += [told_by_datagram(port) == replied(7) for _ in range(datagrams)]
        printed += it.lines(datagrams)
        ended = it.process.wait(WAIT) if ends else it.process.poll()
    wanted = b"".join(b"connection %d: 1 records, 1 replies\n" % (number + 1) for number in range(clients))
    wanted += b"".join(b"datagram %d: reply\n" % (number + 1) for number in range(datagrams))
    bound = network.asked("binds")
    is_bound = bound == [f"tcp 127.0.0.1 {asked}", f"udp 127.0.0.1 {port}"]
    is_well = all(well) and printed == wanted and is_bound and ended == (0 if ends else None)
    return is_well, (well, printed, bound, ended)


def opened(port, clients, opening):
    """So many clients of a registry, each of which is answered; those that are open at the end."""
    made = []
    for number in range(clients):
        made.append(opening.enter_context(socket.create_connection((HOST, port), WAIT)))
        if not is_answered(made[-1], number):
            return made[:-1]
    return made


def is_bounded(port, clients, most, opening):
    """Whether one more than the most waits until another goes, where all of them are there; the one that is left."""
    more = opening.enter_context(socket.create_connection((HOST, port), WAIT))
    more.sendall(marked(call(9)))
    waits = len(clients) < most or read(more, 28, WAITED) == b""
    for made in clients if len(clients) == most else ():
        made.close()
    return waits and read(more, 28) == marked(replied(9)), more


def is_idle_after(made, clock, seconds):
    """Whether a client goes that calls nothing for more than so many seconds, and no sooner."""
    clock.set(seconds)
    stays = not is_closed(made, WAITED)
    clock.set(seconds + 1)
    return stays and is_closed(made)


def is_local(folder, row, it):
    """Whether the second line has the path of a Unix socket, at which a call is answered; or there is no such line."""
    if row.local is None:
        return True
    if it.lines(1) != f"listening on {row.local}\n".encode():
        return False
    with socket.socket(socket.AF_UNIX) as made:
        made.connect(f"{folder}/{row.local}")
        return is_answered(made, 3)


def taken_at(made, clock, seconds, count):
    """So many bytes that a client takes at a time of the clock, which has been seen by then."""
    clock.set(seconds)
    time.sleep(WAITED)
    return read(made, count)


def taking_row(program, folder, sockets):
    """A client that takes bytes of a reply is not idle, though it sends nothing; it is once it has taken none for so
    many seconds."""
    network, clock = Network(sockets, folder), Clock(folder)
    line = ["serve", "--port", "0", "--idle", str(IDLE)]
    with Running(program, folder, line, **network.variables, CLOCK=clock.file, ROOM="1") as it, socket.socket() as made:
        port = port_in(it.lines(1))
        with socket.create_connection((HOST, port), WAIT) as other:
            well = set_all(other, LONG_ROWS)
        made.settimeout(WAIT)
        made.setsockopt(socket.SOL_SOCKET, socket.SO_RCVBUF, 1)
        made.connect((HOST, port))
        made.sendall(marked(call(2, 4)))
        made.recv(1, socket.MSG_PEEK)
        wanted = marked(listed(2, port, LONG_ROWS))
        got = taken_at(made, clock, IDLE, FIRST)
        got += taken_at(made, clock, 2 * IDLE, len(wanted) - FIRST)
        idle = is_idle_after(made, clock, 3 * IDLE)
    return well and got == wanted and idle, (well, len(got), got == wanted, idle)


# The last line of a registry that says what became of connections, once the last of these was idle too long.
LAST_IDLE = re.compile(rb"^connection \d+ from 10\.9\.8\.7:\d+: Idle\n\Z", re.M)


def kept_row(program, folder, sockets, row):
    """A registry that is kept: where it listens, how many it serves at once, whom it lets set a row, who is idle."""
    network, clock = Network(sockets, folder), Clock(folder)
    variables = {**network.variables, "FROM": AFAR, "CLOCK": clock.file}
    with Running(program, folder, row.line, **variables) as it, contextlib.ExitStack() as opening:
        first = it.lines(1)
        port = port_in(first)
        local = is_local(folder, row, it)
        bound = network.asked("binds")
        clients = opened(port, min(row.connections or 1, MANY), opening)
        bounds, last = is_bounded(port, clients, row.connections or MANY, opening)
        last.sendall(marked(call(7, 1, 2, *ROW)))
        wanted = marked(DONE if row.insecure else TOO_WEAK)
        sets = read(last, len(wanted)) == wanted
        idle = is_idle_after(last, clock, row.idle)
        # (the line of a connection comes behind its end)
        verbose = row.verbose and wait_until(lambda: LAST_IDLE.search(it.said()))
        rest, told = it.end()
    verbose = verbose if row.verbose else told == warning(row.connections)
    is_bound = bound == [f"tcp {row.address} {row.port}", f"udp {row.address} {port}"]
    well = first == f"listening on {row.address} {port}\n".encode() and rest == b"" and is_bound and local and bounds
    told = first, bound, local, len(clients), bounds, sets, idle, told[-200:], rest
    return well and sets and idle and verbose and len(clients) == min(row.connections or 1, MANY), told


def rows():
    """What judges a row, and its name and what it judges."""
    for row in itertools.chain(INFOS, CALLS, PINGS, long_calls()):
        yield asked_row, " ".join(row.line), [row]
        # (over UDP each second is a wait of its own, also where the clock goes by them)
        short = row.seconds is not None and (row.seconds < 1000 or "--udp" not in row.line)
        if short and len(row.given) < 100:
            yield unanswered_row, f"{' '.join(row.line)}, unanswered", [row]
    yield endless_row, " ".join(ENDLESS), []
    for row in COUNTED:
        yield counted_row, " ".join(row[0]), [row]
    for row in KEPT:
        yield kept_row, " ".join(row.line), [row]
    yield taking_row, "serve --idle, a client that takes a long reply slowly", []
    yield from called_rows()


def network_rows(program, sockets):
    """The rows, each whether it is as it should be; none where nothing stands for the network."""
    allow_files()
    with placed(program) as (there, folder):
        for judge, name, judged in rows() if sockets else ():
            try:
                is_well, told = judge(there, folder, sockets, *judged)
            except (OSError, subprocess.SubprocessError) as fault:
                is_well, told = False, repr(fault)
            yield tell(f"oncrpc {name}", is_well, told)
        for name, is_well, told in info_rows(there, folder):
            yield tell(f"oncrpc {name}", is_well, told)
