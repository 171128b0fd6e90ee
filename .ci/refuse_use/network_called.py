"""Rows of 'oncrpc serve' of who calls, of what is left where a socket cannot be watched, and of connections that cannot
be accepted at first.

At 0.0.0.0 a datagram has called the address by which the system would answer its sender: this is the own end of a
socket that was connected to it. A connection has called its own end. '.ci/sockets.c' stands for both, so these rows
need no network of their own, as those of 'afar.py' do. Expected bytes are those of RFC 5531 section 9 and of RFC 1833
sections 2.1 and 3.2.
"""
import collections
import errno
import os
import socket

from refuse_use.afar import SET, SET_UDP, TOO_WEAK, TRUE, call, success, text
from refuse_use.called import HOST
from refuse_use.kept import call as call_of_null, is_answered, marked, read, replied
from refuse_use.network_running import Clock, Network, Running, port_in
from timing import SOON, WAIT

EVERY, ONE = "0.0.0.0", "10.20.30.255"
AFAR, OWN = "10.9.8.7", "10.20.30.40"
# GETADDR of version 3 for the registry's own program, which has a row over each transport at 0.0.0.0.
GETADDR = call(3, 3, (100000, 3, 0, 0, 0))
# What is bound, from where it is called, the own end of a socket that is connected there, the host that GETADDR tells,
# and what a SET is answered: that of this host is taken, one from afar denied. Someone of this host calls from
# 127.0.0.0/8, or from the address that is called. Last is the call that fails by which the own end is found out.
Called = collections.namedtuple("Called", "bound sender own told set failing", defaults=("",))
CALLED = [
    Called(EVERY, AFAR, OWN, OWN, TOO_WEAK),
    Called(EVERY, OWN, OWN, OWN, TRUE),
    Called(EVERY, "127.0.0.9", OWN, OWN, TRUE),
    Called(EVERY, AFAR, EVERY, EVERY, TOO_WEAK),
    Called(ONE, AFAR, OWN, ONE, TOO_WEAK),
    Called(ONE, OWN, OWN, ONE, TOO_WEAK),
    Called(ONE, ONE, OWN, ONE, TRUE),
]
# Where that is not found out nobody calls from the address that is called, and an address is told as it was set.
CALLS = ("socket", "bind", "connect", "getsockname")
UNKNOWN = [(AFAR, TOO_WEAK), (OWN, TOO_WEAK), ("127.0.0.9", TRUE)]
CALLED += [Called(EVERY, sender, OWN, EVERY, said, failing) for failing in CALLS for sender, said in UNKNOWN]
# At one address it is never looked for.
CALLED += [Called(ONE, ONE, OWN, ONE, TRUE, "connect"), Called(ONE, AFAR, OWN, ONE, TOO_WEAK, "connect")]
# The same over TCP, where the own end is that of the connection: no other socket is made for it.
KNOWN = [(AFAR, TOO_WEAK), (OWN, TRUE), ("127.0.0.9", TRUE)]
OVER_TCP = [Called(EVERY, sender, OWN, OWN, said) for sender, said in KNOWN]
OVER_TCP += [Called(EVERY, sender, OWN, EVERY, said, "getsockname") for sender, said in UNKNOWN]


def running(program, folder, network, row):
    """A registry at the host that a row has, with what stands for its network."""
    line = ["serve", "--port", "0", "--bind", row.bound]
    stands = {"FROM": row.sender, "OWN": row.own, "UNKNOWN": row.failing}
    return Running(program, folder, line, **network.variables, **stands)


def judged(network, row, port, told, connected):
    """Whether GETADDR tells the host that was called, and a SET is answered by who calls; and whether just this was
    connected for it."""
    address = f"{row.told}.{port // 256}.{port % 256}".encode()
    wanted, asked = [success(text(address)), row.set], network.asked("connects")
    return (told, asked) == (wanted, connected), ([it.hex() for it in told], asked, port)


def called_row(program, folder, sockets, row):
    """By datagram, of which each has a socket connected at every address, where there can be one, and none at one."""
    network = Network(sockets, folder)
    with running(program, folder, network, row) as it:
        port = port_in(it.lines(1))
        with socket.socket(type=socket.SOCK_DGRAM) as asking:
            asking.settimeout(WAIT)
            asking.connect((HOST, port))
            told = [exchanged(asking, message) for message in (GETADDR, SET_UDP)]
            sender = f"udp {row.sender} {asking.getsockname()[1]}"
    is_connected = row.bound == EVERY and row.failing not in ("socket", "bind")
    return judged(network, row, port, told, [sender] * 2 if is_connected else [])


def exchanged(asking, message):
    """What a datagram is answered."""
    asking.send(message)
    return asking.recv(65536)


def connected_row(program, folder, sockets, row):
    """Over TCP, for which nothing is connected."""
    network = Network(sockets, folder)
    with running(program, folder, network, row) as it:
        port = port_in(it.lines(1))
        with socket.create_connection((HOST, port), WAIT) as made:
            told = [exchanged_over(made, message) for message in (GETADDR, SET)]
    return judged(network, row, port, told, [])


def exchanged_over(made, message):
    """The reply to a call over a connection, in one fragment."""
    made.sendall(marked(message))
    return read(made, int.from_bytes(read(made, 4), "big") & 0x7FFFFFFF)


def unwatched_row(program, folder, sockets, number):
    """Where a socket cannot be watched that listens it says so and leaves no file at its path; a connection that cannot
    be is closed, and the next is answered."""
    path, network = "run/unwatched", Network(sockets, folder)
    line = ["serve", "--port", "0", "--local", path]
    with Running(program, folder, line, **network.variables, UNWATCHED=str(number)) as it:
        port = port_in(it.lines(1))
        if number <= 3:
            it.process.wait(WAIT)
            left, (rest, faults) = os.path.lexists(f"{folder}/{path}"), it.end()
            told = it.process.returncode, rest, faults, left
            return told == (3, b"", b"socket fault: waiting: no space left\n", False), (port, told)
        with socket.create_connection((HOST, port), WAIT) as first:
            closed = first.recv(1) == b""
        with socket.create_connection((HOST, port), WAIT) as second:
            well = is_answered(second, 1)
    os.remove(f"{folder}/{path}")
    return closed and well, (port, closed, well)


# What accept(2) may say of a connection that waits, and whether it is tried again at once, or a second later, as where
# descriptors are wanting.
UNACCEPTED = [("ECONNABORTED", True), ("EINTR", True), ("EMFILE", False), ("ENOBUFS", False), ("EPROTO", False)]


def later_reply(made, clock):
    """The reply that comes over a connection as seconds go by."""
    for seconds in range(1, SOON):
        clock.set(seconds)
        if said := read(made, 28, 1):
            return said
    return b""


def unaccepted_row(program, folder, sockets, name, is_at_once):
    """A connection that cannot be accepted at first is answered: it ends nothing."""
    network, clock = Network(sockets, folder), Clock(folder)
    variables = {**network.variables, "UNACCEPTED": str(getattr(errno, name)), "CLOCK": clock.file}
    with Running(program, folder, ["serve", "--port", "0"], **variables) as it:
        with socket.create_connection((HOST, port_in(it.lines(1))), WAIT) as made:
            made.sendall(marked(call_of_null(1)))
            said = read(made, 28, SOON) if is_at_once else later_reply(made, clock)
    return said == marked(replied(1)), said


def called_rows():
    """What judges a row, and its name and what it judges."""
    for judge, what, rows in ((called_row, "a datagram", CALLED), (connected_row, "a connection", OVER_TCP)):
        for row in rows:
            end = f"no own end by {row.failing}" if row.failing else f"an own end of {row.own}"
            yield judge, f"serve at {row.bound}, {what} from {row.sender} and {end}", [row]
    for number in (1, 2, 3, 4):
        yield unwatched_row, f"serve --local, the socket of number {number} cannot be watched", [number]
    for name, is_at_once in UNACCEPTED:
        yield unaccepted_row, f"serve, a connection is not accepted at first: {name}", [name, is_at_once]
