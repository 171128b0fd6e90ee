"""The example in rpcbind's place: many connections at once, who calls, and real clients in a network of its own."""
import os
import resource
import signal
import socket
import struct
import sys

from timing import WAIT

from .registries import ASK_FROM, ask_connection, ask_datagrams, call, reply, started
from .running import C, ROOT, compiled, passed, run, tools

# SET and GETPORT of program 300 in version 7 over tcp.
SET, GETPORT = call(1, 300, 7, 6, 2049), call(3, 300, 7, 6, 0)
WEAK = struct.pack(">5I", 7, 1, 1, 1, 5)
# How many connections the example takes, and how many records come of a client that does not read.
MOST, UNREAD = 1000, 20000


def record(message):
    return struct.pack(">I", 0x80000000 | len(message)) + message


def read_record(connection):
    """The next reply of a connection, of one fragment; what there is of it where it is cut."""
    got = b""
    while len(got) < 4 or len(got) < 4 + int.from_bytes(got[1:4], "big"):
        if not (more := connection.recv(65536)):
            break
        got += more
    return got[4:]


def ask(family, address, *messages):
    """The replies to records over one connection, one after another."""
    with socket.socket(family) as asking:
        asking.settimeout(WAIT)
        asking.connect(address)
        said = []
        for message in messages:
            asking.sendall(record(message))
            said.append(read_record(asking))
        return said


def owned(path, port):
    """A row that is set over the local socket is the user's of this process, whatever is claimed, and may be set again.
    Nobody of this host may remove it then."""
    claim = struct.pack(">5I", 0, 0, 4711, 0, 0)
    claimed = struct.pack(">8I", 7, 0, 2, 100000, 2, 1, 1, len(claim)) + claim + struct.pack(">6I", 0, 0, 301, 7, 6, 2049)
    dump = struct.pack(">10I", 7, 0, 2, 100000, 3, 4, 0, 0, 0, 0)
    *said, rows = ask(socket.AF_UNIX, path, claimed, claimed, dump)
    user = b"superuser" if os.geteuid() == 0 else str(os.geteuid()).encode()
    last = struct.pack(">I", len(user)) + user + bytes(-len(user) % 4) + bytes(4)
    others = ask(socket.AF_INET, ("127.0.0.1", port), call(2, 301, 7, 6, 0), call(3, 301, 7, 6, 0))
    return said == [reply(1), reply(1)] and rows.endswith(last) and others == [reply(0), reply(2049)]


def hindered(port):
    """A client that says nothing, one that says half a record, and one that reads nothing, which ask on and on."""
    silent, half, unread = (socket.create_connection(("127.0.0.1", port), WAIT) for _ in range(3))
    half.sendall(record(call(4))[:20])
    unread.settimeout(1)
    sent, asked = 0, record(call(4)) * UNREAD
    try:
        while sent < len(asked):
            sent += unread.send(asked[sent:])
    except TimeoutError:
        pass
    unread.settimeout(WAIT)
    return silent, half, unread


def crowded(port):
    """As many connections as are taken: one more has no answer before one of them ends."""
    _, hard = resource.getrlimit(resource.RLIMIT_NOFILE)
    resource.setrlimit(resource.RLIMIT_NOFILE, (min(4096, hard), hard))
    crowd = [socket.create_connection(("127.0.0.1", port), WAIT) for _ in range(MOST)]
    try:
        crowd[-1].sendall(record(call(0)))
        is_served = read_record(crowd[-1]) == reply()
        with socket.create_connection(("127.0.0.1", port), WAIT) as late:
            late.sendall(record(call(0)))
            late.settimeout(0.5)
            try:
                return read_record(late) and False
            except TimeoutError:
                crowd.pop().close()
            late.settimeout(WAIT)
            return is_served and read_record(late) == reply()
    finally:
        for it in crowd:
            it.close()


def bound(library, room):
    """The example asked over its own sockets beside clients that hinder, until a signal ends it."""
    said = compiled(library, f"{ROOT}/examples/rpcbind.c", f"{room}/rpcbind")
    path = f"{room}/socket"
    for tool in tools("memcheck"):
        name = " ".join([*tool[:2], "rpcbind.c"])
        if said:
            yield passed(name, False, said)
            continue
        server, port = started([*tool, f"{room}/rpcbind", "0", path, "::ffff:127.0.0.1"])
        with server:
            hindering = hindered(port)
            answers = [ask_datagrams(port), ask_connection(port, 1), ask_connection(port, 1), owned(path, port)]
            answers += [read_record(hindering[2])[:4] == struct.pack(">I", 7)]
            for it in hindering:
                it.close()
            answers += [] if tool else [crowded(port)]
            server.send_signal(signal.SIGTERM)
            status = server.wait(WAIT)
        is_well = all(answers) and status == 0 and not os.path.exists(path)
        yield passed(name, is_well, (answers, status))


# Sends a record over IPv6 to a registry, and prints the reply with its header.
ASK_OVER_6 = """import socket, sys
with socket.create_connection(("::1", 111), 120) as asking:
    asking.sendall(bytes.fromhex(sys.argv[1]))
    print(asking.recv(65536).hex())
"""


# Sends a datagram from one address of the host to another, from where alone it takes the reply, and prints that.
ASK_AT = """import socket, sys
source, target, call = sys.argv[1:]
with socket.socket(socket.AF_INET, socket.SOCK_DGRAM) as asking:
    asking.settimeout(120)
    asking.bind((source, 0))
    asking.connect((target, 111))
    asking.send(bytes.fromhex(call))
    print(asking.recv(65536).hex())
"""
# GETADDR of version 3 of the registry itself, over the call's own transport (RFC 1833 section 2.2.1).
GETADDR = struct.pack(">15I", 7, 0, 2, 100000, 3, 3, 0, 0, 0, 0, 100000, 4, 0, 0, 0)


def told(address):
    """The reply that tells this address."""
    return reply(len(address)) + address + bytes(-len(address) % 4)


def asked_by_clients(room):
    """At port 111 and rpcbind's socket, in a network and a /run of its own: asked from 127.0.0.1, from another address of
    the host, between both and over IPv6, by rpcinfo, and by services of libtirpc that register there and are found."""
    said = run([*C, "-w", "-I/usr/include/tirpc", f"{ROOT}/.ci/clients.c", "-o", f"{room}/clients", "-ltirpc"]).stderr
    if said or os.geteuid() != 0:
        print("libtirpc-dev, or a root who may take another uid, is not there: clients of rpcbind.c are skipped")
        return
    inside = """ip link set lo up && ip address add 10.9.8.7/32 dev lo && mount -t tmpfs none /run || exit 1
        "$1/rpcbind" 111 /run/rpcbind.sock >/run/said & pid=$!
        until [ -s /run/said ] || ! kill -0 $pid; do sleep 0.05; done
        for host in 10.9.8.7 127.0.0.1 10.9.8.7; do "$0" -c "$2" "$host" "$4" "$5"; done
        "$0" -c "$3" "$6"
        "$0" -c "$7" 127.0.0.1 10.9.8.7 "$8"
        "$0" -c "$7" 10.9.8.7 127.0.0.1 "$8"
        "$1/clients" local 536870912 1 0.0.0.0.8.1 tcp; echo status $?
        setpriv --reuid 1000 --clear-groups "$1/clients" local 536870912 2 0.0.0.0.8.1 udp; echo status $?
        setpriv --reuid 1001 --clear-groups "$1/clients" unset 536870912 2 udp; echo status $?
        "$1/clients" getaddr 536870912 1 tcp
        rpcinfo | tail -2
        rpcinfo -T udp 10.9.8.7 100000 4
        kill $pid; wait $pid; echo status $?"""
    asked_from = ASK_FROM.replace("1111", "111")
    words = ["unshare", "-n", "-m", "--propagation", "private", "sh", "-c", inside, sys.executable, room, asked_from]
    ran = run([*words, ASK_OVER_6, SET.hex(), GETPORT.hex(), record(GETPORT).hex(), ASK_AT, GETADDR.hex()])
    got = [" ".join(line.split()) for line in ran.stdout.splitlines()]
    wanted = [WEAK, reply(0), reply(1), reply(2049), WEAK, reply(2049), record(reply(2049))]
    wanted += [told(b"10.9.8.7.0.111"), told(b"127.0.0.1.0.111")]
    wanted = [it.hex() for it in wanted] + ["status 0", "status 0", "status 1", "127.0.0.1.8.1"]
    wanted += ["536870912 1 tcp 0.0.0.0.8.1 - superuser", "536870912 2 udp 0.0.0.0.8.1 - 1000"]
    wanted += ["program 100000 version 4 ready and waiting", "status 0"]
    yield passed("clients of rpcbind.c", got == wanted, ran)
