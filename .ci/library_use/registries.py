"""The example that serves a registry, asked by clients."""
import socket
import struct
import subprocess
import sys

from timing import WAIT

from .expected import LISTED
from .running import ROOT, compiled, passed, run, tools


def call(procedure, *arguments):
    """A call of version 2 of the registry, with xid 7, and without credentials (RFC 5531 section 9)."""
    return struct.pack(f">{10 + len(arguments)}I", 7, 0, 2, 100000, 2, procedure, 0, 0, 0, 0, *arguments)


def reply(*results):
    return struct.pack(f">{6 + len(results)}I", 7, 1, 0, 0, 0, 0, *results)


def ask_datagrams(port):
    """NULL, bytes that are no call, and the port of the registry itself: two replies."""
    with socket.socket(socket.AF_INET, socket.SOCK_DGRAM) as asking:
        asking.settimeout(WAIT)
        for message in (call(0), b"no call", call(3, 100000, 2, 17, 0)):
            asking.sendto(message, ("127.0.0.1", port))
        return [asking.recv(65536), asking.recv(65536)] == [reply(), reply(port)]


def ask_connection(port, is_new):
    """A row that is set and listed, in fragments that come byte by byte: one reply of 28 bytes, one of 168."""
    own = [[1, 100000, version, prot, port] for version in (2, 3, 4) for prot in (6, 17)]
    listed = [number for row in [*own, [1, 300, 7, 6, 2049], [0]] for number in row]
    wanted = b"".join(struct.pack(">I", 0x80000000 | len(told)) + told for told in (reply(is_new), reply(*listed)))
    got = b""
    with socket.create_connection(("127.0.0.1", port), WAIT) as asking:
        asking.setsockopt(socket.IPPROTO_TCP, socket.TCP_NODELAY, 1)
        for message in (call(1, 300, 7, 6, 2049), call(4)):
            parts = [message[:30], message[30:]]
            for byte in struct.pack(">I", 30) + parts[0] + struct.pack(">I", 0x80000000 | len(parts[1])) + parts[1]:
                asking.send(bytes([byte]))
        while len(got) < len(wanted) and (more := asking.recv(65536)):
            got += more
    return got == wanted


def started(words):
    """A server that has said its port, and that port."""
    server = subprocess.Popen(words, stdin=subprocess.PIPE, stdout=subprocess.PIPE, text=True)
    return server, int(server.stdout.readline().split()[1])


def served(library, room):
    """The example that serves a registry, asked over its own sockets until its standard input ends."""
    said = compiled(library, f"{ROOT}/examples/registry.c", f"{room}/registry")
    for tool in tools("memcheck"):
        name = " ".join([*tool[:2], "registry.c"])
        if said:
            yield passed(name, False, said)
            continue
        server, port = started([*tool, f"{room}/registry", "0"])
        with server:
            answers = [ask_datagrams(port), ask_connection(port, True), ask_connection(port, False)]
            server.stdin.close()
            status = server.wait(WAIT)
        yield passed(name, (answers, status) == ([True, True, True], 0), (answers, status))


def wanting(library, room):
    """The same where its buffer cannot grow: a list of rows that does not go into it is SYSTEM_ERR."""
    with open(f"{room}/no_memory.c", "w", encoding="utf-8") as source:
        source.write("#include <stddef.h>\nvoid *no_memory(void *at, size_t count);\n")
        source.write("void *no_memory(void *at, size_t count) { (void)at, (void)count; return NULL; }\n")
    more = [f"{room}/no_memory.c", "-Drealloc=no_memory"]
    said = compiled(library, f"{ROOT}/examples/registry.c", f"{room}/wanting", *more)
    if said:
        yield passed("registry.c without memory", False, said)
        return
    server, port = started([f"{room}/wanting", "0"])
    with server, socket.socket(socket.AF_INET, socket.SOCK_DGRAM) as asking:
        asking.settimeout(WAIT)
        asking.sendto(call(4), ("127.0.0.1", port))
        told = asking.recv(65536)
        server.stdin.close()
    yield passed("registry.c without memory", told == struct.pack(">6I", 7, 1, 0, 0, 0, 5), told)


# Sends datagrams from an address to a registry, and prints the replies.
ASK_FROM = """import socket, sys
host, *calls = sys.argv[1:]
with socket.socket(socket.AF_INET, socket.SOCK_DGRAM) as asking:
    asking.settimeout(120)
    asking.bind((host, 0))
    for it in calls:
        asking.sendto(bytes.fromhex(it), (host, 1111))
        print(asking.recv(65536).hex())
"""


def asked_from_afar(room):
    """In a network of its own, at every address: rows are set from 127.0.0.1, and neither set nor unset from another
    address, where the reply is AUTH_TOOWEAK."""
    # (it serves while its standard input is held open, and prints its port once it listens)
    inside = """ip link set lo up && ip address add 10.9.8.7/32 dev lo && mkfifo "$1.given" || exit 1
        "$1" 1111 any <"$1.given" >"$1.said" 2>/dev/null &
        exec 9>"$1.given"
        until [ -s "$1.said" ] || ! kill -0 $!; do sleep 0.05; done
        shift
        for host in 10.9.8.7 127.0.0.1 10.9.8.7; do "$0" -c "$1" "$host" "$2" "$3" "$4"; done
        kill $!"""
    calls = [call(2, 300, 7, 6, 0), call(1, 300, 7, 6, 2049), call(3, 300, 7, 6, 0)]
    words = ["unshare", "-n", "sh", "-c", inside, sys.executable, f"{room}/registry", ASK_FROM]
    ran = run([*words, *(it.hex() for it in calls)])
    weak = struct.pack(">5I", 7, 1, 1, 1, 5)
    wanted = [weak, weak, reply(0), reply(0), reply(1), reply(2049), weak, weak, reply(2049)]
    yield passed("registry.c asked from afar", ran.stdout.split() == [it.hex() for it in wanted], ran)


def asked_by_rpcinfo(room):
    """The same at port 111, in a network of its own, asked by rpcinfo."""
    inside = """ip link set lo up && for turn in $(seq 600); do
        sleep 0.2; rpcinfo -p 127.0.0.1 >"$2" 2>&1 && break; done | "$1" 111"""
    listed = f"{room}/listed"
    ran = run(["unshare", "-n", "sh", "-c", inside, "sh", f"{room}/registry", listed])
    with open(listed, encoding="utf-8") as got:
        rows = [line.split() for line in got]
    yield passed("rpcinfo -p of registry.c", (ran.returncode, rows) == (0, LISTED), (ran, rows))
