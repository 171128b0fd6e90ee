"""The example in rpcbind's place, further: datagrams over IPv6, and connections that say nothing for too long."""
import os
import signal
import socket
import struct
import sys
import time

from timing import WAIT, in_time

from .binding import GETPORT, SET, WEAK, hindered, read_record, record
from .registries import call, reply, started
from .running import ROOT, compiled, passed, run

# The line of the example that says after how many seconds of silence a connection ends, and one with a second.
IDLE, SHORT = "IDLE = 60,", "IDLE = 1,"
# The seconds over which one connection asks on, and the time between two of its calls.
ASKED_FOR, BETWEEN = 5, 0.2


def is_ended(connection):
    """Whether the other end is gone, with no byte before it."""
    try:
        return connection.recv(1) == b""
    except ConnectionResetError:
        return True
    except TimeoutError:
        return False


def asked_on(port):
    """A connection that asks on and on is answered each time, beside three that were silent, said half a record, or
    read nothing. The first two are gone then, and one that comes later is served."""
    silent, half, unread = hindered(port)
    with socket.create_connection(("127.0.0.1", port), WAIT) as asking, silent, half, unread:
        until, answers = time.monotonic() + ASKED_FOR, []
        while time.monotonic() < until:
            asking.sendall(record(call(0)))
            answers.append(read_record(asking) == reply())
            time.sleep(BETWEEN)
        ended = [is_ended(silent), is_ended(half)]
    return all(answers) and all(ended), answers, ended


def ends_idle(library, room):
    """The example with one second of silence in place of its sixty."""
    with open(f"{ROOT}/examples/rpcbind.c", encoding="utf-8") as it:
        text = it.read()
    with open(f"{room}/short.c", "w", encoding="utf-8") as out:
        out.write(text.replace(IDLE, SHORT))
    said = compiled(library, f"{room}/short.c", f"{room}/short") or ("" if IDLE in text else f"no {IDLE}")
    if said:
        yield passed("rpcbind.c and silence", False, said)
        return
    server, port = started([f"{room}/short", "0", f"{room}/short.socket", "::ffff:127.0.0.1"])
    with server:
        is_well, *found = in_time(lambda: asked_on(port))
        server.send_signal(signal.SIGTERM)
        status = server.wait(WAIT)
    yield passed("rpcbind.c and silence", is_well and status == 0, (found, status))


# Sends datagrams from one address of IPv6 to another, from where alone it takes the replies, and prints these.
ASK_BY_6 = """import socket, sys
source, target, *calls = sys.argv[1:]
with socket.socket(socket.AF_INET6, socket.SOCK_DGRAM) as asking:
    asking.settimeout(120)
    asking.bind((source, 0))
    asking.connect((target, 111))
    for it in calls:
        asking.send(bytes.fromhex(it))
        print(asking.recv(65536).hex())
"""


def asked_over_6(room):
    """At port 111 of a network and a /run of its own: whoever asks from ::1 may set a row, from fd00::9 may look it up
    alone, and each reply comes from the address that was called."""
    if os.geteuid() != 0:
        print("no root: datagrams over IPv6 of rpcbind.c are skipped")
        return
    inside = """ip link set lo up && ip address add fd00::9/128 dev lo nodad && mount -t tmpfs none /run || exit 1
        "$1/rpcbind" 111 /run/rpcbind.sock >/run/said & pid=$!
        until [ -s /run/said ] || ! kill -0 $pid; do sleep 0.05; done
        "$0" -c "$2" fd00::9 ::1 "$3" "$4"
        "$0" -c "$2" ::1 ::1 "$3" "$4"
        "$0" -c "$2" fd00::9 fd00::9 "$3" "$4"
        "$0" -c "$2" ::1 fd00::9 "$4"
        kill $pid; wait $pid; echo status $?"""
    words = ["unshare", "-n", "-m", "--propagation", "private", "sh", "-c", inside, sys.executable, room, ASK_BY_6]
    ran = run([*words, SET.hex(), GETPORT.hex()])
    wanted = [WEAK, reply(0), reply(1), reply(2049), WEAK, reply(2049), reply(2049)]
    wanted = [*(it.hex() for it in wanted), "status 0"]
    yield passed("datagrams over IPv6 of rpcbind.c", ran.stdout.splitlines() == wanted, ran)
