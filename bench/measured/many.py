"""'oncrpc serve' without a count: many clients at once, those that say or read nothing, and many one after another."""
import contextlib
import resource
import socket
import struct
import subprocess
import sys
import time

from .common import OURS
from .registries import CUT, FULL, HOST, NULL, NULL_REPLY, PORTS
from .registries import connect_once, ended, fill, resident, rows_of, side_by_side, started

# What one client asks over a connection, as those of a registry with a count.
WORKS = [
    ("setunset", 16, {"ours": 100000, "rpcbind": 40000}),
    ("setunset", 1012, {"ours": 50000, "rpcbind": 20000}),
    ("getaddr", FULL, {"ours": 400000, "rpcbind": 20000}),
]
# A call of DUMP of version 2, as a record.
DUMP = struct.pack(">11I", 0x80000028, 1, 0, 2, 100000, 2, 4, 0, 0, 0, 0)


def kept(*words):
    """A registry of ours that stays."""
    return started([OURS, "serve", "--port", str(PORTS["ours"]), *words], PORTS["ours"])


def nulls(base, name, connections, count):
    """Calls of NULL a second over so many connections at once, 16 unanswered of each, and the slowest in a hundred."""
    words = [f"{base}/registry_many", str(PORTS[name]), str(connections), "16", str(count)]
    ran = subprocess.run(words, stdout=subprocess.PIPE, stderr=subprocess.PIPE, text=True)
    if ran.returncode:
        print(f"serve, {connections} connections to {name}: {ran.stderr.strip()}", flush=True)
        return 0.0, 0.0
    return tuple(map(float, ran.stdout.split()))


def at_once(base):
    """Both registries over 1, 64 and 1024 connections at once, the best of three each."""
    both = {"ours": kept("--connections", "2048"), "rpcbind": started(["rpcbind", "-f", "-i"], PORTS["rpcbind"])}
    for connections in (1, 64, 1024):
        best = {}
        for _ in range(3):
            for name, count in (("ours", 400000), ("rpcbind", 100000)):
                best[name] = max(best.get(name, (0.0, 0.0)), nulls(base, name, connections, count))
        (mine, slow), (other, slow_other) = best["ours"], best["rpcbind"]
        times = f"{mine / other:.1f} times as many" if other else "no figure of rpcbind"
        print(
            f"serve, null over {connections} connections: {mine:,.0f} calls a second beside {other:,.0f}: {times};"
            f" the slowest in a hundred {slow:,.0f} and {slow_other:,.0f} microseconds",
            flush=True,
        )
    side_by_side(base, "serve without a count", WORKS)
    ended(both.values())


def silent(count=10000):
    """What one more client waits for its reply beside so many connections that say nothing, and what they take."""
    resource.setrlimit(resource.RLIMIT_NOFILE, (2 * count, 2 * count))
    process = kept("--connections", str(2 * count), "--idle", "3600")
    before, took = resident(process), []
    held = [socket.create_connection((HOST, PORTS["ours"])) for _ in range(count)]
    with socket.create_connection((HOST, PORTS["ours"])) as client:
        for _ in range(1000):
            began = time.monotonic()
            client.sendall(NULL)
            got = client.recv(len(NULL_REPLY))
            took.append(time.monotonic() - began)
            if got != NULL_REPLY:
                sys.exit("another reply")
    print(
        f"serve, beside {count:,} connections that say nothing: a call is answered within"
        f" {sorted(took)[500] * 1e6:,.0f} microseconds, at most {max(took) * 1e3:.1f} ms;"
        f" they take {resident(process) - before:,} KiB",
        flush=True,
    )
    for it in held:
        it.close()
    ended([process])


def greedy(base):
    """What others get beside a client that reads nothing and asks for a list of 1024 rows for ever, and what it takes."""
    process = kept()
    fill(base, "ours", rows_of("ours"), FULL, 0)
    alone = max(nulls(base, "ours", 64, 400000)[0] for _ in range(3))
    before = resident(process)
    with socket.create_connection((HOST, PORTS["ours"])) as client:
        client.setblocking(False)
        beside = 0.0
        for _ in range(3):
            with contextlib.suppress(BlockingIOError):
                while True:
                    client.send(DUMP * 100)
            beside = max(beside, nulls(base, "ours", 64, 400000)[0])
        print(
            f"serve, beside a client that reads nothing: {beside / alone:.2f} times the calls a second of others"
            f" without it; it takes {resident(process) - before:,} KiB",
            flush=True,
        )
    ended([process])


def one_after_another(count=100000):
    """Connections one after another, each third of them cut or hostile: replies, and the resident size."""
    process, wrong, sizes = kept(), 0, {}
    for number in range(1, count + 1):
        given = NULL if number % 3 else CUT[number // 3 % len(CUT)][0]
        # Ports of ended connections stay taken for a minute, so the address that asks is another one each time.
        got = connect_once(PORTS["ours"], given, f"127.0.0.{2 + number % 250}")
        wrong += got != (NULL_REPLY if number % 3 else b"")
        if number in (100, count):
            sizes[number] = resident(process)
    print(
        f"serve without a count, {count:,} connections, a third of them cut or hostile: {wrong} with another reply;"
        f" resident after 100 {sizes[100]} KiB, at the end {sizes[count]} KiB",
        flush=True,
    )
    ended([process])


def many(base):
    """All of it, in a network of its own."""
    at_once(base)
    silent()
    greedy(base)
    one_after_another()
