"""Registries that are asked side by side, and clients of them."""
import socket
import struct
import subprocess
import sys
import time

from .common import OURS

HOST = "127.0.0.1"
# The ports of the two registries that are measured side by side.
PORTS = {"ours": 1111, "rpcbind": 111}
# The most rows that either is filled to, and how many calls a connection has unanswered.
FULL, WINDOW = 1024, 256
# How many rows of the load's both hold then: the others are their own.
HELD = FULL - 16
NULL = struct.pack(">11I", 0x80000028, 1, 0, 2, 100000, 2, 0, 0, 0, 0, 0)
NULL_REPLY = struct.pack(">7I", 0x80000018, 1, 1, 0, 0, 0, 0)
# What hostile clients send, and the line that their connection has: the input of each but the last is no whole record.
CUT = [
    (b"\x7f\xff\xff\xff" + bytes(100), "TooLong at 0"),
    (b"\xff\xff\xff\xff" + bytes(100), "TooLong at 0"),
    (b"\x80\x01\x00\x01" + bytes(65537), "TooLong at 0"),
    (b"GET / HTTP/1.1\r\nHost: localhost\r\n\r\n", "TooLong at 0"),
    (NULL[:23], "Truncated at 23"),
    (NULL[:2], "Truncated at 2"),
    (b"\x00\x01\x00\x00" + bytes(65536) + b"\x00\x00\x00\x01", "TooLong at 65540"),
    (struct.pack(">I", 0x80000400) + bytes(range(256)) * 4, "1 records, 0 replies"),
]


def started(words, port):
    """A registry at a port, once it can be connected to. Its lines, one for each datagram, go nowhere."""
    process = subprocess.Popen(words, stdout=subprocess.DEVNULL)
    for _ in range(200):
        with socket.socket() as tried:
            if tried.connect_ex((HOST, port)) == 0:
                return process
        time.sleep(0.05)
    sys.exit(f"{words}: nothing listens at {port}")


def ended(processes):
    """Ends registries that are no longer asked."""
    for process in processes:
        process.kill()
        process.wait()


def load(base, name, work, count, rows=1, window=WINDOW):
    """The calls a second of so many calls of one of the two over one connection, or by datagrams."""
    words = [f"{base}/registry_load", str(PORTS[name]), work, str(count), str(window), str(rows)]
    return float(subprocess.run(words, check=True, stdout=subprocess.PIPE).stdout)


def rows_of(name):
    """How many rows one of the two has."""
    words = [OURS, "info", HOST, str(PORTS[name])]
    return len(subprocess.run(words, check=True, stdout=subprocess.PIPE).stdout.splitlines()) - 1


def fill(base, name, own, to, old):
    """Sets rows of programs of the load's, until the registry has so many in all."""
    if to > max(old, own):
        load(base, name, "fill", to - max(old, own), max(old - own, 0))


def side_by_side(base, how, works):
    """Calls a second of both registries over one connection, run in turn, the best of three each."""
    rows, old = {name: rows_of(name) for name in PORTS}, 0
    for work, to, counts in works:
        for name in PORTS:
            fill(base, name, rows[name], to, old)
        old = to
        best = {name: 0.0 for name in PORTS}
        for _ in range(3):
            for name in PORTS:
                best[name] = max(best[name], load(base, name, work, counts[name], to - rows[name]))
        print(
            f"{how}, {work}, {to} rows: {best['ours']:,.0f} calls a second beside {best['rpcbind']:,.0f}:"
            f" {best['ours'] / best['rpcbind']:.1f} times as many",
            flush=True,
        )


def connect_once(port, given, address=HOST):
    """What a client at an address gets that sends this and shuts down; a hostile one may be cut off."""
    got = b""
    with socket.create_connection((HOST, port), source_address=(address, 0)) as client:
        try:
            client.sendall(given)
            client.shutdown(socket.SHUT_WR)
            while piece := client.recv(4096):
                got += piece
        except OSError:
            pass
    return got


def resident(process):
    """The resident size of a process in KiB."""
    return int(subprocess.run(["ps", "-o", "rss=", "-p", str(process.pid)], check=True, stdout=subprocess.PIPE).stdout)
