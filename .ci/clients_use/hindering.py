"""Connections to a registry at port 111, and those that hinder it while others call."""
import contextlib
import socket
import sys
import threading
import time

from clients_use.asking import HOST


def connected(local=None):
    """A connection over TCP, or to a local socket, once a registry listens there."""
    for _ in range(3000):
        with contextlib.suppress(OSError):
            if not local:
                return socket.create_connection((HOST, 111))
            made = socket.socket(socket.AF_UNIX)
            made.connect(local)
            return made
        time.sleep(0.1)
    sys.exit("no registry listens")


class Hinderers:
    """Over TCP, and over a local socket if there is one: a client that says nothing, and one that sends a byte a second
    of a call that is never whole."""

    def __init__(self, local=None):
        self.ways = {None, local}

    def __enter__(self):
        self.silent, self.slow = ([connected(it) for it in self.ways] for _ in range(2))
        self.stop = threading.Event()
        self.trickler = threading.Thread(target=self.trickle)
        self.trickler.start()
        return self

    def trickle(self):
        for byte in b"\x80\x00\x10\x00" + bytes(4096):
            if self.stop.wait(1):
                return
            for it in self.slow:
                it.send(bytes([byte]))

    def __exit__(self, *_):
        self.stop.set()
        self.trickler.join()
        for it in self.silent + self.slow:
            it.close()
