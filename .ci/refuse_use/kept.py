"""A registry that 'oncrpc serve' keeps, and its clients over loopback, of whom some hinder others.

Bytes are those of RFC 5531 sections 9 and 11.
"""
import contextlib
import fcntl
import os
import re
import resource
import signal
import socket
import struct
import subprocess
import termios
import threading
import time

from timing import WAIT

HOST = "127.0.0.1"
# How many growths are refused behind the line that says where it listens.
BEHIND = 30
FIRST = re.compile(rb"listening on 127\.0\.0\.1 (\d+)\n")


def call(xid, procedure=0, version=2, *words):
    """A call of the registry without a credential, as a datagram has it."""
    return struct.pack(f">{10 + len(words)}I", xid, 0, 2, 100000, version, procedure, 0, 0, 0, 0, *words)


def marked(message):
    """A record of one fragment."""
    return struct.pack(">I", 0x80000000 | len(message)) + message


def replied(xid, *words):
    """The reply to it that is a success with these results."""
    return struct.pack(f">{6 + len(words)}I", xid, 1, 0, 0, 0, 0, *words)


def no_answer(xid):
    """The reply that is SYSTEM_ERR."""
    return struct.pack(">6I", xid, 1, 0, 0, 0, 5)


def called(*words, port=0, room=0, **variables):
    """The program's words, its environment, and what is done before it begins: a signal may be ignored here."""

    def begin():
        signal.signal(signal.SIGINT, signal.SIG_DFL)
        if room:
            resource.setrlimit(resource.RLIMIT_NOFILE, (room, room))

    how = {"env": {**os.environ, **variables}, "stdout": subprocess.PIPE, "stderr": subprocess.PIPE}
    return ["serve", "--port", str(port), *words], {**how, "preexec_fn": begin}


class Kept:
    """A registry that is served until this ends it, and its port; 0 where it does not listen."""

    def __init__(self, program, *words, **more):
        words, how = called(*words, **more)
        self.process = subprocess.Popen([program, *words], **how)
        said = FIRST.fullmatch(self.process.stdout.readline())
        self.port = int(said[1]) if said else 0

    def __enter__(self):
        return self

    def __exit__(self, *_):
        if self.process.poll() is None:
            self.end(signal.SIGKILL)

    def end(self, by=signal.SIGTERM):
        """Ends it by a signal: the status, what is left of standard output, and standard error."""
        self.process.send_signal(by)
        printed, faults = self.process.communicate(timeout=WAIT)
        return self.process.returncode, printed, faults

    def lines(self, count):
        """So many lines of standard error, or those before it has ended; it is ended where they do not come."""
        late = threading.Timer(WAIT, self.process.kill)
        late.start()
        told = b"".join(self.process.stderr.readline() for _ in range(count))
        late.cancel()
        return told

    def peak(self):
        """Ends it, and tells the most bytes that it had in memory, or that this process had when it began."""
        self.process.terminate()
        _, status, used = os.wait4(self.process.pid, 0)
        self.process.returncode = os.waitstatus_to_exitcode(status)
        return used.ru_maxrss * 1024

    def used(self):
        """Ends it, and tells the seconds of processor time that it took."""
        self.process.terminate()
        _, status, used = os.wait4(self.process.pid, 0)
        self.process.returncode = os.waitstatus_to_exitcode(status)
        return used.ru_utime + used.ru_stime

    def client(self):
        return socket.create_connection((HOST, self.port), WAIT)

    def asked(self, message, seconds=WAIT):
        """What a datagram is answered; nothing where the time is up."""
        with contextlib.suppress(OSError), socket.socket(type=socket.SOCK_DGRAM) as asking:
            asking.settimeout(seconds)
            asking.connect((HOST, self.port))
            asking.send(message)
            return asking.recv(65536)
        return b""


def read(made, count, seconds=WAIT):
    """So many bytes that come over a connection, or those before it ends or the time is up."""
    got, until = b"", time.monotonic() + seconds
    with contextlib.suppress(OSError):
        while len(got) < count and (left := until - time.monotonic()) > 0:
            made.settimeout(left)
            more = made.recv(count - len(got))
            if not more:
                break
            got += more
    return got


def is_answered(made, xid, seconds=WAIT):
    """Whether a call of NULL over a connection gets its reply."""
    with contextlib.suppress(OSError):
        made.sendall(marked(call(xid)))
        return read(made, 28, seconds) == marked(replied(xid))
    return False


def is_closed(made, seconds=WAIT):
    """Whether a connection ends within this time, and nothing comes over it before."""
    made.settimeout(seconds)
    try:
        return made.recv(1) == b""
    except ConnectionResetError:
        return True
    except OSError:
        return False


def trickle(made, stop):
    """Sends a call a byte at a time, for as long as the peer takes it."""
    with contextlib.suppress(OSError):
        while not stop.is_set():
            for byte in marked(call(1)) * 1000:
                made.send(bytes([byte]))
                if stop.wait(0.2):
                    return


def call_unread(made):
    """Makes a call, and leaves the reply unread."""
    made.sendall(marked(call(1)))
    made.recv(1, socket.MSG_PEEK)


def call_greedily(made):
    """Asks for the list of rows until no more is taken, and reads none."""
    made.setblocking(False)
    with contextlib.suppress(BlockingIOError):
        while True:
            made.send(marked(call(2, 4)) * 100)


@contextlib.contextmanager
def hindering(kept):
    """A client that says nothing, one that trickles, one that stops inside a record, and one that takes no replies."""
    stop = threading.Event()
    silent, slow, half, greedy = (kept.client() for _ in range(4))
    trickler = threading.Thread(target=trickle, args=(slow, stop))
    trickler.start()
    half.sendall(b"\x80\x01\x00\x00" + bytes(60000))
    call_greedily(greedy)
    try:
        yield silent, slow, half, greedy
    finally:
        stop.set()
        trickler.join()
        for made in (silent, slow, half, greedy):
            made.close()


def wait_for_quiet(made):
    """Waits until for a second nothing has come over a connection, and none of what was sent was taken."""
    before, until, end = None, 0, time.monotonic() + WAIT
    while time.monotonic() < min(until, end) or before is None:
        waiting = [fcntl.ioctl(made, it, bytes(4)) for it in (termios.FIONREAD, termios.TIOCOUTQ)]
        before, until = waiting, until if waiting == before else time.monotonic() + 1
        time.sleep(0.05)


def first_growth(program, heap, *words):
    """The first growth behind the line that says where it listens: where that one and all later are refused it
    listens."""
    before, first = 0, 4096
    while first - before > 1:
        number = (before + first) // 2
        with Kept(program, *words, LD_PRELOAD=heap, REFUSE_GROWTH=f"{number}..") as kept:
            before, first = (before, number) if kept.port else (number, first)
    return first
