"""A server at a free port of 127.0.0.1, over TCP and UDP at once, and what it does with a call: it answers, or it
hinders."""
import contextlib
import select
import socket
import struct
import threading
import time

from refuse_use.called import HOST, XID, marked, success, words
from timing import WAIT, wait_until

# Another address of this host.
OTHER = "127.0.0.2"


class Server:
    """Answers calls over TCP and UDP; `answer` gives what comes back for a call, a list of datagrams or of pieces."""

    def __init__(self, answer, port=0, host=HOST):
        self.answer, self.calls, self.moments, self.open = answer, [], [], True
        self.host, self.last, self.serving = host, None, []
        self.family = socket.AF_INET6 if ":" in host else socket.AF_INET
        self.stream, self.datagrams = both(self.family, host, port)
        self.port = self.stream.getsockname()[1]
        self.threads = [threading.Thread(target=it, daemon=True) for it in (self.accept, self.receive)]
        for it in self.threads:
            it.start()

    def __enter__(self):
        return self

    def __exit__(self, *_):
        self.open = False
        # (a connection and an empty datagram end the waits for them, behind all that came before and was not read yet;
        # where more has come than is kept, a datagram can be lost)
        with contextlib.suppress(OSError), socket.socket(self.family) as waking:
            waking.bind((self.host, 0))
            self.last = waking.getsockname()
            waking.connect(self.stream.getsockname())
        wait_until(self.is_awake)
        for thread in (*self.threads, *self.serving):
            thread.join(WAIT)
        self.stream.close()
        self.datagrams.close()

    def is_awake(self):
        """Ends the wait for datagrams, and says whether it has ended."""
        with contextlib.suppress(OSError), socket.socket(self.family, socket.SOCK_DGRAM) as waking:
            waking.sendto(b"", self.datagrams.getsockname())
        self.threads[1].join(0.01)
        return not self.threads[1].is_alive()

    def accept(self):
        with contextlib.suppress(OSError):
            while True:
                made, peer = self.stream.accept()
                if peer == self.last:
                    made.close()
                    return
                self.serving.append(threading.Thread(target=self.serve, args=(made,), daemon=True))
                self.serving[-1].start()

    def serve(self, made):
        with contextlib.suppress(OSError), made:
            made.settimeout(WAIT)
            # (a piece is sent by itself, whatever the client has taken of those before)
            made.setsockopt(socket.IPPROTO_TCP, socket.TCP_NODELAY, 1)
            message = self.record(made)
            if message is None:
                return
            self.calls.append(message)
            for piece in self.answer(self, message, False):
                made.sendall(piece)

    @staticmethod
    def record(made):
        """A record of any fragments."""
        whole = b""
        while True:
            head = read(made, 4)
            if len(head) < 4:
                return None
            (mark,) = struct.unpack(">I", head)
            whole += read(made, mark & 0x7FFFFFFF)
            if mark >> 31:
                return whole

    def receive(self):
        with contextlib.suppress(OSError):
            while True:
                message, peer = self.datagrams.recvfrom(65536)
                if not message and not self.open:
                    return
                self.calls.append(message)
                self.moments.append(time.monotonic())
                threading.Thread(target=self.reply, args=(message, peer), daemon=True).start()

    def reply(self, message, peer):
        with contextlib.suppress(OSError):
            for datagram in self.answer(self, message, True):
                self.datagrams.sendto(datagram, peer)


def both(family, host, port):
    """A listener and a socket for datagrams at one port. Where another process has the second, another is taken."""
    while True:
        stream, datagrams = socket.create_server((host, port), family=family), socket.socket(family, socket.SOCK_DGRAM)
        try:
            datagrams.bind((host, stream.getsockname()[1]))
            return stream, datagrams
        except OSError:
            stream.close()
            datagrams.close()
            if port:
                raise


def read(made, count):
    got = b""
    while len(got) < count:
        more = made.recv(count - len(got))
        if not more:
            break
        got += more
    return got


def replying(reply):
    """Gives one reply to each call, as a record over TCP."""
    return lambda server, message, datagram: [reply if datagram else marked(reply)]


def endless(server, message, datagram):
    """A record of empty fragments without end, or nothing."""
    while server.open and not datagram:
        yield bytes(4000)


def trickle(server, message, datagram):
    """A byte of a record now and then; a datagram that answers another call now and then."""
    while server.open:
        yield success(xid=XID + 1) if datagram else b"\0"
        time.sleep(0.02)


def silent(server, message, datagram):
    """Nothing, while the connection stays."""
    while server.open:
        time.sleep(0.05)
        yield b"" if not datagram else success(xid=XID + 1)


def slow(server, message, datagram):
    """The reply to a ping, after half a second."""
    time.sleep(0.5)
    return [success(xid=1) if datagram else marked(success(xid=1))]


def greedy(server, message, datagram):
    """More than a reply may have."""
    yield words(0x80000000 | 16777217) + bytes(64) if not datagram else message[:4] + bytes(59996)


def garbage(server, message, datagram):
    """Bytes that are no message, over UDP behind the xid of the call that came."""
    yield (message[:4] if datagram else b"") + b"HTTP/1.1 400 Bad Request\r\n\r\n"


def straying(server, message, datagram):
    """Datagrams that are no message and begin with no xid of the call: bytes, a reply that is cut, one with flavors of
    too many bytes."""
    yield from [b"HTTP/1.1 400 Bad Request\r\n\r\n", success(xid=XID + 1)[:-1], words(XID - 1, 1, 0, 0, 401)]


def flooding(server, message, datagram):
    """Replies to other calls, one behind another."""
    reply = success(xid=XID + 1)
    while server.open and datagram:
        yield reply
    yield marked(reply)


def dripping(server, message, datagram):
    """The reply a byte at a time, too slowly to be whole in time."""
    for byte in marked(success()):
        yield bytes([byte])
        time.sleep(0.3)


def gone(server, message, datagram):
    return [message[:4]] if datagram else []


def other(server, message, datagram):
    """A reply to another call."""
    reply = success(xid=XID + 1)
    return [reply if datagram else marked(reply)]


def late(server, message, datagram):
    """The reply to the third call, or over TCP after a second; over UDP others come before."""
    if not datagram:
        time.sleep(1)
        return [marked(success())]
    others = [success(xid=XID + 1), success(xid=0), words(XID + 1), b"HTTP/1.1 400 Bad Request"]
    return [*others, success()] if len(server.calls) >= 3 else others


@contextlib.contextmanager
def deaf():
    """The port of a server that takes connections, and reads nothing of what comes over them."""
    with socket.create_server((HOST, 0)) as listening:
        listening.setsockopt(socket.SOL_SOCKET, socket.SO_RCVBUF, 4096)
        yield listening.getsockname()[1]


@contextlib.contextmanager
def full():
    """The port of a server that takes no connection, since it has as many as may wait."""
    with socket.socket() as listening, contextlib.ExitStack() as waiting:
        listening.bind((HOST, 0))
        listening.listen(0)
        is_taken = True
        while is_taken:
            made = waiting.enter_context(socket.socket())
            made.setblocking(False)
            made.connect_ex(listening.getsockname())
            is_taken = select.select([], [made], [], 1)[1]
        yield listening.getsockname()[1]


@contextlib.contextmanager
def nobody():
    """A port that nobody listens at, over TCP and over UDP. It is held for TCP, and for datagrams at another address, so
    that no process is given it meanwhile."""
    while True:
        with socket.socket() as taken, unused(taken) as is_held:
            if is_held:
                yield taken.getsockname()[1]
                return


@contextlib.contextmanager
def unused(taken):
    """Binds a socket to a port that nobody has for datagrams, or says that it is not such a port."""
    with socket.socket(type=socket.SOCK_DGRAM) as free, socket.socket(type=socket.SOCK_DGRAM) as held:
        taken.bind((HOST, 0))
        try:
            free.bind(taken.getsockname())
            held.bind((OTHER, taken.getsockname()[1]))
        except OSError:
            yield False
            return
        free.close()
        yield True
