"""Rows of 'oncrpc info --udp' where answers are lost, late, of other calls or from elsewhere: it asks again after each
second with one xid, as long as there is time, by default ten seconds."""
import socket

from refuse_use.answering import OTHER, Server, flooding, silent, trickle
from refuse_use.called import HOST, run, success, words
from refuse_use.network_asked import LINE_4, NONE, dump
from timing import SOON, in_time

# The call is that for all rows, and its reply the one of a registry that has none (RFC 1833 section 2.2.1).
XID = 1
ASKED, REPLY = words(XID) + dump(4), success(NONE, xid=XID)
OTHERS = [success(NONE, xid=XID + 1), words(XID + 1), success(NONE, xid=0)[:-1]]


class Peered(Server):
    """A server that knows who asked it last."""

    peer = None

    def reply(self, message, peer):
        self.peer = peer
        super().reply(message, peer)


def third(server, message, datagram):
    """Replies to other calls, and behind them the reply to the third call."""
    return [*OTHERS, REPLY] if len(server.calls) >= 3 else OTHERS


def elsewhere(server, message, datagram):
    """The reply from another address of the host."""
    with socket.socket(type=socket.SOCK_DGRAM) as other:
        other.bind((OTHER, 0))
        other.sendto(REPLY, server.peer)
    return []


# What a server does, the words, what comes of it, and for how many seconds at least it is waited.
ROWS = [
    (third, [], (0, LINE_4, b""), 1.9),
    (elsewhere, [], (3, b"", b"no answer within 10 seconds\n"), 9.9),
    (elsewhere, ["--timeout", "2"], (3, b"", b"no answer within 2 seconds\n"), 1.9),
    (silent, ["--timeout", "2"], (3, b"", b"no answer within 2 seconds\n"), 1.9),
    (trickle, ["--timeout", "2"], (3, b"", b"no answer within 2 seconds\n"), 1.9),
    (flooding, ["--timeout", "2"], (3, b"", b"no answer within 2 seconds\n"), 1.9),
]


def is_asked(program, folder, answer, more, wanted, least):
    """Whether a run gives what is wanted, in time, and asks once in each second with the same call."""
    with Peered(answer) as server:
        got, took = run(program, folder, ["info", HOST, str(server.port), "--udp", *more])
        calls, moments = list(server.calls), list(server.moments)
    between = [after - before for before, after in zip(moments, moments[1:])]
    well = got == wanted and least <= took <= SOON and set(calls) == {ASKED}
    well = well and len(calls) == round(least + 0.1) + (wanted[0] == 0) and all(0.9 <= it < 1.9 for it in between)
    return well, (got, took, len(calls), between)


def info_rows(program, folder):
    """The rows, each whether it is as it should be."""
    for answer, more, wanted, least in ROWS:
        well, told = in_time(lambda: is_asked(program, folder, answer, more, wanted, least))
        yield " ".join(["info --udp", *more, f"of a server that is {answer.__name__}"]), well, told
