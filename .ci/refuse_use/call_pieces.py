"""Rows of 'oncrpc call' and 'oncrpc ping' of servers over TCP whose replies come in fragments and in pieces, all of
which count (RFC 5531 section 11); and of 'ping' of servers that hinder."""
import re
import time

from refuse_use.answering import Server, endless, garbage, other, trickle
from refuse_use.called import HOST, LONG, ONE_PING, XID, call, call_words, opaque, run, success, words
from timing import SOON, in_time

NO_ANSWER = b"no answer within 2 seconds\n"
# A long result, and a short one.
LONG_HI, HI = b"hi" * 50000, b"hi"
# How many bytes the fragments have, over and over, how many a piece, and whether an empty fragment is the last.
CUT = [
    ([1], 1, False),
    ([9999], 1, False),
    ([0, 5, 0, 0, 3], 3, True),
    ([4], 7, True),
    ([0, 9999], 4, False),
    ([24, 4], 24, True),
]
CUT_LONG = [([999], 1000, True), ([65535, 0, 1], 4096, False), ([100028], 65536, False)]
# What hinders a ping, by what, the status, and what is said.
PING_HINDERED = [
    (endless, [], 3, NO_ANSWER),
    (trickle, [], 3, NO_ANSWER),
    (trickle, ["--udp"], 3, NO_ANSWER),
    (garbage, [], 1, b"refused TooLong at 0\n"),
    (garbage, ["--udp"], 1, b"refused NotAReply\n"),
    (other, [], 1, b"refused WrongXid %d\n" % (XID + 1)),
    (other, ["--udp"], 3, NO_ANSWER),
]


def fragments(message, sizes, is_last_empty):
    """A record of a message in fragments of these sizes, over and over."""
    made, at, count = [], 0, 0
    while at < len(message):
        made.append(message[at : at + sizes[count % len(sizes)]])
        at, count = at + len(made[-1]), count + 1
    made += [b""] * is_last_empty
    marks = [len(it) for it in made]
    marks[-1] |= 0x80000000
    return b"".join(words(mark) + it for mark, it in zip(marks, made))


def in_pieces(stream, size):
    """Gives these bytes to each call in pieces of this size, with time between where they are few."""
    pieces = [stream[at : at + size] for at in range(0, len(stream), size)]

    def answer(server, message, datagram):
        for piece in pieces:
            yield piece
            time.sleep(0.002 if len(pieces) < 1000 else 0)

    return answer


def pieces_rows(program, folder):
    """A reply in any fragments and any pieces is read whole, and nothing behind its record."""
    line = ["ASKED.FIRST.ECHO", "--arguments", '"hi"']
    for content, cuts in ((HI, CUT), (LONG_HI, CUT_LONG)):
        for sizes, piece, is_last_empty in cuts:
            stream = fragments(success(opaque(content)), sizes, is_last_empty)
            printed = b'"' + content + b'"\n'
            well, told = in_time(lambda: answered(program, folder, line, in_pieces(stream, piece), printed))
            ends = ", the last is empty" * is_last_empty
            yield f"{len(content)} bytes in fragments of {sizes}{ends}, in pieces of {piece}", well, told
    for more in (b"\0", fragments(success(opaque(b"no"), xid=XID + 1), [9999], False)):
        stream = fragments(success(opaque(HI)), [16], False) + more
        well, told = in_time(lambda: answered(program, folder, line, in_pieces(stream, 9999), b'"hi"\n'))
        yield f"a record and {len(more)} bytes behind it", well, told
    for sizes, piece, is_last_empty in CUT:
        answer = in_pieces(fragments(success(xid=1), sizes, is_last_empty), piece)
        well, told = in_time(lambda: pinged(program, folder, answer))
        yield f"ping, in fragments of {sizes}, in pieces of {piece}", well, told


def answered(program, folder, line, answer, printed):
    """Whether a call that is answered so is sent once, and prints this."""
    with Server(answer) as server:
        got, took = run(program, folder, call_words(server.port, line))
    well = got == (0, printed, b"") and server.calls == [call(1, opaque(HI))] and took < SOON
    return well, ((got[0], got[1][-99:], got[2]), took, len(server.calls))


def pinged(program, folder, answer):
    """Whether a ping that is answered so has its line."""
    with Server(answer) as server:
        got, _ = run(program, folder, ["ping", HOST, "536870913.1", *LONG, "--port", str(server.port)])
    return (got[0], got[2]) == (0, b"") and re.fullmatch(ONE_PING, got[1]), got


def hindered_pings(program, folder):
    """A ping has the line and the status of a call that is hindered so, in time. It is over with the first of twenty."""
    for answer, over, status, said in PING_HINDERED:
        seconds, least = (["--timeout", "2"], 1.9) if said == NO_ANSWER else (LONG, 0)
        with Server(answer) as server:
            line = ["ping", HOST, "536870913.1", "--count", "20", "--port", str(server.port), *seconds, *over]
            got, took = run(program, folder, line)
        well = got == (status, b"", said) and least <= took <= SOON
        yield f"ping {' '.join(over)} of a server that is {answer.__name__}", well, (got, took)
