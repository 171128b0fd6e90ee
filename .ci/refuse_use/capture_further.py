"""Rows of 'oncrpc capture' about what no clause of a contract says: slow replies, whose call a reply answers, which pair
ends, which times are told, and what is said of a record that is refused in a later fragment.

What is wanted follows from docs/FORMATS.md.
"""
from refuse_use.capture_hostile import HELD, PAIRS, PIECE
from refuse_use.capture_made import FROM, GETPORT, GETPORT_LINES, PORT, PORT_LINES, RST_BIT, SYN, SYN_ACK, SYN_BIT, TO, at
from refuse_use.capture_made import null, null_line, of_client, of_server, void, void_line
from refuse_use.messages_streams import call, counts, fragment, header, reply, words
from refuse_use.packets import CLIENT, SERVER, classic, datagram, enhanced, ethernet, interface, option, section

ASKED, TOLD = datagram(CLIENT, SERVER, GETPORT), datagram(SERVER, CLIENT, PORT)
OTHER = (CLIENT[0], 701)
TO_OTHER, FROM_OTHER = TO.replace(b"700", b"701"), FROM.replace(b"700", b"701")
SLOW = b"slow %d ns packet %d xid %d 100000.2.0 NULL\n"
ROW = b"procedure 100000.2.0 NULL calls %d replies %d refused 0\n"


def of(port):
    return b"127.0.0.1:%d > 127.0.0.1:111 " % port


def behind_full():
    """A reply behind a hole that is skipped since no more can be held there."""
    each = 28 * 50
    pieces = HELD // (each + PIECE) + 3
    packets = [SYN, SYN_ACK, of_client(100, null(1) + null(2)), of_server(528, void(2))]
    packets += [of_server(556 + each * it, b"".join(void(10**5 + 50 * it + k) for k in range(50))) for it in range(pieces)]
    # (no reply of these has a call: xid 2 alone has one)
    wanted = ROW % (2, 1) + b"missing 28 bytes\n" + counts(2, 1 + 50 * pieces, 0, 0, 50 * pieces, 50 * pieces)
    return "a reply behind a hole that is skipped for want of room is none of the slowest", "--stats", classic(packets), 0, wanted


def not_first():
    """The pair that was not seen for the longest time is the second, not the one in the first place."""
    packets = [of_client(99, b"", SYN_BIT, 1), of_client(100, null(0), 16, 1), of_client(99, b"", SYN_BIT, 2),
               of_client(100, null(0), 16, 2), of_client(188, null(2), 16, 2), of_client(188, null(2), 16, 1)]
    packets += [of_client(99, b"", SYN_BIT, 1000 + it) for it in range(PAIRS - 1)] + [of_client(144, null(1), 16, 1)]
    last = len(packets)
    wanted = (at(2, of(1) + null_line(0)) + at(4, of(2) + null_line(0)) + at(5, of(2) + b"missing 44 bytes\n")
              + at(5, of(2) + null_line(2)) + at(last, of(1) + null_line(1)) + at(last, of(1) + null_line(2)))
    return "the pair that ends is the one that was not seen for the longest time", "", classic(packets), 0, wanted + counts(5, 0, 0, 0, 0, 0)


def no_messages():
    packets = [ASKED] + [datagram((CLIENT[0], 1000 + it), SERVER, b"GET / HTTP/1.0\r\n\r\n") for it in range(PAIRS + 5)] + [TOLD]
    wanted = at(1, TO + GETPORT_LINES) + at(len(packets), FROM + PORT_LINES) + counts(1, 1, 0, 0, 0, 0)
    return "datagrams that are no messages take no pair's place", "", classic(packets, 101), 0, wanted


BEGUN = fragment(call(5, 100000, 2, 0)[:20], False)
LIE = words(0xFFFFFFFF) + b"abcd"
# What rows are about, words, the file, the status and the output.
FURTHER = [
    ("two replies: the slowest comes first", "--stats",
     classic([SYN, SYN_ACK, of_client(100, null(1) + null(2)), of_server(500, void(2)), of_client(188, b""), of_server(528, void(1))]), 0,
     ROW % (2, 2) + SLOW % (3000, 6, 1) + SLOW % (1000, 4, 2) + counts(2, 2, 0, 0, 0, 0)),
    ("twelve replies, of which the ten slowest are told", "--stats",
     classic([SYN, SYN_ACK, of_client(100, b"".join(map(null, range(12)))), *(of_server(500 + 28 * it, void(it)) for it in range(12))]), 0,
     ROW % (12, 12) + b"".join(SLOW % (1000 * (it + 1), 4 + it, it) for it in reversed(range(2, 12))) + counts(12, 12, 0, 0, 0, 0)),
    ("a call over UDP is none of a reply over TCP", "", classic([ethernet(ASKED), SYN, SYN_ACK, of_server(500, fragment(PORT))]), 0,
     at(1, TO + GETPORT_LINES) + at(4, FROM + b"reply 8 no call SUCCESS, 4 bytes\n") + counts(1, 1, 0, 0, 1, 1)),
    ("two clients over UDP with one xid", "",
     classic([ASKED, datagram(OTHER, SERVER, call(8, 100000, 2, 0)), datagram(SERVER, OTHER, reply(8, 0)), TOLD], 101), 0,
     at(1, TO + GETPORT_LINES) + at(2, TO_OTHER + null_line(8)) + at(3, FROM_OTHER + void_line(8)) + at(4, FROM + PORT_LINES)
     + counts(2, 2, 0, 0, 0, 0)),
    behind_full(),
    ("a time that is too late", "", section() + interface(101, options=option("<", 9, b"\0") + option("<", 0, b"")) + enhanced(ASKED, 2**63), 0,
     b"1 18446744073.709551615 " + TO + GETPORT_LINES + counts(1, 0, 0, 0, 0, 0)),
    not_first(),
    no_messages(),
    ("4100 procedures, of which 4096 have rows", "--stats", classic([datagram(CLIENT, SERVER, call(it, 200000, 1, it)) for it in range(4100)], 101), 0,
     b"".join(b"procedure 200000.1.%d calls 1 replies 0 refused 0\n" % it for it in range(4096)) + counts(4100, 0, 0, 0, 4100, 0)),
    ("holes before the first messages: the calls are read first, by the ports", "--port 111",
     classic([SYN, SYN_ACK, of_client(144, null(1)), of_server(528, void(1))]), 0,
     at(3, TO + b"missing 44 bytes\n") + at(3, TO + null_line(1)) + at(4, FROM + b"missing 28 bytes\n") + at(4, FROM + void_line(1))
     + counts(1, 1, 0, 0, 0, 0)),
    ("bytes that look like an accepted reply but for its size", "--port 111", classic([of_server(7, header(20) + words(5, 1, 0, 0, 0) + void(4))]), 0,
     at(1, FROM + b"passed 24 bytes\n") + at(1, FROM + b"reply 4 no call SUCCESS, 0 bytes\n") + counts(0, 1, 0, 0, 1, 1)),
    ("a second fragment whose length lies, in a segment of its own", "--port 111", classic([SYN, of_client(100, BEGUN), of_client(124, LIE)]), 1,
     at(3, TO + b"unfinished 24 bytes\n") + at(3, TO + b"record refused TooLong at 0\n") + at(3, TO + b"passed 8 bytes\n")
     + counts(0, 0, 0, 1, 0, 0)),
    ("what a RST carries, which is none of the stream's (RFC 9293 section 3.5.3)", "",
     classic([SYN, of_client(100, null(0)), of_client(144, null(1), RST_BIT)]), 0,
     at(2, TO + null_line(0)) + counts(1, 0, 0, 0, 0, 0)),
]
