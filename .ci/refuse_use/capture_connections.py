"""Rows of 'oncrpc capture' over TCP: segments in any order, holes, connections that end or begin in the midst.

What is wanted follows from the sequence numbers (RFC 9293 section 3.4), record marking (RFC 5531 section 11) and the
lines of docs/FORMATS.md: a record of a call without arguments has 44 bytes, one of its reply 28.
"""
from refuse_use.capture_made import FIN_BIT, FROM, GETPORT, GETPORT_LINES, NOTHING, PORT, PORT_LINES, RST_BIT, SYN, SYN_ACK
from refuse_use.capture_made import SYN_BIT, TO, at, null, null_line, of_client, of_server, void, void_line
from refuse_use.messages_streams import counts, fragment, header, words
from refuse_use.packets import classic

ASKED, TOLD = fragment(GETPORT), fragment(PORT)
CALLS = counts(1, 0, 0, 0, 0, 0)
# A port that is another client's.
OTHER = 701
TO_OTHER, FROM_OTHER = TO.replace(b"700", b"701"), FROM.replace(b"700", b"701")


def pieces(record, *sizes):
    """A record in fragments of these sizes, and one with the rest."""
    made = b""
    for size in sizes:
        made += fragment(record[:size], False)
        record = record[size:]
    return made + fragment(record)


# What rows are about, words, the packets, the status and the output.
IN_ORDER = [
    (
        "a connection",
        "",
        [SYN, SYN_ACK, of_client(100, ASKED), of_server(500, TOLD)],
        0,
        at(3, TO + GETPORT_LINES) + at(4, FROM + PORT_LINES) + counts(1, 1, 0, 0, 0, 0),
    ),
    (
        "one that ends, with a number for each FIN",
        "",
        [SYN, SYN_ACK, of_client(100, null(1), FIN_BIT | 16), of_server(500, void(1), FIN_BIT | 16), of_client(145, b""),
         of_server(529, b"")],
        0,
        at(3, TO + null_line(1)) + at(4, FROM + void_line(1)) + counts(1, 1, 0, 0, 0, 0),
    ),
    (
        "a segment twice, one that overlaps it, and two that come late",
        "",
        [SYN, of_client(100, ASKED[:9]), of_client(100, ASKED[:9]), of_client(129, ASKED[29:]), of_client(104, b"x" * 5),
         of_client(107, b"yy" + ASKED[9:29])],
        0,
        at(6, TO + GETPORT_LINES) + CALLS,
    ),
    (
        "segments that overlap behind a hole, of which the first that came wins",
        "",
        [SYN, of_client(140, ASKED[40:]), of_client(130, ASKED[30:40] + b"z" * 20), of_client(120, ASKED[20:30] + b"w" * 12),
         of_client(100, ASKED[:20] + b"v" * 40)],
        0,
        at(5, TO + GETPORT_LINES) + CALLS,
    ),
    (
        "a record whose bytes come backwards, one by one",
        "",
        [SYN, *(of_client(100 + it, ASKED[it : it + 1]) for it in reversed(range(len(ASKED))))],
        0,
        at(61, TO + GETPORT_LINES) + CALLS,
    ),
    (
        "the wrap of sequence numbers",
        "",
        [of_client(2**32 - 11, b"", SYN_BIT), of_client(2**32 - 10, ASKED[:10]), of_client(0, ASKED[10:])],
        0,
        at(3, TO + GETPORT_LINES) + CALLS,
    ),
    (
        "the wrap, out of order, and a segment from before it once more",
        "",
        [of_client(2**32 - 11, b"", SYN_BIT), of_client(20, ASKED[30:]), of_client(0, ASKED[10:30]),
         of_client(2**32 - 10, ASKED[:10]), of_client(2**32 - 10, ASKED[:10]), of_client(50, null(2))],
        0,
        at(4, TO + GETPORT_LINES) + at(6, TO + null_line(2)) + counts(2, 0, 0, 0, 0, 0),
    ),
    (
        "two records in a segment, and one in three",
        "",
        [SYN, of_client(100, null(1) + null(2) + null(3)[:4]), of_client(192, null(3)[4:40]), of_client(228, null(3)[40:])],
        0,
        at(2, TO + null_line(1)) + at(2, TO + null_line(2)) + at(4, TO + null_line(3)) + counts(3, 0, 0, 0, 0, 0),
    ),
    (
        "a call and a reply of several fragments, each the first of its direction",
        "",
        [SYN, SYN_ACK, of_client(100, pieces(GETPORT, 20, 1)), of_server(500, pieces(PORT, 4, 9))],
        0,
        at(3, TO + GETPORT_LINES) + at(4, FROM + PORT_LINES) + counts(1, 1, 0, 0, 0, 0),
    ),
    ("what is no RPC", "", [SYN, of_client(100, b"GET / HTTP/1.0\r\n\r\n")], 0, NOTHING),
    ("what is no RPC, with a hole, and cut", "", [SYN, of_client(109, b"x" * 99), of_client(300, b"y" * 9)], 0, NOTHING),
    (
        "a byte of a window that is closed, and one of a connection that is kept alive",
        "",
        [SYN, of_client(100, ASKED[:1]), of_client(101, ASKED[1:]), of_client(159, b"\0"), of_client(160, null(2))],
        0,
        at(3, TO + GETPORT_LINES) + at(5, TO + null_line(2)) + counts(2, 0, 0, 0, 0, 0),
    ),
]
ANSWERS = [
    (
        "calls both ways with one xid, each with its own reply",
        "",
        [SYN, SYN_ACK, of_client(100, ASKED), of_server(500, null(8)), of_client(160, void(8)), of_server(544, TOLD)],
        0,
        at(3, TO + GETPORT_LINES) + at(4, FROM + null_line(8)) + at(5, TO + void_line(8)) + at(6, FROM + PORT_LINES)
        + counts(2, 2, 0, 0, 0, 0),
    ),
    (
        "a reply that goes the way of its call is none to it",
        "",
        [SYN, SYN_ACK, of_client(100, ASKED + TOLD), of_server(500, TOLD)],
        0,
        at(3, TO + GETPORT_LINES) + at(3, TO + b"reply 8 no call SUCCESS, 4 bytes\n") + at(4, FROM + PORT_LINES)
        + counts(1, 2, 0, 0, 1, 1),
    ),
    (
        "two clients with one xid",
        "",
        [SYN, SYN_ACK, of_client(99, b"", SYN_BIT, OTHER), of_server(499, b"", SYN_BIT | 16, OTHER), of_client(100, ASKED),
         of_client(100, null(8), 16, OTHER), of_server(500, void(8), 16, OTHER), of_server(500, TOLD)],
        0,
        at(5, TO + GETPORT_LINES) + at(6, TO_OTHER + null_line(8)) + at(7, FROM_OTHER + void_line(8))
        + at(8, FROM + PORT_LINES) + counts(2, 2, 0, 0, 0, 0),
    ),
]
HOLES = [
    (
        "a hole between records: 44 bytes, and 5 of the next",
        "--port 111",
        [SYN, of_client(100, null(0)), of_client(193, null(2)[5:]), of_client(232, null(3))],
        0,
        at(2, TO + null_line(0)) + at(4, TO + b"missing 49 bytes\n") + at(4, TO + b"passed 39 bytes\n")
        + at(4, TO + null_line(3)) + counts(2, 0, 0, 0, 0, 0),
    ),
    (
        "a hole in a record",
        "",
        [SYN, of_client(100, null(0) + null(1)[:20]), of_client(174, null(1)[30:] + null(2))],
        0,
        at(2, TO + null_line(0)) + at(3, TO + b"unfinished 20 bytes\n") + at(3, TO + b"missing 10 bytes\n")
        + at(3, TO + b"passed 14 bytes\n") + at(3, TO + null_line(2)) + counts(2, 0, 0, 0, 0, 0),
    ),
    (
        "two holes: what is whole between them is read, and the last packet of the direction is named",
        "",
        [SYN, of_client(100, null(0)), of_client(188, null(2)), of_client(276, null(4)), of_server(500, void(0))],
        0,
        at(2, TO + null_line(0)) + at(5, b"127.0.0.1:111 > 127.0.0.1:700 " + void_line(0))
        + at(4, TO + b"missing 44 bytes\n") + at(4, TO + null_line(2)) + at(4, TO + b"missing 44 bytes\n")
        + at(4, TO + null_line(4)) + counts(3, 1, 0, 0, 0, 0),
    ),
    (
        "holes both ways: at the end the calls are read first",
        "",
        [SYN, SYN_ACK, of_client(100, null(0)), of_client(188, null(2)), of_server(500, void(0)), of_server(556, void(2))],
        0,
        at(3, TO + null_line(0)) + at(5, FROM + void_line(0)) + at(4, TO + b"missing 44 bytes\n") + at(4, TO + null_line(2))
        + at(6, FROM + b"missing 28 bytes\n") + at(6, FROM + void_line(2)) + counts(2, 2, 0, 0, 0, 0),
    ),
    (
        "a hole that is filled late is none",
        "",
        [SYN, of_client(100, null(0)), of_client(188, null(2)), of_client(144, null(1))],
        0,
        at(2, TO + null_line(0)) + at(4, TO + null_line(1)) + at(4, TO + null_line(2)) + counts(3, 0, 0, 0, 0, 0),
    ),
    (
        "a capture that begins in the midst",
        "--port 111",
        [of_client(7, null(0)[9:]), of_client(42, null(1))],
        0,
        at(2, TO + b"passed 35 bytes\n") + at(2, TO + null_line(1)) + CALLS,
    ),
    (
        "the same where no port is named: what stands before is not known to be RPC",
        "",
        [of_client(7, null(0)[9:]), of_client(42, null(1))],
        0,
        at(2, TO + null_line(1)) + CALLS,
    ),
    (
        "one that begins in the midst of a connection, with replies alone",
        "",
        [of_server(500, b"abc" + void(3)), of_server(531, void(4))],
        0,
        at(1, FROM + b"reply 3 no call SUCCESS, 0 bytes\n") + at(2, FROM + b"reply 4 no call SUCCESS, 0 bytes\n")
        + counts(0, 2, 0, 0, 2, 2),
    ),
    (
        "bytes that look like a record but for its size are passed over",
        "--port 111",
        [of_client(7, header(42) + null(0)[4:12] + header(36) + null(0)[4:12] + null(1))],
        0,
        at(1, TO + b"passed 24 bytes\n") + at(1, TO + null_line(1)) + CALLS,
    ),
    (
        "a record that does not end",
        "",
        [SYN, of_client(100, null(0) + null(1)[:30]), of_client(174, b"", FIN_BIT | 16)],
        0,
        at(2, TO + null_line(0)) + at(3, TO + b"unfinished 30 bytes\n") + CALLS,
    ),
    (
        "one whose end was sent, as an acknowledgement shows, and not captured",
        "",
        [SYN, of_client(100, null(0) + null(1)[:30]), of_client(188, b"")],
        0,
        at(2, TO + null_line(0)) + at(3, TO + b"unfinished 30 bytes\n") + at(3, TO + b"missing 14 bytes\n") + CALLS,
    ),
    (
        "the same of a reply, whose call came whole",
        "",
        [SYN, SYN_ACK, of_client(100, null(0)), of_server(500, void(0)[:20]), of_server(528, b"")],
        0,
        at(3, TO + null_line(0)) + at(5, FROM + b"unfinished 20 bytes\n") + at(5, FROM + b"missing 8 bytes\n") + CALLS,
    ),
    (
        "a record that came in two segments, and behind it one that does not end",
        "",
        [SYN, of_client(100, null(0)[:20]), of_client(120, null(0)[20:] + null(1)[:30])],
        0,
        at(3, TO + null_line(0)) + at(3, TO + b"unfinished 30 bytes\n") + CALLS,
    ),
    (
        "a reset, whose number says nothing",
        "",
        [SYN, of_client(100, null(0)), of_client(5000, b"", RST_BIT)],
        0,
        at(2, TO + null_line(0)) + CALLS,
    ),
    (
        "another connection between the same ports",
        "",
        [SYN, of_client(100, null(0) + null(1)[:30]), of_client(7000, b"", SYN_BIT), of_client(7001, null(2))],
        0,
        at(2, TO + null_line(0)) + at(2, TO + b"unfinished 30 bytes\n") + at(4, TO + null_line(2)) + counts(2, 0, 0, 0, 0, 0),
    ),
    (
        "another one whose SYN was not captured, with numbers from before",
        "",
        [of_client(1610612735, b"", SYN_BIT), of_client(1610612736, null(0)), of_client(9, null(1)[7:]), of_client(46, null(2))],
        0,
        at(2, TO + null_line(0)) + at(4, TO + b"passed 37 bytes\n") + at(4, TO + null_line(2)) + counts(2, 0, 0, 0, 0, 0),
    ),
]
LENGTHS = [
    (
        "a length that lies",
        "--port 111",
        [SYN, of_client(100, words(0xFFFFFFFF) + b"abcd")],
        1,
        at(2, TO + b"record refused TooLong at 0\n") + at(2, TO + b"passed 8 bytes\n") + counts(0, 0, 0, 1, 0, 0),
    ),
    (
        "one that lies, and a record behind it in the same segment",
        "",
        [SYN, of_client(100, null(0) + words(0xFFFFFFFF) + b"abcd" + null(1))],
        1,
        at(2, TO + null_line(0)) + at(2, TO + b"record refused TooLong at 0\n") + at(2, TO + b"passed 8 bytes\n")
        + at(2, TO + null_line(1)) + counts(2, 0, 0, 1, 0, 0),
    ),
    (
        "a length that takes in the next record",
        "",
        [SYN, of_client(100, null(0) + header(84) + null(1)[4:]), of_client(188, null(2))],
        1,
        at(2, TO + null_line(0)) + at(3, TO + b"call 1 100000.2.0 NULL AUTH_NONE\nrefused MoreFollows at 40\n")
        + counts(2, 0, 0, 1, 0, 0),
    ),
    (
        "a length of 16 MiB that does not come",
        "",
        [SYN, of_client(100, null(0) + header(16781312) + b"abcd" * 9)],
        0,
        at(2, TO + null_line(0)) + at(2, TO + b"unfinished 40 bytes\n") + CALLS,
    ),
    (
        "a record that is no message",
        "--port 111",
        [SYN, of_client(100, fragment(words(1, 2)) + null(1))],
        1,
        at(2, TO + b"record\nrefused BadNumbered at 4\n") + at(2, TO + null_line(1)) + counts(1, 0, 1, 1, 0, 0),
    ),
]
CONNECTIONS = [(*it[:2], classic(it[2]), *it[3:]) for it in IN_ORDER + ANSWERS + HOLES + LENGTHS]
