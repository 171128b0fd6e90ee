"""What rows of 'oncrpc capture' are made of: packets between a client and a server, and the lines that name them."""
from refuse_use.messages_streams import call, counts, fragment, reply, words
from refuse_use.packets import CLIENT, SERVER, ethernet, segment

# A call of GETPORT with its reply, and calls without arguments with theirs (RFC 1833 section 3).
GETPORT = call(8, 100000, 2, 3, words(100003, 3, 6, 0))
GETPORT_LINES = b"call 8 100000.2.3 GETPORT AUTH_NONE\nstruct\n  prog: 100003\n  vers: 3\n  prot: 6\n  port: 0\n"
PORT = reply(8, 0, results=words(2049))
PORT_LINES = b"reply 8 100000.2.3 GETPORT SUCCESS\n2049\n"
TO, FROM = b"127.0.0.1:700 > 127.0.0.1:111 ", b"127.0.0.1:111 > 127.0.0.1:700 "
SYN_BIT, FIN_BIT, RST_BIT = 2, 1, 4


def null(xid):
    """The record of a call without arguments, of 44 bytes."""
    return fragment(call(xid, 100000, 2, 0))


def null_line(xid):
    return b"call %d 100000.2.0 NULL AUTH_NONE\n" % xid


def void(xid):
    """The record of its reply, of 28 bytes."""
    return fragment(reply(xid, 0))


def void_line(xid):
    return b"reply %d 100000.2.0 NULL SUCCESS\n" % xid


def at(frame, text, micros=None):
    """A line with what stands before it: packets come a microsecond after one another, from second 1 on."""
    return b"%d 1.%09d " % (frame, 1000 * (frame - 1 if micros is None else micros)) + text


def of_client(number, content, flags=0x10, port=CLIENT[1]):
    return ethernet(segment((CLIENT[0], port), SERVER, number, content, flags))


def of_server(number, content, flags=0x10, port=CLIENT[1]):
    return ethernet(segment(SERVER, (CLIENT[0], port), number, content, flags))


# A client's first byte has the number 100, the server's 500.
SYN, SYN_ACK = of_client(99, b"", SYN_BIT), of_server(499, b"", SYN_BIT | 16)
NOTHING = counts(0, 0, 0, 0, 0, 0)
