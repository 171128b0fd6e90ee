"""Connections of a registry that are served at once, worked by hand: events, each with what it is answered (RFC 5531
sections 9 and 11, RFC 1833 section 3)."""
from .shared import DUMP, GETADDR, GETPORT, NULL, SERVED_LONG, SET, UNSET, denied, marked, octets, reply

NOTHING, IS_TRUE, IS_FALSE = reply("00000000"), reply("00000000 00000001"), reply("00000000 00000000")
AT_2049 = reply("00000000 00000801")
NO_ADDRESS = reply("00000000 00000000")


def take(connection, content):
    return f"take:{connection}:{content.hex()}"


def answered(used, sent):
    return f"answered {used} {marked(sent).hex()}"


def wrote(content):
    return f"wrote {content.hex()}"


SENT = marked(IS_TRUE)
# How many may be open, the bound of the output, and events with their answers.
SESSIONS = [
    # The numbers of connections; one that is not open answers nothing; a table that is full takes again as one ends.
    (2, 100, [
        ("take:0:80000000", "not open"), ("end:0", "not open"), ("close:0", "not open"), ("write:0:1", "wrote "),
        ("kept:0", "not open of 0"), ("open", "open 0"), ("open", "open 1"), ("open", "all are open"),
        ("kept:1", "kept 0 of 2"), ("close:0", "closed 0"), ("close:0", "not open"), ("take:0:", "not open"),
        ("open", "open 2"), ("open", "all are open"), ("kept:2", "kept 0 of 2"),
    ]),
    (0, 0, [("open", "all are open")]),
    # A half record changes no rows, and each reply goes to its own connection: the other calls in the midst of it.
    (3, 1000, [
        ("open", "open 0"), ("open", "open 1"), (take(0, marked(SET)[:59]), "more"), ("kept:0", "kept 55 of 2"),
        (take(1, marked(GETPORT)), answered(60, IS_FALSE)), (take(0, marked(SET)[59:]), answered(1, IS_TRUE)),
        (take(1, marked(GETPORT)), answered(60, AT_2049)), ("write:0:1000", wrote(SENT)),
        ("write:1:1000", wrote(marked(IS_FALSE) + marked(AT_2049))), ("write:1:1000", "wrote "),
        ("kept:0", "kept 0 of 2"), ("kept:1", "kept 0 of 2"),
    ]),
    # At most one record of a piece is answered; the rest of it is brought again.
    (1, 1000, [
        ("open", "open 0"), (take(0, marked(NULL) * 2), answered(44, NOTHING)),
        (take(0, marked(NULL)), answered(44, NOTHING)), ("write:0:56", wrote(marked(NOTHING) * 2)),
    ]),
    # A record in fragments, some of them empty, in single bytes at their edges.
    (1, 1000, [
        ("open", "open 0"), ("take:0:000000", "more"), ("take:0:00", "more"), (take(0, marked(NULL, 20)[:10]), "more"),
        (take(0, marked(NULL, 20)[10:]), answered(38, NOTHING)), ("take:0:80000000", "answered 4"),
        ("take:0:8000000100", "answered 5"), ("end:0", "ended"), ("close:0", "closed 28"),
    ]),
    # Above the bound nothing is taken until it drains; a write takes part; what is there stays in order.
    (1, 0, [
        ("open", "open 0"), (take(0, marked(SET)), answered(60, IS_TRUE)), (take(0, marked(GETPORT)), "full"),
        ("write:0:10", wrote(SENT[:10])), ("take:0:", "full"), ("write:0:21", wrote(SENT[10:31])),
        (take(0, marked(GETPORT)), "full"), ("write:0:0", "wrote "), ("write:0:1", wrote(SENT[31:])),
        (take(0, marked(GETPORT)), answered(60, AT_2049)), ("end:0", "ended"), ("write:0:99", wrote(marked(AT_2049))),
    ]),
    (1, 32, [
        ("open", "open 0"), (take(0, marked(SET)), answered(60, IS_TRUE)),
        (take(0, marked(SET)), answered(60, IS_TRUE)), (take(0, marked(SET)), "full"), ("write:0:31", wrote(SENT[:31])),
        (take(0, marked(GETPORT)), "full"), ("write:0:1", wrote(SENT[31:])),
        (take(0, marked(GETPORT)), answered(60, AT_2049)),
        ("write:0:99", wrote(marked(IS_TRUE) + marked(AT_2049))),
    ]),
    # A fault is answered for ever, keeps the output, and leaves the rows and the other connections as they are.
    (3, 1000, [
        ("open", "open 0"), ("open", "open 1"), ("open", "open 2"), (take(0, marked(SET)), answered(60, IS_TRUE)),
        ("take:0:800100", "more"), ("take:0:01", "refused TooLong at 60"), ("take:0:80000000", "refused TooLong at 60"),
        ("end:0", "refused TooLong at 60"), (take(1, marked(GETPORT)), answered(60, AT_2049)),
        (take(2, marked(UNSET)[:-1]), "more"), ("end:2", "refused Truncated at 59"),
        (take(2, marked(UNSET)[-1:]), "refused Truncated at 59"), ("take:2:", "refused Truncated at 59"),
        (take(1, marked(GETPORT)), answered(60, AT_2049)), ("write:0:99", wrote(SENT)), ("close:2", "closed 0"),
        ("close:0", "closed 0"), ("close:1", "closed 64"), ("open", "open 3"),
        (take(3, marked(UNSET)), answered(60, IS_TRUE)),
    ]),
    (1, 1000, [
        ("open", "open 0"), ("take:0:0000000280000000fffe", "more"), ("kept:0", "kept 2 of 1"),
        ("end:0", "refused Truncated at 10"),
    ]),
    (1, 1000, [
        ("open", "open 0"), ("take:0:000000028000", "more"), ("take:0:8000ffff", "refused TooLong at 6"),
        ("end:0", "refused TooLong at 6"),
    ]),
    (1, 1000, [
        ("open", "open 0"), ("take:0:0000ffff" + "00" * 65535 + "80000002", "refused TooLong at 65539"),
        ("kept:0", "kept 0 of 1"),
    ]),
    (1, 1000, [("open", "open 0"), ("take:0:80", "more"), ("end:0", "refused Truncated at 1")]),
    # Datagrams beside connections: their rows are the same, and GETADDR asks for their own transport.
    (1, 1000, [
        ("open", "open 0"), (f"came:{SET.hex()}", f"reply {IS_TRUE.hex()}"), (take(0, marked(GETPORT)), answered(60, AT_2049)),
        (f"came:{GETADDR.hex()}", f"reply {NO_ADDRESS.hex()}"), (f"came:{NULL.hex()}", f"reply {NOTHING.hex()}"),
        ("came:", "no reply"), ("came:00", "no reply"), (f"came:{NULL[:24].hex()}", f"reply {denied(1).hex()}"),
        (take(0, marked(UNSET)), answered(60, IS_TRUE)), (f"came:{GETPORT.hex()}", f"reply {IS_FALSE.hex()}"),
        ("write:0:99", wrote(marked(AT_2049) + marked(IS_TRUE))),
    ]),
    # More than a connection keeps between two records, and a reply to it.
    (1, 1000, [
        ("open", "open 0"), (take(0, SERVED_LONG[:9000]), "more"), ("kept:0", "kept 8996 of 1"),
        (take(0, SERVED_LONG[9000:9004]), answered(4, NOTHING)), (take(0, SERVED_LONG[9004:]), answered(44, NOTHING)),
        ("write:0:28", wrote(marked(NOTHING))), ("kept:0", "kept 28 of 1"), ("close:0", "closed 28"),
    ]),
]
# The SETs of rows/answers.py that come where their row is there, with its owner and its address, and their replies to a
# caller who is known: TRUE, as rpcbind has it. The first is the same record as that which sets the row.
AGAIN = {
    octets(
        "00000001 00000000 00000002 000186a0 00000002 00000001 00000000 00000000 00000000 00000000 20000000 00000001 "
        "00000006 00000801"
    ): IS_TRUE,
    octets(
        "ea1c987a 00000000 00000002 000186a0 00000002 00000001 00000000 00000000 00000000 00000000 20000000 00000001 "
        "00000006 00000801"
    ): octets("ea1c987a 00000001 00000000 00000000 00000000 00000000 00000001"),
}
# Calls of one registry, one after another: who calls, the words of the call, and those of the reply, none where there
# is none (RFC 5531 section 9, RFC 1833 sections 2.2.1 and 3.2). A remote caller came to 10.0.0.7, changes of a trusted
# one are taken, and the user has uid 7.
BY_CALLER = [
    # A remote SET of program 70000 version 1 at TCP port 515 is AUTH_ERROR AUTH_TOOWEAK.
    ("remote", [1, 0, 2, 100000, 2, 1, 0, 0, 0, 0, 70000, 1, 6, 515], [1, 1, 1, 1, 5]),
    # GETPORT finds nothing.
    ("remote", [2, 0, 2, 100000, 2, 3, 0, 0, 0, 0, 70000, 1, 6, 0], [2, 1, 0, 0, 0, 0, 0]),
    # The same SET of user 7, who claims to be user 0, is TRUE,
    ("user", [3, 0, 2, 100000, 2, 1, 1, 20, 0, 0, 0, 0, 0, 0, 0, 70000, 1, 6, 515], [3, 1, 0, 0, 0, 0, 1]),
    # and TRUE again,
    ("user", [4, 0, 2, 100000, 2, 1, 0, 0, 0, 0, 70000, 1, 6, 515], [4, 1, 0, 0, 0, 0, 1]),
    # but FALSE at another port,
    ("user", [5, 0, 2, 100000, 2, 1, 0, 0, 0, 0, 70000, 1, 6, 516], [5, 1, 0, 0, 0, 0, 0]),
    # and FALSE of another owner.
    ("local", [6, 0, 2, 100000, 2, 1, 0, 0, 0, 0, 70000, 1, 6, 515], [6, 1, 0, 0, 0, 0, 0]),
    # GETADDR of a remote caller tells the host to which it came: 10.0.0.7.2.3,
    (
        "remote",
        [7, 0, 2, 100000, 3, 3, 0, 0, 0, 0, 70000, 1, 0, 0, 0],
        [7, 1, 0, 0, 0, 0, 12, 0x3130_2e30, 0x2e30_2e37, 0x2e32_2e33],
    ),
    # and so does GETVERSADDR.
    (
        "remote",
        [8, 0, 2, 100000, 4, 9, 0, 0, 0, 0, 70000, 1, 0, 0, 0],
        [8, 1, 0, 0, 0, 0, 12, 0x3130_2e30, 0x2e30_2e37, 0x2e32_2e33],
    ),
    # Where the host is not known it is 0.0.0.0.2.3.
    (
        "local",
        [9, 0, 2, 100000, 3, 3, 0, 0, 0, 0, 70000, 1, 0, 0, 0],
        [9, 1, 0, 0, 0, 0, 11, 0x302e_302e, 0x302e_302e, 0x322e_3300],
    ),
    # An UNSET by nobody of this host is FALSE: the row is user 7's.
    ("local", [10, 0, 2, 100000, 2, 2, 0, 0, 0, 0, 70000, 1, 6, 515], [10, 1, 0, 0, 0, 0, 0]),
    # A remote UNSET of user 0 is AUTH_TOOWEAK,
    ("remote", [11, 0, 2, 100000, 2, 2, 1, 20, 0, 0, 0, 0, 0, 0, 0, 70000, 1, 6, 515], [11, 1, 1, 1, 5]),
    # and FALSE where remote changes are taken: nobody of another host is the superuser.
    ("trusted", [12, 0, 2, 100000, 2, 2, 1, 20, 0, 0, 0, 0, 0, 0, 0, 70000, 1, 6, 515], [12, 1, 0, 0, 0, 0, 0]),
    # A remote SET that is taken is TRUE.
    ("trusted", [13, 0, 2, 100000, 2, 1, 1, 20, 0, 0, 0, 5, 0, 0, 0, 70001, 1, 17, 600], [13, 1, 0, 0, 0, 0, 1]),
    # An UNSET of user 0 of this host is TRUE.
    ("superuser", [14, 0, 2, 100000, 2, 2, 0, 0, 0, 0, 70000, 1, 6, 515], [14, 1, 0, 0, 0, 0, 1]),
    # Another program is PROG_UNAVAIL.
    ("remote", [15, 0, 2, 100001, 2, 1, 0, 0, 0, 0], [15, 1, 0, 0, 0, 1]),
    # No call has no answer.
    ("remote", [16, 1, 0], []),
]
