"""The registry over datagrams, with many rows, and with replies behind bytes that stand there; the rows of these whose
growths are refused in turn; and calls exchanged for replies over datagrams."""
from .answers import NOBODY, ROOT, USER_1001, called
from .names import (
    PMAPPROC_GETPORT,
    RPCBPROC_DUMP,
    RPCBPROC_GETADDR,
    RPCBPROC_GETVERSADDR,
    RPCBPROC_NULL,
    RPCBPROC_SET,
    RPCBPROC_UNSET,
    SUCCESS,
    SYSTEM_ERR,
)
from .shared import (
    ASKED_AFTER,
    AT_9,
    DUMP,
    GETPORT,
    NO_AUTH,
    NULL,
    OWN,
    OWNER,
    OWN_ROWS,
    SET,
    TCP_7,
    call,
    marked,
    octets,
    reply,
    told_after,
    word,
)

TCP, UDP = "tcp", "udp"
NULL_REPLY, IS_SET, PORT = reply(SUCCESS), reply(SUCCESS + "00000001"), reply(SUCCESS + "00000801")
NO_PORT, FAILED = reply(SUCCESS + "00000000"), reply(SYSTEM_ERR)
# What is asked over UDP where a port was set over `tcp`, and the reply from its status on: it is found at another
# version by its transport, and not at the netid of UDP.
OVER_UDP = [
    called(NOBODY, 3, RPCBPROC_GETADDR, "20000000 00000009 00000000 00000000 00000000", SUCCESS + "00000000"),
    called(
        NOBODY,
        4,
        RPCBPROC_GETVERSADDR,
        "20000000 00000001 00000003 74637000 00000000 00000000",
        SUCCESS + "00000000",
    ),
    called(NOBODY, 2, PMAPPROC_GETPORT, "20000000 00000009 00000006 00000000", SUCCESS + "00000801"),
    called(NOBODY, 4, RPCBPROC_NULL, "", SUCCESS),
]


def text(content):
    """A text as it stands in a message."""
    return (word(len(content)) + content + bytes(-len(content) % 4)).hex()


EVERY_HOST = b"0.0.0.0.0.111"


def key(prog):
    return f"{prog:08x} 00000001 00000003 74637000"


def sets(count, address, first=0):
    """Calls from nobody that set so many rows over `tcp` at an address: programs from the first on, in version 1."""
    calls = [call(4, RPCBPROC_SET, f"{key(first + each)} {text(address)} 00000000") for each in range(count)]
    return b"".join(map(marked, calls))


def rows_of(count, address, first=0):
    """Those rows in a reply of versions 3 and 4 (RFC 1833 section 2.1)."""
    return "".join(f"00000001 {key(first + each)} {text(address)} {text(b'unknown')}" for each in range(count))


def ports_of(count):
    """Those rows at port 111 in a reply of version 2 (RFC 1833 section 3.1)."""
    return "".join(f"00000001 {each:08x} 00000001 00000006 0000006f" for each in range(count))


def dumped(*rows):
    return reply("00000000" + "".join(rows) + "00000000")


# The registry's own rows are removed by the superuser, so that there is none.
REMOVED = b"".join(
    marked(called(ROOT, 4, RPCBPROC_UNSET, f"000186a0 {vers:08x} 00000000 00000000 00000000", "")[0])
    for vers in (2, 3, 4)
)
LONG = b"a" * 256
FULL, LONG_FULL = sets(1018, EVERY_HOST), sets(1018, LONG)
ROWS_225 = rows_of(224, LONG) + rows_of(1, b"a" * 32, 224)
# What was served before, the version of a DUMP, its transport and its reply: of 1024 rows, with 297256 bytes of the
# others at the longest address; of 306 rows, for which a datagram of 65507 bytes has no room and a record has; and a
# reply is a multiple of four bytes: 65504 have room in a datagram, and 65508 have none.
DUMPS = [
    (FULL, 2, TCP, dumped(OWN, ports_of(1018))),
    (LONG_FULL, 3, TCP, dumped(OWN_ROWS, rows_of(1018, LONG))),
    (LONG_FULL, 4, TCP, dumped(OWN_ROWS, rows_of(1018, LONG))),
    (sets(300, LONG), 4, UDP, FAILED),
    (sets(300, LONG), 4, TCP, dumped(OWN_ROWS, rows_of(300, LONG))),
    (REMOVED + sets(224, LONG) + sets(1, b"a" * 32, 224), 4, UDP, dumped(ROWS_225)),
    (REMOVED + sets(224, LONG) + sets(1, b"a" * 33, 224), 4, UDP, FAILED),
]
# A row that user 1001 sets in the name of the superuser; all rows without it, and with it.
SET_7, SET_7_REPLY = called(USER_1001, 3, RPCBPROC_SET, f"{TCP_7} {AT_9} {OWNER}", SUCCESS + "00000001")
DUMP_3 = call(3, RPCBPROC_DUMP, "")
WITHOUT_7, WITH_7 = dumped(OWN_ROWS), dumped(OWN_ROWS, f"00000001 {TCP_7} {AT_9} {text(b'1001')}")
# What stands there, what was served before, the record, what is answered, and what stands there then. A reply stands
# behind what stood there, and silence leaves it.
APPENDED = [
    (b"\1\2", b"", SET_7, "reply", b"\1\2" + SET_7_REPLY),
    (b"", marked(SET_7), SET_7, "reply", reply(SUCCESS + "00000000")),
    (b"\1\2", marked(SET_7), octets("00000001"), "no reply", b"\1\2"),
]


def done(records, replies):
    return f"{records} records, {replies} replies"


def no_receive(count):
    return f"read fault after {count}"


def no_send(count):
    return f"write fault after {count}"


# Datagrams that wait, how many are served and how many then, the receive or send that fails, both answers, what is
# sent, and whether the row is there afterwards. An empty datagram and a call, no datagram, each call of two datagrams
# failing, none left, and one that waits on: a datagram without reply wants no send. A third is left to the next call. A
# row stays that was set by a call whose reply could not be sent, and a failed receive sets none.
NONE = done(0, 0)
DATAGRAMS = [
    ([b"", NULL], (2, 0), 0, (done(2, 1), NONE), [NULL_REPLY], False),
    ([NULL], (0, 0), 0, (NONE, NONE), [], False),
    ([NULL, NULL], (2, 0), 1, (no_receive(0), NONE), [], False),
    ([NULL, NULL], (2, 0), 2, (no_send(0), NONE), [], False),
    ([NULL, NULL], (2, 0), 3, (no_receive(1), NONE), [NULL_REPLY], False),
    ([NULL, NULL], (2, 0), 4, (no_send(1), NONE), [NULL_REPLY], False),
    ([NULL, NULL], (2, 0), 5, (done(2, 2), NONE), [NULL_REPLY, NULL_REPLY], False),
    ([b"", NULL], (2, 0), 2, (no_receive(1), NONE), [], False),
    ([NULL], (2, 0), 0, (no_receive(1), NONE), [NULL_REPLY], False),
    ([NULL, NULL], (1, 0), 0, (done(1, 1), NONE), [NULL_REPLY], False),
    ([SET, GETPORT], (2, 0), 0, (done(2, 2), NONE), [IS_SET, PORT], True),
    ([GETPORT, SET], (2, 0), 0, (done(2, 2), NONE), [NO_PORT, IS_SET], True),
    ([NULL, SET, GETPORT], (2, 1), 0, (done(2, 2), done(1, 1)), [NULL_REPLY, IS_SET, PORT], True),
    ([SET, GETPORT], (1, 1), 2, (no_send(0), done(1, 1)), [PORT], True),
    ([SET], (1, 0), 1, (no_receive(0), NONE), [], False),
]
# Rows over datagrams whose growths are refused: what was served before, the datagrams, the reply, what is asked
# afterwards, and what it tells then and where the one call was missed. The last is of a registry of 306 rows: a DUMP
# afterwards tells all as they were.
CROWD = sets(300, EVERY_HOST)
ASKED_AGAIN = marked(SET) + ASKED_AFTER
KEPT, ROW = dumped(OWN, ports_of(300)), "00000001 20000000 00000001 00000006 00000801"
REFUSED_TO = [
    (b"", [NULL], NULL_REPLY, ASKED_AFTER, told_after(False), told_after(False)),
    (b"", [NULL, b""], NULL_REPLY, ASKED_AFTER, told_after(False), told_after(False)),
    (b"", [SET], IS_SET, ASKED_AGAIN, marked(NO_PORT) + told_after(True), marked(IS_SET) + told_after(True)),
    (b"", [GETPORT], NO_PORT, marked(GETPORT), marked(NO_PORT), marked(NO_PORT)),
    (CROWD, [SET], IS_SET, marked(DUMP), marked(dumped(OWN, ports_of(300), ROW)), marked(KEPT)),
]
NULL_TOLD = f"reply to 1, verifier {NO_AUTH}, SUCCESS "
PORT_TOLD = f"reply to 1, verifier {NO_AUTH}, SUCCESS 00000801"
# The datagram that comes for the null call, if one does, the send or receive that fails, and what is told; the call is
# sent where its send does not fail. A reply with and without results, and one that denies; a reply with another xid; no
# reply, by each of its faults; a send and a receive that fails, and a receive where no datagram comes.
EXCHANGED = [
    (NULL_REPLY, 0, NULL_TOLD),
    (PORT, 0, PORT_TOLD),
    (octets("00000001 00000001 00000001 00000001 00000005"), 0, "denial to 1, AUTH_ERROR 5"),
    (octets("00000002 00000001 00000000 00000000 00000000 00000000"), 0, "refused WrongXid 2"),
    (b"", 0, "refused Truncated"),
    (octets("00000001"), 0, "refused Truncated"),
    (NULL, 0, "refused NotAReply"),
    (octets("00000001 00000001 00000002"), 0, "refused BadStatus"),
    (octets("00000001 00000001 00000000 00000000 00000191 00000000"), 0, "refused BadAuth"),
    (octets("00000001 00000001 00000000 00000000 00000000 00000003 00"), 0, "refused Rest"),
    (NULL_REPLY, 1, "write fault after 0"),
    (NULL_REPLY, 2, "read fault"),
    (NULL_REPLY, 3, NULL_TOLD),
    (None, 0, "read fault"),
]
