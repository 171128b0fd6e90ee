"""Words of the program that ask for a network: what they ask of it, what they send, and what is printed of a reply.

Expected bytes are those of RFC 5531 sections 8, 9 and 11 and of its appendix A, of RFC 4506 section 4, and of RFC 1833
sections 2.2.1 and 3.2. A program that a registry is asked for is at port 2049.
"""
import collections

from refuse_use.called import NOBODY, auth_sys, opaque, words

# The words; the name that is looked up, if one is; to what is connected, in order; for how many seconds is waited, if
# that has an end; what is sent to the program behind its xid, and the xid, if one is asked for; the results that come;
# the status, what is printed on each stream; the input.
Asked = collections.namedtuple(
    "Asked", "line looked connected seconds sent results output faults status xid given", defaults=(b"", 0, None, b"")
)
# Where the words refuse it all: nothing is asked of a network.
UNASKED = None, [], None, None, b"", b""


def call(program, version, procedure, arguments=b"", cred=NOBODY):
    """A call behind its xid."""
    return words(0, 2, program, version, procedure) + cred + NOBODY + arguments


def dump(version):
    """The call of the registry for its rows, of which there is none."""
    return call(100000, version, 4)


# What 'info' prints of no rows.
LINE_2, LINE_4 = b"program vers prot port\n", b"program vers netid address owner\n"
NONE = words(0)
INFOS = [
    Asked(["info", "localhost", "111"], "localhost", ["tcp 127.0.0.1 111"], None, dump(4), NONE, LINE_4),
    Asked(["info", "127.0.0.1", "0", "--vers", "2"], None, ["tcp 127.0.0.1 0"], None, dump(2), NONE, LINE_2),
    Asked(["info", "--vers=3", "", "65535"], "", ["tcp 127.0.0.1 65535"], None, dump(3), NONE, LINE_4),
    Asked(["info", "::1", "+007", "--vers", "04"], None, ["tcp ::1 7"], None, dump(4), NONE, LINE_4),
    Asked(["info", "localhost", "111", "--udp"], "localhost", ["udp 127.0.0.1 111"], 10, dump(4), NONE, LINE_4),
    Asked(["info", "--udp", "--vers=2", "a", "1"], "a", ["udp 127.0.0.1 1"], 10, dump(2), NONE, LINE_2),
    Asked(["info", "a", "1", "--timeout", "1"], "a", ["tcp 127.0.0.1 1"], 1, dump(4), NONE, LINE_4),
    Asked(["info", "--timeout=4294967295", "a", "1"], "a", ["tcp 127.0.0.1 1"], 4294967295, dump(4), NONE, LINE_4),
    Asked(
        ["info", "--timeout=4294967295", "a", "1", "--udp"],
        "a",
        ["udp 127.0.0.1 1"],
        4294967295,
        dump(4),
        NONE,
        LINE_4,
    ),
]
# The files of the rows, which are one text in their order: procedures with and without an argument, and with results of
# three and of four levels, of any level and of any length.
FILES = {
    "x": b"""struct s { int n; }; struct t { s inner; }; struct u { t outer; }; typedef a a<>; typedef opaque o<>;
    program b { version c {""",
    "y": b"""void d(void) = 0; int e(int) = 1; t f(void) = 2; u g(void) = 3; o h(void) = 4; a i(void) = 5;
    int k(o) = 6; } = 2; } = 7;""",
    "z": b"program b { version c { void d(void) = 0; } = 2; } = 7;",
}
NAMED = ["--types=x", "--types", "y"]
SEVEN, NOT_NAMED = words(7), b"not PROGRAM.VERSION.PROCEDURE\n"
BY_REGISTRY = ["tcp 127.0.0.1 111", "tcp 127.0.0.1 2049"]
SIXTEEN = ",".join(map(str, range(1, 17)))
# The longest content of a value within the limit on its bytes where none is named, 16777216.
LONGEST = 16777212


def of_caller(*more):
    return ["call", "a", "b.c.d", *more, *NAMED]


def by_port(name, *more):
    return ["call", "a", name, "--port=1", *more, *NAMED]


# Where a name is refused, the rows behind have the same words but for that one and its files.
CALLS = [
    Asked(["call", "localhost", "100000.2.0"], "localhost", BY_REGISTRY, 10, call(100000, 2, 0), b"", b"{}\n"),
    Asked(
        ["call", "a", "b.c.d", *NAMED, "--udp", "--port", "0"],
        "a", ["udp 127.0.0.1 0"], 10, call(7, 2, 0), b"", b"{}\n",
    ),
    Asked(
        ["call", "--xid", "0", "--timeout=1", "a", "--arguments", "", "b", "--text"],
        *UNASKED, NOT_NAMED, 2, given=b"7",
    ),
    Asked(
        ["call", "--xid", "0", "--timeout=1", "a", "--arguments", "", "b.c.e", "--text", *NAMED],
        *UNASKED, b"refused NotJson at 1:1\n", 2, given=b"7",
    ),
    Asked(
        ["call", "--xid", "0", "--timeout=1", "a", "--arguments", "7", "b.c.e", "--text", *NAMED],
        "a", BY_REGISTRY, 1, call(7, 2, 1, SEVEN), words(0xFFFFFFFF), b"-1\n", xid=0,
    ),
    Asked(
        ["call", "--xid", "0", "--timeout=1", "a", "b.c.f", "--text", *NAMED],
        "a", BY_REGISTRY, 1, call(7, 2, 2), SEVEN, b"struct\n  inner: struct\n    n: 7\n", xid=0,
    ),
    Asked(
        ["call", "a", "b.c.e", "--hex", "--xid=4294967295", "--timeout=4294967295", "--port=65535", *NAMED],
        "a", ["tcp 127.0.0.1 65535"], 4294967295, call(7, 2, 1, SEVEN), words(0xFFFFFFFF), b"ffffffff\n",
        xid=0xFFFFFFFF, given=b"7",
    ),
    Asked(
        ["call", "a", "b.c.f", "--indent", "--depth", "3", "--bytes", "8", "--uid=0", "--gid=7", *NAMED],
        "a", BY_REGISTRY, 10, call(7, 2, 2, cred=auth_sys(b"", 0, 7)), SEVEN,
        b'{\n  "inner": {\n    "n": 7\n  }\n}\n',
    ),
    Asked(
        ["call", "a", "b.c.g", "--indent", "--depth", "3", "--bytes", "8", "--uid=0", "--gid=7", *NAMED],
        "a", BY_REGISTRY, 10, call(7, 2, 3, cred=auth_sys(b"", 0, 7)), SEVEN, b"",
        b"result refused TooDeep at 0\n", 1,
    ),
    Asked(
        ["call", "a", "b.c.h", "--indent", "--depth", "3", "--bytes", "8", "--uid=0", "--gid=7", *NAMED],
        "a", BY_REGISTRY, 10, call(7, 2, 4, cred=auth_sys(b"", 0, 7)), opaque(b"1234"), b'"31323334"\n',
    ),
    Asked(
        ["call", "a", "b.c.h", "--indent", "--depth", "3", "--bytes", "8", "--uid=0", "--gid=7", *NAMED],
        "a", BY_REGISTRY, 10, call(7, 2, 4, cred=auth_sys(b"", 0, 7)), opaque(b"12345"), b"",
        b"result refused TooLarge at 8\n", 1,
    ),
    Asked(
        of_caller("--uid=4294967295", "--gid=1", "--gids=2,0,4294967295", "--machine=box"),
        "a", BY_REGISTRY, 10, call(7, 2, 0, cred=auth_sys(b"box", 0xFFFFFFFF, 1, 2, 0, 0xFFFFFFFF)), b"", b"{}\n",
    ),
    Asked(
        of_caller("--uid=1", "--gid=1", f"--gids={SIXTEEN}"),
        "a", BY_REGISTRY, 10, call(7, 2, 0, cred=auth_sys(b"", 1, 1, *range(1, 17))), b"", b"{}\n",
    ),
    # The limits on depth and on bytes where none is named, and no caller.
    Asked(
        by_port("b.c.i"), "a", ["tcp 127.0.0.1 1"], 10, call(7, 2, 5), words(*[1] * 4095, 0),
        b"[" * 4096 + b"]" * 4096 + b"\n",
    ),
    Asked(
        by_port("b.c.i"), "a", ["tcp 127.0.0.1 1"], 10, call(7, 2, 5), words(*[1] * 4096, 0), b"",
        b"result refused TooDeep at 16384\n", 1,
    ),
]


def long_calls():
    """The longest argument where no limit is named, and one that is longer."""
    content, digits, longer = bytes(LONGEST), b"00" * LONGEST, b'"' + b"00" * (LONGEST + 1) + b'"'
    sent = call(7, 2, 6, opaque(content))
    yield Asked(by_port("b.c.k"), "a", ["tcp 127.0.0.1 1"], 10, sent, SEVEN, b"7\n", given=b'"' + digits + b'"')
    yield Asked(by_port("b.c.k"), *UNASKED, b"refused TooLarge at 1:%d\n" % (len(longer) + 1), 2, given=longer)


# The same of a ping, whose line does not tell how long it took where the clock stands still.
PINGED = b"100000 0 answered in 0 microseconds\n"
PINGS = [
    Asked(["ping", "localhost", "100000"], "localhost", BY_REGISTRY, 10, call(100000, 0, 0), b"", PINGED),
    Asked(["ping", "a", "", "--count=0", "--timeout", "9"], *UNASKED, b"no such program\n", 2),
    Asked(["ping", "a", "7", "--count=0", "--timeout", "9"], "a", BY_REGISTRY[:1], 9, None, b"", b""),
    Asked(
        ["ping", "--udp", "a", "b.c", "--types=z", "--count", "2", "--port=1"],
        "a", ["udp 127.0.0.1 1"] * 2, 10, call(7, 2, 0), b"", b"7 2 answered in 0 microseconds\n" * 2,
    ),
]
# A ping that goes on as long as it may, and the line that it prints again and again.
ENDLESS = ["ping", "--udp", "a", "b.c", "--types=z", "--count", "4294967295", "--port=1"]
ENDLESS_LINE = b"7 2 answered in 0 microseconds\n"
# A registry that is served to so many: the words, the port, how many clients and datagrams come, and whether it ends.
COUNTED = [
    (["serve", "--port", "0", "--count", "1"], 0, 1, 0, True),
    (["serve", "--count=4294967295", "--port=65535"], 65535, 3, 0, False),
    (["serve", "--port", "111", "--count", "0", "--datagrams", "4294967295"], 111, 0, 3, False),
    (["serve", "--datagrams=+07", "--port=1", "--count=2"], 1, 2, 7, True),
]
# A registry that is kept: the words, the address, the port, how many connections may be open, if that is looked at, for
# how many seconds one may be idle, whether each has a line, whether callers of other hosts may change rows, and the
# path of its Unix socket.
Kept = collections.namedtuple("Kept", "line address port connections idle verbose insecure local")
KEPT = [
    Kept(["serve", "--port", "111"], "127.0.0.1", 111, 1024, 60, False, False, None),
    Kept(["serve", "--verbose", "--port=0", "--bind", "0.0.0.0"], "0.0.0.0", 0, 1024, 60, True, False, None),
    Kept(["serve", "--idle=1", "--connections=1", "--port=65535"], "127.0.0.1", 65535, 1, 1, False, False, None),
    Kept(
        ["serve", "--port", "1", "--bind=10.20.30.255", "--idle", "4294967295", "--connections", "1048576"],
        "10.20.30.255", 1, 1048576, 4294967295, False, False, None,
    ),
    Kept(["serve", "--port=1", "--insecure"], "127.0.0.1", 1, None, 60, False, True, None),
    Kept(
        ["serve", "--port=1", "--local", "run/rpcbind.sock"],
        "127.0.0.1", 1, None, 60, False, False, "run/rpcbind.sock",
    ),
    Kept(["serve", "--local=a b", "--insecure", "--port=1"], "127.0.0.1", 1, None, 60, False, True, "a b"),
]
