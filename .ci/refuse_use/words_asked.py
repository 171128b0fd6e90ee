"""Words of the program that need no network: what they ask for, as it shows on both streams, and words that are
refused.

Values are those of RFC 4506 section 4, and JSON that of docs/FORMATS.md.
"""
from refuse_use.packets import CLIENT, classic, datagram


def pack(*numbers):
    """Unsigned integers (RFC 4506 section 4.2)."""
    return b"".join(number.to_bytes(4, "big") for number in numbers)


# A list of lists, an optional that holds itself, and how deep they go: so many words of 1 and then one of 0 are an
# array one deeper, and an optional twice as deep and two more.
ARRAYS, OPTIONALS = b"typedef a a<>;", b"struct o { o *x; };"
ONE = pack(0xFFFFFFFF)
# The limit on the bytes of a value and of a record where none is named, and the longest content of a value within it.
MOST, LONGEST = 16777216, 16777212


def deep(count):
    return pack(*[1] * count, 0)


def optionals(count):
    """So many optionals in one another as JSON."""
    return b'{"x":' * count + b'{"x":null}' + b"}" * count


# Words, files and what is in them, the input, the status, and what is printed on each stream. Where a name or a limit
# is refused, or would show nothing, the row behind has the same words but for that one.
VALUES = [
    # No word asks for an opaque in hexadecimal.
    ([], {}, b"00000003 61626300\n", 0, b"ok 8\n", b""),
    # Bytes as they are; the limit on depth where none is named; limits with zeros or a sign before them.
    (["check", "--name", "int"], {}, pack(42), 0, b"ok 4\n", b""),
    (["check", "--name", "int"], {}, b"0000002a", 0, b"ok 4, more follows\n", b""),
    (["check", "--name", "a", "--types", "a"], {"a": ARRAYS}, deep(4095), 0, b"ok 16384\n", b""),
    (["check", "--name", "a", "--types", "a"], {"a": ARRAYS}, deep(4096), 1, b"refused TooDeep at 16384\n", b""),
    (["check", "--bytes=007", "--hex", "--depth", "+5", "--name", ""], {}, b"00", 2, b"", b"no such name: \n"),
    (["check", "--bytes=007", "--hex", "--depth", "+5", "--name", "int"], {}, b"00", 2, b"", b"limits refused\n"),
    (
        ["check", "--bytes=008", "--hex", "--depth", "+5", "--name", "opaque"],
        {},
        b"0000000461626364",
        0,
        b"ok 8\n",
        b"",
    ),
    (
        ["check", "--bytes=008", "--hex", "--depth", "+5", "--name", "opaque"],
        {},
        b"0000000561626364",
        1,
        b"refused TooLarge at 8\n",
        b"",
    ),
    (
        ["check", "--bytes=0040", "--hex", "--depth", "+5", "--name", "a", "--types=a"],
        {"a": ARRAYS},
        deep(4).hex().encode(),
        0,
        b"ok 20\n",
        b"",
    ),
    (
        ["check", "--bytes=0040", "--hex", "--depth", "+5", "--name", "a", "--types=a"],
        {"a": ARRAYS},
        deep(5).hex().encode(),
        1,
        b"refused TooDeep at 20\n",
        b"",
    ),
    # Files: of one name, in a folder, with an empty name, and one that is named twice with another between.
    (["check", "--types", "a.x", "--name", "int"], {"a.x": b"typedef int x;"}, ONE, 0, b"ok 4\n", b""),
    (["check", "--types", "a.x", "--name", "int"], {"a.x": b"@"}, ONE, 2, b"", b"declaration refused: 1 at 1:1\n"),
    (
        ["show", "--types=b/c.x", "--name", "1.2.3.result", "--hex"],
        {"b/c.x": b"program P { version V { int F(void) = 3; } = 2; } = 1;"},
        b"ffffffff",
        0,
        b"-1\nok 4\n",
        b"",
    ),
    (["show", "--name", "list", "--types", ""], {}, b"", 3, b"", b"read fault\n"),
    (
        ["show", "--types", "b", "--name", "int", "--types=a", "--types", "b"],
        {"a": b"\n", "b": b" "},
        ONE,
        0,
        b"-1\nok 4\n",
        b"",
    ),
    (
        ["show", "--types", "b", "--name", "int", "--types=a", "--types", "b"],
        {"a": b" x; ", "b": b"typedef int"},
        ONE,
        2,
        b"",
        b"declaration refused: 3 at b:1:12\n",
    ),
    # The least limits, and the greatest where none is named, of lines.
    (["show", "--name", "int", "--depth", "1", "--bytes", "4"], {}, ONE, 0, b"-1\nok 4\n", b""),
    (["show", "--name", "hyper", "--depth", "1", "--bytes", "4"], {}, ONE, 1, b"refused TooLarge at 4\n", b""),
    (
        ["show", "--name", "a", "--depth", "1", "--bytes", "8", "--types", "a"],
        {"a": ARRAYS},
        deep(1),
        1,
        b"refused TooDeep at 4\n",
        b"",
    ),
    (["show", "--name", "a", "--types", "a"], {"a": ARRAYS}, deep(4096), 1, b"refused TooDeep at 16384\n", b""),
    # Rpcgen's dialect, without a name that is defined and with one and two, before and behind the files.
    (
        ["check", "--name", "int", "--types", "a", "--dialect", "rpcgen"],
        {"a": b"%no text\n#ifdef A\n@\n#endif\n"},
        ONE,
        0,
        b"ok 4\n",
        b"",
    ),
    (
        ["show", "--dialect=rpcgen", "--types", "a", "--types", "b", "--name", "int"],
        {"a": b"%no text\ntypedef int", "b": b" x;"},
        ONE,
        0,
        b"-1\nok 4\n",
        b"",
    ),
    (
        ["check", "--define", "RPC_XDR", "--types", "a", "--name", "int", "--dialect", "rpcgen"],
        {"a": b"#ifdef RPC_XDR\nconst X = 1;\n#endif\nconst Y = X;\n"},
        ONE,
        0,
        b"ok 4\n",
        b"",
    ),
    (
        ["show", "--name", "int", "--types", "a", "--dialect", "rpcgen", "--define=B", "--define", "A"],
        {"a": b"#ifdef A\nconst X = 1;\n#endif\n#ifdef B\nconst Y = X;\n#endif\ntypedef int z<Y>;\n"},
        ONE,
        0,
        b"-1\nok 4\n",
        b"",
    ),
    # JSON, on a line and on several.
    (["show", "--json", "--name", "int"], {}, ONE, 0, b"-1\n", b""),
    (["show", "--json", "--name", "int"], {}, b"ffffffff", 0, b"1717986918\n", b"ok 4, more follows\n"),
    (
        ["show", "--indent", "--name", "a", "--types", "a.x", "--json", "--hex"],
        {"a.x": b"struct a { int b; };"},
        b"ffffffff",
        0,
        b'{\n  "b": -1\n}\n',
        b"",
    ),
    (
        ["show", "--json", "--name", "a", "--types", "a.x", "--dialect", "rpcgen", "--depth", "9"],
        {"a.x": b"%\n" + ARRAYS},
        deep(8),
        0,
        b"[" * 9 + b"]" * 9 + b"\n",
        b"",
    ),
    (
        ["show", "--json", "--name", "a", "--types", "a.x", "--dialect", "rpcgen", "--depth", "9"],
        {"a.x": b"%\n" + ARRAYS},
        deep(9),
        1,
        b"",
        b"refused TooDeep at 36\n",
    ),
    (
        ["show", "--json", "--name", "a", "--types", "a"],
        {"a": ARRAYS},
        deep(4096),
        1,
        b"",
        b"refused TooDeep at 16384\n",
    ),
    # Values from JSON, as bytes and as hexadecimal, and the limits where none is named.
    (["encode", "--name", "int"], {}, b"7", 0, pack(7), b""),
    (["encode", "--name", "o", "--types", "a"], {"a": OPTIONALS}, optionals(2047), 0, deep(2047), b""),
    (
        ["encode", "--name", "o", "--types", "a"],
        {"a": OPTIONALS},
        optionals(2048),
        1,
        b"",
        b"refused TooDeep at 1:%d\n" % (len(optionals(2048)) + 1),
    ),
]
# The words of one row, over two files that are one text in their order, with a name that is defined.
ALL_WORDS = ["encode", "--hex", "--types=a", "--bytes", "8", "--dialect=rpcgen", "--define=A", "--depth=2", "--types=b"]
ALL_WORDS += ["--name=c"]
IN_ORDER = {"a": b"#ifdef A\ntypedef int d<>;\ntypedef d c\n", "b": b"<>;\n#endif\n"}
VALUES += [
    (ALL_WORDS, IN_ORDER, b"[[]]", 0, b"0000000100000000\n", b""),
    (ALL_WORDS, IN_ORDER, b"[[1]]", 1, b"", b"refused TooDeep at 1:6\n"),
    (ALL_WORDS, IN_ORDER, b"[[],[]]", 1, b"", b"refused TooLarge at 1:8\n"),
]
# The same of what texts declare, and of streams of records (RFC 5531 section 11).
DECLARED = b"program Q { version W { void B(void) = 1; } = 1; } = 6;"
TYPES = [
    (["types"], {}, b"", 0, b"", b""),
    (
        ["types", "--json", "--types", "a"],
        {"a": b"const A = 1;"},
        b"",
        0,
        b'{"constants":[{"name":"A","value":1}],"types":[],"programs":[]}\n',
        b"",
    ),
    (
        ["types", "--types=b", "--define", "A", "--dialect", "rpcgen", "--types=a"],
        {"a": b"const Y = 2;\n#endif\n", "b": b"#ifdef A\nconst X = 1;\n"},
        b"",
        0,
        b"const X 1\nconst Y 2\n",
        b"",
    ),
]
# A call of procedure 1 of version 1 of a program, and the counts behind so many calls and replies, each of which is judged.
def called(program):
    return pack(0x80000000 + 40, 7, 0, 2, program, 1, 1, 0, 0, 0, 0)


def counts(calls, replies):
    return b"calls %d replies %d others 0 refused 0 unjudged 0 unasked 0\n" % (calls, replies)


MESSAGES = [
    (["messages"], {}, b"", 0, counts(0, 0), b""),
    (
        ["messages", "--types=a", "--json", "--types", "b"],
        {"a": b"program P { version V { void A(void) = 1; } = 1; } = 5;", "b": DECLARED},
        called(6),
        0,
        b'{"type":"call","xid":7,"program":6,"version":1,"procedure":1,"name":"B","flavor":"AUTH_NONE","arguments":[]}\n'
        b'{"type":"counts","calls":1,"replies":0,"others":0,"refused":0,"unjudged":0,"unasked":0}\n',
        b"",
    ),
    (
        ["messages", "--types=b", "--replies", "r"],
        {"b": DECLARED, "r": pack(0x80000000 + 24, 7, 1, 0, 0, 0, 0)},
        called(6),
        0,
        b"call 7 6.1.1 B AUTH_NONE\nreply 7 6.1.1 B SUCCESS\n" + counts(1, 1),
        b"",
    ),
    (
        ["messages", "--json", "--brief", "--types=b"],
        {"b": DECLARED},
        called(6),
        0,
        b'{"type":"call","xid":7,"program":6,"version":1,"procedure":1,"name":"B","flavor":"AUTH_NONE"}\n'
        b'{"type":"counts","calls":1,"replies":0,"others":0,"refused":0,"unjudged":0,"unasked":0}\n',
        b"",
    ),
]
# What a call has behind the header of its record, and a datagram with it.
ASKED = called(6)[4:]
FROM = b"127.0.0.1:700 > 127.0.0.1:%d "


def to_port(port):
    return datagram(CLIENT, (CLIENT[0], port), ASKED)


CAPTURES = [
    (["capture", "-"], {}, classic([]), 0, counts(0, 0), b""),
    (["capture", "c.pcap"], {"c.pcap": classic([])}, b"", 0, counts(0, 0), b""),
    # A call to each of three ports, of which two are named.
    (
        ["capture", "--port", "2049", "c.pcap", "--port=111", "--types=b"],
        {"c.pcap": classic([to_port(port) for port in (2049, 112, 111)], 101), "b": DECLARED},
        b"",
        0,
        b"1 1.000000000 " + FROM % 2049 + b"call 7 6.1.1 B AUTH_NONE\n3 1.000002000 " + FROM % 111
        + b"call 7 6.1.1 B AUTH_NONE\n" + counts(2, 0),
        b"",
    ),
    (
        ["capture", "--json", "--types=a", "-", "--stats", "--types", "b"],
        {"a": b"program P { version V { void A(void) = 1; } = 1; } = 5;", "b": DECLARED},
        classic([to_port(111)], 101),
        0,
        b'{"type":"procedure","name":"6.1.1 B","calls":1,"replies":0,"refused":0}\n'
        b'{"type":"counts","calls":1,"replies":0,"others":0,"refused":0,"unjudged":0,"unasked":0}\n',
        b"",
    ),
]
RECORDS = [
    (["records"], {}, pack(0x80000000 + MOST + 1), 1, b"", b"refused TooLong at 0\n"),
    (["records", "--limit", "4294967295", "--hex"], {}, b"00", 2, b"", b"limits refused\n"),
    (["records", "--limit", "2147483647", "--hex"], {}, b"ffffffff", 1, b"\n", b"refused Truncated at 4\n"),
    (["records", "--limit", "2147483647", "--hex"], {}, b"80000001 61", 0, b"8000000161\n", b""),
]


def long_rows():
    """The same of the longest values and the longest record where no limit is named, and of what is longer."""
    whole, above = pack(LONGEST) + bytes(LONGEST), pack(MOST) + bytes(LONGEST)
    too_large = b"refused TooLarge at 16777216\n"
    yield ["check", "--name", "opaque"], {}, whole, 0, b"ok 16777216\n", b""
    yield ["check", "--name", "opaque"], {}, above, 1, too_large, b""
    yield ["show", "--name", "opaque"], {}, whole, 0, b"0x" + b"00" * LONGEST + b"\nok 16777216\n", b""
    yield ["show", "--name", "opaque"], {}, above, 1, too_large, b""
    digits = b'"' + b"00" * LONGEST + b'"'
    yield ["show", "--json", "--name", "opaque"], {}, whole, 0, digits + b"\n", b""
    yield ["show", "--json", "--name", "opaque"], {}, above, 1, b"", too_large
    yield ["encode", "--name", "opaque"], {}, digits, 0, whole, b""
    longer = b'"' + b"00" * (LONGEST + 1) + b'"'
    yield ["encode", "--name", "opaque"], {}, longer, 1, b"", b"refused TooLarge at 1:%d\n" % (len(longer) + 1)
    record = pack(0x80000000 + MOST) + bytes(MOST)
    yield ["records"], {}, record, 0, record, b""


# Words that ask for nothing: clap says why on standard error.
REFUSED = [
    ["check"],
    ["nope"],
    ["show"],
    ["show", "--types", "a.x"],
    ["records", "--types", "a.x"],
    ["capture"],
    ["capture", "-", "--port", "65536"],
    ["capture", "-", "c.pcap"],
    ["capture", "-", "--brief", "--stats"],
    ["messages", "--brief=1"],
    ["info"],
    ["info", "localhost"],
    ["info", "localhost", "65536"],
    ["info", "localhost", "rpcbind"],
    ["info", "localhost", "111", "112"],
    ["info", "localhost", "111", "--vers", "1"],
    ["info", "localhost", "111", "--vers", "5"],
    ["info", "localhost", "111", "--udp=1"],
    ["info", "localhost", "111", "--udp", "--udp"],
    ["info", "localhost", "111", "--timeout", "0"],
    ["info", "localhost", "111", "--timeout", "4294967296"],
    ["call"],
    ["call", "localhost"],
    ["call", "localhost", "1.1.1", "2"],
    ["call", "localhost", "1.1.1", "--port", "65536"],
    ["call", "localhost", "1.1.1", "--timeout", "0"],
    ["call", "localhost", "1.1.1", "--xid", "-1"],
    ["call", "localhost", "1.1.1", "--uid", "1"],
    ["call", "localhost", "1.1.1", "--gid", "1"],
    ["call", "localhost", "1.1.1", "--gids", "1"],
    ["call", "localhost", "1.1.1", "--machine", "a"],
    ["call", "a", "1.1.1", "--uid=1", "--gid=1", "--gids="],
    ["call", "a", "1.1.1", "--uid=1", "--gid=1", "--gids=1,"],
    ["call", "a", "1.1.1", "--uid=1", "--gid=1", "--gids=1,2,3,4,5,6,7,8,9,10,11,12,13,14,15,16,17"],
    ["call", "localhost", "1.1.1", "--text", "--hex"],
    ["call", "localhost", "1.1.1", "--text", "--indent"],
    ["call", "localhost", "1.1.1", "--hex", "--indent"],
    ["call", "localhost", "1.1.1", "--dialect", "rpcgen"],
    ["ping", "localhost"],
    ["ping", "localhost", "1", "--timeout", "0"],
    ["ping", "localhost", "1", "--count", "-1"],
    ["serve"],
    ["serve", "--count", "1"],
    ["serve", "--port", "65536", "--count", "1"],
    ["serve", "--port", "1", "--count", "4294967296"],
    ["serve", "--port", "1", "--datagrams", "1"],
    ["serve", "--bind", "127.0.0.1"],
    ["serve", "--port", "1", "--bind", "localhost"],
    ["serve", "--port", "1", "--bind", "::1"],
    ["serve", "--port", "1", "--bind", "127.0.0.256"],
    ["serve", "--port", "1", "--bind", ""],
    ["serve", "--port", "1", "--connections", "0"],
    ["serve", "--port", "1", "--connections", "1048577"],
    ["serve", "--port", "1", "--idle", "0"],
    ["serve", "--port", "1", "--idle", "4294967296"],
    ["serve", "--port", "1", "--verbose=1"],
    ["serve", "--port=1", "--count=1", "--bind=127.0.0.1"],
    ["serve", "--port=1", "--count=1", "--connections=9"],
    ["serve", "--port=1", "--count=1", "--idle=9"],
    ["serve", "--port=1", "--count=1", "--verbose"],
    ["serve", "--port=1", "--count=1", "--insecure"],
    ["serve", "--port=1", "--count=1", "--local=a"],
    ["serve", "--port", "1", "--count", "1", "--datagrams", "4294967296"],
    ["serve", "--port", "1", "--count", "1", "--datagrams", "-1"],
    ["check", "--name", "int", "--types"],
    ["show", "--name", "int", "--dialect", "rpcgen"],
    ["show", "--name", "int", "--types", "a", "--dialect", "rfc"],
    ["show", "--name", "int", "--types", "a", "--dialect"],
    ["check", "--name", "int", "--types", "a", "--dialect", "rpcgen", "--dialect", "rpcgen"],
    ["check", "--name", "int", "--types", "a", "--define", "A"],
    ["records", "--dialect", "rpcgen"],
    ["show", "--name", "int", "--indent"],
    ["show", "--name", "int", "--json", "--json"],
    ["check", "--name", "int", "--json"],
    ["check", "--name", "int", "--depth", "4294967296"],
    ["check", "--name", "int", "--depth", "-1"],
    ["check", "--name", "int", "--bytes", "0x8"],
    ["records", "--name", "int"],
    ["records", "--limit"],
    ["--hex"],
]
# Texts that no line '#ifdef' asks for, and names.
NO_NAMES = ["", "BIG=1", "BIG=", "9A", "A B", "A-B", " A", "É"]
NAMES = ["BIG", "_", "a", "A9", "RPC_HDR"]
