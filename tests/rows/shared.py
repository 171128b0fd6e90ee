"""Rows of more than one judge: texts of declarations, values, calls and streams of records, with what the RFCs want of
them."""
import collections

from .names import (
    GARBAGE_ARGS,
    PMAPPROC_CALLIT,
    PMAPPROC_DUMP,
    PMAPPROC_GETPORT,
    PMAPPROC_NULL,
    PMAPPROC_SET,
    PMAPPROC_UNSET,
    PROC_UNAVAIL,
    PROG_MISMATCH,
    PROG_UNAVAIL,
    RPCBPROC_DUMP,
    RPCBPROC_GETADDR,
    RPCBPROC_GETVERSADDR,
    RPCBPROC_SET,
    SUCCESS,
)

PIECES = (1, 3, 4096)
WIDEST = 16777216
# Texts of declarations, after RFC 4506 sections 4.19 and 7.
FILE = b"""enum filekind { TEXT = 0, DATA = 1, EXEC = 2 };
union filetype switch (filekind kind) {
case TEXT: void;
case DATA: string creator<255>;
case EXEC: string interpretor<255>;
};
struct file { string filename<255>; filetype type; string owner<32>; opaque data<65535>; };
"""
LIST = b"struct entry { string item<>; entry *next; };\ntypedef entry *list;\n"
MORE = b"""typedef opaque five<5>; typedef int big<>; typedef opaque six[6]; typedef hyper two[2];
typedef int few<2>;
union u switch (int n) { case 1: int x; }; union b switch (bool d) { case TRUE: string s<3>; default: void; };
"""
# Parts of one size inside nodes whose size varies, and a union and an optional over such parts.
PARTS = b"""enum color { RED = 2, BLUE = 5 };
struct point { int x; hyper y; };
struct held { string name<4>; point at; color hue; opaque tag[6]; int three[3]; hyper two[2]; bool flags[2]; };
typedef held helds<>;
union arm switch (color hue) { case RED: point p; default: int seven[7]; };
struct around { point *at; arm one; };
"""
HELD = """00000001 00000001 61000000 00000007 00000000 00000009 00000005 01020304 05060000
    00000001 00000002 00000003 00000000 00000001 ffffffff fffffffe 00000001 00000000"""
HELD_LINES = b"""list of 1
  struct
    name: "a"
    at: struct
      x: 7
      y: 9
    hue: BLUE = 5
    tag: 0x010203040506
    three: array of 3
      1
      2
      3
    two: array of 2
      1
      -2
    flags: array of 2
      TRUE
      FALSE
"""
AROUND = """00000001 fffffffd 00000001 00000000 00000005
    00000001 00000002 00000003 00000004 00000005 00000006 00000007"""
AROUND_LINES = b"""struct
  at: present
    struct
      x: -3
      y: 4294967296
  one: case BLUE = 5
    seven: array of 7
      1
      2
      3
      4
      5
      6
      7
"""
SILLYPROG = (
    "00000009 73696c6c 7970726f 67000000 " "00000002 00000004 6c697370 00000004 6a6f686e 00000006 28717569 74290000"
)
SILLYPROG_LINES = b"""struct
  filename: "sillyprog"
  type: case EXEC = 2
    interpretor: "lisp"
  owner: "john"
  data: 0x287175697429
"""
TWO_ENTRIES = "00000001 00000001 61000000 00000001 00000002 62630000 00000000"
TWO_LINES = b"""present
  struct
    item: "a"
    next: present
      struct
        item: "bc"
        next: absent
"""


# Values: the text, the kind, the bytes, how many of them are the value's, and its lines.
Whole = collections.namedtuple("Whole", "text name digits used lines")
WHOLE = [
    Whole(MORE, "five", "00000003 61626300", 8, b"0x616263\n"),
    Whole(b"", "opaque", "00000000 0000002a", 4, b"0x\n"),
    Whole(b"", "string", "00000003 22095c00 00", 8, b'"\\x22\\x09\\x5c"\n'),
    Whole(FILE, "file", SILLYPROG, 48, SILLYPROG_LINES),
    Whole(LIST, "list", TWO_ENTRIES, 28, TWO_LINES),
    Whole(LIST, "list", "00000000", 4, b"absent\n"),
    Whole(b"", "hyper", "80000000 00000000", 8, b"-9223372036854775808\n"),
    Whole(b"", "unsigned-hyper", "ffffffff ffffffff 00", 8, b"18446744073709551615\n"),
    Whole(b"", "int", "ffffffff", 4, b"-1\n"),
    Whole(b"", "int", "00000003 61626300", 4, b"3\n"),
    Whole(b"", "bool", "00000001", 4, b"TRUE\n"),
    Whole(MORE, "u", "00000001 00000007", 8, b"case 1\n  x: 7\n"),
    Whole(MORE, "few", "00000002 00000007 00000008 00000009", 12, b"list of 2\n  7\n  8\n"),
    Whole(PARTS, "helds", HELD, 72, HELD_LINES),
    Whole(PARTS, "around", AROUND, 48, AROUND_LINES),
]
# Refusals: the bytes within a limit, the reason, its place, the count of bytes after which it stands, and the limit on
# depth.
Refused = collections.namedtuple("Refused", "text name digits bytes why at stands depth", defaults=(4096,))
REFUSED = [
    Refused(MORE, "five", "00000003 61626301", WIDEST, "BadPadding", 4, 8),
    Refused(MORE, "five", "00000006 61626364", WIDEST, "TooLong", 0, 4),
    Refused(b"", "bool", "00000002 05000000 01", WIDEST, "BadBool", 0, 4),
    Refused(FILE, "filekind", "00000003", WIDEST, "BadNumbered", 0, 4),
    Refused(MORE, "u", "00000002 00000000 00", WIDEST, "BadCase", 0, 4),
    Refused(b"", "opaque", "00000008 61616161", 8, "TooLarge", 8, 8),
    Refused(LIST, "list", "00000001 00000001 61000000 00000002", WIDEST, "BadBool", 12, 16),
    # In the midst of parts of one size: no member and behind it bad padding, bad padding, a bad boolean that comes last.
    Refused(PARTS, "held", HELD[9:].replace("00000005", "00000003").replace("05060000", "05060001"), WIDEST,
            "BadNumbered", 20, 24),
    Refused(PARTS, "held", HELD[9:].replace("05060000", "05060100"), WIDEST, "BadPadding", 28, 32),
    Refused(PARTS, "held", HELD[9:-8] + "00000002", WIDEST, "BadBool", 64, 68),
    # The limit on bytes inside such a part, and the limit on depth at it.
    Refused(PARTS, "helds", HELD, 16, "TooLarge", 16, 16),
    Refused(PARTS, "around", AROUND, WIDEST, "TooDeep", 4, 4, 3),
]
# Bytes that only begin a value.
PENDING = [
    (b"", "string", "00000009 73696c6c 79", WIDEST),
    (b"", "opaque", "ffffffff 61", WIDEST),
    (MORE, "five", "00000005", WIDEST),
    (MORE, "big", "ffffffff 00000001", WIDEST),
    (LIST, "list", TWO_ENTRIES[:-9], WIDEST),
]
PING = b"program PING { version ONE { void NIL(void) = 0; string ECHO(string) = 1; } = 1; } = 536870912;\n"
# The types of the registry (RFC 1833 sections 2.1 and 3.1).
DIRECTORY = b"""struct rpcb { unsigned int r_prog; unsigned int r_vers; string r_netid<>; string r_addr<>;
string r_owner<>; };
struct rp__list { rpcb rpcb_map; rp__list *rpcb_next; };
typedef rp__list *rpcblist;
struct mapping { unsigned int prog; unsigned int vers; unsigned int prot; unsigned int port; };
struct pm__list { mapping map; pm__list *next; };
typedef pm__list *pmaplist;
"""
# Texts for the sweeps of growths, with and without a meaning.
TEXTS = [
    FILE,
    LIST,
    MORE,
    PING,
    DIRECTORY,
    b"",
    b"const A = 1; enum e { X = A, Y = 2 }; union u switch (e t) { case X: case Y: int x; };",
    b"program P { version V { void N(void) = 0; string E(string, unsigned hyper) = 1; } = 1; } = 536870912;",
    b"struct a { a x; };",
    b"struct s { t *x; int x; };",
    b"typedef a b; typedef b a;",
    b"/* x",
    b"const a = 08;",
]
LINES_4 = b"program vers netid address owner\n536870912 1 tcp 0.0.0.0.8.1 unknown\n"
ROW_4 = """00000001 20000000 00000001 00000003 74637000 0000000b 302e302e 302e302e 382e3100
    00000007 756e6b6e 6f776e00 00000000"""
REPLY = "00000001 00000001 00000000 00000000 00000000 "


def octets(digits):
    return bytes.fromhex(digits)


def word(number):
    return number.to_bytes(4, "big")


def marked(record, cut=0):
    """The record as fragments: one, or two where it is cut."""
    last = word(0x80000000 + len(record) - cut) + record[cut:]
    return word(cut) + record[:cut] + last if cut else last


def call(vers, proc, args, xid=1, prog=100000):
    fields = (xid, 0, 2, prog, vers, proc, 0, 0, 0, 0)
    return b"".join(map(word, fields)) + octets(args)


def reply(results, xid=1):
    return word(xid) + octets("00000001 00000000 00000000 00000000" + results)


MAPPING = "20000000 00000001 00000006 "
OWN = "".join(f"00000001 000186a0 0000000{vers} 000000{prot} 0000006f" for vers in (2, 3, 4) for prot in ("06", "11"))
# The same rows in versions 3 and 4 of the registry. A row of program 7 over `tcp`, its address, and an owner.
TCP_7 = "00000007 00000001 00000003 74637000"
AT_9 = "0000000b 312e322e 332e342e 302e3900"
OWNER = "00000009 73757065 72757365 72000000"


def own_row(vers, netid):
    return f"00000001 000186a0 {vers:08x} 00000003 {netid} 0000000d 302e302e 302e302e 302e3131 31000000 {OWNER}"


OWN_ROWS = " ".join(own_row(vers, netid) for vers in (2, 3, 4) for netid in ("74637000", "75647000"))
# A record, its replies without and with the row of version 1 of program 2^29, and whether the row is there afterwards:
# None where that does not change. A reply of None is silence (RFC 1833 sections 2.2 and 3.2, RFC 5531 section 9).
CALLS = [
    (call(2, PMAPPROC_NULL, ""), reply(SUCCESS), reply(SUCCESS), None),
    (call(2, PMAPPROC_SET, MAPPING + "00000801"), reply(SUCCESS + "00000001"), reply(SUCCESS + "00000000"), True),
    (
        call(3, RPCBPROC_GETADDR, "20000000 00000001 00000003 74637000 00000000 00000000"),
        reply(SUCCESS + "00000000"),
        reply(SUCCESS + "0000000b 302e302e 302e302e 382e3100"),
        None,
    ),
    (call(2, PMAPPROC_GETPORT, MAPPING + "00000000"), reply(SUCCESS + "00000000"), reply(SUCCESS + "00000801"), None),
    (
        call(2, PMAPPROC_DUMP, ""),
        reply("00000000" + OWN + "00000000"),
        reply("00000000" + OWN + "00000001" + MAPPING + "00000801 00000000"),
        None,
    ),
    (
        octets("00000002 00000000 00000003"),
        *[octets("00000002 00000001 00000001 00000000 00000002 00000002")] * 2,
        None,
    ),
    (octets("00000001 00000000 00000002 000186a0 00000002"), None, None, None),
    (call(5, 0, "", 3), *[reply(PROG_MISMATCH + "00000002 00000004", 3)] * 2, None),
    (call(2, PMAPPROC_CALLIT, "", 3), *[reply(PROC_UNAVAIL, 3)] * 2, None),
    (call(2, 0, "", 3, 100001), *[reply(PROG_UNAVAIL, 3)] * 2, None),
    (call(2, PMAPPROC_SET, "20000000 00000001 00000006", 3), *[reply(GARBAGE_ARGS, 3)] * 2, None),
    (
        octets("00000001 00000000 00000002 000186a0 00000002 00000000 00000000 00000191"),
        *[octets("00000001 00000001 00000001 00000001 00000001")] * 2,
        None,
    ),
    (call(2, PMAPPROC_UNSET, MAPPING + "00000000"), reply(SUCCESS + "00000000"), reply(SUCCESS + "00000001"), False),
]
NULL, SET, GETADDR, GETPORT, DUMP, *_others, UNSET = (row[0] for row in CALLS)
BY_RECORD = {row[0]: row for row in CALLS}
BY_RECORD.update({given: (given, None, None, None) for given in (b"", b"\0")})


def denied(number, xid=1):
    return word(xid) + octets("00000001 00000001 00000001") + word(number)


# Records that leave the rows as they are, and the reply: a verifier that is too long, a flavor that is not taken, 17
# gids, and the port and the address of the registry itself.
OWN_ADDRESS = reply(SUCCESS + "0000000d 302e302e 302e302e 302e3131 31000000")
FURTHER = [
    (octets("00000001 00000000 00000002 000186a0 00000002 00000000 00000000 00000000 00000000 00000191"), denied(3)),
    (octets("00000001 00000000 00000002 000186a0 00000002 00000000 00000006 00000000 00000000 00000000"), denied(2)),
    (
        octets("00000001 00000000 00000002 000186a0 00000002 00000000 00000001 00000058" + "00000000" * 4 + "00000011")
        + bytes(76),
        denied(1),
    ),
    (call(2, PMAPPROC_GETPORT, "000186a0 00000003 00000006 00000000"), reply(SUCCESS + "0000006f")),
    (call(3, RPCBPROC_GETADDR, "000186a0 00000004 00000000 00000000 00000000"), OWN_ADDRESS),
    (call(4, RPCBPROC_GETVERSADDR, "000186a0 00000004 00000000 00000000 00000000"), OWN_ADDRESS),
]
# Further records that take memory: rows set and removed by uid 1001, in versions 3 and 4, and all rows in version 4.
USER = "00000001 00000014 00000000 00000000 000003e9 00000000 00000000 00000000 00000000 "
ADDRESS = "00000007 00000001 00000003 74637000 0000000b 312e322e 332e342e 302e3900 00000000"
TAKING = [
    octets("00000001 00000000 00000002 000186a0 00000003 00000001" + USER + ADDRESS),
    octets("00000001 00000000 00000002 000186a0 00000004 00000002" + USER + ADDRESS),
    octets("00000001 00000000 00000002 000186a0 00000002 00000001" + USER + "20000000 00000009 00000011 00000801"),
    octets(
        "00000001 00000000 00000002 000186a0 00000004 00000002"
        + USER.replace("000003e9", "00000000")
        + "000186a0 00000004 00000000 00000000 00000000"
    ),
    octets(
        "00000001 00000000 00000002 000186a0 00000002 00000002"
        + USER.replace("000003e9", "00000000")
        + "000186a0 00000003 00000000 00000000"
    ),
    call(4, RPCBPROC_SET, ADDRESS),
    call(4, RPCBPROC_DUMP, ""),
    call(3, RPCBPROC_DUMP, ""),
]
ASKED_AFTER = marked(GETPORT) + marked(DUMP)


def told_after(has_row):
    """What is replied to that without and with the row."""
    return b"".join(marked(BY_RECORD[record][1 + has_row]) for record in (GETPORT, DUMP))


# Streams for the registry: the null call in two fragments, twice too; a row that is set, found, told and removed, with
# calls that are refused and one that is silence between; and one whose second record is too long.
SERVED = [
    marked(NULL, 20),
    marked(NULL, 20) * 2,
    b"".join(marked(row[0]) for row in CALLS),
    marked(SET) + word(0) * 2 + marked(SET, 4) + word(0x80010001),
]
# A call of 9000 bytes, more than a connection keeps between records, and a short one behind it.
LONG = call(2, PMAPPROC_NULL, "00" * 8960)
BY_RECORD[LONG] = (LONG, reply(SUCCESS), reply(SUCCESS), None)
SERVED_LONG = marked(LONG) + marked(NULL)
# Streams of records, with the limit.
STREAMS = [
    (WIDEST, "00000002 6162 80000001 63"),
    (WIDEST, "00000000 00000000 80000000"),
    (WIDEST, "80000001 61 80000001 62"),
    (WIDEST, ""),
    (4, "00000003 616263 80000002 6465"),
    (4, "80000003 6162"),
    (4, "80000001 61 00000004 62626262 80000000 80000005 00"),
    (0, "80000000 80000001 00"),
    (100, "80000000 80000001 61 80000000"),
    (4, "00000000"),
    (4, "8000"),
    (0, "80000001"),
    (0, "00000000 00000000 80000000"),
]
# An opaque_auth as it is told: its flavor, and the digits of its body.
NO_AUTH = "0:"
# What comes for a call that is exchanged, and what is told once its first record is whole.
EXCHANGED = [
    (marked(octets(REPLY + "00000000"), 8), f"reply to 1, verifier {NO_AUTH}, SUCCESS "),
    (
        marked(octets(REPLY + "00000000 00000801")) + b"\x80",
        f"reply to 1, verifier {NO_AUTH}, SUCCESS 00000801",
    ),
    (marked(octets(REPLY + "00000000")), f"reply to 1, verifier {NO_AUTH}, SUCCESS "),
    (
        octets("00000018" + REPLY + "00000000 80000004 00000801 80000001 00"),
        f"reply to 1, verifier {NO_AUTH}, SUCCESS 00000801",
    ),
    (marked(octets("00000002 00000001 00000000 00000000 00000000 00000000")), "refused WrongXid 2"),
    (marked(octets("00000001 00000001 00000001 00000001 00000005")), "denial to 1, AUTH_ERROR 5"),
    (marked(octets("00000000 00000001 00000001 00000001 00000001")) + b"\0", "refused WrongXid 0"),
    (marked(octets("00000001")), "refused Truncated"),
    (marked(b""), "refused Truncated"),
    (marked(call(2, PMAPPROC_NULL, "")), "refused NotAReply"),
    (marked(octets("00000001 00000001 00000002")), "refused BadStatus"),
    (marked(octets("00000001 00000001 00000000 00000000 00000191 00000000")) + bytes(4), "refused BadAuth"),
    (marked(octets(REPLY + "00000003 00")), "refused Rest"),
    (octets("81000001"), "refused TooLong at 0"),
    (octets("00000002 0000 ffffffff"), "refused TooLong at 6"),
    (word(2) + b"ab" + word(0x81000000), "refused TooLong at 6"),
]
# What comes for a call for all rows in version 4, the exit status and what is printed once the first record is whole.
ASKED = [
    (marked(octets(REPLY + "00000000" + ROW_4), 30), 0, LINES_4),
    (marked(octets(REPLY + "00000003")), 1, b"refused PROC_UNAVAIL\n"),
    (marked(octets(REPLY + "00000000 00000002")), 1, b"refused BadBool at 0\n"),
    (word(0x81000001), 1, b"refused TooLong at 0\n"),
]
# A call of the probe: README.md has its keys. A read or a write has a piece, and the one that fails, or 0. A key that
# is None, False or empty is not written.
Case = collections.namedtuple(
    "Case",
    "call reads writes refuse kind text hex given zeros depth bytes limit first second steps version count count_again "
    "transport before after front clients clients_read_fails replies datagrams port_fails types types_read_fails "
    "faults_write_fails call_write_fails calls items seed layout path names texts line most bound events kinds over error",
    defaults=(
        (4096, 0),
        (4096, 0),
        "0",
        "",
        b"",
        False,
        b"",
        0,
        4096,
        WIDEST,
        *[None] * 7,
        "",
        b"",
        b"",
        b"",
        *[None] * 4,
        0,
        None,
        *[0] * 3,
        *[None] * 14,
    ),
)
