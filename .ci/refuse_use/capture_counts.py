"""Rows of 'oncrpc capture --stats': how often each reason came, of messages and of packets that are not read, and how
long replies took, as lines and as JSON.

What is wanted follows from the declarations below by RFC 4506 and RFC 5531, and from docs/FORMATS.md: rows stand in the
order of their numbers, and reasons in that in which it has them. Each comes as often as no other does, so that none
can stand for another.
"""
from refuse_use.capture_formats import ASKED, PAIR
from refuse_use.capture_made import GETPORT, SYN_BIT
from refuse_use.messages_streams import call, counts, fragment, opaque, reply, words
from refuse_use.packets import CLIENT, SERVER, classic, datagram, enhanced, interface, ip4, section, segment, udp

# Arguments that can be refused for each reason, in counted.x.
DECLARED = b"""enum shade { LIGHT = 1, DARK = 2 };
union way switch (unsigned int at) { case 1: void; };
struct link { link *next; };
typedef opaque four<4>;
typedef opaque any<>;
program COUNTED { version ONE {
    void BOOL(bool) = 1;
    void SHADE(shade) = 2;
    void WAY(way) = 3;
    void FOUR(four) = 4;
    void ANY(any) = 5;
    void LINK(link) = 6;
    void NUMBER(int) = 7;
    void NOTHING(void) = 8;
    void LONG(any) = 9;
} = 1; } = 536870916;
"""
OWN, NUMBER = "--types counted.x", 536870916
# The reasons, each with the procedure that is called, its arguments, and how often it comes.
REASONS = [
    (b"BadBool", 1, b"BOOL", words(2), 2),
    (b"BadNumbered", 2, b"SHADE", words(3), 3),
    (b"BadCase", 3, b"WAY", words(2), 4),
    (b"TooLong", 4, b"FOUR", opaque(b"abcde"), 5),
    (b"BadPadding", 5, b"ANY", words(1) + b"a\0\0\1", 6),
    # (a link is two levels, and 4096 are read)
    (b"TooDeep", 6, b"LINK", words(*[1] * 2048, 0), 7),
    # (a value has at most 16777216 bytes)
    (b"TooLarge", 9, b"LONG", opaque(bytes(16777216)), 1),
    (b"Truncated", 7, b"NUMBER", b"ab", 8),
    (b"MoreFollows", 8, b"NOTHING", words(0), 9),
]


def long_call(arguments, size=60000):
    """A call over TCP in segments, as packets of IP."""
    content = fragment(call(7, NUMBER, 1, 9, arguments))
    pieces = [(100 + place, content[place : place + size]) for place in range(0, len(content), size)]
    return [segment(CLIENT, SERVER, 99, b"", SYN_BIT), *(segment(CLIENT, SERVER, *it) for it in pieces)]


def each_reason():
    """Calls that are refused for each reason, the last procedure first."""
    packets, rows, reasons = [], b"", b""
    for _, number, _, arguments, often in reversed(REASONS):
        if number == 9:
            packets += long_call(arguments)
        else:
            packets += [datagram(CLIENT, SERVER, call(7, NUMBER, 1, number, arguments))] * often
    for _, number, name, _, often in sorted(REASONS, key=lambda it: it[1]):
        rows += b"procedure %d.1.%d %s calls %d replies 0 refused %d\n" % (NUMBER, number, name, often, often)
    for reason, *_, often in REASONS:
        reasons += b"refused %s %d\n" % (reason, often)
    total = sum(often for *_, often in REASONS)
    wanted = rows + reasons + counts(total, 0, 0, total, 0, 0)
    return "counts of each reason why a message is refused", f"--stats {OWN}", classic(packets, 101), 1, wanted


# Why packets are not read, each with the number of its interface, the packet, how much of it was captured, and how
# often it comes.
UNREAD = [
    (b"UnknownLink", 1, ASKED, None, 1),
    (b"Cut", 0, ASKED, 19, 2),
    (b"BadInternet", 0, ip4(CLIENT, SERVER, 17, b"", total=0), None, 3),
    (b"Fragment", 0, ip4(CLIENT, SERVER, 17, udp(CLIENT, SERVER, GETPORT)[:32], fragment=0x2000), None, 4),
    (b"BadDatagram", 0, ip4(CLIENT, SERVER, 17, udp(CLIENT, SERVER, GETPORT, 65)), None, 5),
    (b"BadSegment", 0, ip4(CLIENT, SERVER, 6, bytes(12) + b"\x40" + bytes(7)), None, 6),
]


def each_unread():
    """Packets that are not read for each reason, on two interfaces, of which the second has a link that is not read."""
    made, wanted = section() + interface(101) + interface(105), b""
    for _, number, packet, kept, often in reversed(UNREAD):
        made += enhanced(packet, 10**6, number=number, kept=kept) * often
    for why, *_, often in UNREAD:
        wanted += b"unread %s %d\n" % (why, often)
    return "counts of each reason why a packet is not read", "--stats", made, 0, wanted + counts(0, 0, 0, 0, 0, 0)


SET = [
    datagram(CLIENT, SERVER, call(7, 100000, 2, 1, words(7, 1, 6, 99))),
    datagram(SERVER, CLIENT, reply(7, 0, results=words(2))),
]
FRAGMENT = UNREAD[3][2]
SLOW_AND_UNREAD = (
    b'{"type":"procedure","name":"100000.2.3 GETPORT","calls":1,"replies":1,"refused":0}\n'
    b'{"type":"unread","why":"Fragment","count":1}\n'
    b'{"type":"slow","nanoseconds":"1000","packet":2,"xid":8,"name":"100000.2.3 GETPORT"}\n'
    b'{"type":"counts","calls":1,"replies":1,"others":0,"refused":0,"unjudged":0,"unasked":0}\n'
)
BACK = section() + interface(101) + enhanced(PAIR[0], 10**6 + 5) + enhanced(PAIR[1], 10**6 + 2)
# What rows are about, words, the file, the status and the output.
COUNTED = [
    each_reason(),
    each_unread(),
    (
        "counts of a reply that is refused",
        "--stats",
        classic(SET, 101),
        1,
        b"procedure 100000.2.1 SET calls 1 replies 1 refused 1\nrefused BadBool 1\n"
        b"slow 1000 ns packet 2 xid 7 100000.2.1 SET\n" + counts(1, 1, 0, 1, 0, 0),
    ),
    ("a reply and a packet that is not read, counted as JSON", "--stats --json", classic([*PAIR, FRAGMENT], 101), 0,
     SLOW_AND_UNREAD),
    (
        "a reply that comes before its call by the clock",
        "--stats",
        BACK,
        0,
        b"procedure 100000.2.3 GETPORT calls 1 replies 1 refused 0\n"
        b"slow 0 ns packet 2 xid 8 100000.2.3 GETPORT\n" + counts(1, 1, 0, 0, 0, 0),
    ),
]


def counted_rows(folder, row):
    """Rows of what is counted; `row` runs one in the folder."""
    with open(f"{folder}/counted.x", "wb") as it:
        it.write(DECLARED)
    for it in COUNTED:
        yield row(*it)
