"""Rows of 'oncrpc capture' over files and packets: both formats in both orders of bytes, times, links, headers of IP and
UDP, and what is told of a packet that is not read.

What is wanted follows from the layouts (draft-ietf-opsawg-pcap section 4, draft-ietf-opsawg-pcapng sections 3 and 4,
IEEE 802.1Q, RFC 768, 791 and 8200) and the lines of docs/FORMATS.md.
"""
import struct

from refuse_use.capture_made import FROM, GETPORT, GETPORT_LINES, NOTHING, PORT, PORT_LINES, SYN, SYN_ACK, TO, at, null, null_line
from refuse_use.capture_made import of_client, of_server
from refuse_use.messages_streams import call, counts, fragment
from refuse_use.packets import CLIENT, SERVER, block, classic, datagram, enhanced, ethernet, extended, interface, ip4, ip6, option
from refuse_use.packets import pcapng, section, segment, simple, udp

ASKED, TOLD = datagram(CLIENT, SERVER, GETPORT), datagram(SERVER, CLIENT, PORT)
ONE, BOTH = counts(1, 0, 0, 0, 0, 0), counts(1, 1, 0, 0, 0, 0)
PAIR, SHORT = [ASKED, TOLD], at(1, TO + GETPORT_LINES) + at(2, FROM + PORT_LINES) + BOTH
TO6, FROM6 = (it.replace(b"127.0.0.1", b"[::1]") for it in (TO, FROM))
SIX = SHORT.replace(TO, TO6).replace(FROM, FROM6)
PAIR6 = [datagram(CLIENT, SERVER, GETPORT, ip6), datagram(SERVER, CLIENT, PORT, ip6)]
CONNECTION = [SYN, SYN_ACK, of_client(100, fragment(GETPORT)), of_server(500, fragment(PORT))]
WELL = at(3, TO + GETPORT_LINES) + at(4, FROM + PORT_LINES) + BOTH
# Headers of extension of IPv6: options and a route of 16 bytes, and a fragment that is the whole packet, that comes
# first, and that comes second (RFC 8200 section 4).
HOPS, ROUTE, OPTIONS = (0, b"\1" + bytes(14)), (43, b"\1" + bytes(14)), (60, b"\0" + bytes(6))
WHOLE, FIRST, SECOND = ((44, b"\0" + struct.pack(">HI", it, 5)) for it in (0, 1, 64 << 3))


def seen(frame, time, text):
    return b"%d " % frame + time + b" " + text


def unread(frame, why):
    return b"%d 1.%09d unread " % (frame, 1000 * (frame - 1)) + why + b"\n"


def timed(*options):
    """A file of pcapng with one packet at 2^33 + 5 units of time."""
    return section() + interface(101, options=b"".join(options)) + enhanced(ASKED, 2**33 + 5)


def resolved(unit):
    return option("<", 9, bytes([unit]))


END = option("<", 0, b"")
# What rows are about, words, the file, the status and the output.
FILES = [
    ("pcapng", "", pcapng(CONNECTION), 0, WELL),
    ("pcapng in the other order", "", pcapng(CONNECTION, 1, ">"), 0, WELL),
    ("the classic format in the other order", "", classic(CONNECTION, 1, ">"), 0, WELL),
    ("the classic format, whose header says that packets have 20 bytes", "", classic(CONNECTION, longest=20), 0, WELL),
    ("one whose upper half of the link says that frames have a sum", "", classic(PAIR, 0x20000000 | 101), 0, SHORT),
    ("nanoseconds", "", classic(PAIR, 101, magic=0xA1B23C4D), 0, SHORT.replace(b"1.000001000", b"1.000000001")),
    ("nanoseconds in the other order", "", classic(PAIR, 101, ">", 0xA1B23C4D), 0, SHORT.replace(b"1.000001000", b"1.000000001")),
    ("no packet", "", classic([]), 0, NOTHING),
    ("no packet, in pcapng", "", section(), 0, NOTHING),
    (
        "sections in both orders, each with its own interfaces",
        "",
        section(">", 2) + interface(1, ">") + interface(101, ">") + enhanced(ASKED, 10**6, ">", 1)
        + section() + interface(101) + enhanced(TOLD, 10**6 + 1),
        0,
        SHORT,
    ),
    (
        "blocks and options that are passed over",
        "",
        section(options=option("<", 4, b"made") + END) + block("<", 5, b"abcd") + interface(101, options=option("<", 2, b"lo") + END)
        + block("<", 0xBAD, b"") + enhanced(ASKED, 10**6, options=option("<", 1, b"x") + END) + block("<", 2, b"y" * 40)
        + enhanced(TOLD, 10**6 + 1),
        0,
        SHORT,
    ),
    (
        "packets without a time",
        "",
        section() + interface(101) + simple(ASKED) + simple(TOLD),
        0,
        seen(1, b"0.000000000", TO + GETPORT_LINES) + seen(2, b"0.000000000", FROM + PORT_LINES) + BOTH,
    ),
    (
        "one of which its interface kept 83 bytes of 84",
        "--port 111",
        section() + interface(101, longest=83) + simple(ASKED, kept=83),
        0,
        seen(1, b"0.000000000", TO + b"missing 1 bytes\n") + NOTHING,
    ),
    ("seconds", "", timed(resolved(0), END), 0, seen(1, b"8589934597.000000000", TO + GETPORT_LINES) + ONE),
    ("microseconds", "", timed(), 0, seen(1, b"8589.934597000", TO + GETPORT_LINES) + ONE),
    ("nanoseconds of an interface", "", timed(resolved(9)), 0, seen(1, b"8.589934597", TO + GETPORT_LINES) + ONE),
    ("an offset of times, which is passed over", "", timed(option("<", 14, struct.pack("<q", 60)), END), 0,
     seen(1, b"8589.934597000", TO + GETPORT_LINES) + ONE),
    ("picoseconds", "", timed(resolved(12), END), 0, seen(1, b"0.008589934", TO + GETPORT_LINES) + ONE),
    ("halves of a second, 33 times", "", timed(resolved(128 + 33)), 0, seen(1, b"1.000000000", TO + GETPORT_LINES) + ONE),
    ("halves of a second, once", "", timed(resolved(129)), 0, seen(1, b"4294967298.500000000", TO + GETPORT_LINES) + ONE),
]
LINKS = [
    ("raw IP", "", classic(PAIR, 101), 0, SHORT),
    ("raw IP by other numbers", "", classic(PAIR, 12), 0, SHORT),
    ("IPv4 alone", "", classic(PAIR, 228), 0, SHORT),
    ("IPv6 alone", "", classic(PAIR6, 229), 0, SIX),
    ("IPv6", "", classic(PAIR6, 101), 0, SIX),
    ("loopback", "", classic([b"\2\0\0\0" + it for it in PAIR], 0), 0, SHORT),
    ("loopback in the other order", "", classic([b"\0\0\0\2" + it for it in PAIR], 108), 0, SHORT),
    ("loopback with IPv6, by each number of it", "", classic([b"\x1e\0\0\0" + PAIR6[0], b"\0\0\0\x18" + PAIR6[1]], 0), 0, SIX),
    ("cooked", "", classic([bytes(14) + b"\x08\0" + it for it in PAIR], 113), 0, SHORT),
    ("cooked 2", "", classic([b"\x08\0" + bytes(18) + it for it in PAIR], 276), 0, SHORT),
    ("cooked, a tag", "", classic([bytes(14) + b"\x81\0\0\7\x08\0" + it for it in PAIR], 113), 0, SHORT),
    ("Ethernet", "", classic([ethernet(it) for it in PAIR]), 0, SHORT),
    ("Ethernet, a tag", "", classic([ethernet(it, b"\x81\0") for it in PAIR]), 0, SHORT),
    ("Ethernet, two tags", "", classic([ethernet(it, b"\x88\xa8", b"\x81\0") for it in PAIR]), 0, SHORT),
    ("Ethernet with IPv6, a tag", "", classic([ethernet(it, b"\x81\0") for it in PAIR6]), 0, SIX),
    ("frames that are padded", "", classic([ethernet(it) + b"\xff" * 40 for it in PAIR]), 0, SHORT),
    ("ARP beside it", "", classic([bytes(12) + b"\x08\6" + bytes(28), ethernet(ASKED)]), 0, at(2, TO + GETPORT_LINES) + ONE),
    ("a link that is not read", "", classic([ASKED], 105), 0, unread(1, b"UnknownLink") + NOTHING),
    ("the same as JSON", "--json", classic([ASKED], 105), 0,
     b'{"packet":1,"time":"1.000000000","type":"unread","why":"UnknownLink"}\n'
     b'{"type":"counts","calls":0,"replies":0,"others":0,"refused":0,"unjudged":0,"unasked":0}\n'),
]
HEADERS = [
    ("options of IPv4", "", classic([datagram(CLIENT, SERVER, GETPORT, options=b"\1" * 40), TOLD], 101), 0, SHORT),
    ("a packet that must not be fragmented", "", classic([datagram(CLIENT, SERVER, GETPORT, fragment=0x4000), TOLD], 101), 0, SHORT),
    (
        "a datagram in two fragments: neither is read, and both are told",
        "--port 111",
        classic([ip4(CLIENT, SERVER, 17, udp(CLIENT, SERVER, GETPORT)[:32], fragment=0x2000),
                 ip4(CLIENT, SERVER, 17, udp(CLIENT, SERVER, GETPORT)[32:], fragment=4), TOLD], 101),
        0,
        unread(1, b"Fragment") + unread(2, b"Fragment") + at(3, FROM + b"reply 8 no call SUCCESS, 4 bytes\n")
        + counts(0, 1, 0, 0, 1, 1),
    ),
    (
        "headers of extension of IPv6",
        "",
        classic([extended(CLIENT, SERVER, 17, udp(CLIENT, SERVER, GETPORT), HOPS, OPTIONS, ROUTE, WHOLE, OPTIONS),
                 extended(SERVER, CLIENT, 17, udp(SERVER, CLIENT, PORT), WHOLE)], 101),
        0,
        SIX,
    ),
    (
        "fragments of IPv6",
        "",
        classic([extended(CLIENT, SERVER, 17, udp(CLIENT, SERVER, GETPORT)[:32], HOPS, FIRST),
                 extended(CLIENT, SERVER, 17, udp(CLIENT, SERVER, GETPORT)[32:], HOPS, SECOND)], 101),
        0,
        unread(1, b"Fragment") + unread(2, b"Fragment") + NOTHING,
    ),
    ("TCP over IPv6", "", classic([segment(CLIENT, SERVER, 9, null(3), ip=ip6)], 101), 0, at(1, TO6 + null_line(3)) + ONE),
    ("a header of IPv4 that is cut", "", classic([ASKED[:19], ASKED], 101), 0, unread(1, b"Cut") + at(2, TO + GETPORT_LINES) + ONE),
    ("one of UDP that is cut", "", classic([ASKED], 101, kept=27), 0, unread(1, b"Cut") + NOTHING),
    ("a total length below that of the header", "", classic([ip4(CLIENT, SERVER, 17, b"", total=0)], 101), 0, unread(1, b"BadInternet") + NOTHING),
    ("a total length above what was captured", "--port 111",
     classic([ip4(CLIENT, SERVER, 17, udp(CLIENT, SERVER, GETPORT, 99), total=200)], 101), 0,
     at(1, TO + b"missing 35 bytes\n") + NOTHING),
    ("a length of UDP above that of the packet", "", classic([ip4(CLIENT, SERVER, 17, udp(CLIENT, SERVER, GETPORT, 65))], 101), 0,
     unread(1, b"BadDatagram") + NOTHING),
    ("one below that of the packet, which ends the datagram", "--port 111",
     classic([ip4(CLIENT, SERVER, 17, udp(CLIENT, SERVER, call(8, 100000, 2, 0) + b"more", 48))], 101), 0,
     at(1, TO + b"call 8 100000.2.0 NULL AUTH_NONE\n") + ONE),
    ("a data offset of TCP below its header", "", classic([ip4(CLIENT, SERVER, 6, bytes(12) + b"\x40" + bytes(7))], 101), 0,
     unread(1, b"BadSegment") + NOTHING),
    ("segments of which the headers alone were captured", "--port 111", classic([SYN, of_client(100, null(0))], kept=54), 0,
     at(2, TO + b"missing 44 bytes\n") + NOTHING),
    ("the same in the midst", "--port 111", classic([of_client(100, null(0)), of_client(144, null(0))], kept=54), 0,
     at(2, TO + b"missing 88 bytes\n") + NOTHING),
    ("another protocol", "", classic([ip4(CLIENT, SERVER, 1, bytes(20))], 101), 0, NOTHING),
]
DATAGRAMS = [
    ("another port", "--port 2049", classic(PAIR, 101), 0, NOTHING),
    ("two ports, of which one is the client's", "--port 9 --port 700", classic(PAIR, 101), 0, SHORT),
    ("a reply whose call was not seen", "", classic(PAIR[1:], 101), 0, NOTHING),
    ("the same at a port that is named", "--port 111", classic(PAIR[1:], 101), 0,
     at(1, FROM + b"reply 8 no call SUCCESS, 4 bytes\n") + counts(0, 1, 0, 0, 1, 1)),
    ("a reply that comes twice", "--port 111", classic([*PAIR, TOLD], 101), 0,
     at(1, TO + GETPORT_LINES) + at(2, FROM + PORT_LINES) + at(3, FROM + b"reply 8 no call SUCCESS, 4 bytes\n")
     + counts(1, 2, 0, 0, 1, 1)),
    ("the same where no port is named: the second is of no call", "", classic([*PAIR, TOLD], 101), 0, SHORT),
    ("a call whose end was not captured", "", classic([ASKED], 101, kept=80), 0, at(1, TO + b"missing 4 bytes\n") + NOTHING),
    ("what is no message, at a port that is named", "--port 111", classic([datagram(CLIENT, SERVER, b"abc")], 101), 1,
     at(1, TO + b"record\nrefused Truncated at 3\n") + counts(0, 0, 1, 1, 0, 0)),
    ("a datagram without data", "--port 111", classic([datagram(CLIENT, SERVER, b"")], 101), 1,
     at(1, TO + b"record\nrefused Truncated at 0\n") + counts(0, 0, 1, 1, 0, 0)),
]
FORMATS = FILES + LINKS + HEADERS + DATAGRAMS
