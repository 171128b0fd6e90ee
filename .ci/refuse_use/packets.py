"""Files of captured packets: those of a file in the classic format, what they carry, and files made of packets."""
import struct


def frames(path):
    """The frames of a file in the classic format, and their times in microseconds."""
    with open(path, "rb") as it:
        data = it.read()
    order = "<" if data[:4] == b"\xd4\xc3\xb2\xa1" else ">"
    at = 24
    while at < len(data):
        seconds, parts, size = struct.unpack_from(f"{order}III", data, at)
        yield data[at + 16 : at + 16 + size], seconds * 10**6 + parts
        at += 16 + size


def segments(path):
    """Of each frame over TCP who sends to whom, the sequence number, whether it begins a direction, and the bytes."""
    for frame, _time in frames(path):
        if frame[12:14] != b"\x08\x00" or frame[23] != 6:
            continue
        packet = frame[14 : 14 + struct.unpack_from(">H", frame, 16)[0]]
        tcp = packet[(packet[0] & 15) * 4 :]
        ports, number, flags = struct.unpack_from(">HH", tcp), struct.unpack_from(">I", tcp, 4)[0], tcp[13]
        yield (packet[12:16], ports[0]), (packet[16:20], ports[1]), number, flags & 2, tcp[(tcp[12] >> 4) * 4 :]


def connections(path):
    """What a client and a server sent, for each connection, in the order of their first segments: the client's first
    record is a call, by its third word (RFC 5531 section 9)."""
    parts, first = {}, {}
    for source, target, number, begins, content in segments(path):
        if begins:
            first[source, target] = (number + 1) % 2**32
        parts.setdefault((source, target), {})[number] = content
    for source, target in parts:
        if source[1] > target[1]:
            ways = [joined(parts[it], first[it]) for it in ((source, target), (target, source))]
            yield tuple(sorted(ways, key=lambda it: it[8:12]))


def joined(of_one, first):
    whole = b""
    for number, content in sorted(of_one.items(), key=lambda it: (it[0] - first) % 2**32):
        at = (number - first) % 2**32
        if at <= len(whole):
            whole += content[len(whole) - at :]
    return whole


# ---- packets that are made

CLIENT, SERVER = (b"\x7f\0\0\1", 700), (b"\x7f\0\0\1", 111)


def ip4(source, target, protocol, content, options=b"", fragment=0, total=None):
    """A packet of IPv4 (RFC 791), whose checksum is 0, which nobody looks at: with options of whole words, its flags and
    offset, and a total length, which may lie."""
    size = 20 + len(options) + len(content) if total is None else total
    first = 0x45 + len(options) // 4
    head = struct.pack(">BBHHHBBH4s4s", first, 0, size, 0, fragment, 64, protocol, 0, source[0], target[0])
    return head + options + content


def ip6(source, target, protocol, content):
    """A packet of IPv6 (RFC 8200), between the loopback addresses."""
    address = bytes(15) + b"\1"
    return struct.pack(">IHBB16s16s", 6 << 28, len(content), protocol, 64, address, address) + content


def extended(source, target, protocol, content, *headers):
    """The same behind headers of extension: of each its number, and what it has behind the number of the next."""
    kinds = [*(kind for kind, _ in headers), protocol]
    made = b"".join(bytes([following]) + rest for following, (_, rest) in zip(kinds[1:], headers))
    return ip6(source, target, kinds[0], made + content)


def udp(source, target, content, size=None):
    """What a datagram has behind the header of IP (RFC 768); its length may lie."""
    size = 8 + len(content) if size is None else size
    return struct.pack(">HHHH", source[1], target[1], size, 0) + content


def datagram(source, target, content, ip=ip4, **more):
    """A datagram of UDP."""
    return ip(source, target, 17, udp(source, target, content), **more)


def segment(source, target, number, content, flags=0x10, ip=ip4):
    """A segment of TCP (RFC 9293)."""
    head = struct.pack(">HHIIBBHHH", source[1], target[1], number % 2**32, 0, 5 << 4, flags, 65535, 0, 0)
    return ip(source, target, 6, head + content)


def ethernet(packet, *tags):
    """A frame with a packet behind tags of VLANs, each by its type (IEEE 802.1Q)."""
    kind = b"\x86\xdd" if packet[0] >> 4 == 6 else b"\x08\0"
    return bytes(12) + b"".join(it + b"\0\7" for it in tags) + kind + packet


# ---- files that are made

def classic(packets, link=1, order="<", magic=0xA1B2C3D4, longest=262144, kept=None):
    """A file in the classic format; each packet comes a unit of time behind the one before, from second 1 on. At most so
    many bytes of each are kept."""
    made = struct.pack(f"{order}IHHiIII", magic, 2, 4, 0, 0, longest, link)
    for count, it in enumerate(packets):
        here = it if kept is None else it[:kept]
        made += struct.pack(f"{order}IIII", 1, count, len(here), len(it)) + here
    return made


def block(order, kind, content):
    size = 12 + len(content) + -len(content) % 4
    return struct.pack(f"{order}II", kind, size) + content + bytes(-len(content) % 4) + struct.pack(f"{order}I", size)


def option(order, code, value):
    return struct.pack(f"{order}HH", code, len(value)) + value + bytes(-len(value) % 4)


def section(order="<", minor=0, options=b""):
    return block(order, 0x0A0D0D0A, struct.pack(f"{order}IHHq", 0x1A2B3C4D, 1, minor, -1) + options)


def interface(link=1, order="<", longest=0, options=b""):
    return block(order, 1, struct.pack(f"{order}HHI", link, 0, longest) + options)


def enhanced(packet, time, order="<", number=0, kept=None, options=b""):
    """The block of a packet, with its time in units of its interface."""
    here = packet if kept is None else packet[:kept]
    head = struct.pack(f"{order}IIIII", number, time >> 32, time % 2**32, len(here), len(packet))
    return block(order, 6, head + here + (bytes(-len(here) % 4) + options if options else b""))


def simple(packet, order="<", kept=None):
    """The block of a packet without a time."""
    return block(order, 3, struct.pack(f"{order}I", len(packet)) + (packet if kept is None else packet[:kept]))


def pcapng(packets, link=1, order="<"):
    """A file of pcapng: a section, an interface, and a packet in each block, in microseconds."""
    made = section(order) + interface(link, order)
    return made + b"".join(enhanced(it, 10**6 + count, order) for count, it in enumerate(packets))
