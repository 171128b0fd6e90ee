"""A capture of READ of NFS version 3, read by ours and by tshark."""
import os
import shutil
import struct

from .common import OURS, ROOT, resident, wall

# The bytes of a capture, of what one READ gives, and of what one segment carries at most.
SIZE, READ, SEGMENT = 1_000_000_000, 65536, 1448
CLIENT, SERVER = (b"\x0a\x00\x00\x01", 800), (b"\x0a\x00\x00\x02", 2049)
# The ratio that is wanted of tshark's time to ours, and the bytes a second of ours.
WANTED, RATE = 20, 200_000_000


def words(*numbers):
    return struct.pack(f">{len(numbers)}I", *numbers)


def marked(message):
    """A record of one fragment (RFC 5531 section 11)."""
    return words(0x80000000 | len(message)) + message


def call(xid):
    """A call of READ (RFC 1813 section 3.3.6) with AUTH_SYS of one group (RFC 5531 appendix A)."""
    credential = words(0, 4) + b"host" + words(1000, 1000, 1, 1000)
    head = words(xid, 0, 2, 100003, 3, 6, 1, len(credential)) + credential + words(0, 0)
    handle = words(32) + bytes(range(32))
    return marked(head + handle + struct.pack(">QI", xid * READ, READ))


def reply(xid, data):
    """Its reply: attributes of the file, how many bytes, whether these are its last, and the bytes."""
    attributes = words(1, 1, 0o644, 1, 1000, 1000) + struct.pack(">QQ8xQQ", 1 << 40, 1 << 40, 7, 8) + bytes(24)
    return marked(words(xid, 1, 0, 0, 0, 0) + words(0) + attributes + words(len(data), 0, len(data)) + data)


def packet(source, target, number, behind, content):
    """A packet of Ethernet, IPv4 and TCP with its head in a file of the classic format; checksums are left at 0."""
    tcp = struct.pack(">HHIIBBHHH", source[1], target[1], number, behind, 0x50, 0x10, 65535, 0, 0)
    size = 20 + len(tcp) + len(content)
    ip = struct.pack(">BBHHHBBH", 0x45, 0, size, 0, 0x4000, 64, 6, 0) + source[0] + target[0]
    return bytes(12) + b"\x08\x00" + ip + tcp + content


def capture(path, size):
    """A file with so many bytes of calls and replies, and how many calls it has. A packet comes each microsecond."""
    data, sent, got, xid, moment = bytes(range(256)) * (READ // 256), 1, 1, 0, 0
    with open(path, "wb") as out:
        out.write(struct.pack("<IHHiIII", 0xA1B2C3D4, 2, 4, 0, 0, 262144, 1))
        while out.tell() < size:
            xid += 1
            asked, given = call(xid), reply(xid, data)
            packets = [packet(CLIENT, SERVER, sent, got, asked)]
            sent = (sent + len(asked)) % 2**32
            for at in range(0, len(given), SEGMENT):
                part = given[at : at + SEGMENT]
                packets.append(packet(SERVER, CLIENT, got, sent, part))
                got = (got + len(part)) % 2**32
            for it in packets:
                out.write(struct.pack("<IIII", moment // 1_000_000, moment % 1_000_000, len(it), len(it)) + it)
                moment += 1
    return xid


def captured(_base, folder):
    """The counts of a capture, its lines in brief, of which tshark's fields are the like, and all values; and what ours
    has resident."""
    path = f"{folder}/read.pcap"
    calls, size = capture(path, SIZE), os.path.getsize(path)
    ours = [OURS, "capture", path, "--types", f"{ROOT}/share/oncrpc/nfs.x"]
    other = None
    if shutil.which("tshark"):
        fields = [f"-e{it}" for it in ("frame.number", "rpc.xid", "rpc.msgtyp", "rpc.procedure", "nfs.status3")]
        other = wall(["tshark", "-r", path, "-n", "-T", "fields", *fields, "-Y", "rpc"], os.devnull, 1)[0]
    for name, more in (("counts", ["--stats"]), ("lines in brief", ["--brief"]), ("lines with all values", [])):
        taken, _ = wall([*ours, *more], os.devnull, 3)
        line = f"capture, {calls} READs in {size / 1e9:.2f} GB, {name}: {size / taken / 1e6:.0f} MB a second"
        beside = f", {other / taken:.1f} times tshark's fields, wanted {WANTED}" if other else ", tshark is not installed"
        print(f"{line}, wanted {RATE / 1e6:.0f}{beside}", flush=True)
    print(f"capture, resident: {resident([*ours, '--stats'], os.devnull) / 1e6:.1f} MB", flush=True)
