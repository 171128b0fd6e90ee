"""Rows of 'oncrpc serve' of callers of other hosts, in a network of its own: whose SET and UNSET are taken, and which
address is told.

Another host is a second network behind two cables, from which a process of its own asks. Some of its packets are
written by hand, and claim senders that are not there. Expected bytes are those of RFC 5531 section 9 and of RFC 1833
sections 2.2.1 and 3.2.
"""
import os
import shutil
import socket
import struct
import subprocess
import sys

sys.dont_write_bytecode = True
sys.path.insert(0, os.path.dirname(os.path.dirname(os.path.realpath(__file__))))

from telling import tell
from timing import WAIT

# The addresses of this host: of its cables, of the loopback device, and one more that no cable has.
HERE, BESIDE, LOOPBACK, ELSEWHERE = "10.9.8.8", "10.9.9.8", "127.0.0.1", "10.9.7.8"
# Those of the other host at the same cables.
AFAR, FURTHER = "10.9.8.7", "10.9.9.7"
CABLES = ((HERE, AFAR), (BESIDE, FURTHER))
# What is asked for where rows cannot be: a network with a cable to another one.
PROBE = "ip link add near type veth peer name far && exec unshare -n true"
# The descriptors with which a registry serves: the three streams, the wait, and a socket each for TCP and UDP.
SERVING = 6
NOBODY, SUPERUSER = (0, 0), (1, 20, 0, 0, 0, 0, 0)
PROGRAM_AT_515 = (70000, 1, 6, 515)
# An rpcb of the program, version 1, without netid, address and owner.
RPCB = (70000, 1, 0, 0, 0)


def call(version, procedure, args, cred=NOBODY):
    """A call with xid 7."""
    words = (7, 0, 2, 100000, version, procedure, *cred, 0, 0, *args)
    return struct.pack(f">{len(words)}I", *words)


def text(content):
    """A string: its length, its bytes, and zeros."""
    return struct.pack(">I", len(content)) + content + bytes(-len(content) % 4)


def success(results):
    return struct.pack(">6I", 7, 1, 0, 0, 0, 0) + results


TOO_WEAK = struct.pack(">5I", 7, 1, 1, 1, 5)
TRUE, FALSE = (success(struct.pack(">I", it)) for it in (1, 0))
SET, UNSET = call(2, 1, PROGRAM_AT_515), call(2, 2, PROGRAM_AT_515)
SET_UDP = call(2, 1, (70000, 1, 17, 515))
UNSET_OWN = call(2, 2, (100000, 2, 6, 0), SUPERUSER)
GETADDR, GETVERSADDR = call(3, 3, RPCB), call(4, 9, RPCB)
# What forged senders set, and whether it is there: its port, or 0.
FORGED, IS_FORGED = call(2, 1, (70001, 1, 17, 515)), call(2, 3, (70001, 1, 17, 0))
NONE = b""


def told(host):
    return success(text(host.encode() + b".2.3"))


# From where, to where, over which transport, what is asked, and the reply. A packet 'by hand' is the other host's.
STRICT = [
    ("a SET from afar is denied", AFAR, HERE, "tcp", SET, TOO_WEAK),
    ("and by datagram", AFAR, HERE, "udp", SET, TOO_WEAK),
    ("and over the other cable", FURTHER, BESIDE, "udp", SET, TOO_WEAK),
    ("an UNSET of the superuser from afar is denied", AFAR, HERE, "tcp", UNSET_OWN, TOO_WEAK),
    ("that one by datagram, too", AFAR, HERE, "udp", UNSET_OWN, TOO_WEAK),
    ("a SET of this host is taken", LOOPBACK, LOOPBACK, "tcp", SET, TRUE),
    ("and again", HERE, HERE, "tcp", SET, TRUE),
    ("another port is not", LOOPBACK, LOOPBACK, "tcp", call(2, 1, (70000, 1, 6, 516)), FALSE),
    ("GETADDR tells the host that was called", AFAR, HERE, "tcp", GETADDR, told(HERE)),
    ("so does GETVERSADDR", AFAR, HERE, "tcp", GETVERSADDR, told(HERE)),
    ("and to a client of the loopback", LOOPBACK, LOOPBACK, "tcp", GETADDR, told(LOOPBACK)),
    ("and at the address without a cable", AFAR, ELSEWHERE, "tcp", GETADDR, told(ELSEWHERE)),
    ("an UNSET from afar is denied", AFAR, HERE, "tcp", UNSET, TOO_WEAK),
    ("an UNSET of this host is taken", LOOPBACK, LOOPBACK, "udp", UNSET, TRUE),
    ("a SET by datagram from an own address is taken", HERE, HERE, "udp", SET_UDP, TRUE),
    ("and again from another own one", ELSEWHERE, HERE, "udp", SET_UDP, TRUE),
    ("and again from the loopback", LOOPBACK, HERE, "udp", SET_UDP, TRUE),
    ("GETADDR by datagram tells the address of the cable", AFAR, HERE, "udp", GETADDR, told(HERE)),
    ("so does GETVERSADDR by datagram", AFAR, HERE, "udp", GETVERSADDR, told(HERE)),
    ("over the other cable that one's", FURTHER, BESIDE, "udp", GETADDR, told(BESIDE)),
    ("to the loopback that of the loopback", LOOPBACK, LOOPBACK, "udp", GETADDR, told(LOOPBACK)),
    ("to an own address that one", HERE, HERE, "udp", GETADDR, told(HERE)),
    ("at the address without a cable the one that answers", AFAR, ELSEWHERE, "udp", GETADDR, told(HERE)),
    ("a packet by hand is answered", AFAR, HERE, "by hand", GETADDR, told(HERE)),
    ("but its SET is denied", AFAR, HERE, "by hand", FORGED, TOO_WEAK),
    ("one that claims the called address is not answered", HERE, HERE, "by hand", FORGED, NONE),
    ("nor one that claims that of the other cable", BESIDE, HERE, "by hand", FORGED, NONE),
    ("nor one that claims the address without a cable", ELSEWHERE, HERE, "by hand", FORGED, NONE),
    ("nor one that claims the loopback", LOOPBACK, HERE, "by hand", FORGED, NONE),
    ("and nothing of theirs was taken", LOOPBACK, LOOPBACK, "udp", IS_FORGED, FALSE),
]
# At one address of the host a datagram is known to have come there.
AT_ONE = [
    ("at one address a SET by datagram from afar is denied", AFAR, HERE, "udp", SET_UDP, TOO_WEAK),
    ("one from that very address is taken", HERE, HERE, "udp", SET_UDP, TRUE),
    ("one from another own address is denied", ELSEWHERE, HERE, "udp", SET_UDP, TOO_WEAK),
    ("GETADDR by datagram tells it", AFAR, HERE, "udp", GETADDR, told(HERE)),
    ("GETVERSADDR by datagram, too", AFAR, HERE, "udp", GETVERSADDR, told(HERE)),
    ("at one address one that claims it is not answered", HERE, HERE, "by hand", FORGED, NONE),
    ("nor one there that claims the loopback", LOOPBACK, HERE, "by hand", FORGED, NONE),
    ("and nothing of theirs was taken there", HERE, HERE, "udp", IS_FORGED, FALSE),
]
# Where no descriptor is left the address that a datagram called is not known, and who calls from afar is not of this host.
SCARCE = [
    ("without a descriptor a SET by datagram from afar is denied", AFAR, HERE, "udp", SET_UDP, TOO_WEAK),
    ("one of the loopback is taken", LOOPBACK, LOOPBACK, "udp", SET_UDP, TRUE),
    ("GETADDR by datagram tells the address as it was set", AFAR, HERE, "udp", GETADDR, told("0.0.0.0")),
    ("one from an own address is denied", HERE, HERE, "udp", SET_UDP, TOO_WEAK),
]
INSECURE = [
    ("with --insecure a SET from afar is taken", AFAR, HERE, "tcp", SET, TRUE),
    ("but nobody from afar is the superuser", AFAR, HERE, "tcp", UNSET_OWN, FALSE),
    ("and an UNSET from afar is taken", AFAR, HERE, "udp", UNSET, TRUE),
    ("a SET of a packet by hand is taken", AFAR, HERE, "by hand", FORGED, TRUE),
    ("but not where it claims the loopback", LOOPBACK, HERE, "by hand", SET_UDP, NONE),
]


def ask(source, target, transport, message):
    """The reply to one call."""
    kind = socket.SOCK_STREAM if transport == "tcp" else socket.SOCK_DGRAM
    with socket.socket(type=kind) as asking:
        asking.settimeout(WAIT)
        asking.bind((source, 0))
        # A datagram comes from the address that the system picks, and not from the one that was asked.
        if transport == "udp":
            asking.sendto(message, target)
            return asking.recv(65536)
        asking.connect(target)
        asking.sendall(struct.pack(">I", 0x80000000 | len(message)) + message)
        count = struct.unpack(">I", asking.recv(4, socket.MSG_WAITALL))[0] & 0x7FFFFFFF
        return asking.recv(count, socket.MSG_WAITALL)


def packet(source, target, message):
    """A packet of IPv4 with a datagram without a checksum (RFC 791 section 3.1, RFC 768)."""
    datagram = struct.pack(">4H", source[1], target[1], 8 + len(message), 0) + message
    ends = socket.inet_aton(source[0]) + socket.inet_aton(target[0])
    return struct.pack(">2B3H2BH", 0x45, 0, 20 + len(datagram), 0, 0, 64, 17, 0) + ends + datagram


def ask_by_hand(source, target, message):
    """The reply to a packet that says it is from this address; nothing where none comes here."""
    with socket.socket(type=socket.SOCK_DGRAM) as waiting:
        waiting.bind((AFAR, 0))
        waiting.settimeout(20 if source == AFAR else 1)
        with socket.socket(socket.AF_INET, socket.SOCK_RAW, socket.IPPROTO_RAW) as by_hand:
            by_hand.sendto(packet((source, waiting.getsockname()[1]), target, message), (target[0], 0))
        try:
            return waiting.recv(65536)
        except TimeoutError:
            return NONE


def be_afar():
    """The other host: asks what its input's lines say, once the cables are there."""
    print("there", flush=True)
    for line in sys.stdin:
        words = line.split()
        if words[0] == "ip":
            subprocess.run(words, check=True)
            said = NONE
        else:
            source, host, port, transport, message = words[0], words[1], int(words[2]), words[3], words[-1]
            how = (source, (host, port), bytes.fromhex(message))
            said = ask_by_hand(*how) if transport == "by" else ask(*how[:2], transport, how[2])
        print(said.hex(), flush=True)


class Afar:
    """The other host, and the cables to it."""

    def __init__(self):
        words = ["unshare", "-n", sys.executable, "-B", os.path.realpath(__file__)]
        self.process = subprocess.Popen(words, stdin=subprocess.PIPE, stdout=subprocess.PIPE, text=True)
        self.process.stdout.readline()
        for number, (here, afar) in enumerate(CABLES):
            near, far = f"near{number}", f"far{number}"
            run("ip", "link", "add", near, "type", "veth", "peer", "name", far, "netns", str(self.process.pid))
            run("ip", "address", "add", f"{here}/24", "dev", near)
            run("ip", "link", "set", near, "up")
            self.does("ip", "address", "add", f"{afar}/24", "dev", far)
            self.does("ip", "link", "set", far, "up")
        self.does("ip", "route", "add", f"{ELSEWHERE}/32", "via", HERE)

    def does(self, *words):
        """What becomes of a line: a command, or what is to be asked."""
        print(*words, file=self.process.stdin, flush=True)
        return bytes.fromhex(self.process.stdout.readline())

    def ask(self, source, target, transport, message):
        return self.does(source, *target, transport, message.hex())

    def end(self):
        self.process.stdin.close()
        self.process.wait()


def run(*words):
    subprocess.run(words, check=True)


def rows_of(program, afar, words, rows, descriptors):
    """Serves, and makes these calls: how many replies were right, and how many calls there were."""
    right = 0
    limit = ["prlimit", f"--nofile={descriptors}"] * (descriptors > 0)
    line = [*limit, program, "serve", "--port", "0", "--bind", *words]
    with subprocess.Popen(line, stdout=subprocess.PIPE, stderr=subprocess.DEVNULL) as it:
        try:
            port = int(it.stdout.readline().split()[-1])
            for name, source, target, transport, message, reply in rows:
                is_far = source in (AFAR, FURTHER) or transport == "by hand"
                said = (afar.ask if is_far else ask)(source, (target, port), transport, message)
                right += tell(f"afar: {name}", said == reply, said.hex())
        finally:
            it.kill()
    return right, len(rows)


def all_rows(program):
    """Whether all rows are as they should be; this is the network of their own."""
    run("ip", "link", "set", "lo", "up")
    run("ip", "address", "add", f"{ELSEWHERE}/32", "dev", "lo")
    afar = Afar()
    every = ["0.0.0.0"]
    served = ((every, STRICT, 0), ([HERE], AT_ONE, 0), ([*every, "--insecure"], INSECURE, 0), (every, SCARCE, SERVING))
    done = [rows_of(program, afar, *each) for each in served]
    afar.end()
    return all(right == count for right, count in done)


def afar_rows(program):
    """Whether all rows are as they should be, in a network of their own; none where none can be made."""
    own = ["unshare", "-rn"]
    able = all(shutil.which(it) for it in ("unshare", "ip", "prlimit"))
    if not able or subprocess.run([*own, "sh", "-c", PROBE], check=False, capture_output=True).returncode != 0:
        print("afar: skipped, since no network of its own with a cable can be made", flush=True)
        return []
    words = [*own, sys.executable, "-B", os.path.realpath(__file__), program]
    ended = subprocess.run(words, check=False)
    return [tell("afar, all of them", ended.returncode == 0, ended)]


if __name__ == "__main__":
    if len(sys.argv) == 1:
        be_afar()
    else:
        sys.exit(0 if all_rows(sys.argv[1]) else 1)
