"""Rows of Wireshark's reading, by tshark, of what rpcinfo, libtirpc and 'oncrpc call' exchange with a registry over TCP
and UDP: no message is malformed, each procedure has its name, and results are the rows that rpcinfo prints."""
import itertools
import os
import shutil
import socket
import subprocess

from clients_use.asking import HOST, Caller, ask, rows_of, told
from timing import WAIT, wait_until

# What shows that tshark could not read a message.
FAULTS = "_ws.malformed || rpc.cannot_dissect || rpc.fragment.error"
FIELDS = ["rpc.xid", "rpc.msgtyp", "udp.port", "_ws.col.Info", "portmap.uaddr", "portmap.answer"]
PORTS = [f"portmap.{it}" for it in ("prog", "version", "proto", "port")]
ADDRESSES = [f"portmap.rpcb.{it}" for it in ("prog", "version", "netid", "addr", "owner")]
# What is called over both transports, and over each of them. Of GETVERSADDR tshark knows the name alone.
NULLS = {"V2 NULL", "V3 NULL", "V4 NULL"}
BOTH = NULLS | {"V2 SET", "V2 UNSET", "V2 GETPORT", "V3 GETADDR", "V4 GETADDR", "V4 GETVERSADDR"}
NAMES = {"tcp": BOTH | {"V2 DUMP", "V3 DUMP"}, "udp": BOTH | {"V4 DUMP"}}
# The port of datagrams that nobody reads, by which a capture is known to go on.
MARKS = 9


def missing():
    """What the rows want and is not here, if anything is."""
    if not shutil.which("tshark"):
        return "tshark is not there"
    return "tshark may not capture" if ask(["tshark", "-i", "lo", "-L"])[0] else None


class Capture:
    """What goes to and from port 111 meanwhile, in a file."""

    def __init__(self, path):
        self.path = path
        words = ["tshark", "-q", "-i", "lo", "-f", f"port 111 or udp port {MARKS}", "-w", path]
        self.process = subprocess.Popen(words, stderr=subprocess.DEVNULL)

    def mark(self, text):
        """Waits until the file has a datagram of this text, and so all that went before it."""
        wait_until(lambda: self.has(text), 2 * WAIT)

    def has(self, text):
        """Sends a datagram of this text, and says whether the file has one."""
        with socket.socket(type=socket.SOCK_DGRAM) as marking:
            marking.sendto(text, (HOST, MARKS))
        if not os.path.exists(self.path):
            return False
        with open(self.path, "rb") as it:
            return text in it.read()

    def __enter__(self):
        self.mark(b"the capture has begun")
        return self

    def __exit__(self, *_):
        self.mark(b"the capture ends")
        self.process.terminate()
        self.process.wait()


def callers(program, root):
    """By its netid what calls the registry over each transport, by the registry's declarations."""
    words = [program, f"{root}/share/oncrpc/rpcbind.x", "--port", "111"]
    return {"tcp": Caller(*words), "udp": Caller(*words, "--udp")}


def look_up(calls, rows):
    """Has clients ask for all rows, and for the address and the port of each."""
    for netid in ("tcp", "udp"):
        ask(["rpcinfo", "-T", netid, HOST, "100000"])
    for words in (["rpcinfo", "-p", HOST], ["rpcinfo", HOST], ["clients", "getrows", "udp"]):
        ask(words)
    for prog, vers, netid, *_ in rows:
        ask(["clients", "askport", prog, vers, netid])
        if netid == "tcp":
            ask(["clients", "getport", prog, vers])
        given = {"r_prog": int(prog), "r_vers": int(vers), "r_netid": netid, "r_addr": "", "r_owner": ""}
        for procedure in ("V3.GETADDR", "V4.GETADDR", "V4.GETVERSADDR"):
            calls[netid].ask(f"rpcbind.{procedure}", given=given)


def change(calls):
    """Has a row set and unset; by the xid of each call what was printed of its reply."""
    given = {"prog": 301, "vers": 1, "prot": 6, "port": 2049}
    made = enumerate(itertools.product(calls.values(), ("SET", "UNSET")), 7000)
    return {xid: call.ask(f"rpcbind.V2.{it}", "--xid", str(xid), given=given)[1] for xid, (call, it) in made}


def messages(path):
    """The calls and the replies that tshark reads, by their xids; a field has the list of its values."""
    named = [*FIELDS, *PORTS, *ADDRESSES]
    words = ["tshark", "-n", "-r", path, "-Y", "rpc.msgtyp", "-T", "fields"]
    calls, replies = {}, {}
    for line in ask([*words, *(word for it in named for word in ("-e", it))])[1].splitlines():
        read = {name: it.split(",") if it else [] for name, it in zip(named, line.split("\t"))}
        kind = calls if read["rpc.msgtyp"] == ["0"] else replies
        # (of one that was sent again the first, since the name of the others is behind a note of that)
        kind.setdefault(read["rpc.xid"][0], {**read, "name": " ".join(read["_ws.col.Info"][0].split()[:2])})
    return calls, replies


def table(read, columns):
    """The rows that a message has, by the fields that are their columns."""
    return [list(it) for it in zip(*(read[name] for name in columns))]


def dumped_rows(whose, calls, replies, rows):
    """Each DUMP has the rows of rpcinfo, in their order."""
    numbers = {"tcp": "6", "udp": "17"}
    ports = [[prog, vers, numbers[netid], port_of(at)] for prog, vers, netid, at, _ in rows]
    for version, columns, wanted in (("V2", PORTS, ports), ("V3", ADDRESSES, rows), ("V4", ADDRESSES, rows)):
        got = [table(replies[xid], columns) for xid, it in calls.items() if it["name"] == f"{version} DUMP"]
        well = got != [] and all(it == wanted for it in got)
        yield told(f"Wireshark reads {version} DUMP of {whose}", wanted if well else got, wanted, "rpcinfo")


def port_of(at):
    """The port of a universal address, in decimal."""
    high, low = map(int, at.split(".")[-2:])
    return str(256 * high + low)


def looked_up_rows(whose, calls, replies, rows):
    """Each row is looked up, by its port, and by its address: for 0.0.0.0 that is the one that was called."""
    netids, got = {"6": "tcp", "17": "udp"}, {"V2 GETPORT": [], "V3 GETADDR": [], "V4 GETADDR": []}
    for xid, it in calls.items():
        asked = [it[name][0] for name in (PORTS if it["portmap.prog"] else ADDRESSES)[:3] if it[name]]
        # rpcinfo asks for the address of version 0, which is none.
        if it["name"] in got and asked[1] != "0":
            asked[2] = netids.get(asked[2], asked[2])
            got[it["name"]].append([*asked, *replies[xid]["portmap.port"], *replies[xid]["portmap.uaddr"]])
    ports = [[*row[:3], port_of(row[3])] for row in rows]
    addresses = [[*row[:3], row[3].replace("0.0.0.0", HOST)] for row in rows]
    for name, wanted in (("V2 GETPORT", ports), ("V3 GETADDR", addresses), ("V4 GETADDR", addresses)):
        found = [it for number, it in enumerate(got[name]) if it not in got[name][:number]]
        yield told(f"Wireshark reads {len(found)} answers of {name} of {whose}", found, wanted, "rpcinfo")


def changed_rows(whose, replies, printed):
    """Each SET and UNSET has the answer that 'oncrpc call' printed, or none where it was denied."""
    named = {"0": "false", "False": "false", "1": "true", "True": "true"}
    wanted = {xid: said.split() for xid, said in printed.items()}
    got = {xid: [named.get(it, it) for it in replies[f"0x{xid:08x}"]["portmap.answer"]] for xid in printed}
    yield told(f"Wireshark reads {len(got)} answers of SET and UNSET of {whose}", got, wanted, "oncrpc call")


def named_rows(whose, calls):
    """Over each transport the procedures have the names of those that were called; version 0 has none."""
    for netid, names in NAMES.items():
        got = {it["name"] for it in calls.values() if bool(it["udp.port"]) == (netid == "udp")}
        got = {it for it in got if not it.startswith("V0 ")}
        yield told(f"Wireshark names {len(got)} procedures of {whose} over {netid}", got, names, "RFC 1833")


def wireshark_rows(program, root, folder, whose):
    """The rows."""
    lines, path, by = rows_of(["rpcinfo", HOST]), f"{folder}/capture", callers(program, root)
    rows = [[prog, vers, netid, at, owner] for prog, vers, netid, at, _, owner in lines]
    with Capture(path):
        look_up(by, rows)
        printed = change(by)
    said = ask(["tshark", "-n", "-r", path, "-Y", FAULTS])
    yield told(f"Wireshark finds nothing malformed of {whose}", said[:2], (0, ""), "RFC 5531")
    calls, replies = messages(path)
    yield told(f"{len(calls)} calls of {whose} have their replies", replies.keys(), calls.keys(), "RFC 5531")
    if replies.keys() != calls.keys():
        return
    yield from named_rows(whose, calls)
    yield from dumped_rows(whose, calls, replies, rows)
    yield from looked_up_rows(whose, calls, replies, rows)
    yield from changed_rows(whose, replies, printed)
