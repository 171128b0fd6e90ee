"""Calls of the registry, one after another: what each answers, and what is left where a growth is refused to it; its
types; and the texts of addresses (RFC 1833 sections 2 and 3, RFC 5665 section 5.2.3.3)."""

EVERY_HOST = "0.0.0.0.0.111"
NETID_64, NETID_65, ADDRESS_256, ADDRESS_257 = "n" * 64, "n" * 65, "a" * 256, "a" * 257
# The registry's own rows as `rpcb`s and as `mapping`s.
RPCBS = [(100000, vers, netid, EVERY_HOST, "superuser") for vers in (2, 3, 4) for netid in ("tcp", "udp")]
MAPPINGS = [(100000, vers, prot, 111) for vers in (2, 3, 4) for prot in (6, 17)]
OWN_DUMP, OWN_PORTS = ("dump", RPCBS), ("dump_ports", MAPPINGS)
# Tables of calls, each with its answer behind what it takes: a key is a program, a version and a netid or a transport,
# and who asks stands before whether it is done. What a registry finds of its own rows, without memory.
OWN_FOUND = [
    ("rows", 6),
    ("row", 0, (100000, 2, "tcp"), EVERY_HOST, "superuser"),
    ("row", 1, (100000, 2, "udp"), EVERY_HOST, "superuser"),
    ("row", 2, (100000, 3, "tcp"), EVERY_HOST, "superuser"),
    ("row", 3, (100000, 3, "udp"), EVERY_HOST, "superuser"),
    ("row", 4, (100000, 4, "tcp"), EVERY_HOST, "superuser"),
    ("row", 5, (100000, 4, "udp"), EVERY_HOST, "superuser"),
    ("row", 6, None),
    ("getaddr", (100000, 4, "tcp"), EVERY_HOST),
    ("getaddr", (100000, 4, "udp"), EVERY_HOST),
    ("get_port", (100000, 4, 6), 111),
    ("get_port", (100000, 4, 17), 111),
]
# And how it dumps them.
OWN_DUMPS = [OWN_DUMP, OWN_PORTS]
# A registry without rows.
NO_ROWS = [
    ("rows", 0),
    ("row", 0, None),
    ("getaddr", (100000, 2, "tcp"), ""),
    ("get_port", (100000, 2, 6), 0),
    ("unset", (100000, 2, ""), "superuser", False),
    ("unset_port", 100000, 2, "superuser", False),
    ("dump", []),
    ("dump_ports", []),
]
# A netid has 1 to 64 bytes and an address 1 to 256.
LENGTHS = [
    ("set", (7, 1, NETID_65), ADDRESS_256, "unknown", False),
    ("set", (7, 1, NETID_64), ADDRESS_257, "unknown", False),
    ("set", (7, 1, ""), ADDRESS_256, "unknown", False),
    ("set", (7, 1, NETID_64), "", "unknown", False),
    ("rows", 6),
    ("set", (7, 1, NETID_64), ADDRESS_256, "unknown", True),
    ("row", 6, (7, 1, NETID_64), ADDRESS_256, "unknown"),
    ("set", (7, 1, NETID_64), "a", "unknown", False),
    ("rows", 7),
]
# RFC 1833 section 3.1: the transports of version 2 are 6 for `tcp` and 17 for `udp`.
PORTS = [
    ("set_port", (7, 1, 6), 65535, "unknown", True),
    ("getaddr", (7, 1, "tcp"), "0.0.0.0.255.255"),
    ("get_port", (7, 1, 6), 65535),
    ("get_port", (7, 1, 17), 0),
    ("set_port", (7, 1, 17), 65536, "unknown", False),
    ("set_port", (7, 1, 5), 111, "unknown", False),
    ("rows", 7),
    ("set_port", (7, 1, 17), 0, "unknown", True),
    ("getaddr", (7, 1, "udp"), "0.0.0.0.0.0"),
    ("get_port", (7, 1, 17), 0),
    ("rows", 8),
]
# A second set of a key changes nothing, and a dump gives the rows in the order in which they were set.
SET_TWICE = [
    ("set_port", (536870912, 1, 6), 2049, "unknown", True),
    ("getaddr", (536870912, 1, "tcp"), "0.0.0.0.8.1"),
    ("get_port", (536870912, 1, 6), 2049),
    ("set_port", (536870912, 1, 6), 2050, "unknown", False),
    ("get_port", (536870912, 1, 6), 2049),
    ("rows", 7),
    ("dump_ports", [*MAPPINGS, (536870912, 1, 6, 2049)]),
]
# `unset_port` removes what its owner owns, over both transports.
UNSET_PORTS = [
    ("set", (8, 1, "tcp"), EVERY_HOST, "1001", True),
    ("set", (8, 1, "udp"), EVERY_HOST, "1000", True),
    ("unset_port", 8, 1, "1000", True),
    ("get_port", (8, 1, 6), 111),
    ("get_port", (8, 1, 17), 0),
    ("unset_port", 8, 1, "1000", False),
    ("rows", 7),
]
# Only its owner and the superuser remove a row. An owner that begins another's name is another.
OWNERS = [
    ("set", (536870912, 1, "tcp"), "127.0.0.1.8.1", "1001", True),
    ("unset", (536870912, 1, "tcp"), "1000", False),
    ("unset", (536870912, 1, "tcp"), "superuser", True),
    ("unset", (536870912, 1, "tcp"), "superuser", False),
    ("set", (10, 1, "tcp"), EVERY_HOST, "1000", True),
    ("set", (10, 2, "tcp"), EVERY_HOST, "100", True),
    ("unset", (10, 1, "tcp"), "100", False),
    ("unset", (10, 1, ""), "100", False),
    ("unset", (10, 2, "tcp"), "1000", False),
    ("unset", (10, 2, ""), "1000", False),
    ("rows", 8),
    ("set", (10, 3, "tcp"), EVERY_HOST, "4294967295", True),
    ("row", 8, (10, 3, "tcp"), EVERY_HOST, "4294967295"),
    ("unset", (10, 3, "tcp"), "4294967295", True),
    ("rows", 8),
]
# With an empty netid all rows of a version go, and the rest keep their order.
VERSIONS = [
    ("unset", (100000, 3, ""), "superuser", True),
    ("dump", RPCBS[:2] + RPCBS[4:]),
    ("dump_ports", MAPPINGS[:2] + MAPPINGS[4:]),
]
# A version that is not registered is looked up as the greatest of its program and netid that is, by `getaddr` and
# `get_port`, and not by `getversaddr`.
OTHER_VERSIONS = [
    ("set", (9, 2, "tcp"), "1.2.3.4.0.2", "unknown", True),
    ("set", (9, 5, "tcp"), "1.2.3.4.0.5", "unknown", True),
    ("set", (9, 3, "tcp"), "1.2.3.4.0.3", "unknown", True),
    ("set", (9, 7, "udp"), "1.2.3.4.0.7", "unknown", True),
    ("set", (8, 9, "tcp"), "1.2.3.4.0.9", "unknown", True),
    ("getaddr", (9, 3, "tcp"), "1.2.3.4.0.3"),
    ("getaddr", (9, 4, "tcp"), "1.2.3.4.0.5"),
    ("getaddr", (9, 0, "tcp"), "1.2.3.4.0.5"),
    ("getaddr", (9, 4294967295, "tcp"), "1.2.3.4.0.5"),
    ("getaddr", (9, 7, "tcp"), "1.2.3.4.0.5"),
    ("getaddr", (9, 5, "udp"), "1.2.3.4.0.7"),
    ("getaddr", (10, 5, "tcp"), ""),
    ("getaddr", (9, 5, "tcp6"), ""),
    ("getaddr", (9, 5, ""), ""),
    ("getversaddr", (9, 3, "tcp"), "1.2.3.4.0.3"),
    ("getversaddr", (9, 4, "tcp"), ""),
    ("getversaddr", (9, 7, "tcp"), ""),
    ("get_port", (9, 3, 6), 3),
    ("get_port", (9, 4, 6), 5),
    ("get_port", (9, 1, 17), 7),
    ("get_port", (9, 1, 5), 0),
    ("unset", (9, 5, "tcp"), "unknown", True),
    ("getaddr", (9, 5, "tcp"), "1.2.3.4.0.3"),
    ("get_port", (9, 5, 6), 3),
    ("set", (9, 6, "tcp"), "localhost", "unknown", True),
    ("getaddr", (9, 5, "tcp"), "localhost"),
    ("get_port", (9, 5, 6), 0),
]
# Of the rows over `tcp` and `udp`, `dump_ports` gives those at an IPv4 address.
ADDRESSES = [
    ("set", (9, 1, "tcp6"), "::1.8.1", "unknown", True),
    ("set", (9, 1, "tcp"), "localhost", "unknown", True),
    ("set", (9, 2, "tcp6"), "1.2.3.4.5.6", "unknown", True),
    ("get_port", (9, 1, 6), 0),
    ("get_port", (9, 2, 6), 0),
    OWN_PORTS,
    ("unset", (100000, 2, ""), "superuser", True),
    ("unset", (100000, 3, ""), "superuser", True),
    ("unset", (100000, 4, ""), "superuser", True),
    ("set", (9, 2, "udp"), "1.2.3.4.5.6", "unknown", True),
    ("get_port", (9, 2, 17), 1286),
    ("dump_ports", [(9, 2, 17, 1286)]),
]
# The registry's own rows at port 2049.
OTHER_PORT = [
    ("rows", 6),
    ("row", 0, (100000, 2, "tcp"), "0.0.0.0.8.1", "superuser"),
    ("row", 1, (100000, 2, "udp"), "0.0.0.0.8.1", "superuser"),
    ("row", 2, (100000, 3, "tcp"), "0.0.0.0.8.1", "superuser"),
    ("row", 3, (100000, 3, "udp"), "0.0.0.0.8.1", "superuser"),
    ("row", 4, (100000, 4, "tcp"), "0.0.0.0.8.1", "superuser"),
    ("row", 5, (100000, 4, "udp"), "0.0.0.0.8.1", "superuser"),
    ("get_port", (100000, 2, 6), 2049),
    ("get_port", (100000, 2, 17), 2049),
    ("get_port", (100000, 3, 6), 2049),
    ("get_port", (100000, 3, 17), 2049),
    ("get_port", (100000, 4, 6), 2049),
    ("get_port", (100000, 4, 17), 2049),
    ("dump_ports", [
        (100000, 2, 6, 2049),
        (100000, 2, 17, 2049),
        (100000, 3, 6, 2049),
        (100000, 3, 17, 2049),
        (100000, 4, 6, 2049),
        (100000, 4, 17, 2049),
    ]),
]
# The registry's own rows at the greatest port.
GREATEST_PORT = [
    ("row", 4, (100000, 4, "tcp"), "0.0.0.0.255.255", "superuser"),
    ("row", 5, (100000, 4, "udp"), "0.0.0.0.255.255", "superuser"),
    ("get_port", (100000, 4, 6), 65535),
    ("get_port", (100000, 4, 17), 65535),
    ("rows", 6),
]
# And at port 0.
PORT_0 = [
    ("getaddr", (100000, 4, "tcp"), "0.0.0.0.0.0"),
    ("getaddr", (100000, 4, "udp"), "0.0.0.0.0.0"),
    ("get_port", (100000, 4, 6), 0),
    ("get_port", (100000, 4, 17), 0),
    ("rows", 6),
]
# What a registry that was started at a port answers, and one without rows.
TABLES = [
    (111, OWN_FOUND),
    (111, OWN_DUMPS),
    (111, LENGTHS),
    (111, PORTS),
    (111, SET_TWICE),
    (111, UNSET_PORTS),
    (111, OWNERS),
    (111, VERSIONS),
    (111, OTHER_VERSIONS),
    (111, ADDRESSES),
    (2049, OTHER_PORT),
    (65535, GREATEST_PORT),
    (0, PORT_0),
    (None, NO_ROWS),
]
# A registry of 1024 rows, the last of them of program 1017, takes no more.
FILLS = [("set", (prog, 1, "tcp"), EVERY_HOST, "unknown", True) for prog in range(1018)]
FULL = [
    ("dump", RPCBS + [(prog, 1, "tcp", EVERY_HOST, "unknown") for prog in range(1018)]),
    ("dump_ports", MAPPINGS + [(prog, 1, 6, 111) for prog in range(1018)]),
    ("set", (1018, 1, "tcp"), EVERY_HOST, "unknown", False),
    ("rows", 1024),
    ("row", 1023, (1017, 1, "tcp"), EVERY_HOST, "unknown"),
    ("row", 1024, None),
    ("getaddr", (1018, 1, "tcp"), ""),
]
# Texts and their addresses, and texts that are none.
UADDRS = [
    ("255.255.255.255.255.255", (255, 255, 255, 255), 65535),
    ("0.0.0.0.0.111", (0, 0, 0, 0), 111),
    ("192.0.2.7.8.1", (192, 0, 2, 7), 2049),
]
NO_UADDRS = ["1.2.3.4.0.256", "01.2.3.4.0.1", "1.2.3.4.5", ""]
READ_UADDRS = [("read_uaddr", *row) for row in UADDRS] + [("read_uaddr", text, None, 0) for text in NO_UADDRS]
WRITTEN_UADDRS = [("write_uaddr", *row) for row in UADDRS]
# The calls that take none, the registry's own rows being there and then removed.
TAKING_NONE = [
    ("rows", 6),
    ("row", 0, (100000, 2, "tcp"), EVERY_HOST, "superuser"),
    ("row", 4, (100000, 4, "tcp"), EVERY_HOST, "superuser"),
    ("row", 5, (100000, 4, "udp"), EVERY_HOST, "superuser"),
    ("getaddr", (100000, 4, "tcp"), EVERY_HOST),
    ("getaddr", (100000, 5, "tcp"), EVERY_HOST),
    ("getversaddr", (100000, 4, "tcp"), EVERY_HOST),
    ("get_port", (100000, 4, 6), 111),
    ("get_port", (100000, 4, 17), 111),
    ("unset", (100000, 3, "tcp"), "superuser", True),
    ("unset", (100000, 3, "udp"), "superuser", True),
    ("unset", (100000, 4, ""), "superuser", True),
    ("unset_port", 100000, 2, "superuser", True),
    ("rows", 0),
]
# The port at which a registry was started, if it was, a call that takes memory, and what is found after it where it had
# it.
TAKING = [
    (None, ("start", 111, 6), OWN_FOUND),
    (111, ("set", (7, 1, "tcp"), EVERY_HOST, "unknown", True), [("row", 6, (7, 1, "tcp"), EVERY_HOST, "unknown")]),
    (111, ("set_port", (7, 1, 17), 2049, "unknown", True), [("get_port", (7, 1, 17), 2049)]),
    (111, OWN_DUMP, [("rows", 6)]),
    (111, OWN_PORTS, [("rows", 6)]),
    (111, WRITTEN_UADDRS[0], [("rows", 6)]),
]


def structure(**fields):
    return f"struct ({'; '.join(f'{place} {name}' for name, place in fields.items())})"


def maybe(place):
    return f"optional {place}"


# The kinds after the basic ones, which end at place 7, and the places of names: RFC 1833 section 2.1 has the strings of
# `rpcb`, `rpcb` and `rp__list`, section 3.1 `mapping` and `pm__list`.
TEXT = "string<4294967295>"
KINDS = [
    TEXT,
    TEXT,
    TEXT,
    structure(r_prog=1, r_vers=1, r_netid=8, r_addr=9, r_owner=10),
    maybe(13),
    structure(rpcb_map=11, rpcb_next=12),
    maybe(13),
    structure(prog=1, vers=1, prot=1, port=1),
    maybe(17),
    structure(map=15, next=16),
    maybe(17),
]
NAMES = {"int": 0, "string": 7, "rpcb": 11, "rp__list": 13, "rpcblist": 14}
NAMES.update({"mapping": 15, "pm__list": 17, "pmaplist": 18})
