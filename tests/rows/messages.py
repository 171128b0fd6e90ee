"""Messages of RPC worked by hand from RFC 5531: calls, replies and bodies of AUTH_SYS, each read and written again, and
bytes that are none."""
from .shared import NO_AUTH, NULL, octets


def auth(flavor, body):
    return f"{flavor}:{body.hex()}"


# The same call of procedure 0 of version 2 of program 100000, up to its credential, and up to its verifier.
FRONT = "00000001 00000000 00000002 000186a0 00000002 00000000"
TO_VERIFIER = FRONT + "00000000 00000000"
SEVENS = "07" * 400
# The bytes of a call, and its credential, its verifier and its arguments. A flavor that RFC 5531 does not name is kept,
# and so is a body of 400 bytes.
CALLS = [
    (NULL, NO_AUTH, NO_AUTH, ""),
    (octets(f"{FRONT} 00000006 00000000 00000000 00000000"), auth(6, b""), NO_AUTH, ""),
    (octets(f"{FRONT} 00000006 00000190 {SEVENS} 00000000 00000000"), auth(6, octets(SEVENS)), NO_AUTH, ""),
    (octets(f"{FRONT} 00000006 00000001 61000000 00000000 00000000 0000002a"), auth(6, b"a"), NO_AUTH, "0000002a"),
    (octets(f"{TO_VERIFIER} 00000006 00000001 61000000 00000000"), NO_AUTH, auth(6, b"a"), "00000000"),
    (octets(f"{TO_VERIFIER} 00000002 00000190 {SEVENS} 0000002a"), NO_AUTH, auth(2, octets(SEVENS)), "0000002a"),
    (
        octets(f"{FRONT} 00000001 00000003 61626300 00000002 00000002 64650000 0102"),
        auth(1, b"abc"),
        auth(2, b"de"),
        "0102",
    ),
    (NULL + b"\7" * 65536, NO_AUTH, NO_AUTH, "07" * 65536),
]
# Version 2 cut before its procedure, a version of which a byte is missing, and a reply, whose third word would be
# another version or version 2; another version; a credential of 401 bytes, and credentials and a verifier with padding
# that is not zero. Where more than one case seems to apply, the first in the order of the bytes does.
NO_CALLS = [
    ("00000001 00000000 00000002 000186a0 00000002", "not a call"),
    ("00000001 00000000 000003", "not a call"),
    ("00000001 00000001 00000003", "not a call"),
    ("00000001 00000001 00000002 000186a0 00000002 00000000", "not a call"),
    ("00000002 00000000 00000003", "call 2 of version 3 of RPC"),
    ("00000001 00000000 00000002 000186a0 00000002 00000000 00000000 00000191 0000", "call 1 with a bad credential"),
    (
        "00000001 00000000 00000002 000186a0 00000002 00000000 00000000 00000001 61000001",
        "call 1 with a bad credential",
    ),
    (
        "00000001 00000000 00000002 000186a0 00000002 00000000 00000000 00000000 00000000 00000001 6100ff00",
        "call 1 with a bad verifier",
    ),
]


def accepted(status, verf=NO_AUTH, xid=3):
    return f"reply to {xid}, verifier {verf}, {status}"


def denied_by(why, xid=1):
    return f"denial to {xid}, {why}"


ONE = "SUCCESS 00000001"
MISMATCH = "PROG_MISMATCH 2 4"
# The bytes of a reply, and what it is. The last denial has a number that RFC 5531 does not name.
REPLIES = [
    ("00000003 00000001 00000000 00000000 00000000 00000000 00000001", accepted(ONE)),
    ("00000003 00000001 00000000 00000000 00000000 00000001", accepted("PROG_UNAVAIL")),
    ("00000003 00000001 00000000 00000000 00000000 00000002 00000002 00000004", accepted(MISMATCH)),
    ("00000003 00000001 00000000 00000000 00000000 00000003", accepted("PROC_UNAVAIL")),
    ("00000003 00000001 00000000 00000000 00000000 00000004", accepted("GARBAGE_ARGS")),
    ("00000003 00000001 00000000 00000000 00000000 00000005", accepted("SYSTEM_ERR")),
    ("00000003 00000001 00000000 00000002 00000001 61000000 00000000 00000001", accepted(ONE, auth(2, b"a"))),
    ("00000003 00000001 00000000 00000006 00000001 61000000 00000001", accepted("PROG_UNAVAIL", auth(6, b"a"))),
    (
        f"00000003 00000001 00000000 00000002 00000190 {SEVENS} 00000000 00000001",
        accepted(ONE, auth(2, octets(SEVENS))),
    ),
    (
        f"00000003 00000001 00000000 00000006 00000190 {SEVENS} 00000002 00000002 00000004",
        accepted(MISMATCH, auth(6, octets(SEVENS))),
    ),
    (
        "00000003 00000001 00000000 00000000 00000000 00000000" + "07" * 65536,
        accepted("SUCCESS " + "07" * 65536),
    ),
    ("00000002 00000001 00000001 00000000 00000002 00000002", denied_by("RPC_MISMATCH 2 2", 2)),
    ("00000001 00000001 00000001 00000001 00000001", denied_by("AUTH_ERROR 1")),
    ("00000001 00000001 00000001 00000001 00000002", denied_by("AUTH_ERROR 2")),
    ("00000001 00000001 00000001 00000001 00000063", denied_by("AUTH_ERROR 99")),
]
# What is refused, by the first fault in the order of the bytes: they end before any other fault stands in them, where a
# number that is cut says nothing yet; another message and another status stand before the end, and before bytes that
# would follow; a length of 401 is named at once, and padding that is not zero before its end and before a bad status;
# and bytes follow a reply that has no results.
NO_REPLIES = {
    "Truncated": [
        "",
        "00000001",
        "00000001 000002",
        "00000001 00000001 00000000 00000000 000000",
        "00000001 00000001 00000000 00000000 00000004 61626364",
        "00000001 00000001 00000000 00000000 00000004 616263",
        "00000001 00000001 00000000 00000000 00000001 61",
        "00000001 00000001 00000000 00000000 00000001 610000",
        "00000001 00000001 00000000 00000000 00000000 00000002 00000002 0000",
        "00000001 00000001 00000001 0000",
        "00000001 00000001 00000001 00000001",
        "00000001 00000001 00000001 00000000 00000002",
    ],
    "NotAReply": ["00000001 00000000", "00000001 00000000 00000002"],
    "BadStatus": [
        "00000001 00000001 00000002",
        "00000001 00000001 00000000 00000000 00000000 00000006",
        "00000001 00000001 00000000 00000000 00000000 00000006 00",
        "00000001 00000001 00000001 00000002",
    ],
    "BadAuth": [
        "00000001 00000001 00000000 00000000 00000191",
        "00000001 00000001 00000000 00000000 00000001 6101",
        "00000001 00000001 00000000 00000000 00000001 610001",
        "00000001 00000001 00000000 00000000 00000001 61000001 00000006",
    ],
    "Rest": [
        "00000001 00000001 00000000 00000000 00000000 00000001 00000000",
        "00000001 00000001 00000000 00000000 00000000 00000002 00000002 00000004 00",
        "00000001 00000001 00000000 00000000 00000000 00000003 00",
        "00000001 00000001 00000000 00000000 00000000 00000004 00",
        "00000001 00000001 00000000 00000000 00000000 00000005 00",
        "00000001 00000001 00000001 00000000 00000002 00000002 00",
        "00000001 00000001 00000001 00000001 00000063 00",
    ],
}
SIXTEEN = """00000000 00000001 00000002 00000003 00000004 00000005 00000006 00000007 00000008 00000009
    0000000a 0000000b 0000000c 0000000d 0000000e 0000000f"""
LONGEST = "00000001 000000ff" + "61" * 255 + "00 00000002 00000003 00000010"
# The bytes of a body of AUTH_SYS, and its stamp, machine name, uid, gid and gids. The last has 255 bytes of machine
# name and 16 gids, and 340 bytes in all.
BODIES = [
    ("00000000 00000003 626f7800 000003e8 00000064 00000001 00000064", 0, b"box", 1000, 100, [100]),
    ("ffffffff 00000000 00000000 00000000 00000000", 2**32 - 1, b"", 0, 0, []),
    (LONGEST + SIXTEEN, 1, b"a" * 255, 2, 3, [*range(16)]),
]
# The longest body without its last byte and with one more, 17 gids, 256 bytes of machine name, and padding that is not
# zero.
NO_BODIES = [
    LONGEST + "00" * 63,
    LONGEST + "00" * 65,
    "00000000 00000000 00000000 00000000 00000011" + "00" * 68,
    "00000000 00000100" + "00" * 268,
    "00000000 00000003 626f7801 000003e8 00000064 00000000",
]
