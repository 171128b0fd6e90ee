"""Messages of RPC worked by hand from RFC 5531: calls, replies and bodies of AUTH_SYS, each read and written again, and
bytes that are none; and those that real clients and servers sent."""
import os
import re

from rows.messages import BODIES, CALLS, NO_BODIES, NO_CALLS, NO_REPLIES, REPLIES, accepted, auth
from rows.shared import Case, NO_AUTH, NULL, octets


def cut_call(length):
    """What so many bytes of the null call are, which has 40."""
    return "not a call" if length < 24 else f"call 1 with a bad {'credential' if length < 32 else 'verifier'}"


def read_as(engine, given, read, again, front=b""):
    """A case, and that its bytes are read so, and what is written again: nothing for what is refused."""
    wanted = read if again is None else f"{read}; written {again.hex()}"
    return Case(engine, given=given, front=front), lambda told: told.answer == wanted


def call_cases():
    for given, cred, verf, args in CALLS:
        fields = "call 1, program 100000, version 2, procedure 0"
        call = f"{fields}, credential {cred}, verifier {verf}, arguments {octets(args).hex()}"
        yield read_as("read_call", given, call, given)
    others = [(octets(digits), told) for digits, told in NO_CALLS]
    for given, told in others + [(NULL[:length], cut_call(length)) for length in range(40)]:
        yield read_as("read_call", given, told, None)


def reply_cases():
    """A reply is written alone, and behind four bytes that stand there."""
    for digits, told in REPLIES:
        given = octets(digits)
        for front in (b"", b"\1\2\3\4"):
            yield read_as("read_reply", given, told, front + given, front)
    for fault, rows in NO_REPLIES.items():
        for digits in rows:
            yield read_as("read_reply", octets(digits), f"refused {fault}", None)


def body_cases():
    for digits, stamp, machine, uid, gid, gids in BODIES:
        fields = f"stamp {stamp}, machine {machine.hex()}, uid {uid}, gid {gid}, gids"
        yield read_as("read_auth_sys", octets(digits), " ".join([fields, *map(str, gids)]), octets(digits))
    for digits in NO_BODIES:
        yield read_as("read_auth_sys", octets(digits), "no credential", None)


CALL = re.compile(r"(program .*), (AUTH_NONE|AUTH_SYS (\S+) (\d+) (\d+) \[(.*)\]), AUTH_NONE, arguments 0x(.*)")


def captured_call(given, says):
    """A call by its number and its words, and its body of AUTH_SYS, where it has one."""
    found, cred = CALL.fullmatch(says), NO_AUTH
    if found[3]:
        body = given[32 : 32 + int.from_bytes(given[28:32], "big")]
        cred = auth(1, body)
        stamp, machine = int.from_bytes(body[:4], "big"), found[3].encode().hex()
        told = f"stamp {stamp}, machine {machine}, uid {found[4]}, gid {found[5]}, gids {found[6]}"
        yield read_as("read_auth_sys", body, told, body)
    call = f"call {int.from_bytes(given[:4], 'big')}, {found[1]}, credential {cred}, verifier {NO_AUTH}"
    yield read_as("read_call", given, f"{call}, arguments {found[7]}", given)


def captured_cases():
    """What rows/captured.txt has: a message in hexadecimal without the marks of its record, and what it says."""
    path = os.path.join(os.path.dirname(os.path.dirname(os.path.realpath(__file__))), "rows", "captured.txt")
    with open(path, encoding="ascii") as captured:
        lines = [line.strip() for line in captured if not line.startswith("#")]
    for message, says in zip(lines[::2], lines[1::2]):
        sort, digits = message.split()
        given = octets(digits)
        if sort == "call":
            yield from captured_call(given, says)
        else:
            status = says.removeprefix("AUTH_NONE, ").replace("0x", "").replace(" to ", " ")
            yield read_as("read_reply", given, accepted(status, xid=int.from_bytes(given[:4], "big")), given)


def message_cases():
    """Calls, replies and bodies."""
    for cases in (call_cases, reply_cases, body_cases, captured_cases):
        yield from cases()
