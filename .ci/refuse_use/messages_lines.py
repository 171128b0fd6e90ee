"""Rows of 'oncrpc messages': streams worked by hand, and the connections of a capture, whose procedures tshark names."""
import os
import shutil
import subprocess

from refuse_use.messages_brief import BOTH_BRIEF, brief_rows
from refuse_use.messages_hostile import hostile_rows
from refuse_use.messages_long import further_rows
from refuse_use.messages_recorded import recorded_rows
from refuse_use.messages_streams import ROOT, RPCBIND, Sweep, call, counts, ended, fragment, reply, sys_body, words
from refuse_use.packets import connections
from telling import tell

GETPORT = call(8, 100000, 2, 3, words(100003, 3, 6, 0))
GETPORT_LINES = b"call 8 100000.2.3 GETPORT AUTH_NONE\nstruct\n  prog: 100003\n  vers: 3\n  prot: 6\n  port: 0\n"
SET = call(9, 100000, 2, 1, words(7, 1, 6, 99))
# A body of AUTH_SYS (RFC 5531 appendix A), and one whose padding is not zero.
SYS = sys_body(b"box", 30, 40)
UNPADDED = SYS.replace(b"box\0", b"box!")


# What rows are about, the words, the input, the status and the output.
ROWS = [
    (
        "a call and its reply",
        RPCBIND,
        fragment(GETPORT) + fragment(reply(8, 0, results=words(2049))),
        0,
        GETPORT_LINES + b"reply 8 100000.2.3 GETPORT SUCCESS\n2049\n" + counts(1, 1, 0, 0, 0, 0),
    ),
    (
        "a reply is read by the type of its own call",
        RPCBIND,
        fragment(SET) + fragment(GETPORT) + fragment(reply(8, 0, results=words(2))) + fragment(reply(9, 0, results=words(2))),
        1,
        b"call 9 100000.2.1 SET AUTH_NONE\nstruct\n  prog: 7\n  vers: 1\n  prot: 6\n  port: 99\n"
        + GETPORT_LINES
        + b"reply 8 100000.2.3 GETPORT SUCCESS\n2\nreply 9 100000.2.1 SET SUCCESS\nrefused BadBool at 180\n"
        + counts(2, 2, 0, 1, 0, 0),
    ),
    (
        "a reply without a call, and a second one",
        RPCBIND,
        fragment(call(7, 100000, 2, 0)) + fragment(reply(7, 0)) * 2 + fragment(reply(1, 0, results=words(3))),
        0,
        b"call 7 100000.2.0 NULL AUTH_NONE\nreply 7 100000.2.0 NULL SUCCESS\nreply 7 no call SUCCESS, 0 bytes\n"
        b"reply 1 no call SUCCESS, 4 bytes\n" + counts(1, 3, 0, 0, 2, 2),
    ),
    (
        "each status",
        RPCBIND,
        b"".join(fragment(reply(1, *status)) for status in ((1,), (2, 3, 4), (3,), (4,), (5,)))
        + fragment(words(1, 1, 1, 0, 2, 2))
        + fragment(words(1, 1, 1, 1, 13)),
        0,
        b"reply 1 no call PROG_UNAVAIL\nreply 1 no call PROG_MISMATCH 3 4\nreply 1 no call PROC_UNAVAIL\n"
        b"reply 1 no call GARBAGE_ARGS\nreply 1 no call SYSTEM_ERR\nreply 1 no call RPC_MISMATCH 2 2\n"
        b"reply 1 no call AUTH_ERROR 13\n" + counts(0, 7, 0, 0, 0, 7),
    ),
    (
        "credentials",
        RPCBIND,
        b"".join(
            fragment(call(7, 100000, 2, 0, b"", flavor, body))
            for flavor, body in ((1, SYS), (2, b"ab"), (3, b""), (6, b"abcd"), (77, b""))
        ),
        0,
        b'call 7 100000.2.0 NULL AUTH_SYS {"stamp":5,"machinename":"box","uid":10,"gid":20,"gids":[30,40]}\n'
        b"call 7 100000.2.0 NULL AUTH_SHORT\ncall 7 100000.2.0 NULL AUTH_DH\n"
        b"call 7 100000.2.0 NULL RPCSEC_GSS, 0 bytes\ncall 7 100000.2.0 NULL flavor 77\n" + counts(5, 0, 0, 0, 1, 0),
    ),
    (
        "a body of AUTH_SYS with other padding, and arguments behind it that are none",
        RPCBIND,
        fragment(call(7, 100000, 2, 0, b"abc", 1, UNPADDED)),
        1,
        b"call 7 100000.2.0 NULL AUTH_SYS\nrefused BadPadding at 44\n" + counts(1, 0, 0, 1, 0, 0),
    ),
    (
        "what is behind the arguments, in fragments of which one is empty",
        RPCBIND,
        fragment(GETPORT[:20], False) + fragment(b"", False) + fragment(GETPORT[20:22], False) + fragment(GETPORT[22:] + b"\0"),
        1,
        b"call 8 100000.2.3 GETPORT AUTH_NONE\nrefused MoreFollows at 72\n" + counts(1, 0, 0, 1, 0, 0),
    ),
    (
        "records that are no messages",
        RPCBIND,
        fragment(words(5, 0, 3)) + fragment(words(5, 2)) + fragment(b"ab") + fragment(words(1, 1, 1, 1, 13, 0)),
        1,
        b"record\nrefused BadNumbered at 12\nrecord\nrefused BadNumbered at 24\nrecord\nrefused Truncated at 34\n"
        b"record\nrefused MoreFollows at 58\n" + counts(0, 0, 4, 4, 0, 0),
    ),
    (
        "the stream ends inside a record",
        RPCBIND,
        fragment(call(7, 100000, 2, 0)) + words(1 << 31 | 9) + b"abc",
        1,
        b"call 7 100000.2.0 NULL AUTH_NONE\ninput refused Truncated at 51\n" + counts(1, 0, 0, 1, 0, 0),
    ),
    (
        "a length that lies",
        RPCBIND,
        words(0xFFFFFFFF) + b"abc",
        1,
        b"input refused TooLong at 0\n" + counts(0, 0, 0, 1, 0, 0),
    ),
    (
        "a program that is not declared",
        RPCBIND,
        fragment(call(7, 100003, 3, 1, words(1, 2))) + fragment(reply(7, 0, results=words(70))),
        0,
        b"call 7 100003.3.1 AUTH_NONE, 8 bytes\nreply 7 100003.3.1 SUCCESS, 4 bytes\n" + counts(1, 1, 0, 0, 2, 0),
    ),
    (
        "JSON",
        f"--json {RPCBIND}",
        fragment(GETPORT) + fragment(reply(8, 0, results=words(2049, 1))) + fragment(b"ab") + fragment(reply(3, 3)),
        1,
        b'{"type":"call","xid":8,"program":100000,"version":2,"procedure":3,"name":"GETPORT","flavor":"AUTH_NONE",'
        b'"arguments":[{"prog":100003,"vers":3,"prot":6,"port":0}]}\n'
        b'{"type":"reply","xid":8,"program":100000,"version":2,"procedure":3,"name":"GETPORT","status":"SUCCESS",'
        b'"refused":"MoreFollows","at":92}\n{"type":"record","refused":"Truncated","at":102}\n'
        b'{"type":"reply","xid":3,"call":false,"status":"PROC_UNAVAIL"}\n'
        b'{"type":"counts","calls":1,"replies":2,"others":1,"refused":2,"unjudged":0,"unasked":1}\n',
    ),
    ("texts without a meaning", f"{RPCBIND} {RPCBIND}", b"", 2, b""),
    ("no such text", "--types none.x", b"", 3, b""),
]
# The same with a file of replies: what it has, the input, the status and the output.
BOTH = [
    (
        "each reply stands behind its call",
        fragment(reply(9, 0, results=words(1))) + fragment(reply(8, 0, results=words(5))) + fragment(reply(7, 0))[:9],
        fragment(GETPORT) + fragment(SET) + fragment(call(7, 100000, 2, 0)),
        1,
        GETPORT_LINES
        + b"call 9 100000.2.1 SET AUTH_NONE\nstruct\n  prog: 7\n  vers: 1\n  prot: 6\n  port: 99\n"
        + b"reply 9 100000.2.1 SET SUCCESS\nTRUE\nreply 8 100000.2.3 GETPORT SUCCESS\n5\n"
        + b"replies refused Truncated at 73\ncall 7 100000.2.0 NULL AUTH_NONE\n"
        + counts(3, 2, 0, 1, 0, 0),
    ),
]


def named(program, folder):
    """The messages of each connection of a capture, both directions, as they are printed: xid, procedure, name."""
    captures = f"{ROOT}/tests/captures"
    os.makedirs(f"{folder}/bin")
    program = shutil.copy(program, f"{folder}/bin/oncrpc")
    os.makedirs(f"{folder}/share")
    os.symlink(f"{ROOT}/share/oncrpc", f"{folder}/share/oncrpc")
    found = []
    for client, server in connections(f"{captures}/libnfs.pcap"):
        with open(f"{folder}/replies", "wb") as it:
            it.write(server)
        ended = subprocess.run([program, "messages", "--replies", f"{folder}/replies"], input=client, capture_output=True)
        lines = ended.stdout.decode().splitlines()
        if (ended.returncode, ended.stderr) != (0, b"") or " refused 0 " not in lines[-1]:
            return f"status {ended.returncode}: {lines[-3:]}, {ended.stderr}"
        found += [it.split()[:4] for it in lines if it.split()[0] in ("call", "reply")]
    with open(f"{captures}/libnfs.txt", encoding="ascii") as it:
        wanted = [it.split()[1:] for it in it]
    # Over UDP there are eight messages more, and a name is printed where the procedure is declared.
    names = {tuple(it[:3]): it[3] for it in wanted}
    for kind, xid, procedure, name in found:
        if (kind, xid, procedure) not in names:
            return f"{kind} {xid} {procedure} is none of tshark's"
        declared = not procedure.startswith(("100003.0.", "100003.4."))
        if declared and names[(kind, xid, procedure)] != name:
            return f"{kind} {xid} {procedure}: {name}"
    return "" if len(found) == 132 else f"{len(found)} messages"


# A program of one's own, and another text of one that is installed.
OWN = "program OWN { version OWN_V { int TWICE(int) = 1; } = 1; } = 536870912;"
OTHER = "program ASKED { version ASKED_V { int ASK(int, int, int, int) = 3; } = 2; } = 100000;"
# Calls of both, and the words with what is printed of the second.
CALLED = fragment(call(1, 536870912, 1, 1, words(7))) + fragment(GETPORT)
BESIDE = [
    ("--types own.x", GETPORT_LINES),
    ("--types own.x --types other.x", b"call 8 100000.2.3 ASK AUTH_NONE\n100003\n3\n6\n0\n"),
]


def beside_installed(program, folder):
    """With the installed texts at hand: what the words name comes first, and does not take the place of the others."""
    for name, text in (("own.x", OWN), ("other.x", OTHER)):
        with open(f"{folder}/{name}", "w", encoding="ascii") as it:
            it.write(text)
    for line, printed in BESIDE:
        printed = b"call 1 536870912.1.1 TWICE AUTH_NONE\n7\n" + printed + counts(2, 0, 0, 0, 0, 0)
        got = ended(program, folder, line, CALLED)
        yield tell(f"messages {line}, beside the installed texts", got == (0, printed, b""), got)


def messages_rows(program, folder, heap):
    sweep = Sweep(program, folder, heap)
    yield sweep.row("an empty stream", RPCBIND, b"", (0, counts(0, 0, 0, 0, 0, 0)), 1)
    for what, line, given, *wanted in ROWS:
        yield sweep.row(what, line, given, tuple(wanted))
    yield from brief_rows(sweep)
    yield from both_rows(sweep, BOTH)
    yield from both_rows(sweep, BOTH_BRIEF, "--brief ")
    said = named(program, f"{folder}/watched")
    yield tell("messages of tests/captures/libnfs.pcap", not said, said, "as tshark names them")
    yield from beside_installed(f"{folder}/watched/bin/oncrpc", folder)
    yield from recorded_rows(program, folder)
    yield from hostile_rows(sweep)
    yield from further_rows(sweep)


def both_rows(sweep, rows, brief=""):
    """Rows with a file of the other direction. Its growths are counted from where both streams are empty."""
    line, file = f"{brief}--replies replies.bin {RPCBIND}", f"{sweep.folder}/replies.bin"
    with open(file, "wb"):
        begin = sweep.first(line)
    for what, replies, given, *wanted in rows:
        with open(file, "wb") as it:
            it.write(replies)
        yield sweep.row(f"with --replies, {what}", line, given, tuple(wanted), begin)
