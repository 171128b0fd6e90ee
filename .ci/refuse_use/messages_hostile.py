"""Rows of 'oncrpc messages' over hostile streams: lengths that lie, fragments without end, replies to other calls, bytes
that are no arguments, more calls than are kept, cuts, and devices that fail.

What is wanted follows from the layout of RFC 5531 sections 8, 9 and 11, and from the places and lines of docs/FORMATS.md.
Behind the header of its record the arguments of a call with two AUTH_NONE begin at byte 40, its results at byte 24.
"""
from refuse_use.messages_streams import MOST, NFS, RPCBIND, call, counts, fragment, header, opaque, reply, sys_body, words

# A program of the rows, in hostile.x.
DECLARED = b"""struct link { link *next; };
program HOSTILE { version ONE {
    void PUT(link) = 0;
    int BOTH(int, bool) = 1;
    string ECHO(string) = 2;
} = 1; } = 536870915;
"""
OWN, NUMBER = "--types hostile.x", 536870915
NULL, NULL_LINE = call(7, 100000, 2, 0), b"call 7 100000.2.0 NULL AUTH_NONE\n"
ONE_CALL = counts(1, 0, 0, 1, 0, 0)
GETPORT = call(8, 100000, 2, 3, words(100003, 3, 6, 0))
GETPORT_LINES = b"call 8 100000.2.3 GETPORT AUTH_NONE\nstruct\n  prog: 100003\n  vers: 3\n  prot: 6\n  port: 0\n"
PORT = reply(8, 0, results=words(2049))
PORT_LINES = b"reply 8 100000.2.3 GETPORT SUCCESS\n2049\n"
BOTH_LINE, ECHO_LINE = b"call 7 536870915.1.1 BOTH AUTH_NONE\n", b"call 7 536870915.1.2 ECHO AUTH_NONE\n"


def both(arguments, xid=7):
    return call(xid, NUMBER, 1, 1, arguments)


def echo(arguments, *more):
    return call(7, NUMBER, 1, 2, arguments, *more)


# What rows are about, the words, the input, the status and the output.
STREAMS = [
    ("a record above the limit", RPCBIND, header(MOST + 1) + b"abc", 1, b"input refused TooLong at 0\n"),
    ("a record within it that is not there", RPCBIND, header(MOST) + b"abc", 1, b"input refused Truncated at 7\n"),
    ("half a header", RPCBIND, header(4)[:2], 1, b"input refused Truncated at 2\n"),
    ("fragments of which none is the last", RPCBIND, fragment(b"abcd", False) * 3, 1, b"input refused Truncated at 24\n"),
]
LIES = [
    (
        "a later fragment that brings its record above the limit",
        RPCBIND,
        fragment(NULL) + fragment(b"abcd", False) + header(MOST - 3) + fragment(NULL),
        1,
        NULL_LINE + b"input refused TooLong at 52\n" + ONE_CALL,
    ),
    (
        "a length that takes in the next header, so that an xid is the one behind it",
        RPCBIND,
        header(44) + NULL + header(40) + call(0x80000024, 100000, 2, 0),
        1,
        NULL_LINE + b"refused MoreFollows at 44\nrecord\nrefused BadNumbered at 56\n" + counts(1, 0, 1, 2, 0, 0),
    ),
    (
        "a length that leaves the end of its record to the next header",
        RPCBIND,
        header(36) + NULL,
        1,
        b"record\nrefused Truncated at 40\ninput refused Truncated at 44\n" + counts(0, 0, 1, 2, 0, 0),
    ),
    (
        "records of no bytes, the second in two fragments",
        RPCBIND,
        fragment(b"") + fragment(b"", False) + fragment(b""),
        1,
        b"record\nrefused Truncated at 4\nrecord\nrefused Truncated at 12\n" + counts(0, 0, 2, 2, 0, 0),
    ),
    (
        "a string that is longer than its record",
        OWN,
        fragment(echo(words(0xFFFFFFFF) + b"hi\0\0")),
        1,
        ECHO_LINE + b"refused Truncated at 52\n" + ONE_CALL,
    ),
    (
        "a handle of 65 bytes",
        NFS,
        fragment(call(7, 100003, 3, 1, opaque(b"h" * 65))),
        1,
        b"call 7 100003.3.1 GETATTR AUTH_NONE\nrefused TooLong at 44\n" + ONE_CALL,
    ),
]
REPLIES = [
    (
        "a reply to another xid, and then the call's own",
        RPCBIND,
        fragment(GETPORT) + fragment(reply(9, 0, results=words(5))) + fragment(PORT),
        0,
        GETPORT_LINES + b"reply 9 no call SUCCESS, 4 bytes\n" + PORT_LINES + counts(1, 2, 0, 0, 1, 1),
    ),
    (
        "a reply before its call",
        RPCBIND,
        fragment(PORT) + fragment(GETPORT) + fragment(PORT),
        0,
        b"reply 8 no call SUCCESS, 4 bytes\n" + GETPORT_LINES + PORT_LINES + counts(1, 2, 0, 0, 1, 1),
    ),
    (
        "two calls with one xid, of which the later one is answered",
        RPCBIND,
        fragment(call(8, 100000, 2, 0)) + fragment(GETPORT) + fragment(PORT) * 2,
        0,
        NULL_LINE.replace(b"7", b"8") + GETPORT_LINES + PORT_LINES + b"reply 8 no call SUCCESS, 4 bytes\n"
        + counts(2, 2, 0, 0, 1, 1),
    ),
    (
        "a call under RPCSEC_GSS, and its reply",
        RPCBIND,
        fragment(call(8, 100000, 2, 3, b"abc", 6, b"abcd")) + fragment(PORT),
        0,
        b"call 8 100000.2.3 GETPORT RPCSEC_GSS, 3 bytes\nreply 8 100000.2.3 GETPORT SUCCESS, 4 bytes\n"
        + counts(1, 1, 0, 0, 2, 0),
    ),
    (
        "a reply whose verifier has 401 bytes, and one with other padding",
        RPCBIND,
        fragment(words(8, 1, 0, 2) + opaque(bytes(401)) + words(0))
        + fragment(words(8, 1, 0, 2, 1) + b"a\0\1\0" + words(0)),
        1,
        b"record\nrefused TooLong at 20\nrecord\nrefused BadPadding at 456\n" + counts(0, 0, 2, 2, 0, 0),
    ),
    (
        "replies of status 6 and of reply_stat 2, and a denial of reject_stat 2",
        RPCBIND,
        fragment(words(8, 1, 0, 0, 0, 6)) + fragment(words(8, 1, 2)) + fragment(words(8, 1, 1, 2)),
        1,
        b"record\nrefused BadNumbered at 24\nrecord\nrefused BadNumbered at 40\nrecord\nrefused BadNumbered at 60\n"
        + counts(0, 0, 3, 3, 0, 0),
    ),
]
ARGUMENTS = [
    (
        "an argument that is refused, in the second record",
        OWN,
        fragment(call(1, NUMBER, 1, 0, words(0))) + fragment(both(words(5, 2))),
        1,
        b"call 1 536870915.1.0 PUT AUTH_NONE\nstruct\n  next: absent\n" + BOTH_LINE + b"refused BadBool at 96\n"
        + counts(2, 0, 0, 1, 0, 0),
    ),
    (
        "the same with a header between its arguments",
        OWN,
        fragment(both(words(5, 2))[:42], False) + fragment(both(words(5, 2))[42:]),
        1,
        BOTH_LINE + b"refused BadBool at 52\n" + ONE_CALL,
    ),
    ("an argument too few", OWN, fragment(both(words(5))), 1, BOTH_LINE + b"refused Truncated at 48\n" + ONE_CALL),
    (
        "three bytes behind the arguments",
        OWN,
        fragment(both(words(5, 1) + b"\0\0\0")),
        1,
        BOTH_LINE + b"refused MoreFollows at 52\n" + ONE_CALL,
    ),
    (
        "an argument behind the fields of AUTH_SYS",
        OWN,
        fragment(echo(words(2) + b"hi\0\1", 1, sys_body(b"box", 30, 40))),
        1,
        ECHO_LINE[:-10] + b'AUTH_SYS {"stamp":5,"machinename":"box","uid":10,"gid":20,"gids":[30,40]}\n'
        b"refused BadPadding at 80\n" + ONE_CALL,
    ),
    (
        "an argument that is refused, as JSON",
        f"--json {OWN}",
        fragment(both(words(5, 2))) + header(9),
        1,
        b'{"type":"call","xid":7,"program":536870915,"version":1,"procedure":1,"name":"BOTH","flavor":"AUTH_NONE",'
        b'"refused":"BadBool","at":48}\n{"type":"input","refused":"Truncated","at":56}\n'
        b'{"type":"counts","calls":1,"replies":0,"others":0,"refused":2,"unjudged":0,"unasked":0}\n',
    ),
    (
        "a version and a procedure that are not declared, and their replies",
        RPCBIND,
        fragment(call(7, 100000, 9, 0))
        + fragment(call(8, 100000, 2, 99, b"abc"))
        + fragment(reply(7, 2, 2, 4))
        + fragment(reply(8, 0, results=b"abcd")),
        0,
        b"call 7 100000.9.0 AUTH_NONE, 0 bytes\ncall 8 100000.2.99 AUTH_NONE, 3 bytes\n"
        b"reply 7 100000.9.0 PROG_MISMATCH 2 4\nreply 8 100000.2.99 SUCCESS, 4 bytes\n" + counts(2, 2, 0, 0, 3, 0),
    ),
]
SIXTEEN = [*range(1, 17)]
FIELDS = b'{"stamp":5,"machinename":"box","uid":10,"gid":20,"gids":[1,2,3,4,5,6,7,8,9,10,11,12,13,14,15,16]}\n'
SYS_LINE = b"call 7 100000.2.0 NULL AUTH_SYS\n"
# The body of a credential, and what is wanted below the line of its call: its body begins at byte 36 of the stream.
BODIES = [
    ("17 gids", sys_body(b"box", *SIXTEEN, 17), b"refused TooLong at 56\n"),
    ("a machine's name of 256 bytes", sys_body(b"b" * 256), b"refused TooLong at 40\n"),
    ("a byte behind the gids", sys_body(b"box", 30) + b"\0", b"refused MoreFollows at 64\n"),
    ("a gid too few", sys_body(b"box", 30, 40)[:-4], b"refused Truncated at 64\n"),
    ("no byte", b"", b"refused Truncated at 36\n"),
]
CREDENTIALS = [
    (
        "16 gids",
        RPCBIND,
        fragment(call(7, 100000, 2, 0, b"", 1, sys_body(b"box", *SIXTEEN))),
        0,
        SYS_LINE[:-1] + b" " + FIELDS + counts(1, 0, 0, 0, 0, 0),
    ),
    (
        "a credential of 401 bytes",
        RPCBIND,
        fragment(call(7, 100000, 2, 0, b"", 1, bytes(401))),
        1,
        b"record\nrefused TooLong at 32\n" + counts(0, 0, 1, 1, 0, 0),
    ),
]


def hostile_rows(sweep):
    with open(f"{sweep.folder}/hostile.x", "wb") as it:
        it.write(DECLARED)
    for what, line, given, status, output in STREAMS:
        yield sweep.row(what, line, given, (status, output + counts(0, 0, 0, 1, 0, 0)))
    for what, line, given, *wanted in LIES + REPLIES + ARGUMENTS + CREDENTIALS:
        yield sweep.row(what, line, given, tuple(wanted))
    for what, body, refusal in BODIES:
        given = fragment(call(7, 100000, 2, 0, b"", 1, body))
        yield sweep.row(f"AUTH_SYS with {what}", RPCBIND, given, (1, SYS_LINE + refusal + ONE_CALL))
