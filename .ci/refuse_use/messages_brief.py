"""Rows of 'oncrpc messages --brief': arguments and results are judged, and not printed.

What is wanted follows from the layout of RFC 5531 sections 8, 9 and 11, and from the places and lines of docs/FORMATS.md.
Behind the header of its record the arguments of a call with two AUTH_NONE begin at byte 40, its results at byte 24.
"""
from refuse_use.messages_hostile import BOTH_LINE, DECLARED, OWN, both
from refuse_use.messages_streams import RPCBIND, call, counts, fragment, reply, sys_body, words

GETPORT = call(8, 100000, 2, 3, words(100003, 3, 6, 0))
SET = call(9, 100000, 2, 1, words(7, 1, 6, 99))
# A body of AUTH_SYS (RFC 5531 appendix A), and one whose padding is not zero.
SYS = sys_body(b"box", 30, 40)
UNPADDED = SYS.replace(b"box\0", b"box!")
FIELDS = b'{"stamp":5,"machinename":"box","uid":10,"gid":20,"gids":[30,40]}'
# What rows are about, the words, the input, the status and the output.
BRIEF = [
    (
        "a call and its reply, in brief",
        f"--brief {RPCBIND}",
        fragment(GETPORT) + fragment(reply(8, 0, results=words(2049))),
        0,
        b"call 8 100000.2.3 GETPORT AUTH_NONE\nreply 8 100000.2.3 GETPORT SUCCESS\n" + counts(1, 1, 0, 0, 0, 0),
    ),
    (
        "a credential, in brief",
        f"--brief {RPCBIND}",
        fragment(call(7, 100000, 2, 3, words(1, 2, 3, 4), 1, SYS)),
        0,
        b"call 7 100000.2.3 GETPORT AUTH_SYS " + FIELDS + b"\n" + counts(1, 0, 0, 0, 0, 0),
    ),
    (
        "a result that is none, and behind it one with bytes to follow, in brief",
        f"--brief {RPCBIND}",
        fragment(SET) + fragment(reply(9, 0, results=words(2))) + fragment(GETPORT) + fragment(reply(8, 0, results=words(1, 1))),
        1,
        b"call 9 100000.2.1 SET AUTH_NONE\nreply 9 100000.2.1 SET SUCCESS\nrefused BadBool at 88\n"
        b"call 8 100000.2.3 GETPORT AUTH_NONE\nreply 8 100000.2.3 GETPORT SUCCESS\nrefused MoreFollows at 184\n"
        + counts(2, 2, 0, 2, 0, 0),
    ),
    (
        "what is not judged, and what is no message, in brief",
        f"--brief {RPCBIND}",
        fragment(call(7, 100003, 3, 1, words(1, 2))) + fragment(reply(7, 0, results=words(70))) + fragment(b"ab"),
        1,
        b"call 7 100003.3.1 AUTH_NONE, 8 bytes\nreply 7 100003.3.1 SUCCESS, 4 bytes\nrecord\nrefused Truncated at 90\n"
        + counts(1, 1, 1, 1, 2, 0),
    ),
    (
        "JSON, in brief",
        f"--brief --json {RPCBIND}",
        fragment(GETPORT) + fragment(reply(8, 0, results=words(2049, 1))) + fragment(reply(3, 0, results=words(5))),
        1,
        b'{"type":"call","xid":8,"program":100000,"version":2,"procedure":3,"name":"GETPORT","flavor":"AUTH_NONE"}\n'
        b'{"type":"reply","xid":8,"program":100000,"version":2,"procedure":3,"name":"GETPORT","status":"SUCCESS",'
        b'"refused":"MoreFollows","at":92}\n{"type":"reply","xid":3,"call":false,"status":"SUCCESS","bytes":4}\n'
        b'{"type":"counts","calls":1,"replies":2,"others":0,"refused":1,"unjudged":1,"unasked":1}\n',
    ),
    (
        "of two arguments the second: none with bytes behind, and missing; bytes behind it, and behind a result; in brief",
        f"--brief {OWN}",
        fragment(both(words(5, 2, 9))) + fragment(both(words(5))) + fragment(both(words(5, 1, 9)))
        + fragment(both(words(5, 1))) + fragment(reply(7, 0, results=words(3, 4))),
        1,
        BOTH_LINE + b"refused BadBool at 48\n" + BOTH_LINE + b"refused Truncated at 104\n"
        + BOTH_LINE + b"refused MoreFollows at 156\n" + BOTH_LINE
        + b"reply 7 536870915.1.1 BOTH SUCCESS\nrefused MoreFollows at 244\n" + counts(4, 1, 0, 4, 0, 0),
    ),
    (
        "no arguments and no results, and bytes where there are to be none, in brief and as JSON",
        f"--brief --json {RPCBIND}",
        fragment(call(7, 100000, 2, 0)) + fragment(reply(7, 0)) + fragment(call(7, 100000, 2, 0, words(1)))
        + fragment(reply(7, 0, results=words(1))),
        1,
        b'{"type":"call","xid":7,"program":100000,"version":2,"procedure":0,"name":"NULL","flavor":"AUTH_NONE"}\n'
        b'{"type":"reply","xid":7,"program":100000,"version":2,"procedure":0,"name":"NULL","status":"SUCCESS"}\n'
        b'{"type":"call","xid":7,"program":100000,"version":2,"procedure":0,"name":"NULL","flavor":"AUTH_NONE",'
        b'"refused":"MoreFollows","at":116}\n'
        b'{"type":"reply","xid":7,"program":100000,"version":2,"procedure":0,"name":"NULL","status":"SUCCESS",'
        b'"refused":"MoreFollows","at":148}\n'
        b'{"type":"counts","calls":2,"replies":2,"others":0,"refused":2,"unjudged":0,"unasked":0}\n',
    ),
    (
        "a call under RPCSEC_GSS, and its reply, in brief",
        f"--brief {RPCBIND}",
        fragment(call(8, 100000, 2, 3, b"abc", 6, b"abcd")) + fragment(reply(8, 0, results=words(2049))),
        0,
        b"call 8 100000.2.3 GETPORT RPCSEC_GSS, 3 bytes\nreply 8 100000.2.3 GETPORT SUCCESS, 4 bytes\n"
        + counts(1, 1, 0, 0, 2, 0),
    ),
    (
        "a body of AUTH_SYS with other padding, and arguments behind it that are none, in brief",
        f"--brief {RPCBIND}",
        fragment(call(7, 100000, 2, 0, b"abc", 1, UNPADDED)),
        1,
        b"call 7 100000.2.0 NULL AUTH_SYS\nrefused BadPadding at 44\n" + counts(1, 0, 0, 1, 0, 0),
    ),
    (
        "arguments that are cut behind the fields of AUTH_SYS, in brief and as JSON",
        f"--brief --json {RPCBIND}",
        fragment(call(7, 100000, 2, 3, words(1, 2, 3), 1, SYS)),
        1,
        b'{"type":"call","xid":7,"program":100000,"version":2,"procedure":3,"name":"GETPORT","flavor":"AUTH_SYS",'
        b'"credential":' + FIELDS + b',"refused":"Truncated","at":88}\n'
        b'{"type":"counts","calls":1,"replies":0,"others":0,"refused":1,"unjudged":0,"unasked":0}\n',
    ),
    (
        "replies that are no success, and an input that ends inside a record, in brief",
        f"--brief {RPCBIND}",
        fragment(reply(1, 2, 3, 4)) + fragment(words(1, 1, 1, 1, 13)) + words(1 << 31 | 9) + b"abc",
        1,
        b"reply 1 no call PROG_MISMATCH 3 4\nreply 1 no call AUTH_ERROR 13\ninput refused Truncated at 67\n"
        + counts(0, 2, 0, 1, 0, 2),
    ),
]
# The same with a file of replies: what it has, the input, the status and the output.
BOTH_BRIEF = [
    (
        "each reply stands behind its call, in brief",
        fragment(reply(9, 0, results=words(2))) + fragment(reply(8, 0, results=words(5))) + fragment(reply(7, 0))[:9],
        fragment(GETPORT) + fragment(SET) + fragment(call(7, 100000, 2, 0)),
        1,
        b"call 8 100000.2.3 GETPORT AUTH_NONE\ncall 9 100000.2.1 SET AUTH_NONE\n"
        b"reply 9 100000.2.1 SET SUCCESS\nrefused BadBool at 28\nreply 8 100000.2.3 GETPORT SUCCESS\n"
        b"replies refused Truncated at 73\ncall 7 100000.2.0 NULL AUTH_NONE\n" + counts(3, 2, 0, 2, 0, 0),
    ),
]


def brief_rows(sweep):
    """The rows; a procedure with two arguments is of the program of messages_hostile."""
    with open(f"{sweep.folder}/hostile.x", "wb") as it:
        it.write(DECLARED)
    for what, line, given, *wanted in BRIEF:
        yield sweep.row(what, line, given, tuple(wanted))
