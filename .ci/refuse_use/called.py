"""What 'oncrpc call' is asked for in the rows, the call that it sends, a reply, and what is printed of it.

Expected bytes are those of RFC 5531 sections 8, 9 and 11 and of its appendix A, and of RFC 4506 section 4.
"""
import os
import re
import shutil
import struct
import subprocess
import time

ROOT = os.path.dirname(os.path.dirname(os.path.dirname(os.path.realpath(__file__))))
HOST = "127.0.0.1"
# The seconds after which a run is ended, and those that an answer may take which is to come: less than these, and more
# than those within which a run is to end (SOON of timing.py).
LIMIT, LONG = 300, ["--timeout", "200"]
XID = 0x01020304
# The program that the rows call.
DECLARED = b"""struct pair { int first; string second<8>; };
program ASKED { version FIRST {
    void NIL(void) = 0;
    string ECHO(string) = 1;
    pair SWAP(pair) = 2;
    unsigned int TWO(int, string) = 3;
    int PAIRS(pair, pair) = 4;
    int LESS(int) = 5;
} = 1; } = 536870913;
"""
PROGRAM, VERSION = 536870913, 1


def words(*numbers):
    return struct.pack(f">{len(numbers)}I", *numbers)


def opaque(content):
    """Content with its length before it and its padding behind it."""
    return words(len(content)) + content + bytes(-len(content) % 4)


def auth_sys(machine, uid, gid, *gids):
    """A credential of AUTH_SYS whose stamp is 0 (RFC 5531 appendix A)."""
    return words(1) + opaque(words(0) + opaque(machine) + words(uid, gid, len(gids), *gids))


NOBODY = words(0, 0)


def call(procedure, arguments=b"", cred=NOBODY, xid=XID):
    return words(xid, 0, 2, PROGRAM, VERSION, procedure) + cred + NOBODY + arguments


def success(results=b"", xid=XID, verf=NOBODY):
    return words(xid, 1, 0) + verf + words(0) + results


def accepted(status, *more):
    return words(XID, 1, 0, 0, 0, status, *more)


def denied(*more):
    return words(XID, 1, 1, *more)


def marked(message):
    """A record of one fragment."""
    return words(0x80000000 | len(message)) + message


# The words behind HOST, the call that is sent, the reply, the status, and what is printed on each stream.
HI = opaque(b"hi")
ASKED = [
    (["ASKED.FIRST.ECHO", "--arguments", '"hi"'], call(1, HI), success(HI), 0, b'"hi"\n', b""),
    (["536870913.1.1", "--arguments", '"hi"'], call(1, HI), success(opaque(b"")), 0, b'""\n', b""),
    (["ASKED.1.ECHO", "--arguments", '"hi"', "--text"], call(1, HI), success(HI), 0, b'"hi"\n', b""),
    (["ASKED.1.ECHO", "--arguments", '"hi"', "--hex"], call(1, HI), success(HI), 0, b"0000000268690000\n", b""),
    (["ASKED.FIRST.NIL"], call(0), success(), 0, b"{}\n", b""),
    (["ASKED.FIRST.NIL", "--text"], call(0), success(), 0, b"void\n", b""),
    (["ASKED.FIRST.NIL", "--hex"], call(0), success(), 0, b"\n", b""),
    (
        ["ASKED.FIRST.SWAP", "--arguments", '{"second": "b", "first": -1}'],
        call(2, words(0xFFFFFFFF) + opaque(b"b")),
        success(words(7) + opaque(b"abc")),
        0,
        b'{"first":7,"second":"abc"}\n',
        b"",
    ),
    (
        ["ASKED.FIRST.SWAP", "--arguments", '{"first":1,"second":""}', "--indent"],
        call(2, words(1) + opaque(b"")),
        success(words(7) + opaque(b"")),
        0,
        b'{\n  "first": 7,\n  "second": ""\n}\n',
        b"",
    ),
    (
        ["ASKED.FIRST.SWAP", "--arguments", '{"first":1,"second":""}', "--text"],
        call(2, words(1) + opaque(b"")),
        success(words(7) + opaque(b"c")),
        0,
        b'struct\n  first: 7\n  second: "c"\n',
        b"",
    ),
    (
        ["ASKED.FIRST.TWO", "--arguments", '[-2 ,\n "a,]b" ]'],
        call(3, words(0xFFFFFFFE) + opaque(b"a,]b")),
        success(words(0xFFFFFFFF)),
        0,
        b"4294967295\n",
        b"",
    ),
    (
        ["ASKED.1.TWO", "--arguments", '[3,"\\"],b\\\\"]'],
        call(3, words(3) + opaque(b'"],b\\')),
        success(words(0)),
        0,
        b"0\n",
        b"",
    ),
    (
        ["ASKED.1.PAIRS", "--arguments", '[{"first":1,"second":"}"},\n{ "second": "", "first": 2 } ]'],
        call(4, words(1) + opaque(b"}") + words(2) + opaque(b"")),
        success(words(0)),
        0,
        b"0\n",
        b"",
    ),
    (
        ["ASKED.FIRST.NIL", "--uid", "1000", "--gid", "100"],
        call(0, cred=auth_sys(b"", 1000, 100)),
        success(verf=words(2) + opaque(b"seen")),
        0,
        b"{}\n",
        b"",
    ),
    (
        ["ASKED.FIRST.NIL", "--uid", "0", "--gid", "1", "--gids", "2,3", "--machine", "box"],
        call(0, cred=auth_sys(b"box", 0, 1, 2, 3)),
        success(),
        0,
        b"{}\n",
        b"",
    ),
    (["ASKED.FIRST.NIL"], call(0), accepted(1), 1, b"", b"refused PROG_UNAVAIL\n"),
    (["ASKED.FIRST.NIL"], call(0), accepted(2, 2, 4), 1, b"", b"refused PROG_MISMATCH 2 4\n"),
    (["ASKED.FIRST.NIL"], call(0), accepted(3), 1, b"", b"refused PROC_UNAVAIL\n"),
    (["ASKED.FIRST.NIL"], call(0), accepted(4), 1, b"", b"refused GARBAGE_ARGS\n"),
    (["ASKED.FIRST.NIL"], call(0), accepted(5), 1, b"", b"refused SYSTEM_ERR\n"),
    (["ASKED.FIRST.NIL"], call(0), denied(0, 2, 2), 1, b"", b"refused RPC_MISMATCH 2 2\n"),
    (["ASKED.FIRST.NIL"], call(0), denied(1, 1), 1, b"", b"refused AUTH_ERROR AUTH_BADCRED\n"),
    (["ASKED.FIRST.NIL"], call(0), denied(1, 5), 1, b"", b"refused AUTH_ERROR AUTH_TOOWEAK\n"),
    (["ASKED.FIRST.NIL"], call(0), denied(1, 14), 1, b"", b"refused AUTH_ERROR RPCSEC_GSS_CTXPROBLEM\n"),
    (["ASKED.FIRST.NIL"], call(0), denied(1, 15), 1, b"", b"refused AUTH_ERROR 15\n"),
    (["ASKED.FIRST.NIL"], call(0), accepted(6), 1, b"", b"refused BadStatus\n"),
    (["ASKED.FIRST.NIL"], call(0), accepted(1, 0), 1, b"", b"refused Rest\n"),
    (["ASKED.FIRST.NIL"], call(0), call(0), 1, b"", b"refused NotAReply\n"),
    (["ASKED.FIRST.NIL"], call(0), words(XID, 1, 0), 1, b"", b"refused Truncated\n"),
    (["ASKED.FIRST.NIL"], call(0), success(b"\0"), 1, b"", b"result ends at 0, more follows\n"),
    (["ASKED.1.1", "--arguments", '"hi"'], call(1, HI), success(HI + HI), 1, b"", b"result ends at 8, more follows\n"),
    (["ASKED.1.1", "--arguments", '"hi"'], call(1, HI), success(HI[:-1]), 1, b"", b"result refused Truncated at 7\n"),
    (
        ["ASKED.1.ECHO", "--arguments", '"hi"'],
        call(1, HI),
        success(words(2) + b"hi\0\1"),
        1,
        b"",
        b"result refused BadPadding at 4\n",
    ),
    (
        ["ASKED.1.SWAP", "--arguments", '{"first":1,"second":""}', "--hex"],
        call(2, words(1) + opaque(b"")),
        success(words(1, 9)),
        1,
        b"",
        b"result refused TooLong at 4\n",
    ),
    (["ASKED.FIRST.LESS", "--arguments", "-1"], call(5, words(0xFFFFFFFF)), success(words(0xFFFFFFFE)), 0, b"-2\n", b""),
]
# The words, the standard input, the status and what is said: before anything is sent.
UNASKED = [
    (["ASKED.FIRST"], b"", 2, b"not PROGRAM.VERSION.PROCEDURE\n"),
    (["ASKED.01.NIL"], b"", 2, b"part 2 is no number\n"),
    (["ASK.FIRST.NIL"], b"", 2, b"no such program\n"),
    (["ASKED.2.NIL"], b"", 2, b"no such version\n"),
    (["ASKED.FIRST.9"], b"", 2, b"no such procedure\n"),
    (["ASKED.FIRST.ECHO"], b"7", 2, b"refused WrongType at 1:1\n"),
    (["ASKED.FIRST.ECHO"], b"\n  [", 2, b"refused NotJson at 2:4\n"),
    (["ASKED.FIRST.SWAP", "--arguments", '{"first":1,"second":"123456789"}'], b"", 2, b"refused WrongLength at 1:21\n"),
    (["ASKED.FIRST.NIL", "--arguments", "null"], b"", 2, b"the procedure has no arguments\n"),
    (["ASKED.FIRST.TWO", "--arguments", "[1]"], b"", 2, b"the arguments are no array of 2 items\n"),
    (["ASKED.FIRST.TWO", "--arguments", '[1,"a",2]'], b"", 2, b"the arguments are no array of 2 items\n"),
    (["ASKED.FIRST.TWO", "--arguments", '[1,"a"] 2'], b"", 2, b"the arguments are no array of 2 items\n"),
    (["ASKED.FIRST.TWO", "--arguments", '{"a":1,"b":2}'], b"", 2, b"the arguments are no array of 2 items\n"),
    (["ASKED.FIRST.TWO"], b'[1,\n "a]"x]', 2, b"refused NotJson at 2:6\n"),
    (["ASKED.FIRST.TWO"], b'[{"a":[1,2]},\n "a"]', 2, b"refused WrongType at 1:2\n"),
    (["ASKED.1.PAIRS"], b'[{"first":1,"second":""},\n {"first":1,\n"second":7}]', 2, b"refused WrongType at 3:10\n"),
    (["ASKED.1.PAIRS"], b'[{"first":1,"second":""},]', 2, b"refused NotJson at 1:26\n"),
    (["ASKED.1.PAIRS"], b"[1,2", 2, b"the arguments are no array of 2 items\n"),
    (["ASKED.FIRST.NIL", "--bytes", "6"], b"", 2, b"limits refused\n"),
    (["ASKED.FIRST.9", "--bytes", "6"], b"[", 2, b"limits refused\n"),
    (["ASKED.FIRST.9"], b"[", 2, b"no such procedure\n"),
    (["ASKED.FIRST.NIL", "--types", "no.x"], b"", 3, b"read fault\n"),
    (["ASKED.FIRST.NIL", "--uid", "1", "--gid", "1", "--gids", "1,x"], b"", 2, b"error: --gids wants"),
    (["ASKED.FIRST.NIL", "--uid", "1"], b"", 2, b"error: "),
    (["ASKED.FIRST.NIL", "--timeout", "0"], b"", 2, b"error: "),
    (["ASKED.FIRST.NIL", "--text", "--hex"], b"", 2, b"error: "),
]
ONE_PING = re.compile(rb"536870913 1 answered in \d+ microseconds\n")
MISMATCH = words(1, 1, 0, 0, 0, 2, 2, 4)
# The words behind HOST, the reply, the status, and what is printed on each stream.
PINGED = [
    (["536870913.1"], success(xid=1), 0, ONE_PING, b""),
    (["ASKED.FIRST", "--types", "asked.x"], success(xid=1), 0, ONE_PING, b""),
    (["ASKED.1", "--types", "asked.x"], success(xid=1), 0, ONE_PING, b""),
    (["536870913"], MISMATCH, 0, rb"536870913 2 to 4 answered in \d+ microseconds\n", b""),
    (["536870913"], success(xid=1), 0, rb"536870913 0 answered in \d+ microseconds\n", b""),
    (["536870913.1"], MISMATCH, 1, b"", b"refused PROG_MISMATCH 2 4\n"),
    (["536870913.1"], words(1, 1, 0, 0, 0, 1), 1, b"", b"refused PROG_UNAVAIL\n"),
    (["536870913.1"], success(bytes(4), xid=1), 1, b"", b"result ends at 0, more follows\n"),
    (["ASKED.2"], b"", 2, b"", b"no such program\n"),
    (["ASKED.FIRST"], b"", 2, b"", b"no such program\n"),
    (["ASKED.SECOND", "--types", "asked.x"], b"", 2, b"", b"no such version\n"),
    (["1.2.3"], b"", 2, b"", b"not PROGRAM or PROGRAM.VERSION\n"),
    (["536870913.01"], b"", 2, b"", b"part 2 is no number\n"),
]


def run(program, folder, line, given=b"", **variables):
    """The status and both streams, and how long it took; the status is None where it was ended since it took too long."""
    began = time.monotonic()
    how = {"cwd": folder, "input": given, "capture_output": True, "env": {**os.environ, **variables}, "timeout": LIMIT}
    try:
        ended = subprocess.run([program, *line], **how)
    except subprocess.TimeoutExpired as cut:
        return (None, cut.stdout, cut.stderr), time.monotonic() - began
    return (ended.returncode, ended.stdout, ended.stderr), time.monotonic() - began


def placed_program(program, folder):
    """A copy of the program in a folder, beside the installed declarations, which it finds there by their names."""
    if not os.path.exists(f"{folder}/placed"):
        os.makedirs(f"{folder}/placed/bin")
        shutil.copy(program, f"{folder}/placed/bin/oncrpc")
        shutil.copytree(f"{ROOT}/share/oncrpc", f"{folder}/placed/share/oncrpc")
    return f"{folder}/placed/bin/oncrpc"


def call_words(port, more):
    types = [] if "--types" in more else ["--types", "asked.x"]
    seconds = [] if "--timeout" in more else LONG
    return ["call", HOST, *more, *types, *seconds, "--port", str(port), "--xid", str(XID)]
