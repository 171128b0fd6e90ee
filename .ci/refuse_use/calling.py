"""Rows of 'oncrpc call', 'oncrpc ping' and 'oncrpc info --timeout': what is sent, what is printed of each reply, and
how long who hinders is waited for. Those of refusing are the same with each growth, read and write refused."""
import os
import re
import select
import subprocess
import time

from refuse_use.answering import (
    HOST,
    Server,
    deaf,
    dripping,
    endless,
    flooding,
    full,
    garbage,
    gone,
    greedy,
    late,
    nobody,
    other,
    replying,
    silent,
    slow,
    straying,
    trickle,
)
from refuse_use.call_pieces import hindered_pings, pieces_rows
from refuse_use.call_recorded import recorded_rows, unnamed_rows
from refuse_use.called import ASKED, DECLARED, LIMIT, LONG, ONE_PING, PINGED, UNASKED, XID
from refuse_use.called import call, call_words, opaque, run, success, words
from refuse_use.refusing import placed_rows, refused_pings, refused_recorded, refused_rows
from telling import tell
from timing import SOON, WAIT, in_time

NO_ANSWER = b"no answer within 2 seconds\n"
# What a server does, by what, the status, and what is said.
HINDERED = [
    (endless, "", 3, NO_ANSWER),
    (endless, "--udp", 3, NO_ANSWER),
    (trickle, "", 3, NO_ANSWER),
    (trickle, "--udp", 3, NO_ANSWER),
    (dripping, "", 3, NO_ANSWER),
    (silent, "", 3, NO_ANSWER),
    (silent, "--udp", 3, NO_ANSWER),
    (flooding, "--udp", 3, NO_ANSWER),
    (greedy, "", 1, b"refused TooLong at 0\n"),
    (greedy, "--udp", 1, b"refused NotAReply\n"),
    (garbage, "", 1, b"refused TooLong at 0\n"),
    (garbage, "--udp", 1, b"refused NotAReply\n"),
    (gone, "", 1, b"refused Truncated at 0\n"),
    (gone, "--udp", 1, b"refused Truncated\n"),
    (other, "", 1, b"refused WrongXid %d\n" % (XID + 1)),
    (other, "--udp", 3, NO_ANSWER),
    (straying, "--udp", 3, NO_ANSWER),
]


def asked_rows(program, folder):
    """Each reply over TCP and over UDP: the call that is sent, and what is printed."""
    for more, sent, reply, status, output, faults in ASKED:
        for over in ([], ["--udp"]):
            wanted = status, output, faults
            well, told = in_time(lambda: answered(program, folder, [*more, *over], reply, wanted, sent))
            yield f"{' '.join([*more, *over])}, {reply.hex()}", well, told


def answered(program, folder, more, reply, wanted, sent):
    """Whether a call that is answered so gives what is wanted, and is sent once."""
    with Server(replying(reply)) as server:
        got, _ = run(program, folder, call_words(server.port, more))
    return got == wanted and server.calls == [sent], (got, [it.hex() for it in server.calls])


def unasked_rows(program, folder):
    """Nothing is sent where words, declarations or arguments are refused."""
    for more, given, status, said in UNASKED:
        with Server(replying(success())) as server:
            got, _ = run(program, folder, call_words(server.port, more), given)
        well = got[:2] == (status, b"") and got[2].startswith(said) and server.calls == []
        yield f"{' '.join(more)}, {given}", well, (got, server.calls)


def hindered_rows(program, folder):
    """Who hinders is waited for as long as is asked for, and no longer; it hinders for as long as the program runs."""
    for answer, over, status, said in HINDERED:
        seconds, least = (["--timeout", "2"], 1.9) if said == NO_ANSWER else (LONG, 0)
        with Server(answer) as server:
            line = call_words(server.port, ["ASKED.FIRST.NIL", *seconds, *over.split()])
            got, took = run(program, folder, line)
        well = got == (status, b"", said) and least <= took <= SOON
        yield f"a server that is {answer.__name__} {over}", well, (got, took)
    for over in ("", "--udp"):
        with Server(late) as server:
            got, took = run(program, folder, call_words(server.port, ["ASKED.FIRST.NIL", *over.split()]))
        # (by datagrams more than three calls come where the server's answer itself is late)
        sent = server.calls[:3] if over else server.calls
        well = got == (0, b"{}\n", b"") and sent == [call(0)] * (3 if over else 1) and 0.9 <= took <= SOON
        yield f"a server that is late {over}", well, (got, took, server.calls)
    yield from unanswered_rows(program, folder)
    yield from unheard_rows(program, folder)


def unanswered_rows(program, folder):
    """A call by datagrams is sent again after each second, as long as there is time, with one xid; that of another run
    is another."""
    xids = set()
    for _ in range(2):
        well, told = in_time(lambda: unanswered(program, folder))
        xids |= told[-1]
        yield "a call that is sent five times", well, told
    yield "the xid of two calls", len(xids) == 2, xids


def unanswered(program, folder):
    """Whether a call that nobody answers is sent five times in five seconds, and what was seen, at last the xids."""
    with Server(silent) as server:
        line = ["call", HOST, "ASKED.FIRST.NIL", "--types", "asked.x", "--port", str(server.port), "--udp"]
        got, took = run(program, folder, [*line, "--timeout", "5"])
    between = [after - before for before, after in zip(server.moments, server.moments[1:])]
    well = got == (3, b"", b"no answer within 5 seconds\n") and 4.9 <= took <= 7
    well = well and len(between) == 4 and all(0.9 <= it < 1.9 for it in between)
    same = {it[:4] for it in server.calls}
    return well and len(same) == 1, (got, took, between, same)


def early_rows(program, folder, heap):
    """A wait that the system ends too early goes on: it counts neither as the time that is up nor as a fault."""
    for over in ("", "--udp"):
        for number in ("1", "2"):
            well, told = in_time(lambda: early(program, folder, heap, over, number))
            yield f"receive {number} ends too early {over}", well, told


def early(program, folder, heap, over, number):
    """Whether a call is waited for two seconds, and sent once in each of them by datagrams."""
    with Server(silent) as server:
        line = call_words(server.port, ["ASKED.FIRST.NIL", "--timeout", "2", *over.split()])
        got, took = run(program, folder, line, LD_PRELOAD=heap, EARLY_RECEIVE=number)
    well = got == (3, b"", NO_ANSWER) and took >= 1.9 and len(server.calls) == (2 if over else 1)
    return well, (got, took, len(server.calls))


def unheard_rows(program, folder):
    """Who takes no connection, or nothing of what is sent over it, is waited for no longer, either."""
    with full() as port:
        got, took = run(program, folder, call_words(port, ["ASKED.FIRST.NIL", "--timeout", "2"]))
    yield "a server that takes no connection", got == (3, b"", NO_ANSWER) and 1.9 <= took <= SOON, (got, took)
    long = b'"' + b"a" * 8000000 + b'"'
    with deaf() as port:
        got, took = run(program, folder, call_words(port, ["ASKED.FIRST.ECHO", "--timeout", "4"]), long)
        well = got == (3, b"", b"no answer within 4 seconds\n") and took <= LIMIT / 2
        yield "a server that reads nothing", well, (got, took)
    with Server(replying(success())) as server:
        line = call_words(server.port, ["ASKED.FIRST.ECHO", "--udp"])
        got, _ = run(program, folder, line, long[:70000] + b'"')
    well = got == (3, b"", b"write fault\n") and server.calls == []
    yield "arguments that are too long for a datagram", well, got
    with nobody() as port:
        for over in ("", "--udp"):
            got, took = run(program, folder, call_words(port, ["ASKED.FIRST.NIL", *over.split()]))
            yield f"a port that nobody has {over}", got == (3, b"", b"socket fault\n") and took < SOON, (got, took)
            got, took = run(program, folder, ["ping", HOST, "7.8", "--port", str(port), *LONG, *over.split()])
            well = got == (3, b"", b"socket fault\n") and took < SOON
            yield f"ping of a port that nobody has {over}", well, (got, took)


def longest_rows(program, folder):
    """The most bytes that arguments may have, 16777216, and four more."""
    for more in (0, 4):
        content = b"a" * (16777208 + more)
        with Server(replying(success(words(9)))) as server:
            line = call_words(server.port, ["ASKED.FIRST.TWO"])
            got, _ = run(program, folder, line, b'[1,"' + content + b'"]')
        wanted = (2, b"", b"the arguments are too long\n") if more else (0, b"9\n", b"")
        well = got == wanted and server.calls == ([] if more else [call(3, words(1) + opaque(content))])
        yield f"arguments of {16777216 + more} bytes", well, (got, [len(it) for it in server.calls])


def unread_rows(program, folder):
    """An output that fails once the time is up is a write that failed, and no answer that came too late."""
    row = words(1, 100000, 4) + opaque(b"tcp") + opaque(b"127.0.0.1.0.111") + opaque(b"superuser")
    for line, reply in (
        (["call", "ASKED.FIRST.ECHO", "--arguments", '"hi"'], success(opaque(bytes(1000000)))),
        (["info"], success(2000 * row + words(0), xid=1)),
    ):
        well, got = in_time(lambda: failing_late(program, folder, line, reply))
        yield f"{line[0]}, whose output fails once the time is up", well, got


def failing_late(program, folder, line, reply):
    """Whether the output that fails after the two seconds is told, and not these."""
    command, *more = line
    with Server(replying(reply)) as server:
        of_call = call_words(server.port, [*more, "--timeout", "2"])
        got = unread(program, folder, of_call if more else [command, HOST, str(server.port), "--timeout", "2"])
    return got == (3, b"write fault\n"), got


def unread(program, folder, line):
    """The status and what is said of a run whose output is a pipe that nobody reads, and that is closed two seconds
    after something has come through it, and so after the time is up, which began before."""
    reading, writing = os.pipe()
    how = {"cwd": folder, "stdin": subprocess.DEVNULL, "stdout": writing, "stderr": subprocess.PIPE}
    with subprocess.Popen([program, *line], **how) as running:
        os.close(writing)
        select.select([reading], [], [], WAIT)
        time.sleep(2.2)
        os.close(reading)
        faults = running.communicate(timeout=LIMIT)[1]
    return running.returncode, faults


def info_rows(program, folder):
    """'info' waits as long as is asked for, too."""
    got, took = run(program, folder, ["info", HOST, "1", "--timeout", "2"])
    yield "info --timeout of a port that nobody has", got == (3, b"", b"socket fault\n"), (got, took)
    for answer, over in ((silent, ""), (endless, ""), (trickle, ""), (endless, "--udp")):
        with Server(answer) as server:
            got, took = run(program, folder, ["info", HOST, str(server.port), "--timeout", "2", *over.split()])
        well = got == (3, b"", NO_ANSWER) and 1.9 <= took <= SOON
        yield f"info --timeout {over} of a server that is {answer.__name__}", well, (got, took)


def ping_rows(program, folder):
    """The line of a ping, what refuses one, and who hinders it."""
    for more, reply, status, output, faults in PINGED:
        for over in ([], ["--udp"]):
            with Server(replying(reply)) as server:
                got, _ = run(program, folder, ["ping", HOST, *more, *over, *LONG, "--port", str(server.port)])
            well = got[0] == status and re.fullmatch(output, got[1]) and got[2] == faults
            yield f"ping {' '.join([*more, *over])}", well, got
    yield "ping --count 3", *in_time(lambda: pinged_thrice(program, folder))
    for over in ([], ["--udp"]):
        well, told = in_time(lambda: pinged_slowly(program, folder, over))
        yield f"ping {' '.join(over)} of a server that takes half a second", well, told
    for over in ([], ["--udp"]):
        with Server(silent) as server:
            # (where it went on behind the first ping, it would take a minute)
            line = ["ping", HOST, "536870913.1", "--timeout", "2", "--count", "20", "--port", str(server.port), *over]
            got, took = run(program, folder, line)
        well = got == (3, b"", NO_ANSWER) and 1.9 <= took <= SOON
        yield f"ping {' '.join(over)} of a server that is silent", well, (got, took)


def pinged_slowly(program, folder, over):
    """Whether a ping tells the half second of the server, and no more than the whole run takes."""
    with Server(slow) as server:
        got, took = run(program, folder, ["ping", HOST, "536870913.1", *LONG, "--port", str(server.port), *over])
    told = re.fullmatch(rb"536870913 1 answered in (\d+) microseconds\n", got[1])
    return got[0] == 0 and told and 500000 <= int(told[1]) < took * 1000000, (got, took)


def pinged_thrice(program, folder):
    """Whether three pings are answered, a second apart."""
    with Server(replying(success(xid=1))) as server:
        line = ["ping", HOST, "536870913.1", "--count", "3", *LONG, "--port", str(server.port)]
        got, took = run(program, folder, line)
    return len(ONE_PING.findall(got[1])) == 3 and got[0] == 0 and 1.9 <= took <= 5, (got, took)


def call_rows(program, folder, heap):
    """The rows, each whether it is as it should be."""
    with open(f"{folder}/asked.x", "wb") as it:
        it.write(DECLARED)
    by_themselves = (asked_rows, unasked_rows, longest_rows, hindered_rows, unread_rows, info_rows, ping_rows)
    for rows in (*by_themselves, hindered_pings, pieces_rows, recorded_rows, unnamed_rows):
        for name, is_well, told in rows(program, folder):
            yield tell(f"oncrpc call, {name}", is_well, told)
    for rows in (early_rows, refused_rows, refused_pings, refused_recorded, placed_rows) if heap else ():
        for name, is_well, told in rows(program, folder, heap):
            yield tell(f"oncrpc call, {name}", is_well, told)
