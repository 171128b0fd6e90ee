"""Rows of 'oncrpc call' and 'oncrpc ping' without a port: the registry of the host, at port 111, is asked for it by
GETADDR of version 4, then of version 3, then by GETPORT of version 2 (RFC 1833 sections 2.1, 2.2.1 and 3.1).

They run in a network of their own, since another registry may listen here, and are skipped where none can be made.
"""
import os
import re
import shutil
import struct
import subprocess
import sys
import tempfile

sys.dont_write_bytecode = True
sys.path.insert(0, os.path.dirname(os.path.dirname(os.path.realpath(__file__))))

from refuse_use.answering import Server, endless, flooding, garbage, other, silent, trickle
from refuse_use.call_recorded import EXPORT, EXPORTED, EXPORTED_JSON
from refuse_use.called import DECLARED, HOST, LONG, PROGRAM, marked, opaque, placed_program, run, success, words
from refuse_use.refusing import first_growth, swept
from telling import tell
from timing import SOON, in_time

REGISTRY = 100000
# What the registry's versions 4, 3 and 2 answer to the question, None for PROG_MISMATCH; which of them are asked, and
# whether the program is called then. The program is at port 111, too, which is 0 times 256 and 111.
AT = opaque(b"127.0.0.1.0.111")
NO_ROW = b"refused: the registry has no such program\n"
ANSWERS = [
    ((AT, None, None), [4], 0, b"{}\n", b""),
    ((None, AT, None), [4, 3], 0, b"{}\n", b""),
    ((None, None, words(111)), [4, 3, 2], 0, b"{}\n", b""),
    ((opaque(b""), opaque(b""), words(111)), [4, 3, 2], 0, b"{}\n", b""),
    ((opaque(b"127.0.0.1"), opaque(b"a.0.111"), words(111)), [4, 3, 2], 0, b"{}\n", b""),
    ((opaque(b"127.0.0.1.0.0"), b"\0\0\0\xff", words(111)), [4, 3, 2], 0, b"{}\n", b""),
    ((opaque(b""), opaque(b""), words(0)), [4, 3, 2], 1, b"", NO_ROW),
    ((opaque(b""), opaque(b""), words(65536 + 111)), [4, 3, 2], 1, b"", NO_ROW),
    ((None, None, None), [4, 3, 2], 1, b"", NO_ROW),
    ((b"", b"", b""), [4, 3, 2], 1, b"", NO_ROW),
]
# The same of a registry over IPv6: versions 4 and 3 alone, and addresses as RFC 5665 section 5.2.3.4 has them, a host as
# RFC 4291 section 2.2 writes it and the two octets of the port; and texts that are none.
SIX = "::1"
ANSWERS_OVER_6 = [
    ((opaque(b"::1.0.111"), None, None), [4], 0, b"{}\n", b""),
    ((opaque(b"::.0.111"), None, None), [4], 0, b"{}\n", b""),
    ((None, opaque(b"2001:DB8:0:0:8:800:200C:417A.0.111"), None), [4, 3], 0, b"{}\n", b""),
    ((opaque(b""), opaque(b"0:0:0:0:0:FFFF:129.144.52.38.0.111"), None), [4, 3], 0, b"{}\n", b""),
    ((opaque(b"127.0.0.1.0.111"), opaque(b"::1.1"), words(111)), [4, 3], 1, b"", NO_ROW),
    ((opaque(b"::1.0.256"), opaque(b"::1.0.0111"), words(111)), [4, 3], 1, b"", NO_ROW),
    ((opaque(b":1.0.111"), opaque(b"1::2::3.0.111"), words(111)), [4, 3], 1, b"", NO_ROW),
    ((opaque(b"::1.0.0"), opaque(b".0.111"), words(111)), [4, 3], 1, b"", NO_ROW),
    ((None, None, words(111)), [4, 3], 1, b"", NO_ROW),
]
# Of which each growth, read and write is refused.
SWEPT = [
    ((AT, None, None), HOST),
    ((None, AT, None), HOST),
    ((opaque(b""), opaque(b""), words(111)), HOST),
    ((None, None, None), HOST),
    ((None, opaque(b"2001:DB8:0:0:8:800:200C:417A.0.111"), None), SIX),
]
CALL = ["call", HOST, "ASKED.FIRST.NIL", "--types", "asked.x"]
# The call of the program behind its xid.
CALLED = words(0, 2, PROGRAM, 1, 0, 0, 0, 0, 0)
# Two names and their addresses, of which the system has 127.0.0.1 before the other of IPv4.
SECOND = "127.0.0.2"
NAMES = f"::1 first\n{HOST} first\n::1 second\n{SECOND} second\n{HOST} second\n"


def question(version, udp, six=b"", program=(PROGRAM, 1)):
    """The call by which a version of the registry is asked for a version of a program, behind its xid."""
    if version == 2:
        row = words(*program, 17 if udp else 6, 0)
    else:
        row = words(*program) + opaque((b"udp" if udp else b"tcp") + six) + opaque(b"") + opaque(b"")
    return words(0, 2, REGISTRY, version, 3, 0, 0, 0, 0) + row


def registry(answers, results=b""):
    """Answers as the registry's versions 4, 3 and 2, and as the program itself, which has these results."""

    def answer(server, message, datagram):
        xid, program, version = struct.unpack(">I8xII", message[:20])
        told = success(results, xid=xid) if program != REGISTRY else words(xid, 1, 0, 0, 0, 2, 2, 4)
        if program == REGISTRY and answers[4 - version] is not None:
            told = success(answers[4 - version], xid=xid)
        return [told if datagram else marked(told)]

    return answer


def losing(answers):
    """The same, but that the first datagram is lost."""
    answer = registry(answers)
    return lambda server, message, datagram: [] if server.moments[1:] == [] else answer(server, message, datagram)


def lost_rows(program, folder):
    """Over UDP the registry is asked again, too."""
    yield "a registry whose first datagram is lost", *in_time(lambda: lost(program, folder))


def lost(program, folder):
    """Whether the question is put again after a second, and the program called then."""
    with Server(losing((AT, None, None)), 111) as server:
        got, took = run(program, folder, [*CALL, "--udp"])
    well = got == (0, b"{}\n", b"") and 0.9 <= took < 3
    well = well and [it[4:] for it in server.calls[:2]] == [question(4, True)] * 2 and len(server.calls) == 3
    return well, (got, took, [it.hex() for it in server.calls])


def placed_rows(program, folder):
    """Of a name with addresses of IPv6 and of IPv4 those of IPv4 come first. The next is taken where there is no
    registry, and over TCP where nobody has the port."""
    for name, host in (("first", HOST), ("second", SECOND)):
        for more in ([], ["--port", "111"], ["--udp"], ["--port", "111", "--udp"])[: 4 if host == HOST else 3]:
            well, told = in_time(lambda: placed(program, folder, host, ["call", name, *CALL[2:], *more]))
            yield f"a name whose {name} address is called {' '.join(more)}", well, told


def placed(program, folder, host, line):
    """Whether a call comes to this address at once."""
    with Server(registry((AT, None, None)), 111, host) as server:
        got, took = run(program, folder, line)
    well = got == (0, b"{}\n", b"") and took < 3 and len(server.calls) == (1 if "--port" in line else 2)
    return well, (got, took)


def answered_rows(program, folder):
    """What the registry is asked, and what is printed of what it answers."""
    for answers, versions, status, output, faults in ANSWERS:
        for over in ([], ["--udp"]):
            asked = [question(version, over) for version in versions] + [CALLED] * (status == 0)
            wanted = (status, output, faults), asked
            well, told = in_time(lambda: answered(program, folder, [*CALL, *over], answers, wanted))
            yield f"a registry that answers {answers} {' '.join(over)}", well, told


def answered(program, folder, line, answers, wanted, host=HOST, results=b""):
    """Whether with a registry of these answers a call gives what is wanted, and these calls are made, each once."""
    with Server(registry(answers, results), 111, host) as server:
        got, _ = run(program, folder, line)
    return (got, [it[4:] for it in server.calls]) == wanted, (got, [it.hex() for it in server.calls])


def answered_over_6(program, folder):
    """The same over IPv6."""
    for answers, versions, status, output, faults in ANSWERS_OVER_6:
        for over in ([], ["--udp"]):
            asked = [question(version, over, b"6") for version in versions] + [CALLED] * (status == 0)
            line, wanted = ["call", SIX, *CALL[2:], *over], ((status, output, faults), asked)
            well, told = in_time(lambda: answered(program, folder, line, answers, wanted, SIX))
            yield f"a registry at {SIX} that answers {answers} {' '.join(over)}", well, told


def exported_rows(program, folder):
    """EXPORT by a host and a name alone: the declarations are the installed ones, and the port the registry's."""
    by_itself = placed_program(program, folder)
    for over in ([], ["--udp"]):
        asked = [question(4, over, program=EXPORT[:2]), words(0, 2, *EXPORT, 0, 0, 0, 0)]
        line, wanted = ["call", HOST, "mount.3.EXPORT", *over], ((0, EXPORTED_JSON, b""), asked)
        well, told = in_time(lambda: answered(by_itself, folder, line, (AT, None, None), wanted, HOST, EXPORTED))
        yield f"mount.3.EXPORT {' '.join(over)} of a host alone", well, told


def mapped_rows(program, folder):
    """An address of IPv4 that is written within one of IPv6 is of IPv4 (RFC 4291 section 2.5.5.2)."""
    for over in ([], ["--udp"]):
        line, wanted = ["call", f"::ffff:{HOST}", *CALL[2:], *over], ((0, b"{}\n", b""), [question(4, over), CALLED])
        well, told = in_time(lambda: answered(program, folder, line, (AT, None, None), wanted))
        yield f"a registry at ::ffff:{HOST} {' '.join(over)}", well, told


def pinged_rows(program, folder):
    """A program that is pinged without a version is looked up by version 0."""
    for name, version in (("536870913", 0), ("536870913.7", 7)):
        for over in ([], ["--udp"]):
            well, told = in_time(lambda: pinged(program, folder, ["ping", HOST, name, *over], version))
            yield f"ping {name} {' '.join(over)} by the registry", well, told


def pinged(program, folder, line, version):
    """Whether the registry is asked for this version of the program, and that is pinged."""
    with Server(registry((AT, None, None)), 111) as server:
        got, _ = run(program, folder, line)
    printed = rb"536870913 %d answered in \d+ microseconds\n" % version
    sent = [it[12:24] + it[40:48] for it in server.calls]
    wanted = [words(REGISTRY, 4, 3, PROGRAM, version), words(PROGRAM, version, 0)]
    return re.fullmatch(printed, got[1]) and sent == wanted, (got, sent)


def hindered_rows(program, folder):
    """A registry that hinders is waited for no longer, and one that is not there is a socket fault."""
    for answer, over, status, faults in (
        (silent, [], 3, b"no answer within 2 seconds\n"),
        (silent, ["--udp"], 3, b"no answer within 2 seconds\n"),
        (endless, [], 3, b"no answer within 2 seconds\n"),
        (trickle, [], 3, b"no answer within 2 seconds\n"),
        (trickle, ["--udp"], 3, b"no answer within 2 seconds\n"),
        (flooding, ["--udp"], 3, b"no answer within 2 seconds\n"),
        (other, [], 1, NO_ROW),
        (garbage, [], 1, NO_ROW),
        (garbage, ["--udp"], 1, NO_ROW),
    ):
        well, told = in_time(lambda: hindered(program, folder, answer, over, (status, b"", faults)))
        yield f"a registry that is {answer.__name__} {' '.join(over)}", well, told
    for over in ([], ["--udp"]):
        got, took = run(program, folder, [*CALL, *LONG, *over])
        yield f"no registry {' '.join(over)}", got == (3, b"", b"socket fault\n") and took < SOON, (got, took)


def hindered(program, folder, answer, over, wanted):
    """Whether a registry that answers so is waited for two seconds in all, and not for each of its versions."""
    with Server(answer, 111):
        got, took = run(program, folder, [*CALL, "--timeout", "2", *over])
    return got == wanted and took < 4, (got, took)


def refused_rows(program, folder, heap):
    """Each growth, read and write refused, of the look-up and of the call: of a registry whose version 4, 3 or 2 tells
    the port, of one whose versions tell none, and over IPv6."""
    later = first_growth(program, folder, heap) if heap else 0
    for answers, host in SWEPT if heap else ():
        for over in ([], ["--udp"]):
            status, *wanted = next(row[2:] for row in [*ANSWERS, *ANSWERS_OVER_6] if row[0] == answers)
            with Server(registry(answers), 111, host):
                line = ["call", host, *CALL[2:], *LONG, *over]
                got, counts, bad = swept(program, folder, heap, line, begin=later)
            name = f"by the registry at {host} {' '.join(over)}, {counts} growths, reads and writes refused"
            yield name, got == (status, *wanted) and not bad and counts[0] > later, (got, bad[:3])


def registered_rows(program, heap):
    """The rows of this script in a network of its own, each whether it is as it should be."""
    inside = 'ip link set lo up && mount --bind "$1" /etc/hosts && shift && exec "$@"'
    own = ["unshare", "-rnm", "--propagation", "private", "sh", "-c", inside, "own"]
    able = all(shutil.which(it) for it in ("unshare", "ip", "mount"))
    with tempfile.NamedTemporaryFile("w") as hosts:
        hosts.write(NAMES)
        hosts.flush()
        own.append(hosts.name)
        if not able or subprocess.run([*own, "true"], capture_output=True, check=False).returncode:
            print("a network of its own is not there: the rows of a registry at port 111 are skipped")
            return
        words_of_it = [sys.executable, os.path.realpath(__file__), program, heap or ""]
        said = subprocess.run([*own, *words_of_it], capture_output=True, text=True, check=False)
    print(said.stdout + said.stderr, end="")
    told = re.search(r"^(\d+) well of (\d+)$", said.stdout, re.M)
    if not told:
        yield tell("calls by a registry at port 111", False, said)
        return
    well, count = int(told[1]), int(told[2])
    for number in range(count):
        yield number < well


def main(program, heap):
    well = []
    with tempfile.TemporaryDirectory() as folder:
        with open(f"{folder}/asked.x", "wb") as it:
            it.write(DECLARED)
        swept_rows = lambda *of: refused_rows(*of, heap)
        told_rows = (answered_rows, answered_over_6, exported_rows, mapped_rows, lost_rows, placed_rows, pinged_rows)
        for rows in (*told_rows, hindered_rows, swept_rows):
            for name, is_well, told in rows(program, folder):
                well.append(tell(f"oncrpc call, {name}", is_well, told))
    print(f"{well.count(True)} well of {len(well)}")


if __name__ == "__main__":
    main(*sys.argv[1:])
