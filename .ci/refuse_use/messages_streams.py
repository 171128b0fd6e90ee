"""Streams of messages put together by hand (RFC 5531 sections 8, 9 and 11 and its appendix A), and runs over them with
each growth of memory, each read and each write refused in turn, by .ci/heap.c."""
import os
import struct
import subprocess

from refuse_use.refusing import counted
from telling import tell
from timing import LIMIT

ROOT = os.path.dirname(os.path.dirname(os.path.dirname(os.path.realpath(__file__))))
RPCBIND, NFS = f"--types {ROOT}/share/oncrpc/rpcbind.x", f"--types {ROOT}/share/oncrpc/nfs.x"
# The most bytes of a record of a stream that is watched (docs/FORMATS.md).
MOST = 16781312


def words(*numbers):
    return struct.pack(f">{len(numbers)}I", *numbers)


def header(size, last=True):
    """The header of a fragment (RFC 5531 section 11)."""
    return words(size + (last << 31))


def fragment(content, last=True):
    return header(len(content), last) + content


def opaque(content):
    return words(len(content)) + content + bytes(-len(content) % 4)


def call(xid, program, version, procedure, arguments=b"", flavor=0, body=b""):
    """A call, whose verifier is AUTH_NONE (RFC 5531 section 9)."""
    return words(xid, 0, 2, program, version, procedure, flavor) + opaque(body) + words(0, 0) + arguments


def reply(xid, *status, results=b""):
    """An accepted reply, whose verifier is AUTH_NONE."""
    return words(xid, 1, 0, 0, 0, *status) + results


def sys_body(machine, *gids):
    """A body of AUTH_SYS (RFC 5531 appendix A)."""
    return words(5) + opaque(machine) + words(10, 20, len(gids), *gids)


def counts(calls, replies, others, refused, unjudged, unasked):
    numbers = (calls, replies, others, refused, unjudged, unasked)
    return b"calls %d replies %d others %d refused %d unjudged %d unasked %d\n" % numbers


def ended(program, folder, line, given, command=("messages",), **variables):
    """The status and both streams."""
    how = {"cwd": folder, "input": given, "capture_output": True, "env": {**os.environ, **variables}, "timeout": LIMIT}
    got = subprocess.run([program, *command, *line.split()], **how)
    return got.returncode, got.stdout, got.stderr


# What is counted, what refuses one, and the status and the line where a run ends by it.
REFUSED = [
    ("COUNT_GROWTHS", "REFUSE_GROWTH", (4, b"out of memory\n")),
    ("COUNT_READS", "REFUSE_READ", (3, b"read fault\n")),
    ("COUNT_WRITES", "REFUSE_WRITE", (3, b"write fault\n")),
]


def is_cut(whole, got, ending):
    """Whether a run gave the beginning of what the whole run gives, and ended; or the whole, but for a line of faults."""
    if (got[0], got[2]) == ending:
        return whole[1].startswith(got[1])
    return got in (whole, (*whole[:2], b""))


class Sweep:
    """Runs of a command of the program in a folder; without a heap nothing is refused in turn."""

    def __init__(self, program, folder, heap, command=("messages",)):
        self.program, self.folder, self.heap, self.command, self.firsts = program, folder, heap, command, {}

    def ended(self, line, given, **variables):
        return ended(self.program, self.folder, line, given, self.command, **variables)

    def count(self, line, given, variable):
        return counted(self.program, self.folder, [*self.command, *line.split()], given, self.heap, variable)

    def first(self, line):
        """The number of a growth shortly before the first that comes with a record: those before are of the words and
        the declarations, as of an empty stream."""
        if self.heap and line not in self.firsts:
            self.firsts[line] = max(self.count(line, b"", "COUNT_GROWTHS") - 40, 1)
        return self.firsts.get(line, 1)

    def over(self, line, given, begin=None):
        """What the whole run gives, how many growths, reads and writes it makes, and which refused go wrong: growths
        from this number on."""
        whole, numbers, bad = self.ended(line, given), [], []
        for count, refuse, ending in REFUSED if self.heap else ():
            numbers.append(self.count(line, given, count))
            grows = refuse == "REFUSE_GROWTH"
            first = (begin or self.first(line)) if grows else 1
            for number in range(first, numbers[-1] + 2):
                for refused in (str(number), f"{number}..") if grows else (str(number),):
                    got = self.ended(line, given, LD_PRELOAD=self.heap, **{refuse: refused})
                    if not is_cut(whole, got, ending):
                        bad.append((refuse, refused, got))
        return whole, numbers, bad

    def row(self, what, line, given, wanted, begin=None):
        """Prints a row, and returns whether it is as it should be: the status, the output, and each that is refused."""
        whole, numbers, bad = self.over(line, given, begin)
        well = whole[:2] == wanted and not bad
        said = f"{self.command[0]}, {what}, {numbers} growths, reads and writes refused"
        return tell(said, well, [whole, wanted, *bad[:3]])
