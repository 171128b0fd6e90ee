"""What stands for the network and the clock of a run, '.ci/sockets.c', and a run that does not end by itself."""
import mmap
import os
import re
import struct
import subprocess
import tempfile
import threading

from timing import WAIT


class Network:
    """What stands for the network of a run, and what was asked of it."""

    def __init__(self, sockets, folder):
        self.file, self.variables = f"{folder}/asked", {"LD_PRELOAD": sockets, "ASKED": f"{folder}/asked"}
        with open(self.file, "wb"):
            pass

    def asked(self, what):
        """What was asked in lines that begin so."""
        with open(self.file, encoding="utf-8") as it:
            return [line[len(what) + 1 :].rstrip("\n") for line in it if line.startswith(f"{what} ")]


class Running:
    """A run that this ends, and its first line."""

    def __init__(self, program, folder, line, **variables):
        # (a pipe is full behind the lines of a thousand connections)
        self.faults = tempfile.TemporaryFile()
        how = {"cwd": folder, "stdout": subprocess.PIPE, "stderr": self.faults, "env": {**os.environ, **variables}}
        self.process = subprocess.Popen([program, *line], **how)

    def __enter__(self):
        return self

    def __exit__(self, *_):
        if not self.process.stdout.closed:
            self.end()
        self.faults.close()

    def said(self):
        """What it has said on standard error so far."""
        return os.pread(self.faults.fileno(), os.fstat(self.faults.fileno()).st_size, 0)

    def end(self):
        """Ends it: what is left of standard output, and standard error."""
        self.process.kill()
        rest, _ = self.process.communicate()
        self.faults.seek(0)
        return rest, self.faults.read()

    def lines(self, count):
        """So many lines, or those before it has ended; it is ended where they do not come."""
        late = threading.Timer(WAIT, self.process.kill)
        late.start()
        told = b"".join(self.process.stdout.readline() for _ in range(count))
        late.cancel()
        return told


def port_in(line):
    """The port of the first line of a registry; 0 where it says none."""
    said = re.fullmatch(rb"listening on [\d.]+ (\d+)\n", line)
    return int(said[1]) if said else 0


class Clock:
    """The clock of a run: how many seconds have gone."""

    def __init__(self, folder):
        self.file = f"{folder}/clock"
        with open(self.file, "wb") as it:
            it.write(bytes(8))
        with open(self.file, "r+b") as it:
            self.bytes = mmap.mmap(it.fileno(), 8)

    def set(self, seconds):
        self.bytes[:] = struct.pack("=q", 1000 * seconds)
