"""Rows of nmap's rpcinfo script, which lists the programs of a registry over TCP and over UDP, beside what rpcinfo
prints of it."""
import re
import shutil

from clients_use.asking import HOST, ask, rows_of, told
from timing import in_time

# A line of the script: program, versions, port and netid.
LINE = re.compile(r"\|_? +(\d+) +([\d,]+) +(\d+)/(\w+)")


def missing():
    """What the rows want and is not here, if it is not."""
    return None if shutil.which("nmap") else "nmap is not there"


def wanted():
    """The lines of the rows that rpcinfo prints: each program's versions at a port. Paths have none, and no line."""
    found = {}
    for prog, vers, netid, at, *_ in rows_of(["rpcinfo", HOST]):
        if netid != "local":
            high, low = map(int, at.split(".")[-2:])
            found.setdefault((prog, str(256 * high + low), netid), []).append(int(vers))
    return sorted((prog, ",".join(map(str, sorted(it))), *at) for (prog, *at), it in found.items())


def nmap_rows(_program, _root, _folder, whose):
    """The rows, over TCP and over UDP."""
    lines = wanted()
    for scan in ("-sT", "-sU"):
        got, said = in_time(lambda: scanned(scan, lines))[1:]
        name = f"nmap {scan} --script rpcinfo of {whose}, {len(lines)} lines"
        yield told(name, got if lines else said, lines, "rpcinfo")


def scanned(scan, lines):
    """Whether the script lists these lines, those that it lists, and what nmap gives: it waits for seconds alone."""
    said = ask(["nmap", "-n", "-Pn", scan, "-p", "111", "--script", "rpcinfo", HOST])
    got = sorted(it.groups() for it in LINE.finditer(said[1]))
    return got == lines, got, said
