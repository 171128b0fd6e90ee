"""Values of bench/x/workloads.x: results of NFS version 3 (RFC 1813), files of RFC 4506 and lists of numbers."""
import os

from measured.common import ROOT
from measured.kinds import Kind, WANTED, content, word

with open(os.path.join(ROOT, "bench", "x", "workloads.x"), encoding="ascii") as lines:
    TYPES = lines.read()
STATUSES = (0, 1, 2, 5, 13, 70, 10001, 10008)


def of_file(name, value):
    """A kind that the file declares."""
    return Kind((TYPES,), name, "", value)


def some_text(random, least, most):
    return content(bytes(random.choices(b"abcdefgh.", k=random.randint(least, most))))


def attributes(random):
    """fattr3 (RFC 1813 section 2.6)."""
    return word(random.randint(1, 7)) + random.randbytes(80)


def entry(random):
    """entryplus3 (RFC 1813 section 3.3.17) without the next one; one of sixteen has no attributes and no handle."""
    head = random.randbytes(8) + some_text(random, 3, 40) + random.randbytes(8)
    if random.randrange(16) == 0:
        return head + word(0) + word(0)
    return head + word(1) + attributes(random) + word(1) + content(random.randbytes(32))


def directory(random, entries):
    """READDIRPLUS3res (RFC 1813 section 3.3.17)."""
    listed = b"".join(word(1) + entry(random) for _ in range(entries))
    return word(0) + word(1) + attributes(random) + random.randbytes(8) + listed + word(0) + word(1)


def entries(random):
    """A list of entries."""
    made = b""
    while len(made) < WANTED:
        made += word(1) + entry(random)
    return made + word(0)


def one_file(random):
    """The file of RFC 4506 section 7."""
    sort = random.randrange(3)
    made_by = some_text(random, 1, 20) if sort else b""
    owner = some_text(random, 4, 16)
    return some_text(random, 1, 60) + word(sort) + made_by + owner + content(random.randbytes(random.randrange(200)))


def status(random):
    return word(random.choice(STATUSES))


FATTR3 = of_file("fattr3", attributes)
NFSTIME3 = of_file("nfstime3", lambda random: random.randbytes(8))
FILE = of_file("file", one_file)
STATUS = of_file("nfsstat3", status)
HANDLE = of_file("nfs_fh3", lambda random: content(random.randbytes(32)))
ENTRIES = of_file("entryplus3 *", entries)
DIRECTORY = of_file("READDIRPLUS3res", lambda random: directory(random, 90))
