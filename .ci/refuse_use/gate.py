"""Rows of the gate itself: what it makes of each part's last line and status, in a made-up checkout."""
import os
import re
import shutil

from refuse_use.launcher import row
from refuse_use.standins import ROOT, Tree

PARTS = ("documents", "refuse", "run", "clients", "library", "install")
# A part that prints and ends as bin/NAME.said and bin/NAME.ends say, else with 2 passed and status 0.
PART = """#!/bin/sh
name=${0##*/}
cat "%s/$name.said" 2>/dev/null || echo "2 passed, 0 failed"
exit "$(cat "%s/$name.ends" 2>/dev/null || echo 0)"
"""
# An rt that is a part too, knows no --anew, and changes a file that 'fmt' finds where bin/unlike is there.
RT = """#!/bin/sh
stand=${0%%/*}
case $1 in
fmt) [ ! -e "$stand/unlike" ] || echo "// other" >>src/lib.rt ;;
ci) [ $# = 1 ] || { echo "usage: rt ci"; exit 2; }; exec sh "$stand/ci" ;;
esac
"""
# What a part says and with what status it ends, the last line of the gate behind its 12 passed of the others, and
# whether the gate goes on behind a part of the first two.
SAID = [
    ("1 passed, 1 failed\n", 1, "1 failed"),
    ("2 passed, 0 failed\n", 1, "1 failed"),
    ("2 passed, 3 failed\n", 0, "3 failed"),
    ("nothing\n", 0, "1 failed"),
    ("2 passed, 0 failed\nmore\n", 0, "1 failed"),
    ("more\n2 passed, 3 failed\n", 0, "3 failed"),
    ("", 0, "1 failed"),
    ("2 passed, 0 failed\nkilled\n", 137, "1 failed"),
]


def checkout(folder, name):
    """A checkout with the gate, and stand-ins for its parts and for rt."""
    tree = Tree(folder, name)
    os.makedirs(f"{tree.at}/.ci")
    for it in ("gate", "run", "telling.py"):
        shutil.copy(f"{ROOT}/.ci/{it}", f"{tree.at}/.ci/{it}")
    for it in PARTS:
        place = "tests/run" if it == "run" else f".ci/{it}"
        tree.write(place, PART % (tree.bin, tree.bin), 0o755)
    tree.write("build-library", "#!/bin/sh\n", 0o755)
    tree.write("bin/ci", PART % (tree.bin, tree.bin), 0o755)
    tree.write("bin/rt", RT.replace("%%", "%"), 0o755)
    return tree


def ends(got, status, last):
    """Whether the gate ended so, with the minutes of each part before its last line."""
    lines = got[1].decode().splitlines()
    has_minutes = re.search(rb"^processor minutes:\n(  \S.* +[\d.]+\n)+  the whole run +[\d.]+\n", got[1], re.M)
    return got[0] == status and bool(has_minutes) and bool(lines) and re.fullmatch(last, lines[-1]) is not None


# What a part says, its status, and what is printed again of it behind the last part.
AGAIN = [
    ("a: well\nFAILED: b: why\nc: well\nFAILED: d\n1 passed, 2 failed\n", 1, "{0}: FAILED: b: why\n{0}: FAILED: d\n"),
    ("FAILED: b: why\nFAILED: d\n1 passed, 1 failed\n", 1, "{0}: FAILED: b: why\n{0}: FAILED: d\n"),
    (f"FAILED: {'b' * 2000}\n0 passed, 1 failed\n", 1, "{0}: FAILED: " + "b" * 992 + "\n"),
    (
        "FAILED: b\n1 passed, 2 failed\n",
        1,
        "{0}: FAILED: b\nFAILED: {0}: 2 failed, and 1 are named. It said:\nFAILED: b\n1 passed, 2 failed\n",
    ),
    (
        "a: NOT REFUSED\nof a: 1 passed, 0 failed\n" + "b: well\n" * 60 + "1 passed, 1 failed\n",
        1,
        "FAILED: {0}: 1 failed, and 0 are named. It said:\na: NOT REFUSED\n" + "b: well\n" * 39 + "1 passed, 1 failed\n",
    ),
    ("a: well\nTraceback", 1, "FAILED: {0}: 1 failed, and 0 are named. It said:\na: well\nTraceback\n"),
    (
        "FAILED: b\nTraceback\n",
        1,
        "{0}: FAILED: b\nFAILED: {0}: 1 failed, and 1 are named. It said:\nFAILED: b\nTraceback\n",
    ),
    ("2 passed, 0 failed\n", 1, "FAILED: {0}: 1 failed, and 0 are named. It said:\n2 passed, 0 failed\n"),
]


def again_rows(folder):
    """What failed is printed once more behind the last part, whatever part it is."""
    tree = checkout(folder, "again")
    got = tree.run(".ci/run")
    yield row(".ci/run, nothing failed", b"what failed" not in got[1] and b"FAILED" not in got[1], got)
    for name in ("documents", "ci", "run"):
        for at, (said, status, wanted) in enumerate(AGAIN):
            tree.write(f"bin/{name}.said", said)
            tree.write(f"bin/{name}.ends", f"{status}\n")
            got = tree.run(".ci/run")
            part = {"ci": "rt ci", "run": "tests/run"}.get(name, f".ci/{name}")
            told = f"what failed:\n{wanted.format(part)}processor minutes:\n"
            yield row(f".ci/run, what {name} says is told again, {at}", told.encode() in got[1], got)
        os.remove(f"{tree.bin}/{name}.said")
        os.remove(f"{tree.bin}/{name}.ends")


# Proves the archive ahead, and fails behind its work; and the part that goes on with it.
AHEAD = """#!/bin/sh
sleep 1
echo "$ONCRPC_LANES $PWD" $(cd crates/kept && ls -d proofs/library out) >%s/ahead 2>/dev/null
exit 1
"""
BEHIND = """#!/bin/sh
echo "ahead: $(cat %s/ahead) $ONCRPC_LANES"
echo "2 passed, 0 failed"
"""


def ahead_rows(folder):
    """The archive is proved ahead in a copy, in the lanes of its part, which waits for it; its status says nothing."""
    tree = checkout(folder, "ahead")
    tree.write("build-library", AHEAD % tree.bin, 0o755)
    # (what was built is not copied, but for a folder of sources that has the name of one)
    for it in ("proofs/library/there", "out/made"):
        os.makedirs(os.path.dirname(f"{tree.at}/crates/kept/{it}"))
        tree.write(f"crates/kept/{it}", "")
    tree.write(".ci/library", BEHIND % tree.bin, 0o755)
    for words in (".ci/run", ".ci/run --anew"):
        got = tree.run(words)
        told = re.search(rb"^ahead: (\S+) (\S+)/checkout proofs/library (\S+)$", got[1], re.M)
        is_well = told and told[1] == told[3] and told[1].startswith(told[2]) == (words != ".ci/run")
        is_gone = told and not os.path.exists(told[2])
        yield row(f"{words}, the archive ahead", is_well and is_gone and ends(got, 0, "15 passed, 0 failed"), got)


# A part that ends well only once one behind it has begun, and that one.
WAITS = """#!/bin/sh
for _ in $(seq 600); do [ -e %s/begun ] && break; sleep 0.1; done
[ -e %s/begun ] && echo "beside" && echo "2 passed, 0 failed"
"""
BEGINS = """#!/bin/sh
touch %s/begun
echo "behind"
echo "2 passed, 0 failed"
"""


def beside_rows(folder):
    """'.ci/refuse' goes on beside the parts behind it, and its lines come behind theirs."""
    tree = checkout(folder, "beside")
    tree.write(".ci/refuse", WAITS % (tree.bin, tree.bin), 0o755)
    tree.write(".ci/install", BEGINS % tree.bin, 0o755)
    got = tree.run(".ci/run")
    is_behind = re.search(rb"^behind\n2 passed, 0 failed\nbeside\n", got[1], re.M)
    yield row(".ci/run, a part beside those behind it", bool(is_behind) and ends(got, 0, "15 passed, 0 failed"), got)


def gate_rows(folder):
    """Each part counts, by its last line and by its status."""
    tree = checkout(folder, "gate")
    for words in (".ci/run", ".ci/run --anew"):
        got = tree.run(words)
        yield row(f"{words}, all passes", ends(got, 0, "15 passed, 0 failed"), got)
    got = tree.run(".ci/run --what")
    yield row(".ci/run --what", (got[0], got[2]) == (2, b"usage: .ci/run [--anew]\n"), got)
    tree.write("bin/unlike", "")
    got = tree.run(".ci/run")
    told = re.search(rb"^what failed:\nrt fmt: FAILED: crates/\S+: not in the layout of rt fmt\n", got[1], re.M)
    is_first = told and got[1].count(b" passed") == 1
    yield row(".ci/run, another layout", bool(is_first) and ends(got, 1, r"0 passed, \d+ failed"), got)
    for name in (*PARTS, "ci"):
        for at, (said, status, failed) in enumerate(SAID):
            tree = checkout(folder, f"gate-{name}{at}")
            tree.write(f"bin/{name}.said", said)
            tree.write(f"bin/{name}.ends", f"{status}\n")
            got = tree.run(".ci/run")
            is_first = name != "documents" or b"rt ci" not in got[1]
            yield row(f".ci/run, {name} says {said!r}, {status}", is_first and ends(got, 1, rf"\d+ passed, {failed}"), got)
    yield from again_rows(folder)
    yield from ahead_rows(folder)
    yield from beside_rows(folder)
