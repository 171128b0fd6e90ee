"""Rows of scripts/current in a checkout where something has built the program: by what is known whether it is of these
sources."""
import os
import shutil
import subprocess
import time

from refuse_use.answers import answer_rows
from refuse_use.launcher import UNPROVED, is_answer, output, row
from refuse_use.linked import library_rows
from refuse_use.standins import CRATES, Tree

SHOWN = {kind: output(kind, b"show") for kind in (b"proved", b"unproved")}


def is_proved(got):
    return is_answer(got, 7, SHOWN[b"proved"], b"proved fault\n", 0)


def is_unproved(got):
    return is_answer(got, 5, SHOWN[b"unproved"], UNPROVED + b"unproved fault\n", 1)


# A file of each kind that the program is made of, beside those of a Tree.
SOURCES = ("crates/low/specs/it.antt", "crates/left/proofs/deep/it.antt", "crates/right/src/out/it.rt")
# What it is made of by the times of files, and what it is not made of.
COUNTED = (*SOURCES, "crates/low/src/lib.rt", "crates/oncrpc/src/main.rt", "crates.txt", "HANDLES")
LEFT_ALONE = ("crates/other/src/lib.rt", "crates/low/out/src/it.rt", "crates/low/proofs.txt", "crates/low/args/src")
# The seconds since sources and the program were written, and since a file that is newer was.
OLD, BUILT, NEW = 100000, 50000, 100
SUM = "crates/oncrpc/out/oncrpc.sources"
# What stands as the sum, where it is not the one of these sources; how many seconds it and a source are old; and
# whether a program that is as old as BUILT says is of these sources then.
SUMS = [
    (None, (NEW, NEW), is_proved),
    ("0\n", (OLD, OLD), is_proved),
    (None, (OLD, NEW), is_unproved),
    ("0\n", (NEW, OLD), is_unproved),
    ("", (NEW, OLD), is_unproved),
]
# What is done to a source of the program whose sum is kept, and whether it is of these sources then.
CHANGES = {
    "a source of other text": ("echo other >crates/low/src/lib.rt", False),
    "a specification of other text": ("echo other >crates/low/specs/it.antt", False),
    "a proof of other text": ("echo other >crates/left/proofs/deep/it.antt", False),
    "a source in a folder named out": ("echo other >crates/right/src/out/it.rt", False),
    "other handles": ("echo other >HANDLES", False),
    "a source of another name": ("mv crates/low/specs/it.antt crates/low/specs/at.antt", False),
    "a source in another crate": ("mkdir crates/left/specs && mv crates/low/specs/it.antt crates/left/specs", False),
    "two sources in each other's place": ("cd crates/right/src && mv lib.rt a; mv out/* lib.rt; mv a out/it.rt", False),
    "one source more, which is empty": (": >crates/low/src/more.rt", False),
    "a source twice": ("cp crates/low/specs/it.antt crates/low/specs/at.antt", False),
    "one source less": ("rm crates/low/specs/it.antt", False),
    "what is built beside sources": ("echo other >crates/low/out/src/it.rt", True),
    "a file beside sources": ("echo other >crates/low/proofs.txt", True),
    "a source of another crate": ("echo other >crates/other/src/lib.rt", True),
    "a word more of a crate": ("sed -i 's/^left:/left word:/' crates.txt", False),
    "crates in another order": ("sort -r crates.txt >a && mv a crates.txt", True),
    "other words of another crate": ("sed -i 's/^other: low/other: short/' crates.txt", True),
    "a program that is not executable": ("chmod 644 crates/oncrpc/out/oncrpc", False),
    "nothing that is other": ("true", True),
    "no program": ("rm crates/oncrpc/out/oncrpc", False),
    "a folder in place of the program": ("rm crates/oncrpc/out/oncrpc && mkdir crates/oncrpc/out/oncrpc", False),
}
# A sort that goes by the locale, and a find that gives files in another order where that is told.
SORT = '#!/bin/sh\n[ "$LC_ALL" = C ] || exec {sort} -r\nexec {sort}\n'
FIND = '#!/bin/sh\n[ -n "$STAND_ORDER" ] || exec {find} "$@"\n{find} "$@" | {sort} -r\n'


class Built(Tree):
    """A checkout where all files are of one age and the program is newer, with no sum."""

    def __init__(self, folder, name, **variables):
        super().__init__(folder, name, **variables)
        for it in (*SOURCES, *LEFT_ALONE, "HANDLES"):
            self.write(it, f"the text of {it}\n")
        self.write("crates/oncrpc/out/oncrpc", self.read("bin/proved"), 0o755)
        self.make_old()

    def make(self, name, seconds):
        """Has a file be that old."""
        os.utime(f"{self.at}/{name}", (time.time() - seconds,) * 2)

    def make_old(self):
        for at, _, files in os.walk(self.at):
            for name in files:
                if name not in ("oncrpc", "oncrpc.sources") or not at.endswith("/out"):
                    self.make(os.path.relpath(f"{at}/{name}", self.at), OLD)
        if os.path.isfile(self.made):
            self.make("crates/oncrpc/out/oncrpc", BUILT)

    def shell(self, commands):
        subprocess.run(["sh", "-ec", commands], cwd=self.at, check=True)

    def kept(self):
        return os.path.isfile(f"{self.at}/{SUM}")


def by_time(folder):
    """Where no sum is kept, a program that is newer than all of its sources is of them, and its sum is kept."""
    tree = Built(folder, "by time")
    got = tree.run("./oncrpc show")
    yield row("./oncrpc show, newer than its sources, no sum", is_proved(got) and tree.kept(), got)
    for files, wanted in ((COUNTED, is_unproved), (LEFT_ALONE, is_proved)):
        for name in files:
            os.remove(f"{tree.at}/{SUM}") if tree.kept() else None
            tree.make(name, NEW)
            got = tree.run("./oncrpc show")
            tree.make(name, OLD)
            well = wanted(got) and tree.kept() == (wanted is is_proved)
            yield row(f"./oncrpc show, {name} is newer than the program", well, got)
    for text, (kept, source), wanted in SUMS:
        tree.write(SUM, tree.read(SUM) if text is None else text)
        tree.make(SUM, kept)
        tree.make("crates/low/src/lib.rt", source)
        got = tree.run("./oncrpc show")
        what = f"with {'its' if text is None else 'another'} sum of {kept} seconds and a source of {source}"
        yield row(f"./oncrpc show, {what}", wanted(got), got)


def by_sum(folder):
    """Where a sum is kept, the program is of these sources where their texts, names and places are the same."""
    tree = Built(folder, "by sum")
    got = tree.run("./oncrpc show")
    yield row("./oncrpc show, whose sum is then kept", is_proved(got) and tree.kept(), got)
    tree.shell("mkdir saved && mv crates crates.txt HANDLES saved")
    for what, (commands, proved) in CHANGES.items():
        tree.shell(f"rm -rf crates\ncp -pR saved/* .\n{commands}")
        tree.make_old()
        got = tree.run("./oncrpc show")
        yield row(f"./oncrpc show, {what}", is_proved(got) if proved else is_unproved(got), got)


def elsewhere(folder):
    """The sum is the same in another folder, locale and order of files, and what cannot be kept is not told."""
    tree = Built(folder, "here")
    for name, text in (("sort", SORT), ("find", FIND)):
        tree.write(f"bin/{name}", text.format(sort=shutil.which("sort"), find=shutil.which("find")), 0o755)
    tree.run("./oncrpc show", LC_ALL="C")
    others = {"locale": {"LC_ALL": "POSIX"}, "order of files": {"STAND_ORDER": "1"}, "folder": {"CDPATH": folder}}
    for what, variables in others.items():
        if what == "folder":
            os.rename(tree.at, f"{folder}/there")
            tree.at, tree.bin = f"{folder}/there", f"{folder}/there/bin"
            tree.made = f"{tree.at}/crates/oncrpc/out/oncrpc"
        tree.make("crates/low/src/lib.rt", 0)
        got = tree.run("./oncrpc show", **variables)
        yield row(f"./oncrpc show, in another {what}", is_proved(got), got)
    tree.make_old()
    os.remove(f"{tree.at}/{SUM}")
    os.mkdir(f"{tree.at}/{SUM}")
    got = tree.run("./oncrpc show")
    yield row("./oncrpc show, no sum can be kept", is_proved(got), got)
    got = tree.run("./oncrpc prove")
    yield row("./oncrpc prove, no sum can be kept", got[0] == 0 and b"proved and built before" in got[2], got)


def as_they_are(folder):
    """Words and variables of the caller are no words of these scripts, and the program's folder can be missing."""
    tree = Built(folder, "words")
    tree.write("crates/oncrpc/out/oncrpc", "#!/bin/sh\nprintf '<%s>' \"$#\" \"$@\"\n", 0o755)
    tree.write("asked", "exec ./oncrpc 'two  words' '' '*' -- \\$HOME '\\n'\n")
    got = tree.run("sh asked")
    told = b"<6><two  words><><*><--><$HOME><\\n>"
    yield row("./oncrpc, words as they are", is_answer(got, 0, told, b"", 0), got)
    for name in ("goal", "made", "here", "sum", "log"):
        got = tree.run("./oncrpc show", **{name: "c_library"})
        yield row(f"./oncrpc show, where {name} is a variable", is_answer(got, 0, b"<1><show>", b"", 0), got)
    tree.shell("rm -r crates/oncrpc/out && : >crates/oncrpc/out")
    got = tree.run("./oncrpc prove")
    well = got[0] == 3 and not got[3] and b"proving" not in got[2] and got[2].count(b"\n") == 1
    yield row("./oncrpc prove, a file in place of the folder out", well, got)


def built_rows(folder):
    for rows in (by_time, by_sum, elsewhere, as_they_are, answer_rows, library_rows):
        yield from rows(folder)
