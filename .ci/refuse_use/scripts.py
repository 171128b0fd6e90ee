"""Rows of what the scripts say of themselves and of words that they do not know, and of the unproved program: what is
said of its version, of a long compilation, and of a standard input that cannot be read."""
import itertools
import os
import re
import shutil

from refuse_use.launcher import DO, UNPROVED, is_answer, output, row
from refuse_use.standins import PROGRAM, ROOT, UNTIL_UNREAD, Tree
from timing import in_time

NOT_PROVED = b"oncrpc: not proved yet; " + DO
VERSION = "crates/oncrpc_words/src/help.rt"
# What is asked for help, a line that it has, and how it begins.
HELPS = {
    "./oncrpc prove": (b"usage: ./oncrpc prove\n", b"usage: "),
    "./oncrpc --prove": (b"usage: ./oncrpc prove\n", b"usage: "),
    "./install": (b"usage: [DESTDIR=FOLDER] ./install [--library[=FOLDER]] [PREFIX]\n", b"Installs "),
    "./uninstall": (b"usage: [DESTDIR=FOLDER] ./uninstall [PREFIX]", b"Takes back "),
    "./build-library": (b"usage: ./build-library [FOLDER]\n", b"Proves and builds "),
}
# Words that are refused, and what is said of them.
OTHERS = {
    "./oncrpc prove --helps": b"prove takes no other word",
    "./oncrpc prove --help it": b"prove takes no other word",
    "./build-library --what": b"usage: ./build-library [FOLDER]",
    "./build-library -l": b"usage: ./build-library [FOLDER]",
    "./build-library made other": b"usage: ./build-library [FOLDER]",
    "./install one other": b"usage: [DESTDIR=FOLDER] ./install [--library[=FOLDER]] [PREFIX]",
    "./uninstall one other": b"usage: [DESTDIR=FOLDER] ./uninstall [PREFIX]",
}


def helps(folder):
    """Asked for help, a script prints what it does, and does nothing; other words are refused."""
    tree = Tree(folder, "helps")
    for script, (line, begins) in HELPS.items():
        for word in ("--help", "-h"):
            got = tree.run(f"{script} {word}")
            well = (got[0], got[2], got[3]) == (0, b"", []) and line in got[1] and got[1].startswith(begins)
            yield row(f"{script} {word}", well and b"#" not in got[1] and b"umask" not in got[1], got)
    for words, told in OTHERS.items():
        got = tree.run(words)
        yield row(words, is_answer(got, 2, b"", re.escape(b"oncrpc: %s\n" % told), 0), got)
    for words in ("./build-library --help", "./oncrpc prove --help"):
        tree.write("full", f"exec {words} >/dev/full\n")
        got = tree.run("sh full")
        yield row(f"{words} >/dev/full", is_answer(got, 3, b"", b"oncrpc: write fault\n", 0), got)


# Words of the scripts that measure, where nothing is built, and how the one line begins that they end with.
MEASURING = {
    "bench/run": b"nothing to measure is built: ",
    "bench/run records": b"nothing to measure is built: ",
    "bench/run nonsense": b"bench/run takes ",
    "bench/fuzz a b": b"usage: bench/fuzz ",
    "bench/fuzz 1 2": b"%s/crates/tool_probe/out/tool_probe is not built: ",
    "bench/rpcgen 1 2": b"usage: bench/rpcgen ",
    "bench/rpcgen 1 2 3": b"%s/crates/tool_probe_more/out/tool_probe_more is not built: ",
    "bench/rpcgen_bytes 1": b"usage: bench/rpcgen_bytes ",
    "bench/rpcgen_bytes 1 2": b"%s/crates/tool_probe_more/out/tool_probe_more is not built: ",
    "bench/plot none": b"none: No such file or directory",
    "bench/plot crates.txt": b"crates.txt: ",
    "bench/plot bench/ratios.txt none/made": b"%s/none/made: No such file or directory",
}


def measuring(folder):
    """A script that measures refuses words in one line with status 2, gives help, and leaves pictures alone."""
    tree = Tree(folder, "measuring")
    for name in ("bench", "tests"):
        shutil.copytree(f"{ROOT}/{name}", f"{tree.at}/{name}")
    before, at = tree.read("bench/ratios.svg"), os.path.realpath(tree.at).encode()
    for words, told in MEASURING.items():
        got = tree.run(words)
        told = re.escape(told.replace(b"%s", at)) + rb"[^\n]*\n"
        well = is_answer(got, 2, b"", told, 0) and tree.read("bench/ratios.svg") == before
        yield row(words, well, got)
    for name in ("run", "fuzz", "plot", "shapes"):
        got = tree.run(f"bench/{name} --help")
        well = (got[0], got[2]) == (0, b"") and b"usage: bench/%s " % name.encode() in got[1]
        yield row(f"bench/{name} --help", well, got)
    tree.write("piped", f"{{ {UNTIL_UNREAD}; bench/shapes --list; }} | true\n")
    got = tree.run("sh piped")
    yield row("bench/shapes --list | true", is_answer(got, 0, b"", b"", 0), got)


def linked(folder):
    """A link to ./oncrpc is as good as its own place."""
    tree = Tree(folder, "linked")
    os.symlink("../oncrpc", f"{tree.bin}/by_link")
    got = tree.run("by_link show")
    well = is_answer(got, 5, output(b"unproved", b"show"), UNPROVED + b"unproved fault\n", 1)
    yield row("a link to ./oncrpc", well, got)


def version(folder):
    """Nothing unproved names a proof: the version comes from the sources, and nothing is compiled for it."""
    tree = Tree(folder, "version")
    tree.write("crates/oncrpc_words/src/none", "")
    shutil.copy(f"{ROOT}/{VERSION}", f"{tree.at}/{VERSION}")
    for number in (b"0.1.0", b"9.8.7"):
        for word in ("--version", "-V"):
            got = tree.run(f"./oncrpc {word}")
            told = b"oncrpc %s\nnot proved\n" % number
            yield row(f"./oncrpc {word}, {number.decode()}", is_answer(got, 0, told, NOT_PROVED, 0), got)
        tree.write(VERSION, tree.read(VERSION).replace('VERSION: &str = "0.1.0', 'VERSION: &str = "9.8.7'))
    tree.write("full", "exec ./oncrpc --version >/dev/full\n")
    got = tree.run("sh full")
    yield row("./oncrpc --version >/dev/full", is_answer(got, 3, b"", NOT_PROVED + b"write fault\n", 0), got)
    tree.run("./oncrpc prove")
    got = tree.run("./oncrpc --version")
    told = output(b"proved", b"--version")
    yield row("./oncrpc --version, proved", is_answer(got, 7, told, b"proved fault\n", 0), got)


def signs_of_life(folder):
    """While the toolchain is at work, a line says so each half minute, which is here a part of a second."""
    tree = Tree(folder, "signs", STAND_SLEEP="3")
    text = tree.read("scripts/unproved")
    yield row("a sign of life each 30 seconds", text.count("\nEACH = 30\n") == 1, text)
    tree.write("scripts/unproved", text.replace("\nEACH = 30\n", "\nEACH = 0.4\n"))
    yield row("./oncrpc show, slow", *in_time(lambda: tells_signs(tree)))


def tells_signs(tree):
    """Whether an answer after some seconds has two signs of life or more before it."""
    got = tree.run("./oncrpc show")
    sign = rb"(oncrpc: compiling and running the unproved program, \d+ seconds so far\n){2,}"
    faults = UNPROVED + sign + b"unproved fault\n"
    return is_answer(got, 5, output(b"unproved", b"show"), faults, 1), got


# With what status the program ends, for each input that cannot be read.
INPUTS = itertools.product((0, 1, 2), ("<.", "<&-", "<bin"))


def tree_of(folder, name, status):
    """A checkout whose unproved program ends with this status."""
    tree = Tree(folder, name)
    tree.write("bin/unproved", PROGRAM.format(kind="unproved", status=status), 0o755)
    return tree


def unreadable(folder):
    """A standard input that is a folder or closed is a read fault, but for words that the program refuses first."""
    for at, (status, given) in enumerate(INPUTS):
        tree = tree_of(folder, f"unreadable{at}", status)
        tree.write("given", f"exec ./oncrpc show {given}\n")
        got = tree.run("sh given")
        well = is_answer(got, 3, b"", UNPROVED + b"read fault\n", 1)
        if status == 2:
            well = is_answer(got, 2, output(b"unproved", b"show"), UNPROVED + b"unproved fault\n", 1)
        yield row(f"./oncrpc show {given}, {status}", well, got)


def unread(folder):
    """A standard input that cannot be read is nothing to words that read none."""
    tree = tree_of(folder, "unread", 0)
    tree.write(VERSION, 'pub const VERSION: &str = "1";\n')
    for words in ("show --help", "help", "serve -h", "--version", "prove"):
        tree.write("given", f"exec ./oncrpc {words} <.\n")
        got = tree.run("sh given")
        told = {"--version": b"oncrpc 1\nnot proved\n", "prove": b""}
        wanted = told.get(words, output(b"unproved", words.split()[0].encode()))
        yield row(f"./oncrpc {words} <.", (got[0], got[1]) == (0, wanted), got)


def script_rows(folder):
    for rows in (helps, measuring, linked, version, signs_of_life, unreadable, unread):
        yield from rows(folder)
