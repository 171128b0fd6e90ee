"""Rows of ./build-library over stand-ins for the toolchain and for what links: what it puts into its folder, and what
is not there where one of them fails."""
import os
import re

from refuse_use.launcher import row
from refuse_use.standins import RT, Tree

# A cc, an ar and an objcopy that note their words. Each writes a file of what it was given: cc the one behind -o, ar
# its second word, objcopy its last. One fails where bin/broken has its name and a word that it is given.
TOOL = """#!/bin/sh
stand=${0%/*} name=${0##*/}
echo "$name $*" >>"$stand/tools"
while read -r broken word; do
    case "$broken $*" in "$name "*"$word"*) exit 1 ;; esac
done <"$stand/broken"
case $name in
cc)
    while [ $# -gt 0 ]; do
        case $1 in
        -o) to=$2; shift ;;
        *.a | *.o) all="$all$(cat "$1")
" ;;
        esac
        shift
    done
    printf '%sby cc\\n' "$all" >"$to"
    ;;
ar) all=$(cat "$3"); { cat "$2" 2>/dev/null; echo "$all"; } >"$2.new" && mv "$2.new" "$2" ;;
objcopy) for last; do :; done; echo "by objcopy" >>"$last" ;;
esac
"""
# Where the stand-in rt has a source change, and where it has here.
EDIT, EDIT_LIBRARY = '[ "$1" != run ] || echo "fn new', '[ "$name" != "$STAND_EDIT" ] || echo "fn new'
HEAP = "the heap\n"
LEFT = ["include", "liboncrpc.a", "liboncrpc.so", "liboncrpc.so.0", "oncrpc.pc"]
PC = """prefix=%s
libdir=${prefix}
includedir=${prefix}/include

Name: oncrpc
Description: proved XDR, messages, record marking and the registry of ONC RPC
Version: 0.1.0
Cflags: -I"${includedir}"
Libs: -L"${libdir}" -loncrpc
"""
LINKED = """\
cc -r -nostdlib -Wl,--build-id=none -Wl,--whole-archive {made} {heap} -Wl,--no-whole-archive -o {to}/oncrpc.o
objcopy --wildcard --keep-global-symbol=oncrpc_* {to}/oncrpc.o
ar rcs {to}/liboncrpc.a {to}/oncrpc.o
cc -shared -Wl,-soname,liboncrpc.so.0 {to}/oncrpc.o -o {to}/liboncrpc.so.0
"""
# What fails, by its name and a word, and what is said of it.
BROKEN = {
    "cc -r": b"not linked",
    "objcopy --wildcard": b"not archived",
    "ar rcs": b"not archived",
    "cc -shared": b"not linked",
}
# What is not right with FOLDER or the checkout before anything is proved.
UNFIT = {
    "a file in place of the folder": ": >made",
    "a file in place of the folder include": "mkdir made && : >made/include",
    "a file in place of the folder out": ": >crates/c_library/out",
}


class Linking(Tree):
    """A checkout with headers, the toolchain's C library, and stand-ins for what links."""

    def __init__(self, folder, name, **variables):
        super().__init__(folder, name, **variables)
        self.write("kit/bin/rt", RT.replace(EDIT, EDIT_LIBRARY), 0o755)
        # (of the toolchain's files the script alone names one)
        self.heap = "kit/" + re.search(r"heap=\$\{rt%/\*/\*\}/(\S+)", self.read("build-library"))[1]
        self.write(self.heap, HEAP)
        os.remove(f"{self.bin}/rt")
        os.symlink("../kit/bin/rt", f"{self.bin}/rt")
        for it in ("cc", "ar", "objcopy"):
            self.write(f"bin/{it}", TOOL, 0o755)
        for it in ("oncrpc.h", "oncrpc.hpp"):
            self.write(f"include/{it}", f"the text of {it}\n")
        self.write("bin/proved", "the library\n")
        self.write("bin/broken", "")
        self.archive = "crates/c_library/out/libc_library.a"

    def build(self, words="./build-library made", **variables):
        self.write("bin/tools", "")
        return self.run(words, **variables)

    def is_whole(self, at, library="the library\n"):
        """Whether a folder has what is built of this archive, and nothing else."""
        there = f"{self.at}/{at}"
        if not os.path.isdir(there) or sorted(os.listdir(there)) != LEFT:
            return False
        headers = [self.read(f"{at}/include/{it}") for it in sorted(os.listdir(f"{there}/include"))]
        one = f"{library}{HEAP}by cc\nby objcopy\n"
        well = headers == [self.read(f"include/{it}") for it in ("oncrpc.h", "oncrpc.hpp")]
        well = well and self.read(f"{at}/liboncrpc.a") == one and self.read(f"{at}/liboncrpc.so") == f"{one}by cc\n"
        well = well and os.readlink(f"{there}/liboncrpc.so") == "liboncrpc.so.0"
        return well and self.read(f"{at}/oncrpc.pc") == PC % os.path.realpath(there)


def folders(folder):
    """The folder that is named, from where the caller is, or library beside the script; it is whole each time."""
    tree = Linking(folder, "linking it", RT_JOBS="4")
    os.makedirs(f"{tree.at}/other/made")
    os.makedirs(f"{tree.at}/other/linking it")
    tree.write("asked", "cd .. && exec 'linking it/build-library' 'linking it/b/two  words'\n")
    at = os.path.realpath(tree.at)
    for words, named, calls in (
        ("./build-library made", "made", 4),
        ("./build-library made", "made", 0),
        ("./build-library", "library", 0),
        ("sh asked", "b/two  words", 0),
    ):
        got = tree.build(words, CDPATH=f"{tree.at}/other")
        to = f"{at}/{named}"
        linked = LINKED.format(made=f"{at}/{tree.archive}", heap=f"{at}/{tree.heap}", to=to)
        well = (got[0], got[1], len(got[3])) == (0, b"", calls) and got[2].endswith(f"oncrpc: {to}\n".encode())
        well = well and (calls or got[2].count(b"\n") == 1)
        well = well and tree.is_whole(named) and tree.read("bin/tools") == linked
        well = well and os.path.exists(f"{tree.at}/{tree.archive}.sources")
        yield row(f"./build-library, into {named}, {calls} calls", well, got, tree.read("bin/tools"))
    left = sorted(os.listdir(os.path.dirname(f"{tree.at}/{tree.archive}")))
    yield row("what ./build-library leaves", left == ["build.log", "libc_library.a", "libc_library.a.sources"], left)
    left = os.listdir(f"{tree.at}/other/made") + os.listdir(f"{tree.at}/other/linking it")
    yield row("./build-library, a folder of CDPATH", not left, left)


def broken(folder):
    """Where a command fails that links, one line says so, and neither a part nor an earlier library is there."""
    tree = Linking(folder, "broken", RT_JOBS="4")
    tree.build()
    for what, told in BROKEN.items():
        for name in ("made", "fresh"):
            tree.write("bin/broken", what + "\n")
            got = tree.build(f"./build-library {name}")
            left = [it for it in os.listdir(f"{tree.at}/{name}") if it.endswith((".o", ".so", ".so.0", ".a"))]
            well = got == (3, b"", b"oncrpc: %s\n" % told, []) and not left
            yield row(f"./build-library {name}, where {what} fails", well, got, left)
        tree.write("bin/broken", "")
        got = tree.build()
        yield row("./build-library after that", got[0] == 0 and tree.is_whole("made"), got)
    tree.write("asked", "mkdir -p less/oncrpc.pc && exec ./build-library less\n")
    got = tree.build("sh asked")
    yield row("./build-library, a folder in place of oncrpc.pc", got[0] == 3 and b"oncrpc: /" not in got[2], got)
    os.remove(f"{tree.at}/include/oncrpc.hpp")
    got = tree.build("./build-library fewer")
    well = got[0] == 3 and not os.path.exists(f"{tree.at}/fewer/liboncrpc.a") and b"oncrpc.hpp" in got[2]
    yield row("./build-library, a header is not there", well, got)


def unfit(folder):
    """A folder that cannot be made is told before anything is proved."""
    for at, (what, commands) in enumerate(UNFIT.items()):
        tree = Linking(folder, f"unfit{at}")
        tree.write("asked", f"{commands}\nexec ./build-library made\n")
        got = tree.build("sh asked")
        well = (got[0], got[3], got[2].count(b"\n")) == (3, [], 1) and b"mkdir: " in got[2]
        yield row(f"./build-library, {what}", well, got)


def unproved(folder):
    """Nothing is linked of an archive that is not of these sources, or whose sources change while it is proved."""
    tree = Linking(folder, "unproved_library", RT_JOBS="4")
    tree.write(tree.archive, "an old library\n")
    tree.write(f"{tree.archive}.sources", "0\n")
    for how in ("1", "2"):
        tree.write("bin/fails", f"c_library {how}\n")
        got = tree.build(RT_JOBS="1")
        left = os.listdir(f"{tree.at}/made")
        well = got[0] == 3 and b"\noncrpc: not built; " in got[2] and left == ["include"]
        well = well and not tree.read("bin/tools")
        yield row(f"./build-library, {how} is the proof's status", well, got, left)
    got = tree.build(STAND_EDIT="c_library")
    there = os.path.exists(f"{tree.at}/{tree.archive}")
    well = got[0] == 3 and got[2].endswith(b"\noncrpc: not built: the sources changed meanwhile\n") and not there
    yield row("./build-library, a source changes", well and not tree.read("bin/tools"), got, there)
    tree.write("bin/proved", "a new library\n")
    got = tree.build()
    well = got[0] == 0 and tree.is_whole("made", "a new library\n") and len(got[3]) > 0
    yield row("./build-library after that", well, got)
    got = tree.build()
    well = got[0] == 0 and not got[3] and re.fullmatch(rb"oncrpc: \S+/made\n", got[2])
    yield row("./build-library, once more", bool(well), got)
    tree.write("crates/c_values/specs/it.antt", "more\n")
    got = tree.build()
    yield row("./build-library, one specification more", got[0] == 0 and len(got[3]) > 0, got)


def library_rows(folder):
    for rows in (folders, broken, unfit, unproved):
        yield from rows(folder)
