"""Rows of what is in the way of ./install, of commands that fail under it, and of signals: a thing of somebody else is
never changed, and what is put is whole and noted."""
import os
import resource
import shutil
import signal
import subprocess

from install_use.checkout import MANIFEST, PROGRAM, Checkout
from install_use.checkout import found_below, is_installed, is_refused, notes_of, put_in_way, row
from refuse_use.standins import heed_signals
from timing import LIMIT, wait_until

NOT_OURS = " is there, and no ./install put it there"
# What is in the way at first, and what is said of it.
IN_WAY = [
    *((at, "a file", NOT_OURS) for at in (*sorted(PROGRAM), "share/man/man3/oncrpc_free.3", "lib/liboncrpc.so")),
    *(("lib/liboncrpc.so.0", f"a link to {it}", NOT_OURS) for it in ("a file", "a folder", "an end")),
    ("include/oncrpc.hpp", "a folder", NOT_OURS),
    *((at, "a file", " is there, and is no folder") for at in ("lib/pkgconfig", "share/oncrpc", "share")),
    ("share/oncrpc/examples", "a link to a file", " is there, and is no folder"),
    ("share/oncrpc", "a link to an end", " is there, and is no folder"),
    *((MANIFEST, kind, NOT_OURS) for kind in ("a file", "a folder", "a link to a file", "a link to an end")),
]


def in_way(folder):
    """Where something of somebody else has a place, nothing at all is put."""
    tree = Checkout(folder, "way")
    for number, (name, kind, told) in enumerate(IN_WAY):
        root = f"{tree.to}/{number}"
        put_in_way(f"{root}/{name}", kind, f"{tree.to}/other{number}")
        before = found_below(tree.to)
        got = tree.call("install", "--library", root)
        well = is_refused(got, 3, f"{root}/{name}{told}") and found_below(tree.to) == before
        yield row(f"{kind} at {name}", well, got, found_below(root))


# What a manifest notes, and the place that it does not.
NOTED = {
    "file bin/oncrpcs\nfile bin/oncrp": "bin/oncrpc",
    "file share/man/man1/oncrpcx1": "share/man/man1/oncrpc.1",
    "folder bin/oncrpc": "bin/oncrpc",
    "file share/oncrpc/bin/oncrpc": "bin/oncrpc",
    "file include/../bin": MANIFEST,
    "file ../x": MANIFEST,
    "file /etc/x": MANIFEST,
    "file lib/..": MANIFEST,
    "file library/x": MANIFEST,
    "above all": MANIFEST,
    "files bin/x": MANIFEST,
}


def noted_otherwise(folder):
    """What a manifest notes is that name alone; and a file with another line is none."""
    tree = Checkout(folder, "noted")
    for number, (notes, name) in enumerate(NOTED.items()):
        root = f"{tree.to}/{number}"
        put_in_way(f"{root}/{'bin/oncrpc' if name == MANIFEST else name}", "a file", f"{tree.to}/other")
        os.makedirs(f"{root}/share/oncrpc")
        with open(f"{root}/{MANIFEST}", "w", encoding="utf-8") as it:
            it.write(f"{notes}\n")
        before = found_below(root)
        got = tree.call("install", root)
        well = is_refused(got, 3, f"{root}/{name}{NOT_OURS}") and found_below(root) == before
        yield row(f"a manifest with {notes.split()}", well, got)


def became(folder):
    """Where something else has the place of what was installed: a folder is refused, and a link is not gone through."""
    tree = Checkout(folder, "became")
    root, other = f"{tree.to}/x", f"{tree.to}/other"
    tree.call("install", "--library", root)
    for name in ("bin/oncrpc", "lib/liboncrpc.so"):
        for kind in ("a link to a file", "a link to a folder", "a link to an end", "a file"):
            os.remove(f"{root}/{name}")
            put_in_way(f"{root}/{name}", kind, other)
            before, wanted = found_below(other), tree.installed(root, with_library=True)
            got = tree.call("install", "--library", root)
            well = got[0] == 0 and is_installed(root, wanted, notes_of(wanted, 1)) and found_below(other) == before
            yield row(f"{name} became {kind}", well, got, found_below(root))
        os.remove(f"{root}/{name}")
        os.mkdir(f"{root}/{name}")
        before = found_below(tree.to)
        got = tree.call("install", "--library", root)
        well = is_refused(got, 3, f"{root}/{name} is there, and is no file") and found_below(tree.to) == before
        yield row(f"{name} became a folder", well, got)
        os.rmdir(f"{root}/{name}")


def beside(folder):
    """Files, folders and links beside the places, of names that could be taken for a while, are left as they are."""
    tree = Checkout(folder, "beside")
    names = [f"{it}.new" for it in (*PROGRAM, "share/man/man3/oncrpc_free.3", "lib/liboncrpc.so", MANIFEST)]
    names += ["lib/.oncrpc-part.", "lib/.oncrpc-part.XXXXXXXX", "lib/pkgconfig/oncrpc.pc.new"]
    for number, name in enumerate(names):
        kind = ["a link to a file", "a file", "a folder", "a link to a folder", "a link to an end"][number % 5]
        put_in_way(f"{tree.to}/x/{name}", kind, f"{tree.to}/other{number}")
    before = found_below(tree.to)
    got, after = tree.call("install", "--library", f"{tree.to}/x"), found_below(tree.to)
    added = {it.removeprefix("x/") for it in set(after) - set(before)}
    well = got[0] == 0 and all(after[it] == what for it, what in before.items())
    wanted = {MANIFEST, *tree.installed("", with_library=True)} - {it.removeprefix("x/") for it in before}
    yield row("things beside the places", well and added == wanted, got, added ^ wanted)


def through_a_folder(folder):
    """A folder on the way may be a link to a folder: it is not noted, and stays."""
    tree = Checkout(folder, "through")
    os.makedirs(f"{tree.to}/real/share")
    os.mkdir(f"{tree.to}/x")
    os.symlink("../real/share", f"{tree.to}/x/share")
    before = found_below(tree.to)
    got = [tree.call("install", f"{tree.to}/x")[0], os.path.isfile(f"{tree.to}/real/{MANIFEST}")]
    got += [tree.call("uninstall", f"{tree.to}/x")[0], found_below(tree.to) == before]
    yield row("a folder on the way is a link", got == [0, True, 0, True], got)


# A command that does a half of its work and fails, for words that match.
FAILING = """#!/bin/sh
case "$*" in
{pattern}) {does} ;;
esac
PATH=${{PATH#*:}}
exec {command} "$@"
"""
# A command, its words, and what is not installed.
FAILURES = [
    ("mktemp", "*/man1/*", "share/man/man1/oncrpc.1"),
    ("cp", "*'/man/oncrpc.1 '*", "share/man/man1/oncrpc.1"),
    ("chmod", "*/man1/*", "share/man/man1/oncrpc.1"),
    ("mv", "*/bin/oncrpc", "bin/oncrpc"),
    ("chmod", "*/bin/*", "bin/oncrpc"),
    ("chmod", "*/pkgconfig/*", "lib/pkgconfig/oncrpc.pc"),
    ("sed", "*/oncrpc.pc", "lib/pkgconfig/oncrpc.pc"),
    ("ln", "*'liboncrpc.so.0 '*", "lib/liboncrpc.so"),
    ("mv", "*/oncrpc_free.3", "share/man/man3/oncrpc_free.3"),
]


def stand_in(tree, command, pattern, does):
    """A folder with a stand-in for a command."""
    at = f"failing/{command}{len(os.listdir(tree.to))}"
    tree.write(f"{at}/{command}", FAILING.format(command=command, pattern=pattern, does=does), 0o755)
    return f"{tree.at}/{at}"


def fails(folder):
    """Where a command fails, one line says what is not installed, no part stays, and what is there is noted."""
    tree = Checkout(folder, "fails")
    tree.call("install", "--library", f"{tree.to}/whole")
    whole = found_below(f"{tree.to}/whole")
    for number, (command, pattern, name) in enumerate(FAILURES):
        root = f"{tree.to}/{number}"
        does = 'for it; do :; done; echo half >"$it"; exit 1' if command == "cp" else "exit 1"
        commands, wanted = stand_in(tree, command, pattern, does), tree.installed(root, with_library=True)
        got = tree.call("install", "--library", root, commands=commands)
        found = found_below(root)
        noted = found.pop(MANIFEST, ("", ""))[1].splitlines()
        well = is_refused(got, 3, f"not installed: {root}/{name}") and f"file {name}" in noted and name not in found
        well = well and set(notes_of(found)) <= set(noted) and all(wanted.get(it) == found[it] for it in found)
        yield row(f"{command} fails for {name}", well, got, found)
        got = tree.call("uninstall", root)
        yield row("that is taken back", got[0] == 0 and not os.path.exists(root), got)
        got = tree.call("install", "--library", f"{tree.to}/whole", commands=commands)
        well = is_refused(got, 3, f"not installed: {tree.to}/whole/{name}") and found_below(f"{tree.to}/whole") == whole
        yield row(f"{command} fails for {name} that was there", well, got)


def no_folder(folder):
    """Where a folder cannot be made, one line says so."""
    tree = Checkout(folder, "folders")
    for name in ("x", "x/share/oncrpc", "x/share/zsh"):
        commands = stand_in(tree, "mkdir", f"*/{name}", "exit 1")
        got = tree.call("install", f"{tree.to}/x", commands=commands)
        yield row(f"no folder {name}", is_refused(got, 3, f"no folder {tree.to}/{name}"), got)
        tree.call("uninstall", f"{tree.to}/x")


def none_above(size):
    """What has no file grow above a size: a write then fails, since Python has the signal of it ignored."""
    return {"preexec_fn": lambda: resource.setrlimit(resource.RLIMIT_FSIZE, (size, size)), "restore_signals": False}


def not_written(folder):
    """Where the manifest cannot be written, nothing is put that it does not note."""
    tree = Checkout(folder, "full")
    tree.call("install", f"{tree.to}/first")
    shutil.rmtree(f"{tree.to}/first/share/zsh")
    got = tree.call("install", f"{tree.to}/first", **none_above(os.path.getsize(f"{tree.to}/first/{MANIFEST}")))
    well = got[0] == 3 and got[2].endswith(f"oncrpc: not written: {tree.to}/first/{MANIFEST}\n")
    yield row("a folder that is not noted", well and not os.listdir(f"{tree.to}/first/share/zsh/site-functions"), got)
    for number, there in enumerate(([], [""], ["share/oncrpc", "bin"])):
        root = f"{tree.to}/{number}"
        for it in there:
            os.makedirs(f"{root}/{it}")
        got = tree.call("install", root, **none_above(0))
        last, found = got[2].splitlines()[-1:], found_below(root)
        well = got[0] == 3 and last == [f"oncrpc: not written: {root}/{MANIFEST}"]
        well = well and "bin/oncrpc" not in found and found.get(MANIFEST, ("", ""))[1] == ""
        yield row(f"a manifest that is not written, {there}", well, got, found)


def stopped(folder):
    """A signal amid it ends it with one line and leaves no part. One that is killed leaves a part, which is in nobody's
    way: a later ./install puts all, and ./uninstall takes that part too."""
    tree = Checkout(folder, "stopped")
    for number in (signal.SIGINT, signal.SIGTERM, signal.SIGHUP, signal.SIGKILL):
        root, begun = f"{tree.to}/{number}", f"{tree.at}/begun{number}"
        does = f"for it; do :; done; echo half >\"$it\"; echo >'{begun}'; exec sleep {LIMIT}"
        commands = stand_in(tree, "cp", "*'/man/oncrpc.3 '*", does)
        env = {**os.environ, "PATH": f"{commands}:{os.environ['PATH']}", "DESTDIR": ""}
        how = {"stderr": subprocess.PIPE, "start_new_session": True, "preexec_fn": heed_signals, "text": True}
        with subprocess.Popen([f"{tree.at}/install", root], env=env, **how) as ran:
            wait_until(lambda: os.path.exists(begun))
            os.killpg(ran.pid, number)
            said = ran.communicate(timeout=LIMIT)[1]
        parts = [it for it in found_below(root) if "part" in it]
        wanted = (-9, "", 1) if number == signal.SIGKILL else (3, "oncrpc: stopped by a signal\n", 0)
        well = (ran.returncode, len(parts)) == wanted[::2] and said.endswith(wanted[1])
        well = well and os.path.isfile(f"{root}/bin/oncrpc") and not os.path.exists(f"{root}/share/zsh")
        yield row(f"signal {number}", well, ran.returncode, said, found_below(root))
        wanted = {**tree.installed(), **{it: (0o600, "half\n") for it in parts}}
        notes = notes_of(wanted, 1, parts)
        got = tree.call("install", root)
        yield row("installed then", got[0] == 0 and is_installed(root, wanted, notes), got, found_below(root))
        got = tree.call("uninstall", root)
        yield row("taken back then", got[0] == 0 and not os.path.exists(root), got, found_below(root))


ROWS = [in_way, noted_otherwise, became, beside, through_a_folder, fails, no_folder, not_written, stopped]
