"""Rows of ./uninstall: it takes back what its own manifest names, and leaves what is of somebody else."""
import os
import shutil

from install_use.checkout import MANIFEST, Checkout, found_below, is_refused, put_in_way, row
from install_use.hindering import NOT_OURS, stand_in


def left(folder):
    """A file of somebody else stays with the folders that it lies in; all else goes, and the prefix beside it stays."""
    tree = Checkout(folder, "left")
    tree.call("install", "--library", f"{tree.to}/beside")
    beside = found_below(f"{tree.to}/beside")
    for name in ("bin/own", "share/man/man3/own.3", "share/oncrpc/own", ".own"):
        root = f"{tree.to}/a/b"
        tree.call("install", "--library", root)
        put_in_way(f"{root}/{name}", "a file", f"{tree.to}/other")
        got, found = tree.call("uninstall", root), found_below(root)
        wanted = {name[:at] for at, letter in enumerate(name) if letter == "/"} | {name}
        well = got == (0, "", f"oncrpc: taken back from {root}\n") and set(found) == wanted
        yield row(f"{name} stays", well and found_below(f"{tree.to}/beside") == beside, got, found)
        os.remove(f"{root}/{name}")
        shutil.rmtree(f"{tree.to}/a")


def above(folder):
    """Of the folders above, as many go as were made, and none with something in it."""
    tree = Checkout(folder, "above")
    for there, made, own, stays in (
        ("a/b", "c/d", None, "a/b"),
        ("a", "b/c/d", "b/own", "a/b"),
        ("a/b", "", None, "a/b"),
        ("a", "b", None, "a"),
    ):
        os.makedirs(f"{tree.to}/{there}")
        root = os.path.normpath(f"{tree.to}/{there}/{made}")
        got = [tree.call("install", root)[0]]
        if own:
            put_in_way(f"{tree.to}/{there}/{own}", "a file", f"{tree.to}/other")
        got += [tree.call("uninstall", root)[0]]
        at = f"{tree.to}/{stays}"
        well = got == [0, 0] and os.path.isdir(at) and os.listdir(at) == ([os.path.basename(own)] if own else [])
        yield row(f"{there} was there, {made or 'nothing'} was made", well, got, found_below(tree.to))
        shutil.rmtree(f"{tree.to}/a")


def became(folder):
    """A link at a place is taken, and not what it leads to; what is gone is no fault; a folder there ends it."""
    tree = Checkout(folder, "taken")
    root, other = f"{tree.to}/x", f"{tree.to}/other"
    for kind in ("a link to a file", "a link to a folder", "a link to an end", "nothing"):
        tree.call("install", root)
        os.remove(f"{root}/bin/oncrpc")
        if kind != "nothing":
            put_in_way(f"{root}/bin/oncrpc", kind, other)
        before = found_below(other)
        got = tree.call("uninstall", root)
        well = got[0] == 0 and not os.path.exists(root) and found_below(other) == before
        yield row(f"a program that became {kind}", well, got, found_below(root))
    tree.call("install", root)
    os.rename(f"{root}/share/zsh/site-functions", f"{other}/site-functions")
    os.symlink(f"{other}/site-functions", f"{root}/share/zsh/site-functions")
    got = tree.call("uninstall", root)
    well = got[0] == 0 and os.path.isdir(f"{other}/site-functions") and os.listdir(f"{root}/share/zsh")
    yield row("a folder that became a link", well, got, found_below(root))
    tree.call("install", f"{root}2")
    os.remove(f"{root}2/bin/oncrpc")
    os.mkdir(f"{root}2/bin/oncrpc")
    got = tree.call("uninstall", f"{root}2")
    well = got[0] == 3 and got[2].endswith(f"oncrpc: not removed: {root}2/bin/oncrpc\n")
    yield row("a program that became a folder", well and os.path.isfile(f"{root}2/{MANIFEST}"), got)


def other_manifests(folder):
    """A manifest that no ./install wrote ends it, and nothing is taken."""
    tree = Checkout(folder, "other")
    root, own = f"{tree.to}/x", f"{tree.to}/own"
    tree.call("install", root)
    put_in_way(f"{own}/a", "a link to a file", own)
    text = found_below(root)[MANIFEST][1]
    for line in ("file ../own/file", "file bin/../../own/file", "folder /", "a file", "above -1"):
        with open(f"{root}/{MANIFEST}", "w", encoding="utf-8") as it:
            it.write(f"{text}{line}\n")
        before = found_below(tree.to)
        got = tree.call("uninstall", root)
        well = is_refused(got, 3, f"{root}/{MANIFEST}{NOT_OURS}") and found_below(tree.to) == before
        yield row(f"a manifest with <{line}>", well, got)
    with open(f"{own}/manifest", "w", encoding="utf-8") as it:
        it.write(text)
    os.remove(f"{root}/{MANIFEST}")
    os.symlink(f"{own}/manifest", f"{root}/{MANIFEST}")
    before = found_below(tree.to)
    got = tree.call("uninstall", root)
    well = is_refused(got, 3, f"{root}/{MANIFEST}{NOT_OURS}") and found_below(tree.to) == before
    yield row("a manifest that is a link", well, got)


# A command that fails, its words, what is said, and whether what is installed stays whole.
FAILURES = [
    ("rm", "*/bin/oncrpc", "not removed: {root}/bin/oncrpc", True),
    ("rm", f"*/{MANIFEST}", "not removed: {root}/" + MANIFEST, False),
    ("cat", f"*/{MANIFEST}", "not read: {root}/" + MANIFEST, True),
]


def fails(folder):
    """Where a command fails, one line says so, and the manifest stays for another time."""
    tree = Checkout(folder, "kept")
    root = f"{tree.to}/x"
    for command, pattern, told, is_whole in FAILURES:
        tree.call("install", root)
        before, commands = found_below(root), stand_in(tree, command, pattern, "exit 1")
        got, found = tree.call("uninstall", root, commands=commands), found_below(root)
        well = is_refused(got, 3, told.format(root=root)) and found.get(MANIFEST) == before[MANIFEST]
        yield row(f"{command} fails for {told}", well and (found == before) == is_whole, got, found)
        got = tree.call("uninstall", root)
        yield row("then all is taken back", got[0] == 0 and not os.path.exists(root), got)


def parts(folder):
    """What was left by an ./install that was killed goes; other files that begin so stay."""
    tree = Checkout(folder, "parts")
    tree.call("install", tree.to)
    names = ["bin/.oncrpc-part.aB3dE6gH", "share/man/man3/.oncrpc-part.00000000", "share/oncrpc/.oncrpc-part.12345678"]
    others = [f"bin/.oncrpc-part.{it}" for it in ("short", "123456789")]
    others += ["bin/oncrpc-part.12345678", ".oncrpc-part.12345678"]
    for it in [*names, *others]:
        put_in_way(f"{tree.to}/{it}", "a file", f"{folder}/other")
    got, found = tree.call("uninstall", tree.to), found_below(tree.to)
    well = got[0] == 0 and set(found) >= {*others} and not {*names} & set(found)
    yield row("parts that were left", well, got, found)


ROWS = [left, above, became, other_manifests, fails, parts]
