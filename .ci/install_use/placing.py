"""Rows of what ./install puts, where, with what mode, and what it notes; and that ./uninstall takes all of it back."""
import os
import stat
import subprocess

from install_use.checkout import ARCHIVE, LIBRARY, MANIFEST, Checkout
from install_use.checkout import found_below, is_installed, is_refused, notes_of, row

# Where to: a name, the words of ./install, DESTDIR, the folder below `to` that these mean, the folder that the script
# is called in, and the PREFIX that pkg-config is told.
PLACES = [
    ("DESTDIR", ["{to}/own"], "{to}/stage", "stage{to}/own", "", "{to}/own"),
    ("blanks", ["{to}/a b/[c]*"], None, "a b/[c]*", "", "{to}/a b/[c]*"),
    ("a relative PREFIX", ["x y/z"], None, "here/x y/z", "here", "{to}/here/x y/z"),
    ("a slash behind it", ["{to}/x/y/"], None, "x/y", "", "{to}/x/y"),
    ("no PREFIX", [], "{to}/stage", "stage/usr/local", "", "/usr/local"),
    ("a relative DESTDIR with blanks", ["/opt/x"], "a stage", "here/a stage/opt/x", "here", "/opt/x"),
    ("the top", ["/"], "{to}/stage", "stage", "", ""),
]
TAKES_BACK = "; ./uninstall takes it back"


def placed(folder):
    """Each is put to its place with its mode under any umask, again too, is noted once, and is taken back whole. What
    is not well ends it: where DESTDIR goes unheard, the rows behind it would write to folders of this machine."""
    tree = Checkout(folder, "placed")
    os.mkdir(f"{tree.to}/here")
    os.symlink(f"{tree.at}/library", f"{tree.to}/here/a=library")
    libraries = ["--library", f"--library={tree.at}/library", "--library=a=library"]
    for number, (name, words, destdir, below, cwd, prefix) in enumerate(PLACES):
        how = {"cwd": f"{tree.to}/{cwd}", "umask": (0o077, 0o000)[number % 2]}
        how.update({"destdir": destdir.format(to=tree.to)} if destdir else {})
        words, library = [it.format(to=tree.to) for it in words], libraries[2 if cwd else number % 2]
        place = f"{tree.to}/{below.format(to=tree.to)}", prefix.format(to=tree.to)
        for told, is_well in there_and_back(tree, place, words, library, how):
            yield f"{name}: {told}", is_well
            if not is_well:
                return


def there_and_back(tree, place, words, library, how):
    """Installs twice into one folder, takes it back, and once more."""
    root, prefix = place
    said, before = named(how, words), found_below(tree.to)
    wanted = tree.installed(prefix, with_library=True)
    notes = notes_of(wanted, missing(root))
    for given in ([*words, library], [library, *words]):
        got = tree.call("install", *given, **how)
        well = is_installed(root, wanted, notes) and got == (0, "", f"oncrpc: installed in {said}{TAKES_BACK}\n")
        yield row(f"install {given}", well, got, found_below(root))
    got = tree.call("uninstall", *words, **how)
    well = got == (0, "", f"oncrpc: taken back from {said}\n") and found_below(tree.to) == before
    yield row(f"uninstall {words}", well, got, found_below(tree.to))
    got = tree.call("uninstall", *words, **how)
    well = is_refused(got, 3, f"nothing to take back: {said}/{MANIFEST} is not there")
    yield row(f"uninstall {words} again", well and found_below(tree.to) == before, got)


def missing(path):
    """How many folders of a path are to be made."""
    return 0 if os.path.isdir(path) else 1 + missing(os.path.dirname(path))


def named(how, words):
    """How the scripts name the folder that these words and DESTDIR mean."""
    prefix = (words or ["/usr/local"])[0].rstrip("/")
    return how.get("destdir", "") + (prefix if prefix[:1] in ("/", "") else f"{os.path.realpath(how['cwd'])}/{prefix}")


def without_library(folder):
    """Without --library none is looked for, and none is put; folders that were there are not noted, and stay."""
    tree = Checkout(folder, "alone")
    os.rename(f"{tree.at}/library", f"{tree.at}/elsewhere")
    there = ["bin", "share", "share/man", "share/oncrpc"]
    for it in there:
        os.mkdir(f"{tree.to}/{it}")
    got, wanted = tree.call("install", tree.to), tree.installed()
    well = got[0] == 0 and is_installed(tree.to, wanted, notes_of(wanted, 0, there))
    yield row("without --library, into folders that were there", well, got, found_below(tree.to))
    got = tree.call("uninstall", tree.to)
    yield row("they stay", got[0] == 0 and sorted(found_below(tree.to)) == there, got, found_below(tree.to))


def anew(folder):
    """A newer version takes the places of the older, and what has one of its files open reads that to its end."""
    tree = Checkout(folder, "anew")
    tree.call("install", "--library", tree.to)
    names = f"{tree.to}/bin/oncrpc", f"{tree.to}/lib/liboncrpc.so.0"
    with open(names[0], encoding="utf-8") as program, open(names[1], encoding="utf-8") as library:
        for file, mode in (("crates/oncrpc/out/oncrpc", 0o700), ("library/liboncrpc.so.0", 0o600)):
            tree.write(file, "newer, and longer than it was\n", mode)
        os.remove(f"{tree.to}/lib/liboncrpc.so")
        os.symlink("liboncrpc.so.older", f"{tree.to}/lib/liboncrpc.so")
        got, wanted = tree.call("install", "--library", tree.to), tree.installed(tree.to, with_library=True)
        well = got[0] == 0 and is_installed(tree.to, wanted, notes_of(wanted))
        yield row("a newer version", well, got, found_below(tree.to))
        read = program.read(), library.read()
    told = "the program\n", "the file library/liboncrpc.so.0\n"
    yield row("what is open stays whole", read == told, read)


def age(tree, name, years):
    os.utime(f"{tree.at}/{name}", (1e9 + years * 1e6, 1e9 + years * 1e6))


NOT_PROVED = "the program is not proved and built yet: first ./oncrpc prove, then ./install"
NO_LIBRARY = "the library is not proved and built yet: first ./build-library, then ./install"
OLDER = "the library is older than the sources of the crates: first ./build-library, then ./install"


def built_before(folder):
    """Nothing is put where the program or the library is not there, or older than the sources."""
    tree = Checkout(folder, "built")
    files = [file for file, _ in LIBRARY.values() if file.startswith("library/")]
    for missing in [*files, "library/oncrpc.pc"]:
        os.rename(f"{tree.at}/{missing}", f"{tree.at}/kept")
        got = tree.call("install", "--library", f"{tree.to}/x")
        yield row(f"without {missing}", is_refused(got, 3, NO_LIBRARY) and not os.listdir(tree.to), got)
        os.rename(f"{tree.at}/kept", f"{tree.at}/{missing}")
    age(tree, "crates/oncrpc/out/oncrpc", 3)
    for newer in ("crates/low/src/lib.rt", "crates/low/specs/Low.antt", "crates/c_library/src/lib.rt"):
        age(tree, newer, 1)
        got = tree.call("install", "--library", f"{tree.to}/x")
        yield row(f"{newer} is newer", is_refused(got, 3, OLDER) and not os.listdir(tree.to), got)
        age(tree, newer, -1)
    age(tree, ARCHIVE, 3)
    got = tree.call("install", "--library", f"{tree.to}/x")
    yield row("a library of another archive", is_refused(got, 3, OLDER) and not os.listdir(tree.to), got)
    age(tree, "library/liboncrpc.a", 4)
    for it in ("crates/low/src", "crates/low/specs", "crates/oncrpc/out", "crates.txt"):
        age(tree, it, 1)
    got = tree.call("install", "--library", f"{tree.to}/x")
    yield row("folders are newer, and other files", got[0] == 0 and got[1] == "", got)
    tree.call("uninstall", f"{tree.to}/x")
    tree.write("crates/c_values/src/lib.rt", "fn other() {}\n")
    age(tree, "crates/c_values/src/lib.rt", -9)
    got = tree.call("install", "--library", f"{tree.to}/x")
    yield row("another source of an older time", is_refused(got, 3, OLDER) and not os.listdir(tree.to), got)
    tree.write("crates/low/src/lib.rt", "fn other() {}\n")
    got = tree.call("install", f"{tree.to}/x")
    yield row("a source has changed", is_refused(got, 3, NOT_PROVED) and not os.listdir(tree.to), got)
    tree = Checkout(folder, "unbuilt")
    os.remove(tree.made)
    got = tree.call("install", f"{tree.to}/x")
    yield row("there is no program", is_refused(got, 3, NOT_PROVED) and not os.listdir(tree.to), got)


USAGES = {
    "install": "usage: [DESTDIR=FOLDER] ./install [--library[=FOLDER]] [PREFIX]",
    "uninstall": "usage: [DESTDIR=FOLDER] ./uninstall [PREFIX]",
}


def refused(folder):
    """Words that are refused, and nothing is put or taken back."""
    tree = Checkout(folder, "words")
    to = f"{tree.to}/x"
    tree.call("install", to, destdir=tree.to)
    before = found_below(tree.to)
    for words in (["--what"], ["-l"], [""], [to, to], ["--library=", to], [to, ""], ["--", to], ["-"]):
        for script, usage in USAGES.items():
            got = tree.call(script, *words, destdir=tree.to)
            yield row(f"{script} {words}", is_refused(got, 2, usage) and found_below(tree.to) == before, got)
    got = tree.call("uninstall", "--library", destdir=tree.to)
    well = is_refused(got, 2, USAGES["uninstall"]) and found_below(tree.to) == before
    yield row("uninstall --library", well, got)


def by_a_link(folder):
    """The script is called by a relative path, from another folder; what it is run by may have its own PREFIX set."""
    tree = Checkout(folder, "relative")
    words = [f"../{os.path.basename(tree.at)}/install", f"{tree.to}/x"]
    env = {**{key: it for key, it in os.environ.items() if key != "DESTDIR"}, "prefix": "/p", "library": "/l"}
    env.update({"folders": "folder lib\n", "above": "7", "part": f"{tree.at}/install", "CDPATH": "/usr"})
    ran = subprocess.run(words, cwd=tree.to, env=env, capture_output=True, check=False)
    wanted = tree.installed()
    well = ran.returncode == 0 and is_installed(f"{tree.to}/x", wanted, notes_of(wanted, 1))
    mode = stat.S_IMODE(os.stat(f"{tree.to}/x").st_mode)
    yield row("by a relative path, with variables of its names", well and mode == 0o755, ran, mode)


ROWS = [placed, without_library, anew, built_before, refused, by_a_link]
