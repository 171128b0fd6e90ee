"""A made-up checkout where all is built, so that ./install and ./uninstall run on it without a toolchain; and what
they are to put, and where."""
import os
import re
import stat
import subprocess

from refuse_use.standins import Tree, heed_signals
from telling import line_of
from timing import LIMIT

# The functions, each with a page of its own, and other lines of the header.
HEADER = """/* oncrpc_told(in a comment */
typedef struct oncrpc_outcome oncrpc_outcome;
uint32_t oncrpc_check(
    oncrpc_outcome *oncrpc_parameter(void));
void oncrpc_free(oncrpc_outcome *outcome);
static inline const char *oncrpc_status_text(uint32_t status) {
    return oncrpc_called(status);
}
"""
PAGES = ["oncrpc_check", "oncrpc_free", "oncrpc_status_text"]
PKG_CONFIG = "prefix=/library\nlibdir=${prefix}\nincludedir=${prefix}/include\n\nName: oncrpc\nLibs: -L\"${libdir}\"\n"
FOLDERS = "prefix=%s\nlibdir=${prefix}/lib\nincludedir=${prefix}/include\n\nName: oncrpc\nLibs: -L\"${libdir}\"\n"
# The declarations that are installed.
DECLARED = ("bootparam", "mount", "nfs", "nlm", "nsm", "rpcbind", "yp", "ypbind")
# What is installed: below PREFIX, in the checkout, and with what mode.
PROGRAM = {
    "bin/oncrpc": ("crates/oncrpc/out/oncrpc", 0o755),
    "share/man/man1/oncrpc.1": ("man/oncrpc.1", 0o644),
    "share/man/man3/oncrpc.3": ("man/oncrpc.3", 0o644),
    "share/bash-completion/completions/oncrpc": ("completions/oncrpc.bash", 0o644),
    "share/zsh/site-functions/_oncrpc": ("completions/_oncrpc", 0o644),
    "share/fish/vendor_completions.d/oncrpc.fish": ("completions/oncrpc.fish", 0o644),
    **{f"share/oncrpc/examples/{it}": (f"examples/{it}", 0o644) for it in ("file.x", "file.hex", "ping.x")},
    **{f"share/oncrpc/{it}.x": (f"share/oncrpc/{it}.x", 0o644) for it in DECLARED},
    "share/oncrpc/systemd/oncrpc-registry.service": ("share/oncrpc-registry.service", 0o644),
    **{f"share/doc/oncrpc/{it}.md": (f"docs/{it}.md", 0o644) for it in ("LANGUAGE", "FORMATS", "LIBRARY")},
}
LIBRARY = {
    "include/oncrpc.h": ("library/include/oncrpc.h", 0o644),
    "include/oncrpc.hpp": ("library/include/oncrpc.hpp", 0o644),
    "share/oncrpc/python/oncrpc.py": ("bindings/python/oncrpc.py", 0o644),
    "lib/liboncrpc.a": ("library/liboncrpc.a", 0o644),
    "lib/liboncrpc.so.0": ("library/liboncrpc.so.0", 0o755),
}
MANIFEST = "share/oncrpc/manifest"


def found_below(folder):
    """What is below a folder, by its path there: the mode of a folder, a file's mode and text, what a link leads to."""
    found = {}
    for path, folders, files in os.walk(folder):
        for at in (os.path.join(path, name) for name in [*folders, *files]):
            name, mode = os.path.relpath(at, folder), stat.S_IMODE(os.lstat(at).st_mode)
            if os.path.islink(at):
                found[name] = os.readlink(at)
            elif os.path.isdir(at):
                found[name] = mode
            else:
                with open(at, encoding="utf-8") as it:
                    found[name] = mode, it.read()
    return found


def folders_of(names):
    """The folders that things of these names lie in."""
    found = set()
    for name in names:
        while name := os.path.dirname(name):
            found.add(name)
    return found


# What ./build-library makes the library of.
ARCHIVE = "crates/c_library/out/libc_library.a"


class Checkout(Tree):
    """A checkout whose name has blanks, with a program and a library that are newer than its sources, and beside it the
    empty folder `to`, which is installed into. Its files have other modes than what is installed has."""

    def __init__(self, folder, name):
        super().__init__(folder, f"{name} check out")
        self.to = f"{folder}/{name} to"
        os.mkdir(self.to)
        for file, _ in [*PROGRAM.values(), *LIBRARY.values()]:
            self.write(file, f"the file {file}\n", 0o600)
        self.write("include/oncrpc.h", HEADER)
        self.write("library/oncrpc.pc", PKG_CONFIG, 0o600)
        self.write("crates/low/specs/Low.antt", "low\n")
        self.write("crates/oncrpc/out/oncrpc", "the program\n", 0o700)
        self.write(ARCHIVE, "the archive\n")
        for at, _, files in os.walk(self.at):
            age = 1000 if "/out" in at or "/library" in at else 2000
            for it in files:
                os.utime(f"{at}/{it}", (1e9 - age, 1e9 - age))

    def call(self, script, *words, cwd=None, commands=None, **how):
        """The status and both streams of a script; `commands` is a folder of commands that stand before the others."""
        env = {key: it for key, it in os.environ.items() if key != "DESTDIR"}
        env["PATH"] = f"{commands}:{env['PATH']}" if commands else env["PATH"]
        env.update({"DESTDIR": how.pop("destdir")} if "destdir" in how else {})
        how = {"preexec_fn": heed_signals, "capture_output": True, "text": True, "timeout": LIMIT, "check": False, **how}
        ran = subprocess.run([f"{self.at}/{script}", *words], cwd=cwd or self.to, env=env, **how)
        return ran.returncode, ran.stdout, ran.stderr

    def installed(self, prefix="", with_library=False):
        """What is to be below PREFIX, but for the manifest."""
        wanted = {}
        for name, (file, mode) in {**PROGRAM, **(LIBRARY if with_library else {})}.items():
            wanted[name] = mode, self.read(file)
        for it in PAGES:
            wanted[f"share/man/man3/{it}.3"] = 0o644, ".so man3/oncrpc.3\n"
        if with_library:
            wanted["lib/liboncrpc.so"] = "liboncrpc.so.0"
            wanted["lib/pkgconfig/oncrpc.pc"] = 0o644, FOLDERS % prefix
        return {**wanted, **dict.fromkeys(folders_of([*wanted, MANIFEST]), 0o755)}


def notes_of(wanted, above=0, there=()):
    """The lines of a manifest, sorted: the files, the folders but for those that were there, and how many above."""
    lines = [f"folder {it}" if isinstance(what, int) else f"file {it}" for it, what in wanted.items()]
    lines = [it for it in lines if it.partition(" ")[2] not in there]
    return sorted([*lines, f"above {above}"] if above else lines)


def is_installed(root, wanted, notes):
    """Whether below a folder is what is wanted, with a manifest of these lines, and nothing else."""
    found = found_below(root)
    mode, text = found.pop(MANIFEST, (0, ""))
    return found == wanted and mode == 0o644 and sorted(text.splitlines()) == notes


def is_refused(got, status, told):
    """Whether a script ended so, with one line."""
    return got == (status, "", f"oncrpc: {told}\n")


def row(what, well, *found):
    """What is printed of a row, and whether it is well."""
    return line_of(what, well, found), bool(well)


def put_in_way(at, kind, other):
    """Puts a thing of somebody else to a place: a file, a folder, or a link to one of these or to nothing."""
    os.makedirs(os.path.dirname(at), exist_ok=True)
    os.makedirs(f"{other}/folder", exist_ok=True)
    with open(f"{other}/file", "w", encoding="utf-8") as it:
        it.write("not of oncrpc\n")
    if kind == "a folder":
        os.mkdir(at)
    elif kind == "a file":
        os.rename(f"{other}/file", at)
    else:
        os.symlink(f"{other}/{re.fullmatch('a link to an? (.*)', kind)[1]}", at)
