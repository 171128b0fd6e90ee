"""Rows of how many checks scripts/prove runs at once, of how it shares processes among them, and of what it tells."""
import contextlib
import os
import sys
import types
from unittest import mock

from refuse_use.launcher import row
from refuse_use.standins import ROOT, Tree

GB = 1 << 30
GROUP, NODE = "/sys/fs/cgroup", "/sys/devices/system/node/node%d/meminfo"
# What a system says of the files that it keeps in memory, a part of 1 GB of each kind.
FILES = f"Node 0 Active(anon): 77 kB\nNode 0 Active(file):   {1 << 20} kB\nNode 0 Inactive(file): {1 << 20} kB\n"
ANON = f"anon {5 * GB}\nfile 77\ninactive_anon 77\n"
MAX, STAT, CPU = f"{GROUP}/memory.max", {f"{GROUP}/memory.stat": ANON}, f"{GROUP}/cpu.max"
# A machine, how many GB are free there and what its files say, and for 4 processors how many checks run at once, of how
# many processes in all.
MACHINES = [
    ("plenty", 64, {}, (4, 8)),
    ("6 GB free", 6, {}, (3, 3)),
    ("nothing free", 0, {}, (1, 1)),
    ("files that are kept in 4 GB", 2, {NODE % 0: FILES, NODE % 1: FILES}, (3, 3)),
    ("4 GB left of a group's limit", 64, {MAX: f"{9 * GB}\n", **STAT}, (2, 2)),
    ("a group above its limit", 64, {MAX: f"{GB}\n", **STAT}, (1, 1)),
    ("a group's limit above what is free", 6, {MAX: f"{64 * GB}\n", **STAT}, (3, 3)),
    ("a group without a limit", 64, {MAX: "max\n", **STAT}, (4, 8)),
    ("a group's two processors", 64, {CPU: "200000 100000\n"}, (2, 4)),
    ("a group's half processor", 64, {CPU: "50000 100000\n"}, (1, 2)),
    ("a group of all processors", 64, {CPU: "max 100000\n"}, (4, 8)),
    ("a group of more processors", 64, {CPU: "800000 100000\n"}, (4, 8)),
]
# What RT_JOBS says, and what comes of it where there is plenty.
JOBS = {"3": (3, 3), "12": (12, 12), **dict.fromkeys(("", "0", "x", "-1", "3x", "03", "1.5"), (4, 8))}
# At what second a crate is told of, in how many seconds it was proved, what is at work then, and the line.
TOLD = [
    (600, "a", 7.4, ["b"], "1 of 5, a, 7 seconds, about 23 minutes left"),
    (600, "b", None, ["c"], "2 of 5, b, kept from an earlier run"),
    (1200, "c", 1, [], "3 of 5, c, 1 seconds, about 20 minutes left"),
    (20, "d", 1, [], "4 of 5, d, 1 seconds, about 1 minute left"),
    (90, "e", 1, [], "5 of 5, e, 1 seconds"),
]


def loaded():
    """The script as a module."""
    module = types.ModuleType("prove")
    with open(f"{ROOT}/scripts/prove", encoding="utf-8") as it:
        code = compile(it.read(), it.name, "exec")
    with mock.patch.object(sys, "path", [f"{ROOT}/scripts", *sys.path]):
        exec(code, vars(module))
    return module


def given(prove, folder, free, files, jobs):
    """What the script comes to on a machine of 4 processors."""
    for name, text in files.items():
        os.makedirs(os.path.dirname(f"{folder}{name}"), exist_ok=True)
        with open(f"{folder}{name}", "w", encoding="utf-8") as it:
            it.write(text)
    number_in, pages = prove.number_in, {"SC_AVPHYS_PAGES": free * GB >> 12, "SC_PAGE_SIZE": 1 << 12}
    patches = [
        mock.patch.object(prove, "number_in", lambda file, pattern: number_in(f"{folder}{file}", pattern)),
        mock.patch("glob.glob", lambda _: [it for it in files if "/node/" in it]),
        mock.patch("os.sysconf", pages.get),
        mock.patch("os.cpu_count", lambda: 64),
        mock.patch("os.sched_getaffinity", lambda _: {1, 3, 5, 7}),
        mock.patch.dict(os.environ, {"RT_JOBS": jobs}),
    ]
    with contextlib.ExitStack() as patched:
        for it in patches:
            patched.enter_context(it)
        return prove.lanes()


def machines(folder):
    """As many checks as there are processors, with 2 GB for each process, or as RT_JOBS says."""
    prove = loaded()
    for at, (what, free, files, wanted) in enumerate(MACHINES):
        got = given(prove, f"{folder}/machine{at}", free, files, "")
        yield row(f"how many checks at once, {what}", got == wanted, got)
    for jobs, wanted in JOBS.items():
        got = given(prove, f"{folder}/plenty", 64, {}, jobs)
        yield row(f"how many checks at once, RT_JOBS={jobs}", got == wanted, got)


def told(_):
    """The lines of how far a proof is."""
    prove, lines, name = loaded(), [], "abcde"
    plan = types.SimpleNamespace(uses=dict.fromkeys(name), lines=dict.fromkeys(name, 100))
    with mock.patch("time.time") as now, mock.patch.object(prove, "say", lines.append):
        now.return_value = 1000
        report = prove.Report(plan)
        for second, name, seconds, running, line in TOLD:
            now.return_value = 1000 + second
            report.tell(name, seconds, running)
            yield row(f"what a proof tells, '{line}'", lines[-1] == line, lines)
        report.end()
    yield row("what a proof tells of its time", lines[-1].startswith("1.5 minutes, "), lines)


def planned(folder):
    """What the longest chain waits for comes first, by the lines of all modules."""
    tree = Tree(folder, "planned")
    tree.write("crates/short/src/deep/one.rt", "fn one() {}\n" * 40)
    prove = loaded()
    with mock.patch.object(prove, "ROOT", tree.at):
        plan = prove.Plan("oncrpc")
    lines = {"low": 82, "left": 89, "right": 84, "short": 125, "last": 81, "oncrpc": 81}
    behind = {"low": 252, "left": 170, "right": 165, "short": 206, "last": 162, "oncrpc": 81}
    got = plan.lines, plan.behind, [*plan.uses]
    well = got[:2] == (lines, behind) and all({*plan.uses[it]} <= {*got[2][:at]} for at, it in enumerate(got[2]))
    yield row("the plan of a proof", well, got)


def shared(folder):
    """Checks that begin together have equal shares of the processes, and one alone has at most four; the program is
    asked for its version; and there are no more lanes than crates."""
    tree = Tree(folder, "shared", RT_JOBS="8")
    got, order = tree.run("./oncrpc prove"), tree.read("bin/order").splitlines()
    begun = {"begin low lib --jobs 2", "begin short lib --jobs 3", "begin last lib --jobs 3"}
    well = got[0] == 0 and begun <= {*order} and "begin oncrpc run --jobs 4 -- --version" in order
    yield row("./oncrpc prove, how many processes each check has", well, got, order)
    lanes = sorted(os.listdir(f"{tree.at}/out/lanes"))
    yield row("./oncrpc prove, no more lanes than crates", lanes == [*"012345", "lock"], lanes)


def machine_rows(folder):
    for rows in (machines, told, planned, shared):
        yield from rows(folder)
