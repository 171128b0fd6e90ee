"""Rows of ./oncrpc prove: checks that are killed or left alone, what the lanes hold, and what is handed out."""
import contextlib
import fcntl
import glob
import os
import re
import signal
import socket
import time

from refuse_use.launcher import BEGUN, FROM, KEPT, NOT_BUILT, PAIRS, TOOK, WAITS, lists_of, row
from refuse_use.standins import RT, Tree
from timing import LIMIT, wait_until

NOT_PROVED = rb"oncrpc: %s is not proved\n"
KILLED = rb"oncrpc: not built: the proof was killed\n"
TOLD = rb"oncrpc: \d of 6, \w+, [^\n]*\n"
LOG = "crates/oncrpc/out/build.log"
# The crates in the order in which one at a time is proved.
IN_TURN = "low left short right last oncrpc".split()
PROVE = f"python3 scripts/prove {LOG} oncrpc"
# What a check does that waits until it is let go.
WAITING = 'echo asked >>"$here/asked"\nuntil [ -e "$here/go" ]; do sleep 0.05; done\nsleep 0.3'


def hooked(tree, call, commands):
    """Has the stand-in rt do something first where it is called with this word in this crate."""
    test = f'here=${{0%/*}}\nif [ "$1 ${{PWD##*/}}" = "{call}" ]; then\n{commands}\nfi\n'
    tree.write("bin/rt", f"#!/bin/sh\n{test}{RT.partition(chr(10))[2]}", 0o755)


def is_free(tree):
    """Whether no check is at work, nor what one has begun: each holds the lock of the lanes."""
    with open(f"{tree.at}/out/lanes/lock", encoding="utf-8") as lock:
        if wait_until(lambda: is_locked(lock)):
            return True
    # (the check's own group)
    os.killpg(int(tree.read("bin/pid")), signal.SIGKILL)
    return False


def is_locked(file):
    """Whether a file could be locked at once."""
    with contextlib.suppress(BlockingIOError):
        fcntl.flock(file, fcntl.LOCK_EX | fcntl.LOCK_NB)
        return True
    return False


def shows_unproved(tree, what):
    got = tree.run("./oncrpc show")
    return row(f"./oncrpc show after {what}", got[0] == 5 and got[1].startswith(b"unproved"), got)


# What a check comes to each time, and how many at once: one that ends so beside others runs again alone.
ENDS = [("kill -9 $$", 1), ("exit 2", 1), ("exit 137", 1), ("kill -9 $$", 2), ("exit 2", 2)]


def judged_nothing(folder):
    """A check that was killed, or judged nothing, proves nothing, also where no other is at work."""
    for at, (ends, jobs) in enumerate(ENDS):
        tree, what = Tree(folder, f"judged{at}", RT_JOBS=str(jobs)), f"./oncrpc prove, {jobs} at once, `{ends}`"
        hooked(tree, "lib left", f'echo judged >>"$here/judged"\n{ends}')
        got = tree.run("./oncrpc prove")
        told = BEGUN + FROM % (6, jobs) + b"(%s)*" % TOLD + NOT_PROVED % b"left" + TOOK + NOT_BUILT
        well = got[0] == 3 and re.fullmatch(told, got[2]) and b", left," not in got[2]
        well = well and tree.read("bin/judged").count("judged") == jobs and not os.path.exists(tree.made)
        yield row(what, bool(well) and "== left" in tree.read(LOG), got)
        yield shows_unproved(tree, "that")


def proof_killed(folder):
    """A proof that is killed builds nothing, and says so."""
    for call, count in (("lib left", 1), ("run oncrpc", 5)):
        tree = Tree(folder, f"proof_killed_{count}", RT_JOBS="1")
        hooked(tree, call, "kill -9 $PPID\nexit 0")
        got = tree.run("./oncrpc prove")
        told = BEGUN + FROM % (6, 1) + TOLD * count + KILLED
        well = got[0] == 3 and re.fullmatch(told, got[2]) and not os.path.exists(tree.made)
        yield row(f"./oncrpc prove, killed in '{call}'", bool(well), got)
        yield shows_unproved(tree, "that")


def beginner_killed(folder):
    """A check whose beginner was killed goes on, and another proof waits for its end."""
    tree = Tree(folder, "beginner", RT_JOBS="1")
    hooked(tree, "lib low", WAITING)
    os.makedirs(f"{tree.at}/crates/oncrpc/out")
    first = tree.begin(PROVE)
    begun = wait_until(lambda: tree.read("bin/asked"))
    first.kill()
    first.communicate(timeout=LIMIT)
    second = tree.begin("./oncrpc prove")
    told = second.stderr.readline() + second.stderr.readline()
    time.sleep(0.3)
    asked = tree.read("bin/asked")
    tree.write("bin/go", "")
    faults = second.communicate(timeout=LIMIT)[1]
    order = [it.split()[:2] for it in tree.read("bin/order").splitlines()]
    well = begun and re.fullmatch(BEGUN + WAITS, told) and asked == "asked\n"
    well = well and order[:3] == [["begin", "low"], ["end", "low"], ["begin", "low"]]
    well = well and second.returncode == 0 and faults.endswith(b"built %s\n" % os.path.realpath(tree.made).encode())
    well = well and not lists_of(tree)
    yield row("./oncrpc prove beside a check that was left alone", bool(well), told, faults, order)


def sources_of(top):
    """What the crates below hold, but for what was built there, and which handles are allowed."""
    found = {}
    for file in glob.glob(f"{top}/crates/*/*/**", recursive=True) + glob.glob(f"{top}/HANDLES"):
        if os.path.isfile(file) and "/out/" not in file.removeprefix(top):
            with open(file, encoding="utf-8") as it:
                found[file.removeprefix(top)] = it.read()
    return found


def lanes_hold(folder):
    """Each lane holds the sources as they are now, and what was proved there before."""
    tree = Tree(folder, "lanes_hold", RT_JOBS="2")
    for name in ("other", "c_values", "c_records", "c_library"):
        os.remove(f"{tree.at}/crates/{name}/src/lib.rt")
    parts = ("src/lib.rt", "specs/one.rt", "specs/two.rt", "src/deep/two.rt", "proofs/deep/one.rt")
    sources = [*[f"crates/low/{part}" for part in parts], "HANDLES"]
    for what, wanted in (("as they are", sources), ("changed", sources), ("taken away", sources[:2])):
        for name in sources:
            tree.write(name, f"// {what}, {name}\n") if name in wanted else os.remove(f"{tree.at}/{name}")
        if what == "taken away":
            os.removedirs(f"{tree.at}/crates/low/proofs/deep")
        got, here = tree.run("./oncrpc prove"), sources_of(tree.at)
        held = [sources_of(f"{tree.at}/out/lanes/{number}") for number in (0, 1)]
        well = got[0] == 0 and held == [here] * 2 and here.keys() >= {*[f"/{it}" for it in wanted]}
        yield row(f"the lanes of ./oncrpc prove, sources {what}", well, got, held, here)


def lanes_keep(folder):
    """What is proved in a lane stays there, and the log is of the last proof alone."""
    tree = Tree(folder, "lanes_keep", RT_JOBS="1", STAND_ALONE="1")
    tree.run("./oncrpc prove")
    tree.write("crates/right/src/lib.rt", "fn two() {}\n")
    hooked(tree, "lib left", "echo 'of crate left: nothing new'")
    got = tree.run("./oncrpc prove")
    told = {it.decode() for it in re.findall(rb"oncrpc: \d of 6, (\w+)" + KEPT, got[2])}
    well = got[0] == 0 and told == {"low", "short", "last", "left", "oncrpc"}
    yield row("./oncrpc prove, what a lane keeps", well, got)
    log = tree.read(LOG)
    yield row("./oncrpc prove, the log of the last proof", re.findall("^== (.*)$", log, re.M) == IN_TURN, log)


def lanes_elsewhere(folder):
    """What is proved in the lanes of ONCRPC_LANES stays there, for another checkout too; none lie in the checkout."""
    place = f"{folder}/elsewhere"
    for at in ("the first", "another"):
        tree = Tree(folder, f"lanes_{at[-5:]}", RT_JOBS="1", STAND_ALONE="1", ONCRPC_LANES=place)
        got = tree.run("./oncrpc prove")
        kept = len(re.findall(rb"oncrpc: \d of 6, \w+" + KEPT, got[2]))
        well = got[0] == 0 and kept == (0 if at == "the first" else 6) and not os.path.exists(f"{tree.at}/out")
        well = well and tree.read(tree.made) == tree.read("bin/proved") and "lock" in os.listdir(place)
        yield row(f"./oncrpc prove with ONCRPC_LANES, {at} checkout", well, got)


def fullest_lane(folder):
    """Where copies take nothing over from one another, the proof goes on in the lane where the most is proved."""
    tree = Tree(folder, "fullest", RT_JOBS="2", STAND_ALONE="1")
    tree.write("bin/waits", PAIRS)
    hooked(tree, "run oncrpc", 'echo "$PWD" >"$here/place"')
    got, place = tree.run("./oncrpc prove"), os.path.realpath(f"{tree.at}/out/lanes/0/crates/oncrpc")
    well = got[0] == 0 and tree.read("bin/place") == f"{place}\n"
    yield row("./oncrpc prove, the lane where the most is proved", well, got, tree.read("bin/place"))


def handed_out(folder):
    """The program is put in its place in one step, whole, and is as old as the beginning of its proof."""
    tree = Tree(folder, "handed_out", RT_JOBS="1")
    tree.write("crates/oncrpc/out/oncrpc", "#!/bin/sh\nexit 9\n", 0o755)
    tree.write("crates/oncrpc/src/main.rt", "fn two() {}\n")
    hooked(tree, "lib low", 'sleep 0.1\necho >"$here/first"')
    os.utime(tree.made, (1, 1))
    before = time.time()
    with open(tree.made, encoding="utf-8") as old:
        got = tree.run("./oncrpc prove")
        kept = old.read()
    left, as_old = sorted(os.listdir(os.path.dirname(tree.made))), os.stat(tree.made).st_mtime
    well = got[0] == 0 and tree.read(tree.made) == tree.read("bin/proved") and os.access(tree.made, os.X_OK)
    well = well and left == ["build.log", "oncrpc", "oncrpc.sources"]
    yield row("./oncrpc prove, what is in the program's place", well, got, left)
    yield row("./oncrpc prove, a program that was open", kept == "#!/bin/sh\nexit 9\n", kept)
    well = before <= as_old <= os.stat(f"{tree.bin}/first").st_mtime
    yield row("./oncrpc prove, the program's time", well, before, as_old)


def unwritten(folder):
    """A log that cannot be written and a source that cannot be copied are one line each, which names the file."""
    tree = Tree(folder, "unwritten", RT_JOBS="1")
    os.makedirs(f"{tree.at}/crates/oncrpc/out")
    os.symlink("/dev/full", f"{tree.at}/{LOG}")
    got = tree.run("./oncrpc prove")
    told = BEGUN + FROM % (6, 1) + rb"oncrpc: \S+/build\.log: No space left on device\n"
    well = got[0] == 3 and re.fullmatch(told, got[2]) and not os.path.exists(tree.made) and not lists_of(tree)
    yield row("./oncrpc prove, no space for the log", bool(well), got)
    os.remove(f"{tree.at}/{LOG}")
    for name in ("low", "short"):
        with socket.socket(socket.AF_UNIX) as it:
            it.bind(f"{tree.at}/crates/{name}/src/socket")
    got = tree.run("./oncrpc prove")
    told = BEGUN + rb"oncrpc: \S+/crates/low/src/socket: No such device or address\n"
    yield row("./oncrpc prove, a source that is a socket", got[0] == 3 and bool(re.fullmatch(told, got[2])), got)


def unheard(folder):
    """A standard error that is closed or full changes nothing but what is told."""
    for at, closed in enumerate(("2>&-", "2>/dev/full")):
        tree = Tree(folder, f"unheard{at}", RT_JOBS="1")
        tree.write("unheard", f"exec ./oncrpc prove {closed}\n")
        for what, calls in (("", 6), (", again", 0)):
            got = tree.run("sh unheard")
            well = (*got[:3], len(got[3]), tree.read("out/lanes/lock")) == (0, b"", b"", calls, "")
            yield row(f"./oncrpc prove {closed}{what}", well and tree.read(tree.made) == tree.read("bin/proved"), got)


def in_turn_again(folder):
    """Where copies share nothing, a later run of the same toolchain proves in turn from its start, in the same lane."""
    tree = Tree(folder, "in_turn_again", RT_JOBS="2", STAND_ALONE="1")
    tree.write("bin/version", "a toolchain\n")
    tree.write("bin/rt", tree.read("bin/rt").replace("\ntry) ", '\nversion) cat "$stand/version" ;;\ntry) '), 0o755)
    tree.write("bin/waits", PAIRS)
    tree.write("bin/fails", "last 1\n")
    begun = [tree.run("./oncrpc prove")]
    tree.write("bin/waits", "")
    for version in ("a toolchain\n", "another\n"):
        tree.write("bin/version", version)
        tree.write("bin/order", "")
        tree.write("crates/low/src/lib.rt", f"// {version}")
        begun.append((*tree.run("./oncrpc prove"), tree.read("bin/order").split("\n")))
    told = [it[2].count(b"take nothing over") for it in begun]
    order = [it.split()[0] for it in begun[1][4] if it]
    well = [it[0] for it in begun] == [3, 0, 0] and told[:2] == [1, 1] and order == ["begin", "end"] * (len(order) // 2)
    well = well and b"at most 1 at once" in begun[1][2] and b"at most 2 at once" in begun[2][2]
    yield row("./oncrpc prove, nothing is taken over, again", well, begun)


def kept_lane(folder):
    """That lane is the one that was kept, also where one check runs at a time anyhow; what is no note of one is none."""
    notes = {"1\n": ["1"], "x\n": ["0", "1"], "\udcff\n": ["0", "1"]}
    for at, (jobs, note) in enumerate([("2", "1\n"), ("1", "1\n"), ("2", "x\n"), ("2", "\udcff\n")]):
        tree = Tree(folder, f"kept_lane{at}", RT_JOBS=jobs)
        os.makedirs(f"{tree.at}/out/lanes")
        with open(f"{tree.at}/out/lanes/alone", "wb") as kept:
            kept.write(os.fsencode(note))
        got = tree.run("./oncrpc prove")
        there = sorted(it for it in os.listdir(f"{tree.at}/out/lanes") if it.isdigit())
        well = got[0] == 0 and there == notes[note] and tree.read(tree.made) == tree.read("bin/proved")
        well = well and (note != "1\n" or tree.read("out/lanes/alone") == note)
        yield row(f"./oncrpc prove, lane {note!r} is kept, {jobs} at once", well, got, there)


def changed_and_back(folder):
    """Of sources that change while a proof waits for another, and change back before its end, nothing is told."""
    tree = Tree(folder, "changed_and_back", RT_JOBS="1")
    low, text = "crates/low/src/lib.rt", "fn other() {}\n"
    own = tree.read(low)
    back = f'[ "$1" != run ] || [ ! -e "$here/own" ] || cp "$here/own" "$here/../{low}"'
    hooked(tree, "lib low", 'until [ -e "$here/go" ]; do sleep 0.05; done\n')
    tree.write("bin/rt", tree.read("bin/rt").replace("\n", f"\nhere=${{0%/*}}\n{back}\n", 1), 0o755)
    first = tree.begin("./oncrpc prove")
    is_begun = wait_until(lambda: lists_of(tree))
    second = tree.begin("./oncrpc prove")
    waits = second.stderr.readline() + second.stderr.readline()
    tree.write(low, text)
    tree.write("bin/go", "")
    ended = [first.communicate(timeout=LIMIT)[1]]
    tree.write("bin/own", own)
    ended.append(second.communicate(timeout=LIMIT)[1])
    told = [it.endswith(b"oncrpc: not built: the sources changed meanwhile\n") for it in ended]
    well = is_begun and re.fullmatch(BEGUN + WAITS, waits) and all(told) and second.returncode == 3
    yield row("./oncrpc prove, sources change as it waits, and back", bool(well) and tree.read(low) == own, waits, ended)


def proving_rows(folder):
    killed, lanes = (judged_nothing, proof_killed, beginner_killed), (lanes_hold, lanes_keep, lanes_elsewhere, fullest_lane)
    for rows in (*killed, *lanes, in_turn_again, kept_lane, changed_and_back, handed_out, unwritten, unheard):
        yield from rows(folder)
