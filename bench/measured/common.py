"""Times and instructions of programs, ours beside others."""
import os
import resource
import signal
import subprocess
import sys
import tempfile
import time

ROOT = os.path.dirname(os.path.dirname(os.path.dirname(os.path.realpath(__file__))))
OURS = f"{ROOT}/crates/oncrpc/out/oncrpc"
# (./build-library leaves it there)
ARCHIVE = f"{ROOT}/library/liboncrpc.a"
CALLS_OF_OURS = f"{ROOT}/crates/tool_bench/out/tool_bench"


def refuse(why):
    """Ends with one line that says why, and status 2."""
    print(why, file=sys.stderr)
    sys.exit(2)


def end_quietly():
    """Has this script end, and say nothing, where nobody reads any more what it prints."""
    signal.signal(signal.SIGPIPE, signal.SIG_DFL)


def help_if_asked(words, text):
    """Prints what a script says of itself where that is asked for, and ends."""
    if {"--help", "-h"} & {*words}:
        end_quietly()
        print(text)
        sys.exit(0)


def program_of(root, crate):
    """The proved program of a crate in a checkout."""
    return f"{root}/crates/{crate}/out/{crate}"


def built(root, *crates):
    """The folder of a checkout in which the programs of these crates are built."""
    root = os.path.realpath(root)
    if not os.path.isdir(f"{root}/crates"):
        refuse(f"{root}: no checkout of this repository")
    for crate in crates:
        if not os.path.isfile(program_of(root, crate)):
            refuse(f"{root}: crates/{crate} is not built: 'rt run' there leaves its program in out/")
    return root


def wall(words, given, runs=5):
    """The least wall time in seconds, and what the run wrote."""
    best = None
    for _ in range(runs):
        with open(given, "rb") as source, tempfile.TemporaryFile() as sink:
            begun = time.perf_counter()
            ended = subprocess.run(words, stdin=source, stdout=sink, stderr=subprocess.PIPE)
            taken = time.perf_counter() - begun
            sink.seek(0)
            written = sink.read(64), os.fstat(sink.fileno()).st_size
        if ended.returncode != 0:
            sys.exit(f"{words}: status {ended.returncode}: {ended.stderr[:200]}")
        best = taken if best is None else min(best, taken)
    return best, written


def instructions(words, given):
    """The count of instructions by callgrind."""
    with open(given, "rb") as source:
        return counted(words, source, subprocess.DEVNULL)[0]


def counted(words, source, sink):
    """The count of instructions by callgrind, and how the process ended."""
    with tempfile.TemporaryDirectory() as folder:
        out = f"--callgrind-out-file={folder}/out"
        ended = subprocess.run(
            ["valgrind", "--tool=callgrind", out, *words],
            stdin=source,
            stdout=sink,
            stderr=subprocess.PIPE,
        )
        for line in ended.stderr.decode(errors="replace").splitlines():
            if "Collected" in line:
                return int(line.split(":")[-1]), ended
    sys.exit(f"{words}: callgrind counted nothing: {ended.stderr[-300:]}")


def per_value(program, words, few, many, given):
    """Wall time and instructions of one repetition, what the start costs left out."""
    least = {count: wall([program, *words, str(count)], given, 5)[0] for count in (few, many)}
    counts = {count: instructions([program, *words, str(count)], given) for count in (few, many)}
    return (least[many] - least[few]) / (many - few), (counts[many] - counts[few]) / (many - few)


def processor(words, runs=3, given=os.devnull):
    """The least processor time in seconds, whatever the status: a hostile text is mostly refused."""
    best = None
    for _ in range(runs):
        before = resource.getrusage(resource.RUSAGE_CHILDREN)
        with open(given, "rb") as source:
            subprocess.run(words, stdin=source, stdout=subprocess.DEVNULL, stderr=subprocess.DEVNULL)
        after = resource.getrusage(resource.RUSAGE_CHILDREN)
        taken = after.ru_utime - before.ru_utime + after.ru_stime - before.ru_stime
        best = taken if best is None else min(best, taken)
    return best


def resident(words, given):
    """The most bytes that a process has resident, whatever its status; no less than this one has when it begins."""
    with open(given, "rb") as source:
        begun = subprocess.Popen(words, stdin=source, stdout=subprocess.DEVNULL, stderr=subprocess.DEVNULL)
        _, status, usage = os.wait4(begun.pid, 0)
    begun.returncode = os.waitstatus_to_exitcode(status)
    return usage.ru_maxrss * 1024


def beside(name, ours, theirs, given, units, counted=True):
    """One line: our wall time and instructions over libtirpc's, and instructions a unit of each."""
    mine, wrote = wall(ours, given)
    other, _ = wall(theirs, given)
    line = f"{name}: wall {mine / other:.2f} ({mine * 1e3:.1f} ms beside {other * 1e3:.1f} ms)"
    if counted:
        a, b = instructions(ours, given), instructions(theirs, given)
        line += f", instructions {a / b:.2f} ({a / units:.2f} beside {b / units:.2f} a unit)"
    print(line, flush=True)
    return wrote


def alone(name, ours, given, units):
    """One line of ours, where there is nothing to stand beside."""
    taken, _ = wall(ours, given)
    print(f"{name}: {taken * 1e3:.1f} ms, {instructions(ours, given) / units:.2f} instructions a unit", flush=True)
