"""Rows of ./oncrpc prove at a signal: what becomes of the checks at work, and of signals that come at a bad time."""
import os
import re
import signal

from refuse_use.launcher import BEGUN, BUILT, FROM, PROOF_STOPPED, lists_of, row
from refuse_use.proving import PROVE, WAITING, hooked, is_free
from refuse_use.standins import Tree
from timing import LIMIT, WAIT, wait_until

BEGINS = FROM % (6, 1)
# Checks that hang, that a signal does not end, that take their time to end, and that have begun another command.
HANGING = 'echo $$ >"$here/pid"\nwhile :; do sleep 0.1; done'
DEAF = f"trap '' TERM\n{HANGING}"
SLOW = f"trap 'sleep 0.5; echo well >\"$here/ended\"; exit 1' TERM\n{HANGING}"
PARENT = f"sleep 99 &\n{HANGING}"
AT_WORK = ("bin/pid", "\n")
# What Python does as it starts: it has a signal come as a command is just begun, or as it ends itself.
AS_BEGUN = """import os, signal, subprocess
class Popen(subprocess.Popen):
    def __init__(self, *words, **how):
        super().__init__(*words, **how)
        os.kill(os.getpid(), signal.SIGTERM)
subprocess.Popen = Popen
"""
AS_IT_ENDS = """import os, signal
class Last:
    def __del__(self, kill=os.kill, words=(os.getpid(), signal.SIGTERM)):
        kill(*words)
last = Last()
"""


def is_stopped(got, begun=BEGUN):
    """Whether a proof was stopped in its first check, and told so in one line."""
    return got[0] == 3 and re.fullmatch(begun + BEGINS + PROOF_STOPPED, got[2]) is not None


def checks(folder):
    """No check outlives its proof: each has time to end by itself, and is killed where it does not."""
    for what, commands in (("deaf", DEAF), ("slow", SLOW), ("a parent", PARENT)):
        tree = Tree(folder, f"checks_{what[-6:]}", RT_JOBS="1")
        text = tree.read("scripts/running.py")
        if commands == DEAF:
            yield row("a check has 10 seconds to end", text.count("\nPATIENCE = 10\n") == 1, text)
        patience = 0.5 if commands == DEAF else WAIT
        tree.write("scripts/running.py", text.replace("\nPATIENCE = 10\n", f"\nPATIENCE = {patience}\n"))
        hooked(tree, "lib low", commands)
        got = tree.stop("./oncrpc prove", AT_WORK)
        ended = tree.read("bin/ended") == ("well\n" if commands == SLOW else "")
        well = is_free(tree) and is_stopped(got) and ended
        yield row(f"./oncrpc prove, SIGTERM, a check that is {what}", well, got, ended)


def ignored(folder):
    """What the caller has a proof ignore, as nohup does, does not stop it."""
    tree = Tree(folder, "ignored", RT_JOBS="1")
    hooked(tree, "lib low", WAITING)
    tree.write("ignoring", "trap '' HUP INT TERM\nexec ./oncrpc prove\n")
    begun = tree.begin("sh ignoring")
    asked = wait_until(lambda: tree.read("bin/asked"))
    for number in (signal.SIGHUP, signal.SIGINT, signal.SIGTERM):
        os.killpg(begun.pid, number)
    tree.write("bin/go", "")
    told = begun.communicate(timeout=LIMIT)[1]
    well = asked and begun.returncode == 0 and re.search(BUILT + rb"\Z", told)
    yield row("./oncrpc prove, signals that are ignored", bool(well), told)


def ill_timed(folder):
    """A signal as a check is just begun ends that check; one as the proof ends adds nothing."""
    for what, code, words in (("begun", AS_BEGUN, "./oncrpc prove"), ("ending", AS_IT_ENDS, PROVE)):
        tree = Tree(folder, f"ill_timed_{what}", RT_JOBS="1", PYTHONPATH=f"{folder}/ill_timed_{what}/python")
        tree.write("python/sitecustomize.py", code)
        hooked(tree, "lib low", HANGING)
        os.makedirs(f"{tree.at}/crates/oncrpc/out")
        got = tree.run(words) if what == "begun" else tree.stop(words, AT_WORK, signal.SIGHUP)
        well = is_free(tree) and is_stopped(got, BEGUN if what == "begun" else b"") and not lists_of(tree)
        yield row(f"./oncrpc prove, a signal in {what}", well, got)


def stopping_rows(folder):
    for rows in (checks, ignored, ill_timed):
        yield from rows(folder)
