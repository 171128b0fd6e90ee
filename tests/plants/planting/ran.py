"""Commands of a refuser: each in a group of its own, which is ended where it takes too long."""
import collections
import os
import shutil
import signal
import subprocess
import sys

# What a refuser told of a copy: `passed`, `refused` or `not run`, and the end of what it printed, or why not.
Told = collections.namedtuple("Told", "how why")
# The status of a command that is not there, which refuses nothing.
NOT_THERE = "not there"
# The seconds that a test may take, and a proof.
LONG, PROOF = 900, 6 * 3600


def ran(words, folder, seconds=LONG, **variables):
    """The status and the output of a command: None where it was ended since it took too long."""
    if not shutil.which(words[0]):
        return NOT_THERE, f"{words[0]} is not there"
    env = {**os.environ, "PYTHONDONTWRITEBYTECODE": "1", **variables}
    streams = {"stdin": subprocess.DEVNULL, "stdout": subprocess.PIPE, "stderr": subprocess.STDOUT}
    how = {"cwd": folder, "env": env, "start_new_session": True, "text": True, "errors": "replace"}
    with subprocess.Popen(words, **streams, **how) as begun:
        try:
            printed, _ = begun.communicate(timeout=seconds)
        except BaseException as ended:
            os.killpg(begun.pid, signal.SIGKILL)
            printed, _ = begun.communicate()
            if not isinstance(ended, subprocess.TimeoutExpired):
                raise
            return None, f"{printed}\nnot ended after {seconds} seconds"
    return begun.returncode, printed


def judged(words, folder, seconds=LONG, **variables):
    """What a command tells by its status: that nothing is wrong, or that something is."""
    status, printed = ran(words, folder, seconds, **variables)
    return Told({0: "passed", NOT_THERE: "not run"}.get(status, "refused"), printed)


def first_of(*commands):
    """What the first command tells that is not well, of commands in their order, or the last."""
    told = Told("not run", "no command")
    for command in commands:
        told = command()
        if told.how != "passed":
            break
    return told


def must(words, folder, seconds=LONG, **variables):
    """A command without which a plant is none: a text that no compiler reads is refused by no test."""
    status, printed = ran(words, folder, seconds, **variables)
    return Told("passed", printed) if status == 0 else Told("not run", f"{words[0]} fails: {printed.strip()[-300:]}")


def python(*words):
    return [sys.executable, *words]
