#!/usr/bin/env python3
"""Runs made-up rows of the checkout in which it is called, up to the first that is not well; then the status is 1.

usage: rows.py GROUP[.FUNCTION]    GROUP is a module of .ci/refuse_use whose rows want nothing that is built, or one of
.ci/install_use, or `install` for all of these.
"""
import contextlib
import os
import pkgutil
import signal
import subprocess
import sys
import tempfile

sys.dont_write_bytecode = True
sys.path.insert(0, f"{os.getcwd()}/.ci")

# The function of a module of .ci/refuse_use that has all its rows.
GROUPS = {
    "launcher": "launcher_rows",
    "scripts": "script_rows",
    "gate": "gate_rows",
    "proving": "proving_rows",
    "stopping": "stopping_rows",
    "machine": "machine_rows",
    "built": "built_rows",
    "answers": "answer_rows",
    "linked": "library_rows",
}
INSTALLED = ("placing", "hindering", "taking")
# The commands that rows have begun.
BEGUN = []


class Noted(subprocess.Popen):
    """A command that is noted, so that it can be ended where a bad script leaves it at work."""

    def __init__(self, *words, **how):
        super().__init__(*words, **how)
        self.is_leader = bool(how.get("start_new_session"))
        BEGUN.append(self)


def end_begun():
    """Ends what is at work still: first by a signal that a script can pass on to what it has begun itself."""
    for number in (signal.SIGTERM, signal.SIGKILL):
        for it in BEGUN:
            if it.poll() is None:
                with contextlib.suppress(ProcessLookupError, subprocess.TimeoutExpired):
                    os.killpg(it.pid, number) if it.is_leader else it.send_signal(number)
                    it.wait(30)


def rows_of(group, only):
    """The functions of rows that are meant: each takes a folder."""
    if group in GROUPS:
        return [pkgutil.resolve_name(f"refuse_use.{group}:{only or GROUPS[group]}")]
    modules = INSTALLED if group == "install" else [group]
    found = [pkgutil.resolve_name(f"install_use.{it}") for it in modules]
    return [getattr(found[0], only)] if only else [rows for module in found for rows in module.ROWS]


def main():
    group, _, only = sys.argv[1].partition(".")
    subprocess.Popen = Noted
    with tempfile.TemporaryDirectory(ignore_cleanup_errors=True) as folder:
        try:
            for rows in rows_of(group, only):
                for told in rows(folder):
                    text, is_well = told if isinstance(told, tuple) else ("", told)
                    print(text, end="\n" if text else "", flush=True)
                    if not is_well:
                        sys.exit(1)
        finally:
            end_begun()


main()
