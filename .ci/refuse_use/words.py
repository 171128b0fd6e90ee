"""Rows of the words of the program: what they ask for without a network, what is refused, what help says, and which
names may be defined."""
import itertools
import os
import subprocess
import tempfile

from refuse_use.words_asked import CAPTURES, MESSAGES, NAMES, NO_NAMES, ONE, RECORDS, REFUSED, TYPES, VALUES, long_rows
from refuse_use.words_help import HELP
from telling import tell
from timing import LIMIT


def ended(program, words, files, given):
    """The status and both streams, where there are these files and no others."""
    with tempfile.TemporaryDirectory() as folder:
        for name, text in files.items():
            os.makedirs(os.path.dirname(f"{folder}/{name}"), exist_ok=True)
            with open(f"{folder}/{name}", "wb") as it:
                it.write(text)
        how = {"cwd": folder, "input": given, "capture_output": True, "timeout": LIMIT, "check": False}
        try:
            got = subprocess.run([program, *words], **how)
        except subprocess.TimeoutExpired:
            return None, b"", b"it did not end"
    return got.returncode, got.stdout, got.stderr


def shown(got):
    """Streams that may be long, to be printed."""
    return got[0], got[1][:200], got[2][:200]


def asked_rows(program):
    """What words ask for shows in what is done."""
    for words, files, given, *wanted in itertools.chain(VALUES, TYPES, RECORDS, MESSAGES, CAPTURES, long_rows()):
        got = ended(program, words, files, given)
        yield f"{words}, {files}, {given[:40]}", got == tuple(wanted), shown(got)


def refused_rows(program):
    """Words that are refused have status 2, and standard error says why."""
    for words in REFUSED:
        got = ended(program, words, {}, b"")
        yield str(words), got[:2] == (2, b"") and got[2].startswith(b"error: "), got


def help_rows(program):
    """Help goes to standard output, with status 0."""
    for words, parts in HELP:
        status, output, faults = ended(program, words, {}, b"")
        missing = [part for part in parts if part not in output]
        yield str(words), (status, faults, missing) == (0, b"", []), (status, faults, missing)
    for words in (["call", "--help"], ["help", "ping"], ["help", "records"], ["-V"]):
        status, output, faults = ended(program, words, {}, b"")
        yield str(words), (status, faults) == (0, b"") and output, (status, output[:200], faults)


def defined_rows(program):
    """Only a name is defined, behind another, and it is one then."""
    for text in NO_NAMES + NAMES:
        for command in ("check", "show") if text in NO_NAMES else ("check",):
            words = [command, "--name=int", "--types=a.x", "--dialect=rpcgen", "--define", "FIRST", "--define", text]
            declared = f"#ifdef FIRST\n#ifdef {text}\nconst X = 1;\n#endif\n#endif\nconst Y = X;\n"
            got = ended(program, words, {"a.x": declared.encode()}, ONE)
            well = got == (0, b"ok 4\n", b"")
            if text in NO_NAMES:
                well = got[:2] == (2, b"") and b"--define wants a name" in got[2]
            yield str(words), well, got


def words_rows(program):
    """The rows, each whether it is as it should be."""
    for rows in (asked_rows, refused_rows, help_rows, defined_rows):
        for name, is_well, told in rows(program):
            yield tell(f"oncrpc {name[:200]}", is_well, told)
