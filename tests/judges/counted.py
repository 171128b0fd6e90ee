"""Instructions by callgrind of one call for a text and for half of it: walks that a limit of seconds does not see."""
import re
import shutil
import subprocess
import tempfile

from rows.shared import Case

from .large import chained
from .running import PROGRAM, line_of, tell, told_of

# A name among n is found in a map in steps that rise as the logarithm of n does, so that 12,000 names take 2.16 times
# what 6,000 do. A walk of the whole path for each name makes it up to 4 times.
MOST = 2.3
WANTED = "1", [b"refused Truncated at 0\n", b""]


def instructions(case):
    """The instructions of one run of the program for the case, or none where its answer is wrong or was not counted."""
    with tempfile.TemporaryDirectory() as folder:
        words = ["valgrind", "--tool=callgrind", f"--callgrind-out-file={folder}/out", PROGRAM]
        given = line_of(case).encode() + b"\n"
        ended = subprocess.run(words, input=given, capture_output=True, timeout=3600)
    told = told_of(ended.stdout.decode().partition("\n")[0])
    found = re.search(rb"Collected : (\d+)", ended.stderr)
    return int(found[1]) if found and (told.answer, told.streams) == WANTED else None


def counted_chain(name):
    """Says whether twice the typedefs take little more than twice the instructions; nothing without valgrind."""
    if not shutil.which("valgrind"):
        print(f"{name}: skipped, valgrind is not there", flush=True)
        return None
    texts = [chained(count) for count in (12000, 6000)]
    whole, half = [instructions(Case("Task::Check", kind="int", text=text, types="a.x")) for text in texts]
    is_well = bool(whole and half) and whole <= MOST * half
    tell(f"{name}: 2 runs, {0 if is_well else 1} wrong answers", is_well, *(() if is_well else (whole, half)))
    return is_well
