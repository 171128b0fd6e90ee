"""The refuser `prover CRATE`: plants of one file of the crate as its must-fail edits, all by one run, and others by a
check of the crate with the plant in it."""
import os
import re
import shutil

from planting.ran import PROOF, Told, judged, ran

# What a line says of an edit that the prover refuses, and of one that it lets through, by any of these words.
REFUSED = re.compile(r"(?<!not )\brefused\b")
LET_THROUGH = re.compile(r"\b(not refused|proved|passed|accept\w*|FAIL\w*)\b")


def crate_of(refuser):
    """The crate of `prover CRATE` and of `prover CRATE FUNCTION`."""
    return refuser.split()[1]


def is_edit(plant):
    """Whether a plant can be a must-fail edit: texts of a line each, in one file of the crate that refuses it."""
    below = f"crates/{crate_of(plant.refuser)}/"
    files = {change.file for change in plant.changes}
    lines = "".join(change.old + change.new for change in plant.changes)
    return len(files) == 1 and min(files).startswith(below) and "\n" not in lines


def edit_of(plant):
    """The text of the edit: each pair applies to what the earlier ones made, as in the lists."""
    file = plant.changes[0].file.split("/", 2)[2]
    return f"file: {file}\n" + "".join(f"old: {old}\nnew: {new}\n" for _, old, new in plant.changes)


def edits_told(copy, crate, plants):
    """What the prover says of each plant as an edit of the crate, which has none of its own meanwhile."""
    folder = f"{copy.at}/crates/{crate}/must-fail"
    shutil.rmtree(folder, ignore_errors=True)
    os.makedirs(folder)
    names = {}
    for number, plant in enumerate(plants):
        names[plant] = f"plant_{number:03}"
        copy.write(f"crates/{crate}/must-fail/{names[plant]}.edit", edit_of(plant))
    status, printed = ran(["rt", "must-fail", crate], copy.at, PROOF)
    for plant, name in names.items():
        yield plant, told_of(name, status, printed)


def told_of(name, status, printed):
    """What the run says of one edit. Where all are refused its status is 0; else the lines that name the edit tell."""
    lines = [line for line in printed.splitlines() if name in line]
    if status == 0:
        return Told("refused", "\n".join(lines))
    for how, pattern in (("refused", REFUSED), ("passed", LET_THROUGH)):
        if any(pattern.search(line) for line in lines):
            return Told(how, "\n".join(lines))
    return Told("not run", f"'rt must-fail' does not say, and ends with {status}: {printed.strip()[-300:]}")


def check_told(copy, crate):
    """What a check of the crate says of the copy as it is."""
    return judged(["rt", "check"], f"{copy.at}/crates/{crate}", PROOF)
