"""What a call of tool_cost takes, in two built checkouts: instructions of one call less those of none."""
import os
import random
import struct
import subprocess
import sys
import tempfile
from concurrent.futures import ThreadPoolExecutor
from typing import NamedTuple

from measured.common import counted, program_of

PROGRAM = "tool_cost"
# What a value may have: levels and bytes.
LIMITS = ("4096", "16777216")
# A piece of so many bytes has all of a value.
WHOLE = 1 << 30
# A refused value has an outcome from here on, with its place and its reason in it (crates/tool_cost).
REFUSED = 10**12


class Input(NamedTuple):
    """A shape's name, what tool_cost reads for it, and how many bytes its value has."""

    name: str
    path: str
    size: int


class Cost(NamedTuple):
    """The instructions of a call, and what it came to."""

    taken: int
    outcome: int


def written(folder, place, shape, seed):
    """A file with the length of a text of declarations, the text and the value."""
    name, kind = shape
    text = "\n".join((*kind.before, f"typedef {kind.declared('value')};", "")).encode()
    value = kind.value(random.Random(f"{seed} {name}"))
    path = f"{folder}/{place}"
    with open(path, "wb") as out:
        out.write(struct.pack(">I", len(text)) + text + value)
    return Input(name, path, len(value))


def call(kept, root, given, work, piece, times):
    """The count and the line of so many calls. All numbers have ten digits, so that reading them costs the same."""
    program = program_of(root, PROGRAM)
    words = [work, "value", *(str(number).zfill(10) for number in (piece, times, *LIMITS))]

    def count():
        with open(given.path, "rb") as source:
            taken, ended = counted([program, *words], source, subprocess.PIPE)
        if ended.returncode:
            sys.exit(f"{given.name}: {program} {work}: status {ended.returncode}")
        return taken, int(ended.stdout)

    return kept.or_counted(program, words, given.path, count)


def costs(pool, kept, roots, given, works, pieces):
    """For each checkout and work the costs by pieces, as promises of the pool's."""

    def promised(root, work):
        none = pool.submit(call, kept, root, given, work, WHOLE, 0)
        once = [pool.submit(call, kept, root, given, work, piece, 1) for piece in pieces]
        return [(one, none) for one in once]

    return {(root, work): promised(root, work) for root in roots for work in works}


def come(promises):
    """The costs that were promised."""

    def cost(one, none):
        (taken, outcome), (before, _) = one.result(), none.result()
        return Cost(taken - before, outcome)

    return {key: [cost(*pair) for pair in pairs] for key, pairs in promises.items()}


def is_as_made(given, work, outcome):
    """Whether a decoder or a checker comes to what the value was made for: whole, or refused in its last unit."""
    if work not in ("decode", "check"):
        return True
    if given.name.startswith("refused"):
        return (outcome - REFUSED) // 1000 == given.size - 4
    return outcome == (given.size if work == "check" else 0)


def faults(given, roots, found):
    """Lines on outcomes that differ: between the checkouts, between the pieces, or from what the value was made for."""
    for (root, work), row in found.items():
        outcomes = sorted({cost.outcome for cost in row})
        first = sorted({cost.outcome for cost in found[roots[0], work]})
        if outcomes != first:
            yield f"{given.name}: {work} came to {outcomes} in {root}, and to {first} in {roots[0]}"
        elif len(outcomes) > 1:
            yield f"{given.name}: {work} came to {outcomes} in {root}, by the pieces"
        elif not is_as_made(given, work, outcomes[0]):
            yield f"{given.name}: {work} came to {outcomes[0]} in {root}, of {given.size} bytes"


def measured(roots, shapes, works, pieces, seed, kept):
    """Each shape's input and costs, in turn; as many processes at once as there are processors."""
    pool = ThreadPoolExecutor(os.cpu_count())
    with tempfile.TemporaryDirectory() as folder:
        given = [written(folder, place, shape, seed) for place, shape in enumerate(shapes)]
        promised = [costs(pool, kept, roots, each, works, pieces) for each in given]
        try:
            for each, promises in zip(given, promised):
                yield each, come(promises)
        finally:
            pool.shutdown(cancel_futures=True)
            kept.save()
