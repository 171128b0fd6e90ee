"""Counts of instructions that a file keeps from one run to the next, by the program, its words and its input."""
import functools
import hashlib
import json
import os


@functools.lru_cache(maxsize=None)
def digest_of(path):
    with open(path, "rb") as given:
        return hashlib.sha256(given.read()).hexdigest()


class Kept:
    """What was counted; without a path nothing is kept."""

    def __init__(self, path):
        self.path, self.counts = path, {}
        if path and os.path.exists(path):
            with open(path, encoding="ascii") as lines:
                self.counts = json.load(lines)

    def or_counted(self, program, words, given, count):
        """The count of a call: what is kept of the same program, words and input, else what `count` tells."""
        key = " ".join((digest_of(program), *words, digest_of(given)))
        if key not in self.counts:
            self.counts[key] = count()
        return self.counts[key]

    def save(self):
        if self.path:
            with open(f"{self.path}.new", "w", encoding="ascii") as out:
                json.dump(dict(self.counts), out)
            os.replace(f"{self.path}.new", self.path)
