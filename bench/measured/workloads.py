"""The jobs of bench/workloads.txt, in two built checkouts by turns.

A line is NAME CRATE WORD..: the proved program of the crate is run with these words in the folder bench/. The word SEED
stands for a number, and a last word <FILE names the file that is standard input.
"""
import os
import statistics
import subprocess
import sys
import time

from measured.common import program_of, refuse

TURNS = 9


def jobs(root, seed):
    """The name of each job, its command and its input."""
    with open(f"{root}/bench/workloads.txt", encoding="utf-8") as lines:
        for line in lines:
            name, crate, *words = line.split()
            given = words.pop()[1:] if words and words[-1].startswith("<") else None
            words = [seed if word == "SEED" else word for word in words]
            yield name, [program_of(root, crate), *words], given


def checkout(folder):
    """The folder of a checkout that has jobs, the program of each, and its input."""
    root = os.path.realpath(folder)
    if not os.path.isfile(f"{root}/bench/workloads.txt"):
        refuse(f"{folder}: no checkout with bench/workloads.txt")
    for name, words, given in jobs(root, "1"):
        for path in [words[0], *([f"{root}/bench/{given}"] if given else [])]:
            if not os.path.isfile(path):
                refuse(f"{folder}: no built checkout: the job {name} wants {os.path.relpath(path, root)}")
    return root


def a_seed(word):
    """The word, which has to be a number that tool_workloads takes."""
    if not (word.isascii() and word.isdecimal() and int(word) < 1 << 32):
        refuse(f"{word}: no number from 0 to 4294967295")
    return word


def run(root, words, given):
    """The seconds that a job takes, and what it prints."""
    source = open(f"{root}/bench/{given}", "rb") if given else open(os.devnull, "rb")
    with source:
        begun = time.perf_counter()
        ended = subprocess.run(words, cwd=f"{root}/bench", stdin=source, stdout=subprocess.PIPE, check=False)
        taken = time.perf_counter() - begun
    if ended.returncode:
        sys.exit(f"{' '.join(words)}: status {ended.returncode}")
    return taken, ended.stdout


def compare(old, new, seed):
    """A line for each job: the median of its times in the old checkout and in the new one, and how often the second
    goes into the first. Ends where the two print something else."""
    for was, now in zip(jobs(old, seed), jobs(new, seed), strict=True):
        taken = {old: [], new: []}
        for turn in range(TURNS):
            printed = set()
            for root, (_, words, given) in [(old, was), (new, now)][:: 1 if turn % 2 else -1]:
                seconds, text = run(root, words, given)
                taken[root].append(seconds)
                printed.add(text)
            if len(printed) > 1:
                sys.exit(f"{now[0]}: the outputs differ: {sorted(printed)}")
        before, after = statistics.median(taken[old]), statistics.median(taken[new])
        print(f"{now[0]:<14}{before:8.3f} {after:8.3f} {before / after:8.2f}", flush=True)


def main(words):
    """OLD NEW [SEED]"""
    old, new = (checkout(word) for word in words[:2])
    seed = a_seed(words[2]) if words[2:] else "1"
    if [name for name, *_ in jobs(old, seed)] != [name for name, *_ in jobs(new, seed)]:
        refuse(f"{words[0]} and {words[1]} have not the same jobs in bench/workloads.txt")
    print(f"{'workload':<14}{'old s':>8} {'new s':>8} {'old/new':>8}", flush=True)
    compare(old, new, seed)
