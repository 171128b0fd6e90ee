"""Small calls of bindings/rust behind a large one: a record, a reply and a value of a mebibyte or so leave a buffer or
a heap behind, which is to cost the later calls nothing."""
import os

from .common import instructions, processor

# What is asked of bench/rust/loop_buffers.rs, what it is, and how often the small call is timed.
WORKS = [
    ("record", "a record of 4 bytes behind one of 1 MiB", 4000000),
    ("reply", "NULL of a registry of 1024 rows behind a DUMP", 2000000),
    ("lines", "the line of an opaque of 4 bytes behind that of one of 1 MiB", 1000000),
    ("parts", "the parts of the same", 1000000),
    ("items", "the same written by its item", 1000000),
]
# How many small calls are made where instructions are counted, and in the run that is taken away.
COUNTED, FEW = 120000, 20000


def per_call(program, words, many):
    """The processor time and the instructions of one call, what the start and the large call cost left out."""
    least = {count: processor([program, *words, str(count)], 5) for count in (FEW, many)}
    counts = [instructions([program, *words, str(count)], os.devnull) for count in (FEW, COUNTED)]
    return (least[many] - least[FEW]) / (many - FEW), (counts[1] - counts[0]) / (COUNTED - FEW)


def buffers(base, _folder):
    """What the small call costs behind a large one, over what it costs behind a small one."""
    program = f"{base}/loop_buffers"
    if not os.path.exists(program):
        print("buffers: cargo or rustc is not there")
        return
    for work, name, many in WORKS:
        alone, behind = (per_call(program, [work, size], many) for size in ("small", "large"))
        print(
            f"buffers, {name}: processor time {behind[0] / alone[0]:.2f}, instructions {behind[1] / alone[1]:.4f}"
            f" ({behind[0] * 1e9:.0f} ns and {behind[1]:.0f} beside {alone[0] * 1e9:.0f} ns and {alone[1]:.0f}),"
            f" wanted 1",
            flush=True,
        )
