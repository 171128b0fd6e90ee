"""Values of a long enumeration and of a long union, in which each number is one of thousands."""
import struct

from measured.common import OURS, wall

MEMBERS, ARMS = 15000, 11250
# What lies between two numbers.
STEP = 7


def long_enumeration():
    """An enumeration of MEMBERS members, and a list of it."""
    members = ",".join(f"e{place}={place * STEP}" for place in range(MEMBERS))
    return f"enum e {{{members}}};typedef e items<>;"


def long_union():
    """A union of ARMS arms over an int, and a list of it."""
    arms = "".join(f"case {place * STEP}:int a{place};" for place in range(ARMS))
    return f"union u switch(int d){{{arms}}};typedef u items<>;"


def values(path, count, size, entries):
    """A list of so many items of this size, each of which begins with a number of one of the entries."""
    with open(path, "wb") as out:
        out.write(struct.pack(">I", count))
        for item in range(count):
            number = item * 2654435761 % 2**32 % entries * STEP
            out.write(struct.pack(">I", number) + bytes(size - 4))
    return path


def picked(_base, folder):
    """Check and show of lists of 1, 4 and 16 MiB: the time a byte stays the same."""
    rows = [
        (f"an enumeration of {MEMBERS} members", long_enumeration(), 4, MEMBERS),
        (f"a union of {ARMS} arms", long_union(), 8, ARMS),
    ]
    for name, text, size, entries in rows:
        types = f"{folder}/long.x"
        with open(types, "w", encoding="ascii") as out:
            out.write(text)
        nothing = values(f"{folder}/nothing", 0, size, entries)
        for work in ("check", "show"):
            words = [OURS, work, "--types", types, "--name", "items"]
            begun, _ = wall(words, nothing, 3)
            first = None
            for mega in (1, 4, 16):
                # (with its count the list has as many bytes as a value may have)
                given = values(f"{folder}/items", (mega << 20) // size - 1, size, entries)
                taken = wall(words, given, 3)[0] - begun
                first = first or taken / mega
                print(
                    f"picked, {work} of {mega} MiB of {name}: {taken * 1e3:.0f} ms, {taken / (mega << 20) * 1e9:.1f}"
                    f" ns a byte, {taken / mega / first:.2f} of 1 MiB's",
                    flush=True,
                )
