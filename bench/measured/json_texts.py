"""JSON of values and back, beside a C program over rpcgen's code and json-c; how it grows; and hostile texts."""
import os
import struct
import sys

from .common import CALLS_OF_OURS, ROOT, instructions, per_value, processor, resident, wall

# The works, and what ours is of theirs: `bytes` is known to be a value's before, where theirs decodes it each time.
WORKS = {
    "bytes": "its bytes to JSON, beside decoding and json-c",
    "value": "its tree to JSON, beside json-c",
    "read": "JSON to its tree, beside json-c",
    "back": "JSON to its bytes, beside json-c and encoding",
}
# How often a value is written or read in the two runs whose difference is measured.
COUNTS = {"nums": (1, 3), "list": (20, 220)}
# How many seconds of processor time a text of a mebibyte may take.
MOST = 0.5
MEBIBYTE = 1 << 20


def numbers(count):
    """So many unsigned numbers: their bytes and their JSON."""
    made = [number * 2654435761 % 2**32 for number in range(count)]
    return struct.pack(f">I{count}I", count, *made), b"[%s]" % b",".join(b"%d" % number for number in made)


def entries(count):
    """A list of so many strings, the same."""
    names = [b"item %06d" % number for number in reversed(range(count))]
    wire = b"".join(struct.pack(">II", 1, len(name)) + name + bytes(-len(name) % 4) for name in names) + bytes(4)
    return wire, b"".join(b'{"item":"%s","next":' % name for name in names) + b"null" + b"}" * count


def given(folder, name, content):
    """A file with this content, and one that has the declarations before it, as ours are given them."""
    with open(f"{ROOT}/bench/x/bench.x", "rb") as file:
        text = file.read()
    paths = f"{folder}/{name}", f"{folder}/{name}.ours"
    for path, before in zip(paths, (b"", struct.pack(">I", len(text)) + text)):
        with open(path, "wb") as out:
            out.write(before + content)
    return paths


def compare(base, folder, kind, name, made):
    """Each work on a value, ours beside theirs, which have to come to the same."""
    for work, what in WORKS.items():
        theirs_given, ours_given = given(folder, kind, made[work in ("read", "back")])
        ours, theirs = [CALLS_OF_OURS, "json", work, kind], [f"{base}/loop_json", kind, work]
        told = [wall([*words, "1"], path, 1)[1] for words, path in ((ours, ours_given), (theirs, theirs_given))]
        if told[0] != told[1]:
            sys.exit(f"json, {name}, {work}: {told[0]} beside {told[1]}")
        mine = per_value(ours[0], ours[1:], *COUNTS[kind], ours_given)
        other = per_value(theirs[0], theirs[1:], *COUNTS[kind], theirs_given)
        print(
            f"json, {name}, {what}: wall {mine[0] / other[0]:.2f} ({mine[0] * 1e3:.2f} ms beside"
            f" {other[0] * 1e3:.2f}), instructions {mine[1] / other[1]:.2f} ({mine[1]:.0f} beside {other[1]:.0f}),"
            " wanted 1",
            flush=True,
        )


def grown(folder):
    """What 1, 4 and 16 MiB of JSON take, read and written: the instructions a byte stay the same."""
    for work in ("read", "bytes"):
        first = None
        for mega in (1, 4, 16):
            wire, text = numbers(mega * MEBIBYTE * 93 // 1000)
            _, ours_given = given(folder, "grown", text if work == "read" else wire)
            counts = [instructions([CALLS_OF_OURS, "json", work, "nums", times], ours_given) for times in ("1", "2")]
            each = (counts[1] - counts[0]) / len(text)
            first = first or each
            print(
                f"json, {work} of {len(text) / MEBIBYTE:.2f} MiB: {each:.1f} instructions a byte, {each / first:.3f} of"
                " 1 MiB's, wanted 0.9 to 1.1",
                flush=True,
            )


def hostile_texts():
    """Texts of a mebibyte, of the kinds to which they may be dear."""
    deep = b"[" * 4000 + b"]" * 4000
    named = b",".join(b'"m%06d":1' % number for number in range(100000))
    level = b'{"item":"%s","next":' % (b"a" * 230)
    return {
        "arrays that are not closed": ("nums", b"[" * MEBIBYTE),
        "arrays 4000 deep, one after another": ("nums", b"[%s]" % b",".join([deep] * (MEBIBYTE // len(deep)))),
        "objects inside one another": ("list", b'{"next":' * (MEBIBYTE // 8)),
        "a string of escapes": ("list", b'{"item":"%s","next":null}' % (b"\\u0031" * (MEBIBYTE // 6))),
        "a number as a string of escapes": ("nums", b'["%s"]' % (b"\\u0031" * (MEBIBYTE // 6))),
        "100,000 members": ("list", b"{%s}" % named),
        "one member 100,000 times": ("list", b"{%s}" % b",".join([b'"item":"a"'] * 100000)),
        "one member of a union 100,000 times": ("u", b"{%s}" % b",".join([b'"case":1'] * 100000)),
        # A value in each two or three bytes.
        "numbers of a digit": ("nums", b"[%s7]" % (b"7," * (MEBIBYTE // 2))),
        "objects without members": ("nums", b"[%s{}]" % (b"{}," * (MEBIBYTE // 3))),
        # What is refused at the very end, so that all before it is gone over once more in the order of the text.
        "numbers, the last one wrong": ("nums", b"[%strue]" % (b"7," * (MEBIBYTE // 2))),
        "objects inside one another, an unknown member in each": ("list", level * 4000 + b"null" + b',"no":1}' * 4000),
    }


def hostile(folder):
    """The processor time of each hostile text, and what it holds; returns the texts above the most."""
    above = []
    for name, (kind, text) in hostile_texts().items():
        _, ours_given = given(folder, "hostile", text)
        taken = processor([CALLS_OF_OURS, "json", "read", kind, "1"], given=ours_given)
        above += [name] if taken > MOST else []
        held = resident([CALLS_OF_OURS, "json", "read", kind, "1"], ours_given) / len(text)
        print(
            f"json, {name}, {len(text) / MEBIBYTE:.2f} MiB: {taken:.3f} seconds of processor time, {held:.0f} bytes a"
            " byte resident",
            flush=True,
        )
    return above


def json_texts(base, folder):
    """1,000,000 unsigned and the list of 2000 strings; 1, 4 and 16 MiB; hostile texts."""
    if os.path.exists(f"{base}/loop_json"):
        compare(base, folder, "nums", "1,000,000 unsigned", numbers(1000000))
        compare(base, folder, "list", "the list of 2000 strings", entries(2000))
    grown(folder)
    above = hostile(folder)
    print(f"json, texts above {MOST} seconds of processor time: {', '.join(above) or 'none'}", flush=True)
    if above:
        sys.exit(1)
