"""Rows of 'oncrpc show --json': which stream has what, values worked by hand, the deepest values, and long ones."""
import json
import os
import subprocess
import sys

ROOT = os.path.dirname(os.path.dirname(os.path.dirname(os.path.realpath(__file__))))
sys.path.append(f"{ROOT}/tests")

from judges.json_texts import is_deep_json
from rows.json_texts import INDENTED, JSON
from telling import tell
from timing import LIMIT

# The kinds that no text of declarations names.
OWN = ("own", "void")
# The words, hexadecimal input, the status, and what is printed on each stream.
SAID = [
    ("", "0000002a", 0, b"42\n", b""),
    ("", "0000002a 00", 0, b"42\n", b"ok 4, more follows\n"),
    ("--indent", "0000002a 0000002b", 0, b"42\n", b"ok 4, more follows\n"),
    ("", "0000", 1, b"", b"refused Truncated at 2\n"),
    ("", "0", 1, b"", b"refused bad hex\n"),
    ("--bytes 6", "", 2, b"", b"limits refused\n"),
    ("--types none.x", "", 3, b"", b"read fault\n"),
]
# The stack of a run in KiB, and the deepest values: declarations, the name, how many words of 1 stand before a word of
# 0, and the JSON in three parts: so many times the first, the second, and so many times the third. Depth is 4096.
STACK = 2560
DEEPEST = [
    ("arrays.x", "a", 4095, (4096, "[", "", "]")),
    ("lists.x", "s", 2047, (2047, '{"x":[', '{"x":[]}', "]}")),
    ("optionals.x", "o", 2047, (2047, '{"x":', '{"x":null}', "}")),
    ("unions.x", "u", 4094, (4094, '{"case":true,"x":', '{"case":false}', "}")),
    ("mixed.x", "v", 4094, (2047, '{"case":1,"x":[', '{"case":0}', "]}")),
]


def ended(program, folder, words, given, stack="unlimited"):
    shell = ["sh", "-c", f"ulimit -s {stack}; exec '{program}' show --json {words}"]
    got = subprocess.run(shell, cwd=folder, input=given, capture_output=True, timeout=LIMIT)
    return got.returncode, got.stdout, got.stderr


def is_json(text):
    """Whether Python's reader takes it."""
    try:
        json.loads(text)
        return True
    except ValueError:
        return False


def said_rows(program, folder):
    for words, digits, status, output, faults in SAID:
        got = ended(program, folder, f"--name unsigned --hex {words}", digits.encode())
        well = got == (status, output, faults) and (status != 0 or is_json(got[1]))
        yield tell(f"oncrpc show --json {words}, {digits}", well, got)


def value_rows(program, folder):
    """Each value whose kind a text can declare, in both layouts, and Python's reader takes what is printed."""
    for layout, rows in (("", JSON), ("--indent ", INDENTED)):
        for text, name, digits, wanted in rows:
            if name in OWN:
                continue
            with open(f"{folder}/json.x", "wb") as it:
                it.write(text)
            words = f"{layout}--types json.x --name {name} --hex"
            got = ended(program, folder, words, digits.encode())
            well = is_json(got[1]) and got == (0, wanted.encode() + b"\n", b"")
            yield tell(f"oncrpc show --json {words}, {wanted!r}", well, got)


def deepest_rows(program, folder):
    for text, name, count, (times, front, inmost, back) in DEEPEST:
        given = b"\0\0\0\1" * count + b"\0\0\0\0"
        wanted = front * times + inmost + back * times + "\n"
        got = ended(program, folder, f"--types {text} --name {name}", given, STACK)
        well = got == (0, wanted.encode(), b"") and is_deep_json(got[1])
        name = f"oncrpc show --json --types {text}, {count} deep, {STACK} KiB of stack"
        yield tell(name, well, (got[0], got[1][-99:], got[2]))


def long_rows(program, folder):
    """A mebibyte of content and a hundred thousand numbers, where an allocation failure is wrong."""
    content, numbers = bytes(range(256)) * 4096, range(100000)
    with open(f"{folder}/json.x", "wb") as it:
        it.write(b"typedef unsigned int numbers<>;")
    items = b"".join(number.to_bytes(4, "big") for number in (len(numbers), *numbers))
    for words, given, wanted in (
        ("--name opaque", len(content).to_bytes(4, "big") + content, f'"{content.hex()}"\n'),
        ("--types json.x --name numbers", items, f"[{','.join(map(str, numbers))}]\n"),
        ("--indent --types json.x --name numbers", items, "[\n  " + ",\n  ".join(map(str, numbers)) + "\n]\n"),
    ):
        got = ended(program, folder, words, given)
        well = got == (0, wanted.encode(), b"") and is_json(got[1])
        yield tell(f"oncrpc show --json {words}, {len(given)} bytes", well, (got[0], got[1][:99], got[2]))


def json_rows(program, folder):
    yield from said_rows(program, folder)
    yield from value_rows(program, folder)
    yield from deepest_rows(program, folder)
    yield from long_rows(program, folder)
