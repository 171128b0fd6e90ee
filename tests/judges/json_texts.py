"""JSON of values, by their trees and by their bytes, in both layouts. Rows are worked by hand; of random values
`mapping` says what is to be told. Each text is read by Python's json too."""
import itertools
import json
import sys

from rows.codec import CODED
from rows.json_texts import INDENTED, JSON
from rows.shared import Case, LIST, MORE, REFUSED, WHOLE, octets, word

from .mapping import is_json_of, kinds_of, places_of, texts_of, value_in
from .random_values import random_values
from .running import run
from .values import typed

CALLS = ("write_json", "json_of_bytes")
LAYOUTS = ("", "indented")


def both(layout, given, kind):
    """The two calls that write one text."""
    return [Case(call, layout=layout or None, given=given, **kind) for call in CALLS]


def is_text(wanted):
    """Whether just these bytes are told, and they are JSON."""
    def is_well(told):
        json.loads(told.streams[0])
        return (told.answer, told.streams) == ("ok", [wanted])

    return is_well


def is_deep_json(text):
    """Whether Python's json reads a text that nests as deep as a value may."""
    before = sys.getrecursionlimit()
    sys.setrecursionlimit(10000)
    try:
        json.loads(text)
        return True
    except ValueError:
        return False
    finally:
        sys.setrecursionlimit(before)


def worked_cases():
    """Rows worked by hand, also with bytes behind the value. The indented layout says the same as the compact one."""
    for layout, rows in zip(LAYOUTS, (JSON, INDENTED)):
        for (text, name, digits, wanted), more in itertools.product(rows, (b"", b"\7")):
            kind = {"kind": name, "text": text}
            for case in both(layout, octets(digits) + more, kind):
                yield case, is_text(wanted.encode())
    for text, name, digits, wanted in JSON:
        value = json.loads(wanted)
        for case in both("indented", octets(digits), {"kind": name, "text": text}):
            yield case, lambda told, value=value: told.answer == "ok" and is_json_of(told.streams[0], value)


def mapped_rows():
    """The rows of values as they are encoded: a text, a kind and its place, the kinds of the text, and the bytes."""
    rows = [(row.text, row.name, octets(row.digits)[: row.used]) for row in WHOLE]
    rows += [(text, name, octets(digits)) for text, name, digits, _ in CODED]
    texts = run([Case("read", text=text) for text, *_ in rows])
    for (text, name, given), told in zip(rows, texts):
        place = 5 if name == "void" else places_of(told)[name]
        yield text, kinds_of(told), name, place, given


def is_mapped(value, wanted):
    """Whether the text is this one, which Python's json reads as the JSON value."""
    is_read = is_json_of(wanted, value)
    return lambda told: is_read and (told.answer, told.streams) == ("ok", [wanted])


def mapped_cases(rows):
    """Each value by both calls in both layouts, as the mapping has it."""
    for text, kinds, name, place, given in rows:
        value, used = value_in(kinds, place, given)
        assert used == len(given), (text, name, given.hex())
        for layout, wanted in texts_of(value).items():
            is_well = is_mapped(value, wanted)
            for case in both(layout, given, {"kind": name, "text": text}):
                yield case, is_well


def json_cases():
    yield from worked_cases()
    yield from mapped_cases(mapped_rows())


def random_json_cases(seed=1, count=2000):
    yield from mapped_cases(random_values(seed, count))


def large_json_cases():
    """A mebibyte of content, and a hundred thousand numbers."""
    content = bytes(range(256)) * 4096
    plain = b"a\xc3\xa9\"" * 262144
    rows = [
        (b"", "opaque", content, b'"' + content.hex().encode() + b'"'),
        (b"", "string", plain, b'"' + plain.replace(b'"', b'\\"') + b'"'),
        (b"", "string", content, b'{"hex":"' + content.hex().encode() + b'"}'),
    ]
    for text, name, bytes_of, wanted in rows:
        for case in both("", word(len(bytes_of)) + bytes_of, {"kind": name, "text": text}):
            yield case, is_text(wanted)
    items = word(100000) + b"".join(word(number) for number in range(100000))
    numbers = [*map(str, range(100000))]
    for layout, wanted in (("", f"[{','.join(numbers)}]"), ("indented", "[\n  " + ",\n  ".join(numbers) + "\n]")):
        for case in both(layout, items, {"kind": "big", "text": MORE}):
            yield case, is_text(wanted.encode())


def deep_json_cases():
    """The deepest list: 2047 links. Its JSON has 2047 objects inside one another."""
    given = (word(1) + word(1) + b"a\0\0\0") * 2047 + word(0)
    compact = b'{"item":"a","next":' * 2047 + b"null" + b"}" * 2047
    lines = [b"{\n%s" % (b"  " * (depth + 1)) + b'"item": "a",\n%s"next": ' % (b"  " * (depth + 1))
             for depth in range(2047)]
    ends = [b"\n" + b"  " * depth + b"}" for depth in reversed(range(2047))]
    for layout, wanted in (("", compact), ("indented", b"".join(lines) + b"null" + b"".join(ends))):
        for case in both(layout, given, {"kind": "list", "text": LIST}):
            yield case, lambda told, wanted=wanted: told.streams == [wanted] and is_deep_json(told.streams[0])


def json_rows():
    """What is swept: each row worked by hand, by both calls, and content that is put into digits in a string of its
    own."""
    for layout, rows in zip(LAYOUTS, (JSON, INDENTED)):
        for text, name, digits, wanted in rows:
            for case in both(layout, octets(digits), {"kind": name, "text": text}):
                yield case, is_text(wanted.encode())
    content = bytes(range(65))
    for case in both("", word(65) + content + bytes(3), {"kind": "opaque"}):
        yield case, is_text(b'"' + content.hex().encode() + b'"')
