"""Values of JSON texts: the bytes of each, or why a text is refused and where. Rows are worked by hand, and `spelled`
says once more what each is to tell."""
import itertools
import json

from rows import json_by_kind
from rows.json_grammar import FORMS, INVALID, NUMBERS, OPEN, VALID, WELL_FORMED
from rows.json_read import LIMITED, ORDERED, READ, REFUSED
from rows.json_texts import INDENTED, JSON, TWICE
from rows.shared import Case, LIST, WIDEST, octets, word

from .mapping import kinds_of, places_of
from .running import run
from .spelled import place_of, told_of_text

# The union `own`, which no text declares: its kinds, and where it stands.
OWN = [("hyper", None), ("bool", None), ("union", (1, {1: (0, "case"), 0: (0, "")}, None))]
OWN_PLACE = 2


def reading(text, kind, given, depth=4096, most=WIDEST):
    return Case("read_json", kind=kind, text=text, given=given, depth=depth, bytes=most)


def is_told(answer, *streams):
    return lambda told: (told.answer, told.streams) == (answer, [*streams])


def marked_place(marked):
    """A text without its mark, and the place of that, as line and column."""
    given = marked.replace(b"^", b"")
    return given, place_of(given, marked.index(b"^"))


def refused(text, kind, marked, why, depth=4096, most=WIDEST):
    """A text that is refused where it is marked; one that is read where there is no reason."""
    given, place = marked_place(marked)
    return reading(text, kind, given, depth, most), is_told(f"refused {why} at {place}")


def of_hyper(text, wanted):
    """A number in an array of hyper integers."""
    if isinstance(wanted, str):
        return refused(FORMS, "hypers", f"[^{text}]".encode(), wanted)
    wanted = word(1) + wanted.to_bytes(8, "big", signed=True)
    return reading(FORMS, "hypers", f"[{text}]".encode()), is_told("ok", wanted)


def worked_rows():
    """Rows worked by hand: texts that are read, and texts that are refused."""
    for text, kind, given, digits in READ + json_by_kind.READ + VALID:
        yield reading(text, kind, given), is_told("ok", octets(digits))
    for text, kind, digits, given in JSON + INDENTED:
        yield reading(text, kind, given.encode()), is_told("ok", octets(digits))
    for text, kind, marked, why in REFUSED + ORDERED + WELL_FORMED:
        yield refused(text, kind, marked, why)
    for text, kind, marked in INVALID + OPEN:
        yield refused(text, kind, marked, "NotJson")
    yield from itertools.starmap(of_hyper, NUMBERS)


def limited_rows():
    for text, kind, marked, why in json_by_kind.REFUSED:
        yield refused(text, kind, marked, why, 8, 64)
    for depth, most, text, kind, marked, why in LIMITED:
        if why:
            yield refused(text, kind, marked, why, depth, most)
        else:
            given, _ = marked_place(marked)
            yield reading(text, kind, given, depth, most), lambda told: told.answer == "ok"


def with_kinds(cases):
    """Each case with the kinds of its text, and the place of its own kind."""
    texts = [*dict.fromkeys(case.text for case in cases)]
    meant = dict(zip(texts, run([Case("read", text=text) for text in texts])))
    for case in cases:
        if case.kind == "own":
            yield case, OWN, OWN_PLACE
        else:
            told = meant[case.text]
            yield case, kinds_of(told), 5 if case.kind == "void" else places_of(told)[case.kind]


def judged_again(rows):
    """Each row, and once more by the second reading; both want the same."""
    rows = [*rows]
    for (case, is_well), (_, kinds, place) in zip(rows, with_kinds([case for case, _ in rows])):
        wanted = told_of_text(kinds, place, case.given, case.depth, case.bytes)
        is_same = is_told(wanted[0], *wanted[1])
        yield case, lambda told, is_well=is_well, is_same=is_same: is_well(told) and is_same(told)


def json_read_cases():
    yield from judged_again([*worked_rows(), *limited_rows()])


def is_json(given):
    """Whether Python's json reads a text, which takes some names that are no JSON."""
    try:
        json.loads(given.decode())
    except ValueError:
        return False
    return True


def grammar_judged():
    """Each text of the grammar, and whether it is JSON, but for names of numbers that Python's json takes."""
    taken = b"NaN", b"Infinity"
    for text, kind, given, _ in VALID:
        yield text, kind, given, True
    for text, kind, marked in INVALID:
        given, _ = marked_place(marked)
        if not any(name in given for name in taken):
            yield text, kind, given, False


def json_grammar_cases():
    """Each text of the grammar, of another kind: it is `NotJson` exactly if it is no JSON to Python's json."""
    for text, _, given, wanted in grammar_judged():
        assert is_json(given) == wanted, given
        yield reading(text, "void", given), lambda told, wanted=wanted: ("NotJson" in told.answer) != wanted


def deep_read_cases():
    """The deepest values and the deepest texts: 2047 links, 4096 arrays and objects, and one more of each."""
    entry = b'{"item":"a","next":'
    links = (word(1) + word(1) + b"a\0\0\0") * 2047 + word(0)
    yield reading(LIST, "list", entry * 2047 + b"null" + b"}" * 2047), is_told("ok", links)
    more = entry * 2048 + b"null" + b"}" * 2048
    yield reading(LIST, "list", more), is_told(f"refused TooDeep at 1:{len(more) + 1}")
    lists = word(1) * 4095 + word(0)
    yield reading(FORMS, "lists", b"[" * 4096 + b"]" * 4096), is_told("ok", lists)
    # What opens arrays and objects, how many of them, and how far before the next bracket the place lies.
    for opening, closing, opened, before in ((b"[", b"]", 1, 0), (b'{"a":', b"}", 1, 4), (b'[{"a":', b"}]", 2, 4)):
        count = 4096 // opened
        wanted = is_told(f"refused TooDeep at 1:{len(opening) * count - before + 1}")
        for given in (opening * count + b"[" * 9, opening * count + b"[]" + closing * count):
            yield reading(TWICE, "twice", given), wanted
    # A bracket behind a comma and a line feed, and a key so, before the 4097th bracket.
    for given, place in ((b"[" * 4096 + b"1,\n  [", "2:3"), (b'{"a":' * 4095 + b'{"b":1,\n "c" : [', "2:2")):
        yield reading(TWICE, "twice", given), is_told(f"refused TooDeep at {place}")
    # What stands under an unknown key nests as deep as any other. No JSON before the bracket is told before it, and no
    # UTF-8 behind it, too.
    unknown = b'"x":' + b"[" * 4095
    yield reading(LIST, "list", b"{" + unknown + b"]" * 4095 + b"}"), is_told("refused UnknownMember at 1:2")
    yield reading(LIST, "list", b"{" + unknown + b"["), is_told(f"refused TooDeep at 1:{len(unknown) + 2}")
    yield reading(LIST, "list", b'{"y":tru,' + unknown + b"["), is_told("refused NotJson at 1:6")
    yield reading(LIST, "list", b"{" + unknown + b"[\xff"), is_told(f"refused NotJson at 1:{len(unknown) + 3}")


def large_read_cases():
    """A mebibyte of content in each form, a hundred thousand numbers, and as many lines."""
    content = bytes(range(256)) * 4096
    plain = b"a\xc3\xa9\n" * 262144
    escaped = plain.replace(b"\n", b"\\n").replace(b"\xc3\xa9", b"\\u00e9")
    digits = content.hex().encode()
    for kind, given, wanted in (
        ("opaque", b'"%s"' % digits, content),
        ("opaque", b'"%s"' % digits.upper(), content),
        ("string", b'{"hex":"%s"}' % digits, content),
        ("string", b'"%s"' % plain.replace(b"\n", b"\\n"), plain),
        ("string", b'"%s"' % escaped, plain),
    ):
        yield reading(b"", kind, given), is_told("ok", word(len(wanted)) + wanted)
    numbers = [number * 2654435761 % 2**32 for number in range(100000)]
    wanted = word(len(numbers)) + b"".join(map(word, numbers))
    for between in (",", ",\n"):
        yield reading(FORMS, "counts", f"[{between.join(map(str, numbers))}]".encode()), is_told("ok", wanted)
    given = f"[{','.join(map(str, numbers))},-1]".encode()
    answer = f"refused OutOfRange at 1:{len(given) - 2}"
    yield reading(FORMS, "counts", given), is_told(answer)
    lines = b"[" + b",\n".join([b'"x"'] * 100000) + b',\n\n  null]'
    yield reading(FORMS, "lines", lines), is_told("refused WrongType at 100002:3")


# A structure of many fields, an enumeration of many members, and a union.
WIDE = b"struct wide { " + b"".join(b"int a%d; " % number for number in range(10000)) + b"};"
LONG = b"enum many { " + b", ".join(b"N%d = %d" % (each, each) for each in range(9000)) + b" }; typedef many manys<>;"
PICKED = b"union picked switch (int d) { case 1: int a; default: void; }; typedef picked all<>;"
# Objects within one another, of many members each.
CHAIN = b"struct chain { chain *next; " + b"".join(b"int a%d; " % number for number in range(9000)) + b"};"
PAIRS = b"struct pair { int a; int b; }; typedef pair pairs<>;"
# Arrays within one another.
NESTED = b"[" * 4000 + b"]" * 4000


def listed(item, count):
    """An array of so many items."""
    return b"[" + b",".join([item] * count) + b"]"


def hostile_read_cases():
    """Texts of a mebibyte that are made to take long, each of the kinds to which it may be dear."""
    most = 1 << 20
    distinct = b",".join(b'"m%06d":1' % number for number in range(100000))
    twice = b"{" + b",".join([b'"a":1'] * 100000) + b"}"
    escapes = b'"' + b"\\u0031" * (most // 6) + b'"'
    backwards = b",".join(b'"a%d":1' % number for number in reversed(range(10000)))
    unfinished = b'{"next":' * 4000 + b"null" + b',"no such":1}' * 4000
    picked = listed(b'{"a":1,"case":1}', most // 17)
    pairs = listed(b'{"b":1,"a":1}', most // 14)
    rows = [
        (FORMS, "lists", b"[" * most, "TooDeep"),
        (FORMS, "lists", b'{"a":' * (most // 5), "TooDeep"),
        (b"", "int", listed(NESTED, most // 8001), "WrongType"),
        (b"", "string", escapes, "ok"),
        (b"", "int", escapes, "OutOfRange"),
        (b"", "opaque", escapes + b"x", "NotJson"),
        (LONG, "many", escapes, "UnknownName"),
        (b"", "int", b"1" * most, "OutOfRange"),
        (b"", "int", b"0." + b"1" * most, "NotWhole"),
        (b"", "string", b'"' + b"\\" * most + b'"', "ok"),
        (WIDE, "wide", b"{%s}" % distinct, "UnknownMember"),
        (WIDE, "wide", b"{%s}" % backwards, "ok"),
        (WIDE, "wide", b'{%s,"a1":1}' % backwards, "MemberTwice"),
        (PICKED, "picked", b"{%s}" % distinct, "MissingMember"),
        (PICKED, "picked", b'{%s,"case":1}' % distinct, "UnknownMember"),
        (PICKED, "picked", twice, "MissingMember"),
        (PICKED, "all", picked, "ok"),
        # The last value is wrong, and what stands before it is gone over once more.
        (WIDE, "wide", b"{%strue}" % backwards[:-1], "WrongType"),
        (PICKED, "all", picked[:-1] + b',{"a":true,"case":1}]', "WrongType"),
        (PAIRS, "pairs", pairs[:-1] + b',{"b":1,"a":true}]', "WrongType"),
        (CHAIN, "chain", unfinished, "UnknownMember"),
        (FORMS, "member", twice, "WrongType"),
        (FORMS, "member", twice.replace(b"1", b'""'), "MemberTwice"),
        (LONG, "manys", listed(b'"N8999"', most // 8), "ok"),
        (TWICE, "twice", b"[" + b" " * most + b"null]", "ok"),
        (FORMS, "maybes", listed(b"null", most // 5), "ok"),
    ]
    for text, kind, given, why in rows:
        yield reading(text, kind, given), lambda told, why=why: why in told.answer


def dear_read_cases():
    """The same of texts that take longer: half a million arrays that are read, numbers among thousands of names."""
    most = 1 << 20
    for text, kind, given, why in (
        (FORMS, "lists", listed(NESTED, most // 8001), "ok"),
        (FORMS, "lists", listed(NESTED, most // 8001)[:-1] + b",1]", "WrongType"),
        (LONG, "manys", listed(b"8999", most // 5), "ok"),
    ):
        yield reading(text, kind, given), lambda told, why=why: why in told.answer


def json_read_rows():
    """What is swept: each row worked by hand."""
    yield from worked_rows()
    yield from limited_rows()
