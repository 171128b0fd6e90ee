"""Texts in rpcgen's dialect: what they mean, which are refused where, and several as one (docs/LANGUAGE.md)."""
import itertools
import os
import random
import re
import string

from measured.dialect import made
from rows.dialect import ALIKE, COPIES, DEBIAN, FILES, LIBRARY, NLM, REFUSED, SAME
from rows.shared import Case, TEXTS

from .language import declared, told_texts
from .large import refused_text
from .rpcgen import in_the_rfcs_language
from .written import constants_of, is_read, same_answers

INCLUDED = "/usr/include"


def dialect(text, **more):
    return Case("read_dialect", text=text, names=["DEFINED"], **more)


def same_cases():
    """Each text means what the text of the RFCs' language means that goes with it."""
    for plain, *texts in SAME:
        is_same = same_answers()
        yield Case("read", text=plain), is_same
        for text in texts:
            yield dialect(text), is_same
    # Texts without a construct of the dialect, for whatever names.
    for text in TEXTS[:8]:
        is_same = same_answers()
        yield Case("read", text=text), is_same
        yield dialect(text), is_same
        yield Case("read_dialect", text=text), is_same


def read_twice(text):
    """The text means what the text of its second reading means, where `float` and `double` have one more `_`."""
    plain = in_the_rfcs_language(text.decode("latin-1"), ["DEFINED"]).encode("latin-1")
    first = []

    def is_same(told):
        first.append([re.sub(rb"\b(float|double)_", rb"\1", each) for each in told.streams])
        return is_read(told) and first[-1] == first[0]

    yield Case("read", text=plain), is_same
    yield dialect(text), is_same


def random_dialect_cases(seed=1, count=1000):
    """Texts by the grammar of the dialect, and what a second reading makes of them."""
    chance = random.Random(seed)
    for _ in range(count):
        yield from read_twice(made(chance).encode())


def is_declared(kinds, names, constants):
    """Whether just these are declared."""
    wanted = declared(kinds, names, constants, "")
    return lambda told: is_read(told) and told_texts(told) == wanted


def library_cases():
    """A field of each name of rpcgen's library."""
    for place, kind, names in LIBRARY:
        for name in names.split():
            kinds = [*([kind] if kind else []), f"struct ({place} x)"]
            names_of = [(name, place), ("s", 7 + len(kinds))]
            yield dialect(b"struct s { %s x; };" % name.encode()), is_declared(kinds, names_of, [])
    sized = is_declared(["opaque[255]"], [("t", 8)], [("MAXNETNAMELEN", 255)])
    yield dialect(b"typedef opaque t[MAXNETNAMELEN];"), sized


def refused_dialect_cases():
    """Each text is refused with its fault. Without a construct of the dialect it is the one of `read`."""
    for text, *fault in REFUSED:
        yield dialect(text), refused_text(*fault)
    for text in ALIKE:
        first = []
        yield Case("read", text=text), lambda told, first=first: first.append(told.answer) or "refused" in told.answer
        yield dialect(text), lambda told, first=first: told.answer == first[0]
    yield dialect(b" " * 262145), refused_text(11, 0, 1, 1)
    yield dialect(b"#else\n" + b" " * 262139), refused_text(11, 0, 1, 1)
    # The place behind the last byte of the longest text.
    yield dialect(b"#if 1\n" + b" " * 262138), refused_text(3, 0, 2, 262139)


def file_cases():
    """Several files as one text, and the place of a line of it."""
    for texts, places in FILES:
        whole = b"\n".join(texts)
        case = Case("join_texts", texts=texts or None)
        yield case, lambda told, whole=whole: (told.answer, told.streams) == ("ok", [whole])
        for line, number, there in places:
            case = Case("place_in", texts=texts or None, line=line)
            yield case, lambda told, wanted=f"{number} {there}": told.answer == wanted
    # What one declares another finds, and a fault is found in its file.
    first, second = b"%one\ntypedef unsigned a;\n", b"struct s {\n  a x;\n  b y;\n};\n"
    is_same = same_answers()
    yield Case("read", text=b"typedef unsigned int a; struct s { a x; };"), is_same
    yield dialect(b"\n".join((first, second[:17] + second[24:]))), is_same
    yield dialect(b"\n".join((first, second))), refused_text(6, 0, 6, 3)
    yield Case("place_in", texts=[first, second], line=6), lambda told: told.answer == "1 3"


def installed(name):
    with open(f"{INCLUDED}/{name}", "rb") as file:
        return file.read()


def copied_cases():
    """What each of Debian's files has of the dialect, in other words, behind what it takes from others."""
    texts = {name: text for name, _, text, _ in COPIES}
    for name, others, text, plain in COPIES:
        is_same = same_answers()
        yield Case("read", text=plain), is_same
        yield dialect(b"\n".join([*map(texts.get, others), text])), is_same


def debian_cases():
    """The files of declarations that are installed, each behind what it takes from others, and what they mean."""
    for name, others in DEBIAN:
        if all(os.path.exists(f"{INCLUDED}/{each}") for each in (name, *others)):
            yield from read_twice(b"\n".join(map(installed, [*others, name])))
    sizes, name = NLM
    if os.path.exists(f"{INCLUDED}/{name}"):
        yield from read_twice(sizes + installed(name))


def most_constructs_cases():
    """As many of one construct as a text may have: sections in one another, members without numbers, names in place of
    numbers, each one's name or each the one before, and names of arguments."""
    empty = same_answers()
    yield Case("read", text=b""), empty
    yield dialect(b"#if 1\n" * 20164 + b"#endif\n" * 20164), empty
    names = ["".join(each) for each in itertools.islice(itertools.product(string.ascii_uppercase, repeat=4), 52426)]
    numbered = ["TRUE = 1", "FALSE = 0", *(f"{name} = {number}" for number, name in enumerate(names))]
    text = f"enum e {{{','.join(names)}}};".encode()
    yield dialect(text), lambda told: is_read(told) and constants_of(told) == numbered
    aliases = b"const b=7;" + b"".join(b"const A%04x=b;" % number for number in range(18723))
    arguments = b"program P{version V{void F(" + b",".join([b"int a"] * 43600) + b")=1;}=1;}=2;"
    chain = b"const A0000=7;" + b"".join(b"const A%04x=A%04x;" % (number + 1, number) for number in range(14562))
    for text, plain in (
        (aliases, aliases.replace(b"=b;", b"=7;")),
        (chain, re.sub(b"=A[^;]*;", b"=7;", chain)),
        (arguments, arguments.replace(b"int a", b"int")),
    ):
        is_same = same_answers()
        yield Case("read", text=plain), is_same
        yield dialect(text), is_same


def large_dialect_cases():
    """The longest texts, full of constructs, with their meaning; and files of a mebibyte."""
    line, plain = b"%%x\nconst C%05d = \"a\"; struct s%05d { unsigned x; };\n", b"struct s%05d { unsigned int x; };"
    text = b"".join(line % (number, number) for number in range(1000))
    is_same = same_answers()
    yield Case("read", text=b"".join(plain % number for number in range(1000))), is_same
    yield dialect(text + b"%" + b"x" * (262143 - len(text))), is_same
    empty = same_answers()
    yield Case("read", text=b""), empty
    yield dialect(b"%x\n" * 87381), empty
    yield dialect(b"#if DEFINED\n#else\n@\n#endif\n" * 9000), empty
    # The same with comments in the lines, and one line whose comment is all of the text.
    yield dialect(b"#if/**/DEFINED/*\n*/\n#else// /*\n@\n#endif\n" * 6000), empty
    yield dialect(b"#/*" + b"#\n" * 131000 + b"*/"), empty
    # The most names that are asked for behind the most that a text defines, alike and each another.
    asked = b"#ifdef b\n#endif\n" * 8192
    yield dialect(b"#define a\n" * 13107 + asked), empty
    each = b"".join(b"#define a%04x\n" % number for number in range(9362))
    yield dialect(each + asked), empty
    yield dialect(each + b"#ifndef a2491\n@\n#endif\n" * 5698), empty
    yield from most_constructs_cases()
    yield dialect(b"%\n" * 131071 + b"@"), refused_text(1, 0, 131072, 1)
    texts = [bytes([10, 65 + number]) * 50000 for number in range(11)]
    whole = b"\n".join(texts)
    case = Case("join_texts", texts=texts)
    yield case, lambda told: (told.answer, told.streams) == ("ok", [whole])
    yield Case("place_in", texts=texts, line=50002 + 3), lambda told: told.answer == "1 4"
    yield Case("place_in", texts=texts, line=10 * 50001 + 50001), lambda told: told.answer == "10 50001"


def dialect_cases():
    yield from same_cases()
    yield from library_cases()
    yield from refused_dialect_cases()
    yield from file_cases()
    yield from copied_cases()
    yield from debian_cases()


def dialect_rows():
    """What is swept: each text of the dialect, and files that are joined."""
    for _, *texts in SAME:
        for text in texts:
            yield dialect(text), is_read
    for text, *fault in REFUSED:
        yield dialect(text), refused_text(*fault)
    for texts, _ in FILES[3:]:
        whole = b"\n".join(texts)
        case = Case("join_texts", texts=texts)
        yield case, lambda told, whole=whole: (told.answer, told.streams) == ("ok", [whole])


def no_memory_cases():
    """`place_in` asks for no memory."""
    for texts, places in FILES:
        for line, number, there in places:
            case = Case("place_in", texts=texts or None, line=line, refuse="1..")
            yield case, lambda told, wanted=f"{number} {there}": (told.met, told.answer) == (0, wanted)
