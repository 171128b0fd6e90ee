"""Kinds of the language, each with its declaration and with values that a seeded generator makes (RFC 4506)."""
import itertools
import struct
from typing import Callable, NamedTuple

# Definitions have numbers, so that no two have one name.
NUMBERS = itertools.count(1)
# About how many bytes the values of `filled` and `linked` have.
WANTED = 12500


class Kind(NamedTuple):
    """The definitions that stand before, what stands before and behind a name that is declared, and how a value's bytes
    are made of a generator."""

    before: tuple
    front: str
    behind: str
    value: Callable

    def declared(self, name):
        return f"{self.front} {name}{self.behind}"


def word(number):
    """A unit (RFC 4506 section 3)."""
    return struct.pack(">I", number & 0xFFFFFFFF)


def content(bytes_of):
    """A length, so many bytes and their padding (RFC 4506 section 4.10)."""
    return word(len(bytes_of)) + bytes_of + bytes(-len(bytes_of) % 4)


def between(least, most):
    """A count from one to another, another one each time."""
    return lambda random: random.randint(least, most)


VOID = Kind((), "void", "", lambda random: b"")
INT = Kind((), "int", "", lambda random: random.randbytes(4))
UNSIGNED = Kind((), "unsigned int", "", lambda random: random.randbytes(4))
HYPER = Kind((), "hyper", "", lambda random: random.randbytes(8))
BOOL = Kind((), "bool", "", lambda random: word(random.randrange(2)))


def text(least, most):
    """A string of so many letters."""
    return Kind(
        (),
        "string",
        "<>",
        lambda random: content(bytes(random.choices(b"abcdefgh", k=random.randint(least, most)))),
    )


def octets(size):
    return Kind((), "opaque", f"[{size}]", lambda random: random.randbytes(size) + bytes(-size % 4))


def octets_up_to(most, size):
    """An opaque that may have so many bytes, and has as many as are told."""
    return Kind((), "opaque", f"<{most}>", lambda random: content(random.randbytes(size(random))))


def enumeration(members):
    """An enumeration with the numbers from 0 on."""
    name = f"e{next(NUMBERS)}"
    numbers = ", ".join(f"{name}_{number} = {number}" for number in range(members))
    return Kind((f"enum {name} {{ {numbers} }};",), name, "", lambda random: word(random.randrange(members)))


def named(kind):
    """The kind by a name of its own, where its declaration is more than a word before a name."""
    if " " not in kind.front and not kind.behind:
        return kind
    name = f"t{next(NUMBERS)}"
    return Kind((*kind.before, f"typedef {kind.declared(name)};"), name, "", kind.value)


def together(kinds):
    """The definitions before some kinds, each once."""
    return tuple(dict.fromkeys(line for kind in kinds for line in kind.before))


def structure(*fields):
    name = f"s{next(NUMBERS)}"
    body = " ".join(f"{field.declared(f'f{place}')};" for place, field in enumerate(fields))
    return Kind(
        (*together(fields), f"struct {name} {{ {body} }};"),
        name,
        "",
        lambda random: b"".join(field.value(random) for field in fields),
    )


def union(*arms, taken=None):
    """A union over an int, whose first arm has the number 1. The arm with the number that is told is taken, or any."""
    name = f"u{next(NUMBERS)}"
    cases = " ".join(
        f"case {place}: {arm.front if arm is VOID else arm.declared(f'a{place}')};" for place, arm in enumerate(arms, 1)
    )

    def value(random):
        number = taken(random) if taken else random.randint(1, len(arms))
        return word(number) + arms[number - 1].value(random)

    return Kind((*together(arms), f"union {name} switch (int d) {{ {cases} }};"), name, "", value)


def fixed(item, size):
    item = named(item)
    return Kind(
        item.before, item.front, f"[{size}]", lambda random: b"".join(item.value(random) for _ in range(size))
    )


def counted(item, size):
    """An array of as many items as are told."""
    item = named(item)

    def value(random):
        count = size(random)
        return word(count) + b"".join(item.value(random) for _ in range(count))

    return Kind(item.before, item.front, "<>", value)


def optional(item, percent=100):
    """A part that is there so often."""
    item = named(item)

    def value(random):
        return word(1) + item.value(random) if random.randrange(100) < percent else word(0)

    return Kind(item.before, f"{item.front} *", "", value)


def filled(item, wanted=WANTED):
    """An array of as many items as make so many bytes."""
    item = named(item)

    def value(random):
        items = []
        while sum(map(len, items)) < wanted:
            items.append(item.value(random))
        return word(len(items)) + b"".join(items)

    return Kind(item.before, item.front, "<>", value)


def linked(*fields, wanted=WANTED):
    """A list of nodes, each of which has the next one."""
    name = f"n{next(NUMBERS)}"
    body = " ".join(f"{field.declared(f'f{place}')};" for place, field in enumerate(fields))

    def value(random):
        made = b""
        while len(made) < wanted:
            made += word(1) + b"".join(field.value(random) for field in fields)
        return made + word(0)

    return Kind((*together(fields), f"struct {name} {{ {body} {name} *next; }};"), f"{name} *", "", value)


def tree(field, most, depth):
    """A node with up to so many nodes of its own, so deep."""
    name = f"n{next(NUMBERS)}"

    def value(random, left=depth):
        count = random.randint(0, most) if left else 0
        return field.value(random) + word(count) + b"".join(value(random, left - 1) for _ in range(count))

    return Kind((*field.before, f"struct {name} {{ {field.declared('f')}; {name} kids<>; }};"), name, "", value)


def around(levels, kind):
    """So many structures of one field, each in the other, around a kind."""
    value = kind.value
    for _ in range(levels):
        kind = structure(kind)._replace(value=value)
    return kind


def spoiled(kind):
    """Values that are refused for their last unit, which is the number of no boolean and of no enumeration."""
    return kind._replace(value=lambda random: kind.value(random)[:-4] + word(0x7FFFFFFF))
