"""Bytes of random values of the kinds that a text declares, as the probe tells them (RFC 4506 section 4)."""
import functools
import re
import struct


def word(number):
    return struct.pack(">I", number & 0xFFFFFFFF)


def padded(run):
    return run + bytes(-len(run) % 4)


class Sampler:
    """Makes the bytes of values. A small one has numbers from 0 to 127 alone, which a char of C keeps."""

    def __init__(self, random, kinds, small):
        self.random, self.kinds, self.small = random, kinds, small

    def number(self):
        return self.random.choice((0, 1, 127, self.random.randrange(128 if self.small else 1 << 32)))

    def run(self, low, length):
        return padded(bytes(it or low for it in self.random.randbytes(length)))

    def count(self, most, left):
        return self.random.randrange(min(most, 3 if left > 0 else 0) + 1)

    def value(self, place, left):
        """The bytes of a value of the kind at that place, that holds others so many deep."""
        kind = self.kinds[place]
        if kind in ("int", "unsigned int"):
            return word(self.number())
        if kind in ("hyper", "unsigned hyper"):
            return word(0 if self.small else self.number()) + word(self.number())
        if kind == "bool":
            return word(self.random.randrange(2))
        if kind == "void":
            return b""
        if kind.startswith("enum"):
            return word(self.random.choice(numbers(kind)))
        return self.holder(kind, left - 1)

    def holder(self, kind, left):
        name, mark, of, size = held(kind)
        if name in ("opaque", "string"):
            if mark == "[":
                return self.run(0, size)
            length = self.random.randrange(min(size, 9) + 1)
            return word(length) + self.run(1 if name == "string" else 0, length)
        if name == "array":
            count = size if mark == "[" else self.count(size, left)
            return (b"" if mark == "[" else word(count)) + b"".join(self.value(of, left) for _ in range(count))
        if name == "optional":
            there = self.random.randrange(2) if left > 0 else 0
            return word(there) + (self.value(of, left) if there else b"")
        if name == "struct":
            return b"".join(self.value(it, left) for it in of)
        return self.choice(kind, left)

    def choice(self, kind, left):
        tag, cases, other = arms(kind)
        free = [it for it in self.legal(self.kinds[tag]) if it not in cases] if other is not None else ()
        if free and self.random.random() < 0.3:
            return word(self.random.choice(free)) + self.value(other, left)
        case = self.random.choice(tuple(cases))
        return word(case) + self.value(cases[case], left)

    def legal(self, kind):
        if kind.startswith("enum"):
            return numbers(kind)
        return (0, 1) if kind == "bool" else [self.number() for _ in range(8)]


@functools.lru_cache(maxsize=None)
def numbers(kind):
    """The numbers of an enumeration's members."""
    return [int(it) for it in re.findall(r" = (-?\d+)", kind)]


@functools.lru_cache(maxsize=None)
def held(kind):
    """What a kind is: its name, the mark before its size, the place or the places of what it holds, and the size."""
    sized = re.fullmatch(r"(opaque|string|array) ?(\d*)([\[<])(\d+)[\]>]", kind)
    if sized:
        name, of, mark, size = sized.groups()
        return name, mark, int(of or 0), int(size)
    name, rest = kind.split(" ", 1)
    if name == "optional":
        return name, "", int(rest), 0
    return name, "", [int(it.split()[0]) for it in rest[1:-1].split("; ")] if name == "struct" else None, 0


@functools.lru_cache(maxsize=None)
def arms(kind):
    """The place of a union's discriminant, the places of its arms by their cases, and that of its default."""
    tag, texts = re.fullmatch(r"union (\d+) \((.*)\)", kind).groups()
    cases, other = {}, None
    for arm in texts.split("; "):
        under = [int(it) for it in re.findall(r"case (-?\d+): ", arm)]
        part = int(re.search(r"(?:^|: )(\d+) \w*$", arm)[1])
        cases.update(dict.fromkeys(under, part))
        other = other if under else part
    return int(tag), cases, other
