"""Random declarations and random values of them, for judges that know what is to be told of each value."""
import random
import struct

from rows.shared import Case, word

from .mapping import kinds_of, places_of
from .running import run

BASIC = ["int", "unsigned int", "hyper", "unsigned hyper", "bool"]
# Names of fields and arms, some of which JSON knows otherwise.
NAMES = ["a", "hex", "case_", "null", "b", "Z9_"]
# Content that is UTF-8, that JSON escapes, and that is no UTF-8: cut, overlong, a surrogate, above the last character.
PIECES = [b"", b"a", b'"', b"\\", b"/", b"\0", b"\n\t\r\b\f", b"\x1f", b"\x7f", "\u00e9".encode(), "\u2028".encode(),
          "\U0001f600".encode(), b"\xff", b"\xc0\x80", b"\xed\xa0\x80", b"\xf4\x90\x80\x80", b"\xe2\x82", b"\xbf"]
UNITS = [0, 1, 2, 7, 0x7FFFFFFF, 0x80000000, 0xFFFFFFFF]


class Declarations:
    """A text of declarations, each of the kinds declared before it, or of itself behind an array or an optional."""

    def __init__(self, source):
        self.source, self.lines, self.solid = source, [], list(BASIC)

    def declared(self, name):
        """What declares a name after a kind of the text: alone, or in brackets."""
        random = self.source
        kind = random.choice(self.solid[-4:] if random.randrange(4) else BASIC)
        match random.randrange(10):
            case 0:
                return f"opaque {name}[{random.randrange(1, 9)}]"
            case 1:
                return f"opaque {name}<{random.choice(('', 5, 64))}>"
            case 2:
                return f"string {name}<{random.choice(('', 5, 64))}>"
            case 3:
                return f"{kind} {name}[{random.randrange(1, 4)}]"
            case 4:
                return f"{kind} {name}<{random.choice(('', 3))}>"
            case 5 | 6:
                return f"{kind} *{name}"
        return f"{kind} {name}"

    def part(self, name):
        return "void" if self.source.randrange(4) == 0 else self.declared(name)

    def fields(self):
        names = self.source.sample(NAMES, self.source.randrange(1, 5))
        return "".join(f" {self.declared(name)};" for name in names)

    def arms(self, name):
        """The discriminant and the arms of a union."""
        random = self.source
        tag, cases = random.choice([("int", ["-1", "0", "5"]), ("unsigned int", ["0", "4294967295"]),
                                    ("bool", ["TRUE", "FALSE"]), (f"e{name}", [f"X{name}", f"Y{name}"])])
        names = iter(random.sample(NAMES, len(cases) + 1))
        chosen = cases[: random.randrange(1, len(cases) + 1)]
        arms = "".join(f" case {each}: {self.part(next(names))};" for each in chosen)
        other = f" default: {self.part(next(names))};" if random.randrange(2) else ""
        return f"({tag} d) {{{arms}{other} }}"

    def add(self, number):
        """Adds a definition, and gives the name of its kind."""
        random, name = self.source, f"t{number}"
        match random.randrange(9):
            case 0:
                numbers = [random.choice((-1, 0, 1, 5, 2147483647, -2147483648)) for _ in range(3)]
                members = ", ".join(f"M{number}_{place} = {each}" for place, each in enumerate(numbers))
                self.lines.append(f"enum {name} {{ {members} }};")
            case 1 | 2 | 3:
                own = random.choice(("", f" {name} *next;", f" {name} more<>;"))
                self.lines.append(f"struct {name} {{{self.fields()}{own} }};")
            case 4 | 5:
                self.lines.append(f"enum e{number} {{ X{number} = 0, Y{number} = -7 }};")
                self.lines.append(f"union {name} switch {self.arms(number)};")
            case _:
                self.lines.append(f"typedef {self.declared(name)};")
        self.solid.append(name)
        return name


def random_text(source):
    """A text, and the names of its kinds."""
    made = Declarations(source)
    names = [made.add(number) for number in range(source.randrange(3, 12))]
    return "\n".join(made.lines).encode(), names[-4:]


class Maker:
    """The bytes of random values of kinds, which get small as they get deep."""

    def __init__(self, source, kinds):
        self.source, self.kinds = source, kinds

    def unit(self):
        return self.source.choice(UNITS) if self.source.randrange(3) else self.source.getrandbits(32)

    def content(self, most):
        content = b"".join(self.source.choices(PIECES[: self.source.choice((12, 18))], k=self.source.randrange(9)))[:most]
        return word(len(content)) + content + bytes(-len(content) % 4)

    def count(self, most, depth):
        return min(most, self.source.randrange(4) if depth < 6 else 0)

    def value(self, place, depth=0):
        """The bytes of a value."""
        random, (sort, more) = self.source, self.kinds[place]
        match sort:
            case "int" | "unsigned int":
                return word(self.unit())
            case "hyper" | "unsigned hyper":
                return word(self.unit()) + word(self.unit())
            case "bool":
                return word(random.randrange(2))
            case "enum":
                return struct.pack(">i", random.choice(more)[1])
            case "sized":
                return random.randbytes(more) + bytes(-more % 4)
            case "opaque" | "string":
                return self.content(more)
            case "fixed":
                return b"".join(self.value(more[0], depth + 1) for _ in range(more[1]))
            case "array":
                count = self.count(more[1], depth)
                return word(count) + b"".join(self.value(more[0], depth + 1) for _ in range(count))
            case "struct":
                return b"".join(self.value(kind, depth + 1) for kind, _ in more)
            case "union":
                return self.union(depth, *more)
            case "optional":
                there = self.count(1, depth)
                return word(there) + (self.value(more, depth + 1) if there else b"")
        return b""

    def union(self, depth, tag, arms, other):
        sort, members = self.kinds[tag]
        number = self.source.choice(list(arms))
        if other is not None and self.source.randrange(2):
            number = {"bool": self.source.randrange(2), "enum": (members or [("", 0)])[-1][1]}.get(sort, 77)
        kind, _ = arms.get(number, other)
        return word(number & 0xFFFFFFFF) + self.value(kind, depth + 1)


def random_values(seed, count, each=16):
    """So many values: the text, the kinds, the kind's name, its place and the bytes, from texts of so many values."""
    source, found, before = random.Random(seed), 0, -1
    while before < found < count:
        before = found
        texts = [random_text(source) for _ in range(256)]
        for (text, names), told in zip(texts, run([Case("read", text=text) for text, _ in texts])):
            if told.answer != "ok":
                continue
            kinds, places = kinds_of(told), places_of(told)
            for _ in range(each):
                name = source.choice(names)
                given = Maker(source, kinds).value(places[name])
                if found < count and len(given) <= 16000:
                    found += 1
                    yield text, kinds, name, places[name], given
