"""Random values from JSON. What is written for each is read as its bytes, and so is a text that says the same; of a
text that was changed `spelled` says what is to be told. Of two parts that no kind has, the first is to be told."""
import json
import random

from rows.shared import WIDEST

from .json_read import is_told, reading
from .mapping import texts_of, value_in
from .random_values import random_values
from .spelled import place_of, told_of_text

# What is put into a text: structural characters, beginnings of numbers, names and strings, bytes that are no UTF-8.
OTHERS = [b"", b'"', b"}", b"]", b",", b":", b"[", b"{", b"\\", b"0", b"1", b".", b"e", b"-", b" ", b"\n", b"\xff"]
OTHERS += [b"\xc3", b"null", b"true", b"hex", b"case", b'"a":']
# What is put in the place of a value, each of a form that many kinds do not have.
VALUES = ["7", "-1", "1.5", "4294967296", "true", "null", "[]", "{}", '""', '"0"', '"A"', '{"hex":"6"}', '{"case":0}']

# What is a value of no kind. It is refused at its brace, or at its key where members are looked at.
NO_VALUE = b'{"no such":0}'


def is_hex(members):
    """Whether an object may stand for a string."""
    return len(members) == 1 and members[0][0] == "hex" and isinstance(members[0][1], str)


class Changing:
    """JSON texts of a value, said otherwise or changed."""

    def __init__(self, source):
        self.source = source

    def moved(self, value):
        """The value with the members of each object in another order."""
        if isinstance(value, list):
            return [self.moved(each) for each in value]
        if not isinstance(value, dict):
            return value
        names = [*value]
        self.source.shuffle(names)
        return {name: self.moved(value[name]) for name in names}

    def spaced(self, text):
        """The same with other white space, escapes, and members in another order."""
        separators = self.source.choice(((" ,", ":"), (",\r\n", " : "), (",", ":")))
        how = {"indent": self.source.choice((None, 0, 1, "\t")), "ensure_ascii": self.source.randrange(2) == 0}
        return json.dumps(self.moved(json.loads(text)), separators=separators, **how).encode()

    def cut(self, text):
        return text[: self.source.randrange(len(text) + 1)]

    def struck(self, text):
        """The text with a few bytes changed, taken out, or put in."""
        changed = bytearray(text)
        for _ in range(self.source.randrange(1, 4)):
            at = self.source.randrange(len(changed) + 1)
            changed[at : at + self.source.randrange(3)] = self.source.choice(OTHERS)
        return bytes(changed)

    def replaced(self, text):
        """The text with a word of it in the place of another."""
        words = text.replace(b",", b" , ").replace(b":", b" : ").split(b" ")
        words[self.source.randrange(len(words))] = self.source.choice(words)
        return b" ".join(words)

    def seldom(self):
        return self.source.randrange(8) == 0

    def varied(self, parts):
        """The parts of an array or an object, now and then without one, or with one that stands twice."""
        at = self.source.randrange(len(parts) + 1)
        if not self.seldom():
            return parts
        return parts[:at] + parts[at : at + 1] * self.source.choice((0, 2)) + parts[at + 1 :]

    def spoil(self, value):
        """The JSON of a value whose objects are tuples of members, with faults in several places of it."""
        if self.seldom():
            return self.source.choice(VALUES)
        if isinstance(value, list):
            return f"[{','.join(map(self.spoil, self.varied(value)))}]"
        if not isinstance(value, tuple):
            return json.dumps(value)
        members = self.varied([*value] + [("no such", None)] * self.seldom())
        self.source.shuffle(members)
        return f"{{{','.join(f'{json.dumps(name)}:{self.spoil(each)}' for name, each in members)}}}"

    def spoilt(self, text):
        """The text with several faults, and with members in another order."""
        return self.spoil(json.loads(text, object_pairs_hook=tuple)).encode()

    def pieces(self, value, is_open=True):
        """The pieces of the JSON of a value whose objects are tuples of members, in another order, and whether
        NO_VALUE may stand in the place of each: of a part without parts, but for a discriminant."""
        if isinstance(value, list) and value:
            for before, each in zip([b"["] + [b","] * len(value), value):
                yield before, False
                yield from self.pieces(each)
            yield b"]", False
        elif isinstance(value, tuple) and value and not is_hex(value):
            moved = self.source.sample(value, len(value))
            for before, (name, each) in zip([b"{"] + [b","] * len(value), moved):
                yield before + json.dumps(name).encode() + b":", False
                yield from self.pieces(each, name != "case")
            yield b"}", False
        else:
            plain = dict(value) if isinstance(value, tuple) else value
            yield json.dumps(plain).encode(), is_open

    def broken(self, text):
        """The text with NO_VALUE in two places, and the first of them; none where it has no two parts."""
        parts = [*self.pieces(json.loads(text, object_pairs_hook=tuple))]
        pieces, open_at = [piece for piece, _ in parts], [at for at, (_, is_open) in enumerate(parts) if is_open]
        if len(open_at) < 2:
            return None
        first, second = sorted(self.source.sample(open_at, 2))
        pieces[first] = pieces[second] = NO_VALUE
        return b"".join(pieces), len(b"".join(pieces[:first]))

    def limits(self):
        """Limits on depth and on bytes, which one in ten has low."""
        if self.source.randrange(10):
            return 4096, WIDEST
        return self.source.randrange(1, 6), 4 * self.source.randrange(1, 12)


def told_within(text, at):
    """Whether the fault of a text is told at this place, or at the next one."""
    places = {place_of(text, at), place_of(text, at + 1)}
    return lambda told: told.answer.startswith("refused ") and told.answer.partition(" at ")[2] in places


def random_read_cases(seed=1, count=2000):
    """Random values: three texts that say each, four that were changed, one of them in several places, and one with two
    parts of no kind, of which the first is told."""
    change = Changing(random.Random(seed))
    for text, kinds, name, place, given in random_values(seed, count):
        value, _ = value_in(kinds, place, given)
        texts = texts_of(value)
        for written in (*texts.values(), change.spaced(texts[""])):
            yield reading(text, name, written), is_told("ok", given)
        plain = texts[""]
        for changed in (change.cut(plain), change.struck(plain), change.replaced(plain), change.spoilt(plain)):
            limits = change.limits()
            answer, streams = told_of_text(kinds, place, changed, *limits)
            yield reading(text, name, changed, *limits), is_told(answer, *streams)
        broken = change.broken(plain)
        if broken:
            yield reading(text, name, broken[0]), told_within(*broken)
