"""Random inputs of random declarations: what `decode`, a decoder and a checker in pieces, lent parts, and encoding
again say of them agrees (RFC 4506 section 4)."""
import random

from rows.shared import Case, Whole, WIDEST, word

from .codec import refusal
from .growths import joined_well
from .mapping import kinds_of, places_of
from .paths import nodes_of
from .random_values import Maker, random_text
from .running import run
from .values import fed, typed

# How many texts are read at a time.
BATCH = 500
# Of the inputs a tenth at least begin with a value, and as many do not.
LEAST = 10


def unit(source):
    """The number of a unit: small numbers are counts and tags more often than others."""
    match source.randrange(10):
        case 0:
            return source.getrandbits(32)
        case 1:
            return 0xFFFFFFFF - source.randrange(3)
        case 2:
            return source.randrange(20)
        case 3:
            return 0
    return source.randrange(4)


def random_input(source, kinds, place):
    """Units, of which the last may be cut; or a value, which may be cut, changed at a byte, or have more behind it."""
    if source.randrange(2):
        units = b"".join(word(unit(source)) for _ in range(source.randrange(24)))
        return units[: -1 if source.randrange(8) == 0 else None]
    given = bytearray(Maker(source, kinds).value(place))
    match source.randrange(4) if given else 3:
        case 0:
            return bytes(given[: source.randrange(len(given))])
        case 1:
            given[source.randrange(len(given))] ^= 1 << source.randrange(8)
    return bytes(given) + source.randbytes(source.choice((0, 0, 1, 4, 9)))


def random_limits(source):
    """The limits on depth and on bytes, half of them the widest."""
    match source.randrange(4):
        case 0:
            return source.randrange(1, 9), WIDEST
        case 1:
            return 4096, 4 * source.randrange(1, 17)
    return 4096, WIDEST


def is_member(kinds, above, inner):
    """Whether a node has the kind and the name of a member of the one that it is inside of."""
    sort, more = kinds[above.kind]
    named = (inner.kind, "" if inner.name == "-" else inner.name)
    match sort:
        case "struct":
            return named in [tuple(each) for each in more]
        case "union":
            _, arms, other = more
            return named in [(kind, name or "") for kind, name in (*arms.values(), *([other] if other else []))]
        case "fixed" | "array":
            return named == (more[0], "")
        case "optional":
            return named == (more, "")
    return False


def is_placed(kinds, node):
    return all(is_member(kinds, node, inner) and is_placed(kinds, inner) for inner in node.inside)


def row_of(text, name, given, limits, told):
    """The row of a value, or of a refusal, as `decode` tells it."""
    first, *words = told.answer.split(" ")
    if first == "ok":
        return Whole(text, name, given.hex(), int(words[0]), told.streams[0])
    return refusal(text, name, given.hex(), words[0], int(words[2]), *limits)


def agreeing_cases(source, kinds, place, row, case):
    """The other calls, each by what `decode` told."""
    given, kind = case.given, {**typed(row), "depth": case.depth, "bytes": case.bytes, "given": case.given}
    for engine in ("Decoder", "Checker"):
        piece = source.randrange(1, 10)
        yield Case(engine, (piece, 0), **kind), fed(row, given, piece, engine == "Checker")
    joined = joined_well(row, given)
    if not isinstance(row, Whole):
        yield Case("parts", **kind), joined
        return

    def is_lent(told):
        root = nodes_of(told.answer, kinds)
        return joined(told) and (root.kind, root.name) == (place, "-") and is_placed(kinds, root)

    yield Case("parts", **kind), is_lent
    wanted = "ok", [given[: row.used]]
    yield Case("encode", **kind), lambda told: (told.answer, told.streams) == wanted


def asked_of(source, texts):
    """A random input of a random kind of each text that is read, with its kinds and the place of that one."""
    for (text, names), told in zip(texts, run([Case("read", text=text) for text, _ in texts])):
        if told.answer == "ok":
            name, (depth, most) = source.choice(names), random_limits(source)
            kinds, place = kinds_of(told), places_of(told)[name]
            given = random_input(source, kinds, place)
            yield kinds, place, Case("decode", kind=name, text=text, given=given, depth=depth, bytes=most)


def random_input_cases(seed=4506, count=10000):
    """So many inputs, each of a text of its own, and as many of each sort as there are to be."""
    source, found, values = random.Random(seed), 0, 0
    while found < count:
        asked = [*asked_of(source, [random_text(source) for _ in range(BATCH)])][: count - found]
        for (kinds, place, case), told in zip(asked, run([case for *_, case in asked])):
            row = row_of(case.text, case.kind, case.given, (case.depth, case.bytes), told)
            found, values = found + 1, values + isinstance(row, Whole)
            yield from agreeing_cases(source, kinds, place, row, case)
        if not asked:
            break
    if not count < LEAST * values < count * (LEAST - 1):
        yield Case("decode"), lambda told: False
