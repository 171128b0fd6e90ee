"""Values by each call of the codec and the lines that show them, bytes that are refused, and the parts that are lent of
bytes (RFC 4506): rows as they stand, in pieces."""
import itertools

from rows.codec import CODED, CONTENT, CONTENT_LINES, HELD, ITEMS, ITEMS_LINES, LENT, LIMITED, LONG, NEST, SHOWN, WIDE
from rows.shared import Case, MORE, PIECES, Refused, WHOLE, WIDEST, Whole, octets, word

from .growths import decoded_well, joined_well
from .values import cut, cut_well, fed, typed, value_task


def behind_so(row):
    """What a decoder and a checker answer to a value, to nothing and to a byte behind it, and to the end."""
    given, cuts = octets(row.digits)[: row.used] + b"\7", (row.used, row.used)
    wanted = cut_well(given, cuts, row, None)
    yield cut(cuts, given, typed(row)), lambda told: (told.answer, told.streams) == wanted


def coded_so(row):
    """A value by each call: decoded, whole and in pieces, lent, encoded and copied."""
    given = octets(row.digits)[: row.used]
    kind = {"given": given, **typed(row)}
    yield Case("decode", **kind), decoded_well(row)
    yield Case("parts", **kind), joined_well(row, given)
    for engine, piece in itertools.product(("Decoder", "Checker"), PIECES):
        yield Case(engine, (piece, 0), **kind), fed(row, given, piece, engine == "Checker")
    yield Case("encode", **kind), lambda told: (told.answer, told.streams) == ("ok", [given])
    taken = f"ok {row.used}", [given]
    yield Case("encode_to", writes=(3, 0), **kind), lambda told: (told.answer, told.streams) == taken
    yield Case("Value::copy", **kind), lambda told: told.answer == "equal"


def coded_cases():
    for text, name, digits, lines in CODED:
        row = Whole(text, name, digits, len(octets(digits)), lines)
        yield from coded_so(row)
        yield from behind_so(row)
    for row in WHOLE:
        yield from behind_so(row)
    # A number of as many bytes as the limit, with one behind.
    case = Case("decode", kind="int", given=octets("00000005 09"), depth=1, bytes=4)
    yield case, lambda told: (told.answer, told.streams) == ("ok 4", [b"5\n"])


def refusal(text, name, digits, why, at, depth=4096, most=WIDEST):
    """The row of a refusal. It stands once its unit is whole, for want of depth or of bytes before that, and never
    where the bytes only end too early."""
    stands = {"TooDeep": at, "TooLarge": at, "Truncated": len(octets(digits)) + 1}.get(why, at + 4)
    return Refused(text, name, digits, most, why, at, stands, depth)


def refused_value_cases():
    rows = [refusal(*row) for row in WIDE]
    rows += [refusal(*row, depth, most) for depth, most, *row in LIMITED]
    for row in rows:
        given = octets(row.digits)
        kind = {"given": given, **typed(row)}
        yield Case("decode", **kind), decoded_well(row)
        yield Case("parts", **kind), joined_well(row, given)
        for engine, piece in itertools.product(("Decoder", "Checker"), PIECES):
            yield Case(engine, (piece, 0), **kind), fed(row, given, piece, engine == "Checker")


def shown_so(text, name, digits, lines):
    """The lines of the value that the bytes encode, and of their digits, which are hexadecimal."""
    given, kind = octets(digits), {"kind": name, "text": text}
    yield Case("show", given=given, **kind), lambda told: (told.answer, told.streams) == ("ok", [lines])
    printed = "0", [lines + b"ok %d\n" % len(given), b""]
    case = value_task(True, True, digits.encode(), kind)
    yield case, lambda told: (told.answer, told.streams) == printed


def shown_cases():
    for row in SHOWN:
        yield from shown_so(*row)
    letters = "00010000" + "61" * 65536
    yield from shown_so(b"", "string", letters, b'"' + b"a" * 65536 + b'"\n')
    yield from shown_so(b"", "opaque", letters, b"0x" + b"61" * 65536 + b"\n")
    yield from shown_so(MORE, "big", "000186a0" + "00000007" * 100000, b"list of 100000\n" + b"  7\n" * 100000)
    # Each level is indented by two spaces more than the one before it.
    lines = b"".join(b"  " * level + b"present\n" for level in range(4095)) + b"  " * 4095 + b"absent\n"
    case = Case("show", kind="nest", text=NEST, given=word(1) * 4095 + word(0))
    yield case, lambda told: (told.answer, told.streams) == ("ok", [lines])


def part(at, depth, place, name, role, content_of):
    """What is told of a part."""
    return f"{at} {depth} {place} {name or '-'} {role} {content_of.hex()}"


def lent_cases():
    for text, name, digits, parts in LENT:
        wanted = "; ".join(part(*each) for each in parts)
        case = Case("parts", kind=name, text=text, given=octets(digits))
        yield case, lambda told, wanted=wanted: told.answer == wanted


def held_words(frames, nodes, count, pending):
    """What a decoder and a checker hold. Of a value a checker holds nothing."""
    return [f"{frames} {nodes} {count} {pending}", f"{frames} 0 0 {pending}"]


def held_cases():
    for text, name, most, pieces in HELD:
        wanted = held_words(1, 1, 0, 0)
        for _, answer, held in pieces:
            wanted += [answer, answer, *held_words(*held)]
        given = [octets(digits) for digits, *_ in pieces]
        cuts = {"first": len(given[0]), "second": len(given[0] + given[1])}
        case = Case("Decoder::held", kind=name, text=text, bytes=most, given=b"".join(given), **cuts)
        yield case, lambda told, wanted=wanted: told.answer == "; ".join(wanted)


def long_value_cases():
    """Long values, encoded, decoded and copied."""
    letters = b"a" * 65536
    for text, name, given, lines in (
        (b"", "opaque", CONTENT, CONTENT_LINES),
        (b"", "opaque", word(65536) + letters, b"0x%s\n" % letters.hex().encode()),
        (MORE, "big", ITEMS, ITEMS_LINES),
    ):
        kind = {"kind": name, "text": text, "given": given}
        decoded = f"ok {len(given)}", [lines]
        yield Case("decode", **kind), lambda told, decoded=decoded: (told.answer, told.streams) == decoded
        encoded = "ok", [given]
        yield Case("encode", **kind), lambda told, encoded=encoded: (told.answer, told.streams) == encoded
        yield Case("Value::copy", **kind), lambda told: told.answer == "equal"


def long_kind_cases():
    """Values above a mebibyte of each kind that can have as many bytes, decoded whole and in pieces, lent, encoded and
    copied."""
    for text, name, given, lines in LONG:
        row = Whole(text, name, "", len(given), lines)
        kind = {"kind": name, "text": text, "given": given}
        yield Case("decode", **kind), decoded_well(row)
        yield Case("Decoder", (65536, 0), **kind), fed(row, given, 65536, False)
        yield Case("parts", **kind), joined_well(row, given)
        yield Case("encode", **kind), lambda told, given=given: (told.answer, told.streams) == ("ok", [given])
        yield Case("Value::copy", **kind), lambda told: told.answer == "equal"


def handed_cases():
    """What is decoded in pieces is handed out at the end without a growth."""
    row = Whole(b"", "opaque", CONTENT.hex(), len(CONTENT), CONTENT_LINES)
    is_well = fed(row, CONTENT, 65536, False)
    yield Case("Decoder", (65536, 0), kind="opaque", given=CONTENT), lambda told: told.met > 0 and is_well(told)


def few_growths_cases():
    """The parts of 4000 numbers take as many growths as powers of two are filled, and one for a frame."""
    case = Case("parts", kind="big", text=MORE, given=word(4000) + b"abcd" * 4000)
    yield case, lambda told: told.answer.count("; ") == 4000 and 0 < told.met <= 14
