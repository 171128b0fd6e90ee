"""Made texts of hexadecimal, as a task reads its input, beside Python's own reading of their digits."""
import binascii
import random
import string

from rows.shared import Case
from rows.written import SHOW

# How many texts, and the most bytes of one: digits are counted by blocks of 240 bytes.
TEXTS, MOST = 6000, 520
# Digits of either case, white space, and what stands beside these in ASCII.
SPACE = b" \t\n\x0b\x0c\r"
DIGITS = b"0123456789abcdefABCDEF"
PLAIN = DIGITS + SPACE
BYTES = PLAIN + b"/:@G`g\x08\x0e\x1f!"
# Of the texts so many at least spell bytes, and so many do not.
LEAST = 2000


def text(source):
    """A text of digits, of digits and white space, or of any of the bytes, seldom more than one that is strange."""
    length, sort = source.randrange(MOST), source.randrange(8)
    picked = bytearray()
    for _ in range(length):
        among = DIGITS if sort < 2 else BYTES if sort == 2 and source.randrange(length) == 0 else PLAIN
        picked.append(source.choice(among))
    return bytes(picked)


def spelled(given):
    """The bytes that a text spells, its white space dropped; None where it spells none."""
    try:
        return binascii.unhexlify(given.translate(None, string.whitespace.encode()))
    except binascii.Error:
        return None


def shown(given):
    """A text whose bytes are shown as opaque content, behind which zeros fill a word; and how the task ends."""
    content = spelled(given)
    size = 4 if content is None else max(len(content), 1)
    missing = size - len(content or b"") + -size % 4
    declared, given = b"typedef opaque t[%d];" % size, given + b"00" * missing
    case = Case(SHOW, hex=True, kind="t", types="a.x", text=declared, given=given)
    if content is None:
        return case, ("1", [b"refused bad hex\n", b""])
    whole = content.ljust(size, b"\0")
    return case, ("0", [b"0x%s\nok %d\n" % (whole.hex().encode(), size + -size % 4), b""])


def made_hex_cases(seed=4506, count=TEXTS):
    """Each text, by all that is told of it; none where too few are of one sort."""
    source = random.Random(seed)
    texts = [text(source) for _ in range(count)]
    right = sum(spelled(given) is not None for given in texts)
    if LEAST < right < count - LEAST:
        for given in texts:
            case, wanted = shown(given)
            yield case, lambda told, wanted=wanted: (told.answer, told.streams) == wanted
