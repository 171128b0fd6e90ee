"""The tokens of texts, and what the definitions that they spell declare (RFC 4506 section 6, RFC 5531 section 12)."""
from rows.grammar import BAD_CHARACTERS, BAD_NUMBERS, DECLARING, FLOATING, INSIDE, TEXT, TOKENS, UNEXPECTED
from rows.shared import Case

from .written import nested


def refused(wrong, left):
    wanted = f"refused {wrong}, {left} left"
    return lambda told: told.answer == wanted


def grammar_cases():
    """Texts and their tokens, and the texts of definitions."""
    found = "; ".join(TOKENS)
    yield Case("tokens", text=TEXT), lambda told: told.answer == found
    for wrong, rows in (("BadNumber", BAD_NUMBERS), ("BadCharacter", BAD_CHARACTERS)):
        for text, left in rows:
            yield Case("tokens", text=text), refused(wrong, left)
    for text, counts in DECLARING:
        wanted = "{} constants, {} kinds, {} types, {} programs".format(*counts)
        yield Case("read_outline", text=text), lambda told, wanted=wanted: told.answer == wanted
    for wrong, rows in (("Unexpected", UNEXPECTED), ("FloatingKind", FLOATING)):
        for text, rest in rows:
            yield Case("read_outline", text=text), refused(wrong, len(rest))
    # What stands inside the bodies begins at byte 296.
    for inside, at, wrong in INSIDE:
        text = nested(inside, 32)
        yield Case("read_outline", text=text), refused(wrong, len(text) - 296 - at)
    yield Case("read_outline", text=nested(b"int a;", 32)), lambda told: told.answer.endswith("programs")
