"""Texts of declarations that are refused, each with its fault: its number (docs/LANGUAGE.md), the schema's number or 0,
and the line and the column of its place (RFC 4506 section 6, RFC 5531 section 12)."""
import itertools

from rows.refused_texts import TABLES
from rows.shared import Case

from .large import refused_text


def refused_text_cases():
    """Each text is refused with its fault."""
    for text, *fault in itertools.chain.from_iterable(TABLES):
        yield Case("read", text=text), refused_text(*fault)
