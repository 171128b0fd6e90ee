"""Values made by hand: parts of one, each its bytes (RFC 4506 section 4) and its JSON (docs/FORMATS.md section 5)."""
from refuse_use.called import opaque, words


def number(it):
    """An int where it is below 0, else an unsigned int or either."""
    return words(it % 2**32), str(it)


def long(it):
    """A hyper or an unsigned hyper from 0 on."""
    return it.to_bytes(8, "big"), f'"{it}"'


def flag(it):
    return words(it), str(it).lower()


def member(it, name):
    """A member of an enumeration."""
    return words(it % 2**32), f'"{name}"'


def text(it):
    return opaque(it.encode()), f'"{it}"'


def data(it):
    return opaque(it), f'"{it.hex()}"'


def fixed(it):
    return it + bytes(-len(it) % 4), f'"{it.hex()}"'


def both(**parts):
    """A structure of these fields, or a union of its discriminant, which is called `case`, and its arm."""
    listed = ",".join(f'"{name}":{said}' for name, (_, said) in parts.items())
    return b"".join(content for content, _ in parts.values()), f"{{{listed}}}"


def several(*parts):
    """Items behind their count."""
    return words(len(parts)) + b"".join(content for content, _ in parts), f"[{','.join(said for _, said in parts)}]"


ABSENT = words(0), "null"


def present(it):
    return words(1) + it[0], it[1]


def linked(following, *entries):
    """A linked list of these structures, each with its fields and, under this name, the next one."""
    made = ABSENT
    for fields in reversed(entries):
        made = present(both(**fields, **{following: made}))
    return made
