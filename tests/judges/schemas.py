"""Lists of kinds and names that make a schema or none, and what a schema notes of its kinds."""
from rows.schemas import DECIDING, FAULTS, LEVELS, NESTED, NINE, NOTED, PRINTED, WITHOUT_MEMORY
from rows.shared import Case


def built(kinds, names, answer, refuse="0"):
    """A case of such lists, and whether this is what is told."""
    case = Case("Schema::build", kinds=kinds, names=names or None, refuse=refuse)
    return case, lambda told: told.answer == answer


def noted(rows):
    """A case of kinds, and whether this is noted of each, and of the place behind the last nothing."""
    wanted = "; ".join([*(notes for _, notes in rows), "-, -, -"])
    case = Case("Schema::build", kinds=",".join(kind for kind, _ in rows))
    return case, lambda told: told.answer == "ok" and told.streams[0].decode() == wanted


def nested_rows():
    for kind, levels in zip(NESTED, LEVELS):
        yield kind, "-, -, -" if levels > 16 else f"4 {levels} free, -, {levels}"


def schema_rows():
    """What is swept."""
    for row in FAULTS:
        yield built(*row)
    yield from map(noted, (NOTED, DECIDING, [*nested_rows()]))
    case = Case("Schema::build", kinds=NINE, names="t:2")
    yield case, lambda told: told.answer == "ok" and told.streams[1].decode() == PRINTED


def structure(count, last):
    """So many fields with names of their own, and one of this name."""
    return "struct" + "".join(f";n{number}:0" for number in range(count)) + f";{last}:0"


def arms(count, has_names):
    """So many arms with two cases of their own, and with names or without."""
    return "".join(f";{f'n{number}' if has_names else ''}:0:{number}:{number + 5000}" for number in range(count))


def names(count, last):
    return ",".join([*(f"n{number}:0" for number in range(count)), f"{last}:0"])


def chain(count):
    """So many structures that each hold the next, and an int at the end."""
    return ",".join([*(f"struct;x:{place + 1}" for place in range(count)), "int"])


def tagged(count, first, second):
    """An enumeration of so many members, numbered from 0, and a union over it with an arm of two cases."""
    members = "".join(f";n{number}:{number}" for number in range(count))
    return f"enum{members},union:0;x:0:{first}:{second}"


def long_rows():
    """Long lists, with nothing twice and with a name or a case twice far apart."""
    yield f"int,{structure(1999, 'x')}", "", "ok"
    yield f"int,{structure(1999, 'n0')}", "", "NameTwice at 1"
    for has_names, last, answer in (
        (True, "x:0:9000:9001", "ok"),
        (False, ":0:9000:9001", "ok"),
        (False, ":0:9000:0", "CaseTwice at 1"),
        (False, ":0:9000:9000", "CaseTwice at 1"),
        (False, ":0:5000:9000", "CaseTwice at 1"),
        (True, "n0:0:9000:9001", "NameTwice at 1"),
    ):
        yield f"int,union:0{arms(1999, has_names)};{last}", "", answer
    for name, answer in (("", "ok"), ("x", "ok"), ("n0", "NameTwice at 1")):
        yield f"int,union:0:{name}:0{arms(2000, True)}", "", answer
    yield "int", names(1999, "x"), "ok"
    yield "int", names(1999, "n0"), "NameTwice at 1999"
    yield chain(1023), "", "ok"
    yield chain(1024), "", "TooManyKinds at 0"
    for count, first, second, answer in (
        (16, 0, 15, "ok"),
        (16, 0, 16, "CaseNotLegal at 1"),
        (17, 0, 16, "ok"),
        (17, 16, 0, "ok"),
        (17, 0, 17, "CaseNotLegal at 1"),
        (17, 5, 5, "CaseTwice at 1"),
    ):
        yield tagged(count, first, second), "", answer


def schema_cases():
    yield from schema_rows()
    yield from (built(*row) for row in long_rows())


def schema_without_memory_cases():
    yield from (built(*row, "1..") for row in WITHOUT_MEMORY)
