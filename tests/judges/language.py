"""Texts of declarations that are read, and what they declare (RFC 4506 section 6, RFC 5531 section 12)."""
import itertools
import re

from rows.language import (
    BASIC_CONSTANTS,
    BASIC_KINDS,
    BASIC_NAMES,
    DECLARED,
    NAMED,
    NUMBERS,
    PROCEDURES,
    REGISTRY,
    RPCB,
    SAME,
    SHOWN,
    SIZES,
    VALUES,
)
from rows.shared import Case, DIRECTORY

from .codec import shown_so
from .directory import has_types
from .refused_texts import refused_text_cases
from .written import constants_of, is_read, same_answers


def pairs(rows):
    return ", ".join(f'("{name}", {place})' for name, place in rows)


def values_of(rows):
    return [f"{name} = {number}" for name, number in rows]


def declared(kinds, names, constants, programs):
    """What is told of a text that declares these besides the basic ones."""
    told = "".join(f"\n{each}" for each in BASIC_KINDS + kinds), pairs(BASIC_NAMES + names)
    return [*told, "; ".join(values_of(BASIC_CONSTANTS + constants)), programs]


def told_texts(told):
    """The kinds, names, constants and programs that are told of a text, as texts."""
    return [each.decode() for each in told.streams]


def counts_of(told):
    """How many kinds, constants and programs there are."""
    kinds, _, _, programs = told_texts(told)
    return [kinds.count("\n"), len(constants_of(told)), programs.count("\n")]


def place_of(told, name):
    """The place that a name names, if it names one."""
    found = re.search(rf'\("{name}", (\d+)\)', told_texts(told)[1])
    return int(found[1]) if found else None


HEAD = re.compile(r"(program|version) \w+ = (\d+) \{|(\d+|void) \w+\(([^)]*)\) = (\d+);")


def procedures_of(told):
    """By the numbers of program, version and procedure, what PROCEDURES has of each."""
    found, program, version = {}, None, None
    for what, number, result, arguments, procedure in HEAD.findall(told_texts(told)[3]):
        if what == "program":
            program = int(number)
        elif what == "version":
            version = int(number)
        else:
            places = [int(place) for place in arguments.split(", ") if place]
            last, made = places[-1] if places else None, None if result == "void" else int(result)
            found[program, version, int(procedure)] = len(places), last, made
    return found


def numbered(versions):
    found = {}
    for program, version, first, procedures in versions:
        for number, procedure in enumerate(procedures, first):
            found[program, version, number] = procedure
    return found


def directory_cases():
    """The schema of the registry is what the types of RFC 1833 declare, in its own words too, in 19 places. The text of
    the header for C has the same types beside its programs."""
    schema = []

    def is_schema(told):
        schema.append(told.streams)
        return told.answer == "ok" and told_texts(told)[0].count("\n") == 19 and has_types(*told_texts(told))

    def is_same(told):
        rest = ["; ".join(values_of(BASIC_CONSTANTS)), ""]
        return is_read(told) and told.streams[:2] == schema[0] and told_texts(told)[2:] == rest

    def has_same_types(told):
        return is_read(told) and told.streams[:2] == schema[0]

    yield Case("directory_schema"), is_schema
    for text in (DIRECTORY, RPCB):
        yield Case("read", text=text), is_same
    yield Case("read", text=REGISTRY), has_same_types


def read_text_cases():
    """Texts that are read, each with what it declares."""
    for text, *lists in DECLARED:
        wanted = declared(*lists)
        yield Case("read", text=text), lambda told, wanted=wanted: is_read(told) and told_texts(told) == wanted
    constants = values_of(BASIC_CONSTANTS + NUMBERS)
    yield Case("read", text=VALUES), lambda told: is_read(told) and constants_of(told) == constants
    for text, name, place, *counts in NAMED:
        wanted = place, *counts
        yield Case("read", text=text), lambda told, name=name, wanted=wanted: is_read(told) and wanted == (
            place_of(told, name),
            *counts_of(told)[:2],
        )
    for text, *wanted in SIZES:
        yield Case("read", text=text), lambda told, wanted=wanted: is_read(told) and wanted == counts_of(told)
    for text, versions in PROCEDURES:
        wanted = numbered(versions)
        yield Case("read", text=text), lambda told, wanted=wanted: procedures_of(told) == wanted
    for texts in SAME:
        is_same = same_answers()
        for text in texts:
            yield Case("read", text=text), is_same
    yield from directory_cases()
    for row in SHOWN:
        yield from shown_so(*row)


def by_tokens_cases():
    """The same texts, and those that are refused, by their tokens."""
    for case, is_well in itertools.chain(refused_text_cases(), read_text_cases()):
        if case.call == "read":
            yield case._replace(call="read_tokens"), is_well
        elif case.call == "directory_schema":
            yield case, is_well
