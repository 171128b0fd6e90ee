"""Connections of a registry that are served at once: rows as they stand, the streams and tables of `serve` through one
connection, callers, and each growth refused."""
import itertools
import random

from rows.answers import TABLES
from rows.sessions import AGAIN, BY_CALLER, SESSIONS
from rows.shared import Case, DUMP, NULL, PIECES, SERVED, SERVED_LONG, marked, octets, word
from rows.written import SERVED_SO

from .running import run
from .serving import LIMIT, REPLIES, Reading, is_served, serving
from .sessions_large import OWED
from .sessions_random import Interleaving
from .streams import records_in, replies_to


def worked_session_cases():
    """Rows worked by hand, which the judge of random ones takes too."""
    for most, bound, rows in SESSIONS:
        case = serving(most, bound, [event for event, _ in rows])
        wanted = "; ".join(answer for _, answer in rows)
        yield case, lambda told, wanted=wanted, case=case: told.answer == wanted and is_served(case)(told)


def fed(given, piece):
    """A connection that brings bytes in pieces of this size, each again from where it was taken."""
    reading, at, events = Reading(), 0, []
    while at < len(given):
        some = given[at : at + piece]
        events.append(f"take:0:{some.hex()}")
        used, _, too_long = reading.feed(some)
        at += len(some) if too_long is not None else used
    return events


# Streams that end well, inside a record and with one that is too long, as `serve` is given them.
STREAMS = [*SERVED, SERVED_LONG, b"", octets("80000000"), octets("8000"), SERVED[0][:30], octets("7fffffff00")]


def alone_session_cases():
    """One connection is served what `serve` serves: its replies, in their order, and its end."""
    for given, piece in itertools.product(STREAMS, PIECES):
        found, why = records_in(given, LIMIT)
        sent = b"".join(marked(reply) for reply in replies_to(found, by_record=REPLIES)[0] if reply is not None)
        case = serving(1, 1 << 20, ["open", *fed(given, piece), "write:0:1000000", "end:0"])
        ending = [f"wrote {sent.hex()}", f"refused {why}" if why else "ended"]
        yield case, lambda told, case=case, ending=ending: (
            told.answer.split("; ")[-2:] == ending and is_served(case)(told)
        )


def table_session_cases():
    """The calls of tables that `serve` is given, through one connection each. To a caller who is known a SET of a row
    that is there is TRUE, and all else is the same."""
    for rows, piece in itertools.product((*TABLES, *SERVED_SO), PIECES):
        given = b"".join(marked(record) for record, _ in rows)
        sent = b"".join(marked(AGAIN.get(record, said)) for record, said in rows if said is not None)
        events = ["open", *fed(given, piece), "write:0:1000000", "end:0"]
        case = Case("SessionTable", most=1, bound=1 << 20, events=events)
        ending = [f"wrote {sent.hex()}", "ended"]
        yield case, lambda told, ending=ending: told.answer.split("; ")[-2:] == ending


def caller_cases():
    """Callers of one registry, each over a connection of its own: what is answered depends on who calls."""
    callers = sorted({caller for caller, *_ in BY_CALLER})
    events = [(f"open:{caller}", f"open {number}") for number, caller in enumerate(callers)]
    for caller, asked, said in BY_CALLER:
        record, reply = (b"".join(map(word, each)) for each in (asked, said))
        told = f" {marked(reply).hex()}" if said else ""
        events.append((f"take:{callers.index(caller)}:{marked(record).hex()}", f"answered {len(record) + 4}{told}"))
    wanted = "; ".join(answer for _, answer in events)
    yield serving(len(callers), 10000, [event for event, _ in events]), lambda told: told.answer == wanted


def session_cases():
    yield from worked_session_cases()
    yield from alone_session_cases()
    yield from table_session_cases()
    yield from caller_cases()


def session_rows():
    """What is swept: the rows worked by hand, and streams of `serve`, whole and in pieces."""
    yield from (case for case, _ in worked_session_cases() if len(str(case.events)) < 50000)
    for given, piece in itertools.product((*SERVED[:3], SERVED_LONG), (48, 4096)):
        yield serving(1, 1 << 20, ["open", *fed(given, piece), "write:0:1000000", "end:0"])
    source = random.Random(66)
    for most in (2, 3):
        made = Interleaving(source, most)
        for _ in range(most):
            made.open_one()
        while made.pieces() < 30:
            made.step()
        yield serving(most, made.model.bound, made.events)


def refused_session_cases(heap):
    """Each growth refused, alone and with all later ones, at each event: the connection or the call that it was for
    tells so, and all others go on."""
    cases = [*session_rows()]
    wholes = run(cases, LD_PRELOAD=heap)
    for case, whole in zip(cases, wholes):
        for number, alone in itertools.product(range(1, whole.met + 3), ("", "..")):
            refused = case._replace(refuse=f"{number}{alone}")
            is_well = is_served(case, 10**9 if alone else 1)
            yield refused, lambda told, whole=whole, number=number, is_well=is_well: is_well(told) and (
                number <= whole.met or told.answer == whole.answer
            )


def session_memory_cases(heap):
    """What sessions hold is what came, whatever was declared, and it is given back."""
    head = [f"take:0:{head}00" for head in ("80000008", "80010000", "00010000")]
    cases = [serving(1, 0, ["open", event]) for event in head]
    first = run(cases[:1], LD_PRELOAD=heap)[0]
    for case in cases:
        yield case, lambda told: (told.met, told.counts) == (first.met, first.counts) and told.met > 0
    # What 64 connections hold of a record of 65536 bytes that lacks its last one, and of 1000 bytes of replies.
    opened = ["open"] * 64
    whole = word(0x80010000) + NULL.ljust(LIMIT, b"\xff")
    brought = [f"take:{number}:{whole[:-1].hex()}" for number in range(64)]
    yield serving(64, 0, opened + brought), lambda told: 64 * LIMIT <= told.counts[0] <= 64 * (2 * LIMIT + 2048)
    asked = [f"take:{number}:{marked(DUMP).hex()}" for number in range(64) for _ in range(100)]
    case = serving(64, 1000, opened + asked)
    yield case, lambda told, case=case: is_served(case)(told) and told.counts[0] <= 64 * (2 * 3000 + 2 * 8192 + 2048)
    # All is given back but for what a table and its sessions keep; and at the end of each connection that too.
    drained = [f"write:{number}:1000000" for number in range(64)]
    yield serving(64, 1000, opened + asked + drained), lambda told: told.counts[0] <= 64 * (2 * 8192 + 2048)
    # So is the memory of far more replies than are kept between two records, while their connection stays.
    many = ["open", *[f"take:0:{marked(DUMP).hex()}"] * OWED, "write:0:1000000"]
    yield serving(1, 1 << 20, many), lambda told: told.counts[0] <= 2 * 8192 + 2048
    closed = [f"close:{number}" for number in range(64)]
    empty = run([serving(64, 1000, opened + closed)], LD_PRELOAD=heap)[0].counts
    yield serving(64, 1000, opened + asked + brought + closed), lambda told: told.counts == empty
