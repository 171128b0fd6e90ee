"""Records that are run as they stand: a reader call by call, a captured reply in three fragments, long records, and
records that are marked."""
from rows.captured import DUMP
from rows.records import FILLED, LONG, TAKEN
from rows.shared import Case, octets

from .streams import handed_out


def called(limit, calls):
    """Calls on a reader, and whether each is answered so."""
    steps = [f"{name}:{part.hex()}" if name.startswith("feed") else name for name, part, _ in calls]
    wanted = "; ".join(answer for *_, answer in calls)
    return Case("RecordReader::calls", limit=limit, steps=steps), lambda told: told.answer == wanted


def whole_of_dump():
    """The contents of the three fragments, joined: two of 8996 bytes and one of 2156."""
    return DUMP[4:9000] + DUMP[9004:18000] + DUMP[18004:]


def captured_cases():
    """Three fragments are one record, and become one."""
    for piece in (1, 4096, 8996, 20160):
        yield Case("RecordReader", (piece, 0), limit=20148, given=DUMP), handed_out(20148, DUMP)
    wanted = "1 records, 20152 bytes", [octets("80004eb4") + whole_of_dump()]
    case = Case("normalise", (1000, 0), limit=20148, given=DUMP)
    yield case, lambda told: (told.answer, told.streams) == wanted


def long_cases():
    """A long record of which the header comes alone is handed out, and is marked."""
    for length, header in LONG:
        content = b"a" * length
        answers = [("feed", header, "more"), ("feed", content, f"whole {length}")]
        yield called(16777216, answers + [("take", b"", content.hex())])
        wanted = "ok", [header + content]
        yield Case("mark", given=content), lambda told, wanted=wanted: (told.answer, told.streams) == wanted


def written_cases():
    """A record is written behind its header, in pieces, and each write fails in turn."""
    whole = octets("80000003 616263")
    for piece, failing, count in ((4096, 0, 7), (1, 0, 7), (3, 0, 7), *((1, each, each - 1) for each in range(1, 8))):
        told_so = f"write fault after {count}" if failing else "ok", [whole[:count]]
        case = Case("write_marked", writes=(piece, failing), given=b"abc")
        yield case, lambda told, wanted=told_so: (told.answer, told.streams) == wanted


def record_cases():
    """Records as they stand."""
    yield called(10, TAKEN)
    yield called(10, FILLED)
    for cases in (captured_cases, long_cases, written_cases):
        yield from cases()
