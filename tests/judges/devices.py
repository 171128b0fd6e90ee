"""Readers and writers of std as sources and sinks."""
from rows.devices import ERRORS, FAILING, READ, WRITTEN
from rows.shared import Case


def device_cases():
    for over, reads, enough, given, answer, first, second in READ:
        wanted = answer, [first, second]
        for error in ERRORS if reads[1] else (None,):
            case = Case("FromRead", reads, over=over or None, error=error, limit=enough, given=given)
            yield case, lambda told, wanted=wanted: (told.answer, told.streams) == wanted
    for over, writes, given, answer in WRITTEN:
        case = Case("IntoWrite", writes=writes, over=over or None, given=given)
        yield case, lambda told, answer=answer: told.answer == answer
    for writes, given, answer in FAILING:
        for error in (*ERRORS, None):
            wanted = answer.format("write fault" if error else "0")
            case = Case("IntoWrite", writes=writes, error=error, given=given)
            yield case, lambda told, wanted=wanted: told.answer == wanted
