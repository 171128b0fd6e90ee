"""The registry over datagrams, with many rows, and with replies behind bytes that stand there; the rows of these whose
growths are refused in turn; and calls exchanged for replies over datagrams."""
from rows.registry import (
    APPENDED,
    DATAGRAMS,
    DUMPS,
    DUMP_3,
    EXCHANGED,
    FAILED,
    NONE,
    OVER_UDP,
    REFUSED_TO,
    UDP,
    WITHOUT_7,
    WITH_7,
    done,
)
from rows.shared import ASKED_AFTER, Case, GETPORT, NULL, SET, call, marked, told_after


def append_cases():
    for front, before, record, answer, behind in APPENDED:
        wanted = answer, [behind, marked(WITH_7)]
        case = Case("append_answer", front=front, given=record, before=before, after=marked(DUMP_3))
        yield case, lambda told, wanted=wanted: (told.answer, told.streams) == wanted


def is_not_appended(told, case):
    """Whether an allocation failure is told, and what stood there and the rows are as they were."""
    rows = WITH_7 if case.before else WITHOUT_7
    return (told.answer, told.streams) == ("out of memory, xid 1", [case.front, marked(rows)])


def sent_so(answers, sent, after):
    """Whether both runs answer so, and these datagrams are sent and no others."""
    wanted = "; ".join(answers), sent, [after]
    return lambda told: (told.answer, told.sent, told.streams) == wanted


def datagram_cases():
    for waiting, (first, second), failing, answers, sent, has_row in DATAGRAMS:
        case = Case(
            "serve_datagrams",
            count=first,
            count_again=second,
            port_fails=failing,
            datagrams=waiting,
            after=ASKED_AFTER,
        )
        yield case, sent_so(answers, sent, told_after(has_row))


def refused_datagrams():
    """These rows, each with its judge where nothing is refused."""
    for before, waiting, sent, asked, told, _ in REFUSED_TO:
        case = Case("serve_datagrams", count=len(waiting), datagrams=waiting, before=before, after=asked)
        yield case, sent_so((done(len(waiting), 1), NONE), [sent], told)


def is_missed(told, case):
    """Whether SYSTEM_ERR is sent for the call, and the rows are as they were."""
    for before, waiting, _, asked, _, kept in REFUSED_TO:
        if (before, waiting, asked) == (case.before, case.datagrams, case.after):
            return sent_so((done(len(waiting), 1), NONE), [FAILED], kept)(told)
    return False


def few_bytes_cases():
    """A reply of 24 or 28 bytes wants a room of its own size, which may be doubled once; a datagram may have 65507."""
    for datagram in (NULL, GETPORT):
        case = Case("serve_datagrams", count=1, datagrams=[datagram])
        yield case, lambda told: 0 < told.counts[0] <= 128


def exchange_cases():
    for datagram, failing, answer in EXCHANGED:
        wanted = answer, [] if failing == 1 else [NULL]
        waiting = None if datagram is None else [datagram]
        case = Case("exchange_datagram", port_fails=failing, datagrams=waiting)
        yield case, lambda told, wanted=wanted: (told.answer, told.sent) == wanted


def is_unexchanged(told):
    """Whether an allocation failure is told, and the call was sent or not."""
    return told.answer == "out of memory" and told.sent in ([], [NULL])


def dump_cases():
    for record, sent in OVER_UDP:
        case = Case("answer", transport=UDP, given=record, before=marked(SET))
        yield case, lambda told, wanted=f"reply {sent.hex()}": told.answer == wanted
    for before, vers, transport, sent in DUMPS:
        case = Case("answer", transport=transport, given=call(vers, 4, ""), before=before)
        yield case, lambda told, wanted=f"reply {sent.hex()}": told.answer == wanted


def swept_cases():
    """Rows whose growths are refused in turn."""
    for cases in (append_cases, refused_datagrams, exchange_cases):
        yield from cases()


def registry_cases():
    """Datagrams, many rows, and replies behind what stands there."""
    for cases in (dump_cases, append_cases, datagram_cases, refused_datagrams, exchange_cases):
        yield from cases()
