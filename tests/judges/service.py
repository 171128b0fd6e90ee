"""Connections and datagrams that are answered one after another, and a registry that is asked for its rows by datagram,
by all that is told of each: the lines that are printed, and what goes out."""
import itertools

from rows.service import ASKING, CLIENTS, DATAGRAMS, ENDINGS, MOST_ROWS, NOTHING
from rows.shared import BY_RECORD, Case, GETPORT, NULL, REPLY, SET, call, marked, octets, word


def lines_of(count):
    lines = [b"connection %d: %s\n" % (number, line) for number, (*_, line) in enumerate(CLIENTS[:count], 1)]
    return b"listening on 127.0.0.1 111\n" + b"".join(lines)


def client_cases():
    """Connections one after another, of at most 24 bytes a read."""
    sent, fails = ([row[place] for row in CLIENTS] for place in (0, 1))
    taken = [octets(digits) for _, _, digits, _ in CLIENTS]
    for come, count, failing, status, printed, said, left in ENDINGS:
        lines = b"" if printed is None else lines_of(printed)
        wanted = str(status), [left], [lines, said]
        keys = {"clients": [*map(octets, sent[:come])] or None, "clients_read_fails": fails[:come], "replies": taken}
        case = Case("serve_on", (24, 0), (512, failing), count=count, **keys)
        yield case, lambda told, wanted=wanted: (told.answer, told.counts, told.streams) == wanted


def endless_cases():
    """A client of empty fragments and of one byte a read, until its end is read by the last read and just not."""
    for count, line in ((1048575, b"Truncated at 1048575"), (1048576, b"TooManyReads"), (1048577, b"TooManyReads")):
        lines = b"listening on 127.0.0.1 111\nconnection 1: %s\n" % line
        keys = {"count": 1, "clients": [bytes(count)], "clients_read_fails": [0], "replies": [b""]}
        case = Case("serve_on", (1, 0), (512, 0), **keys)
        yield case, lambda told, lines=lines: (told.answer, told.streams) == ("0", [lines, b""])


def longest_cases():
    """The longest list of rows that is printed."""
    rows = octets("00000001 000186a0 00000002 00000006 0000006f") * MOST_ROWS
    given = marked(octets(REPLY + "00000000") + rows + word(0))
    lines = b"program vers prot port\n" + b"100000 2 6 111\n" * MOST_ROWS
    wanted = "0", [marked(call(2, 4, "")), lines, b""]
    yield Case("info_over", version=2, given=given), lambda told: (told.answer, told.streams) == wanted


def sends(status, sent, lines, said):
    """Whether it ends with the status, these datagrams are sent, and this is printed and said."""
    wanted = str(status), sent, [lines, said]
    return lambda told: (told.answer, told.sent, told.streams) == wanted


def datagram_cases():
    for come, count, call_failing, write_failing, status, lines, said, sent in DATAGRAMS:
        keys = {"port_fails": call_failing, "count": count, "datagrams": come or None}
        case = Case("datagrams_on", writes=(64, write_failing), **keys)
        yield case, sends(status, sent, lines, said)
    for come, vers, call_failing, write_failing, status, lines, said, is_sent in ASKING:
        keys = {"port_fails": call_failing, "version": vers, "datagrams": come or None}
        case = Case("info_datagram", writes=(64, write_failing), **keys)
        yield case, sends(status, [call(vers, 4, "")] * is_sent, lines, said)


def service_cases():
    """Clients, those without end, the longest list, and datagrams."""
    yield from itertools.chain(client_cases(), endless_cases(), longest_cases(), datagram_cases())


def port_rows():
    """The null call, and those in which nothing fails and each datagram is answered: their growths are refused."""
    yield Case("datagrams_on", count=1, datagrams=[NULL]), sends(0, [NOTHING], b"datagram 1: reply\n", b"")
    for case, is_well in datagram_cases():
        if case.port_fails == case.writes[1] == 0 and case.datagrams and case.datagrams[0]:
            yield case, is_well


def missed_in(records, sent):
    """Which of the replies to the records tell NoMemory, or None where one is neither right nor tells that."""
    has_row, missed = False, []
    for record, got in zip(records, sent):
        _, without, with_row, row_after = BY_RECORD[record]
        if got == (with_row if has_row else without):
            has_row = has_row if row_after is None else row_after
        elif got == record[:4] + octets(REPLY[8:] + "00000005"):
            missed.append(got)
        else:
            return None
    return missed


def answers_so(told, whole, case, records):
    """Whether a growth that is refused makes a reply SYSTEM_ERR, or its line the first that is missing, and both where
    the later ones are refused too; no reply but SYSTEM_ERR and no line where none is granted."""
    sent = told.sent
    missed, lines = missed_in(records, sent), whole.streams[0].splitlines(keepends=True)
    ending = told.answer, *told.streams
    cut = "4", b"".join(lines[: len(sent) - 1]), b"out of memory\n"
    if missed is None or len(sent) > len(records):
        return False
    if not case.refuse.endswith(".."):
        return ending == (("0", whole.streams[0], b"") if missed else cut) and len(missed) <= 1
    return ending == cut and missed in ([], sent[-1:]) and (case.refuse != "1.." or missed == sent)


def port_wants_memory(told, whole, case):
    """The same of the datagrams that come in a case, and that a registry that is asked tells NoMemory."""
    if case.call == "datagrams_on":
        return answers_so(told, whole, case, [each for each in (SET, GETPORT, NULL) if each in case.datagrams])
    is_told = (told.answer, *told.streams) == ("4", b"", b"out of memory\n")
    return is_told and told.sent in ([], whole.sent)
