"""Growths of memory that are refused, each in turn, alone and with all later ones."""
import itertools
import re

from rows.growths import CHAINED, LENGTHS, MESSAGES, REFUSED_WITHOUT, TASKS, WITHOUT_NODES
from rows.shared import (
    ASKED,
    ASKED_AFTER,
    BY_RECORD,
    CALLS,
    Case,
    EXCHANGED,
    FILE,
    FURTHER,
    LIST,
    MORE,
    NULL,
    PIECES,
    PING,
    REFUSED,
    REPLY,
    Refused,
    SERVED,
    SERVED_LONG,
    SET,
    SILLYPROG,
    STREAMS,
    TAKING,
    TEXTS,
    WHOLE,
    WIDEST,
    Whole,
    denied,
    marked,
    octets,
    reply,
    told_after,
    word,
)
from rows.tasks import ENCODED

from .directory import is_registry
from .messages import message_cases
from .registry import few_bytes_cases, is_missed, is_not_appended, is_unexchanged, swept_cases
from .running import run
from .service import port_rows, port_wants_memory
from .spelled import place_of
from .streams import (
    asked_of,
    exchanged,
    handed_out,
    is_printed_well,
    normal_form,
    normalised,
    records_in,
    replies_to,
    served,
)
from .values import checked, fault_of, fed, records_over, typed, value_task

# Growths of memory that are refused. What a case answers in place of its whole answer tells of an allocation failure.
NO_MEMORY = "out of memory"
SYSTEM_ERR = "00000005"


def is_some_run(told, whole, case, most):
    """Whether what was served is a run in which at most so many records met NoMemory, before the end or at it."""
    answer, (written, after) = told.answer, told.streams
    found, _ = records_in(case.given, 65536)
    made = records_in(written, WIDEST)[0]
    if answer not in (NO_MEMORY, whole.answer) or normal_form(made) != written:
        return False
    has_row, missed, at = False, answer == NO_MEMORY, 0
    for _, content in found:
        _, without, with_row, row_after = BY_RECORD[content]
        right = with_row if has_row else without
        got = made[at][1] if at < len(made) else None
        if got is None and right is not None:
            break
        if right is None:
            continue
        at += 1
        if got == right:
            has_row = has_row if row_after is None else row_after
        elif got == octets(content[:4].hex() + REPLY[8:] + SYSTEM_ERR):
            missed += 1
        else:
            return False
    if not any(content for _, content in found) and answer == NO_MEMORY:
        return False
    is_all = answer == NO_MEMORY or at == sum(row is not None for row in replies_to(found)[0])
    return is_all and at == len(made) and missed <= most and after == told_after(has_row)


def connection_lines(told, whole, most):
    """Whether each line is the whole run's, or tells NoMemory; or status 4 stands behind some of the lines."""
    output, faults = told.streams
    lines, wanted = output.splitlines(), whole.streams[0].splitlines()
    missed = sum(line != right for line, right in zip(lines, wanted))
    missing = re.compile(rb"connection \d+: (NoMemory|\d+ records, \d+ replies)")
    is_known = all(line == right or missing.fullmatch(line) for line, right in zip(lines, wanted))
    if (told.answer, faults) == ("4", b"out of memory\n"):
        return is_known and missed + 1 <= most and len(lines) <= len(wanted)
    return is_known and missed <= most and len(lines) == len(wanted) and (told.answer, faults) == (whole.answer, b"")


def some_parts(told, whole):
    """Whether each part of what a registry's making and dumping tells is the whole run's, or tells NoMemory."""
    parts, wanted = told.answer.split("; "), whole.answer.split("; ")
    return len(parts) == 3 and all(part in (NO_MEMORY, right) for part, right in zip(parts, wanted))


def is_kept_before(told, case):
    """Whether the first growth that is refused leaves exactly the records before the first that has content."""
    found, _ = records_in(case.given, case.limit)
    empty = len([*itertools.takewhile(lambda record: not record[1], found)])
    one = word(0) if case.call == "RecordReader" else marked(b"")
    return case.refuse.removesuffix("..") != "1" or told.streams[0] == one * empty


def wants_memory(told, whole, case):
    """Whether the answer tells of an allocation failure as the call's contract has it."""
    most = 1 if not case.refuse.endswith("..") else 10**9
    fault = re.search(r"out of memory at (\d+)", told.answer)
    is_begun = all(right.startswith(got) for got, right in zip(told.streams, whole.streams))
    match case.call:
        case "serve":
            return is_some_run(told, whole, case, most)
        case "serve_on":
            return connection_lines(told, whole, most)
        case "dump":
            return some_parts(told, whole)
        case "normalise":
            written = told.streams[0]
            is_records = records_in(written, WIDEST)[1] is None
            return told.answer == NO_MEMORY and is_begun and is_records and is_kept_before(told, case)
        case "RecordReader":
            return told.answer == "; ".join([NO_MEMORY] * 4) and is_begun and is_kept_before(told, case)
        case "Task::Check" | "Task::Show" | "Task::Records":
            is_records = case.call == "Task::Records"
            is_kept = not told.streams[0] or (is_records and (case.hex or is_kept_before(told, case)))
            is_cut = whole.streams[0].startswith(told.streams[0])
            return (told.answer, told.streams[1]) == ("4", b"out of memory\n") and is_cut and is_kept
        case "encode_over":
            return (told.answer, told.streams) == ("4", [b"", b"out of memory\n"])
        case "info_over":
            sent, printed, faults = told.streams
            return (told.answer, printed, faults) == ("4", b"", b"out of memory\n") and sent in (b"", whole.streams[0])
        case "datagrams_on" | "info_datagram":
            return port_wants_memory(told, whole, case)
        case "answer":
            xid = int.from_bytes(case.given[:4], "big")
            return told.answer == f"out of memory, xid {xid}" and told.streams[0] == told_after(bool(case.before))
        case "append_answer":
            return is_not_appended(told, case)
        case "serve_datagrams":
            return is_missed(told, case)
        case "exchange_datagram":
            return is_unexchanged(told)
        case "exchange":
            return told.answer == NO_MEMORY and told.streams[0] in (b"", whole.streams[0])
        case "decode" | "parts" | "find" | "Schema::build":
            return bool(fault) and told.answer == fault[0] and int(fault[1]) <= len(case.given)
        case "Decoder" | "Checker":
            count = int(told.answer.partition(" ")[0])
            is_same = bool(fault) and told.answer == "; ".join([f"{count} pieces", *[fault[0]] * 3, "0 growths"])
            read = min(count * case.reads[0], len(case.given))
            return is_same and int(fault[1]) <= read < int(fault[1]) + case.reads[0] + 4
        case "read_call" | "read_reply" | "read_auth_sys":
            is_read = whole.answer.partition("; ")[0] + f"; {NO_MEMORY}"
            return told.answer in (NO_MEMORY, is_read)
        case "read" | "read_tokens" | "read_dialect":
            return told.answer == "declaration refused: 13 at 1:1"
        case "read_json":
            places = {place_of(case.given, at) for at in range(len(case.given) + 1)}
            return told.answer in {f"{NO_MEMORY} at {place}" for place in places}
    return told.answer == NO_MEMORY


# Calls that end at the first growth that is refused, and tell the same whether later ones are granted again.
ENDING = "normalise RecordReader exchange answer decode parts Decoder Checker encode show Value::copy mark".split()
ENDING += "append_answer exchange_datagram tokens read_outline write_json json_of_bytes read_json find".split()
ENDING += ["join_texts"]
# Those that take memory for each answer, so that the first growth is not done without.
TAKING_ANY = "encode_over answer read mark exchange info_over datagrams_on info_datagram encode show read_call".split()
TAKING_ANY += "read_auth_sys tokens read_outline directory_schema append_answer exchange_datagram".split()
TAKING_ANY += "serve_datagrams write_json json_of_bytes read_json read_tokens read_dialect join_texts".split()


def is_granted_well(whole, case, number):
    """The whole answer or an allocation failure, the same alone and with all later growths refused."""
    first = {}

    def is_well(told, refused):
        is_whole = told[1:] == whole[1:]
        alone = first.setdefault(number, told)
        is_same = case.call not in ENDING or told[1:] == alone[1:]
        if case.call == "serve" and alone.answer != NO_MEMORY and not is_whole:
            # The reply SYSTEM_ERR takes no memory: it is there with all later growths refused too.
            missed = octets(REPLY[8:] + SYSTEM_ERR)
            is_same = (missed in alone.streams[0]) <= (missed in told.streams[0])
        is_done = number > 1 or not whole.met or case.call not in TAKING_ANY
        return is_same and (is_done if is_whole else number <= whole.met and wants_memory(told, whole, refused))

    return is_well


def answered(record, before):
    """The reply and the rows after it."""
    replies, rows = replies_to([(0, record)], before)
    sent = "no reply" if replies[0] is None else f"reply {replies[0].hex()}"
    return lambda told: (told.answer, told.streams) == (sent, [told_after(rows[0])])


def joined_well(row, given):
    """Whether parts stand one behind the other from the first byte on, joined with their zeros are the value's bytes,
    or are refused as the row is."""
    if isinstance(row, Refused):
        return lambda told: told.answer == fault_of(row.why, row.at)

    def is_well(told):
        found = [part.split(" ") for part in told.answer.split("; ")]
        bytes_of = [octets(digits) for *_, digits in found]
        # (the count of an array is a length as well, and what follows it has another depth, kind or name)
        roles = [(role, part) for _, *part, role, _ in found]
        for (role, part), following, length, content_of in zip(roles, roles[1:], bytes_of, bytes_of[1:]):
            if role == "Length" and following == ("Content", part) and word(len(content_of)) != length:
                return False
        padded = [each + bytes(-len(each) % 4) for each in bytes_of]
        places = [0, *itertools.accumulate(map(len, padded))]
        return b"".join(padded) == given[: row.used] and [at for at, *_ in found] == [*map(str, places[:-1])]

    return is_well


def told_again(given):
    """What is read is written again as the same bytes, or it is refused."""
    return lambda told: told.answer.endswith(f"; written {given.hex()}") or "; " not in told.answer


def connection_line(number, given):
    found, why = records_in(given, 65536)
    sent = sum(row is not None for row in replies_to(found)[0])
    ending = why or f"{len(found)} records, {sent} replies"
    return f"connection {number}: {ending}\n".encode()


def connected(streams, writes):
    """The lines of connections one after another."""
    lines = [b"listening on 127.0.0.1 111\n"]
    lines += [connection_line(number, given) for number, given in enumerate(streams, 1)]
    return lambda told: is_printed_well(told, 0, b"".join(lines), b"", writes)


def clients(*streams):
    """Clients none of whose reads fails."""
    return {"count": len(streams), "clients": streams}


def connection_cases():
    streams = [
        SERVED[0],
        b"",
        SERVED[3],
        octets("80000000"),
        octets("7fffffff00"),
        octets("800000280000000100"),
        SERVED[0],
    ]
    for piece in PIECES:
        for failing in range(0, 240 // piece + 3):
            case = Case("serve_on", (piece, 0), (piece, failing), **clients(*streams))
            yield case, connected(streams, (piece, failing))


def stream_rows():
    for limit, digits in STREAMS:
        given = octets(digits)
        for piece in PIECES:
            reads = piece, 0
            yield Case("normalise", reads, limit=limit, given=given), normalised(limit, given, reads, (4096, 0))
            yield Case("RecordReader", reads, limit=limit, given=given), handed_out(limit, given)
        for in_hex in (False, True):
            text = given.hex().encode() if in_hex else given
            is_well = records_over(limit, given, in_hex, (4096, 0), (4096, 0))
            yield Case("Task::Records", hex=in_hex, limit=limit, given=text), is_well
        wanted = "ok", [marked(given)]
        yield Case("mark", given=given), lambda told, wanted=wanted: (told.answer, told.streams) == wanted


def decoded_well(row):
    wanted = (fault_of(row.why, row.at), [b""]) if isinstance(row, Refused) else (f"ok {row.used}", [row.lines])
    return lambda told: (told.answer, told.streams) == wanted


def value_rows():
    for row in WHOLE + REFUSED:
        given = octets(row.digits)
        kind = {"given": given, **typed(row)}
        yield Case("decode", **kind), decoded_well(row)
        yield Case("parts", **kind), joined_well(row, given)
        for engine, piece in itertools.product(("Decoder", "Checker"), PIECES):
            yield Case(engine, (piece, 0), **kind), fed(row, given, piece, engine == "Checker")
        if isinstance(row, Whole):
            for engine, output in (("encode", given[: row.used]), ("show", row.lines)):
                wanted = "ok", [output]
                yield Case(engine, **kind), lambda told, wanted=wanted: (told.answer, told.streams) == wanted
            yield Case("Value::copy", **kind), lambda told: told.answer == "equal"
        for shows, in_hex in itertools.product((False, True), (False, True)):
            text = given.hex().encode() if in_hex else given
            is_well = checked(row, given, shows, in_hex, (4096, 0), (4096, 0))
            yield value_task(shows, in_hex, text, typed(row)), is_well


def task_rows():
    for shows, in_hex, name, text, given, status, output, faults in TASKS:
        wanted = status, [output, faults]
        case = value_task(shows, in_hex, given, {"kind": name, "text": text})
        yield case, lambda told, wanted=wanted: (told.answer, told.streams) == wanted
    for text, kind, given, digits, said in ENCODED:
        for in_hex in (False, True):
            written = b"" if digits is None else octets(digits)
            written = written.hex().encode() + b"\n" if in_hex and written else written
            wanted = ("1" if said else "0"), [written, said]
            case = Case("encode_over", kind=kind, text=text, types="a.x" if text else None, hex=in_hex, given=given)
            yield case, lambda told, wanted=wanted: (told.answer, told.streams) == wanted


def message_rows():
    for engine, digits in MESSAGES:
        wanted = f"; written {octets(digits).hex()}"
        yield Case(engine, given=octets(digits)), lambda told, wanted=wanted: told.answer.endswith(wanted)
    yield from message_cases()
    for record, *_replies in CALLS + FURTHER:
        yield Case("read_call", given=record), told_again(record)
    for stream, _ in EXCHANGED:
        for _, content in records_in(stream, WIDEST)[0]:
            yield Case("read_reply", given=content), told_again(content)


def registry_rows():
    # An empty record is no call, and is served without memory.
    served_so = [octets("80000000"), octets("80000001 00")]
    for given in (*SERVED[:3], SERVED_LONG, *served_so):
        for reads in ((48, 0), (4096, 0)):
            yield Case("serve", reads, given=given, after=ASKED_AFTER), served(given, reads, (4096, 0))
        yield Case("serve_on", **clients(given)), connected([given], (4096, 0))
    for has_row, before in enumerate((b"", marked(SET))):
        for record, *_replies in CALLS:
            yield Case("answer", given=record, before=before, after=ASKED_AFTER), answered(record, bool(has_row))
        for record, sent in FURTHER:
            wanted = f"reply {sent.hex()}", [told_after(bool(has_row))]
            case = Case("answer", given=record, before=before, after=ASKED_AFTER)
            yield case, lambda told, wanted=wanted: (told.answer, told.streams) == wanted
        yield Case("dump", before=before), lambda told, has_row=bool(has_row): is_registry(told, has_row)
    for record in TAKING:
        yield Case("answer", given=record, after=ASKED_AFTER), lambda told: told.answer.startswith("reply ")
    for (stream, told), piece in itertools.product(EXCHANGED, PIECES):
        yield Case("exchange", (piece, 0), given=stream), exchanged(stream, told, (piece, 0), (4096, 0))
    yield from swept_cases()
    for (stream, status, printed), piece in itertools.product(ASKED, PIECES):
        is_well = asked_of(stream, status, printed, (piece, 0), (4096, 0), False)
        yield Case("info_over", (piece, 0), version=4, given=stream), is_well


def text_rows():
    for number, text in enumerate(TEXTS):
        begins = "ok" if number < 8 else "declaration refused: "
        for engine in ("read", "read_tokens"):
            yield Case(engine, text=text), lambda told, begins=begins: told.answer.startswith(begins)
    for engine, text in (("tokens", FILE), ("read_outline", FILE), ("read_outline", PING), ("directory_schema", b"")):
        yield Case(engine, text=text), lambda told: not told.answer.startswith(("refused", "out of memory"))


def growth_cases():
    """Rows whose growths are refused, each with the judge of its whole answer."""
    for rows in (stream_rows, value_rows, task_rows, message_rows, registry_rows, port_rows, text_rows):
        yield from rows()


def each_refused(heap, cases):
    """Each growth of these cases refused, alone and with all later ones."""
    wholes = run(cases, LD_PRELOAD=heap)
    if sum(whole.met for whole in wholes) < len(cases):
        print("growths are not counted")
        return
    for case, whole in zip(cases, wholes):
        for number in range(1, whole.met + 3):
            is_well = is_granted_well(whole, case, number)
            for refused in (str(number), f"{number}.."):
                changed = case._replace(refuse=refused)
                yield changed, lambda told, changed=changed, is_well=is_well: is_well(told, changed)


def refused_cases(heap):
    yield from each_refused(heap, [case for case, _ in growth_cases()])


def room_cases(heap):
    """A stream of calls meets no growth more than its first: a record's room and a reply's are kept. What a long record
    took is given back, and the record behind it takes memory again. A record that comes in two reads takes two growths,
    once."""
    for length in (0, 4000, 20000):
        streams = [marked(NULL + bytes(length)) + marked(NULL) * more for more in (0, 1, 2, 31, 63)]
        cases = [Case("serve", (4096, 0), given=given, after=ASKED_AFTER) for given in streams]
        first, *_ = run(cases[:1], LD_PRELOAD=heap)
        for case in cases:
            least = first.met + (length > 8192 and case is not cases[0])
            most = least + (2 if length else 0)
            yield case, lambda told, least=least, most=most: 0 < least <= told.met <= most
    yield from few_bytes_cases()


def chain(length, leaves):
    """A chain of so many nodes with one part each, and a last one with so many, of which each has one."""
    return octets("00000001" * length + f"{leaves:08x}" + "00000001 00000000" * leaves)


def swing_cases(heap):
    """How often the nodes at work go down and up asks for no memory of theirs: none in a checker, and in a decoder what
    their values take, the same at each depth."""
    for engine in ("Checker", "decode"):
        made = {
            leaves: [Case(engine, kind="t", text=CHAINED, given=chain(length, leaves)) for length in LENGTHS]
            for leaves in (2, 200)
        }
        few, many = (run(made[leaves], LD_PRELOAD=heap) for leaves in (2, 200))
        more = {after.met - before.met for before, after in zip(few, many)}
        is_well = more == {0} if engine == "Checker" else len(more) == 1 and more.pop() >= 198
        yield made[200][0], lambda told, is_well=is_well: is_well and told.met > 0


def alone_cases():
    """Behind a value's last byte its decoder holds the value alone: the end gives nothing back. In the midst of one it
    holds more."""
    for kind, given in (
        ({"kind": "list", "text": LIST}, (word(1) + word(0)) * 2047 + word(0)),
        ({"kind": "t", "text": CHAINED}, chain(300, 200)),
        ({"kind": "opaque"}, word(65536) + b"a" * 65536),
    ):
        yield Case("Decoder", given=given, **kind), lambda told: "; ok; " in told.answer and told.counts == [0]
        yield Case("Decoder", given=given[:-4], **kind), lambda told: "Truncated" in told.answer and told.counts[0] > 0


def given_back_cases():
    """A decoder that has refused a piece has given back what it held of the value; one that waits for more has not."""
    items = octets("00000001 00000001 61000000") * 300
    asked = {"kind": "list", "text": LIST}
    yield Case("Decoder", given=items, **asked), lambda told: "Truncated" in told.answer and told.counts[0] > 0
    fault = f"; {fault_of('BadBool', len(items))}; "
    yield Case("Decoder", given=items + word(2), **asked), lambda told: fault in told.answer and told.counts == [0]
    for row, piece in itertools.product(REFUSED, PIECES):
        if row.why != "Truncated":
            case = Case("Decoder", (piece, 0), given=octets(row.digits), **typed(row))
            yield case, lambda told, row=row: fault_of(row.why, row.at) in told.answer and told.counts == [0]


def declared_alone_cases(heap):
    """A decoder takes as much memory with a count or a length of 4000 as with one of 1, while nothing stands behind. Lent
    parts take as much with all the content of a mebibyte as with four bytes of it."""
    for kind, text in (("big", MORE), ("t", CHAINED), ("opaque", b""), ("string", b"")):
        one, many = (Case("Decoder", kind=kind, text=text, given=word(count)) for count in (1, 4000))
        first = run([one], LD_PRELOAD=heap)[0]
        yield many, lambda told, first=first: "Truncated at 4" in told.answer and told == first
    few, many = (Case("parts", kind="opaque", given=word(count) + bytes(count)) for count in (4, 1 << 20))
    first = run([few], LD_PRELOAD=heap)[0]
    yield many, lambda told: (told.met, told.counts) == (first.met, first.counts) and told.answer.count("; ") == 1
    yield few, lambda told: told.met > 0 and told.counts[0] > 0


def without_nodes_cases():
    """Kinds without nodes by `decode`, a decoder and a checker, where no growth is granted: the whole answer, and none
    is asked for."""
    for row in WITHOUT_NODES + REFUSED_WITHOUT:
        given, refused = octets(row.digits), {"refuse": "1..", **typed(row)}
        asked = [(Case("decode", given=given, **refused), decoded_well(row))]
        for call, piece in itertools.product(("Decoder", "Checker"), PIECES):
            asked.append((Case(call, (piece, 0), given=given, **refused), fed(row, given, piece, call == "Checker")))
        for case, is_well in asked:
            yield case, lambda told, is_well=is_well: told.met == 0 and is_well(told)
    # The end before any byte: of void, which is whole, and of an integer.
    cut = fault_of("Truncated", 0)
    for kind, wanted in (("void", ("ok; ok 0", [b"void\n"])), ("int", (f"{cut}; {cut}", [b""]))):
        case = Case("Decoder::finish", kind=kind, refuse="1..")
        yield case, lambda told, wanted=wanted: (told.met, told.answer, told.streams) == (0, *wanted)


def free_cases():
    """Calls that take no memory, whatever the lengths that their bytes declare."""
    asked = [
        (b"", "hyper", "80000000 00000000", "decode"),
        (b"", "int", "00000003 61626300", "decode"),
        (b"", "opaque", "00000003 61626300", "Checker"),
        (b"", "opaque", "ffffffff", "decode"),
        (MORE, "five", "00000005", "decode"),
        (b"", "opaque", "ffffffff 61", "Decoder"),
        (b"", "string", "ffffffff 61", "Decoder"),
        (FILE, "filekind", "00000002", "decode"),
        (FILE, "file", SILLYPROG, "Checker"),
        (MORE, "six", "61626364 65660000", "Checker"),
        (MORE, "five", "00000003 61626300", "encode_to"),
    ]
    asked += [(b"", "opaque", "00010000" + "61" * 65536, "Checker"), (b"", "opaque", "00000008" + "61" * 8, "Checker")]
    # Checked without memory: all kinds but those of a node.
    for text, name, digits in (
        (b"", "int", "80000000"),
        (b"", "unsigned", "ffffffff"),
        (b"", "hyper", "80000000 00000000"),
        (b"", "unsigned-hyper", "ffffffff ffffffff"),
        (b"", "bool", "00000001"),
        (b"", "string", "00000003 61626300"),
        (FILE, "filekind", "00000002"),
    ):
        asked.append((text, name, digits, "Checker"))
    for text, name, digits, engine in asked:
        yield Case(engine, (1, 0), kind=name, text=text, given=octets(digits)), lambda told: told.met == 0
    # The header of a record; an empty record, which is no call; bytes that are no call, and cases of none.
    for given in (b"", octets("81000000"), octets("80000000")):
        yield Case("RecordReader", (1, 0), limit=WIDEST, given=given), lambda told: told.met == 0
    yield Case("serve", (1, 0), given=octets("81000000")), lambda told: told.met == 0
    for given in (octets("00000001"), NULL[:11], octets("00000002 00000000 00000003"), NULL[:24], NULL[:32]):
        yield Case("read_call", given=given), lambda told: told.met == 0
    given = octets("00000001 00000001 00000001 00000001 00000063")[:19]
    yield Case("read_reply", given=given), lambda told: told.met == 0
    yield Case("answer", given=octets("00000001")), lambda told: (told.met, told.answer) == (0, "no reply")


def answer_cases():
    """The null call cut at each byte: silence, a credential and a verifier that cannot be read, and the reply."""
    for length in range(len(NULL) + 1):
        sent = None if length < 24 else denied(1) if length < 32 else denied(3) if length < 40 else reply("00000000")
        wanted = "no reply" if sent is None else f"reply {sent.hex()}", [told_after(False)]
        case = Case("answer", given=NULL[:length], after=ASKED_AFTER)
        yield case, lambda told, wanted=wanted: (told.answer, told.streams) == wanted
