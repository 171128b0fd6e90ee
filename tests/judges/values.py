"""Values over devices that fail, inputs that end and every cutting, judged by the outcome of their bytes.

`outcome_line` is a second implementation, of the outcome of a row's bytes and of their beginnings (RFC 4506): a row
says after how many bytes its value or its refusal stands. What else stands here compares.
"""
import itertools

from rows.shared import Case, PENDING, PIECES, REFUSED, Refused, STREAMS, WHOLE, WIDEST, octets, word

from .streams import ended, failures, is_cut_well, is_printed_well, is_too_long, normal_form, records_in, seen_by


def outcome_line(row, seen):
    """The line of the outcome of the bytes, the status, and whether nothing that follows can change it."""
    stands, used = (row.stands, None) if isinstance(row, Refused) else (row.used, row.used)
    if len(seen) < stands:
        return b"refused Truncated at %d\n" % len(seen), 1, False
    if used is None:
        return b"refused %s at %d\n" % (row.why.encode(), row.at), 1, True
    more = b", more follows" if len(seen) > used else b""
    return b"ok %d%s\n" % (used, more), 0, bool(more)


def typed(row):
    limits = {"bytes": getattr(row, "bytes", WIDEST), "depth": getattr(row, "depth", 4096)}
    return {"kind": row.name, "text": row.text, **limits}


def value_ending(row, shows, seen, has_failed):
    if has_failed and not outcome_line(row, seen)[2]:
        return 3, b"", b"read fault\n"
    line, status, _ = outcome_line(row, seen)
    return status, (row.lines if shows and status == 0 else b"") + line, b""


def checked(row, given, shows, in_hex, reads, writes):
    """What is read to its end is met whole; a check stops where the answer is settled, and lines may."""
    stopping = seen_by(given, reads, lambda seen: outcome_line(row, seen)[2])
    endings = [] if in_hex else [value_ending(row, shows, *stopping)]
    if in_hex or shows:
        text = given.hex().encode() if in_hex else given
        _, has_failed = seen_by(text, reads)
        failed = (3, b"", b"read fault\n")
        endings.append(failed if has_failed else value_ending(row, shows, given, False))
    return lambda told: any(is_printed_well(told, *ending, writes) for ending in endings)


def value_task(shows, in_hex, given, kind, reads=(4096, 0), writes=(4096, 0)):
    """A task of a value of a kind of the text `a.x`."""
    return Case("Task::Show" if shows else "Task::Check", reads, writes, hex=in_hex, given=given, types="a.x", **kind)


def value_cases():
    for row, shows, in_hex in itertools.product(WHOLE + REFUSED, (False, True), (False, True)):
        whole = octets(row.digits)
        text = whole.hex().encode() if in_hex else whole
        _, printed, _ = value_ending(row, shows, whole, False)
        for given, reads, writes in failures(text, printed):
            if in_hex and len(given) % 2:
                continue
            case = value_task(shows, in_hex, given, typed(row), reads, writes)
            yield case, checked(row, octets(given.decode()) if in_hex else given, shows, in_hex, reads, writes)


def records_over(limit, given, in_hex, reads, writes):
    text = given.hex().encode() if in_hex else given
    seen, has_failed = seen_by(text, reads, (lambda seen: False) if in_hex else is_too_long(limit))
    found, why = records_in(given if in_hex else seen, limit)
    output = normal_form(found).hex().encode() + b"\n" if in_hex else normal_form(found)
    said = b"refused %s\n" % why.encode() if why else b""
    if has_failed:
        return lambda told: is_printed_well(told, 3, b"" if in_hex else output, b"read fault\n", writes)
    return lambda told: is_printed_well(told, 1 if why else 0, output, said, writes)


def records_cases():
    for (limit, digits), in_hex in itertools.product(STREAMS, (False, True)):
        whole = octets(digits)
        text = whole.hex().encode() if in_hex else whole
        output = normal_form(records_in(whole, limit)[0])
        for given, reads, writes in failures(text, output.hex() + "\n" if in_hex else output):
            if in_hex and len(given) % 2:
                continue
            case = Case("Task::Records", reads, writes, hex=in_hex, limit=limit, given=given)
            yield case, records_over(limit, octets(given.decode()) if in_hex else given, in_hex, reads, writes)


def written_to(row, writes):
    output = octets(row.digits)[: row.used]
    well = f"ok {len(output)}"
    return lambda told: is_cut_well(told.answer, told.streams[0], well, [output], writes, False)


def encode_cases():
    for row in WHOLE:
        for _, _, writes in failures(b"", octets(row.digits)[: row.used]):
            case = Case("encode_to", writes=writes, kind=row.name, text=row.text, given=octets(row.digits))
            yield case, written_to(row, writes)
    # The fourth write of at most 1000 bytes is behind the four of the length and two of the content.
    long = word(10000) + b"".join(map(word, range(2500)))
    cut = "write fault after 2004", [long[:2004]]
    case = Case("encode_to", writes=(1000, 4), kind="opaque", given=long)
    yield case, lambda told: (told.answer, told.streams) == cut


def fault_of(why, at):
    return f"refused {why} at {at}"


def cut_well(given, cuts, whole, refused):
    """What a decoder and a checker answer to each of three pieces and to the end, and the value's lines, where the
    bytes begin with a whole row's value, are refused as a row is, or neither."""
    answers, before = [], 0
    end, count, lines = *(fault_of("Truncated", len(given)),) * 2, b""
    for place in (*cuts, len(given)):
        if refused and place >= refused.stands:
            answers.append(fault_of(refused.why, refused.at))
            end, count = (answers[-1],) * 2
        elif whole and place >= whole.used:
            answers.append(f"done {max(whole.used - before, 0)}")
            end, count, lines = "ok", f"ok {whole.used}", whole.lines
        else:
            answers.append("more")
        before = place
    answers = [answer for answer in answers for _ in range(2)]
    return "; ".join([*answers, end, count]), [lines]


def cut(cuts, given, kind):
    return Case("Decoder::feed", first=cuts[0], second=cuts[1], given=given, **kind)


def cutting_cases():
    rows = [(row.digits, typed(row), row, None) for row in WHOLE if len(row.digits) < 60]
    rows += [(row.digits, typed(row), None, row) for row in REFUSED]
    rows += [(digits, {"text": text, "kind": name}, None, None) for text, name, digits, _ in PENDING]
    for digits, kind, whole, refused in rows:
        given = octets(digits)
        for cuts in itertools.combinations_with_replacement(range(len(given) + 1), 2):
            wanted = cut_well(given, cuts, whole, refused)
            yield cut(cuts, given, kind), lambda told, wanted=wanted: (told.answer, told.streams) == wanted


def fed(row, given, piece, is_counted):
    """What a decoder and a checker answer, fed so many bytes a piece up to an answer that is not More: how many pieces,
    that answer, what no byte more is answered, the end, and that no growth was met at the end."""
    stands = row.stands if isinstance(row, Refused) else row.used
    pieces = -(-stands // piece)
    if len(given) < stands:
        pieces, answer, again = -(-len(given) // piece), "more", "more"
        end, lines = fault_of("Truncated", len(given)), b""
    elif isinstance(row, Refused):
        answer = again = end = fault_of(row.why, row.at)
        lines = b""
    else:
        answer, again = f"done {stands - max(pieces - 1, 0) * piece}", "done 0"
        end, lines = f"ok {row.used}" if is_counted else "ok", row.lines
    wanted = f"{pieces} pieces; {answer}; {again}; {end}; 0 growths", [] if is_counted else [lines]
    return lambda told: (told.answer, told.streams) == wanted


def feeding_cases():
    for row, piece in itertools.product(WHOLE + REFUSED, PIECES):
        for given, engine in itertools.product(ended(octets(row.digits)), ("Decoder", "Checker")):
            yield Case(engine, (piece, 0), given=given, **typed(row)), fed(row, given, piece, engine == "Checker")
