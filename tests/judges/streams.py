"""Records, calls and connections over devices that fail, and inputs that end, judged by the definitions.

`records_in` is a second implementation, of the records of a stream (RFC 5531 section 11). The replies to them are a
table, `BY_RECORD`; what else stands here compares.
"""
import collections
import itertools

from rows.shared import (
    ASKED,
    ASKED_AFTER,
    BY_RECORD,
    Case,
    EXCHANGED,
    NULL,
    PIECES,
    SERVED,
    STREAMS,
    WIDEST,
    call,
    marked,
    octets,
    told_after,
    word,
)

from .running import Told


def records_in(stream, limit):
    """The whole records of a stream, each with the place behind it, and why the stream is none, if it is none."""
    found, content, begun, at = [], b"", False, 0
    while at + 4 <= len(stream):
        head = int.from_bytes(stream[at : at + 4], "big")
        size = head & 0x7FFFFFFF
        if len(content) + size > limit:
            return found, f"TooLong at {at}"
        if at + 4 + size > len(stream):
            return found, f"Truncated at {len(stream)}"
        content, begun, at = content + stream[at + 4 : at + 4 + size], True, at + 4 + size
        if head >> 31:
            found.append((at, content))
            content, begun = b"", False
    return found, f"Truncated at {len(stream)}" if begun or at < len(stream) else None


def normal_form(found):
    return b"".join(marked(content) for _, content in found)


def seen_by(given, reads, is_settled=lambda seen: False):
    """The bytes that were read, up to where the answer is settled, and whether a read failed."""
    piece, failing = reads
    for number in itertools.count(1):
        before = (number - 1) * piece
        if number == failing:
            return given[:before], True
        if before >= len(given):
            return given, False
        if is_settled(given[: before + piece]):
            return given[: before + piece], False


def replies_to(found, has_row=False, by_record=BY_RECORD):
    """The replies to records, one after another, where no memory is wanted, and whether the row is there after each."""
    replies, rows = [], []
    for _, content in found:
        _, without, with_row, after = by_record[content]
        replies.append(with_row if has_row else without)
        has_row = has_row if after is None else after
        rows.append(has_row)
    return replies, rows


def is_too_long(limit):
    return lambda seen: "TooLong" in (records_in(seen, limit)[1] or "")


def is_cut_well(told, written, whole, chunks, writes, is_exact=True):
    """Whether a run that writes these bytes, and answers so where no write fails, is well where this write fails. Each
    chunk goes out whole before the next is begun; where that is not exact, writes may be shorter."""
    piece, failing = writes
    output = b"".join(chunks)
    ends = [0]
    for chunk in chunks:
        begun = ends[-1]
        ends += [begun + min(at + piece, len(chunk)) for at in range(0, len(chunk), piece)]
    count = len(written)
    is_cut = told == f"write fault after {count}" and output.startswith(written) and count < len(output)
    is_whole = told == whole and written == output
    if is_exact:
        return is_cut and count == ends[failing - 1] if 0 < failing < len(ends) else is_whole
    if is_whole:
        return not failing or failing >= len(ends)
    return is_cut and 0 < failing <= len(output) and failing - 1 <= count <= (failing - 1) * piece


def failures(given, output):
    """The input ended at each byte, and whole with each read that fails and each write, in pieces."""
    for piece in PIECES:
        for length in range(len(given) + 1):
            yield given[:length], (piece, 0), (piece, 0)
        for failing in range(1, -(-len(given) // piece) + 3):
            yield given, (piece, failing), (4096, 0)
        for failing in range(1, -(-len(output) // piece) + 3):
            yield given, (4096, 0), (piece, failing)


def ended(given):
    return (given[:length] for length in range(len(given) + 1))


def normalised(limit, given, reads, writes):
    """Records that came whole in one read go out in one piece."""
    seen, has_failed = seen_by(given, reads, is_too_long(limit))
    found, why = records_in(seen, limit)
    chunks = collections.defaultdict(bytes)
    for end, content in found:
        chunks[(end - 1) // min(reads[0], 4096)] += marked(content)
    count = f"{len(found)} records, {len(normal_form(found))} bytes"
    whole = "read fault" if has_failed else f"refused {why}" if why else count
    return lambda told: is_cut_well(told.answer, told.streams[0], whole, [*chunks.values()], writes)


def normalise_cases():
    for limit, digits in STREAMS:
        whole = octets(digits)
        for given, reads, writes in failures(whole, normal_form(records_in(whole, limit)[0])):
            yield Case("normalise", reads, writes, limit=limit, given=given), normalised(limit, given, reads, writes)
        # A stream in its normal form is that again.
        normal = normal_form(records_in(whole, limit)[0])
        yield Case("normalise", limit=limit, given=normal), lambda told, normal=normal: told.streams == [normal]


def handed_out(limit, given):
    """What is answered to the input and its end, and then to a byte more, the first of a header, and to the end."""
    found, why = records_in(given, limit)
    kept = b"".join(word(len(content)) + content for _, content in found)
    late = f"refused {why}"
    fed = late if "TooLong" in (why or "") else "ok"
    cut = f"refused Truncated at {len(given) + 1}"
    wanted = f"{fed}; {late}; {late}; {late}" if why else f"ok; ok; more; {cut}"
    return lambda told: told.answer == wanted and told.streams == [kept]


def reader_cases():
    for limit, digits in STREAMS:
        for given in ended(octets(digits)):
            for piece in PIECES:
                yield Case("RecordReader", (piece, 0), limit=limit, given=given), handed_out(limit, given)


def served(given, reads, writes):
    seen, has_failed = seen_by(given, reads, is_too_long(65536))
    found, why = records_in(seen, 65536)
    replies, rows = replies_to(found)
    parts = [marked(each) if each else b"" for each in replies]
    sent = sum(each is not None for each in replies)
    count = f"{len(found)} records, {sent} replies"
    whole = "read fault" if has_failed else f"refused {why}" if why else count

    def is_well(told):
        written, after = told.streams
        ends = list(itertools.accumulate(map(len, parts)))
        at_work = [n for n, end in enumerate(ends) if len(written) < end] if "write" in told.answer else []
        made = at_work[0] + 1 if at_work else len(found)
        has_row = bool(made) and rows[made - 1]
        return is_cut_well(told.answer, written, whole, parts, writes) and after == told_after(has_row)

    return is_well


def serve_cases():
    for whole in SERVED:
        output = b"".join(marked(each) for each in replies_to(records_in(whole, 65536)[0])[0] if each)
        for given, reads, writes in failures(whole, output):
            yield Case("serve", reads, writes, given=given, after=ASKED_AFTER), served(given, reads, writes)
        for size in range(1, 50):
            case = Case("serve", (size, 0), (size, 0), given=whole, after=ASKED_AFTER)
            yield case, served(whole, (size, 0), (size, 0))


def is_first_whole(limit):
    return lambda seen: bool(records_in(seen, limit)[0]) or is_too_long(limit)(seen)


def exchanged(given, told_whole, reads, writes):
    seen, has_failed = seen_by(given, reads, is_first_whole(WIDEST))
    is_whole = is_first_whole(WIDEST)(seen)
    cut = f"refused Truncated at {len(seen)}"
    whole = told_whole if is_whole else "read fault" if has_failed else cut
    return lambda told: is_cut_well(told.answer, told.streams[0], whole, [marked(NULL)], writes)


def exchange_cases():
    for stream, told in EXCHANGED:
        for given, reads, writes in failures(stream, marked(NULL)):
            yield Case("exchange", reads, writes, given=given), exchanged(given, told, reads, writes)


def is_printed_well(told, status, printed, faults, writes):
    """The same for a task of the program: its exit status, and what it prints to both streams."""
    piece, failing = writes
    output, said = told.streams[-2:]
    if (int(told.answer), output, said) == (status, printed, faults):
        return not failing or failing > -(-len(printed) // piece)
    count = len(output)
    is_cut = (told.answer, said) == ("3", b"write fault\n") and printed.startswith(output) and count < len(printed)
    return is_cut and 0 < failing <= len(printed) and failing - 1 <= count <= (failing - 1) * piece


def asked_of(given, status, printed, reads, writes, sends):
    seen, has_failed = seen_by(given, reads, is_first_whole(WIDEST))
    ending = status, printed, b""
    if not is_first_whole(WIDEST)(seen):
        ending = (3, b"", b"read fault\n") if has_failed else (1, b"refused Truncated at %d\n" % len(seen), b"")
    asked = marked(call(4, 4, ""))

    def is_well(told):
        if sends and told.streams[0] != asked:
            return is_printed_well(Told(0, told.answer, [told.streams[0], told.streams[2]]), 0, asked, b"", writes)
        return told.streams[0] == asked and is_printed_well(told, *ending, (4096, 0) if sends else writes)

    return is_well


def info_cases():
    for stream, status, printed in ASKED:
        for given, reads, writes in failures(stream, printed):
            case = Case("info_over", reads, writes, version=4, given=given)
            yield case, asked_of(given, status, printed, reads, writes, False)
        for _, _, writes in failures(b"", marked(call(4, 4, ""))):
            case = Case("info_over", writes=(writes[0], 0), version=4, call_write_fails=writes[1], given=stream)
            yield case, asked_of(stream, status, printed, (4096, 0), writes, True)
