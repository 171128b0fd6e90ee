"""Items whose bytes go to a sink, whose writes take so many bytes each, and one of which fails (RFC 4506 section 4)."""
import itertools

from rows.codec import ITEMS, UNITS
from rows.shared import Case, MORE, PIECES, octets, word

from .running import run
from .writer import EACH, NO_MEMORY, refused_rows, written_rows


def put_to(text, name, items, writes=(4096, 0), **more):
    return Case("Writer::put_to", writes=writes, kind=name, text=text, items=items or None, **more)


def sent(pieces, writes):
    """How many bytes of each piece are out, where each write takes so many and one of them may fail, and all of them."""
    most, failing = writes
    counts, number = [], 0
    for piece in pieces:
        out = 0
        while out < len(piece):
            number += 1
            if number == failing:
                break
            out += min(most, len(piece) - out)
        counts.append(out)
    return counts, b"".join(piece[:count] for piece, count in zip(pieces, counts))


def is_sent(pieces, writes, last, ends):
    """Whether these items are answered, the last of them so where all of it is out, and then these come."""
    counts, output = sent(pieces, writes)
    steps = ["more"] * (len(pieces) - 1) + [last] * bool(pieces)
    answers = [
        step if count == len(piece) else f"write fault after {count}" for step, count, piece in zip(steps, counts, pieces)
    ]
    answer = "; ".join(answers + ends + ["0 growths"])
    return lambda told: (told.answer, told.streams) == (answer, [output])


def sunk_cases():
    """Each value whole, in writes of each size, and with each write failing in turn; ended early, and with an item more
    behind it."""
    for text, name, pairs, given in written_rows():
        items, pieces = [item for item, _ in pairs], [piece for _, piece in pairs]
        ends = [f"ok {len(given)}"]
        for most in PIECES:
            count = sum(-(-len(piece) // most) for piece in pieces)
            for failing in range(min(count, 60) + 2):
                yield put_to(text, name, items, (most, failing)), is_sent(pieces, (most, failing), "done", ends)
        for some in range(len(items)):
            unfinished = [f"refused Unfinished, item {some}"]
            yield put_to(text, name, items[:some]), is_sent(pieces[:some], (4096, 0), "more", unfinished)
        past = [f"refused PastEnd, item {len(items)}"] * 3
        yield put_to(text, name, [*items, "flag:0"]), is_sent(pieces, (4096, 0), "done", past)


def refused_sunk_cases():
    """An item that is refused sends nothing, and is refused for ever."""
    for text, name, taken, other, why, limits in refused_rows():
        items = [item for item, _ in taken] + [other, *EACH]
        pieces = [octets(digits) for _, digits in taken]
        ends = [f"{why}, item {len(taken)}"] * (len(items) - len(taken) + 2)
        yield put_to(text, name, items, **limits), is_sent(pieces, (4096, 0), "more", ends)


def large_sunk_cases():
    """Content of a mebibyte, and a hundred thousand numbers."""
    content = UNITS[: 1 << 20]
    pieces = [word(1 << 20) + content]
    yield put_to(b"", "opaque", [f"content:{content.hex()}"]), is_sent(pieces, (4096, 0), "done", ["ok 1048580"])
    items = ["count:100000", *(f"number:{number}" for number in range(100000))]
    pieces = [ITEMS[at : at + 4] for at in range(0, len(ITEMS), 4)]
    yield put_to(MORE, "big", items), is_sent(pieces, (4096, 0), "done", ["ok 400004"])


def refused_growth_cases(heap):
    """Each growth refused, alone and with all later ones: the whole answer, or NoMemory at an item, of which
    nothing is out, and which comes again with memory."""
    rows = [(text, name, [item for item, _ in pairs], [piece for _, piece in pairs])
            for text, name, pairs, _ in written_rows()]
    wholes = run([put_to(text, name, items) for text, name, items, _ in rows], LD_PRELOAD=heap)
    for (text, name, items, pieces), whole in zip(rows, wholes):
        for number, alone in itertools.product(range(1, whole.met + 3), ("", "..")):
            case = put_to(text, name, items, refuse=f"{number}{alone}")
            yield case, lambda told, whole=whole, number=number, items=items, pieces=pieces: (
                told[1:3] == whole[1:3] if number > whole.met else is_short(told, items, pieces)
            )


def is_short(told, items, pieces):
    taken = told.answer.split("; ").count("more")
    ends = [f"{NO_MEMORY}, item {taken}"] * (len(items) - taken + 2)
    return is_sent(pieces[:taken], (4096, 0), "more", ends)(told)
