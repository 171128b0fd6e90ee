"""Values that are written item by item, and what comes next for a reader (RFC 4506 sections 3 and 4).

`items_of` has the items of the parts that are told of bytes. What else stands here compares.
"""
import itertools

from rows.codec import CODED, ITEMS, LENT, UNITS
from rows.shared import Case, LIST, MORE, WHOLE, octets, word
from rows.writer import AWAITED, NOT_IN_RANGE, REFUSED_ITEMS, WRITTEN, WRONG

from .running import run

NO_MEMORY = "out of memory"
# What stands before what is written, and items of each sort, one of which is due where any is.
FRONT = b"\1\2\3"
EACH = ["number:0", "flag:0", "count:0", "content:"]


def is_signed(kinds, place):
    """Whether a number of the kind may be negative; a union's is that of its discriminant."""
    words = kinds[place].split()
    return is_signed(kinds, int(words[1])) if words[0] == "union" else words[0] in ("int", "hyper", "enum")


def items_of(parts, kinds):
    """The items of parts as they are told, each with its bytes: a length goes with the content behind it."""
    items, length = [], b""
    for part in parts.split("; "):
        _at, _depth, kind, *_name, role, digits = part.split(" ")
        content = octets(digits)
        padded = content + bytes(-len(content) % 4)
        if role == "Number":
            items.append((f"number:{int.from_bytes(content, 'big', signed=is_signed(kinds, int(kind)))}", padded))
        elif role == "Flag":
            items.append((f"flag:{content[3]}", padded))
        elif role == "Content":
            items.append((f"content:{digits}", length + padded))
        elif role == "Length" and kinds[int(kind)].startswith("array"):
            items.append((f"count:{int.from_bytes(content, 'big')}", padded))
        length = content if role == "Length" and not kinds[int(kind)].startswith("array") else b""
    return items


def written_again():
    """Rows of values that are read, as rows of their items."""
    rows = [(row.text, row.name, octets(row.digits)[: row.used]) for row in WHOLE]
    rows += [(text, name, octets(digits)) for text, name, digits, _ in CODED]
    parts = run([Case("parts", kind=name, text=text, given=given) for text, name, given in rows])
    texts = run([Case("read", text=text) for text, *_ in rows])
    for (text, name, given), lent, read in zip(rows, parts, texts):
        yield text, name, items_of(lent.answer, read.streams[0].decode().splitlines()[1:]), given


def written_rows():
    """A text, a kind, items with their bytes, and all bytes of the value."""
    for text, name, items in WRITTEN:
        pieces = [(item, octets(digits)) for item, digits in items]
        yield text, name, pieces, b"".join(piece for _, piece in pieces)
    yield from written_again()


def put(text, name, items, **more):
    return Case("Writer", kind=name, text=text, front=FRONT, items=items or None, **more)


def is_told(taken, ends, pieces, front=FRONT):
    """Whether so many items are taken, and then these are the answers, and the bytes are those of the items."""
    answer = "; ".join(["more"] * taken + ends + ["0 growths"])
    written = front + b"".join(pieces)
    return lambda told: (told.answer, told.streams) == (answer, [written])


def is_refused(taken, items, why, pieces):
    """Whether the item behind so many is refused, and so are it with memory again, those behind it and the end."""
    return is_told(taken, [f"{why}, item {taken}"] * (len(items) - taken + 2), pieces)


def done(items, given):
    """What is answered to all items of a value of these bytes, from the last one on."""
    return ["done"] * bool(items) + [f"ok {len(given)}"]


def written_cases():
    """Each value whole, ended behind each item, with an item more, and from its tree."""
    for text, name, pairs, given in written_rows():
        items, pieces = [item for item, _ in pairs], [piece for _, piece in pairs]
        last = max(len(items) - 1, 0)
        is_whole = is_told(last, done(items, given), [given])
        yield put(text, name, items), is_whole
        yield Case("Writer::put", kind=name, text=text, given=given, front=FRONT), is_whole
        for count in range(len(items)):
            unfinished = f"refused Unfinished, item {count}"
            yield put(text, name, items[:count]), is_told(count, [unfinished], pieces[:count])
        for other in EACH:
            past = [f"refused PastEnd, item {len(items)}"] * 3
            yield put(text, name, [*items, other]), is_told(last, ["done"] * bool(items) + past, pieces)


def refused_rows():
    """A text, a kind, items with their bytes that are taken, the item that is refused, the reason, and the limits."""
    for text, name, taken, others in WRONG:
        yield from ((text, name, taken, other, "refused WrongItem", {}) for other in others)
    for text, name, taken, numbers in NOT_IN_RANGE:
        yield from ((text, name, taken, f"number:{number}", "refused NotInRange", {}) for number in numbers)
    for text, name, taken, other, why, depth, most in REFUSED_ITEMS:
        yield text, name, taken, other, f"refused {why}", {"depth": depth, "bytes": most}


def refused_item_cases():
    for text, name, taken, other, why, limits in refused_rows():
        items = [item for item, _ in taken] + [other, *EACH]
        pieces = [octets(digits) for _, digits in taken]
        yield put(text, name, items, **limits), is_refused(len(taken), items, why, pieces)
    # The end before any item.
    for text, name, depth, why in ((LIST, "list", 1, "Unfinished"), (MORE, "two", 1, "TooDeep at 0")):
        yield put(text, name, [], depth=depth), is_told(0, [f"refused {why}, item 0"], [])


def due_at(parts, at, most):
    """What comes next behind so many bytes of a row's parts, which have so many bytes at most: of each its place, its
    depth, its kind, its name, what stands in it, and its bytes."""
    for begin, _depth, kind, _name, role, content in parts:
        if role == "Group" or not begin <= at < begin + len(content) or at % 4 or at >= most:
            continue
        if role == "Content":
            return f"content {len(content) - at + begin}"
        if len(content) == 8:
            signed = "hyper" if kind == 2 else "unsigned hyper"
            return signed if at == begin else f"low of {signed}"
        return f"unit {kind}"
    return "nothing"


def awaited_cases():
    for text, name, depth, units in AWAITED:
        given = octets("".join(digits for digits, _ in units))
        wanted = ["nothing", *(due for _, due in units)]
        case = Case("Checker::due", (4, 0), kind=name, text=text, depth=depth, given=given)
        yield case, lambda told, wanted=wanted: told.answer.split("; ")[::2] == wanted
    for (text, name, digits, parts), piece in itertools.product(LENT, (1, 4)):
        given = octets(digits)
        most = max(at + len(content) + -len(content) % 4 for at, *_, content in parts)
        wanted = ["nothing"] + [due_at(parts, at, most) for at in range(0, len(given) + 1, piece)]
        case = Case("Checker::due", (piece, 0), kind=name, text=text, given=given)
        yield case, lambda told, wanted=wanted: told.answer.split("; ")[::2] == wanted


def large_written_cases():
    """Content of a mebibyte, and a hundred thousand numbers."""
    content = UNITS[: 1 << 20]
    numbers = [f"number:{number}" for number in range(100000)]
    yield put(b"", "opaque", [f"content:{content.hex()}"]), is_told(0, ["done", "ok 1048580"], [word(1 << 20), content])
    is_whole = is_told(100000, ["done", "ok 400004"], [ITEMS])
    yield put(MORE, "big", ["count:100000", *numbers]), is_whole
    yield Case("Writer::put", kind="big", text=MORE, given=ITEMS, front=FRONT), is_whole


def random_cases():
    """Random values of random schemas."""
    for seed in range(4):
        yield Case("random_values", seed=seed, count=1000), lambda told: told.answer == "1000 values"


def refused_writer_cases(heap):
    """Each growth refused, alone and with all later ones: the whole answer, or NoMemory at an item, which comes
    again with memory. The items before it are whole."""
    rows = [(text, name, [item for item, _ in pairs], [piece for _, piece in pairs])
            for text, name, pairs, _ in written_rows()]
    wholes = run([put(text, name, items) for text, name, items, _ in rows], LD_PRELOAD=heap)
    for (text, name, items, pieces), whole in zip(rows, wholes):
        for number, alone in itertools.product(range(1, whole.met + 3), ("", "..")):
            case = put(text, name, items, refuse=f"{number}{alone}")
            yield case, lambda told, whole=whole, number=number, items=items, pieces=pieces: (
                told[1:3] == whole[1:3] if number > whole.met else is_short(told, items, pieces)
            )


def is_short(told, items, pieces):
    taken = told.answer.split("; ").count("more")
    return is_refused(taken, items, NO_MEMORY, pieces[:taken])(told)


def counted_alone_cases(heap):
    """A writer takes as much memory after a count of 4000, or of four billions, as after one of 1."""
    one, *many = [Case("Writer", kind="big", text=MORE, items=[f"count:{count}"]) for count in (1, 4000, 4000000000)]
    first = run([one], LD_PRELOAD=heap)[0]
    for case, count in zip(many, (4000, 4000000000)):
        is_well = is_told(1, ["refused Unfinished, item 1"], [word(count)], b"")
        yield case, lambda told, is_well=is_well: (
            is_well(told) and (told.met, told.counts) == (first.met, first.counts) and told.met > 0
        )
