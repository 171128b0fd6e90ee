"""The part that a path names, beside the parts that are told of the same bytes (RFC 4506 section 4).

`nodes_of` puts the parts that `parts` tells together as a tree, by their depths, and `paths_of` names each part that
has a path. What is told of the path is that part, and its number."""
from rows.codec import CODED
from rows.paths import FOUND, NO_PATHS
from rows.shared import Case, LIST, MORE, REFUSED, WHOLE, octets, word

from .mapping import kinds_of
from .random_values import random_values
from .running import run
from .values import fault_of, typed

NONE = "no such part"


class Node:
    """A node of a value: the parts that it has by itself, and the nodes inside it."""

    def __init__(self, part):
        self.parts, self.inside = [part], []
        _at, depth, kind, self.name, self.role, _bytes = part
        self.depth, self.kind = int(depth), int(kind)


def nodes_of(answer, kinds):
    """The node that the parts are of. Content behind its length is of the length's node."""
    root, opened = None, []
    for words in answer.split("; "):
        part = words.split(" ")
        while opened and opened[-1].depth > int(part[1]):
            opened.pop()
        last = opened[-1] if opened else None
        is_more = last and last.role == "Length" and part[4] == "Content" and len(last.parts) == 1
        if is_more and last.depth == int(part[1]) and kinds[last.kind][0] in ("opaque", "string"):
            last.parts.append(part)
            continue
        if last and last.depth == int(part[1]):
            opened.pop()
        node = Node(part)
        if opened:
            opened[-1].inside.append(node)
        root = root or node
        opened.append(node)
    return root


def paths_of(node, kinds, path=""):
    """The part that each path names, from a node on: of optional data that is there, its item's."""
    sort, _more = kinds[node.kind]
    if sort == "optional" and node.inside:
        yield from paths_of(node.inside[0], kinds, path)
        return
    yield path, node
    for number, inner in enumerate(node.inside):
        if sort in ("fixed", "array"):
            yield from paths_of(inner, kinds, f"{path}[{number}]")
        elif inner.name != "-":
            yield from paths_of(inner, kinds, f"{path}.{inner.name}" if path else inner.name)


def number_of(node, kinds):
    """The number of the part that stands for a node, as it is told."""
    *_, role, digits = node.parts[-1]
    if role in ("Content", "Group"):
        return "none"
    sort, more = kinds[node.kind]
    sort = kinds[more[0]][0] if sort == "union" else sort
    is_signed = role == "Number" and sort in ("int", "hyper", "enum")
    return str(int.from_bytes(octets(digits), "big", signed=is_signed))


def found_of(answer, kinds):
    """What is told of each path of the value whose parts are told."""
    named = {}
    for path, node in paths_of(nodes_of(answer, kinds), kinds):
        named.setdefault(path, f"{' '.join(node.parts[-1])}; {number_of(node, kinds)}")
    return named


def other_paths(path):
    """Paths beside one: some lead on, some nowhere, and some are no paths."""
    yield from (path + more for more in (".", "[", "]", "[0", "[0]", "[00]", "[01]", "[-0]", "[+0]", "[ 0]", "[x]", "[]"))
    yield from (path + more for more in (".x", ".[0]", "x", "[4294967295]", "[4294967296]", ".kind", "[0]x", ".."))
    yield from (f".{path}", f"[0]{path}", path[:-1], path[1:], path.upper(), path.replace(".", ".."))


def find(path, **kind):
    return Case("find", path=path.encode(), **kind)


def is_answer(wanted):
    return lambda told: told.answer == wanted


def beside_parts(rows, most=None):
    """Each path of a value, and paths beside each, where the rows have a text, its kinds, a kind and the bytes. Of
    values with many paths, some."""
    rows = list(rows)
    lent = run([Case("parts", kind=name, text=text, given=given) for text, _, name, given in rows])
    for (text, kinds, name, given), told in zip(rows, lent):
        named = found_of(told.answer, kinds)
        chosen = list(named) if most is None else list(named)[:: max(1, len(named) // most)]
        kind = {"text": text, "kind": name, "given": given}
        for path in dict.fromkeys([*chosen, *(other for each in chosen for other in other_paths(each))]):
            yield find(path, **kind), is_answer(named.get(path, NONE))


def told_rows():
    rows = [(row.text, row.name, octets(row.digits)) for row in WHOLE]
    rows += [(text, name, octets(digits)) for text, name, digits, _ in CODED]
    texts = run([Case("read", text=text) for text, *_ in rows])
    return [(text, kinds_of(told), name, given) for (text, name, given), told in zip(rows, texts)]


def worked_path_cases():
    """Rows worked by hand: what a path names, and paths that name nothing."""
    for text, name, digits, paths in FOUND:
        for path, wanted in paths:
            yield find(path, text=text, kind=name, given=octets(digits)), is_answer(wanted)
    for text, name, digits, paths in NO_PATHS:
        for path in paths:
            yield find(path, text=text, kind=name, given=octets(digits)), is_answer(NONE)


def refused_path_cases():
    """Bytes that no value begins, whatever the path is, and each cut of a value's bytes."""
    for row in REFUSED:
        for path in ("", "x", "a..b"):
            case = find(path, given=octets(row.digits), **typed(row))
            yield case, is_answer(fault_of(row.why, row.at))
    for row in WHOLE:
        for length in range(row.used):
            case = find("", given=octets(row.digits)[:length], **typed(row))
            yield case, is_answer(fault_of("Truncated", length))


def path_cases():
    yield from worked_path_cases()
    yield from refused_path_cases()
    yield from beside_parts(told_rows())


def random_path_cases(seed=1, count=100):
    """Random values of random declarations, some paths of each."""
    values = random_values(seed, count)
    yield from beside_parts([(text, kinds, name, given) for text, kinds, name, _, given in values], 12)


def large_path_cases():
    """A mebibyte of content, a hundred thousand numbers, and the last entries of a long list."""
    content = bytes(range(256)) * 4096
    wanted = f"4 1 6 - Content {content.hex()}; none"
    yield find("", kind="opaque", given=word(1 << 20) + content), is_answer(wanted)
    numbers = word(100000) + b"".join(map(word, range(100000)))
    for index in (0, 77777, 99999):
        wanted = f"{4 + 4 * index} 2 0 - Number {index:08x}; {index}"
        yield find(f"[{index}]", kind="big", text=MORE, given=numbers), is_answer(wanted)
    yield find("[100000]", kind="big", text=MORE, given=numbers), is_answer(NONE)
    given = (word(1) + word(1) + b"a\0\0\0") * 2047 + word(0)
    path = "next." * 2046
    for name, wanted in (("item", f"{12 * 2046 + 8} 4095 8 item Content 61; none"),
                         ("next", f"{12 * 2047} 4095 9 next Flag 00000000; 0"), ("next.item", NONE)):
        yield find(path + name, kind="list", text=LIST, given=given), is_answer(wanted)


def path_rows():
    """What is swept: the rows worked by hand, and the bytes that are refused."""
    yield from worked_path_cases()
    for row in REFUSED:
        yield find("x", given=octets(row.digits), **typed(row)), is_answer(fault_of(row.why, row.at))
