"""Values that JSON spells, a second time: written anew from docs/FORMATS.md section 5 and RFC 4506, over the kinds that
are told of a text. `spelled` gives the bytes of the value, or why there is none and where: of all faults that the text
has, that with the least place."""
import re
import struct

from rows.shared import WIDEST, word

from .json_trees import Refusal, tree_of

DECIMAL = re.compile(rb"-?(0|[1-9][0-9]{0,19})")
PAIRS = re.compile(rb"([0-9a-fA-F]{2})*")
RANGES = {
    "int": (-(1 << 31), (1 << 31) - 1),
    "unsigned int": (0, (1 << 32) - 1),
    "hyper": (-(1 << 63), (1 << 63) - 1),
    "unsigned hyper": (0, (1 << 64) - 1),
}
FORMS = {"int": ">i", "unsigned int": ">I", "hyper": ">q", "unsigned hyper": ">Q"}


def number_in(sort, node):
    """A number of a kind of numbers: a JSON number, or a string with its text."""
    if node.sort not in ("number", "string"):
        raise Refusal("WrongType", node.at)
    low, high = RANGES[sort]
    if DECIMAL.fullmatch(node.content) and low <= int(node.content) <= high:
        return int(node.content)
    raise Refusal("NotWhole" if set(b".eE") & set(node.content) else "OutOfRange", node.at)


def flag_in(node):
    if node.sort != "boolean":
        raise Refusal("WrongType", node.at)
    return int(node.content)


def member_in(members, node):
    """A number of an enumeration: a member's name, or a number that one has."""
    if node.sort == "string":
        found = [number for name, number in members if name.encode() == node.content]
        if not found:
            raise Refusal("UnknownName", node.at)
        return found[0]
    if node.sort != "number":
        raise Refusal("WrongType", node.at)
    number = number_in("int", node)
    if number not in [each for _, each in members]:
        raise Refusal("OutOfRange", node.at)
    return number


def content_in(node, at):
    """The bytes of hexadecimal digits, of a value at a place."""
    if node.sort != "string":
        raise Refusal("WrongType", at)
    if not PAIRS.fullmatch(node.content):
        raise Refusal("BadHex", at)
    return bytes.fromhex(node.content.decode())


def text_in(node):
    """The bytes of a string: itself, or those under `hex`."""
    if node.sort == "string":
        return node.content
    if node.sort != "object" or [key for key, *_ in node.content] != [b"hex"]:
        raise Refusal("WrongType", node.at)
    return content_in(node.content[0][2], node.at)


class Spelling:
    """The bytes of a value, and of each node how many stand before it and how deep it lies; and the faults of the text,
    each with its place. Where there is a fault, the bytes are none of a value."""

    def __init__(self, kinds):
        self.kinds, self.bytes, self.nodes, self.faults = kinds, bytearray(), [], []

    def refuse(self, why, at):
        self.faults.append((at, why))

    def tag(self, place, node):
        """A discriminant, in its kind."""
        sort, more = self.kinds[place]
        if sort == "bool":
            return flag_in(node)
        return member_in(more, node) if sort == "enum" else number_in(sort, node)

    def value(self, place, node, depth=1):
        """Adds the value of the kind at the place, or the faults that it has."""
        self.nodes.append((len(self.bytes), depth))
        try:
            self.value_of(*self.kinds[place], place, node, depth)
        except Refusal as refusal:
            self.refuse(refusal.why, refusal.at)

    def value_of(self, sort, more, place, node, depth):
        match sort:
            case "int" | "unsigned int" | "hyper" | "unsigned hyper":
                self.bytes += struct.pack(FORMS[sort], number_in(sort, node))
            case "bool" | "enum":
                self.bytes += struct.pack(">i", self.tag(place, node))
            case "sized" | "opaque" | "string":
                self.content(sort, more, node)
            case "fixed" | "array":
                self.items(sort, *more, node, depth)
            case "struct":
                if node.sort != "object":
                    raise Refusal("WrongType", node.at)
                self.members(more, node, depth)
            case "union":
                self.union(*more, node, depth)
            case "optional":
                self.optional(more, node, depth)
            case "void":
                if node.sort != "object":
                    raise Refusal("WrongType", node.at)
                self.members([], node, depth)

    def content(self, sort, size, node):
        content = text_in(node) if sort == "string" else content_in(node, node.at)
        if len(content) > size or (sort == "sized" and len(content) < size):
            raise Refusal("WrongLength", node.at)
        if sort != "sized":
            self.bytes += word(len(content))
        self.bytes += content + bytes(-len(content) % 4)

    def items(self, sort, item, size, node, depth):
        """The items; those of an array that has too many or too few are values of their kind all the same."""
        if node.sort != "array":
            raise Refusal("WrongType", node.at)
        if len(node.content) > size or (sort == "fixed" and len(node.content) < size):
            self.refuse("WrongLength", node.at)
        if sort == "array":
            self.bytes += word(len(node.content))
        for each in node.content:
            self.value(item, each, depth + 1)

    def members(self, parts, node, depth):
        """The values under the names of these parts, in the order of the parts. A member is missing only where each
        that is there has the name of a part, and stands once. What stands under an unknown key, or under one for the
        second time, is of no kind."""
        names = [name.encode() for _, name in parts]
        found, refused = {}, len(self.faults)
        for key, at, value in node.content:
            if key not in names:
                self.refuse("UnknownMember", at)
            elif key in found:
                self.refuse("MemberTwice", at)
            else:
                found[key] = value
        if len(found) < len(names) and refused == len(self.faults):
            self.refuse("MissingMember", node.at)
        for (kind, _), name in zip(parts, names):
            if kind is not None and name in found:
                self.value(kind, found[name], depth + 1)

    def union(self, tag, arms, other, node, depth):
        """A union has the members that the value under `case` tells, which is looked for first; where that is none of
        its kind, or has no arm, they are not known."""
        if node.sort != "object":
            raise Refusal("WrongType", node.at)
        case = next((value for key, _, value in node.content if key == b"case"), None)
        if case is None:
            raise Refusal("MissingMember", node.at)
        number = self.tag(tag, case)
        if number not in arms and other is None:
            raise Refusal("NoArm", case.at)
        kind, name = arms.get(number, other)
        self.bytes += word(number & 0xFFFFFFFF)
        if self.kinds[kind][0] == "void":
            self.members([(None, "case")], node, depth)
            self.nodes.append((len(self.bytes), depth + 1))
        else:
            self.members([(None, "case"), (kind, "case_" if name == "case" else name)], node, depth)

    def optional(self, item, node, depth):
        if node.sort == "null":
            self.bytes += word(0)
            return
        inside = node
        if self.kinds[item][0] == "optional":
            if node.sort != "array":
                raise Refusal("WrongType", node.at)
            if len(node.content) != 1:
                raise Refusal("WrongLength", node.at)
            inside = node.content[0]
        self.bytes += word(1)
        self.value(item, inside, depth + 1)

    def limited(self, end, most_depth, most_bytes):
        """The bytes, or the limit that the value passes first in the order of its bytes."""
        for at, depth in self.nodes:
            if at > most_bytes:
                break
            if depth > most_depth:
                raise Refusal("TooDeep", end)
        if len(self.bytes) > most_bytes:
            raise Refusal("TooLarge", end)
        return bytes(self.bytes)


def spelled(kinds, place, text, depth=4096, most=WIDEST):
    """The bytes of the value of the kind at the place that the text spells within the limits. A limit is one of a
    value, and told at the text's end: it comes behind all faults of the text."""
    spelling = Spelling(kinds)
    spelling.value(place, tree_of(text))
    if spelling.faults:
        at, why = min(spelling.faults)
        raise Refusal(why, at)
    return spelling.limited(len(text), depth, most)


def place_of(text, at):
    """The line and the column of a place, from 1, columns in bytes."""
    before = text[:at]
    return f"{before.count(10) + 1}:{at - (before.rfind(10) + 1) + 1}"


def told_of_text(kinds, place, text, depth=4096, most=WIDEST):
    """What `read_json` is to answer, and the streams that it tells."""
    try:
        return "ok", [spelled(kinds, place, text, depth, most)]
    except Refusal as refusal:
        return f"refused {refusal.why} at {place_of(text, refusal.at)}", []
