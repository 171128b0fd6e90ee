"""Values as JSON, a second time: written anew from docs/FORMATS.md section 5 and RFC 4506, over the kinds that are told
of a text. `value_in` reads bytes as a kind has them, and gives what json.loads would give of the value's JSON."""
import json
import re
import struct

ENTRY = re.compile(r"(?:case (-?\d+): )")


def member_of(text):
    """A field or an arm's part as it is told: the place of its kind, and its name."""
    place, _, name = text.partition(" ")
    return int(place), name


def arms_of(text):
    """The arms of a union as they are told: the part under each number, and that of all others, if there is one."""
    arms, other = {}, None
    for each in text.split("; "):
        if each.startswith("default: "):
            other = member_of(each.removeprefix("default: "))
        else:
            part = member_of(ENTRY.sub("", each))
            arms.update((int(number), part) for number in ENTRY.findall(each))
    return arms, other


def kind_of(line):
    """A kind as it is told, as a sort and what belongs to it."""
    sort, _, rest = line.partition(" (")
    inside = rest.removesuffix(")")
    words = sort.split(" ")
    if sort.startswith("enum"):
        pairs = [each.rpartition(" = ") for each in inside.split("; ")]
        return "enum", [(name, int(number)) for name, _, number in pairs]
    if sort.startswith("struct"):
        return "struct", [member_of(each) for each in inside.split("; ")]
    if sort.startswith("union"):
        return "union", (int(words[1]), *arms_of(inside))
    if sort.startswith("optional"):
        return "optional", int(words[1])
    if found := re.fullmatch(r"array (\d+)([\[<])(\d+).", sort):
        return ("fixed" if found[2] == "[" else "array"), (int(found[1]), int(found[3]))
    if found := re.fullmatch(r"(opaque|string)([\[<])(\d+).", sort):
        return ("sized" if found[2] == "[" else found[1]), int(found[3])
    return sort, None


def kinds_of(told):
    """The kinds of a text that was read, by their places."""
    return [kind_of(line) for line in told.streams[0].decode().splitlines()[1:]]


def places_of(told):
    """The places of the kinds that the text names."""
    return {name: int(place) for name, place in re.findall(r'\("([^"]+)", (\d+)\)', told.streams[1].decode())}


def text_of(content):
    """A string: itself where it is UTF-8, and else its bytes under `hex`."""
    try:
        return content.decode("utf-8")
    except UnicodeDecodeError:
        return {"hex": content.hex()}


def number_in(sort, unit):
    return unit - (1 << 32) if sort in ("int", "enum") and unit >> 31 else unit


def name_in(members, number):
    """The name of the first member with the number."""
    return next(name for name, each in members if each == number)


class Reader:
    """The bytes of a value, read from the front."""

    def __init__(self, kinds, given):
        self.kinds, self.given, self.at = kinds, given, 0

    def take(self, count):
        self.at += count
        return self.given[self.at - count : self.at]

    def unit(self):
        return int.from_bytes(self.take(4), "big")

    def content(self, count):
        content = self.take(count)
        self.take(-count % 4)
        return content

    def value(self, place):
        """The JSON of the value of the kind at the place."""
        sort, more = self.kinds[place]
        match sort:
            case "int" | "unsigned int":
                return number_in(sort, self.unit())
            case "hyper":
                return str(struct.unpack(">q", self.take(8))[0])
            case "unsigned hyper":
                return str(struct.unpack(">Q", self.take(8))[0])
            case "bool" | "enum":
                return self.named(place, self.unit())
            case "sized":
                return self.content(more).hex()
            case "opaque":
                return self.content(self.unit()).hex()
            case "string":
                return text_of(self.content(self.unit()))
            case "fixed":
                return [self.value(more[0]) for _ in range(more[1])]
            case "array":
                return [self.value(more[0]) for _ in range(self.unit())]
            case "struct":
                return {name: self.value(kind) for kind, name in more}
            case "union":
                return self.union(*more)
            case "optional":
                return self.optional(more)
        return {}

    def named(self, place, unit):
        """A number as a value of its kind: a discriminant, too."""
        sort, more = self.kinds[place]
        if sort == "bool":
            return unit == 1
        return name_in(more, number_in(sort, unit)) if sort == "enum" else number_in(sort, unit)

    def union(self, tag, arms, other):
        unit = self.unit()
        kind, name = arms.get(number_in(self.kinds[tag][0], unit), other)
        value = {"case": self.named(tag, unit)}
        if self.kinds[kind][0] != "void":
            value["case_" if name == "case" else name] = self.value(kind)
        return value

    def optional(self, item):
        if not self.unit():
            return None
        value = self.value(item)
        return [value] if self.kinds[item][0] == "optional" else value


def value_in(kinds, place, given):
    """What json.loads gives of the JSON of the value of the kind that these bytes begin with, and the bytes' count."""
    reader = Reader(kinds, given)
    return reader.value(place), reader.at


def texts_of(value):
    """The text of a JSON value in both layouts (RFC 8259, docs/FORMATS.md section 5)."""
    compact = json.dumps(value, ensure_ascii=False, separators=(",", ":"))
    return {"": compact.encode(), "indented": json.dumps(value, ensure_ascii=False, indent=2).encode()}


def members(found):
    """An object by its members in their order."""
    return "object", found


def listed(value):
    """A JSON value with its objects so."""
    if isinstance(value, dict):
        return members([(name, listed(each)) for name, each in value.items()])
    return [listed(each) for each in value] if isinstance(value, list) else value


def is_json_of(text, value):
    """Whether the text is that of the JSON value, as json.loads reads it: the members in their order, too."""
    return json.loads(text, object_pairs_hook=members) == listed(value)
