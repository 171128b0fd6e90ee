"""A second reading of a text of declarations (RFC 4506 section 6, RFC 5531 section 12): what it declares, and how many
bytes the values of its types have, counted from the declarations alone."""
import re


def padded(count):
    """With the zeros that fill the last unit."""
    return count + -count % 4


PIECE = re.compile(r"/\*.*?\*/|\s+|(-?\w+|[{}()\[\]<>=,;:*])", re.S)
MOST = 2**32 - 1
BASIC = {"int": ("int", 4, 4), "long": ("int", 4, 4), "hyper": ("hyper", 8, 8), "bool": ("bool", 4, 4)}
UNSIGNED = {"int": ("unsigned", 4, 4), "long": ("unsigned", 4, 4), "hyper": ("unsigned-hyper", 8, 8)}
STRING = ("string", 4, 4 + padded(MOST))
VOID = ("void", 0, 0)
NAMED = [*BASIC.values(), *UNSIGNED.values(), STRING]
ENDLESS = float("inf")


def number(word):
    digits = word.lstrip("-")
    base = 16 if digits[:2].lower() == "0x" else 8 if digits.startswith("0") else 10
    return int(digits, base) * (-1 if word.startswith("-") else 1)


class Reading:
    """A text: its constants and programs in their order, and its types, each a kind by its name.

    A kind is its word and what belongs to it: of a leaf the least and the greatest count of bytes.
    """

    def __init__(self, text):
        self.words = [it for it in PIECE.findall(text) if it]
        self.at, self.constants, self.types, self.programs = 0, {}, {}, []
        while self.at < len(self.words):
            self.definition()
        self.fewest = self.settled()

    def take(self):
        self.at += 1
        return self.words[self.at - 1]

    def skip(self, word):
        if self.at < len(self.words) and self.words[self.at] == word:
            self.at += 1
            return True
        return False

    def value(self):
        word = self.take()
        if word in ("TRUE", "FALSE"):
            return int(word == "TRUE")
        return self.constants[word] if word in self.constants else number(word)

    def definition(self):
        word = self.take()
        if word == "typedef":
            name, kind = self.declaration()
            self.types[name] = kind
        elif word == "program":
            self.programs.append(self.program())
        else:
            name = self.take()
            if word == "const":
                self.skip("=")
                self.constants[name] = number(self.take())
            else:
                self.types[name] = self.body(word)
        self.skip(";")

    def body(self, word):
        if word == "enum":
            return self.enum()
        if word == "union":
            return self.union()
        self.skip("{")
        fields = []
        while not self.skip("}"):
            fields.append(self.declaration()[1])
            self.skip(";")
        return "struct", fields

    def enum(self):
        self.skip("{")
        members = []
        while not self.skip("}"):
            name = self.take()
            self.skip("=")
            self.constants[name] = self.value()
            members.append(self.constants[name])
            self.skip(",")
        return "enum", 4, 4, members

    def union(self):
        self.skip("switch"), self.skip("(")
        tag, arms, other = self.declaration()[1], [], None
        self.skip(")"), self.skip("{")
        while not self.skip("}"):
            if self.skip("default"):
                self.skip(":")
                other = self.declaration()[1]
            else:
                cases = []
                while self.skip("case"):
                    cases.append(self.value())
                    self.skip(":")
                arms.append((cases, self.declaration()[1]))
            self.skip(";")
        return "union", tag, arms, other

    def specifier(self):
        word = self.take()
        if word == "unsigned":
            follows = self.words[self.at]
            return UNSIGNED[self.take()] if follows in UNSIGNED else UNSIGNED["int"]
        if word in BASIC:
            return BASIC[word]
        if word == "void":
            return VOID
        if word == "string":
            return STRING
        if word in ("enum", "union", "struct") and self.words[self.at] in ("{", "switch"):
            return self.body(word)
        return "named", self.take() if word == "struct" else word

    def declaration(self):
        """The name and the kind."""
        word = self.words[self.at]
        kind = (self.take(),) if word in ("opaque", "string") else self.specifier()
        if kind == VOID:
            return "", kind
        if self.skip("*"):
            return self.take(), ("optional", kind)
        name = self.take()
        if self.skip("["):
            size = self.value()
            self.skip("]")
            return name, ("opaque", padded(size), padded(size)) if word == "opaque" else ("array", kind, size)
        if self.skip("<"):
            most = MOST if self.words[self.at] == ">" else self.value()
            self.skip(">")
            return name, (word, 4, 4 + padded(most)) if word in ("opaque", "string") else ("list", kind, most)
        return name, kind

    def program(self):
        name, versions = self.take(), []
        self.skip("{")
        while not self.skip("}"):
            self.skip("version")
            versions.append(self.version())
        return name, self.own_number(), versions

    def version(self):
        name, procedures = self.take(), []
        self.skip("{")
        while not self.skip("}"):
            result, procedure, arguments = self.specifier(), self.take(), []
            self.skip("(")
            while not self.skip(")"):
                arguments.append(self.specifier())
                self.skip(",")
            arguments = [it for it in arguments if it != VOID]
            procedures.append((procedure, self.own_number(), arguments, result))
        return name, self.own_number(), procedures

    def own_number(self):
        self.skip("=")
        found = number(self.take())
        self.skip(";")
        return found

    def real(self, kind):
        while kind[0] == "named":
            kind = self.types[kind[1]]
        return kind

    def arms(self, kind):
        """The parts that a legal discriminant picks."""
        _, tag, arms, other = kind
        cases = {case for each, _ in arms for case in each}
        tag = self.real(tag)
        legal = set(tag[3]) if tag[0] == "enum" else {0, 1} if tag[0] == "bool" else None
        is_left = other is not None and (legal is None or legal - cases)
        return [part for _, part in arms] + ([other] if is_left else [])

    def settled(self):
        """The fewest bytes of each type: they fall from endless until none falls."""
        fewest, before = {name: ENDLESS for name in self.types}, None
        while fewest != before:
            before = fewest
            fewest = {name: self.least(kind, before) for name, kind in self.types.items()}
        return fewest

    def least(self, kind, fewest=None):
        fewest = self.fewest if fewest is None else fewest
        if kind[0] == "named":
            return fewest[kind[1]]
        if kind[0] == "struct":
            return sum(self.least(part, fewest) for part in kind[1])
        if kind[0] == "union":
            return 4 + min(self.least(part, fewest) for part in self.arms(kind))
        if kind[0] == "array":
            return kind[2] * self.least(kind[1], fewest) if kind[2] else 0
        return 4 if kind[0] in ("list", "optional") else kind[1]

    def most(self, kind, inside=()):
        """The most bytes of a kind that stands inside types: endless where it comes to one of them again."""
        if kind[0] == "named":
            return ENDLESS if kind[1] in inside else self.most(self.types[kind[1]], (*inside, kind[1]))
        if kind[0] == "struct":
            return sum(self.most(part, inside) for part in kind[1])
        if kind[0] == "union":
            return 4 + max(self.most(part, inside) for part in self.arms(kind))
        if kind[0] in ("array", "list"):
            return 4 * (kind[0] == "list") + (kind[2] * self.most(kind[1], inside) if kind[2] else 0)
        return 4 + self.most(kind[1], inside) if kind[0] == "optional" else kind[2]

    def range(self, kind):
        """Both counts, each a number or a word."""
        least, most = self.least(kind), self.most(kind)
        told = "unbounded" if most == ENDLESS else "large" if most >= 2**64 else most
        return ("large" if least >= 2**64 else least), told

    def lines(self):
        """What is printed of it."""
        said = lambda kind: "{} {}..{}".format(self.real(kind)[0], *self.range(kind))
        yield from (f"const {name} {value}" for name, value in self.constants.items())
        yield from (f"type {name} {said(kind)}" for name, kind in self.types.items())
        for program, p, versions in self.programs:
            yield f"program {program} {p}"
            for version, v, procedures in versions:
                yield f"version {version} {p}.{v}"
                for procedure, n, arguments, result in procedures:
                    yield f"procedure {procedure} {p}.{v}.{n}"
                    for k, argument in enumerate(arguments, 1):
                        yield f"argument {p}.{v}.{n}.{k} {self.first_name(argument) or '-'} {said(argument)}"
                    if result != VOID:
                        yield f"result {p}.{v}.{n}.result {self.first_name(result) or '-'} {said(result)}"

    def told(self, kind):
        least, most = (read_alike(it) for it in self.range(kind))
        return {"kind": self.real(kind)[0], "least": least, "greatest": most}

    def json(self):
        """What is printed of it as JSON."""
        return {
            "constants": [{"name": name, "value": read_alike(value)} for name, value in self.constants.items()],
            "types": [{"name": name, **self.told(kind)} for name, kind in self.types.items()],
            "programs": [self.program_told(*each) for each in self.programs],
        }

    def program_told(self, name, p, versions):
        return {"name": name, "number": p, "versions": [self.version_told(*each) for each in versions]}

    def version_told(self, name, v, procedures):
        return {"name": name, "number": v, "procedures": [self.procedure_told(*each) for each in procedures]}

    def procedure_told(self, name, n, arguments, result):
        told = [self.part_told(each) for each in arguments]
        result = None if result == VOID else self.part_told(result)
        return {"name": name, "number": n, "arguments": told, "result": result}

    def part_told(self, kind):
        return {"type": self.first_name(kind), **self.told(kind)}

    def first_name(self, kind):
        """The first name of the very kind: a basic type's, else that of the first definition that denotes it."""
        kind = self.real(kind)
        if any(kind is each for each in NAMED):
            return kind[0]
        return next((name for name, each in self.types.items() if self.real(each) is kind), None)


def read_alike(it):
    """A number whose size is below 2^53, else the string of its digits, as RFC 8259 section 6 would have it."""
    return str(it) if isinstance(it, int) and abs(it) >= 2**53 else it
