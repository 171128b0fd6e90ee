"""Texts in rpcgen's dialect, made by a grammar that was written by hand after rpcgen's manual, and changed ones."""
import re

BASIC = (
    "int unsigned bool hyper long short char float double u_char u_short u_int u_long int8_t uint8_t int16_t uint16_t"
    " int32_t uint32_t int64_t uint64_t quad_t u_quad_t longlong_t u_longlong_t bool_t netobj"
).split() + [
    "unsigned int", "unsigned long", "unsigned hyper", "unsigned short", "unsigned char", "long int", "short int",
    "unsigned long int", "unsigned short int", "unsigned hyper int", "hyper int",
]
LINES = ("%/* C */", "%#define x y", "% int x;", "", "/* a\n%b\n*/", "#", "# define GUARD")
# What a token is changed into, besides the tokens of the same text.
WORDS = (
    "struct union enum switch case default typedef program version const unsigned int long hyper short char float"
    " double bool void opaque string { } ( ) [ ] < > ; : , = * 0 1 5 -1 0x10 010 A x u_int netobj quad_t % # \n"
).split(" ") + ['"a"', "'a'", "/* */", "//", "#define A 1\n", "#endif\n", "#else\n", "#elif 1\n", "\n#ifdef DEFINED\n", "\n%C\n"]
TOKEN = re.compile(r"[A-Za-z_]\w*|-?\d\w*|\s+|/\*.*?\*/|\"[^\"\n]*\"|.", re.S)


def apart(members):
    """Members of an enumeration whose numbers stand in the text and differ, or else the first: no two cases are one."""
    found, last = {}, -1
    for member, value in members:
        digits = value.removeprefix(" = ")
        if digits:
            base = 8 if re.fullmatch("0[0-7]+", digits) else 0
            last = int(digits, base) if digits[0].isdigit() else None
        elif last is not None:
            last += 1
        if last is not None:
            found.setdefault(last, member)
    return list(found.values()) or [members[0][0]]


class Maker:
    """Makes a text, every name of which is declared before it is used."""

    def __init__(self, random):
        self.random, self.number = random, 0
        self.constants, self.numbers, self.types, self.enums, self.tags = [], [], [], [], {}

    def name(self, stem="n"):
        self.number += 1
        return f"{stem}{self.number}"

    def one(self, *choices):
        return self.random.choice(choices)

    def whole(self):
        number = self.random.randrange(1, 100)
        return self.one(str(number), str(number), hex(number), f"0{number:o}")

    def size(self):
        return self.one(self.whole(), self.random.choice(self.constants) if self.constants else "7")

    def number_or_name(self):
        """A number, or the name of a constant that is given one, or a name that has one."""
        return self.one(self.whole(), self.random.choice(self.numbers) if self.numbers else "7")

    def kind(self):
        if self.types and self.random.random() < 0.4:
            name = self.random.choice(self.types)
            return self.one(name, f"{self.tags[name]} {name}") if name in self.tags else name
        return self.random.choice(BASIC)

    def declaration(self, name):
        form = self.random.randrange(9)
        if form == 0:
            return self.one(f"opaque {name}[{self.size()}]", f"opaque {name}<{self.size()}>", f"opaque {name}<>")
        if form == 1:
            return self.one(f"string {name}<{self.size()}>", f"string {name}<>")
        if form == 2:
            return f"{self.kind()} {name}[{self.size()}]"
        if form == 3:
            return self.one(f"{self.kind()} {name}<{self.size()}>", f"{self.kind()} {name}<>")
        if form == 4:
            return f"{self.kind()} *{name}"
        return f"{self.kind()} {name}"

    def constant(self):
        name = self.name("C")
        value = self.one(self.whole(), f"-{self.random.randrange(1, 100)}", self.number_or_name())
        made = self.one(f"const {name} = {value};", f"const {name} = {self.whole()};", f"#define {name} {self.whole()}")
        if self.random.random() < 0.1:
            return f'const {name} = "some text";'
        if "-" not in made:
            self.constants.append(name)
            self.numbers.append(name)
        return made

    def enumeration(self):
        name, members = self.name("e"), []
        for _ in range(self.random.randrange(1, 5)):
            member = self.name("M")
            value = self.one("", f" = {self.whole()}", f" = {self.number}", f" = {self.size()}")
            is_behind_name = members and re.search(r"= [A-Z]", members[-1][1])
            members.append((member, value or f" = {self.number}" if is_behind_name else value))
        self.types.append(name)
        self.enums.append((name, apart(members)))
        self.tags[name] = "enum"
        inside = ", ".join(member + value for member, value in members)
        return f"enum {name} {{ {inside} }};"

    def structure(self):
        name = self.name("s")
        members = [f"{self.declaration(self.name('m'))};" for _ in range(self.random.randrange(1, 5))]
        if self.random.random() < 0.2:
            members.append(self.one(f"struct {name} *next;", f"{name} *next;"))
        self.types.append(name)
        self.tags[name] = "struct"
        return f"struct {name} {{\n " + "\n ".join(members) + "\n};"

    def arm(self):
        return "void" if self.random.random() < 0.3 else self.declaration(self.name("m"))

    def union(self):
        name, arms = self.name("u"), []
        if self.enums and self.random.random() < 0.5:
            kind, cases = self.random.choice(self.enums)
            cases = self.random.sample(cases, self.random.randrange(1, len(cases) + 1))
            kind = self.one(kind, f"enum {kind}")
        else:
            kind = self.one("int", "unsigned", "unsigned int", "u_int", "long", "bool")
            cases = ["TRUE", "FALSE"][: self.random.randrange(1, 3)] if kind == "bool" else list(map(str, range(1, 4)))
        for case in cases:
            arms.append(f"case {case}:" + ("" if self.random.random() < 0.2 and case != cases[-1] else f" {self.arm()};"))
        if self.random.random() < 0.5:
            arms.append(f"default: {self.arm()};")
        self.types.append(name)
        self.tags[name] = "union"
        return f"union {name} switch ({kind} {self.name('d')}) {{\n" + "\n".join(arms) + "\n};"

    def typedef(self):
        name = self.name("t")
        made = f"typedef {self.declaration(name)};"
        self.types.append(name)
        return made

    def argument(self):
        kind = self.one(self.kind(), "string")
        return self.one(kind, f"{kind} {self.name('a')}")

    def program(self):
        versions = []
        for version in range(1, self.random.randrange(2, 4)):
            procedures = []
            count = self.random.randrange(1, 4)
            for number in range(count):
                many = [self.argument() for _ in range(self.random.randrange(3))]
                arguments = ", ".join(many) or self.one("void", "")
                result = self.one("void", "string", self.kind())
                number = self.number_or_name() if count == 1 else number
                procedures.append(f"  {result} {self.name('P')}({arguments}) = {number};")
            inside = "\n".join(procedures)
            versions.append(f" version {self.name('V')} {{\n{inside}\n }} = {version};")
        return f"program {self.name('PROG')} {{\n" + "\n".join(versions) + f"\n}} = 0x{self.number + 0x20000000:x};"

    def definition(self):
        return self.one(
            self.constant, self.enumeration, self.structure, self.structure, self.union, self.typedef, self.program
        )()

    def unused(self):
        return f"const {self.name('C')} = {self.whole()};"

    def line(self, words):
        """A line of # with these words, and with comments where a blank may stand."""
        if self.random.random() < 0.6:
            return f"#{words}"
        between = [self.one("", " ", "/* a */", " /*b\n%c\n#else\n**/"), *(self.one(" ", "\t/**/", "/* // */") for _ in "aa")]
        words = "".join(gap + word for gap, word in zip(between, words.split()))
        return f"#{words}{self.one('', ' ', ' /* d */', '/* e', ' // f /* g')}".replace("/* e", "/* e\n#endif */")

    def section(self):
        """A section whose branches each declare what nothing else uses, and stand alone."""
        condition = self.one("ifdef DEFINED", "ifndef DEFINED", "if 0", "if 1", "ifdef OTHER", "ifndef OTHER", "if DEFINED")
        lines = [self.line(condition)]
        while self.random.random() < 0.3:
            lines += [self.unused(), self.line(f"elif {self.one('0', '1', 'DEFINED', 'OTHER')}")]
        if self.random.random() < 0.7:
            lines += [self.unused(), self.line("else")]
        return "\n".join([*lines, self.unused(), self.line("endif")])

    def text(self):
        parts = []
        for _ in range(self.random.randrange(1, 8)):
            if self.random.random() < 0.3:
                parts.append(self.random.choice(LINES))
            parts.append(self.section() if self.random.random() < 0.15 else self.definition())
        return "\n".join(parts) + "\n"


def made(random):
    return Maker(random).text()


def changed(random, text):
    """The text with one to three changes: of a token, or of a byte."""
    for _ in range(random.choice((1, 1, 1, 2, 3))):
        tokens = TOKEN.findall(text)
        if not tokens:
            return text
        at = random.randrange(len(tokens))
        while tokens[at].isspace() and random.random() < 0.7:
            at = random.randrange(len(tokens))
        form = random.randrange(7)
        if form == 0:
            tokens[at] = ""
        elif form == 1:
            tokens[at] = f"{tokens[at]} {tokens[at]}"
        elif form == 2:
            other = random.randrange(len(tokens))
            tokens[at], tokens[other] = tokens[other], tokens[at]
        elif form == 3:
            tokens[at] = random.choice(tokens)
        elif form == 4:
            tokens[at] = f" {random.choice(WORDS)} "
        elif form == 5:
            tokens[at] = f"{tokens[at]} {random.choice(WORDS)} "
        else:
            run = "".join(tokens)
            byte = random.randrange(len(run))
            tokens = [run[:byte], chr(random.choice((random.randrange(32, 127), 10))), run[byte + 1 :]]
        text = "".join(tokens)
    return text
