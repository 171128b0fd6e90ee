"""A second reading of rpcgen's dialect, written anew from docs/LANGUAGE.md: of a text that is taken, the text of the
RFCs' language that means the same. Rows say which texts are refused, and where."""
import re

DIRECTIVE = re.compile(r"[ \t\v\f\r]*#[ \t]*(\w*)[ \t]*(\w*)[ \t]*(.*)", re.A)
GOES_ON = re.compile(r"\\[\\\r]*$")
# What the preprocessor reads as a blank, and what it passes over to the end of the line.
REMARK = re.compile(r"/\*.*?\*/|//(?:\\[\\\r]*\n|[^\n])*", re.S)
PIECE = re.compile(r'"[^"]*"?|/\*|[^"/]+|/')
TOKEN = re.compile(r'/\*.*?\*/|\s+|(-?\w+|"[^"\n]*"|.)', re.S | re.A)
# The names of rpcgen's library in the order in which they are declared. The RFCs' language has `float` and `double` as
# words, so they are spelled with one more `_` here.
LIBRARY = (
    ("int", "", "char short int8_t int16_t int32_t"),
    ("unsigned int", "", "u_char u_short u_int u_long uint8_t uint16_t uint32_t u_int8_t u_int16_t u_int32_t"),
    ("unsigned int", "", "rpcprog_t rpcvers_t rpcproc_t"),
    ("hyper", "", "int64_t quad_t longlong_t"),
    ("unsigned hyper", "", "uint64_t u_int64_t u_quad_t u_longlong_t"),
    ("bool", "", "bool_t"),
    ("opaque", "[ 4 ]", "float_"),
    ("opaque", "[ 8 ]", "double_ des_block"),
    ("opaque", "< 1024 >", "netobj"),
)
NETBUF = " struct netbuf { unsigned int maxlen ; opaque buf < > ; } ;"

# A name with a number or a name behind it, and the arguments of a procedure between them.
GIVEN = re.compile(r" (?=([A-Za-z]\w*) (?:\( [^()]*\) )?= (-?\w+) )", re.A)


class Lines:
    """The lines of a text, one after another, for the names that are defined."""

    def __init__(self, names):
        self.names, self.sections = set(names), []
        self.is_comment = self.goes_on = False
        self.begun = ""

    def is_shown(self):
        return all(shown for shown, _ in self.sections)

    def section(self, word, name):
        """Goes through a line of `#if` and its like: each section is whether it is shown, and whether a branch was."""
        holds = name == "1" or name in self.names
        if word in ("if", "ifdef", "ifndef"):
            holds ^= word == "ifndef"
            self.sections.append((holds, holds))
        elif word == "endif":
            self.sections.pop()
        else:
            _, was_shown = self.sections.pop()
            holds = not was_shown and (word == "else" or holds)
            self.sections.append((holds, was_shown or holds))

    def directive(self, line):
        """What is read of a line of `#`."""
        word, name, rest = DIRECTIVE.match(line).groups()
        if word in ("if", "ifdef", "ifndef", "elif", "else", "endif"):
            self.section(word, name)
        elif word == "define" and self.is_shown():
            self.names.add(name)
            if number := re.match(r"-?\w+", rest):
                return f"const {name} = {number[0]}; {rest[number.end():]}"
        return ""

    def read(self, line):
        """What is read of a line. Of one of `#` that goes on in the next line it is nothing so far."""
        if self.goes_on:
            self.goes_on = bool(GOES_ON.search(line))
            return ""
        line = self.begun + line
        first = line.lstrip(" \t\v\f\r")[:1]
        if first == "%" and not self.is_comment:
            self.goes_on = bool(GOES_ON.search(line))
            return ""
        if first == "#" and not self.is_comment:
            spoken = REMARK.sub(" ", line)
            self.begun = f"{line}\n" if "/*" in spoken or GOES_ON.search(line) else ""
            line = "" if self.begun else self.directive(spoken)
        left = line
        while left:
            if self.is_comment:
                _, end, left = left.partition("*/")
                self.is_comment = not end
            else:
                piece = PIECE.match(left)[0]
                self.is_comment, left = piece == "/*", left[len(piece) :]
        return line if self.is_shown() else ""


def argument(words):
    """An argument without its name; `enum` and `union` are those of C."""
    words = words.split()
    if words[0] in ("enum", "union"):
        words = words[1:]
    return " ".join(words[: 2 if words[0] in ("struct", "unsigned") else 1])


def procedure(found):
    arguments = [argument(each) for each in found[2].split(",") if each.strip()]
    return f" {found[1]} ( {' , '.join(arguments) or 'void'} ) = "


def value(digits):
    return int(digits, 8) if re.fullmatch("0[0-7]+", digits) else int(digits, 0)


def members(found):
    """The members of an enumeration, each with its number."""
    made, following = [], 0
    for each in found[2].split(","):
        name, *given = each.split(" = ")
        number = given[0].strip() if given else str(following)
        made.append(f"{name.strip()} = {number}")
        following = value(number) + 1 if re.match("-?[0-9]", number) else None
    return f" enum {found[1]} {{ {' , '.join(made)} }}"


# What is replaced in the tokens, which have one blank on both sides, and by what.
REPLACED = (
    (r' const \w+ = "[^"]*" ;', ""),
    (r" typedef (?:struct|union|enum) (\w+) \1 ;", ""),
    (r" unsigned (?:char|short int|short) ", " unsigned int "),
    (r" unsigned (?!int |long |hyper )", " unsigned int "),
    (r" (short|long|hyper) int ", r" \1 "),
    (r" (float|double) ", r" \1_ "),
    (r" (?:enum|union) (\w+) (?=(?!switch )[A-Za-z*])", r" \1 "),
    (r" (\w+) \( ([^()]*)\) = ", procedure),
    (r" enum (\w+) \{ ([^{}]*) \}", members),
)


def is_declared(name, tokens):
    is_tag = re.search(rf" (?:struct|union|enum|const) {name} (?:\{{|switch|=) ", tokens)
    return is_tag or re.search(rf" typedef [^;]*\b{name} [;[<] ", tokens)


def library(tokens):
    """The definitions of the library's names that the tokens lack."""
    made = [(name, f" typedef {kind} {name} {size} ;") for kind, size, names in LIBRARY for name in names.split()]
    made += [("netbuf", NETBUF), ("MAXNETNAMELEN", " const MAXNETNAMELEN = 255 ;")]
    return "".join(each for name, each in made if f" {name} " in tokens and not is_declared(name, tokens))


def by_names(given, numbers):
    """The names that are given a name which has a number there, each with its place and its number; none where a name
    has two so."""
    found = {}
    for it in given:
        number = numbers.get(it[2]) or found.get(it[2], (0, None))[1]
        if number is not None:
            first = numbers.get(it[1]) or found.setdefault(it[1], (it.start(), number))[1]
            if value(first) != value(number):
                return {}
    return found


def without_aliases(tokens):
    """The tokens with its number in place of each name between = and ; to which they give one, or before it a name that
    has one there."""
    given = list(GIVEN.finditer(tokens))
    numbers = {it[1]: it[2] for it in given if not it[2][0].isalpha()}
    if any(value(numbers[it[1]]) != value(it[2]) for it in given if not it[2][0].isalpha()):
        return tokens
    followed = by_names([it for it in given if it[2][0].isalpha()], numbers)

    def number(it):
        place, number = followed.get(it[1], (len(tokens), None))
        return numbers.get(it[1]) or (number if place < it.start() else it[1])

    return re.sub(r"(?<= = )([A-Za-z]\w*)(?= ; )", number, tokens)


def in_the_rfcs_language(text, names):
    """The text of the RFCs' language that the text means where the names are defined."""
    lines = Lines(names)
    read = "\n".join(map(lines.read, text.split("\n")))
    tokens = " " + " ".join(it[1] for it in TOKEN.finditer(read) if it[1]) + " "
    for form, into in REPLACED:
        tokens = re.sub(form, into, tokens)
    return without_aliases(f"{library(tokens)}{tokens}")
