"""Texts of declarations that cost much to read, or to refuse."""


def declarations(kinds, members, size):
    """A text of so many kinds of its own and members of enumerations, filled with line feeds, as rpcgen wants."""
    names = ",\n".join(f"A{n}=1" for n in range(members))
    structs = "\n".join(f"struct s{n}{{int a;}};" for n in range(kinds - 1))
    return f"enum e{{{names}}};\n{structs}".encode().ljust(size, b"\n")


def spelled(number):
    """A short name of its own for each number below 62 ** 3."""
    letters = "abcdefghijklmnopqrstuvwxyzABCDEFGHIJKLMNOPQRSTUVWXYZ0123456789"
    return letters[number // 3844 % 62] + letters[number // 62 % 62] + letters[number % 62]


def typedef_chain(size, first):
    """A typedef `first`, a chain of typedefs in a third of the text, and fields of its last name in the rest."""
    names = [f"k{spelled(n)}" for n in range(size // 57)]
    links = "".join(f"typedef {a} {b};" for a, b in zip(["int", *names], names))
    text = f"{first}{links}struct s{{"
    field = f"{names[-1]} g000;"
    fields = "".join(f"{names[-1]} g{spelled(n)};" for n in range((size - len(text) - 2) // len(field)))
    return f"{text}{fields}}};"


def long_name_in_a_loop(size):
    """A typedef of a long name that names itself, beside short typedefs."""
    name = "n" * (size // 4)
    text = f"typedef {name} {name};"
    return text + "".join(f"typedef int a{spelled(n)};" for n in range((size - len(text)) // 17))


def many(size, item, before="", after=""):
    """So many items as the size allows, each with a number's name."""
    count = (size - len(before) - len(after)) // len(item(0))
    return before + "".join(item(n) for n in range(count)) + after


def nested(size):
    """Structs inside one another, 32 deep, again and again: the schema has too many kinds."""
    one = "struct{" * 31 + "int a;" + "}b;" * 31
    return many(size, lambda n: f"struct s{spelled(n)}{{{one}}};")


def heights(size):
    """An enumeration, a union whose cases but the default lead to the end of a chain of structures, and that chain,
    which in a whole text has 1001 structures."""
    links = size * 1000 // 262144
    chain = "".join(f"struct s{n}{{s{n + 1} x;}};" for n in range(links)) + f"struct s{links}{{int x;}};"
    members = (size - len(chain) - 80) // 23
    names = ",".join(f"a{n:x}={n}" for n in range(members))
    cases = "".join(f"case a{n:x}:" for n in range(members))
    return f"enum e{{{names}}};union u switch(e t){{{cases}s0 x;default:int y;}};{chain}"


# The most processor time in seconds that any text takes, read or refused.
MOST = 0.5
# Texts that a hostile peer may send, by how large they may be: read, or refused for their last token.
HOSTILE = {
    "a chain of typedefs and fields of its end": lambda size: typedef_chain(size, ""),
    "the same beside a typedef of itself": lambda size: typedef_chain(size, "typedef z z;"),
    "a long name in a loop of typedefs": long_name_in_a_loop,
    "a union over a large enumeration beside a chain of structures": heights,
    "typedefs of themselves": lambda size: many(size, lambda n: f"typedef a{spelled(n)} a{spelled(n)};"),
    "fields, the last there twice": lambda size: many(
        size, lambda n: f"int a{spelled(n)};", "struct s{", "int aaaa;};"
    ),
    "constants, the last there twice": lambda size: many(
        size, lambda n: f"const a{spelled(n)}=1;", "", "const aaaa=1;"
    ),
    "constants, each a member's number": lambda size: many(
        size, lambda n: f"a{spelled(n)}=a000,", "enum e{a000=1,", "b=c};"
    ),
    "procedures, the last number there twice": lambda size: many(
        size,
        lambda n: f"int a{spelled(n)}(e,e)={100000 + n};",
        "enum e{A=1};program P{version V{",
        "int b(e)=100000;}=1;}=1;",
    ),
    "versions, the last pair there twice": lambda size: many(
        size,
        lambda n: f"version a{spelled(n)}{{int b(int)=1;}}={100000 + n};",
        "program P{",
        "version b{int b(int)=1;}=100000;}=1;",
    ),
    "cases of a union": lambda size: many(size, lambda n: f"case {100000 + n}:", "union u switch(int d){", "void;};"),
    "cases by the names of members": lambda size: many(
        size // 2, lambda n: f"a{spelled(n)}={100000 + n},", "enum e{", "b=1};"
    )
    + many(size // 2, lambda n: f"case a{spelled(n % (size // 25))}:", "union u switch(e d){", "void;};"),
    "bodies inside one another": nested,
    "comments": lambda size: many(size, lambda n: "/**/"),
    "a comment that does not end": lambda size: "/*" + "*" * (size - 2),
    "one long name": lambda size: "typedef int " + "n" * (size - 13) + ";",
    "one long constant": lambda size: "const a=" + "0" * (size - 9) + ";",
}
# The same in rpcgen's dialect: names that lines define, and as many lines that ask for another; and constants, each of
# which is given the name of the one before it, to an end without a number too.
ASKED = "#ifdef b\n#endif\n"
HOSTILE_DIALECT = {
    "a name that is defined again and again": lambda size: many(size // 2, lambda n: "#define a\n")
    + many(size // 2, lambda n: ASKED),
    "names that are defined": lambda size: many(size // 2, lambda n: f"#define a{spelled(n)}\n")
    + many(size // 2, lambda n: ASKED),
    "constants by the one before": lambda size: many(
        size, lambda n: f"const a{spelled(n + 1)}=a{spelled(n)};", "const aaaa=1;", "const b=c;"
    ),
    "the same beside a name that has two numbers so": lambda size: many(
        size, lambda n: f"const a{spelled(n + 1)}=a{spelled(n)};", "const aaaa=1;const b=2;", "enum e{c=b,c=aaaa};"
    ),
    "constants by the one behind": lambda size: many(size, lambda n: f"const a{spelled(n)}=a{spelled(n + 1)};"),
}
