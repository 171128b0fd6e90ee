"""Rows of 'oncrpc types': values worked by hand, a second reading of texts, and the files of Debian's packages."""
import glob
import json
import os
import re
import subprocess
import sys

sys.dont_write_bytecode = True
HERE = os.path.dirname(os.path.realpath(__file__))
sys.path[:0] = [HERE, os.path.dirname(HERE)]

from second_reading import Reading
from telling import tell
from timing import LIMIT

ROOT = os.path.dirname(os.path.dirname(os.path.dirname(os.path.realpath(__file__))))
# Texts, their lines and their JSON, worked by hand: the numbers on both sides of 2^53 and of 2^64, each kind, a default
# that no discriminant reaches, a list of none, and types by other names.
WORKED = [
    (
        "const LEAST = -9223372036854775808; const MOST = 18446744073709551615; const NOT = -9007199254740991;\n"
        "const QUOTED = -9007199254740992; const LIKE = 0x1fffffffffffff; const UNLIKE = 0x20000000000000;",
        "const LEAST -9223372036854775808\nconst MOST 18446744073709551615\nconst NOT -9007199254740991\n"
        "const QUOTED -9007199254740992\nconst LIKE 9007199254740991\nconst UNLIKE 9007199254740992\n",
        '{"constants":[{"name":"LEAST","value":"-9223372036854775808"},{"name":"MOST","value":"18446744073709551615"},'
        '{"name":"NOT","value":-9007199254740991},{"name":"QUOTED","value":"-9007199254740992"},'
        '{"name":"LIKE","value":9007199254740991},{"name":"UNLIKE","value":"9007199254740992"}],'
        '"types":[],"programs":[]}\n',
    ),
    (
        "typedef opaque page[0x80000000]; typedef page fewer[0x3fffff]; typedef page book[0x400000];\n"
        "typedef book shelves[2047]; typedef book hall[2048]; typedef hall city<1>; typedef hall none<0>;",
        "type page opaque 2147483648..2147483648\ntype fewer array 9007197107257344..9007197107257344\n"
        "type book array 9007199254740992..9007199254740992\n"
        "type shelves array 18437736874454810624..18437736874454810624\ntype hall array large..large\n"
        "type city list 4..large\ntype none list 4..4\n",
        '{"constants":[],"types":[{"name":"page","kind":"opaque","least":2147483648,"greatest":2147483648},'
        '{"name":"fewer","kind":"array","least":9007197107257344,"greatest":9007197107257344},'
        '{"name":"book","kind":"array","least":"9007199254740992","greatest":"9007199254740992"},'
        '{"name":"shelves","kind":"array","least":"18437736874454810624","greatest":"18437736874454810624"},'
        '{"name":"hall","kind":"array","least":"large","greatest":"large"},'
        '{"name":"city","kind":"list","least":4,"greatest":"large"},'
        '{"name":"none","kind":"list","least":4,"greatest":4}],"programs":[]}\n',
    ),
    (
        "typedef int number; typedef unsigned hyper stamp; struct entry { stamp at; bool seen; entry *next; };\n"
        "union answer switch (bool found) { case FALSE: void; case TRUE: entry first; default: hyper more[9]; };\n"
        "typedef entry *link; typedef entry other; typedef unsigned int count; typedef hyper when;\n"
        "program P { version V { link FIRST(number, string, other) = 7; void NIL(void) = 0; } = 3;\n"
        "version W { struct { count n; } COUNT(answer) = 1; } = 4; } = 0xffffffff;",
        "type number int 4..4\ntype stamp unsigned-hyper 8..8\ntype entry struct 16..unbounded\n"
        "type answer union 4..unbounded\ntype link optional 4..unbounded\ntype other struct 16..unbounded\n"
        "type count unsigned 4..4\ntype when hyper 8..8\n"
        "program P 4294967295\nversion V 4294967295.3\nprocedure FIRST 4294967295.3.7\n"
        "argument 4294967295.3.7.1 int int 4..4\nargument 4294967295.3.7.2 string string 4..4294967300\n"
        "argument 4294967295.3.7.3 entry struct 16..unbounded\nresult 4294967295.3.7.result link optional 4..unbounded\n"
        "procedure NIL 4294967295.3.0\nversion W 4294967295.4\nprocedure COUNT 4294967295.4.1\n"
        "argument 4294967295.4.1.1 answer union 4..unbounded\nresult 4294967295.4.1.result - struct 4..4\n",
        '{"constants":[],"types":[{"name":"number","kind":"int","least":4,"greatest":4},'
        '{"name":"stamp","kind":"unsigned-hyper","least":8,"greatest":8},'
        '{"name":"entry","kind":"struct","least":16,"greatest":"unbounded"},'
        '{"name":"answer","kind":"union","least":4,"greatest":"unbounded"},'
        '{"name":"link","kind":"optional","least":4,"greatest":"unbounded"},'
        '{"name":"other","kind":"struct","least":16,"greatest":"unbounded"},'
        '{"name":"count","kind":"unsigned","least":4,"greatest":4},{"name":"when","kind":"hyper","least":8,"greatest":8}],'
        '"programs":[{"name":"P","number":4294967295,"versions":[{"name":"V","number":3,"procedures":['
        '{"name":"FIRST","number":7,"arguments":[{"type":"int","kind":"int","least":4,"greatest":4},'
        '{"type":"string","kind":"string","least":4,"greatest":4294967300},'
        '{"type":"entry","kind":"struct","least":16,"greatest":"unbounded"}],'
        '"result":{"type":"link","kind":"optional","least":4,"greatest":"unbounded"}},'
        '{"name":"NIL","number":0,"arguments":[],"result":null}]},'
        '{"name":"W","number":4,"procedures":[{"name":"COUNT","number":1,'
        '"arguments":[{"type":"answer","kind":"union","least":4,"greatest":"unbounded"}],'
        '"result":{"type":null,"kind":"struct","least":4,"greatest":4}}]}]}]}\n',
    ),
    ("", "", '{"constants":[],"types":[],"programs":[]}\n'),
]
# The same in rpcgen's dialect: names of names, which stand for the numbers that C prints of them behind rpcgen's header.
NAMED = [
    (
        "const Y = 3; const Z = Y; const X = Z; enum e { A = X }; const B = A; typedef int t[X];\n"
        "program P { version V { void F(void) = B; } = Z; } = X; const G = F; const H = G;",
        "const Y 3\nconst Z 3\nconst X 3\nconst A 3\nconst B 3\nconst G 3\nconst H 3\ntype e enum 4..4\ntype t array 12..12\n"
        "program P 3\nversion V 3.3\nprocedure F 3.3.3\n",
        '{"constants":[{"name":"Y","value":3},{"name":"Z","value":3},{"name":"X","value":3},{"name":"A","value":3},'
        '{"name":"B","value":3},{"name":"G","value":3},{"name":"H","value":3}],'
        '"types":[{"name":"e","kind":"enum","least":4,"greatest":4},{"name":"t","kind":"array","least":12,"greatest":12}],'
        '"programs":[{"name":"P","number":3,"versions":[{"name":"V","number":3,"procedures":['
        '{"name":"F","number":3,"arguments":[],"result":null}]}]}]}\n',
    ),
]


def printed(program, folder, words):
    got = subprocess.run([program, "types", *words], cwd=folder, capture_output=True, timeout=LIMIT)
    return got.returncode, got.stdout.decode(), got.stderr.decode()


def worked_rows(program, folder):
    dialect = ["--dialect", "rpcgen"]
    for words, (text, lines, told) in [*(([], row) for row in WORKED), *((dialect, row) for row in NAMED)]:
        with open(f"{folder}/worked.x", "w", encoding="ascii") as it:
            it.write(text)
        got = [printed(program, folder, [*words, "--types", "worked.x", *more]) for more in ([], ["--json"])]
        well = got == [(0, lines, ""), (0, told, "")]
        yield tell(f"oncrpc types of {text[:40]!r}..", well, got)


def at_size():
    """A text of 262144 bytes, its lines and its JSON: other names of int, a thousand kinds, and thousands of arguments,
    most of them of the kinds that are named last. Section 4.10 of RFC 4506 has a length before the bytes, which are
    filled up to a whole unit."""
    others, kinds = [f"a{n:04}" for n in range(6000)], [f"k{n:03}" for n in range(1000)]
    greatest = {kind: 4 + n + -n % 4 for n, kind in enumerate(kinds)}
    text = "".join(f"typedef int {name};" for name in others)
    text += "".join(f"typedef opaque {kind}<{n}>;" for n, kind in enumerate(kinds))
    head, tail = "program P { version V { a5999 ALL(", ") = 3; } = 2; } = 1;"
    parts = (kinds[::-1] * 27)[: (262144 - len(text) - len(head) - len(tail) + 1) // 5]
    text = (text + head + ",".join(parts) + tail).ljust(262144)
    lines = [f"type {name} int 4..4" for name in others]
    lines += [f"type {kind} opaque 4..{greatest[kind]}" for kind in kinds]
    lines += ["program P 1", "version V 1.2", "procedure ALL 1.2.3"]
    lines += [f"argument 1.2.3.{k} {kind} opaque 4..{greatest[kind]}" for k, kind in enumerate(parts, 1)]
    told = lambda kind: {"kind": "opaque", "least": 4, "greatest": greatest[kind]}
    number = {"kind": "int", "least": 4, "greatest": 4}
    procedure = {"name": "ALL", "number": 3, "arguments": [{"type": kind, **told(kind)} for kind in parts]}
    procedure["result"] = {"type": "int", **number}
    types = [{"name": name, **number} for name in others] + [{"name": kind, **told(kind)} for kind in kinds]
    program = {"name": "P", "number": 1, "versions": [{"name": "V", "number": 2, "procedures": [procedure]}]}
    return text, lines + ["result 1.2.3.result int int 4..4"], {"constants": [], "types": types, "programs": [program]}


def size_rows(program, folder):
    """The longest text, with thousands of types and arguments: an allocation failure is wrong."""
    text, lines, told = at_size()
    with open(f"{folder}/size_of.x", "w", encoding="ascii") as it:
        it.write(text)
    whole = "".join(f"{line}\n" for line in lines), json.dumps(told, separators=(",", ":")) + "\n"
    for more, wanted in zip(([], ["--json"]), whole):
        got = printed(program, folder, ["--types", "size_of.x", *more])
        well = got == (0, wanted, "")
        yield tell(f"oncrpc types {' '.join(more)} of {len(text)} bytes", well, (got[0], got[2]))


def members_once(pairs):
    """An object whose keys are different."""
    made = dict(pairs)
    if len(made) != len(pairs):
        raise ValueError("a key stands twice")
    return made


def is_read_alike(program, folder, words, reading):
    """Whether lines and JSON are those of the second reading."""
    lines = "".join(f"{line}\n" for line in reading.lines())
    status, told, faults = printed(program, folder, [*words, "--json"])
    same = printed(program, folder, words) == (0, lines, "") and (status, faults) == (0, "")
    return same and told.count("\n") == 1 and json.loads(told, object_pairs_hook=members_once) == reading.json()


def second_rows(program, folder, recipe):
    """Texts in the language of the RFCs; and in rpcgen's dialect, beside what the commands of LANGUAGE.md make of
    them."""
    for path in sorted(glob.glob(f"{ROOT}/.ci/declarations/*.x") + glob.glob(f"{ROOT}/examples/*.x")):
        words, name = ["--types", path], os.path.basename(path)
        if name in ("mount.x", "nfs_prot.x"):
            words += ["--dialect", "rpcgen"]
            text = subprocess.run(f"{recipe} '{path}'", shell=True, check=True, capture_output=True).stdout.decode()
        else:
            with open(path, encoding="utf-8") as it:
                text = it.read()
        well = is_read_alike(program, folder, words, Reading(text))
        yield tell(f"oncrpc types of {name}, read a second time", well, "another listing", "the same")


def bodies(files):
    """The names that begin a body in files, at the beginning of a line."""
    for file in files:
        with open(file, encoding="latin-1") as it:
            yield from re.findall(r"^(?:struct|union|enum)\s+(\w+)\s*(?:\{|switch)", it.read(), re.M)


def installed_rows(program, folder, installed):
    """The files of Debian's packages: each struct, union and enum has a line, and the JSON tells what the lines do."""
    for names in installed:
        files = [name if "/" not in name else f"/usr/include/{name}" for name in names.split()]
        missing = [file for file in files if "/" in file and not os.path.isfile(file)]
        if missing:
            print(f"{missing[0]} is not there: its row is skipped")
            continue
        words = ["--dialect", "rpcgen", *(word for file in files for word in ("--types", file))]
        (status, lines, faults), told = printed(program, folder, words), printed(program, folder, [*words, "--json"])
        listed = [line.split()[1] for line in lines.splitlines() if line.startswith("type ")]
        there = [file if "/" in file else f"{folder}/{file}" for file in files]
        lost = [name for name in bodies(there) if name not in listed]
        well = (status, faults, told[0], lost) == (0, "", 0, []) and lines == "".join(lines_of(json.loads(told[1])))
        found = status, faults, lost, lines[-99:]
        yield tell(f"oncrpc types of {names}", well, found, f"{len(lines.splitlines())} lines")


def lines_of(told):
    """The lines that say what JSON tells."""
    said = lambda it: f"{it['kind']} {it['least']}..{it['greatest']}\n"
    yield from (f"const {it['name']} {it['value']}\n" for it in told["constants"])
    yield from (f"type {it['name']} {said(it)}" for it in told["types"])
    for program in told["programs"]:
        yield f"program {program['name']} {program['number']}\n"
        for version in program["versions"]:
            path = f"{program['number']}.{version['number']}"
            yield f"version {version['name']} {path}\n"
            for procedure in version["procedures"]:
                at = f"{path}.{procedure['number']}"
                yield f"procedure {procedure['name']} {at}\n"
                parts = [*enumerate(procedure["arguments"], 1), ("result", procedure["result"])]
                yield from (f"{word_of(k)} {at}.{k} {it['type'] or '-'} {said(it)}" for k, it in parts if it)


def word_of(part):
    return "result" if part == "result" else "argument"


def types_rows(program, folder, recipe, installed):
    yield from worked_rows(program, folder)
    yield from size_rows(program, folder)
    yield from second_rows(program, folder, recipe)
    yield from installed_rows(program, folder, installed)
