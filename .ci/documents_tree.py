"""What the crates have that a document can name: public items, clauses of contracts, definitions and their imports.

A source is read by its layout, which the gate holds to: an item begins at the first column, a member at the fifth.
"""
import functools
import os
import re

ROOT = os.path.dirname(os.path.dirname(os.path.realpath(__file__)))
ITEM = re.compile(
    r'^( *)(pub(?:\([^)]*\))? )?(?:unsafe |const |extern "C" )*(fn|struct|enum|trait|const|type|static) (\w+)', re.M
)
OWNER = re.compile(r"^(?:pub )?(impl|trait|enum|struct)\b(.*)$", re.M)
DEFINED = re.compile(r"^ *(?:(?:pub|abbrev|unfoldable|data|record) +)*([^\s(){}:,]+)(?= *[({:]|$)", re.M)
IMPORT = re.compile(
    r"^ *(?:pub |ghost )*use Rattle\.(\w+)\.specs\.([\w.']+?)\.?(?:\{([^}]*)\})?(?: as (\S+?))?;?$", re.M
)
HEAD = re.compile(r"[(\[]|[)\]]|[{;]|\b(requires|ensures|ghost)\b *(\w*):?\s*(?=\{)")
WORD = re.compile(r"[\w']+(?:\.\w+)?")


def files_below(folder, ending):
    """The files with this ending, sorted, as paths from the top of the tree."""
    found = []
    for at, folders, names in os.walk(os.path.join(ROOT, folder)):
        folders[:] = [it for it in folders if it != "out"]
        found += [os.path.relpath(os.path.join(at, it), ROOT) for it in names if it.endswith(ending)]
    return sorted(found)


@functools.cache
def all_files():
    """All files but what is built, sorted, as paths from the top of the tree."""
    found = []
    for at, folders, names in os.walk(ROOT):
        folders[:] = [it for it in folders if it not in (".git", "out", "target")]
        found += [os.path.relpath(os.path.join(at, it), ROOT) for it in names]
    return sorted(found)


@functools.cache
def text_of(path):
    with open(os.path.join(ROOT, path), encoding="utf-8", errors="replace") as it:
        return it.read()


def without_comments(text, mark):
    return re.sub(rf"(?<![:\"]){mark}[^\n]*", "", text)


def block_end(text, at):
    """Where the block ends that begins at a brace."""
    depth = 0
    for found in re.compile(r"[{}]").finditer(text, at):
        depth += 1 if found[0] == "{" else -1
        if depth == 0:
            return found.end()
    return len(text)


def contract_at(text, at):
    """The clauses of the function whose head begins here: a list of (requires or ensures, name or '', text)."""
    clauses, depth, past = [], 0, at
    for found in HEAD.finditer(text, at):
        if found.start() < past:
            continue
        if found[0] in "([":
            depth += 1
        elif found[0] in ")]":
            depth -= 1
        elif depth == 0 and found[1]:
            past = block_end(text, found.end())
            if found[1] != "ghost":
                clauses.append((found[1], found[2], text[found.end() : past]))
        elif depth == 0:
            break
    return clauses


class Crate:
    """A crate's items by name, members by type and name, contracts by name, modules and what it hands on; what its root
    hands on by itself, and its public functions that have a contract."""

    def __init__(self, name):
        self.name = name
        self.items, self.members, self.contracts, self.cited = set(), {}, {}, {}
        self.sources = files_below(f"crates/{name}/src", ".rt")
        self.modules = {it.removesuffix("/mod.rt").removesuffix(".rt").rsplit("/", 1)[1] for it in self.sources}
        self.handed_on, self.renamed, self.outward, self.promising = {}, {}, set(), {}
        for path in self.sources:
            self.read(path, without_comments(text_of(path), "//"))

    def read(self, path, text):
        names = imported(text)
        for found in re.finditer(r"pub use (?:(\w+)::)?(?:\w+::)*(\{[^}]*\}|\w+)(?: as (\w+))?;", text):
            self.renamed.update({new: old for old, new in re.findall(r"(\w+) as (\w+)", found[0])})
            words = re.findall(r"\w+", re.sub(r"\w+ as ", "", found[3] or found[2]))
            self.handed_on.update(dict.fromkeys(words, found[1]))
            if path.endswith(("/src/lib.rt", "/src/main.rt")):
                self.outward.update(words)
        opened = [(it, re.compile(r"[{;]").search(text, it.start())) for it in OWNER.finditer(text)]
        owners = [(it.start(), block_end(text, at.start()), owner_of(it)) for it, at in opened if at and at[0] == "{"]
        for begin, end, owner in owners:
            if re.match(r"pub enum", text[begin:end]):
                for it in re.finditer(r"^    (\w+)(?=[ ,({])", text[begin:end], re.M):
                    self.members.setdefault(owner, set()).add(it[1])
        for found in ITEM.finditer(text):
            inside = [it for it in owners if it[0] < found.start() < it[1]]
            self.take(path, text, found, inside[0][2] if inside and found[1] else None, names)

    def take(self, path, text, found, owner, names):
        _, public, word, name = found[1], found[2], found[3], found[4]
        if owner:
            self.members.setdefault(owner, set()).add(name)
        if public in ("pub ",) and not owner:
            self.items.add(name)
        if word != "fn" or (public != "pub " and not owner):
            return
        key = f"{owner}::{name}" if owner else name
        clauses = contract_at(text, found.end())
        self.contracts.setdefault(key, []).append((path, text.count("\n", 0, found.start()) + 1, clauses, names))
        if public == "pub " and clauses:
            self.promising[key] = path
        if public == "pub " or (owner and f"trait {owner}" in text):
            for it in clauses:
                for spec in cited_by(it[2], names):
                    self.cited.setdefault(spec, f"{path}: {key}")


    def promised(self):
        """Each public function with a contract, as those outside call it, and the file that has it."""
        for key, path in self.promising.items():
            head, *rest = key.split("::")
            for name in sorted(({head} | {new for new, old in self.renamed.items() if old == head}) & self.outward):
                yield "::".join([self.name, name, *rest]), path


def owner_of(found):
    """The type or trait that a block belongs to."""
    words = re.sub(r"<[^<>]*(?:<[^<>]*>)*[^<>]*>", "", found[2])
    named = re.findall(r"\w+", words.split(" for ")[-1].split("{")[0])
    return next((it for it in named if it != "mut"), "")


def spec_file(crate, path):
    """The definition file that an import names: the longest part of its path that is one."""
    parts = path.split(".")
    while parts:
        it = f"crates/{crate}/specs/{'/'.join(parts)}.antt"
        if os.path.exists(os.path.join(ROOT, it)):
            return it
        parts.pop()
    return None


def imported(text):
    """The names that a text imports from definitions of this tree, each with its file."""
    names = {}
    for found in IMPORT.finditer(text):
        it = spec_file(found[1], found[2])
        if it is None or found[2].startswith("declared"):
            continue
        if found[3] is None:
            names[found[4] or found[2].rsplit(".", 1)[-1]] = it
        for word in (found[3] or "").split(","):
            words = word.split()
            if words:
                names[words[-1]] = it
    return names


def cited_by(text, names):
    """The definition files that a contract's text names."""
    found = set()
    for word in WORD.findall(text):
        found |= {names[it] for it in (word, word.split(".")[0]) if it in names}
    return found


@functools.cache
def imports_of(spec):
    return frozenset(imported(without_comments(text_of(spec), "--")).values())


def closure(specs):
    """These definition files and all that they import."""
    found, left = set(), list(specs)
    while left:
        it = left.pop()
        if it not in found:
            found.add(it)
            left += imports_of(it)
    return sorted(found)


@functools.cache
def defined_in(spec):
    return frozenset(DEFINED.findall(without_comments(text_of(spec), "--")))


@functools.cache
def definitions_in(spec):
    """Each definition of a file by its name: the lines from its head up to an empty one."""
    found = {}
    for block in re.split(r"\n\s*\n", without_comments(text_of(spec), "--")):
        for name in DEFINED.findall(block):
            found[name] = found.get(name, "") + block + "\n"
    return found


@functools.cache
def fields_of(spec, name, depth):
    """The fields of the record with this name in a file, and of the records that its definition names, so deep."""
    body = definitions_in(spec).get(name, "")
    found = set(re.findall(r"^ +pub (\w+) :", body, re.M)) if re.search(rf"record {re.escape(name)}\b", body) else set()
    names = {**dict.fromkeys(definitions_in(spec), spec), **imported(text_of(spec))}
    for word in set(WORD.findall(body)) & set(names) - {name} if depth else ():
        found |= fields_of(names[word], word, depth - 1)
    return frozenset(found)


def fields_cited(clauses, names):
    """The fields of the records that clauses are, and of those that these name, three deep."""
    first = [WORD.search(re.sub(r"^\{ *let\b.*?\bin\b", "{", it[2], flags=re.S)) for it in clauses]
    cited = {it[0] for it in first if it and it[0] in names}
    return {field for word in cited for field in fields_of(names[word], word, 3)}
