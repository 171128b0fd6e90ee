"""The sentences of documents and of comments, and the map of modules at the head of each file with many."""
import ast
import inspect
import re

from documents_named import crates, declared_for_c
from documents_tree import files_below, text_of

LONGEST = 35
MAPPED = 4
UNREAD = ("test_", "tool_")


def long_sentences(text):
    """Where a sentence is too long: its place, its first words, and how many it has.

    A sentence ends at a stop, at an empty line, and where a line begins an item of a list."""
    at = 0
    for sentence in re.split(r"(?<=[.?!])\s+|\n\s*\n|\n\s*- ", text):
        at = text.find(sentence, at)
        words = sentence.split()
        if len(words) > LONGEST:
            yield at, " ".join(words[:6]) + " ..", len(words)


def blank(found):
    """White space in the place of what was found, with its line feeds."""
    return re.sub(r"[^\n]", " ", found[0])


def cells_of(text):
    """Each cell of a document's tables: its place, and its text."""
    for line in re.finditer(r"^\|[^\n]*$", text, re.M):
        at = line.start()
        for cell in re.split(r"(?<!\\)\|", line[0]):
            yield at, cell
            at += len(cell) + 1


def marked_lines(text):
    """Each run of lines after '//', '///' or '//!': the number of its first line, and its text."""
    lines = [re.match(r"\s*//[/!]?(?: |$)(.*)", it) for it in text.split("\n")]
    first = None
    for number, line in enumerate([*lines, None]):
        if line and first is None:
            first = number
        elif not line and first is not None:
            yield first + 1, "\n".join(it[1] for it in lines[first:number])
            first = None


def blocks_of_c(text):
    """Each comment between '/*' and '*/': the number of its first line, and its text."""
    for found in re.finditer(r"/\*(.*?)\*/", text, re.S):
        yield text.count("\n", 0, found.start()) + 1, re.sub(r"^ *(?:\* ?)?", "", found[1], flags=re.M)


def docstrings(text):
    """Each string of Python that is a statement: the number of its first line, and its text."""
    for it in ast.walk(ast.parse(text)):
        if isinstance(it, ast.Expr) and isinstance(it.value, ast.Constant) and isinstance(it.value.value, str):
            yield it.lineno, inspect.cleandoc(it.value.value)


def comments_of(path):
    text = text_of(path)
    if path.endswith(".py"):
        return [*docstrings(text)]
    return [*(blocks_of_c(text) if path.endswith((".h", ".hpp")) else ()), *marked_lines(text)]


def commented():
    """The files whose comments are looked at: crates but for tests and tools, the headers and the bindings."""
    sources = [it for it in files_below("crates", ".rt") if it.split("/")[2] == "src"]
    yield from (it for it in sources if not it.split("/")[1].startswith(UNREAD))
    yield from files_below("include", ".h") + files_below("include", ".hpp")
    yield from files_below("bindings/rust/src", ".rs")
    yield "bindings/python/oncrpc.py"


def faults_of_comments(path):
    """Where a comment has a sentence that is too long; code in it is not looked at."""
    for line, text in comments_of(path):
        text = re.sub(r"^```.*?(?:^```|\Z)|^ {4}[^\n]*$", blank, text, flags=re.S | re.M)
        for at, said, words in long_sentences(text):
            yield f"{path}:{line + text.count(chr(10), 0, at)}: `{said}`: a sentence of {words} words"


def modules_of(path):
    return re.findall(r"^(?:pub(?:\(\w+\))? )?mod (\w+);", text_of(path), re.M)


def mapped():
    """The files with many modules: roots of crates, and modules that have further ones."""
    return [it for it in files_below("crates", ".rt") if len(modules_of(it)) >= MAPPED]


def faults_of_map(path):
    """Which modules of a file with many its head does not name, and what it names that is not there any more."""
    head = "\n".join(re.findall(r"^//!.*$", text_of(path), re.M))
    for name in modules_of(path):
        if f"`{name}`" not in head:
            yield f"{path}:1: `{name}`: a module that the head does not name"
    crate = path.split("/")[1]
    if not crate.startswith(UNREAD):
        there = crates()[crate].modules.union(crates(), declared_for_c(), *(it.items for it in crates().values()))
        for name in dict.fromkeys(re.findall(r"`([a-z]\w*)`", head)):
            if name not in there:
                yield f"{path}:1: `{name}`: no module of the crate, no crate and no item has this name"
