"""That scripts call the toolchain's commands as they are: 'rt' and its words, and nothing that lies behind them."""
import ast
import io
import os
import re
import tokenize

from documents_tree import ROOT, all_files, text_of

ENDINGS = (".py", ".sh", ".bash", ".fish")
# What no script names, and what it is. The brackets keep the rows from being found in this file.
BEHIND = [
    (re.compile(r"\brtli[b]\b"), "the library behind rt"),
    (re.compile(r"\brattle(?![-\w])|\brattle-(?:link|seed|test|try)\b"), "a program behind rt"),
    (re.compile(r"\brt-[a-z]"), "a program or a temporary folder of rt"),
    (re.compile(r"/pro[c]\b"), "what the system knows of processes"),
    (re.compile(r"/opt/[r]attle\b|\blib\w+_[c]\.a\b|\btoolchain[/]|\brlibs[/]"), "a path below the toolchain's folder"),
    (re.compile(r"\$\{?[Kk][i]t\b|\bK[I]T\b"), "the toolchain's folder"),
    (re.compile(r"\bwhich\W+rt\b|\b(?:command|hash|type|whereis)\s+(?:-\w+\s+)*[\"']?rt\b"), "where rt lies"),
    (re.compile(r"\brt\W+doc\b"), "where the toolchain's pages lie"),
    (re.compile(r"\b(?:s[t]race|l[t]race|l[s]of|f[u]ser|p[g]rep|p[k]ill)\b"), "a look at processes"),
]
# The one line of a file that may: it names the C library that the toolchain's pages have a caller in C link.
ALLOWED = {"build-library": r"/c/lib[l]ibc_c\.a\b"}
SOURCED = re.compile(r"^\s*(?:\.|source)\s+[\"']?(?:\$\{?\w+\}?/)?([\w./-]+)", re.M)


def scripts():
    """The scripts of the tree, by their endings, their first line, or since they can be run; and what these source."""
    there = all_files()
    left = [it for it in there if it.endswith(ENDINGS) or os.access(f"{ROOT}/{it}", os.X_OK) or has_shebang(it)]
    found = []
    while left:
        path = left.pop(0)
        if path not in found and "\0" not in text_of(path):
            found.append(path)
            named = [it[1] for it in SOURCED.finditer(text_of(path))]
            beside = {os.path.normpath(os.path.join(at, it)) for it in named for at in ("", os.path.dirname(path))}
            left += sorted(beside.intersection(there))
    return found


def has_shebang(path):
    return re.match(r"#! ?/", text_of(path))


def is_python(path):
    return path.endswith(".py") or re.match(r"#!.*python", text_of(path))


def without_prose(path):
    """The lines of a script without its comments, and without those strings of Python that are statements."""
    lines = text_of(path).split("\n")
    if not is_python(path):
        return [without_comment(it) for it in lines]
    for it in tokenize.generate_tokens(io.StringIO(text_of(path)).readline):
        if it.type == tokenize.COMMENT:
            lines[it.start[0] - 1] = lines[it.start[0] - 1][: it.start[1]]
    for it in ast.walk(ast.parse(text_of(path))):
        if isinstance(it, ast.Expr) and isinstance(it.value, ast.Constant) and isinstance(it.value.value, str):
            lines[it.lineno - 1 : it.end_lineno] = [""] * (it.end_lineno - it.lineno + 1)
    return lines


def without_comment(line):
    """A shell's line without its comment: a '#' behind white space, outside quotation marks."""
    for found in re.finditer(r"(?:^|(?<=\s))#", line):
        before = line[: found.start()]
        if before.count('"') % 2 == before.count("'") % 2 == 0:
            return before
    return line


def faults_of_script(path):
    """Where a script names what lies behind the toolchain's commands."""
    allowed = ALLOWED.get(path)
    for number, line in enumerate(without_prose(path), 1):
        if allowed and re.search(allowed, line):
            allowed = None
            continue
        for pattern, what in BEHIND:
            if found := pattern.search(line):
                yield f"{path}:{number}: `{found[0]}`: {what}"
