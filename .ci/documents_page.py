"""A document: the words in backticks, tables, links and sentences that are looked at."""
import glob
import os
import re

from documents_comments import blank, cells_of, long_sentences
from documents_named import HEADLINES, believed, crates, declared_for_c, base_names, looks_like_path, used
from documents_named import fault_of_clause, fault_of_item, fault_of_lone_function, fault_of_path
from documents_tree import ROOT, defined_in, text_of

PREFIXES = r"(?:xdr|rpc|registry|c|example|test|tool|oncrpc)_\w+"
COLUMNS = 120
LETTER = re.compile(r"\b(?:rattle-)?kit[- ]?\d+[a-z]\b|\b13[a-z]\b")


class Page:
    """A document: its checks and what failed in it."""

    def __init__(self, path):
        self.path, self.folder = path, os.path.dirname(path)
        self.text = re.sub(r"^```.*?^```", blank, text_of(path), flags=re.S | re.M)
        self.passed, self.failures = 0, []

    def note(self, at, said, fault):
        if fault:
            self.failures.append(f"{self.path}:{self.text.count(chr(10), 0, at) + 1}: `{said}`: {fault}")
        else:
            self.passed += 1

    def spans(self, text, offset):
        for found in re.finditer(r"(`+)(.+?)(?<!`)\1(?!`)", text, re.S):
            yield offset + found.start(), " ".join(found[2].split())

    def check(self):
        for block in re.finditer(r"(?:^[^\n]*\S[^\n]*\n?)+", self.text, re.M):
            lines = block[0].splitlines(keepends=True)
            if len(lines) > 1 and re.match(r"\|[ :|-]+\|?$", lines[1].strip()):
                self.check_table(lines, block.start())
            else:
                for at, said in self.spans(block[0], block.start()):
                    self.check_word(at, said)
        self.check_uses()
        self.check_places()
        self.check_links()
        for found in LETTER.finditer(text_of(self.path)):
            self.note(found.start(), found[0], "the letter of a kit")

    def check_table(self, lines, at):
        cells = lambda line: re.split(r"(?<!\\)\|", line.strip().strip("|"))
        heads = [it.strip() for it in cells(lines[0])]
        has_clauses = any(re.match(r"Clauses?$", it) for it in heads)
        for line in lines:
            row = cells(line)
            for head, cell in zip(heads, row):
                spans = list(self.spans(cell, at))
                if re.match(r"Clauses?$", head):
                    self.check_clauses(spans)
                elif head == "Definition" and has_clauses:
                    self.check_definitions(spans)
                elif head == "Modules" and row[0].strip(" `") in crates():
                    self.check_modules(at, row[0].strip(" `"), [said for _, said in spans])
                else:
                    for here, said in spans:
                        self.check_word(here, said)
            if {"Files", "Lines"} <= set(heads) and row[0].strip() in HEADLINES:
                said = row[heads.index("Files")].strip(), row[heads.index("Lines")].strip().replace(",", "")
                true = tuple(map(str, believed(HEADLINES[row[0].strip()])))
                self.note(at, row[0].strip(), None if said == true else f"{true[0]} files, {true[1]} lines stand there")
            at += len(line)

    def check_clauses(self, spans):
        last = None
        for at, said in spans:
            if more := re.match(r"\.(\w+)$", said):
                self.note(at, f"{last}{said}", fault_of_clause(last, more[1]) if last else "of no function")
            elif "::" in said and said.split("::")[0] in crates():
                last, _, clause = said.partition(".")
                self.note(at, said, fault_of_clause(last, clause) if clause else fault_of_lone_function(last))
            else:
                self.check_word(at, said)

    def check_definitions(self, spans):
        files = [found[0] for _, said in spans for base in ("crates/",) if (found := glob.glob(f"{ROOT}/{base}{said}"))]
        specs = [os.path.relpath(it, ROOT) for it in files if it.endswith(".antt")]
        for at, said in spans:
            if "/" in said or "::" in said:
                self.check_word(at, said)
            elif not specs:
                self.note(at, said, "its cell names no definition file")
            else:
                self.note(at, said, None if any(said in defined_in(it) for it in specs) else "not defined there")

    def check_modules(self, at, name, said):
        there = crates()[name].modules - {"lib", "main", "mod"}
        for it in sorted(there | set(said)):
            fault = None if it in said else "is in no line of modules"
            self.note(at, f"{name}: {it}", fault if it in there else "no such module")

    def check_word(self, at, said):
        word = said.split()[0]
        if re.match(r"[A-Za-z]\w*(::\w+)+$", re.sub(r"\(.*|\.\w+$", "", said)):
            whole = re.sub(r"\(.*", "", said)
            name, _, clause = whole.partition(".")
            self.note(at, said, fault_of_clause(name, clause) if clause else fault_of_item(name))
        elif looks_like_path(word):
            self.note(at, said, fault_of_path(word, self.folder))
        elif re.match(r"(oncrpc|ONCRPC)_\w+$", word):
            self.note(at, said, None if word in declared_for_c() | set(crates()) else "neither a crate nor in oncrpc.h")
        elif re.match(PREFIXES + "$", said):
            known = any(said in it.items | it.modules for it in crates().values()) or f"{said}.py" in base_names()
            self.note(at, said, None if said in crates() or known else "no such crate or module")

    def check_uses(self):
        """A line of crates.txt in a block stands there so, and each crate of the tree that it uses has a line beside."""
        for block in re.finditer(r"(?:^ {4}\w+(?: staticlib)?:(?: \w+)* *\n)+", self.text, re.M):
            lines = {it.split()[0].rstrip(":"): it.strip() for it in block[0].splitlines()}
            if not lines.keys() & used().keys():
                continue
            for name, line in lines.items():
                lacks = sorted((set(line.split()[1:]) & used().keys()) - lines.keys())
                fault = f"no line for {' '.join(lacks)}" if lacks else None
                if name in used() and line not in text_of("crates.txt").splitlines():
                    fault = "crates.txt has another line"
                self.note(block.start(), line, fault)

    def check_places(self):
        """A file in brackets behind words in backticks, `one` and `two` (`crate/src/file.rt`), has an item of each name."""
        word = r"`\w+`"
        for found in re.finditer(rf"((?:{word}(?:,|,? and)\s+)*{word})\s+\(`([\w/]+\.rt)`\)", self.text):
            path = next((it for it in (found[2], f"crates/{found[2]}") if os.path.isfile(f"{ROOT}/{it}")), None)
            for name in re.findall(r"`(\w+)`", found[1]):
                is_there = path and re.search(rf"\b(?:fn|struct|enum|trait|const|type) {name}\b", text_of(path))
                self.note(found.start(), f"{name} ({found[2]})", None if is_there else "no item of that name there")

    def check_links(self):
        plain = re.sub(r"`[^`\n]*`", lambda it: " " * len(it[0]), self.text)
        for found in re.finditer(r"\]\(([^)\s]+)\)|(?:src|href)=\"([^\"]+)\"", plain):
            to, _, anchor = (found[1] or found[2]).partition("#")
            if re.match(r"\w+:", found[1] or found[2]):
                continue
            file = os.path.normpath(os.path.join(self.folder, to)) if to else self.path
            if not os.path.exists(os.path.join(ROOT, file)):
                self.note(found.start(), found[1] or found[2], "leads nowhere")
            else:
                wrong = anchor and file.endswith(".md") and anchor not in anchors(file)
                self.note(found.start(), found[1] or found[2], "no such heading" if wrong else None)

    def check_sentences(self):
        """Counts words as they are read: without code blocks and headings, and each cell of a table by itself."""
        whole = re.sub(r"```.*?```|^ {4}[^\n]*$|^#[^\n]*$", blank, text_of(self.path), flags=re.S | re.M)
        failed = len(self.failures)
        for start, text in [(0, re.sub(r"^\|[^\n]*$", blank, whole, flags=re.M)), *cells_of(whole)]:
            for at, said, words in long_sentences(text):
                self.note(start + at, said, f"a sentence of {words} words")
        self.passed += failed == len(self.failures)

    def check_columns(self):
        """No line is too long to be read beside another text; tables and code have lines of their own length."""
        failed = len(self.failures)
        plain = re.sub(r"^ {4}[^\n]*$|^\|[^\n]*$", blank, self.text, flags=re.M)
        for found in re.finditer(rf"^[^\n]{{{COLUMNS + 1},}}$", plain, re.M):
            if found[0].strip():
                self.note(found.start(), found[0][:20], f"{len(found[0])} columns, at most {COLUMNS}")
        self.passed += failed == len(self.failures)


def anchors(file):
    heads = re.findall(r"^#+ +(.*)$", text_of(file), re.M)
    return {re.sub(r"\s", "-", re.sub(r"[^\w\s-]", "", it.strip().lower())) for it in heads}
