"""Lists of plants: blocks of lines `word: text`, as README.md has them, and what the texts make of a file."""
import collections
import glob
import os
import re

HERE = os.path.dirname(os.path.dirname(os.path.realpath(__file__)))
# A bug to be planted: the list it stands in, what is put in where, who refuses it, and why it is not run, if it is not.
Plant = collections.namedtuple("Plant", "name list changes refuser why")
# A text that stands once in a file, and the one that is put in its place.
Change = collections.namedtuple("Change", "file old new")
LINE = re.compile(r"(plant|refused by|file|old|new|not run):(?: (.*))?")
# How a further line of a text begins.
FURTHER = re.compile(r"   \|(?: (.*))?")


class ListFault(Exception):
    """A line of a list that cannot be read, by its file and its number."""


def blocks(path, lines):
    """The blocks of a list, between blank lines: their words and texts, with the number of the line of each."""
    found = []
    for number, line in enumerate([*lines, ""], 1):
        if line.startswith("#"):
            continue
        if not line.strip():
            if found:
                yield found
            found = []
        elif further := FURTHER.fullmatch(line):
            if not found or found[-1][0] not in ("old", "new"):
                raise ListFault(f"{path}:{number}: no text goes on here")
            found[-1][1] += "\n" + (further[1] or "")
        elif told := LINE.fullmatch(line):
            found.append([told[1], told[2] or "", number])
        else:
            raise ListFault(f"{path}:{number}: no word of a list begins this line")


def changes_of(path, block, file):
    """The changes of a block: of each 'old' by the 'new' behind it, in the file that was named last."""
    old = None
    for word, text, number in block:
        if word == "file":
            file = text
        elif word == "old":
            if not file or not text or old is not None:
                raise ListFault(f"{path}:{number}: an 'old' without a file or a text, or a second one")
            old = text
        elif word == "new":
            if old is None:
                raise ListFault(f"{path}:{number}: a 'new' without an 'old'")
            yield Change(file, old, text)
            old = None
    if old is not None:
        raise ListFault(f"{path}:{block[-1][2]}: an 'old' without a 'new'")


def plants_in(path, name):
    """The plants of a list. A block without a name says what holds for those below it."""
    with open(path, encoding="utf-8") as it:
        lines = it.read().split("\n")
    usual, names = {}, set()
    for block in blocks(path, lines):
        told = {word: text for word, text, _ in block if word not in ("old", "new")}
        if "plant" not in told:
            if any(word in ("old", "new") for word, _, _ in block):
                raise ListFault(f"{path}:{block[0][2]}: a plant without a name")
            usual = told
            continue
        changes = [*changes_of(path, block, usual.get("file"))]
        refuser = told.get("refused by", usual.get("refused by"))
        if not changes or not refuser or told["plant"] in names:
            raise ListFault(f"{path}:{block[0][2]}: a plant without a change, a refuser, or a name of its own")
        names.add(told["plant"])
        yield Plant(told["plant"], name, tuple(changes), refuser, told.get("not run", usual.get("not run")))


def all_plants():
    """The plants of all lists, in their order."""
    for path in sorted(glob.glob(f"{HERE}/**/*.txt", recursive=True)):
        yield from plants_in(path, os.path.relpath(path, HERE).removesuffix(".txt"))


def is_meant(plant, words):
    """Whether a word is a part of the list's name, of a file's or of the refuser's, or there is none."""
    told = [plant.list, plant.refuser, *(change.file for change in plant.changes)]
    return not words or any(word in text for word in words for text in told)


def with_changes(plant, text_of):
    """The files with the plant in them, by their names; each text stands once in what the changes before it made."""
    made = {}
    for file, old, new in plant.changes:
        text = made.get(file) or text_of(file)
        if text.count(old) != 1:
            raise ListFault(f"its text stands {text.count(old)} times in {file}")
        made[file] = text.replace(old, new)
    return made
