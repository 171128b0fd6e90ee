"""What the names in the documents stand for: crates, items, contracts, files, and how much is to be believed."""
import functools
import glob
import os
import re

from documents_tree import ROOT, Crate, all_files, cited_by, closure, fields_cited, files_below, text_of

ENDINGS = (".md", ".py", ".rt", ".antt", ".h", ".c", ".cc", ".rs", ".edit", ".svg")
PATH = re.compile(r"\.?/?[\w.-][\w.*-]*(?:/[\w.*'-]+)*/?(?:#\w+)?$")
FOREIGN = ("std", "core", "alloc", "crate", "self", "super")
HEADLINES = {
    "the main theorem": [
        "xdr_types::each_spelling_is_one_value",
        "xdr_codec::encode",
        "xdr_codec::Decoder::feed",
        "xdr_codec::Decoder::finish",
        "xdr_laws::whole_exactly",
        "rpc_record::normalise",
        "rpc_record::twice_as_once",
    ],
    "the outcome": ["xdr_types/specs/Outcome.antt"],
    "encode and decode": ["xdr_codec::encode", "xdr_codec::decode"],
    "normalise": ["rpc_record::normalise"],
    "serve": ["rpc_engine::serve"],
    "the answer by who calls": ["registry_callers::append_answer_from"],
    "many connections": ["registry_sessions::tables_interleave"],
    "read a text": ["xdr_lang::read"],
    "a task": ["oncrpc_tasks::task_over"],
}


@functools.cache
def used():
    """Each crate of crates.txt, with the names that it uses."""
    lines = [it.split(":") for it in text_of("crates.txt").splitlines() if it.strip() and it[0] != "#"]
    return {it[0].split()[0]: set(it[1].split()) for it in lines}


@functools.cache
def crates():
    return {it: Crate(it) for it in used()}


@functools.cache
def types():
    """Each public type's name, with the members that it has in any crate."""
    found = {}
    for crate in crates().values():
        for name, members in crate.members.items():
            found.setdefault(name, set()).update(members)
    return found


@functools.cache
def declared_for_c():
    return set(re.findall(r"\b\w+\b", text_of("include/oncrpc.h")))


@functools.cache
def bound_for_rust():
    return "".join(text_of(it) for it in files_below("bindings/rust/src", ".rs"))


@functools.cache
def base_names():
    return {os.path.basename(it) for it in all_files()}


def home_of(name, words):
    """The crate and the words of an item there, past modules and what a crate hands on."""
    crate = crates()[name]
    while len(words) > 1 and words[0] in crate.modules and words[0] not in crate.items:
        words = words[1:]
    if words[0] not in crate.items and crate.handed_on.get(words[0]) in crates():
        return home_of(crate.handed_on[words[0]], words)
    return crate, words


def contract_of(said):
    """The contracts of 'crate::function' by that name; none where there is no such function."""
    name, *words = said.split("::")
    if name not in crates() or not words:
        return []
    crate, words = home_of(name, words)
    return crate.contracts.get("::".join(crate.renamed.get(it, it) for it in words), [])


def fault_of_item(said):
    """What is wrong with 'a::b::c', or None."""
    name, *words = said.split("::")
    if name in crates():
        crate, words = home_of(name, words)
        there = words[0] in crate.items | crate.modules | set(crate.handed_on) | set(crate.members)
        if len(words) > 1:
            there = words[1] in crate.members.get(words[0], ()) or words[1] in crate.modules
        if name == "oncrpc" and not there:
            there = re.search(rf"\b{words[-1]}\b", bound_for_rust())
        return None if there else f"no such item in crates/{name}"
    if name in FOREIGN or (name[0].isupper() and name not in types()):
        return None
    if name[0].isupper():
        return None if words[0] in types()[name] else f"{name} has no {words[0]}"
    return "no such crate"


def fault_of_clause(said, clause):
    found = contract_of(said)
    if not found:
        return fault_of_item(said) or "no such function with a contract"
    for _, _, clauses, names in found:
        said_by = {it[1] or it[0] for it in clauses}
        if clause in said_by | fields_cited(clauses, names):
            return None
    return f"no clause {clause}"


def fault_of_lone_function(said):
    """In a column of clauses: a function that needs no clause's name has one ensures, without a name."""
    found = contract_of(said)
    if not found:
        return fault_of_item(said) or "no function with a contract"
    ensured = [it[1] for it in found[0][2] if it[0] == "ensures"]
    return None if ensured == [""] else f"names no clause, of {', '.join(ensured) or 'none'}"


def fault_of_path(said, folder):
    said, _, row = re.sub(r"^\./", "", said).partition("#")
    if re.search(r"(^|/)out(/|$)|(^|/)(?!HANDLES|LICEN[CS]E|BUILD|MODULE)[A-Z]{3,}\b(?!\.md)", said):
        return None
    for base in ("", folder, "crates", "crates/*"):
        if found := glob.glob(os.path.join(ROOT, base, said)):
            table = rf"^[A-Z0-9_, ]*\b{row}\b[A-Z0-9_, ]*="
            named = not row or re.search(table, text_of(os.path.relpath(found[0], ROOT)), re.M)
            return None if named else f"no table {row} in it"
    return None if "/" not in said and said in base_names() else "no such file"


def looks_like_path(word):
    if not PATH.match(word) or word.count("/") == len(word) or re.match(r"[\d/]", word):
        return False
    return "/" in word or (word.split("#")[0].endswith(ENDINGS) and not word.startswith("."))


def believed(calls):
    """How many definition files, and lines of them, these definitions and the contracts of these calls stand on."""
    roots = {f"crates/{it}" for it in calls if "/" in it}
    for it in calls:
        for _, _, clauses, names in contract_of(it):
            for clause in clauses:
                roots |= cited_by(clause[2], names)
    files = closure(roots)
    return len(files), sum(text_of(it).count("\n") for it in files)
