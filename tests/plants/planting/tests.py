"""The refusers that are tests: what each runs in a copy, and what it needs that a build has left."""
import ast
import os
import re
import shutil

from planting.copies import ROOT
from planting.ran import PROOF, Told, first_of, judged, must, python

CPP = ["c++", "-std=c++17", "-O0", "-Wall", "-Wextra", "-Wpedantic", "-Werror"]
LAYOUT = 'import sys; sys.path.insert(0, ".ci"); from library_use.layouts import layout; print(layout(sys.argv[1]))'
ROWS = f"{os.path.dirname(os.path.realpath(__file__))}/rows.py"
# The crates whose programs a refuser runs, and the words with which a build runs them.
OF_PROGRAM = ["oncrpc"], ["--", "--version"]
OF_TESTS = ["tool_probe", "tool_probe_more"], []
PROGRAMS = {"tests/run": OF_TESTS, ".ci/refuse": OF_PROGRAM, ".ci/clients": OF_PROGRAM}
# Where another program of a crate is named.
NAMED = {"tool_probe": "PROBE", "tool_probe_more": "PROBE_MORE"}
# The refusers that run the library, which ONCRPC_LIBRARY names, or library/ of the tree.
OF_LIBRARY = ("cargo test", "check.rs", "unittest", "wrappers", "sanitizers")


def library_of_tree():
    return os.path.realpath(os.environ.get("ONCRPC_LIBRARY", f"{ROOT}/library"))


def layout(copy):
    """What a C compiler makes of the copy's header."""
    made = must(python("-c", LAYOUT, copy.room), copy.at)
    return made, {"ONCRPC_LAYOUT": f"{copy.room}/layout.txt"}


def cargo_test(copy, library):
    """The tests of bindings/rust, those too that want the layout."""
    made, env = layout(copy)
    env = {**env, "ONCRPC_LIBRARY": library, "CARGO_TARGET_DIR": f"{copy.room}/cargo"}
    words, at = ["cargo", "test", "--offline", "-q"], f"{copy.at}/bindings/rust"
    compiled = must([*words, "--no-run"], at, **env) if made.how == "passed" else made
    return judged([*words, "--", "--include-ignored"], at, **env) if compiled.how == "passed" else compiled


def example(copy, library):
    """The example of bindings/rust under valgrind, as .ci/library runs it: what is not given back is a fault."""
    if not shutil.which("valgrind"):
        return Told("not run", "valgrind is not there")
    env = {"ONCRPC_LIBRARY": library, "CARGO_TARGET_DIR": f"{copy.room}/cargo"}
    built = must(["cargo", "build", "--offline", "-q", "--examples"], f"{copy.at}/bindings/rust", **env)
    kinds = ["--leak-check=full", "--show-leak-kinds=definite", "--errors-for-leak-kinds=definite,indirect,possible"]
    words = ["valgrind", "-q", "--error-exitcode=3", *kinds, f"{copy.room}/cargo/debug/examples/check"]
    return judged(words, copy.at) if built.how == "passed" else built


def unittest(copy, library):
    """The tests of bindings/python, where a warning is a fault."""
    made, env = layout(copy)
    at = f"{copy.at}/bindings/python"
    words = python("-W", "error", "-m", "unittest")
    return judged(words, at, **env, ONCRPC_LIBRARY=library) if made.how == "passed" else made


def constants(copy, _):
    """The program of numbers and layouts, compiled with the copy's header."""
    words = ["cc", "-std=c11", f"-I{copy.at}/include", "-fsyntax-only"]
    return first_of(
        lambda: must([*words, "-x", "c", f"{copy.at}/include/oncrpc.h"], copy.at),
        lambda: judged([*words, f"{copy.at}/.ci/library_use/constants.c"], copy.at),
    )


def wrappers(copy, library, *flags):
    """The program of oncrpc.hpp, with exceptions and without them, as .ci/library puts it together."""
    own, room = f"{copy.at}/.ci/library_use", copy.room
    words = [*CPP, *flags, f"-I{copy.at}/include"]
    objects = [f"{room}/0.o", f"{room}/1.o", f"{library}/liboncrpc.a"]
    return first_of(
        lambda: must([*words, "-fsyntax-only", "-x", "c++", f"{copy.at}/include/oncrpc.hpp"], copy.at),
        lambda: judged([*words, "-c", f"{own}/wrapper.cc", "-o", objects[0]], copy.at),
        lambda: judged([*words, "-fno-exceptions", "-c", f"{own}/wrapper.cc", "-o", objects[1]], copy.at),
        lambda: judged([*words, f"{own}/wrappers.cc", *objects, "-o", f"{room}/wrappers"], copy.at),
        lambda: judged([f"{room}/wrappers"], copy.at),
    )


def sanitizers(copy, library):
    """The same under the sanitizers, which tell of what is not given back."""
    return wrappers(copy, library, "-g", "-fsanitize=address,undefined", "-fno-sanitize-recover=all")


def rows(copy, group):
    """The made-up rows of a group, over stand-ins for the toolchain."""
    return judged(python(ROWS, group), copy.at)


def whole(refuser, seconds):
    """A part of the gate, as it is, on the copy's own programs."""

    def run(copy, _):
        probes = {name: f"{copy.at}/crates/{crate}/out/{crate}" for crate, name in NAMED.items()}
        return judged([f"{copy.at}/{refuser}"], copy.at, seconds, **probes)

    return run


TESTS = {
    "cargo test": cargo_test,
    "check.rs": example,
    "unittest": unittest,
    "constants": constants,
    "wrappers": wrappers,
    "sanitizers": sanitizers,
    "tests/run": whole("tests/run", 3600),
    ".ci/refuse": whole(".ci/refuse", 3600),
    ".ci/clients": whole(".ci/clients", 3600),
    ".ci/library": whole(".ci/library", PROOF),
    ".ci/documents": whole(".ci/documents", 900),
}


def build(copy, refuser):
    """Proves and builds in the copy what a refuser runs."""
    if refuser in OF_LIBRARY:
        return must([f"{copy.at}/build-library", f"{copy.room}/library"], copy.at, PROOF)
    if refuser in PROGRAMS:
        crates, words = PROGRAMS[refuser]
        runs = (lambda crate=crate: must(["rt", "run", *words], f"{copy.at}/crates/{crate}", PROOF) for crate in crates)
        return first_of(*runs)
    return Told("passed", "")


def borrow(copy, refuser):
    """Gives the copy what a build of the tree has left for a refuser, and says what is not there."""
    if refuser in OF_LIBRARY and not os.path.isfile(f"{library_of_tree()}/liboncrpc.a"):
        return "no library is built: ONCRPC_LIBRARY names its folder"
    for crate in PROGRAMS[refuser][0] if refuser in PROGRAMS else ():
        own = f"crates/{crate}/out/{crate}"
        made = os.environ.get(NAMED.get(crate, "")) or f"{ROOT}/{own}"
        if not os.path.isfile(made):
            return f"{own} is not built: 'rt run' in crates/{crate}"
        os.makedirs(f"{copy.at}/crates/{crate}/out", exist_ok=True)
        shutil.copy(made, f"{copy.at}/{own}")
    return None


def unreadable(copy, file):
    """Why a planted script cannot be read at all, or None: it would be refused whatever is planted in it."""
    text = copy.text_of(file)
    if file.endswith(".py") or re.match("#!.*python", text):
        try:
            ast.parse(text)
        except SyntaxError as fault:
            return f"{file}:{fault.lineno}: {fault.msg}"
    elif text.startswith("#!/bin/sh") or "shellcheck shell=sh" in text:
        told = must(["sh", "-n", f"{copy.at}/{file}"], copy.at)
        return told.why if told.how == "not run" else None
    return None


def told_by(copy, refuser, is_proved=False):
    """What a refuser tells of a copy, in which `is_proved` sources were built for it."""
    group = refuser.removeprefix("rows ")
    if group != refuser:
        return rows(copy, group)
    return TESTS[refuser](copy, f"{copy.room}/library" if is_proved else library_of_tree())
