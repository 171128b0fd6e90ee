"""The code of README: a compiler of C reads its lines of C, and the others are lines that the gate compiles elsewhere."""
import re
import shutil
import subprocess

from documents_tree import ROOT, files_below, text_of

# What stands around the lines of C, which leave out where their bytes come from.
AROUND_C = """#include <stdio.h>
{include}
int main(void) {{
    static const char text[] = "struct point {{ int x; int y; }};", name[] = "point";
    static const uint8_t input[8] = {{0}};
    const size_t text_count = sizeof text - 1, name_count = sizeof name - 1, input_count = sizeof input;
{lines}
    return 0;
}}
"""


def blocks_of(text):
    """Each block of code, four columns in: its place, and its lines."""
    for found in re.finditer(r"(?:^ {4}.*\n|^\n(?= {4}))+", text, re.M):
        if found[0].strip():
            yield found.start() + len(found[0]) - len(found[0].lstrip("\n")), found[0].strip("\n").split("\n")


def stripped(lines):
    """Lines without white space around them, empty ones and the comments behind them left out."""
    bare = (re.sub(r"\s+// .*", "", it).strip() for it in lines)
    return [it for it in bare if it]


def tested_in_rust():
    """The code at the head of bindings/rust, whose tests run it, without the lines that its page leaves out."""
    head = re.findall(r"^//! ?(.*)$", text_of("bindings/rust/src/lib.rs"), re.M)
    return stripped(it for it in head if not it.startswith("# "))


def fault_of_c(lines):
    """What a compiler says of lines of C."""
    if not shutil.which("cc"):
        return None
    text = AROUND_C.format(include=lines[0].strip(), lines="\n".join(lines[1:]))
    words = ["cc", "-std=c11", "-Wall", "-Wextra", "-Werror", f"-I{ROOT}/include", "-fsyntax-only", "-xc", "-"]
    ran = subprocess.run(words, input=text, capture_output=True, text=True, check=False)
    told = re.search(r"error: .*", ran.stderr)
    return None if ran.returncode == 0 else told[0] if told else "no compiler reads it"


def fault_of_rust(lines):
    """What the head of bindings/rust has not, or has in another order."""
    there, wanted = tested_in_rust(), stripped(lines)
    is_there = any(there[at : at + len(wanted)] == wanted for at in range(len(there)))
    return None if is_there else "the head of bindings/rust/src/lib.rs has other lines"


def fault_of_rattle(lines):
    """The first line that the program of the guide has not behind those before it; others may lie between."""
    fault = None
    for path in files_below("crates/example_guide/src", ".rt"):
        there, fault = iter(stripped(text_of(path).split("\n"))), None
        for line in stripped(lines):
            if line not in there:
                fault = f"crates/example_guide has no line {line}"
                break
        if fault is None:
            return None
    return fault


def fault_of_code(lines):
    """What is wrong with a block, by the language that its first line shows; commands are run elsewhere."""
    first = lines[0].strip()
    if first.startswith("#include"):
        return fault_of_c(lines)
    if first.startswith("use oncrpc::"):
        return fault_of_rust(lines)
    return fault_of_rattle(lines) if first.startswith("let ") else None
