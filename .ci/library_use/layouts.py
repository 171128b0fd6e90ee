"""The numbers, the layouts and the version of the header."""
import re

from .running import C, ROOT, passed, run


def header_code():
    """The header without its comments."""
    with open(f"{ROOT}/include/oncrpc.h", encoding="utf-8") as header:
        return re.sub(r"/\*.*?\*/", "", header.read(), flags=re.DOTALL)


def declared():
    """The numbers of the header, and the fields of its structs, by their names."""
    code = header_code()
    numbers = re.findall(r"\b(ONCRPC_\w+) = \d+", code) + re.findall(r"#define (ONCRPC_\w+) \d+u", code)
    structs = re.findall(r"typedef struct \{([^}]*)\} (oncrpc_\w+);", code)
    fields = [(name, field) for body, name in structs for field in re.findall(r"(\w+)(?:\[\d+\])?;", body)]
    return numbers, [name for _, name in structs], fields


def functions():
    """The functions of the library, which the header declares."""
    return re.findall(r"^(?!static)\w[\w ]*[ *](oncrpc_\w+)\(", header_code(), re.MULTILINE)


def named_in_cpp():
    """Each function and each number of an enumeration of the header is used in oncrpc.hpp."""
    with open(f"{ROOT}/include/oncrpc.hpp", encoding="utf-8") as wrapper:
        there = set(re.findall(r"\w+", re.sub(r"//.*", "", wrapper.read())))
    wanted = {*functions(), *re.findall(r"\b(ONCRPC_\w+) = \d+", header_code())}
    yield passed("each of the header's names is in oncrpc.hpp", wanted <= there, wanted - there)


def constants(room):
    """Each number and each layout is the one that stands in constants.c, and none is left out there."""
    source = f"{ROOT}/.ci/library_use/constants.c"
    ran = run([*C, f"-I{ROOT}/include", "-c", source, "-o", f"{room}/constants.o"])
    yield passed("the numbers and layouts of the header", ran.returncode == 0, ran.stderr)
    numbers, structs, fields = declared()
    with open(source, encoding="utf-8") as file:
        rows = set(re.findall(r"^\w+\([\w, ]+?(?=, \d)", file.read(), re.MULTILINE))
    wanted = {f"NUMBER({name[7:]}" for name in numbers} | {f"SIZE({name[7:]}" for name in structs}
    wanted |= {f"FIELD({name[7:]}, {field}" for name, field in fields}
    yield passed("each of them stands in constants.c", wanted == rows, wanted ^ rows)


def versions(library):
    """The version of the header, as a text and by numbers, is that of oncrpc.pc, of the program and of CHANGELOG."""
    places = {
        "include/oncrpc.h": r'^#define ONCRPC_VERSION "(.*)"$',
        "CHANGELOG.md": r"^## ([\d.]+)",
        "bindings/rust/Cargo.toml": r'^version = "(.*)"$',
        "crates/oncrpc_words/src/help.rt": r' VERSION: &str = "(.*)";$',
    }
    found = {}
    for name, pattern in places.items():
        with open(f"{ROOT}/{name}", encoding="utf-8") as file:
            found[name] = re.search(pattern, file.read(), re.MULTILINE)[1]
    with open(f"{library}/oncrpc.pc", encoding="utf-8") as file:
        found["oncrpc.pc"] = re.search(r"^Version: (.*)$", file.read(), re.MULTILINE)[1]
    with open(f"{ROOT}/include/oncrpc.h", encoding="utf-8") as file:
        numbers = re.findall(r"^#define ONCRPC_VERSION_(?:MAJOR|MINOR|PATCH) (\d+)u$", file.read(), re.MULTILINE)
    found["by numbers"] = ".".join(numbers)
    yield passed("the version of the library", len(set(found.values())) == 1, found)


def layout(room):
    """A file with a line for each number and each field of the header, as the compiler makes them."""
    numbers, structs, fields = declared()
    lines = [f'printf("{name} %lld\\n", (long long){name});' for name in numbers]
    lines += [f'printf("{name}. %zu %zu\\n", _Alignof({name}), sizeof({name}));' for name in structs]
    lines += [
        f'printf("{name}.{field} %zu %zu\\n", offsetof({name}, {field}), sizeof((({name} *)0)->{field}));'
        for name, field in fields
    ]
    with open(f"{room}/layout.c", "w", encoding="utf-8") as source:
        source.write('#include <stdio.h>\n#include "oncrpc.h"\nint main(void) {\n' + "\n".join(lines) + "\n}\n")
    said = run([*C, f"-I{ROOT}/include", f"{room}/layout.c", "-o", f"{room}/layout"]).stderr
    with open(f"{room}/layout.txt", "w", encoding="utf-8") as file:
        file.write(said or run([f"{room}/layout"]).stdout)
    return f"{room}/layout.txt"
