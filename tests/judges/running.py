"""Cases as lines for 'tool_probe', and what it told of each: words `key=value`, as README.md has them."""
import collections
import math
import os
import re
import resource
import subprocess

from rows.shared import octets

ROOT = os.path.dirname(os.path.dirname(os.path.dirname(os.path.realpath(__file__))))
PROGRAM = os.environ.get("PROBE", f"{ROOT}/crates/tool_probe/out/tool_probe")
PROGRAM_MORE = os.environ.get("PROBE_MORE", f"{ROOT}/crates/tool_probe_more/out/tool_probe_more")
# The calls that the second of these programs makes.
MORE_CALLS = "write_json json_of_bytes read_json find read_dialect join_texts place_in Bounds::of SessionTable".split()
MORE_CALLS += "Schema::build FromRead IntoWrite Direction".split()
# The keys of a case's fields that are not theirs with `-` in place of `_`, in the order in which they are written.
NAMED = {"reads": ("read", "read-fails"), "writes": ("write", "write-fails"), "given": ("input",)}
# The fields that are texts to read: declarations, names, and digits.
TEXTS = ("text", "kind", "types", "path")
WORD = re.compile(r'(\S+?)=("[^"]*"|[^ ]*)(?: |$)')


def quoted(content):
    """Bytes between quotation marks: `\\xHH` stands for one that is not printed."""
    plain = {byte for byte in range(0x20, 0x7F)} - set(b'"\\')
    return '"' + "".join(chr(byte) if byte in plain else f"\\x{byte:02x}" for byte in content) + '"'


def unquoted(text):
    return re.sub(rb"\\x(..)", lambda it: octets(it[1].decode()), text[1:-1].encode())


def value_of(field, content, as_text):
    """A value as it is written."""
    if isinstance(content, (list, tuple)):
        return ",".join(each.hex() if isinstance(each, bytes) else str(each) for each in content)
    if isinstance(content, bytes):
        return quoted(content) if as_text or field in TEXTS else content.hex()
    if field in TEXTS and not re.fullmatch(r"[-.\w]+", content):
        return quoted(content.encode())
    return "yes" if content is True else str(content)


def line_of(case):
    """A case as a line: what is as in all cases is not written."""
    if case.calls is not None:
        return " ; ".join(["call=Directory", *case.calls])
    words = []
    for field, content in case._asdict().items():
        usual = case._field_defaults.get(field)
        if content == usual and type(content) is type(usual):
            continue
        if field in ("reads", "writes"):
            words += [f"{key}={each}" for key, each in zip(NAMED[field], content) if each]
            continue
        key = NAMED.get(field, (field.replace("_", "-"),))[0]
        words.append(f"{key}={value_of(field, content, field == 'given' and case.hex)}")
    return " ".join(words)


# What is told: growths, the answer or the exit status, the bytes of the other words in their order, the datagrams that
# were sent, and what else is counted.
Told = collections.namedtuple("Told", "met answer streams sent counts", defaults=((), ()))
COUNTS = ("left", "asked", "freed", "held")


def told_of(line):
    words = dict(WORD.findall(line))
    met, answer = words.pop("growths", "-1"), words.pop("answer", None)
    answer = unquoted(answer).decode() if answer else words.pop("status", line)
    sent = [octets(each) for each in words.pop("sent", "").split(",")][: int(words.pop("count", 0))]
    counts = [int(words.pop(each)) for each in COUNTS if each in words]
    streams = [unquoted(each) if each[:1] == '"' else octets(each) for each in words.values()]
    return Told(int(met), answer, streams, sent, counts)


def run_by(program, cases, limits, variables):
    """What one program tells of each case, in one run."""
    given = "".join(line_of(case) + "\n" for case in cases).encode()
    words = ["sh", "-c", f"{limits}exec '{program}'"]
    ended = subprocess.run(words, input=given, capture_output=True, env={**os.environ, **variables}, timeout=3600)
    lines = ended.stdout.decode().split("\n")[:-1]
    lines += [f"ended with {ended.returncode}"] * (len(cases) - len(lines))
    return [told_of(line) for line in lines]


def run(cases, stack=None, room=None, seconds=None, **variables):
    """What is told of each case, in one run of each program that makes one of the calls, in so many KiB of stack and of
    addresses, and so many processor seconds."""
    limits = "".join(f"ulimit -{flag} {size}; " for flag, size in (("s", stack), ("v", room), ("t", seconds)) if size)
    places = {PROGRAM: [], PROGRAM_MORE: []}
    for place, case in enumerate(cases):
        places[PROGRAM_MORE if case.call in MORE_CALLS else PROGRAM].append(place)
    told = {}
    for program, mine in places.items():
        if mine:
            told.update(zip(mine, run_by(program, [cases[place] for place in mine], limits, variables)))
    return [told[place] for place in range(len(cases))]


def is_told_well(is_well, told):
    """Whether an answer is well. Where the program ended early there is none, or less than a judge looks at."""
    try:
        return is_well(told)
    except (IndexError, ValueError):
        return False


def judged(name, rows, stack=None, room=None, **variables):
    """Runs pairs of a case and a judge, and says whether all are well."""
    return told_of_wrong(name, *wrong_of(rows, stack, room, None, **variables))


def judged_in(seconds, name, cases):
    """The same in so many processor seconds. It has three tries, of which one is enough: what a host takes of a processor
    can be counted as the program's time, while a fault takes too long each time."""
    for _ in range(3):
        rows, bad = wrong_of(cases(), None, None, seconds)
        if rows and not bad:
            break
    return told_of_wrong(f"{name}, {seconds} processor seconds", rows, bad)


def judged_each_in(seconds, name, cases):
    """The same of each case in a run of its own, which has so many processor seconds, or a part of one, and three tries.
    One that takes longer than the next whole second is ended."""
    rows, bad = list(cases()), []
    for row in rows:
        for _ in range(3):
            began = seconds_of_runs()
            _, wrong = wrong_of([row], None, None, math.ceil(seconds))
            took = seconds_of_runs() - began
            if not wrong and took <= seconds:
                break
        else:
            bad.append((line_of(row[0])[:200], f"{took:.2f} processor seconds", *wrong))
    return told_of_wrong(f"{name}, {seconds} processor seconds each", rows, bad)


def seconds_of_runs():
    """The processor seconds of all runs that have ended."""
    used = resource.getrusage(resource.RUSAGE_CHILDREN)
    return used.ru_utime + used.ru_stime


def wrong_of(rows, stack, room, seconds, **variables):
    """The pairs, and each case that is not well with what is told of it."""
    rows = list(rows)
    bad = []
    for (case, is_well), told in zip(rows, run([case for case, _ in rows], stack, room, seconds, **variables)):
        if not is_told_well(is_well, told):
            bad.append((line_of(case)[:600], str(told)[:600]))
    return rows, bad


def told_of_wrong(name, rows, bad):
    """Prints the line of a row of so many runs, and says whether it is well."""
    is_well = bool(rows) and not bad
    tell(f"{name}: {len(rows)} runs, {len(bad)} wrong answers", is_well, *bad[:3])
    return is_well


def tell(line, is_well, *found):
    """Prints the line of a row. By its beginning the gate finds one that failed, as by .ci/telling.py."""
    print(f"{'' if is_well else 'FAILED: '}{line}", *found, flush=True)
