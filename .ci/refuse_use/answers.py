"""Rows of scripts/unproved: with what words, text and input the toolchain's run is begun, and what is made of what it
says."""
import os
import re

from refuse_use.launcher import ABOVE, DO, LIMITS, NO_ANSWER, UNPROVED, is_answer, output, row
from refuse_use.standins import ROOT, RT, Tree

# An rt that notes where it is begun, and each of its words.
NOTING = """#!/bin/sh
stand=${0%/*}
echo "$PWD" >"$stand/place"
printf '<%s>\\n' "$@" >"$stand/words"
exec "$stand/noted_rt" "$@"
"""
# The words after './oncrpc', those that the program is given, and the texts that it sees.
SEEN = ["check", "--types", "declared.x"]
A, B, C = ({"declared.x": it} for it in (b"a", b"b", b"c"))
WORDS = [
    ("check --types a.x --name it", [*SEEN, "--name", "it"], A),
    ("check --types=a.x --name it", [*SEEN, "--name", "it"], A),
    ("check --types 'b =.x'", SEEN, B),
    ("check --types='b =.x'", SEEN, B),
    ("check --types \"$(printf '\\377.x')\"", SEEN, C),
    ("check --types", SEEN[:2], {}),
    ("check --types=", SEEN, {}),
    ("check --types --types", SEEN, {}),
    ("check --types a.x --types 'b =.x'", [*SEEN, "--types", "declared1.x"], {**A, "declared1.x": b"b"}),
    ("check --types=a.x --types='b =.x'", [*SEEN, "--types", "declared1.x"], {**A, "declared1.x": b"b"}),
    ("check --types a.x --types none.x", [*SEEN, "--types", "declared1.x"], A),
    ("check --types none.x --types a.x", [*SEEN, "--types", "declared1.x"], {"declared1.x": b"a"}),
    ("check --types bin", SEEN, {}),
    ("check --types none.x", SEEN, {}),
    ("check --types=a.x --name=--types=b", [*SEEN, "--name=--types=b"], A),
    ("check --types a.x 'two  words' '' '*' -- -x", [*SEEN, "two  words", "", "*", "--", "-x"], A),
]
# The words, and whether they read standard input, which can be a terminal.
READERS = {"": 1, "check": 1, "show": 1, "records": 1, "show --version": 1, "check --help": 0, "show -h": 0}
READERS.update({"messages": 1, "messages --json": 1, "messages -h": 0, "capture -": 1, "capture --json -": 1, "capture --port 1 - --stats": 1, "capture -h": 0, "help": 0, "help serve": 0, "info -h": 0, "serve --help": 0, "what": 0})
# What an rt says on standard error and its status, and then the status of the answer and what is said of it.
MIDDLE = "run=ended status=0 runners=1 proved=no\n"
ENDS = [
    (MIDDLE + "checked: fault\nrun=fault proved=no\n", 4, 3, ABOVE),
    (MIDDLE + "\n", 0, 3, ABOVE),
    ("it: " + MIDDLE, 0, 3, ABOVE),
    ("run=ended status=9 x\nmine\nrun=ended status=2 y\n", 2, 2, b"mine\n"),
    ("interpreter: a\nchecked: b\nraces: c\nrun: d\nrt: e\nmy rt: f\nrts: g\n" + MIDDLE, 0, 0, b"my rt: f\nrts: g\n"),
    ("mine\nrun=ended status=1 x\n", 0, 1, b"mine\n"),
    ("run=no-answer\n", 3, 3, LIMITS),
    ("run=no-answer\n", 6, 3, LIMITS),
    ("run=none\n", 2, 3, ABOVE),
    ("run=none\n", 137, 3, ABOVE),
]
# An rt that says so.
SAYING = """#!/bin/sh
echo "$*" >>"${0%%/*}/calls"
cat ../../said >&2
exit %d
"""
# What a program prints that is no text, and what it says.
PRINTING = "#!/bin/sh\nprintf '\\377\\000\\r\\n\\n\\376'\nprintf 'one\\n\\n \\351two\\n' >&2\nexit %d\n"
PRINTED, SAID = b"\377\0\r\n\n\376", b"one\n\n \351two\n"
# More than a pipe holds.
MANY = 300000
# The greatest text of declarations that the program takes, so much of one as goes on, and what says the first; and the
# greatest input as it stands in scripts/unproved and as it is here.
TEXT, CUT, HELP = 262144, 1 << 20, "crates/oncrpc_words/src/help.rt"
INPUT, LESS = "MOST_INPUT, MOST_TEXT = 64 << 20, 1 << 20\n", "MOST_INPUT, MOST_TEXT = 4096, 1 << 20\n"
TOO_LONG = rb"oncrpc: the unproved program takes %s of at most 4096 bytes; " + DO


class Noted(Tree):
    """A checkout whose rt notes its words and its folder, and whose files of no name have a folder of their own."""

    def __init__(self, folder, name, program=None):
        super().__init__(folder, name, TMPDIR=f"{folder}/{name}/room")
        os.mkdir(f"{self.at}/room")
        self.write("bin/rt", NOTING, 0o755)
        self.write("bin/noted_rt", RT, 0o755)
        if program:
            self.write("bin/unproved", program, 0o755)

    def read(self, name):
        with open(f"{self.at}/{name}", encoding="utf-8", errors="replace") as it:
            return it.read()

    def ask(self, words, given=b""):
        """What a command of a shell gives."""
        self.write("asked", words + "\n")
        return self.run("sh asked", given)


def words_passed(folder):
    """Words go on as they are, but for the name of the text, which the program sees under a name that is the same."""
    tree = Noted(folder, "words_passed")
    for name, text in ((b"a.x", "a"), (b"b =.x", "b"), (b"\377.x", "c")):
        with open(os.path.join(os.fsencode(tree.at), name), "w", encoding="ascii") as it:
            it.write(text)
    for words, wanted, texts in WORDS:
        got, told = tree.ask(f"exec ./oncrpc {words}", b"in"), UNPROVED + b"unproved fault\n"
        noted, room = tree.read("bin/words"), re.escape(f"{tree.at}/room/")
        data = "".join(rf"<--data>\n<{it}={room}[^/\n]+/{it}>\n" for it in map(re.escape, texts))
        passed = "".join(f"<{it}>\n" for it in wanted)
        well = is_answer(got, 5, output(b"unproved", b"check", texts.get("declared.x", b"none"), b"in"), told, 1)
        well = well and re.fullmatch(f"<try>\n{data}<-->\n{re.escape(passed)}", noted)
        yield row(f"./oncrpc {words}, its words", bool(well), got, noted)
    place = os.path.realpath(f"{tree.at}/crates/oncrpc")
    yield row("where the toolchain's run is begun", tree.read("bin/place") == place + "\n", tree.read("bin/place"))
    left = os.listdir(f"{tree.at}/room")
    yield row("an unproved answer leaves no file of its own", not left, left)


def input_read(folder):
    """Standard input is read by words that read one, and goes on whole; others do not wait for it."""
    tree = Noted(folder, "input_read")
    for words, reads in READERS.items():
        got = tree.run(f"./oncrpc {words}", b"in")
        told = output(b"unproved", words.split(" ")[0].encode(), b"", b"in" if reads else b"")
        yield row(f"./oncrpc {words}, its input", is_answer(got, 5, told, UNPROVED + b"unproved fault\n", 1), got)
    tree.write("bin/unproved", "#!/bin/sh\nexit 2\n", 0o755)
    got = tree.run("./oncrpc show", b"x" * MANY)
    yield row("./oncrpc show, an input that is not read", is_answer(got, 2, b"", UNPROVED, 1), got)
    tree.write("bin/unproved", "#!/bin/sh\nwc -c\n", 0o755)
    got = tree.run("./oncrpc show", b"x" * MANY)
    well = is_answer((got[0], got[1].strip(), *got[2:]), 0, b"%d" % MANY, UNPROVED, 1)
    yield row("./oncrpc show, an input that is more than a pipe holds", well, got)
    text = tree.read("scripts/unproved")
    yield row("an input of at most 64 MiB", text.count(INPUT) == 1, text)
    tree.write("scripts/unproved", text.replace(INPUT, LESS))
    for size, status, told in ((4096, 0, b""), (4097, 3, TOO_LONG % b"an input")):
        got = tree.run("./oncrpc show", b"\n" * size)
        printed = b"%d" % size if status == 0 else b""
        well = is_answer((got[0], got[1].strip(), *got[2:]), status, printed, UNPROVED + told, status == 0)
        yield row(f"./oncrpc show, {size} bytes where 4096 may be", well, got)
    tree.write("bin/unproved", '#!/bin/sh\nwc -c <"$3"\n', 0o755)
    for size, status, told in ((4096, 0, b""), (4097, 3, TOO_LONG % b"a file")):
        tree.write("replies.bin", "\n" * size)
        got = tree.run("./oncrpc messages --replies replies.bin")
        printed = b"%d" % size if status == 0 else b""
        well = is_answer((got[0], got[1].strip(), *got[2:]), status, printed, UNPROVED + told, status == 0)
        yield row(f"./oncrpc messages --replies, {size} bytes where 4096 may be", well, got)


def capture_seen(folder):
    """The file that 'capture' is to read is passed as standard input; one that cannot be read is a name of no file."""
    tree = Noted(folder, "capture_seen", "#!/bin/sh\necho \"$*\"\ncat\n")
    tree.write("deep/c.pcap", "packets")
    for words, printed in (
        ("deep/c.pcap", b"capture -\npackets"),
        ("--port 9 deep/c.pcap --json", b"capture --port 9 - --json\npackets"),
        ("--port=9 deep/c.pcap", b"capture --port=9 -\npackets"),
        ("- --stats", b"capture - --stats\nin"),
        ("none", b"capture none.pcap\n"),
        ("deep", b"capture none.pcap\n"),
        ("--port 9", b"capture --port 9\nin"),
    ):
        got = tree.run(f"./oncrpc capture {words}", b"in")
        yield row(f"./oncrpc capture {words}, its file", is_answer(got, 0, printed, UNPROVED, 1), got)


def texts_named(folder):
    """Each of several texts is seen, and one that is refused has the name that it was given."""
    program = "#!/bin/sh\ncat \"$3\" \"$5\"\necho \"declaration refused: 10 (7) at $5:12:3\" >&2\nexit 2\n"
    tree = Noted(folder, "texts_named", program)
    tree.write("deep/a.x", "one")
    tree.write("b =.x", "two")
    for words, printed, name in (
        ("--types deep/a.x --types 'b =.x'", b"onetwo", b"b =.x"),
        ("--types='b =.x' --types deep/a.x", b"twoone", b"deep/a.x"),
        ("--types deep/a.x --types deep/a.x", b"oneone", b"deep/a.x"),
    ):
        got = tree.ask(f"exec ./oncrpc check {words}")
        told = UNPROVED + re.escape(b"declaration refused: 10 (7) at %s:12:3\n" % name)
        yield row(f"./oncrpc check {words}", is_answer(got, 2, printed, told, 1), got)


def text_seen(folder):
    """A text of declarations is seen whole, or as so much of it that the program refuses it for its length."""
    tree = Noted(folder, "text_seen", '#!/bin/sh\nwc -c <"$3"\ntail -c 1 "$3"\n')
    for size, seen in ((0, 0), (TEXT, TEXT), (TEXT + 1, TEXT + 1), (CUT, CUT), (CUT + 9, CUT)):
        tree.write("long.x", " " * (size - 1) + "." * (size > 0) if size <= CUT else " " * size)
        got = tree.run("./oncrpc check --types long.x")
        well = got[0] == 0 and got[1].split() == [b"%d" % seen, b"."][: 1 + (0 < size <= CUT)]
        yield row(f"./oncrpc check --types, a text of {size} bytes", well and (seen > TEXT or seen == size), got)
    with open(f"{ROOT}/{HELP}", encoding="utf-8") as it:
        yield row("the greatest text that the program reads", f"at most {TEXT} bytes" in it.read(), TEXT)


def streams_whole(folder):
    """The program's status and both streams are passed on byte by byte; one that takes a part is a write fault."""
    for status in (0, 1, 2, 3, 5):
        tree = Noted(folder, f"status{status}", PRINTING % status)
        got = tree.run("./oncrpc show")
        told = re.escape(SAID)
        yield row(f"./oncrpc show, status {status}", is_answer(got, status, PRINTED, UNPROVED + told, 1), got)
    program = f"#!/bin/sh\nhead -c {MANY} /dev/zero\nhead -c {MANY} /dev/zero >&2\necho >&2\n"
    tree = Noted(folder, "much", program)
    got = tree.run("./oncrpc show")
    well = is_answer(got, 0, b"\0" * MANY, UNPROVED + b"\0{%d}\n" % MANY, 1)
    yield row("./oncrpc show, more than a pipe holds", well, *map(len, got[1:]))
    got = tree.ask("ulimit -f 8; exec ./oncrpc show >part")
    said = got[2].startswith(b"oncrpc: not proved yet: ") and got[2].endswith(b"write fault\n")
    size = os.path.getsize(f"{tree.at}/part")
    yield row("./oncrpc show, a part can be written", got[0] == 3 and said and 0 < size < MANY, size, *got)


def last_line(folder):
    """The toolchain's last line alone says that the program ended, and how; of its lines none is passed on."""
    tree = Noted(folder, "last_line")
    for said, status, wanted, told in ENDS:
        tree.write("said", said)
        tree.write("bin/noted_rt", SAYING % status, 0o755)
        got = tree.run("./oncrpc show")
        faults = re.escape(said.encode()) + NO_ANSWER % told if wanted == 3 else told
        well = is_answer(got, wanted, b"", UNPROVED + faults, 1)
        yield row(f"./oncrpc show, an rt that says {said!r}, {status}", well, got)


def answer_rows(folder):
    for rows in (words_passed, input_read, capture_seen, texts_named, text_seen, streams_whole, last_line):
        yield from rows(folder)
