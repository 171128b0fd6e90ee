"""Rows of 'oncrpc call' over what real servers were asked, as .ci/refuse_use/recorded.py has it: by the installed
declarations, which are named by '--types', or are found by a program that stands beside them."""
import os

from refuse_use.answering import Server, replying
from refuse_use.called import HOST, LONG, NOBODY, XID, call_words, placed_program, run, success, words
from refuse_use.recorded_json import exchanges
from timing import in_time

ROOT = os.path.dirname(os.path.dirname(os.path.dirname(os.path.realpath(__file__))))
# The programs whose declarations are installed, and that of rpcgen's server.
NUMBERS = {"rpcbind": 100000, "nfs": 100003, "mount": 100005, "filed": 536870914}
# EXPORT of version 3 has no arguments. Its recorded result is a list of one folder, without groups (RFC 1813 section
# 5.2.5): 1, the folder's length and name, 0 for no groups, and 0 for no more.
EXPORT, EXPORTED = (100005, 3, 5), words(1, 4) + b"/exp" + words(0, 0)
EXPORTED_JSON = b'{"ex_dir":"/exp","ex_groups":null,"ex_next":null}\n'
EXPORTED_LINES = b'present\n  struct\n    ex_dir: "/exp"\n    ex_groups: absent\n    ex_next: absent\n'


def declarations_of(name):
    """The text that declares a recorded program."""
    return f"{ROOT}/.ci/clients_use/filed.x" if name == "filed" else f"{ROOT}/share/oncrpc/{name}.x"


def sent_of(numbers, arguments):
    """The call of a procedure by its three numbers."""
    return words(XID, 0, 2, *numbers) + NOBODY + NOBODY + arguments


def recorded_rows(program, folder):
    """What was recorded, called again over TCP and UDP: the arguments as JSON spell what was sent, and the results are a
    value to their last byte, which is printed as hexadecimal and as JSON."""
    for (name, version, procedure), arguments, given, results, said in exchanges():
        numbers = NUMBERS[name], version, procedure
        at = ".".join(map(str, numbers))
        more = [at, "--types", declarations_of(name), *(["--arguments", given] if given else [])]
        printed = [(0, f"{it}\n".encode(), b"") for it in (results.hex(), said or "{}")]
        sent = sent_of(numbers, arguments)
        for over in ([], ["--udp"]):
            lines = [[*more, *over, "--hex"], [*more, *over]]
            well, told = in_time(lambda: answered(program, folder, lines, results, printed, sent))
            yield f"{at} {' '.join(over)} as recorded", well, told


def answered(program, folder, lines, results, printed, sent):
    """Whether calls that are answered by these results print this, and each sends this call once."""
    with Server(replying(success(results))) as server:
        got = [run(program, folder, call_words(server.port, it))[0] for it in lines]
    return got == printed and server.calls == [sent] * len(lines), (got, [it.hex() for it in server.calls])


def unnamed_rows(program, folder):
    """EXPORT without '--types', by names and by numbers, of a program that stands beside the installed declarations."""
    by_itself = placed_program(program, folder)
    for name in ("mount.3.EXPORT", "mount.V3.EXPORT", "100005.3.5", "100005.V3.EXPORT"):
        for over in ([], ["--udp"]):
            well, told = in_time(lambda: exported(by_itself, folder, [name, *over]))
            yield f"{' '.join([name, *over])} without --types", well, told


def exported(program, folder, line):
    """Whether EXPORT is sent, each time once, and is printed as JSON, as lines and as hexadecimal."""
    printed = [EXPORTED_JSON, EXPORTED_LINES, EXPORTED.hex().encode() + b"\n"]
    with Server(replying(success(EXPORTED))) as server:
        at = [*LONG, "--port", str(server.port), "--xid", str(XID)]
        asked = [["call", HOST, *line, *how, *at] for how in ([], ["--text"], ["--hex"])]
        got = [run(program, folder, it)[0] for it in asked]
    well = got == [(0, it, b"") for it in printed] and server.calls == [sent_of(EXPORT, b"")] * len(asked)
    return well, (got, [it.hex() for it in server.calls])
