"""Rows of the declarations that are installed: they say of each procedure what the RFCs' texts say, and what real servers
and clients exchanged is a value of what they declare. Of those that no RFC has, values made by hand are shown as the
protocols have them, by these texts and by those of Debian's packages. And rows of the text for systemd, which is read
and never started."""
import os
import shlex
import subprocess
import tempfile

from refuse_use.kept import Kept, is_answered
from refuse_use.local import at_path
from refuse_use.network_files import BESIDE, CONNECTIONS
from refuse_use.recorded import RECORDED, SERVED
from refuse_use.share_values import VALUES
from telling import tell
from timing import LIMIT

ROOT = os.path.dirname(os.path.dirname(os.path.dirname(os.path.realpath(__file__))))
# A text, and those of .ci/declarations that declare the same procedures, as their RFCs have them.
SAME = [
    ("nfs", ["rfc1813_nfs"]),
    ("mount", ["rfc1813_mount"]),
    ("mount", ["rfc1094_mount"]),
    ("rpcbind", ["rfc1833_rpcbind"]),
    ("rpcbind", ["rfc1833_port_mapper"]),
]
NUMBERS = {
    "rpcbind": 100000,
    "nfs": 100003,
    "yp": 100004,
    "mount": 100005,
    "ypbind": 100007,
    "nlm": 100021,
    "nsm": 100024,
    "bootparam": 100026,
}
# A text, one of rpcgen's dialect below /usr/include that declares the same program, what has to stand before that one,
# and what is declared there otherwise than peers send it.
SIZES = "const LM_MAXSTRLEN = 1024; const MAXNAMELEN = 1025;\n"
RPCGENS = [
    ("bootparam", "rpcsvc/bootparam_prot.x", "", ()),
    ("mount", "rpcsvc/mount.x", "", ()),
    ("nlm", "rpcsvc/nlm_prot.x", SIZES, ()),
    ("nsm", "rpcsvc/sm_inter.x", "", ()),
    ("yp", "rpcsvc/yp.x", "", ("100004.2.8.result",)),
    ("ypbind", "rpcsvc/yp.x", "", ()),
]
# What has another name there than here, letters apart.
RENAMED = {
    "nlm": [("lck_", "nlm_"), ('"test_stat":', '"stat":')],
    "nsm": [('"id":{"mon_name"', '"mon_id":{"mon_name"'), ('"id":{"my_name"', '"my_id":{"my_name"')],
}
# What is held for a connection of 'serve' at most (SECURITY.md): of a record, for one to come, of replies behind twice
# the bound of 8192, and of what was read. The longest reply is a list of 1024 rows, with its header of 28 bytes and its
# end: two numbers, a netid of 64 bytes, an address of 256 and an owner of 10 (RFC 1833 section 2.1, RFC 5531 section 9).
LONGEST = 28 + 1024 * (4 + 2 * 4 + (4 + 64) + (4 + 256) + (4 + 12)) + 4
HELD = 65536 + 8192 + 2 * 8192 + LONGEST + 4096
# The same where buffers have grown by doubling, but for the second, whose room it is. All else takes less than the last.
GROWN, ELSE = 2 * HELD - 8192, 16 << 20
PLACES = CONNECTIONS + 16
UNITS = {"K": 1 << 10, "M": 1 << 20, "G": 1 << 30}
# The text for systemd, and where services of libtirpc register themselves, as Debian's rpcbind.socket has it too.
UNIT, SOCKET = "oncrpc-registry.service", "/run/rpcbind.sock"


def unit_lines(path):
    """What a text for systemd says: of each name its values, in their order."""
    said = {}
    with open(path, encoding="utf-8") as it:
        for line in it:
            name, is_said, value = line.rstrip("\n").partition("=")
            if is_said and not line.startswith("#"):
                said.setdefault(name, []).append(value)
    return said


def memory_rows(said):
    """The memory of the unit bounds what all connections hold, and the documents have the same sums."""
    most, unit = said["MemoryMax"][0][:-1], said["MemoryMax"][0][-1]
    well = int(most) * UNITS[unit] >= PLACES * GROWN + ELSE
    yield "memory for all connections", well, (said["MemoryMax"], PLACES * GROWN)
    sums = [
        (f"share/{UNIT}", f"{GROWN:,} bytes, and {PLACES * GROWN:,} of all"),
        ("README.md", f"{PLACES} times {HELD:,} bytes"),
        ("SECURITY.md", f"{HELD:,} with the longest reply"),
    ]
    for name, text in sums:
        with open(f"{ROOT}/{name}", encoding="utf-8") as it:
            yield f"'{text}' in {name}", text in it.read(), None


def unit_rows(program):
    """The registry of the unit has the place of its socket, its files and its port; and what stands where services of
    libtirpc call is a link to that socket."""
    said = unit_lines(f"{ROOT}/share/{UNIT}")
    command, *words = shlex.split(said["ExecStart"][0])
    path = words[words.index("--local") + 1]
    folder, name = os.path.split(path)
    well = (command, words[:3]) == ("oncrpc", ["serve", "--port", "111"]) and said["DynamicUser"] == ["yes"]
    yield "the port of a registry, by a user of its own", well, words
    yield "its socket in a folder of its own", [folder] == [f"/run/{it}" for it in said["RuntimeDirectory"]], said
    links = said["ExecStartPost"], said["ExecStopPost"]
    wanted = [f"+ln -sfT {path} {SOCKET}"], [f"+rm -f {SOCKET}"]
    yield "a link to it where it is looked for", links == wanted, links
    others = [set(it.split()) for it in (said["Conflicts"][0], said["After"][0])]
    yield "rpcbind is stopped before, and starts behind it", others[0] <= others[1] and len(others[0]) == 2, others
    families = set(said["RestrictAddressFamilies"][0].split())
    yield "sockets over IPv4 and of this host", families == {"AF_INET", "AF_UNIX"}, families
    held = said["AmbientCapabilities"], said["CapabilityBoundingSet"]
    yield "no right but that to the port", held == (["CAP_NET_BIND_SERVICE"],) * 2, held
    yield "no further rights", said["NoNewPrivileges"] == ["yes"], said["NoNewPrivileges"]
    yield from memory_rows(said)
    limit = int(said["LimitNOFILE"][0])
    yield "files for all connections", limit >= CONNECTIONS + BESIDE, limit
    with tempfile.TemporaryDirectory() as made:
        own, link = f"{made}/{name}", f"{made}/link"
        as_here = [own if it == path else it for it in words[3:]]
        os.symlink(own, link)
        with Kept(program, *as_here, room=limit) as kept:
            listens = kept.process.stdout.readline() == f"listening on {own}\n".encode()
            with at_path(link) as calling:
                well = listens and is_answered(calling, 1)
            ended = kept.end()
    yield "its words, and a call by the link", well and ended[1:] == (b"", b""), (well, ended)


def lines_of(program, types):
    """The lines of what texts declare, each as its words."""
    asked = [program, "types", *types]
    ended = subprocess.run(asked, capture_output=True, text=True, timeout=LIMIT, check=False)
    return [line.split() for line in ended.stdout.splitlines()]


def declared(program, *types):
    """The procedures that a text declares, and the kind and the counts of bytes of each argument and result."""
    lines = lines_of(program, types)
    named = {line[2]: [] for line in lines if line[0] == "procedure"}
    return {**named, **{line[1]: line[3:] for line in lines if line[0] in ("argument", "result")}}


def constants(program, name, *types):
    """The constants and the members of enumerations of a text, as their names are there that is compared with."""
    lines = [line for line in lines_of(program, types) if line[0] == "const"]
    return {as_theirs(name, line[1]): line[2] for line in lines}


def as_theirs(name, said):
    """What is said by a text's names, by those of the other text in small letters."""
    said = said.lower()
    for ours, theirs in RENAMED.get(name, ()):
        said = said.replace(ours, theirs)
    return said


def shown(program, at, content, *types):
    """The JSON of a value, or what came in its place."""
    asked = [program, "show", "--json", "--name", at, *types]
    ended = subprocess.run(asked, input=content, capture_output=True, timeout=LIMIT, check=False)
    well = (ended.returncode, ended.stderr, ended.stdout[-1:]) == (0, b"", b"\n")
    return ended.stdout.decode()[:-1] if well else str(ended)


def value_rows(program):
    """Values made by hand: one at least of each argument and result, and each is shown with its fields in their order."""
    for name, values in VALUES.items():
        path = f"{ROOT}/share/oncrpc/{name}.x"
        numbered = [(f"{NUMBERS[name]}.{at}", *of_it) for at, of_it in values]
        found = {at for at, kind in declared(program, "--types", path).items() if kind}
        other = found ^ {at for at, *_ in numbered}
        told = [(at, shown(program, at, content, "--types", path), said) for at, content, said in numbered]
        bad = [it for it in told if it[1] != it[2]]
        well = not other and not bad
        yield tell(f"share/oncrpc/{name}.x, {len(told)} values made by hand", well, (other, bad[:3]), "as they are shown")


def rpcgens_rows(program):
    """Texts that no RFC has, beside those of Debian's packages, where these are installed."""
    with tempfile.TemporaryDirectory() as folder:
        for name, path, before, others in RPCGENS:
            if not os.path.exists(f"/usr/include/{path}"):
                print(f"share/oncrpc/{name}.x beside {path}: skipped, that is not installed")
                continue
            with open(f"{folder}/before.x", "w", encoding="ascii") as it:
                it.write(before)
            theirs = ["--dialect", "rpcgen", "--types", f"{folder}/before.x", "--types", f"/usr/include/{path}"]
            yield from beside(program, name, path, theirs, others)


def beside(program, name, path, theirs, others):
    """The procedures, the constants and the values of a text beside those of another, which is named by words."""
    ours = f"{ROOT}/share/oncrpc/{name}.x"
    found, said = declared(program, "--types", ours), declared(program, *theirs)
    wanted = {it: said[it] for it in said if it.startswith(f"{NUMBERS[name]}.") and it not in others}
    other = {it: (found.get(it), wanted[it]) for it in wanted if found.get(it) != wanted[it]}
    well = len(wanted) > 5 and not other
    yield tell(f"share/oncrpc/{name}.x beside {path}, {len(wanted)} lines", well, other, "all the same")
    numbers, mine = constants(program, name, *theirs), constants(program, name, "--types", ours)
    both = numbers.keys() & mine.keys()
    other = {it: (mine[it], numbers[it]) for it in both if mine[it] != numbers[it]}
    well = len(both) >= 3 and not other
    yield tell(f"share/oncrpc/{name}.x beside {path}, {len(both)} constants", well, other, "all the same")
    asked = [(f"{NUMBERS[name]}.{at}", *of_it) for at, of_it in VALUES.get(name, ())]
    asked = [it for it in asked if it[0] in wanted]
    told = [(at, as_theirs(name, text), shown(program, at, content, *theirs)) for at, content, text in asked]
    bad = [it for it in told if it[1] != it[2].lower()]
    well = (told or name not in VALUES) and not bad
    yield tell(f"share/oncrpc/{name}.x beside {path}, {len(told)} values", well, bad[:3], "shown alike")


def share_rows(program):
    """Each text beside the RFC's, and each recorded argument and result as a value to its last byte."""
    for name, is_well, told in unit_rows(program):
        yield tell(f"share/{UNIT}, {name}", is_well, told)
    yield from rpcgens_rows(program)
    yield from value_rows(program)
    for name, number in NUMBERS.items():
        found = declared(program, "--types", f"{ROOT}/share/oncrpc/{name}.x")
        well = f"{number}." in " ".join(found) and all(it.startswith(f"{number}.") for it in found)
        yield tell(f"share/oncrpc/{name}.x", well, found)
    for name, texts in SAME:
        found = declared(program, "--types", f"{ROOT}/share/oncrpc/{name}.x")
        wanted = {}
        for it in texts:
            wanted.update(declared(program, "--types", f"{ROOT}/.ci/declarations/{it}.x"))
        other = {it: (found.get(it), wanted[it]) for it in wanted if found.get(it) != wanted[it]}
        well = len(wanted) > 5 and not other
        yield tell(f"share/oncrpc/{name}.x beside {texts[0]}, {len(wanted)} lines", well, other, "all the same")
    for (name, version, procedure), arguments, results in RECORDED + SERVED:
        for part, digits in (("1", arguments), ("result", results)):
            if digits:
                at = f"{NUMBERS[name]}.{version}.{procedure}.{part}"
                words = ["check", "--hex", "--types", f"{ROOT}/share/oncrpc/{name}.x", "--name", at]
                how = {"input": digits.encode(), "capture_output": True, "timeout": LIMIT, "check": False}
                said = subprocess.run([program, *words], **how).stdout
                well = said == b"ok %d\n" % (len(digits) // 2)
                yield tell(f"{at} as recorded", well, said)
