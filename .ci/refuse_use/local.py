"""Rows of 'oncrpc serve --local PATH': who can call at the Unix socket, what is answered there, and what becomes of a
file that stands at PATH.

Expected bytes are those of RFC 5531 section 9 and of RFC 1833 section 2.2.1. The netid of a local socket is 'local', as
/etc/netconfig of libtirpc has it.
"""
import contextlib
import os
import resource
import select
import shutil
import signal
import socket
import stat
import struct
import subprocess
import sys
import tempfile
import time

sys.dont_write_bytecode = True
sys.path.insert(0, os.path.dirname(os.path.dirname(os.path.realpath(__file__))))

from refuse_use.kept import BEHIND, HOST, Kept, call, first_growth, is_answered, marked, read, replied
from refuse_use.ports import over_udp_alone
from telling import tell
from timing import WAIT

NOBODY = 65534
# A user's call is that of AUTH_SYS: its uid, and nothing else.
AS_7 = (1, 20, 0, 0, 7, 0, 0)


def text(content):
    """A string: its length, its bytes, and zeros."""
    return struct.pack(">I", len(content)) + content + bytes(-len(content) % 4)


def rpcb(procedure, *row, cred=(0, 0)):
    """A call of version 4 with xid 7: program, version, netid, address and owner."""
    prog, vers, *texts = row
    words = (7, 0, 2, 100000, 4, procedure, *cred, 0, 0, prog, vers)
    return struct.pack(f">{len(words)}I", *words) + b"".join(map(text, texts))


def reply(results):
    return marked(struct.pack(">6I", 7, 1, 0, 0, 0, 0) + results)


TRUE = reply(struct.pack(">I", 1))
SET = rpcb(1, 70000, 1, b"local", b"/run/asked", b"7", cred=AS_7)
GETADDR_OWN, GETADDR = rpcb(3, 100000, 4, b"", b"", b""), rpcb(3, 70000, 1, b"", b"", b"")


def at_path(path):
    """A client of the socket at a path."""
    made = socket.socket(socket.AF_UNIX)
    made.settimeout(WAIT)
    made.connect(path)
    return made


def says(made, message, wanted):
    """Whether a call over a connection gets this reply."""
    made.sendall(marked(message))
    return read(made, len(wanted)) == wanted


def second_line(kept):
    return kept.process.stdout.readline()


def is_its_own(path):
    """Whether a socket of this user stands at a path that nobody else can call, and nothing else beside it."""
    told = os.lstat(path)
    well = stat.S_ISSOCK(told.st_mode) and stat.S_IMODE(told.st_mode) == 0o600 and told.st_uid == os.geteuid()
    return well and os.listdir(os.path.dirname(path)) == [os.path.basename(path)]


def as_another(path):
    """What another user gets who connects: the name of the fault. It is the superuser who can ask."""
    child = os.fork()
    if child == 0:
        os.setgroups([])
        os.setgid(NOBODY)
        os.setuid(NOBODY)
        try:
            at_path(path)
        except PermissionError:
            os._exit(7)
        os._exit(0)
    return os.waitstatus_to_exitcode(os.waitpid(child, 0)[1])


def served(program, folder):
    """Whom the socket serves, and with what."""
    path = f"{folder}/socket"
    os.umask(0)
    with Kept(program, "--verbose", "--local", path) as kept:
        said = second_line(kept)
        yield "the second line", said == f"listening on {path}\n".encode(), said
        yield "mode 0600 whatever the umask, and no other file", is_its_own(path), os.listdir(folder)
        with at_path(path) as made, kept.client() as other:
            yield "NULL", is_answered(made, 3), None
            well = says(made, GETADDR_OWN, reply(text(path.encode())))
            yield "the registry's own row over local", well, None
            yield "SET", says(made, SET, TRUE), None
            yield "and again", says(made, SET, TRUE), None
            yield "GETADDR is over the caller's transport", says(made, GETADDR, reply(text(b"/run/asked"))), None
            yield "and not over another", says(other, GETADDR, reply(text(b""))), None
            made.shutdown(socket.SHUT_WR)
            read(made, 1)
        said = kept.lines(1)
        yield "the line of its connection", said == b"connection 1 from local: 5 records, 5 replies\n", said
        rows = subprocess.run([program, "info", HOST, str(kept.port)], check=False, capture_output=True, text=True)
        wanted = [f"100000 {vers} local {path} superuser" for vers in (3, 4)] + ["70000 1 local /run/asked 7"]
        yield "its rows", rows.stdout.splitlines()[-3:] == wanted, rows
        if os.geteuid() == 0:
            os.chmod(folder, 0o755)
            said = as_another(path)
            yield "another user cannot connect", said == 7, said


def answered_first(clients, count):
    """Those of the clients, each of which has called by its number, that are answered: so many, and some more where more
    are answered soon behind them."""
    first, until = [], time.monotonic() + WAIT
    while time.monotonic() < until:
        waiting = [made for made in clients if made not in first]
        ready = select.select(waiting, [], [], 1)[0]
        if not ready and len(first) >= count:
            break
        first += [made for made in ready if read(made, 28) == marked(replied(clients.index(made)))]
    return first


def places(program, folder):
    """Connections over TCP and those at the socket take no place of the others."""
    path = f"{folder}/socket"
    with Kept(program, "--connections", "1", "--local", path) as kept, contextlib.ExitStack() as opened:
        second_line(kept)
        silent, other = (opened.enter_context(kept.client()) for _ in range(2))
        said = is_answered(silent, 1), is_answered(other, 2, 0.5)
        with at_path(path) as made:
            well = said == (True, False) and says(made, SET, TRUE)
        yield "SET beside a silent client that has the one place over TCP", well, said
        clients = [opened.enter_context(at_path(path)) for _ in range(24)]
        for number, made in enumerate(clients):
            made.sendall(marked(call(number)))
        first = answered_first(clients, 16)
        yield "16 places at the socket", len(first) == 16, len(first)
        silent.close()
        said = read(other, 28)
        yield "beside them the next client over TCP", said == marked(replied(2)), said
        for made in first:
            made.close()
        later = [read(made, 28) == marked(replied(number)) for number, made in enumerate(clients) if made not in first]
        yield "and the others at the socket once these have gone", len(later) == 8 and all(later), later


def refused(program, path, port=0, **more):
    """What a program says that is asked for a socket at a path."""
    words = [program, "serve", "--port", str(port), "--local", path]
    try:
        ran = subprocess.run(words, check=False, capture_output=True, timeout=WAIT, **more)
    except subprocess.TimeoutExpired as it:
        return it.stdout
    return ran.returncode, ran.stdout, ran.stderr


def fault(path, why):
    return 3, b"", f"socket fault: {path}: {why}\n".encode()


def in_the_way(program, folder):
    """What stands at the path: a socket that is served, one that is not any more, a file, a link, a folder."""
    path = f"{folder}/socket"
    with Kept(program, "--local", path) as kept:
        second_line(kept)
        said = refused(program, path)
        with at_path(path) as made:
            well = said == fault(path, "address in use") and is_answered(made, 1)
            yield "a socket that is served stays", well, said
        kept.end(signal.SIGKILL)
    left = os.path.exists(path)
    with Kept(program, "--local", path) as kept:
        second_line(kept)
        with at_path(path) as made:
            yield "one that nobody answers at is replaced", left and is_answered(made, 1) and is_its_own(path), left
    os.remove(path)
    with open(path, "wb") as it:
        it.write(b"mine")
    said = refused(program, path)
    with open(path, "rb") as it:
        yield "a file stays", said == fault(path, "file exists") and it.read() == b"mine", said
    os.remove(path)
    os.symlink("elsewhere", path)
    said = refused(program, path)
    yield "a link stays", said == fault(path, "file exists") and os.readlink(path) == "elsewhere", said
    os.remove(path)
    os.mkdir(path)
    said = refused(program, path)
    yield "a folder stays", said == fault(path, "file exists") and os.listdir(folder) == ["socket"], said
    os.rmdir(path)
    longest = f"{folder}/".ljust(98, "a")
    wrongs = [
        ("no folder", f"{folder}/none/socket", "no such file"),
        ("99 bytes", f"{longest}a", "name too long"),
        ("empty", "", "no such file"),
        ("below a device", "/dev/null/socket", "not a directory"),
    ]
    for name, wrong, why in wrongs:
        said = refused(program, wrong)
        yield name, said == fault(wrong, why) and os.listdir(folder) == [], (said, os.listdir(folder))
    said = refused(program, path, preexec_fn=lambda: resource.setrlimit(resource.RLIMIT_NOFILE, (6, 6)))
    yield "no descriptor", said == fault(path, "error 24") and os.listdir(folder) == [], (said, os.listdir(folder))
    with Kept(program, "--local", longest) as kept:
        second_line(kept)
        with at_path(longest) as made:
            yield "98 bytes", is_answered(made, 1), os.listdir(folder)
    os.remove(longest)
    os.mkdir(f"{path}.0")
    with Kept(program, "--local", path) as kept:
        second_line(kept)
        with at_path(path) as made:
            well = is_answered(made, 1) and sorted(os.listdir(folder)) == ["socket", "socket.0"]
            yield "a folder of the first name that is tried", well, os.listdir(folder)


def unmade(program, heap, folder):
    """Where another socket or random bytes cannot be had, no file is made at the path."""
    with socket.create_server((HOST, 0)) as taken, over_udp_alone(HOST) as over_udp:
        for over, held in (("tcp", taken), ("udp", over_udp)):
            port = held.getsockname()[1]
            said = refused(program, f"{folder}/socket", port)
            wanted = 3, b"", f"socket fault: {HOST} {port} over {over}: address in use\n".encode()
            yield f"a port that is taken over {over} beside it", said == wanted and os.listdir(folder) == [], said
    if heap:
        said = refused(program, f"{folder}/socket", env={**os.environ, "LD_PRELOAD": heap, "REFUSE_RANDOM": "1"})
        well = said[:2] == (3, b"") and said[2].startswith(b"socket fault: random bytes: ") and os.listdir(folder) == []
        yield "no random bytes beside it", well, said


def forbidden(program, folder):
    """A folder that the user may not enter; it is the superuser who can ask."""
    if os.geteuid() == 0:
        path, mine = f"{folder}/mine/socket", f"{folder}/oncrpc"
        os.mkdir(os.path.dirname(path), 0o700)
        shutil.copy(program, mine)
        os.chmod(mine, 0o755)
        os.chmod(folder, 0o755)
        said = refused(mine, path, user=NOBODY, group=NOBODY, extra_groups=[])
        yield "a folder of another user", said == fault(path, "permission denied"), said


def growths(program, heap, folder):
    """With each growth refused it ends before it listens and leaves nothing, or it answers."""
    path, wrong, listened = f"{folder}/socket", [], 0
    for number in range(1, first_growth(program, heap, "--local", path) + BEHIND):
        with Kept(program, "--local", path, LD_PRELOAD=heap, REFUSE_GROWTH=str(number)) as kept:
            second = second_line(kept) if kept.port else b""
            if not second:
                said = kept.process.wait(WAIT), kept.process.stderr.read()
                if said != (4, b"out of memory\n"):
                    wrong.append((number, said))
                continue
            listened += 1
            with at_path(path) as first, at_path(path) as made:
                if not is_answered(first, 1) and not is_answered(made, 2):
                    wrong.append((number, "no answer"))
        kept.process.wait()
        if [it for it in os.listdir(folder) if it != "socket"]:
            wrong.append((number, os.listdir(folder)))
    is_well = not wrong and listened >= BEHIND // 2
    yield f"each growth refused, {listened} times behind the lines", is_well, wrong[:3]


def local_rows(program, heap):
    """The rows, each whether it is as it should be."""
    some = [served, places, in_the_way, lambda it, folder: unmade(it, heap, folder), forbidden]
    for rows in [*some, lambda it, folder: growths(it, heap, folder)] if heap else some:
        umask = os.umask(0o022)
        with tempfile.TemporaryDirectory() as folder:
            for name, is_well, told in rows(program, folder):
                yield tell(f"oncrpc serve --local, {name}", is_well, told)
        os.umask(umask)
