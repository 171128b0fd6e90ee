"""The registry of 'oncrpc serve' beside Debian's rpcbind, over connections and by datagrams."""
import os
import shutil
import subprocess
import sys

from .common import CALLS_OF_OURS, OURS, ROOT, instructions
from .many import many
from .registries import CUT, FULL, HELD, NULL, NULL_REPLY, PORTS
from .registries import connect_once, ended, load, resident, side_by_side, started

# What one client asks over a connection: the work, how many rows are there then, and how many calls of each registry.
WORKS = [
    ("null", 16, {"ours": 400000, "rpcbind": 50000}),
    ("setunset", 16, {"ours": 100000, "rpcbind": 40000}),
    ("setunset", 1012, {"ours": 50000, "rpcbind": 20000}),
    ("dump", 1012, {"ours": 2000, "rpcbind": 1000}),
    ("getaddr", FULL, {"ours": 400000, "rpcbind": 20000}),
    ("getother", FULL, {"ours": 100000, "rpcbind": 20000}),
]


def needs():
    """What is missing to measure beside rpcbind, if anything is."""
    os.environ["PATH"] += ":/usr/sbin:/sbin"
    for tool in ("unshare", "ip", "mount", "ps", "rpcbind"):
        if not shutil.which(tool):
            return f"{tool} is not there"
    if os.geteuid() != 0 or subprocess.run(["unshare", "-n", "-m", "true"], capture_output=True).returncode:
        return "no network of its own can be made"
    return None


def serve(base, folder):
    """The served registry: instructions of a call, calls a second beside rpcbind, and hostile connections."""
    if os.path.exists(CALLS_OF_OURS):
        for work, rows in (("null", FULL), ("getaddr", FULL), ("dump", FULL)):
            many, few = (
                instructions([CALLS_OF_OURS, "served", work, str(rows), str(reads)], os.devnull) for reads in (320, 64)
            )
            print(
                f"serve, {work} from memory, {rows} rows: {(many - few) / 256 / 32:.0f} instructions a call", flush=True
            )
    missing = needs()
    if missing:
        print(f"serve, beside rpcbind: {missing}")
        return
    inside = 'ip link set lo up && mount -t tmpfs none /run && mkdir -p /run/rpcbind && exec "$@"'
    own = ["unshare", "-n", "-m", "--propagation", "private", "sh", "-c", inside, "own"]
    subprocess.run([*own, sys.executable, f"{ROOT}/bench/run", "inside", base], check=True)


def by_datagrams(base):
    """Datagrams a second of both registries at the greatest count of rows: ours serves them after its connections."""
    count = {"ours": 400000, "rpcbind": 40000}
    # One connection is that which finds it listening, the other one fills it.
    words = [OURS, "serve", "--port", str(PORTS["ours"]), "--count", "2", "--datagrams", str(2 * 3 * count["ours"])]
    both = [started(words, PORTS["ours"]), started(["rpcbind", "-f", "-i"], PORTS["rpcbind"])]
    for name in PORTS:
        load(base, name, "fill-udp", HELD, 0)
    for work in ("null", "getaddr"):
        best = {name: 0.0 for name in PORTS}
        for _ in range(3):
            for name in PORTS:
                best[name] = max(best[name], load(base, name, f"udp-{work}", count[name], HELD, 64))
        print(
            f"serve, {work} by datagram, {HELD} rows of the load's: {best['ours']:,.0f} calls a second beside"
            f" {best['rpcbind']:,.0f}: {best['ours'] / best['rpcbind']:.1f} times as many",
            flush=True,
        )
    ended(both)


def hostile_connections(count=10000):
    """Connections one after another, each third of them cut or hostile: lines, replies, and the resident size."""
    sizes, wanted, wrong = {}, [], 0
    process = subprocess.Popen(
        [OURS, "serve", "--port", "1112", "--count", str(count)], stdout=subprocess.PIPE, text=True
    )
    lines = [process.stdout.readline()]
    for number in range(1, count + 1):
        given, told = (NULL, "1 records, 1 replies") if number % 3 else CUT[number // 3 % len(CUT)]
        got = connect_once(1112, given)
        wrong += got != (NULL_REPLY if number % 3 else b"")
        wanted.append(f"connection {number}: {told}\n")
        if number in (100, count - 1):
            sizes[number] = resident(process)
        lines.append(process.stdout.readline())
    process.wait()
    others = sum(a != b for a, b in zip(lines[1:], wanted))
    print(
        f"serve, {count:,} connections, a third of them cut or hostile: {wrong} with another reply,"
        f" {others} with another line,"
        f" status {process.returncode}; resident after 100 {sizes[100]} KiB, at the end {sizes[count - 1]} KiB",
        flush=True,
    )


def inside(base):
    """The part of `serve` that runs in a network of its own."""
    ours = started([OURS, "serve", "--port", str(PORTS["ours"]), "--count", "1000000"], PORTS["ours"])
    theirs = started(["rpcbind", "-f", "-i"], PORTS["rpcbind"])
    side_by_side(base, "serve", WORKS)
    ended([ours, theirs])
    by_datagrams(base)
    hostile_connections()
    many(base)
