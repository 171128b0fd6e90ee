"""The example that serves files, beside what rpcgen makes of its declarations, on libtirpc: each is asked by the
other's client."""
import os
import re
import shutil
import socket
import subprocess

from timing import WAIT

from .running import ROOT, compiled, passed, run

# What rpcgen makes, by its words, and each program of ours that is built with it.
MADE = [("-h", "nfs.h"), ("-c", "nfs_xdr.c"), ("-l", "nfs_clnt.c"), ("-m", "nfs_svc.c")]
BUILT = [("client", "nfs_clnt.c"), ("server", "nfs_svc.c")]


def declarations():
    """The text of the example, as rpcgen reads it."""
    with open(f"{ROOT}/examples/nfsd.c", encoding="utf-8") as it:
        text = re.search(r"^static const char text\[\] =\n(.*?);\n\n", it.read(), re.M | re.S)[1]
    return "\n".join(re.findall(r'^ *"(.*)"$', text, re.M)) + "\n"


def built(room):
    """Has rpcgen make its code, and builds both programs. Says why that failed, if it did."""
    with open(f"{room}/nfs.x", "w", encoding="utf-8") as it:
        it.write(declarations())
    said = "".join(run(["rpcgen", "-C", word, "-o", made, "nfs.x"], cwd=room).stderr for word, made in MADE)
    flags = run(["pkg-config", "--cflags", "--libs", "libtirpc"]).stdout.split()
    for name, made in BUILT:
        # (of rpcgen's server its main function is left aside, which would register with rpcbind)
        words = ["cc", "-std=gnu11", "-O2", "-w", f"-I{room}", "-Dmain=main_of_rpcgen", *flags, "-c", made, "-o", f"{name}.o"]
        said += run(words, cwd=room).stderr
        sources = [f"{ROOT}/.ci/peers/{name}.c", f"{name}.o", "nfs_xdr.c"]
        words = ["cc", "-std=gnu11", "-O2", "-w", f"-I{room}", *sources, *flags, "-o", name]
        said += run(words, cwd=room).stderr
    return said


def asked_by_libtirpc(room):
    """What libtirpc's client prints of the example's server, and both statuses."""
    with socket.create_server(("127.0.0.1", 0)) as listening:
        words = [f"{room}/client", str(listening.getsockname()[1])]
        with subprocess.Popen(words, stdout=subprocess.PIPE, text=True) as client:
            listening.settimeout(WAIT)
            here, _ = listening.accept()
            with here, subprocess.Popen([f"{room}/nfsd", "serve"], stdin=here) as server:
                here.close()
                said = client.communicate(timeout=WAIT)[0]
                return said, client.returncode, server.wait(WAIT)


def asks_libtirpc(room):
    """What the example's client prints of libtirpc's server, and both statuses."""
    with socket.create_server(("127.0.0.1", 0)) as listening:
        there = socket.create_connection(listening.getsockname(), WAIT)
        here, _ = listening.accept()
        here.settimeout(None)
        there.settimeout(None)
        with here, there, subprocess.Popen([f"{room}/server"], stdin=here) as server:
            here.close()
            ran = run([f"{room}/nfsd", "ask"], stdin=there)
            there.close()
            return ran.stdout, ran.returncode, server.wait(WAIT)


def peers(library, room, wanted):
    """Both ways, where rpcgen and libtirpc are there."""
    there = shutil.which("rpcgen") and run(["pkg-config", "--exists", "libtirpc"]).returncode == 0
    if not there:
        print("rpcgen or libtirpc is not there: nfsd.c beside them is skipped")
        return
    room = f"{room}/peers"
    os.mkdir(room)
    said = compiled(library, f"{ROOT}/examples/nfsd.c", f"{room}/nfsd") or built(room)
    for name, way in (("nfsd.c asked by libtirpc", asked_by_libtirpc), ("nfsd.c asks libtirpc", asks_libtirpc)):
        got = way(room) if not said else None
        yield passed(name, got == (wanted, 0, 0), said or got)
