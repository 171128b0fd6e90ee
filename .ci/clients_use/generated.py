"""Rows of 'oncrpc call' on a server that rpcgen makes of filed.x, whose file is that of RFC 4506 section 7, beside what
a client says that rpcgen makes of it, too."""
import shutil
import subprocess

from clients_use.asking import HOST, Caller, ask, has_answered, rows_of, told
from timing import wait_until

GIVEN = {
    "filename": "sillyprog",
    "type": {"case": "EXEC", "interpretor": "lisp"},
    "owner": "john",
    "data": b"(quit)".hex(),
}
# What rpcgen is asked for, and where it goes.
MADE = [("-h", "filed.h"), ("-c", "filed_xdr.c"), ("-l", "filed_clnt.c"), ("-s tcp -s udp", "filed_svc.c")]
PROGRAMS = {
    "filed": ["filed_svc.c", "filed_server.c", "filed_xdr.c"],
    "filed_asking": ["filed_client.c", "filed_clnt.c", "filed_xdr.c"],
}


def missing():
    """What the rows want and is not here, if anything is."""
    return next((f"{tool} is not there" for tool in ("rpcgen", "cpp", "cc") if not shutil.which(tool)), None)


def build(root, folder):
    """The server and the client, in a folder."""
    for name in ("filed.x", "filed_server.c", "filed_client.c"):
        shutil.copy(f"{root}/.ci/clients_use/{name}", folder)
    for how, name in MADE:
        subprocess.run(["rpcgen", *how.split(), "-o", name, "filed.x"], cwd=folder, check=True)
    for name, sources in PROGRAMS.items():
        words = ["cc", "-O2", "-w", "-I/usr/include/tirpc", *sources, "-o", name, "-ltirpc"]
        subprocess.run(words, cwd=folder, check=True)


def asked_rows(program, folder, over):
    """OWN and SIZE, with the port that the registry has and with the port itself."""
    call = Caller(program, f"{folder}/filed.x", *over)
    netid = "udp" if over else "tcp"
    theirs = ask([f"{folder}/filed_asking", netid])[1].splitlines(keepends=True)
    port = next(row[3] for row in rows_of(["rpcinfo", "-p", HOST]) if row[:3] == ["536870914", "1", netid])
    for more in ([], ["--port", port]):
        got = [call.ask(f"FILED.FIRST.{name}", *more, given=GIVEN) for name in ("OWN", "SIZE")]
        wanted = [(0, line, "") for line in theirs]
        yield told(f"oncrpc call rpcgen's server {' '.join([*more, *over])}", got, wanted, "rpcgen's client")
    lines = call.ask("FILED.1.OWN", "--text", given=GIVEN)[1].splitlines()
    wanted = ["struct", '  filename: "sillyprog"', '  owner: "rpcgen"', "  data: 0x287175697429"]
    yield told(f"its lines {' '.join(over)}", [line for line in lines if line in wanted], wanted, "RFC 4506")
    got = ask([program, "ping", HOST, "FILED.FIRST", "--types", f"{folder}/filed.x", *over])
    yield has_answered(f"oncrpc ping rpcgen's server {' '.join(over)}", got, "536870914 1 answered in ")
    got = ask([program, "ping", HOST, "536870914.2", "--port", port, *over])
    yield told(f"oncrpc ping of version 2 {' '.join(over)}", got, (1, "", "refused PROG_MISMATCH 1 1\n"), "RFC 5531")
    other = f"{folder}/other.x"
    with open(other, "w", encoding="ascii") as it:
        it.write("program FILED { version ONE { int OWN(int) = 1; void NO(void) = 9; } = 1; } = 536870914;\n")
    others = Caller(program, other, "--port", port, *over)
    got = others.ask("FILED.1.OWN", given=7)
    yield told(f"arguments of another declaration {' '.join(over)}", got, (1, "", "refused GARBAGE_ARGS\n"), "RFC 5531")
    got = others.ask("FILED.1.NO")
    wanted = (1, "", "refused PROC_UNAVAIL\n")
    yield told(f"a procedure that it does not have {' '.join(over)}", got, wanted, "RFC 5531")


def is_registered():
    """Whether the server is there over TCP and over UDP: it registers itself once for each."""
    return {row[2] for row in rows_of(["rpcinfo", "-p", HOST]) if row[0] == "536870914"} >= {"tcp", "udp"}


def generated_rows(program, root, folder):
    """The rows, over TCP and over UDP."""
    build(root, folder)
    with subprocess.Popen([f"{folder}/filed"]) as server:
        try:
            wait_until(is_registered)
            for over in ([], ["--udp"]):
                yield from asked_rows(program, folder, over)
        finally:
            server.kill()
