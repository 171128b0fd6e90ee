"""Rows of 'oncrpc call' and 'oncrpc ping' on a registry, Debian's rpcbind or 'oncrpc serve', beside what rpcinfo prints
of it."""
import re

from clients_use.asking import HOST, SIX, Caller, ask, has_answered, rows_of, told
from telling import tell


def port_rows(program, root, whose, over):
    """GETPORT by names: of each row of the registry the port of rpcinfo."""
    call = Caller(program, f"{root}/share/oncrpc/rpcbind.x", *over)
    for prog, vers, prot, port, *_ in rows_of(["rpcinfo", "-p", HOST]):
        asked = {"prog": int(prog), "vers": int(vers), "prot": {"tcp": 6, "udp": 17}[prot], "port": 0}
        got = call.ask("rpcbind.V2.GETPORT", given=asked)
        yield told(f"oncrpc call {whose} {asked} {' '.join(over)}", got, (0, f"{port}\n", ""), "rpcinfo")


def address_rows(program, root, whose, over):
    """GETADDR of versions 3 and 4 by numbers: of each row over this transport the address of rpcinfo, but that of this
    host where it is any; and of a program that has no row none."""
    call = Caller(program, f"{root}/share/oncrpc/rpcbind.x", *over)
    netid = "udp" if over else "tcp"
    rows = [(prog, vers, at) for prog, vers, on, at, *_ in rows_of(["rpcinfo", HOST]) if on == netid]
    for prog, vers, at in [*rows, ("300000", "1", "")]:
        asked = {"r_prog": int(prog), "r_vers": int(vers), "r_netid": netid, "r_addr": "", "r_owner": ""}
        wanted = re.sub(r"^0\.0\.0\.0\.", f"{HOST}.", at)
        for version in ("3", "4"):
            got = call.ask(f"100000.{version}.3", given=asked)
            name = f"oncrpc call {whose} 100000.{version}.3 of {prog} {vers} {' '.join(over)}"
            yield told(name, (got, len(rows) > 2), ((0, f'"{wanted}"\n', ""), True), "rpcinfo")


def dump_rows(program, root, whose, over):
    """DUMP of version 4: the rows of rpcinfo, in their order."""
    call = Caller(program, f"{root}/share/oncrpc/rpcbind.x", *over)
    entry, found = call.result("rpcbind.4.DUMP"), []
    while isinstance(entry, dict):
        row = entry["rpcb_map"]
        found.append([str(row["r_prog"]), str(row["r_vers"]), row["r_netid"], row["r_addr"], row["r_owner"]])
        entry = entry["rpcb_next"]
    wanted = [[prog, vers, netid, at, owner] for prog, vers, netid, at, _, owner in rows_of(["rpcinfo", HOST])]
    yield told(f"oncrpc call {whose} DUMP {' '.join(over)}", (entry, found), (None, wanted), "rpcinfo")


def refused_rows(program, root, whose, over):
    """What the registry refuses has the line of the reason, status 1, and prints nothing."""
    call = Caller(program, f"{root}/share/oncrpc/rpcbind.x", "--port", "111", *over)
    ended = ask(["rpcinfo", "-T", "udp" if over else "tcp", HOST, "100000", "7"])
    named = re.search(r"low version = (\d+), high version = (\d+)", ended[2])
    wanted = (1, "", f"refused PROG_MISMATCH {named[1]} {named[2]}\n") if named else ended
    got = ask([program, "ping", HOST, "100000.7", *over])
    yield told(f"oncrpc ping {whose} 100000.7 {' '.join(over)}", got, wanted, "rpcinfo")
    got = call.ask("rpcbind.V2.GETPORT", "--hex", given={"prog": 300000, "vers": 1, "prot": 6, "port": 0})
    wanted = (0, "00000000\n", "")
    yield told(f"oncrpc call {whose} of a row that is not there {' '.join(over)}", got, wanted, "RFC 1833")
    got = Caller(program, f"{root}/.ci/clients_use/none.x", *over).ask("rpcbind.V2.NULL")
    yield told(f"oncrpc call {whose}, a text that is not there", got, (3, "", "read fault\n"), "the manual")


def pinged_rows(program, whose, over):
    """Each version of the registry that rpcinfo finds ready is answered, and so is its program without a version."""
    said = ask(["rpcinfo", "-T", "udp" if over else "tcp", HOST, "100000"])[1]
    ready = re.findall(r"program 100000 version (\d) ready", said)
    for version in ready:
        got = ask([program, "ping", HOST, f"100000.{version}", *over])
        name = f"oncrpc ping {whose} 100000.{version} {' '.join(over)}"
        yield has_answered(name, got, f"100000 {version} answered in ")
    line = f"100000 {ready[0]} to {ready[-1]} answered in " if ready else "rpcinfo finds none"
    got = ask([program, "ping", HOST, "100000", *over])
    yield has_answered(f"oncrpc ping {whose} 100000 {' '.join(over)}", got, line)
    got = ask([program, "ping", HOST, "100000.2", "--count", "2", *over])
    well = got[0] == 0 and len(got[1].splitlines()) == 2
    yield tell(f"oncrpc ping {whose} --count 2 {' '.join(over)}", well, got, "two lines")


def registry_rows(program, root, whose):
    """The rows, over TCP and over UDP."""
    for over in ([], ["--udp"]):
        for rows in (port_rows, address_rows, dump_rows, refused_rows):
            yield from rows(program, root, whose, over)
        yield from pinged_rows(program, whose, over)


def six_rows(program, root):
    """A registry that is asked over IPv6 tells the port of each of its versions that rpcinfo finds ready there."""
    for over, netid in (([], "tcp6"), (["--udp"], "udp6")):
        for version in ("3", "4"):
            ended = ask(["rpcinfo", "-T", netid, SIX, "100000", version])
            if "ready" not in ended[1]:
                print(f"the rows of rpcbind's version {version} over {netid} are skipped: {ended}")
                continue
            got = ask([program, "ping", SIX, f"100000.{version}", *over])
            name = f"oncrpc ping {SIX} 100000.{version} {' '.join(over)}"
            yield has_answered(name, got, f"100000 {version} answered in ")
            declared = ["--types", f"{root}/share/oncrpc/rpcbind.x"]
            got = ask([program, "call", SIX, f"rpcbind.V{version}.NULL", *declared, *over])
            yield told(f"oncrpc call {SIX} rpcbind.V{version}.NULL {' '.join(over)}", got, (0, "{}\n", ""), "RFC 1833")
