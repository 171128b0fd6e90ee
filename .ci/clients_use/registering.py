"""Rows of what registers itself over the local socket of a registry: rpcinfo without a host beside rpcbind's answer, and
libtirpc's rpcb_set and rpcb_unset. The servers of 'generated' and 'ganesha' register themselves in the same way."""
from clients_use.asking import HOST, ask, rows_of, told

SOCKET = "/run/rpcbind.sock"
ROW = ("300", "7", "127.0.0.1.255.255", "tcp")


def own_rows():
    """What rpcinfo without a host tells of a fresh registry's own program, over the transports that 'serve' has."""
    rows = [[prog, vers, netid, at, owner] for prog, vers, netid, at, _, owner in rows_of(["rpcinfo"])]
    return sorted(row for row in rows if row[2] in ("tcp", "udp", "local"))


def local_rows(theirs):
    """The rows, of 'serve --local'; 'theirs' is what 'own_rows' told of rpcbind."""
    yield told("rpcinfo without a host", own_rows(), theirs, "rpcbind")
    got = ask(["rpcinfo", "-p"]), ask(["rpcinfo", "-s"])[0]
    yield told("rpcinfo -p without a host", got, (ask(["rpcinfo", "-p", HOST]), 0), "the same over TCP")
    prog, vers, at, netid = ROW
    for done in ("rpcb_set", "and again"):
        yield told(f"{done} over the socket", ask(["clients", "local", *ROW])[0], 0, "rpcbind")
    got = ask(["clients", "getaddr", prog, vers, netid])
    yield told("a client finds it", got, (0, f"{at}\n", ""), "what was set")
    got = ask(["clients", "unset", prog, vers, netid])[0]
    yield told("rpcb_unset over the socket", got, 0, "rpcbind")
    yield told("and it is gone", [row for row in rows_of(["rpcinfo", HOST]) if row[0] == prog], [], "rpcb_unset")
