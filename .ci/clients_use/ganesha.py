"""Rows of 'oncrpc call' and 'oncrpc ping' on Debian's nfs-ganesha, by the installed declarations, beside what showmount
and libnfs's nfs-ls and nfs-cat say of it. It serves a folder in memory, by NFS versions 3 and 4 and mount versions 1
and 3, and another one to few hosts, which is listed alone.
"""
import os
import re
import shutil
import subprocess

from clients_use.asking import HOST, Caller, ask, has_answered, rows_of, told
from refuse_use.called import placed_program
from telling import tell
from timing import WAIT, wait_until

# How many bytes a READ, a WRITE and a READDIR may have, and are best to have: all of them differ.
SIZES = {"rtmax": 131072, "rtpref": 65536, "wtmax": 98304, "wtpref": 32768, "dtpref": 8192}
SETTINGS = """NFS_CORE_PARAM {
    NFS_Protocols = 3, 4; mount_path_pseudo = true; Enable_NLM = false; Enable_RQUOTA = false;
    NFS_Port = 20490; MNT_Port = 20480;
}
EXPORT {
    Export_Id = 1; Path = /exp; Pseudo = /exp; Access_Type = RW; Squash = No_Root_Squash;
    MaxRead = %(rtmax)d; PrefRead = %(rtpref)d; MaxWrite = %(wtmax)d; PrefWrite = %(wtpref)d; PrefReaddir = %(dtpref)d;
    Protocols = 3, 4; Transports = TCP, UDP; FSAL { Name = MEM; }
}
EXPORT {
    Export_Id = 2; Path = /other; Pseudo = /other; Access_Type = NONE;
    Protocols = 3, 4; Transports = TCP, UDP; FSAL { Name = MEM; }
    CLIENT { Clients = 127.0.0.1, 192.0.2.0/24; Access_Type = RO; }
}
MEM { Inode_Size = 65536; }
LOG { Default_Log_Level = EVENT; }
""" % SIZES
FOLDER, ABOVE = f"nfs://{HOST}/exp", f"nfs://{HOST}/?version=4&nfsport=20490"
ROOT_USER = ["--uid", "0", "--gid", "0", "--machine", "box"]
TEXT = b"a file of eleven words, each of which nfs-cat has to print\n"
WRITTEN = b"what WRITE put in its place"
# Numbers of a file's type and the letters that begin its line of nfs-ls (RFC 1813 section 2.5).
TYPES = {"NF3REG": "-", "NF3DIR": "d"}


def missing():
    """What the rows want and is not here, if anything is."""
    tools = ("rpcbind", "rpcinfo", "showmount", "ganesha.nfsd", "nfs-ls", "nfs-cat", "nfs-cp")
    return next((f"{tool} is not there" for tool in tools if not shutil.which(tool)), None)


class Ganesha:
    """The server, in the network and the file system of its own that this runs in, ended by its process."""

    def __init__(self, folder):
        subprocess.run(["mkdir", "-p", "/run/ganesha"], check=True)
        if os.path.isdir("/var/lib/nfs"):
            subprocess.run(["mount", "-t", "tmpfs", "none", "/var/lib/nfs"], check=True)
            os.mkdir("/var/lib/nfs/ganesha")
        with open(f"{folder}/ganesha.conf", "w", encoding="ascii") as it:
            it.write(SETTINGS)
        words = ["ganesha.nfsd", "-F", "-L", f"{folder}/log", "-f", f"{folder}/ganesha.conf", "-p", f"{folder}/pid"]
        self.process = subprocess.Popen(words, stdout=subprocess.DEVNULL, stderr=subprocess.DEVNULL)

    def __enter__(self):
        wait_until(lambda: ask(["showmount", "-e", HOST])[0] == 0, 2 * WAIT)
        return self

    def __exit__(self, *_):
        self.process.kill()
        self.process.wait()


def pinged_rows(program, root, over):
    """NULL of each version that the registry has, which rpcinfo finds ready; by names, too, and without a version."""
    netid = "udp" if over else "tcp"
    for prog, vers, prot, *_ in rows_of(["rpcinfo", "-p", HOST]):
        if prot != netid or prog == "100000":
            continue
        ready = ask(["rpcinfo", "-T", netid, HOST, prog, vers])
        got = ask([program, "ping", HOST, f"{prog}.{vers}", *over])
        yield has_answered(f"oncrpc ping ganesha {prog}.{vers} {' '.join(over)}", got, f"{prog} {vers} answered in ")
        yield told(f"rpcinfo of it {prog} {vers}", ready[0], got[0], "oncrpc ping")
    for name, line in (("nfs.V3", "100003 3"), ("mount.3", "100005 3"), ("nfs", "100003 3 to 4")):
        types = f"{root}/share/oncrpc/{name.split('.')[0]}.x"
        got = ask([program, "ping", HOST, name, "--types", types, *over])
        yield has_answered(f"oncrpc ping ganesha {name} {' '.join(over)}", got, f"{line} answered in ")


def exports_of(entry):
    """The words that showmount prints of each export, and what ends the list."""
    found = []
    while isinstance(entry, dict):
        names, group = [], entry["ex_groups"]
        while group:
            names.append(group["gr_name"])
            group = group["gr_next"]
        found.append([entry["ex_dir"], ",".join(names) or "(everyone)"])
        entry = entry["ex_next"]
    return found, entry


def exported_rows(mount, by_itself, over):
    """EXPORT of both versions and DUMP, beside showmount; EXPORT also by the installed declarations that no word names."""
    wanted = [line.split() for line in ask(["showmount", "-e", HOST])[1].splitlines()[1:]]
    for caller, name in (
        (mount, "mount.3.EXPORT"),
        (mount, "mount.V1.EXPORT"),
        (mount, "100005.1.5"),
        (by_itself, "mount.3.EXPORT"),
        (by_itself, "100005.1.5"),
    ):
        got = *exports_of(caller.result(name, *over)), len(wanted)
        types = " without --types" * (caller == by_itself)
        yield told(f"oncrpc call ganesha {name} {' '.join(over)}{types}", got, (wanted, None, 2), "showmount -e")
    entry, found = mount.result("mount.V3.DUMP", *over), []
    while isinstance(entry, dict):
        found.append(f"{entry['ml_hostname']}:{entry['ml_directory']}")
        entry = entry["ml_next"]
    wanted = ask(["showmount", "-a", HOST])[1].splitlines()[1:]
    yield told(f"oncrpc call ganesha mount.V3.DUMP {' '.join(over)}", (entry, found), (None, wanted), "showmount -a")


def mounted(mount, path, over):
    """The handle of a folder, by MNT, or what came in its place."""
    got = mount.result("mount.V3.MNT", *ROOT_USER, *over, given=path)
    well = isinstance(got, dict) and got.get("case") == "MNT3_OK"
    return got["mountinfo"]["fhandle"] if well else None, got


def unmounted_rows(mount, over):
    """MNT of a folder that is not there has the status that libnfs names."""
    said = ask(["nfs-ls", f"nfs://{HOST}/none"])
    named = re.search(r"MNT3ERR_\w+", said[1] + said[2])
    wanted = (0, f'{{"case":"{named[0]}"}}\n', "") if named else said
    got = mount.ask("mount.V3.MNT", *ROOT_USER, *over, given="/none")
    yield told(f"oncrpc call ganesha MNT of what is not there {' '.join(over)}", got, wanted, "nfs-ls")


def listed(attributes, name):
    """The words of a line of nfs-ls, from attributes: the type and the mode, links, uid, gid, size and name."""
    mode = attributes["mode"]
    bits = "".join(letter if mode >> place & 1 else "-" for place, letter in zip(range(8, -1, -1), "rwx" * 3))
    numbers = [str(attributes[it]) for it in ("nlink", "uid", "gid", "size")]
    return [TYPES.get(attributes["type"], "?") + bits, *numbers, name]


def lines_of_nfs_ls():
    return sorted(line.split() for line in ask(["nfs-ls", FOLDER])[1].splitlines())


def root_rows(nfs, handle, over):
    """FSINFO, beside the settings, and GETATTR of the folder, beside FSINFO and what nfs-ls lists above it by version 4,
    where ids are names that this host does not have."""
    got = nfs.result("nfs.V3.FSINFO", *ROOT_USER, *over, given={"fsroot": {"data": handle}})
    found = {it: got["resok"][it] for it in SIZES}
    yield told(f"oncrpc call ganesha nfs.V3.FSINFO {' '.join(over)}", (got["case"], found), ("NFS3_OK", SIZES), "settings")
    known = nfs.result("nfs.V3.GETATTR", *ROOT_USER, *over, given={"object": {"data": handle}})["resok"]
    there = {"case": True, "attributes": known["obj_attributes"]}
    name = f"oncrpc call ganesha GETATTR of the folder {' '.join(over)}"
    yield told(f"{name}, beside FSINFO", there, got["resok"]["obj_attributes"], "FSINFO")
    mode, links, _, _, *rest = listed(known["obj_attributes"], "exp")
    lines = [line.split() for line in ask(["nfs-ls", ABOVE])[1].splitlines()]
    wanted = [[line[0], line[1], *line[4:]] for line in lines if line[-1] == "exp"]
    yield told(name, [[mode, links, *rest]], wanted, "nfs-ls")


def folder_rows(nfs, handle, over):
    """LOOKUP, GETATTR and READDIRPLUS of the folder, beside nfs-ls."""
    wanted = lines_of_nfs_ls()
    asked = {"dir": {"data": handle}, "cookie": "0", "cookieverf": "00" * 8, "dircount": 4096, "maxcount": 32768}
    got = nfs.result("nfs.3.READDIRPLUS", *ROOT_USER, *over, given=asked)
    entry, found = got["resok"]["reply"]["entries"], []
    while entry:
        if entry["name"] not in (".", ".."):
            found.append(listed(entry["name_attributes"]["attributes"], entry["name"]))
        entry = entry["nextentry"]
    yield told(f"oncrpc call ganesha nfs.3.READDIRPLUS {' '.join(over)}", sorted(found), wanted, "nfs-ls")
    for line in wanted:
        name = line[-1]
        got = nfs.result("nfs.V3.LOOKUP", *ROOT_USER, *over, given={"what": {"dir": {"data": handle}, "name": name}})
        file = got["resok"]["object"]["data"]
        got = nfs.result("nfs.V3.GETATTR", *ROOT_USER, *over, given={"object": {"data": file}})
        found = listed(got["resok"]["obj_attributes"], name)
        yield told(f"oncrpc call ganesha LOOKUP and GETATTR of {name} {' '.join(over)}", found, line, "nfs-ls")
    got = nfs.result("nfs.V3.LOOKUP", *ROOT_USER, *over, given={"what": {"dir": {"data": handle}, "name": "none"}})
    yield told("oncrpc call ganesha LOOKUP of what is not there", got["case"], "NFS3ERR_NOENT", "RFC 1813")


def file_rows(nfs, handle, over):
    """READ of a file, beside nfs-cat, and WRITE, after which nfs-cat prints what was written."""
    got = nfs.result("nfs.V3.LOOKUP", *ROOT_USER, *over, given={"what": {"dir": {"data": handle}, "name": "a.txt"}})
    file = {"data": got["resok"]["object"]["data"]}
    for offset, count in ((0, 65536), (7, 5)):
        got = nfs.result("nfs.V3.READ", *ROOT_USER, *over, given={"file": file, "offset": str(offset), "count": count})
        wanted = ask(["nfs-cat", f"{FOLDER}/a.txt"])[1].encode()[offset : offset + count]
        found = bytes.fromhex(got["resok"]["data"])
        name = f"oncrpc call ganesha READ from {offset} {' '.join(over)}"
        yield told(name, (found, found != b""), (wanted, True), "nfs-cat")
    written = WRITTEN + (b" by UDP" if over else b" by TCP")
    asked = {"file": file, "offset": "0", "count": len(written), "stable": "FILE_SYNC", "data": written.hex()}
    got = nfs.result("nfs.V3.WRITE", *ROOT_USER, *over, given=asked)
    yield told("oncrpc call ganesha WRITE", got["resok"]["count"], len(written), "RFC 1813")
    wanted = ask(["nfs-cat", f"{FOLDER}/a.txt"])[1].encode()[: len(written)]
    yield told(f"oncrpc call ganesha WRITE {' '.join(over)}", written, wanted, "nfs-cat")


def ganesha_rows(program, root, folder):
    """The rows, over TCP and over UDP."""
    with open(f"{folder}/a.txt", "wb") as it:
        it.write(TEXT)
    with Ganesha(folder):
        mount = Caller(program, f"{root}/share/oncrpc/mount.x")
        nfs = Caller(program, f"{root}/share/oncrpc/nfs.x")
        by_itself = Caller(placed_program(program, folder), None)
        for over in ([], ["--udp"]):
            for name in ("a.txt", "b.txt"):
                ask(["nfs-cp", f"{folder}/a.txt", f"{FOLDER}/{name}"])
            yield from pinged_rows(program, root, over)
            yield from exported_rows(mount, by_itself, over)
            yield from unmounted_rows(mount, over)
            handle, got = mounted(mount, "/exp", over)
            yield tell(f"oncrpc call ganesha mount.V3.MNT {' '.join(over)}", handle, got, "a handle")
            yield from root_rows(nfs, handle, over)
            yield from folder_rows(nfs, handle, over)
            yield from file_rows(nfs, handle, over)
