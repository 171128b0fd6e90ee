"""What .ci/refuse_use/recorded.py has, taken apart by hand by RFC 1813, 1833 and 4506: of each argument and result the
parts of its bytes, and with them its JSON. Where there is none it is None."""
from refuse_use.made_values import ABSENT, both, data, fixed, flag, linked, long, member, number, several, text
from refuse_use.recorded import GENERATED, RECORDED, SERVED


def handle(digits):
    """A handle of nfs-ganesha, of 64 bytes."""
    return data(bytes.fromhex(digits).ljust(64, b"\0"))


FOLDER = handle("430000013acadfa28140ef3da704002f657870")
TEXT_FILE = handle("430000013aa7ebc42c6f36955a0500612e747874")
OTHER_FILE = handle("430000013aefea19e8058492bf0500622e62696e")
OK = member(0, "NFS3_OK")


def time(seconds, nseconds):
    return both(seconds=number(seconds), nseconds=number(nseconds))


# When the folder was made, the first file, when it was written, and read; and the same of the other file.
MADE, BEGUN, WRITTEN = time(0x6B06FE4B, 0x20C66185), time(0x6B06FE4C, 0x037264C1), time(0x6B06FE4C, 0x037582D2)
CHANGED, READ = time(0x6B06FE4C, 0x03748F68), time(0x6B06FE4C, 0x041B9ED8)
OF_OTHER = [time(0x6B06FE4C, it) for it in (0x03A98FA7, 0x03B28AAE, 0x03ABBAC2)]


def attributes(kind, mode, links, size, place, *times):
    """Of a file of the superuser: what it is, its mode, its links, its size, its number, and the three times."""
    numbers = {"nlink": number(links), "uid": number(0), "gid": number(0), "size": long(size), "used": long(size)}
    device = both(specdata1=number(0), specdata2=number(0))
    at = dict(zip(("atime", "mtime", "ctime"), times))
    return both(type=kind, mode=number(mode), **numbers, rdev=device, fsid=long(1), fileid=long(place), **at)


def folder(links):
    return attributes(member(2, "NF3DIR"), 0o777, links, 0, 1, MADE, MADE, MADE)


def file(size, *times):
    return attributes(member(1, "NF3REG"), 0o660, 1, size, 2, *times)


def there(name, it):
    """What is there of what may be there."""
    return both(**{"case": flag(True), name: it})


NOT_THERE = both(case=flag(False))
NEW, WHOLE = file(0, BEGUN, BEGUN, BEGUN), there("attributes", file(12, BEGUN, WRITTEN, CHANGED))
UNKNOWN_BEFORE = both(before=NOT_THERE, after=WHOLE)


def told(**parts):
    """The result of a call that did what it was asked for."""
    return both(case=OK, resok=both(**parts))


def settings(mode, size, times):
    """What is to be set of a file, the mode and the size, or neither, and that the times are not."""
    modes = there("mode", number(mode)) if mode is not None else NOT_THERE
    sizes = there("size", long(size)) if size is not None else NOT_THERE
    return both(mode=modes, uid=NOT_THERE, gid=NOT_THERE, size=sizes, atime=times, mtime=times)


LEFT = both(case=member(0, "DONT_CHANGE"))
THE_FOLDER, THE_FILE = both(data=FOLDER), both(data=TEXT_FILE)
NAMED = both(dir=THE_FOLDER, name=text("a.txt"))
VERIFIER = fixed(bytes.fromhex("4bfe066b00000000"))


def entry(place, name, cookie, known, at):
    """An entry of READDIRPLUS, without the next one."""
    return {
        "fileid": long(place),
        "name": text(name),
        "cookie": long(cookie),
        "name_attributes": there("attributes", known),
        "name_handle": there("handle", both(data=at)),
    }


ENTRIES = [
    entry(1, ".", 1, folder(4), FOLDER),
    entry(1, "..", 2, folder(4), FOLDER),
    entry(3, "b.bin", 0xE5FAFD3CA9ED0304, attributes(member(1, "NF3REG"), 0o660, 1, 100000, 3, *OF_OTHER), OTHER_FILE),
    entry(2, "a.txt", 0xFFFFFFFFFFFFFFFF, file(12, BEGUN, WRITTEN, CHANGED), TEXT_FILE),
]
SIZES = {
    **{name: number(0x04000000) for name in ("rtmax", "rtpref")},
    "rtmult": number(512),
    **{name: number(0x04000000) for name in ("wtmax", "wtpref")},
    "wtmult": number(512),
    "dtpref": number(0x4000),
}
NFS = {
    0: (None, None),
    1: (both(object=THE_FOLDER), told(obj_attributes=folder(2))),
    2: (
        both(object=THE_FILE, new_attributes=settings(None, 0, LEFT), guard=NOT_THERE),
        told(
            obj_wcc=both(
                before=there("attributes", both(size=long(0), mtime=BEGUN, ctime=BEGUN)),
                after=there("attributes", file(0, BEGUN, BEGUN, CHANGED)),
            )
        ),
    ),
    3: (
        both(what=NAMED),
        told(
            object=THE_FILE,
            obj_attributes=there("attributes", NEW),
            dir_attributes=there("attributes", folder(3)),
        ),
    ),
    4: (both(object=THE_FILE, access=number(1)), told(obj_attributes=WHOLE, access=number(1))),
    6: (
        both(file=THE_FILE, offset=long(0), count=number(12)),
        told(
            file_attributes=there("attributes", file(12, READ, WRITTEN, CHANGED)),
            count=number(12),
            eof=flag(True),
            data=data(b"a" * 12),
        ),
    ),
    7: (
        both(
            file=THE_FILE,
            offset=long(0),
            count=number(12),
            stable=member(0, "UNSTABLE"),
            data=data(b"hello world\n"),
        ),
        told(file_wcc=UNKNOWN_BEFORE, count=number(12), committed=member(0, "UNSTABLE"), verf=VERIFIER),
    ),
    8: (
        both(where=NAMED, how=both(case=member(1, "GUARDED"), obj_attributes=settings(0o660, None, LEFT))),
        told(
            obj=there("handle", THE_FILE),
            obj_attributes=there("attributes", NEW),
            dir_wcc=both(
                before=there("attributes", both(size=long(0), mtime=MADE, ctime=MADE)),
                after=there("attributes", folder(3)),
            ),
        ),
    ),
    17: (
        both(
            dir=THE_FOLDER,
            cookie=long(0),
            cookieverf=fixed(bytes(8)),
            dircount=number(8192),
            maxcount=number(8192),
        ),
        told(
            dir_attributes=there("attributes", folder(4)),
            cookieverf=fixed(bytes(8)),
            reply=both(entries=linked("nextentry", *ENTRIES), eof=flag(True)),
        ),
    ),
    19: (
        both(fsroot=THE_FOLDER),
        told(
            obj_attributes=there("attributes", folder(2)),
            **SIZES,
            maxfilesize=long(2**63 - 1),
            time_delta=time(0, 100),
            properties=number(0x1B),
        ),
    ),
    21: (both(file=THE_FILE, offset=long(0), count=number(0)), told(file_wcc=UNKNOWN_BEFORE, verf=VERIFIER)),
}
MOUNTED = both(fhandle=FOLDER, auth_flavors=several(number(1), number(0)))
MOUNT = {
    0: (None, None),
    1: (text("/exp"), both(case=member(0, "MNT3_OK"), mountinfo=MOUNTED)),
    2: (None, ABSENT),
    5: (None, linked("ex_next", {"ex_dir": text("/exp"), "ex_groups": ABSENT})),
}


def mapping(program, version, port):
    """A row of a program over TCP."""
    return both(prog=number(program), vers=number(version), prot=number(6), port=number(port))


def row(program, version, netid, address, owner):
    numbers = {"r_prog": number(program), "r_vers": number(version)}
    return both(**numbers, r_netid=text(netid), r_addr=text(address), r_owner=text(owner))


def silly(owner):
    """The file of RFC 4506 section 7."""
    kind = both(case=member(2, "EXEC"), interpretor=text("lisp"))
    return both(filename=text("sillyprog"), type=kind, owner=text(owner), data=data(b"(quit)"))


OWN = [row(100000, version, it, "0.0.0.0.43.103", "superuser") for version in (2, 3, 4) for it in ("tcp", "udp")]
OF_RECORDED = [
    (("rpcbind", 2, 0), None, None),
    (("rpcbind", 2, 3), mapping(100005, 3, 0), number(20480)),
    (("rpcbind", 4, 3), row(100005, 3, "tcp", "127.0.0.1.0.111", "libtirpc"), text("127.0.0.1.80.0")),
    *((("nfs", 3, procedure), *made) for procedure, made in NFS.items()),
    *((("mount", 3, procedure), *made) for procedure, made in MOUNT.items()),
]
OF_GENERATED = [
    (("filed", 1, 1), silly("john"), silly("rpcgen")),
    (("filed", 1, 2), silly("john"), number(6)),
]
OF_SERVED = [
    (("rpcbind", 2, 1), mapping(0x20000000, 1, 2049), flag(True)),
    (("rpcbind", 2, 3), mapping(0x20000000, 1, 0), number(2049)),
    (("rpcbind", 4, 4), None, linked("rpcb_next", *({"rpcb_map": it} for it in OWN))),
]


def exchanges():
    """Each that was recorded: the procedure, the bytes of the arguments, their JSON, and the same of the result. Of void
    there is no byte, and no JSON. The parts have to be the bytes that were recorded."""
    made = OF_RECORDED + OF_GENERATED + OF_SERVED
    for (procedure, *digits), (of_it, *parts) in zip(RECORDED + GENERATED + SERVED, made, strict=True):
        parts = [it or (b"", None) for it in parts]
        assert (procedure, digits) == (of_it, [content.hex() for content, _ in parts]), procedure
        yield (procedure, *parts[0], *parts[1])
