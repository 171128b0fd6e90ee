"""What the examples print."""
import struct

# What each example prints.
CHECKED = """file, 48 bytes: a value
file, 49 bytes: a value of 48 bytes, and more
file, 47 bytes: refused for reason 8 at 47
bool, 4 bytes: refused for reason 1 at 0
folder: no kind
fault 5 (0) at 1:23
"""
SHOWN = """struct
  filename: "sillyprog"
  type: case EXEC = 2
    interpretor: "lisp"
  owner: "john"
  data: 0x287175697429
status 0, 48 bytes of input
a buffer of 10 bytes: status 8, 116 are needed
47 bytes: status 2, 0 written
status 0, {"filename":"sillyprog","type":{"case":"EXEC","interpretor":"lisp"},"owner":"john","data":"287175697429"}
read back: status 0, the same bytes
status 30, JSON of another form than the type's at 2:11
rpcgen's dialect: status 0
"""
PARTED = """without buffers: status 8, 10 parts and 60 bytes of names are needed
 0 0 : type 12, role 5
 0 4   filename: type 9, role 3
 4 9   filename: type 9, role 4, sillyprog
16 4   type: type 13, role 1
20 4     interpretor: type 9, role 3
24 4     interpretor: type 9, role 4, lisp
28 4   owner: type 9, role 3
32 4   owner: type 9, role 4, john
36 4   data: type 8, role 3
40 6   data: type 8, role 4, (quit)
status 0, 48 bytes of input
47 bytes: status 2 for reason 8 at 47
type: number 2, EXEC
type.interpretor: lisp
type.creator: the value has no part with the path
types: filekind, filetype, file
"""
WRITTEN = """without a buffer: status 8, 48 bytes are needed
status 0, 48 bytes, as in the RFC
4 items: status 26 for reason 12 at 4, 0 written
"""
MARKED = """8000000361626380000000 status 0
80000003616263 refused for reason 8 at 14
refused for reason 8 at 10
refused for reason 4 at 5
status 5
"""
PORT = """header 80000038, call of 56 bytes, as captured
reply of 28 bytes, as captured
port 2049
100000 2 tcp 111 superuser
100000 2 udp 111 superuser
100000 3 tcp 111 superuser
100000 3 udp 111 superuser
100000 4 tcp 111 superuser
100000 4 udp 111 superuser
536870912 1 tcp 2049 port.c
"""
SERVED = """/: folder 1, mode 755, 0 bytes
README: file 2, mode 644, 23 bytes
A tree of three files.
more: status 20
rhymes: folder 3, mode 755, 0 bytes
jack.txt: file 4, mode 644, 57 bytes
Jack and Jill went up the hill
to fetch a pail of water.
empty.txt: file 5, mode 644, 0 bytes
jill.txt: status 2
"""
TOLD = """call c117f9be of 100000.4.0, 0 bytes of arguments at 68
  uid 1000, gid 100 of box, gids 100
call: status 11, xid c117f9be, RPC 2
call: status 12, xid c117f9be, RPC 2
call: status 9, xid 00000000, RPC 0
reply 7857f369: state 2, versions 2 to 4
reply 93327cab: state 3
reply: status 13
reply: status 14
"""
HELD = """a value of 8 bytes, and more
a value of 8 bytes
the bytes end too early, at 7
a boolean that is neither 0 nor 1, at 4
the bytes end too early, at 0
"""


def fragment(count, is_last):
    """A fragment of so many bytes (RFC 5531 section 11)."""
    return struct.pack(">I", count + is_last * 2**31) + bytes(count)


# Records of 9000, 0, 70 and 71 bytes and the header of the next; what the example prints of them, by their limit and
# count. The last of them is one fragment, and lies whole in a piece.
PARTS = [(5000, 0), (0, 0), (4000, 1), (0, 1), (69, 0), (1, 1), (71, 1), (7, 0)]
STREAM = b"".join(fragment(*part) for part in PARTS)
READ = "record of 9000 bytes\nrecord of 0 bytes\nrecord of 70 bytes\nrecord of 71 bytes\n"
STREAMS = [
    ("9000", 9169, f"{READ}status 0\n"),
    ("9000", 9180, f"{READ}refused for reason 8 at 9180\n"),
    ("8999", 9180, "refused for reason 4 at 5008\n"),
    ("2147483648", 9180, "status 5\n"),
]
# The port 2049, in the reply of 28 bytes to a call of GETPORT.
ASKED = "Accepted { xid: 9, verifier: Auth { flavor: 0, body: [] }, outcome: Success([0, 0, 8, 1]) }"
ANSWERED = f"""file, 48 bytes: 48 used, more: false
file, 49 bytes: 48 used, more: true
file, 47 bytes: refused Truncated at 47
bool, 4 bytes: refused BadBool at 0
folder, 48 bytes: the name is that of no kind
depth 2: Err(Refused(Refusal {{ why: TooDeep, at: 20 }}))
{SHOWN[: SHOWN.index("status")]}48 bytes
filename at 4: sillyprog
interpretor at 24: lisp
owner at 32: john
data at 40: (quit)
filename at 0; type at 16; owner at 28; data at 36; 48 bytes
written as in the RFC: true
Err(BadItem {{ why: Unfinished, at: 4 }})
Err(Undeclared(TextFault {{ kind: NameTwice, line: 1, column: 23 }}))
Ok([128, 0, 0, 3, 97, 98, 99])
Err(Refused {{ refusal: Refusal {{ why: TooLong, at: 6 }}, before: [] }})
call of 72 bytes: true
cut: Err(BadCredential {{ xid: 7 }}), Err(NotAReply)
reply of 28 bytes: true
long: Err(BadCredential)
row: true, reply: true, {ASKED}
again: false
no call: false
removed: true
record: abc
end: Err(Refused(Refusal {{ why: Truncated, at: 16 }}))
"""
GONE_OVER = """a.txt: 5 bytes
notes: 700 bytes
no part is left
eof at 56
done
"""
AT_ONCE = "".join(f"thread {number}: 0 wrong\n" for number in range(4))
EXAMPLES = [
    ("check.c", CHECKED),
    ("show.c", SHOWN),
    ("parts.c", PARTED),
    ("cursor.c", GONE_OVER),
    ("write.c", WRITTEN),
    ("records.c", MARKED),
    ("port.c", PORT),
    ("nfsd.c", SERVED),
    ("messages.c", TOLD),
    ("threads.c", AT_ONCE),
    ("check.cc", HELD),
]

# What rpcinfo prints of a registry with its own rows alone, as words.
LISTED = [["program", "vers", "proto", "port", "service"]] + [
    ["100000", version, netid, "111", "portmapper"] for version in "234" for netid in ("tcp", "udp")
]
