"""Texts of declarations that are read, and what they declare (RFC 4506 section 6, RFC 5531 section 12)."""
import os
import re

from .shared import LIST, PING

ROOT = os.path.dirname(os.path.dirname(os.path.dirname(os.path.realpath(__file__))))


def text_of(name):
    """The bytes of a file of declarations."""
    with open(os.path.join(ROOT, ".ci/declarations", name), "rb") as file:
        return file.read()


def text_of_header():
    """The registry's declarations in the header for C: one line of a text for each line of the macro."""
    with open(os.path.join(ROOT, "include/oncrpc.h"), encoding="ascii") as file:
        macro = re.search(r'#define ONCRPC_REGISTRY_DECLARATIONS *\\\n((?:    ".*\n)*)', file.read())[1]
    return "".join(f"{line}\n" for line in re.findall(r'^    "(.*)\\n"', macro, re.MULTILINE)).encode()


# The declarations as the RFCs print them. RFC 1094 (NFS version 2 and mount version 1) as rpcgen's files have it, with
# `unsigned int` in place of a bare `unsigned` (docs/LANGUAGE.md) and no `struct` before a name in a declaration. Of RFC
# 1813 (NFS and mount version 3) the constants of section 2.4 are a table there, and declarations here; a case of
# `mountres3` is `MNT3_OK` here, the member's name, where the RFC prints `MNT_OK`, which nothing declares. Of RFC 1833
# (rpcbind, and the port mapper) what is C and not XDR is left out: constants and a procedure's number that are names of
# other procedures, and a star before the name of a struct's definition. Of RFC 5531 (sections 8.2, 9 and 12.1, appendix
# A) `void` stands for `opaque results[0]`, and no name after the body of a definition.
NFS_2, MOUNT_1 = text_of("rfc1094_nfs.x"), text_of("rfc1094_mount.x")
NFS_3, MOUNT_3 = text_of("rfc1813_nfs.x"), text_of("rfc1813_mount.x")
RPCBIND, PORT_MAPPER = text_of("rfc1833_rpcbind.x"), text_of("rfc1833_port_mapper.x")
MESSAGES, PING_PROGRAM = text_of("rfc5531_messages.x"), text_of("rfc5531_ping.x")
# The file of RFC 4506 section 7, and the same without comments.
EXAMPLE = text_of("rfc4506_file.x")
FILE = b"""const MAXUSERNAME = 32;
const MAXFILELEN = 65535;
const MAXNAMELEN = 255;
enum filekind { TEXT = 0, DATA = 1, EXEC = 2 };
union filetype switch (filekind kind) {
case TEXT: void;
case DATA: string creator<MAXNAMELEN>;
case EXEC: string interpretor<MAXNAMELEN>;
};
struct file {
   string filename<MAXNAMELEN>;
   filetype type;
   string owner<MAXUSERNAME>;
   opaque data<MAXFILELEN>;
};
"""
# The types of the registry with the words of RFC 1833.
RPCB = b"""struct rpcb { unsigned long r_prog; unsigned long r_vers;
   string r_netid<>; string r_addr<>; string r_owner<>; };
struct rp__list { rpcb rpcb_map; struct rp__list *rpcb_next; };
typedef rp__list *rpcblist;
struct mapping { unsigned long prog; unsigned long vers;
   unsigned long prot; unsigned long port; };
struct pm__list { mapping map; struct pm__list *next; };
typedef pm__list *pmaplist;
"""
# The same types and the procedures that the registry serves, as the header for C has them.
REGISTRY = text_of_header()
# Constants in each spelling, at the ends of their ranges, and from enums in bodies.
VALUES = b"""const A = 0x1F; const B = 010; const C = 0;\x0b\x0c
const D = -9223372036854775808; const E = 18446744073709551615;
enum e { F = -2147483648, G = 2147483647, H = A, I = H };
struct s { enum { J = B } j; }; /*/ a comment /**/ const K = /***/ 9;"""
# The example of RFC 5531 section 12.1, with arguments and a constant; and two programs with one number.
PINGBACK = b"""program PING_PROG {
  version PING_VERS_PINGBACK {
    void PINGPROC_NULL(void) = 0;
    int PINGPROC_PINGBACK(string, enum { A = 1 }, hyper) = 1;
  } = 2;
  version PING_VERS_ORIG { void PINGPROC_NULL(void) = 0; } = 1;
} = 1;
const PING_VERS = 2;"""
PROGRAMS = b"""program P { version V { void N(void) = 0; } = 1; } = 7;
program Q { version V { bool N(hyper, opaque_5) = 0; } = 2; } = 7; typedef opaque opaque_5[5];"""
# The basic kinds in the order of their places, the names of all but void, and the constants without a text.
BASIC_KINDS = ["int", "unsigned int", "hyper", "unsigned hyper", "bool", "void"]
BASIC_KINDS += ["opaque<4294967295>", "string<4294967295>"]
BASIC_NAMES = [("int", 0), ("unsigned", 1), ("hyper", 2), ("unsigned-hyper", 3), ("bool", 4), ("opaque", 6)]
BASIC_NAMES += [("string", 7)]
BASIC_CONSTANTS = [("TRUE", 1), ("FALSE", 0)]


# Kinds as they are told: in the words of the language, with the places of the kinds that they name.
def text_up_to(most):
    return f"string<{most}>"


def optional(place):
    return f"optional {place}"


def structure(*fields):
    return f"struct ({'; '.join(f'{place} {name}' for name, place in fields)})"


def union(over, *arms):
    """A union without a default, whose arms have a case, a name and a kind each."""
    told = "; ".join(f"case {case}: {place} {name}" for case, name, place in arms)
    return f"union {over} ({told})"


LIST_KINDS = [text_up_to(4294967295), optional(10), structure(("item", 8), ("next", 9)), optional(10)]
FILE_KINDS = [
    "enum (TEXT = 0; DATA = 1; EXEC = 2)",
    text_up_to(255),
    text_up_to(255),
    union(8, (0, "", 5), (1, "creator", 9), (2, "interpretor", 10)),
    text_up_to(255),
    text_up_to(32),
    "opaque<65535>",
    structure(("filename", 12), ("type", 11), ("owner", 13), ("data", 14)),
]
FILE_NAMES = [("filekind", 8), ("filetype", 11), ("file", 15)]
FILE_CONSTANTS = [("MAXUSERNAME", 32), ("MAXFILELEN", 65535), ("MAXNAMELEN", 255)]
FILE_CONSTANTS += [("TEXT", 0), ("DATA", 1), ("EXEC", 2)]
PING_TOLD = "\nprogram PING = 536870912 { version ONE = 1 { void NIL() = 0; 7 ECHO(7) = 1; } }"
# A text, and the kinds, names, constants and programs that it declares besides the basic ones.
DECLARED = [
    (b"", [], [], [], ""),
    (LIST, LIST_KINDS, [("entry", 10), ("list", 11)], [], ""),
    (FILE, FILE_KINDS, FILE_NAMES, FILE_CONSTANTS, ""),
    (EXAMPLE, FILE_KINDS, FILE_NAMES, FILE_CONSTANTS, ""),
    (PING, [], [], [], PING_TOLD),
]
# The constants of VALUES.
NUMBERS = [("A", 31), ("B", 8), ("C", 0), ("D", -9223372036854775808), ("E", 18446744073709551615)]
NUMBERS += [("F", -2147483648), ("G", 2147483647), ("H", 31), ("I", 31), ("J", 8), ("K", 9)]
# Typedefs without brackets, which make no kind, and bodies, which are scopes of their own: a text, one of its names,
# the place that it names, and how many kinds and constants there are, the basic ones counted.
NAMED = [
    (b"typedef t u; typedef unsigned hyper t;", "u", 3, 8, 2),
    (b"typedef struct { int a; } t; typedef t u;", "u", 8, 9, 2),
    (b"typedef opaque a[4]; typedef opaque b[4]; typedef b c;", "c", 9, 10, 2),
    (b"typedef int a[2]; typedef a b<3>; typedef b *c;", "c", 10, 11, 2),
    (b"struct s { int s; struct { int s; } t; };", "s", 9, 10, 2),
    (b"union u switch (int d) { case 1: int d; case 2: void; default: void; };", "u", 8, 9, 2),
    (b"union u switch (enum { A = 5, B = 5 } d) { case A: int a; }; const C = 1;", "u", 9, 10, 5),
    (b"union u switch (unsigned int d) { case 4294967295: int a; };", "u", 8, 9, 2),
    (b"union u switch (unsigned int d) { case 4294967295: u a; default: void; };", "u", 8, 9, 2),
    (b"union u switch (int d) { case 2147483647: u a; default: void; };", "u", 8, 9, 2),
    (b"union u switch (bool d) { case TRUE: u a; default: void; };", "u", 8, 9, 2),
    (b"enum e { A = 0, B = 1 }; union u switch (e d) { case A: u a; default: void; };", "u", 9, 10, 4),
    (b"enum e { A = 0, B = 1 }; union u switch (e d) { case B: u a; default: void; };", "u", 9, 10, 4),
]
# How many kinds, constants and programs the standards declare, the basic ones counted.
SIZES = [
    (RPCBIND, 41, 8, 1),
    (PORT_MAPPER, 16, 5, 1),
    (NFS_3, 134, 61, 1),
    (MOUNT_3, 21, 15, 1),
    (MESSAGES, 28, 34, 0),
    (PING_PROGRAM, 8, 3, 1),
]
# Texts with `long`, and `struct` before a name, and texts that mean the same without them.
SAME = [
    (b"typedef long a; typedef unsigned long b;", b"typedef int a; typedef unsigned int b;"),
    (b"typedef struct s t; typedef t u; struct s { int x; };", b"typedef s t; typedef t u; struct s { int x; };"),
    (b"struct s { struct s *next; long n; };", b"struct s { s *next; int n; };"),
    (
        b"union u switch (long d) { case 1: struct s x; };\n"
        b"        struct s { int x; }; typedef struct s a[3]; typedef struct s b<>;",
        b"union u switch (int d) { case 1: s x; };\n        struct s { int x; }; typedef s a[3]; typedef s b<>;",
    ),
    (
        b"struct s { int x; };\n"
        b"        program P { version V { struct s N(struct s, long, unsigned long) = 0; } = 1; } = 1;",
        b"struct s { int x; };\n        program P { version V { s N(s, int, unsigned int) = 0; } = 1; } = 1;",
    ),
    (b"struct Long { int LONG; };", b"struct Long { int LONG; };"),
]
# A text, and all procedures that it declares: the numbers of a program and a version, that of the first procedure, and
# for each procedure from there on how many arguments it has, and the places of the last one's kind and of the result's.
NONE = (0, None, None)
PROCEDURES = [
    (REGISTRY, [
        (100000, 2, 0, [NONE, (1, 15, 4), (1, 15, 4), (1, 15, 1), (0, None, 18)]),
        (100000, 3, 0, [NONE, (1, 11, 4), (1, 11, 4), (1, 11, 7), (0, None, 14)]),
        (100000, 4, 0, [NONE, (1, 11, 4), (1, 11, 4), (1, 11, 7), (0, None, 14)]),
        (100000, 4, 9, [(1, 11, 7)]),
    ]),
    (PINGBACK, [
        (1, 2, 0, [NONE, (3, 2, 0)]),
        (1, 1, 0, [NONE]),
    ]),
    (PING, [
        (536870912, 1, 0, [NONE, (1, 7, 7)]),
    ]),
    (PROGRAMS, [
        (7, 1, 0, [NONE]),
        (7, 2, 0, [(2, 8, 4)]),
    ]),
    (NFS_2, [
        (100003, 2, 0, [
            NONE, (1, 10, 16), (1, 17, 16), NONE, (1, 18, 20), (1, 10, 21), (1, 22, 25), NONE, (1, 26, 16), (1, 27, 20),
            (1, 18, 8), (1, 28, 8), (1, 29, 8), (1, 30, 8), (1, 27, 20), (1, 18, 8), (1, 32, 37), (1, 10, 39),
        ]),
    ]),
    (MOUNT_1, [
        (100005, 1, 0, [NONE, (1, 10, 9), (0, None, 12), (1, 10, None), NONE, (0, None, 16)]),
    ]),
    (RPCBIND, [
        (100000, 3, 1, [
            (1, 11, 4), (1, 11, 4), (1, 11, 7), (0, None, 14), (1, 16, 19), (0, None, 1), (1, 7, 40), (1, 40, 7),
        ]),
        (100000, 4, 1, [
            (1, 11, 4), (1, 11, 4), (1, 11, 7), (0, None, 14), (1, 16, 19), (0, None, 1), (1, 7, 40), (1, 40, 7),
            (1, 11, 7), (1, 16, 19), (1, 11, 27), (0, None, 38),
        ]),
    ]),
    (PORT_MAPPER, [
        (100000, 2, 0, [NONE, (1, 8, 4), (1, 8, 4), (1, 8, 1), (0, None, 11), (1, 13, 15)]),
    ]),
    (NFS_3, [
        (100003, 3, 0, [
            NONE, (1, 34, 36), (1, 38, 41), (1, 42, 45), (1, 46, 49), (1, 50, 53), (1, 54, 58), (1, 61, 64),
            (1, 67, 70), (1, 71, 74), (1, 76, 79), (1, 82, 85), (1, 86, 89), (1, 90, 93), (1, 94, 97), (1, 98, 101),
            (1, 102, 109), (1, 110, 117), (1, 118, 121), (1, 122, 125), (1, 126, 129), (1, 130, 133),
        ]),
    ]),
    (MOUNT_3, [
        (100005, 3, 0, [NONE, (1, 9, 14), (0, None, 15), (1, 9, None), NONE, (0, None, 19)]),
    ]),
    (PING_PROGRAM, [
        (1, 2, 0, [NONE, (0, None, 0)]),
        (1, 1, 0, [NONE]),
    ]),
]
# More than eight numbers that do not rise, two of them of two members each: the first member is shown.
MANY_NUMBERS = b"""enum e { A = 9, B = 3, C = 7, D = 1, E = 3, F = 5, G = 9, H = 2, I = 8, J = 0 };
typedef e es<>;
union u switch (int d) {
  case 9: int a; case 3: void; case 7: int c; case 1: int e; case 5: int f;
  case -2: int g; case 8: int h; case 0: int i; case 4: int j;
};
"""
# By the declarations of a text, the name of a type, the bytes of a value of it and its lines: replies of MNT with a
# file handle of eight bytes for AUTH_SYS and AUTH_NONE, and with none for want of permission; replies of GETATTR with a
# file of 13 bytes and mode 644, octal, and of a stale handle; and a call of procedure 0 of the port mapper, and the
# reply of a server that has versions 2 to 4 of it alone.
SHOWN = [
    (MANY_NUMBERS, "es", "00000004 00000003 00000009 00000000 00000008", b"list of 4\n  B = 3\n  A = 9\n  J = 0\n  I = 8\n"),
    (MANY_NUMBERS, "u", "00000003", b"case 3\n  void\n"),
    (MANY_NUMBERS, "u", "fffffffe 00000007", b"case -2\n  g: 7\n"),
    (MOUNT_3, "mountres3",
     "00000000 00000008 01020304 05060708 00000002 00000001 00000000",
     b"""case MNT3_OK = 0
  mountinfo: struct
    fhandle: 0x0102030405060708
    auth_flavors: list of 2
      1
      0
"""),
    (MOUNT_3, "mountres3",
     "0000000d",
     b"""case MNT3ERR_ACCES = 13
  void
"""),
    (NFS_3, "GETATTR3res",
     "00000000 00000001 000001a4 00000001 000003e8 00000064 00000000 0000000d 00000000 00001000 00000000 "
     "00000000 00000000 00000801 00000000 0002a5f3 3b9aca00 00000000 3b9aca01 1dcd6500 3b9aca02 00000001",
     b"""case NFS3_OK = 0
  resok: struct
    obj_attributes: struct
      type: NF3REG = 1
      mode: 420
      nlink: 1
      uid: 1000
      gid: 100
      size: 13
      used: 4096
      rdev: struct
        specdata1: 0
        specdata2: 0
      fsid: 2049
      fileid: 173555
      atime: struct
        seconds: 1000000000
        nseconds: 0
      mtime: struct
        seconds: 1000000001
        nseconds: 500000000
      ctime: struct
        seconds: 1000000002
        nseconds: 1
"""),
    (NFS_3, "GETATTR3res",
     "00000046",
     b"""case NFS3ERR_STALE = 70
  void
"""),
    (MESSAGES, "rpc_msg",
     "00000001 00000000 00000002 000186a0 00000005 00000000 00000000 00000000 00000000 00000000",
     b"""struct
  xid: 1
  body: case CALL = 0
    cbody: struct
      rpcvers: 2
      prog: 100000
      vers: 5
      proc: 0
      cred: struct
        flavor: AUTH_NONE = 0
        body: 0x
      verf: struct
        flavor: AUTH_NONE = 0
        body: 0x
"""),
    (MESSAGES, "rpc_msg",
     "00000001 00000001 00000000 00000000 00000000 00000002 00000002 00000004",
     b"""struct
  xid: 1
  body: case REPLY = 1
    rbody: case MSG_ACCEPTED = 0
      areply: struct
        verf: struct
          flavor: AUTH_NONE = 0
          body: 0x
        reply_data: case PROG_MISMATCH = 2
          mismatch_info: struct
            low: 2
            high: 4
"""),
]
