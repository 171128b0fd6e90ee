"""Rows that are run as they stand, by all that is told of each: streams that are served, answers that are printed,
tasks of the program, and texts of declarations. A row has what the RFCs or the documents want of it."""
from .names import (
    GARBAGE_ARGS,
    PMAPPROC_NULL,
    PROG_MISMATCH,
    RPCBPROC_DUMP,
    RPCBPROC_GETADDR,
    RPCBPROC_GETVERSADDR,
    RPCBPROC_SET,
    RPCBPROC_UNSET,
    SUCCESS,
)
from .shared import (
    AT_9,
    FILE,
    LIST,
    OWNER,
    OWN_ROWS,
    PING,
    SILLYPROG,
    SILLYPROG_LINES,
    TCP_7,
    WIDEST,
    call,
    marked,
    octets,
    reply,
)

# A row that user 1001 sets, 1000 cannot remove, and the superuser removes once; and the checks in their order, with a
# row whose owner is the caller, whatever its argument says (RFC 1833 section 2.1).
BY_1001 = "00000001 00000014 00000000 00000000 000003e9 00000000 00000000 00000000 00000000"
BY_1000, BY_ROOT = BY_1001.replace("000003e9", "000003e8"), BY_1001.replace("000003e9", "00000000")


def called_by(caller, vers, proc, args):
    return octets(f"00000001 00000000 00000002 000186a0 {vers:08x} {proc:08x} {caller} {args}")


# The longest body of AUTH_SYS, 340 bytes, the longest address and the longest netid.
LONG_CREDENTIAL = "00000001 000000ff" + "61" * 255 + "00 00000002 00000003 00000010" + "00" * 64
LONG_NULL = called_by(f"00000001 00000154 {LONG_CREDENTIAL} 00000000 00000000", 2, PMAPPROC_NULL, "")
LONG_TEXT = "00000100" + "61" * 256
SERVED_SO = [
    [
        (called_by(BY_1001, 3, RPCBPROC_SET, f"{TCP_7} {AT_9} 00000000"), reply(SUCCESS + "00000001")),
        (called_by(BY_1000, 3, RPCBPROC_UNSET, f"{TCP_7} 00000000 00000000"), reply(SUCCESS + "00000000")),
        (called_by(BY_ROOT, 3, RPCBPROC_UNSET, f"{TCP_7} 00000000 00000000"), reply(SUCCESS + "00000001")),
        (called_by(BY_ROOT, 3, RPCBPROC_UNSET, f"{TCP_7} 00000000 00000000"), reply(SUCCESS + "00000000")),
    ],
    [
        (call(5, 9, ""), reply(PROG_MISMATCH + "00000002 00000004")),
        (call(4, RPCBPROC_GETVERSADDR, ""), reply(GARBAGE_ARGS)),
        (called_by(BY_1001, 3, RPCBPROC_SET, f"{TCP_7} {AT_9} {OWNER}"), reply(SUCCESS + "00000001")),
        (
            call(3, RPCBPROC_DUMP, ""),
            reply(SUCCESS + f"{OWN_ROWS} 00000001 {TCP_7} {AT_9} 00000004 31303031 00000000"),
        ),
    ],
    [
        (LONG_NULL, reply(SUCCESS)),
        (
            call(4, RPCBPROC_SET, f"00001388 00000001 00000003 74637000 {LONG_TEXT} 00000000"),
            reply(SUCCESS + "00000001"),
        ),
        (call(4, RPCBPROC_GETADDR, "00001388 00000001 00000000 00000000 00000000"), reply(SUCCESS + f"{LONG_TEXT}")),
        (
            call(4, RPCBPROC_SET, f"00001388 00000001 00000040 {'74' * 64} {LONG_TEXT} 00000000"),
            reply(SUCCESS + "00000001"),
        ),
    ],
]
# What comes for a call for all rows, by its version, the status and what is printed. The rows are the registry's own
# and one more; and one whose texts are `a"b`, a backslash and a line feed, and none, with a byte behind that is left
# out.
LINES_4 = (
    b"program vers netid address owner\n"
    + b"".join(
        b"100000 %d %s 0.0.0.0.0.111 superuser\n" % (vers, netid) for vers in (2, 3, 4) for netid in (b"tcp", b"udp")
    )
    + b"536870912 1 tcp 0.0.0.0.8.1 unknown\n"
)
LINES_2 = (
    b"program vers prot port\n"
    + b"".join(b"100000 %d %d 111\n" % (vers, prot) for vers in (2, 3, 4) for prot in (6, 17))
    + b"536870912 1 6 2049\n"
)
ROW_4 = "00000001 20000000 00000001 00000003 74637000 0000000b 302e302e 302e302e 382e3100 00000007 756e6b6e 6f776e00"
ROWS_2 = "".join(f"00000001 000186a0 {vers:08x} {prot:08x} 0000006f" for vers in (2, 3, 4) for prot in (6, 17))
ROW_2 = "00000001 20000000 00000001 00000006 00000801"
ODD = "00000001 ffffffff 00000000 00000003 61226200 00000002 5c0a0000 00000000 00000000 2a"
ODD_LINES = b"program vers netid address owner\n4294967295 0 a\\x22b \\x5c\\x0a \n"
ACCEPTED, DENIED = "00000001 00000001 00000000 00000000 00000000 ", "00000001 00000001 00000001 "
ANSWERS = [
    (4, marked(octets(f"{ACCEPTED} 00000000 {OWN_ROWS} {ROW_4} 00000000")), 0, LINES_4),
    (3, marked(octets(f"{ACCEPTED} 00000000 {OWN_ROWS} {ROW_4} 00000000")), 0, LINES_4),
    (2, marked(octets(f"{ACCEPTED} 00000000 {ROWS_2} {ROW_2} 00000000")), 0, LINES_2),
    (4, marked(octets(f"{ACCEPTED} 00000000 {ODD}")), 0, ODD_LINES),
    (4, b"", 1, b"refused Truncated at 0\n"),
    (4, octets("8000"), 1, b"refused Truncated at 2\n"),
    (4, octets("80000004 0000"), 1, b"refused Truncated at 6\n"),
    (4, octets("81000001"), 1, b"refused TooLong at 0\n"),
]
# The reply, as one fragment, and what follows `refused`.
REFUSED_ANSWERS = [
    ("00000001", b"Truncated"),
    ("00000001 00000000", b"NotAReply"),
    ("00000001 00000001 00000002", b"BadStatus"),
    ("00000001 00000001 00000000 00000000 00000191", b"BadAuth"),
    (ACCEPTED + "00000001 00000000", b"Rest"),
    ("00000002 00000001 00000000 00000000 00000000 00000000", b"WrongXid 2"),
    (ACCEPTED + "00000001", b"PROG_UNAVAIL"),
    (ACCEPTED + "00000002 00000002 00000004", b"PROG_MISMATCH 2 4"),
    (ACCEPTED + "00000003", b"PROC_UNAVAIL"),
    (ACCEPTED + "00000004", b"GARBAGE_ARGS"),
    (ACCEPTED + "00000005", b"SYSTEM_ERR"),
    (DENIED + "00000000 00000002 00000002", b"RPC_MISMATCH 2 2"),
    (DENIED + "00000001 00000001", b"AUTH_ERROR 1"),
    (ACCEPTED + "00000000 00000002", b"BadBool at 0"),
    (ACCEPTED + "00000000", b"Truncated at 0"),
    (ACCEPTED + "00000000 00000001 00000001 00000001 00000001 61000001", b"BadPadding at 16"),
]
CHECK, SHOW, RECORDS, HEX = "Task::Check", "Task::Show", "Task::Records", True
UNION = b"union u switch (int n) { case 1: int x; };"
PROGRAMS = b"""typedef int three[3];
program A {
   version ONE { void ZERO(void) = 0; hyper TWO(int, hyper, three) = 2; } = 1;
   version TEN { bool BOTH(bool, int) = 7; } = 10;
} = 4294967295;
program B { version ONE { three BACK(three) = 2; } = 3; } = 0;
"""
ZEROS = b"00000000 00000000 00000000 00000000"
SILLY = SILLYPROG.encode()
# Values: what is done, the text, the kind, the input as hexadecimal, the status and what is printed.
VALUES = [
    (CHECK, b"", "opaque", b"00000003 61626300", 0, b"ok 8\n"),
    (CHECK, b"", "opaque", b"00000003 61626301", 1, b"refused BadPadding at 4\n"),
    (CHECK, b"", "opaque", b"00000000 0000002A", 0, b"ok 4, more follows\n"),
    (CHECK, b"", "opaque", b"0000000", 1, b"refused bad hex\n"),
    (CHECK, b"", "opaque", b"0000 000g", 1, b"refused bad hex\n"),
    (CHECK, b"", "hyper", b"80000000 00000000 00", 0, b"ok 8, more follows\n"),
    (CHECK, b"", "bool", b"", 1, b"refused Truncated at 0\n"),
    (CHECK, b"", "bool", b"\t0 0\x0b00\x0c\r\n0002", 1, b"refused BadBool at 0\n"),
    (CHECK, b"", "string", b"00000009 73696c6c 79", 1, b"refused Truncated at 9\n"),
    (CHECK, FILE, "file", SILLY, 0, b"ok 48\n"),
    (CHECK, FILE, "filekind", b"00000003", 1, b"refused BadNumbered at 0\n"),
    (CHECK, FILE, "bool", b"00000002", 1, b"refused BadBool at 0\n"),
    (CHECK, FILE, "unsigned-hyper", b"ffffffffffffffff", 0, b"ok 8\n"),
    (CHECK, UNION, "u", b"00000002", 1, b"refused BadCase at 0\n"),
    (CHECK, LIST, "list", b"00000001 00000001 61000000 00000001 00000002 62630000 00000000", 0, b"ok 28\n"),
    (CHECK, LIST, "list", b"00000000 0a", 0, b"ok 4, more follows\n"),
    (CHECK, LIST, "entry", b"", 1, b"refused Truncated at 0\n"),
    (CHECK, PING, "536870912.1.1.1", b"00000002 68690000", 0, b"ok 8\n"),
    (CHECK, PROGRAMS, "4294967295.1.2.1", ZEROS, 0, b"ok 4, more follows\n"),
    (CHECK, PROGRAMS, "4294967295.1.2.2", ZEROS, 0, b"ok 8, more follows\n"),
    (CHECK, PROGRAMS, "4294967295.1.2.3", ZEROS, 0, b"ok 12, more follows\n"),
    (CHECK, PROGRAMS, "4294967295.1.2.result", ZEROS, 0, b"ok 8, more follows\n"),
    (CHECK, PROGRAMS, "4294967295.10.7.1", ZEROS, 0, b"ok 4, more follows\n"),
    (CHECK, PROGRAMS, "0.3.2.1", ZEROS, 0, b"ok 12, more follows\n"),
    (CHECK, PROGRAMS, "0.3.2.result", ZEROS, 0, b"ok 12, more follows\n"),
    (CHECK, PROGRAMS, "three", ZEROS, 0, b"ok 12, more follows\n"),
    (CHECK, PING, "536870912.1.1.1", ZEROS, 0, b"ok 4, more follows\n"),
    (CHECK, PING, "536870912.1.1.result", ZEROS, 0, b"ok 4, more follows\n"),
    (SHOW, FILE, "file", SILLY, 0, SILLYPROG_LINES + b"ok 48\n"),
    (SHOW, FILE, "file", SILLY.removesuffix(b"74290000"), 1, b"refused Truncated at 44\n"),
    (SHOW, LIST, "list", b"00000000", 0, b"absent\nok 4\n"),
    (SHOW, PING, "536870912.1.1.1", b"00000002 68690000", 0, b'"hi"\nok 8\n'),
    (SHOW, PING, "string", b"00000003 22095c00", 0, b'"\\x22\\x09\\x5c"\nok 8\n'),
    (SHOW, PING, "int", b"ffffffff 00", 0, b"-1\nok 4, more follows\n"),
    (SHOW, b"", "string", b"00000003 22095c01", 1, b"refused BadPadding at 4\n"),
    (SHOW, b"", "string", b"00000003", 1, b"refused Truncated at 4\n"),
    (SHOW, b"", "string", b"0000000", 1, b"refused bad hex\n"),
]
# Texts that are refused before the name, the limits and the input are looked at: the fault, and its place.
TEXTS = [
    (b"struct a { a x; };", b"10 (7) at 1:1"),
    (b"typedef opaque x[0];", b"10 (2) at 1:9"),
    (b"typedef double d;", b"4 at 1:9"),
    (b"struct s { void; };", b"10 (3) at 1:1"),
    (b"union u switch (bool b) { case TRUE: u x; case FALSE: u y; default: void; };", b"10 (7) at 1:1"),
    (b"const A = 08;", b"2 at 1:11"),
    (b"typedef int t<N>; const N = 3;", b"6 at 1:15"),
    (b"typedef a b; typedef b a;", b"9 at 1:11"),
    (b"/* x", b"1 at 1:1"),
    (b"const a = 1", b"3 at 1:12"),
    (b"typedef unsigned u;", b"3 at 1:18"),
    (b"enum e { A = 1, A = 2 };", b"5 at 1:17"),
    (b"typedef opaque o<TRUE>;", b"7 at 1:18"),
    (b"const A = 1;\n\nconst B = 4294967296;\ntypedef opaque o<B>;", b"8 at 4:18"),
    (b"program P { version A { void N(void) = 0; } = 1; version B { void N(void) = 0; } = 1; } = 5;", b"5 at 1:84"),
]
# Streams of records: the limit, whether they are hexadecimal, the input, the status, what is printed and what is said.
STREAMS = [
    (WIDEST, HEX, b"00000002 6162 80000001 63", 0, b"80000003616263\n", b""),
    (WIDEST, HEX, b"00000000 00000000 80000000", 0, b"80000000\n", b""),
    (WIDEST, HEX, b"", 0, b"\n", b""),
    (4, HEX, b"00000003 616263 80000002 6465", 1, b"\n", b"refused TooLong at 7\n"),
    (4, HEX, b"80000003 6162", 1, b"\n", b"refused Truncated at 6\n"),
    (0, HEX, b"80000000", 0, b"80000000\n", b""),
    (0, HEX, b"80000001", 1, b"\n", b"refused TooLong at 0\n"),
    (9, HEX, b"80000001 4A 800000", 1, b"800000014a\n", b"refused Truncated at 8\n"),
    (9, HEX, b"8", 1, b"", b"refused bad hex\n"),
    (4, False, b"\0\0\0\x02ab\x80\0\0\x01c", 0, b"\x80\0\0\x03abc", b""),
    (4, False, b"\x80\0\0\x01a\0\0\0\x03abc\x80\0\0\x02de", 1, b"\x80\0\0\x01a", b"refused TooLong at 12\n"),
    (4, False, b"\x80\0\0\x03ab", 1, b"", b"refused Truncated at 6\n"),
]
# Where a check stops: the kind, the input, how many bytes a read gives, the read that fails, the status, what is
# printed and what is said. After a refusal no read is made, after a value one more byte or the end is seen.
BAD_BOOL, READ_FAULT = (1, b"refused BadBool at 0\n", b""), (3, b"", b"read fault\n")
STOPS = [
    ("bool", b"\0\0\0\x02", 4, 2, *BAD_BOOL),
    ("bool", b"\0\0\0\x02", 1, 5, *BAD_BOOL),
    ("bool", b"\0\0\0\x02 and more", 4096, 2, *BAD_BOOL),
    ("bool", b"\xff" * 100000, 4096, 2, *BAD_BOOL),
    ("opaque", b"\0\0\0\x01a\0\0\x01", 4, 3, 1, b"refused BadPadding at 4\n", b""),
    ("bool", b"\0\0\0\x02", 1, 1, *READ_FAULT),
    ("bool", b"\0\0\0\x02", 1, 2, *READ_FAULT),
    ("bool", b"\0\0\0\x02", 1, 3, *READ_FAULT),
    ("bool", b"\0\0\0\x02", 1, 4, *READ_FAULT),
    ("bool", b"\0\0\0\x01", 4, 2, *READ_FAULT),
    ("bool", b"\0\0\0\x01", 4, 3, 0, b"ok 4\n", b""),
    ("bool", b"\0\0\0\x01\0", 4, 2, *READ_FAULT),
    ("bool", b"\0\0\0\x01\0", 4, 3, 0, b"ok 4, more follows\n", b""),
    ("bool", b"\0\0\0\x01\0", 5, 2, 0, b"ok 4, more follows\n", b""),
]
# The limit on bytes and the read of one byte that fails: a byte is read after a value, and none after a refusal.
BYTES = [
    (8, 10, 0, b"ok 8, more follows\n", b""),
    (8, 9, *READ_FAULT),
    (4, 6, 1, b"refused TooLarge at 4\n", b""),
    (4, 5, 1, b"refused TooLarge at 4\n", b""),
    (4, 4, *READ_FAULT),
]
# How many entries a list has, the limit on depth, the status and what is printed. Each entry is a level of the list and
# one of its own, and what ends it is one more.
DEPTHS = [
    (2047, 4096, 0, b"ok 16380\n"),
    (2048, 4096, 1, b"refused TooDeep at 16380\n"),
    (1, 4, 0, b"ok 12\n"),
    (2, 4, 1, b"refused TooDeep at 12\n"),
    (2, 5, 0, b"ok 20\n"),
    (1, 2, 1, b"refused TooDeep at 4\n"),
]
# How many zeros stand before an empty record, how many bytes a read gives, and how it ends.
READS = [
    (4000000, 4096, 0, b"\x80\0\0\0", b""),
    (1048568, 1, 0, b"\x80\0\0\0", b""),
    (1048576, 1, 3, b"", b"too many reads\n"),
]
# What stands inside bodies of structures, how many of them there are, and the number, inner number, line and column of
# the fault, none where the text is read. A body in the switch declaration of a union is inside the union's (RFC 4506
# section 6.3).
NESTED = [
    (b"int a;", 32, None),
    (b"int a;", 33, (12, 0, 1, 304)),
    (b"\nenum { A = 1 } e;", 32, (12, 0, 2, 6)),
    (b"\nunion switch (int d) { case 1: void; } u;", 31, None),
    (b"\nunion switch (int d) { case 1: void; } u;", 32, (12, 0, 2, 22)),
    (b"\nunion switch (enum { A = 1 } d) { case 1: void; } u;", 30, None),
    (b"\nunion switch (enum { A = 1 } d) { case 1: void; } u;", 31, (12, 0, 2, 20)),
    (b"\nunion switch (enum { A = 1 } d) { case 1: void; } u;", 32, (12, 0, 2, 20)),
    (b"union switch (string d<4>) { case 1: void; } b;", 32, (12, 0, 1, 324)),
    (b"union switch (int d { case 1: void; } b;", 32, (3, 0, 1, 317)),
    (b"union switch (union switch (int d) { case 1: void; } e) { case 1: void; } u;", 32, (12, 0, 1, 332)),
    (b"union (int d) { case 1: void; } b;", 32, (3, 0, 1, 303)),
    (b"union switch (int *d) { case 1: void; } b;", 32, (12, 0, 1, 319)),
    (b"union switch (struct NAME d) { case 1: void; } b;", 32, (12, 0, 1, 326)),
    (b"union switch (struct s *d) { case 1: void; } b;", 32, (12, 0, 1, 324)),
    (b"union switch (struct { int x; } d) { case 1: void; } b;", 32, (12, 0, 1, 318)),
    (b"union switch (struct NAME d { case 1: void; } b;", 32, (3, 0, 1, 325)),
    (b"union switch (struct d) { case 1: void; } b;", 32, (3, 0, 1, 319)),
    (b"union switch (long d) { case 1: void; } b;", 32, (12, 0, 1, 319)),
    (b"struct NAME b;", 32, (6, 0, 1, 304)),
    (b"union switch (unsigned long d) { case 1: void; } b;", 32, (12, 0, 1, 328)),
    (b"union switch (struct s d[2]) { case 1: void; } b;", 32, (12, 0, 1, 326)),
    (b"union switch (struct s d<>) { case 1: void; } b;", 32, (12, 0, 1, 325)),
    (b"union switch (union switch (struct s d) { case 1: void; } e) { case 1: void; } u;", 32, (12, 0, 1, 337)),
    (b"union switch (float d) { case 1: void; } b;", 32, (4, 0, 1, 311)),
    (b"union switch (struct float d) { case 1: void; } b;", 32, (3, 0, 1, 318)),
    (b"union switch (void) { case 1: void; } b;", 32, (3, 0, 1, 311)),
    (b"unsigned struct { int a; } b;", 32, (3, 0, 1, 306)),
    (b"struct float b;", 32, (3, 0, 1, 304)),
]
