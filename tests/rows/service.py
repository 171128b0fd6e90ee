"""Connections and datagrams that are answered one after another, and a registry that is asked for its rows by datagram,
by all that is told of each: the lines that are printed, and what goes out."""
from .shared import GETPORT, NULL, SET, reply

# The null call in two fragments; and SET, GETPORT and DUMP of version 2 that libtirpc sent, with what rpcbind replied.
NULL_CALL = "00000014 00000001 00000000 00000002 000186a0 00000002 80000014" + " 00000000" * 5
NULL_REPLY = "80000018 00000001 00000001 00000000 00000000 00000000 00000000"
SET_CALL = """80000038 1975bccc 00000000 00000002 000186a0 00000002 00000001 00000000 00000000 00000000 00000000
    20000000 00000001 00000006 00000801"""
SET_REPLY = "8000001c 1975bccc 00000001 00000000 00000000 00000000 00000000 00000001"
GETPORT_CALL = """80000038 87f9b72a 00000000 00000002 000186a0 00000002 00000003 00000000 00000000 00000000 00000000
    20000000 00000001 00000006 00000000"""
GETPORT_REPLY = "8000001c 87f9b72a 00000001 00000000 00000000 00000000 00000000 00000801"
DUMP_CALL = "80000028 deb550c3 00000000 00000002 000186a0 00000002 00000004 00000000 00000000 00000000 00000000"
DUMP_REPLY = """800000a8 deb550c3 00000001 00000000 00000000 00000000 00000000
    00000001 000186a0 00000002 00000006 0000006f 00000001 000186a0 00000002 00000011 0000006f
    00000001 000186a0 00000003 00000006 0000006f 00000001 000186a0 00000003 00000011 0000006f
    00000001 000186a0 00000004 00000006 0000006f 00000001 000186a0 00000004 00000011 0000006f
    00000001 20000000 00000001 00000006 00000801 00000000"""
# What a client sends, the read of it that fails, the only reply that it takes, and its line.
CLIENTS = [
    (NULL_CALL, 0, NULL_REPLY, b"1 records, 1 replies"),
    ("", 0, "", b"0 records, 0 replies"),
    ("80000000", 0, "", b"1 records, 0 replies"),
    (SET_CALL, 0, SET_REPLY, b"1 records, 1 replies"),
    ("80010001", 0, "", b"TooLong at 0"),
    ("7fffffff 00", 0, "", b"TooLong at 0"),
    ("80000028 00000001 00", 0, "", b"Truncated at 9"),
    (NULL_CALL, 3, NULL_REPLY, b"Read"),
    (NULL_CALL, 0, "", b"Write"),
    (GETPORT_CALL, 0, GETPORT_REPLY, b"1 records, 1 replies"),
    (DUMP_CALL, 0, DUMP_REPLY, b"1 records, 1 replies"),
]
# How many clients come, how many are served, the write of the lines that fails, the status, how many lines stand behind
# the first, or None where that is not there either, what is said, and how many clients are not waited for: the first
# line is printed before a client is, and that of each connection before the next one is.
WRITE_FAULT = b"write fault\n"
ENDINGS = [
    (11, 11, 0, 0, 11, b"", 0),
    (11, 0, 0, 0, 0, b"", 11),
    (11, 1, 0, 0, 1, b"", 10),
    (1, 2, 0, 3, 1, b"socket fault\n", 0),
    (0, 1, 0, 3, 0, b"socket fault\n", 0),
    (11, 1, 1, 3, None, WRITE_FAULT, 11),
    (11, 1, 2, 3, 0, WRITE_FAULT, 10),
    (11, 3, 1, 3, None, WRITE_FAULT, 11),
    (11, 3, 2, 3, 0, WRITE_FAULT, 10),
    (11, 3, 3, 3, 1, WRITE_FAULT, 9),
]
# The most rows that a list has within depth 4096.
MOST_ROWS = 2047
# Datagrams, how many are to be answered, the call of the port and the write of the lines that fail; the status, the
# lines, what is said, and the datagrams that are sent. A receive that fails uses up one; an empty datagram is no call;
# a send fails; none is left; none is to be answered; a port of no row is 0; where the first line can not be written no
# second datagram is answered; and a row that is set by one datagram is found by the next.
NO_ROW, DONE, AT_2049 = reply("00000000 00000000"), reply("00000000 00000001"), reply("00000000 00000801")
NOTHING = reply("00000000")
DATAGRAMS = [
    ([NULL], 2, 1, 0, 0, b"datagram 1: Read\ndatagram 2: reply\n", b"", [NOTHING]),
    ([b"", NULL], 2, 0, 0, 0, b"datagram 1: no reply\ndatagram 2: reply\n", b"", [NOTHING]),
    ([SET, NULL], 2, 2, 0, 0, b"datagram 1: Write\ndatagram 2: reply\n", b"", [NOTHING]),
    ([], 1, 0, 0, 0, b"datagram 1: Read\n", b"", []),
    ([NULL], 0, 0, 0, 0, b"", b"", []),
    ([GETPORT], 1, 0, 0, 0, b"datagram 1: reply\n", b"", [NO_ROW]),
    ([NULL, NULL], 2, 0, 1, 3, b"", WRITE_FAULT, [NOTHING]),
    ([SET, GETPORT], 2, 0, 0, 0, b"datagram 1: reply\ndatagram 2: reply\n", b"", [DONE, AT_2049]),
]
# What comes, the version that is asked for, the call of the port and the write of the lines that fail; the status, the
# lines, what is said, and whether the call was sent. Rows, none and one; what is no reply to the call; a send, a
# receive and a write of the lines that fails; and no datagram that is left.
READ_FAULT, HEADER_4 = b"read fault\n", b"program vers netid address owner\n"
NO_ROWS, ONE_ROW = NO_ROW, reply("00000000 00000001 000186a0 00000002 00000011 0000006f 00000000")
ASKING = [
    ([NO_ROWS], 4, 0, 0, 0, HEADER_4, b"", True),
    ([ONE_ROW], 2, 0, 0, 0, b"program vers prot port\n100000 2 17 111\n", b"", True),
    ([reply("00000000", 2)], 4, 0, 0, 1, b"refused WrongXid 2\n", b"", True),
    ([b"", NO_ROWS], 4, 0, 0, 1, b"refused Truncated\n", b"", True),
    ([reply("00000005")], 4, 0, 0, 1, b"refused SYSTEM_ERR\n", b"", True),
    ([NO_ROWS], 4, 1, 0, 3, b"", WRITE_FAULT, False),
    ([NO_ROWS], 4, 2, 0, 3, b"", READ_FAULT, True),
    ([NO_ROWS], 4, 0, 1, 3, b"", WRITE_FAULT, True),
    ([], 4, 0, 0, 3, b"", READ_FAULT, True),
]
