"""JSON texts of a few kinds at a time, worked by hand after docs/FORMATS.md section 5 (RFC 4506, RFC 8259): what is read,
and what is refused within depth 8 and 64 bytes, where `^` stands before the place."""
from .json_read import MONTHS
from .shared import FILE, SILLYPROG

# A number, an entry of RFC 4506 section 4.19, an optional one, an optional one of that, arrays, and contents.
KINDS = b"""struct entry { int item; entry *next; }; typedef entry *list; typedef list *outer; typedef int some<3>;
typedef int two[2]; typedef opaque pair[2]; typedef string three<3>;"""
# Unions by a long enumeration, by a number and by a flag.
UNIONS = MONTHS + b"""union by_month switch (month m) { case DEC: hyper case_; case MAY: hyper day; };
union by_number switch (int n) { case 2: hyper hex; default: void; };
union by_flag switch (bool b) { case TRUE: hyper at; case FALSE: void; }; typedef string lines<>;
typedef lines list_of_lines<>;"""
# What is read: a text of declarations, a kind, the JSON, and the bytes.
READ = [
    # The file of RFC 4506 section 7 with white space and escapes, and without an interpretor.
    (FILE, "file",
     b'{"filename":"sillyprog","type":{"case":"EXEC","interpretor":"lisp"},"owner":"john","data":"287175697429"}',
     SILLYPROG),
    (FILE, "file", b'\n{ "owner" : "j\\u006fhn",\t"type": {"interpretor":"lisp", "case": 2},'
     b'"data":"287175697429" ,"filename":"sillyprog"} ', SILLYPROG),
    (FILE, "file",
     b'{"type":{"case":"TEXT"},"filename":"sillyprog","owner":{"hex":"6a6F686e"},"data":"287175697429"}',
     "00000009 73696c6c 7970726f 67000000 00000000 00000004 6a6f686e 00000006 28717569 74290000"),
    # Each kind.
    (KINDS, "int", b"-2147483648", "80000000"),
    (KINDS, "int", b'"-0"', "00000000"),
    (KINDS, "some", b"[1,-2,3]", "00000003 00000001 fffffffe 00000003"),
    (KINDS, "some", b"[]", "00000000"),
    (KINDS, "two", b"[1,2]", "00000001 00000002"),
    (KINDS, "unsigned", b"4294967295", "ffffffff"),
    (KINDS, "hyper", b'"-9223372036854775808"', "80000000 00000000"),
    (KINDS, "hyper", b"9", "00000000 00000009"),
    (KINDS, "unsigned-hyper", b'"18446744073709551615"', "ffffffff ffffffff"),
    (KINDS, "bool", b"true", "00000001"),
    (KINDS, "pair", b'"00fF"', "00ff0000"),
    (KINDS, "three", b'"\\u00e9\\n"', "00000003 c3a90a00"),
    (KINDS, "three", b'{"hex":"ff"}', "00000001 ff000000"),
    (KINDS, "list", b"null", "00000000"),
    (KINDS, "outer", b"null", "00000000"),
    (KINDS, "list", b'{"item":1,"next":{"next":null,"item":2}}', "00000001 00000001 00000001 00000002 00000000"),
    (KINDS, "outer", b"[null]", "00000001 00000000"),
    # Names and numbers of a long enumeration.
    (UNIONS, "month", b'"DEC"', "0000000c"),
    (UNIONS, "month", b"7", "00000007"),
    (UNIONS, "months", b'["MAR",4,"\\u004dAR"]', "00000003 00000003 00000004 00000003"),
    # Unions, by the case first and last.
    (UNIONS, "by_month", b'{"day":"31","case":"MAY"}', "00000005 00000000 0000001f"),
    (UNIONS, "by_month", b'{"case":12,"case_":-1}', "0000000c ffffffff ffffffff"),
    (UNIONS, "by_number", b'{"case":"2","hex":"-0"}', "00000002 00000000 00000000"),
    (UNIONS, "by_number", b'{"case":-7}', "fffffff9"),
    (UNIONS, "by_flag", b'{"case":true,"at":8}', "00000001 00000000 00000008"),
    (UNIONS, "by_flag", b'{"case":false}', "00000000"),
]
# A name of 62 bytes, with which a file has more than 64.
LONG = b"0123456789" * 6 + b"01"
# What is refused: a text of declarations, a kind, the JSON, and why.
REFUSED = [
    (FILE, "file", b'{"filename":"a","type":{"case":"TEXT"},"owner":"b",^"date":"00"}', "UnknownMember"),
    (FILE, "file", b'{"filename":"a","type":{"case":"TEXT"},^"filename":"b","data":"00"}', "MemberTwice"),
    (FILE, "file", b' ^{"filename":"a","type":{"case":"TEXT"},"data":"00"}', "MissingMember"),
    (FILE, "file", b'{"filename":"a","type":{"case":^"LISP"},"owner":"b","data":"00"}', "UnknownName"),
    (FILE, "file", b'{"filename":"a","type":{"case":^3},"owner":"b","data":"00"}', "OutOfRange"),
    (FILE, "file", b'{"filename":"a","type":{"case":0},"owner":"b","data":^"000"}', "BadHex"),
    (FILE, "file", b'{"filename":"a","type":{"case":0},"owner":^7,"data":"00"}', "WrongType"),
    (FILE, "file", b'{"filename":"a","type":{"case":0},"owner":"b","data":"00"},^', "NotJson"),
    (FILE, "file", b'{"filename":"%s","type":{"case":0},"owner":"b","data":"00"}^' % LONG, "TooLarge"),
    # Each kind.
    (KINDS, "int", b"^2147483648", "OutOfRange"),
    (KINDS, "int", b" ^1.0", "NotWhole"),
    (KINDS, "int", b"^1e3", "NotWhole"),
    (KINDS, "int", b"^01", "NotJson"),
    (KINDS, "int", b'^"01"', "OutOfRange"),
    (KINDS, "int", b"^true", "WrongType"),
    (KINDS, "int", b"^", "NotJson"),
    (KINDS, "int", b'"^\xff"', "NotJson"),
    (KINDS, "some", b"^[1,2,3,4]", "WrongLength"),
    (KINDS, "some", b"[1, ^x]", "NotJson"),
    (KINDS, "some", b"[1, 2^}", "NotJson"),
    (KINDS, "some", b"[1,2,^]", "NotJson"),
    (KINDS, "some", b'[1,2,^"x"]', "OutOfRange"),
    (KINDS, "some", b"[\n^null]", "WrongType"),
    (KINDS, "two", b"^[1]", "WrongLength"),
    (KINDS, "bool", b"^1", "WrongType"),
    (KINDS, "pair", b'^"00"', "WrongLength"),
    (KINDS, "pair", b'^"00g0"', "BadHex"),
    (KINDS, "three", b'^"abcd"', "WrongLength"),
    (KINDS, "three", b'^{"hax":"ff"}', "WrongType"),
    (KINDS, "outer", b"^{}", "WrongType"),
    (KINDS, "outer", b"^[null,null]", "WrongLength"),
    # Deeper than the limit by one.
    (KINDS, "list", b'{"item":1,"next":' * 4 + b"null" + b"}" * 4 + b"^", "TooDeep"),
    # Names and numbers of a long enumeration.
    (UNIONS, "months", b'["MAR", ^"mar"]', "UnknownName"),
    (UNIONS, "months", b'["MAR", ^""]', "UnknownName"),
    (UNIONS, "month", b"^13", "OutOfRange"),
    (UNIONS, "month", b'^"13"', "UnknownName"),
    (UNIONS, "month", b"^2147483648", "OutOfRange"),
    # Unions.
    (UNIONS, "by_month", b'{"case":^"JUN"}', "NoArm"),
    (UNIONS, "by_month", b'{"case":^13,"day":1}', "OutOfRange"),
    (UNIONS, "by_month", b' ^{"day":1}', "MissingMember"),
    (UNIONS, "by_month", b' ^{"case":5}', "MissingMember"),
    (UNIONS, "by_month", b' {"case":5,^"date":1}', "UnknownMember"),
    (UNIONS, "by_month", b'{"case":5,"day":1,^"x":1}', "UnknownMember"),
    (UNIONS, "by_month", b'{"case":5,"day":1,^"case":5}', "MemberTwice"),
    (UNIONS, "by_month", b'{"case":5,"day":1,^"day":1}', "MemberTwice"),
    (UNIONS, "by_month", b'{"case":12,^"case":1}', "MemberTwice"),
    (UNIONS, "by_number", b'{"case":3,^"hex":1}', "UnknownMember"),
    (UNIONS, "by_flag", b'{"case":^1,"at":1}', "WrongType"),
    (UNIONS, "by_flag", b"^[]", "WrongType"),
    (UNIONS, "void", b'{^"a":1}', "UnknownMember"),
    # Places in the third line, and behind the fourth.
    (UNIONS, "by_flag", b'{\n  "case": true,\r\n  "at": ^"x"\n}', "OutOfRange"),
    (UNIONS, "list_of_lines", b'[\n"a",\r\n"%s"\n]^' % LONG, "TooLarge"),
]
