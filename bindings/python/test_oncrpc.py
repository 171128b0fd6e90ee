"""What oncrpc.py makes of values, messages, records and rows.

Expected values come from the RFCs, from bytes worked by hand, and from messages that real clients and rpcbind sent
(tests/rows/captured.txt). ONCRPC_LIBRARY names the folder of the shared library, and ONCRPC_LAYOUT a file with what a
C compiler makes of the header; without the second its test is skipped.
"""

import array
import copy
import ctypes
import gc
import itertools
import json
import os
import pickle
import re
import struct
import subprocess
import sys
import threading
import unittest
import warnings

import oncrpc
from oncrpc import Auth, AuthSys, Call, JsonReason, Limits, Member, Reason, Reply, Role, State, Status, TextFault
from oncrpc import XdrType

ROOT = os.path.dirname(os.path.dirname(os.path.dirname(os.path.realpath(__file__))))
#: The value that RFC 4506 section 7 gives, and its lines by docs/FORMATS.md.
FILE = {
    "filename": b"sillyprog",
    "type": {"case": 2, "interpretor": b"lisp"},
    "owner": b"john",
    "data": b"(quit)",
}
FILE_LINES = """struct
  filename: "sillyprog"
  type: case EXEC = 2
    interpretor: "lisp"
  owner: "john"
  data: 0x287175697429
"""


def read(path):
    with open(f"{ROOT}/{path}", encoding="utf-8") as it:
        return it.read()


def words(*numbers):
    return struct.pack(f">{len(numbers)}I", *numbers)


def captured(sort):
    """The messages of one sort that were captured, `call` or `reply`."""
    return [bytes.fromhex(it) for it in re.findall(rf"^{sort} (\w+)$", read("tests/rows/captured.txt"), re.M)]


class Case(unittest.TestCase):
    def setUp(self):
        self.library = oncrpc.Library()

    def declared(self, text):
        declarations = self.library.declarations(text)
        self.addCleanup(declarations.close)
        return declarations

    def refuses(self, reason, at, call, *given, **named):
        with self.assertRaises(oncrpc.RefusedError) as refused:
            call(*given, **named)
        self.assertEqual((refused.exception.reason, refused.exception.at), (reason, at))
        self.assertEqual(refused.exception.status, Status.REFUSED)
        return refused.exception


class Header(unittest.TestCase):
    @unittest.skipUnless("ONCRPC_LAYOUT" in os.environ, "wants what a C compiler makes of the header")
    def test_numbers_and_layouts(self):
        with open(os.environ["ONCRPC_LAYOUT"], encoding="utf-8") as it:
            wanted = set(it.read().splitlines())
        numbers = {f"ONCRPC_{it.name} {it.value}" for names in (Status, Reason, TextFault, State) for it in names}
        numbers |= {f"ONCRPC_{it.name} {it.value}" for it in oncrpc.ItemReason}
        numbers |= {f"ONCRPC_JSON_{it.name} {it.value}" for it in JsonReason}
        forms = [name for name in vars(oncrpc) if name.startswith("_ITEM_")]
        numbers |= {f"ONCRPC{name} {getattr(oncrpc, name)}" for name in forms}
        numbers |= {f"ONCRPC_ROLE_{it.name} {it.value}" for it in Role}
        numbers |= {f"ONCRPC_TYPE_{it.name} {it.value}" for it in XdrType}
        numbers |= {f"ONCRPC_PEER_{it.name} {it.value}" for it in oncrpc.Peer}
        numbers |= {f"ONCRPC_{name} {getattr(oncrpc, name)}" for name in oncrpc.__all__ if name.startswith("MOST_")}
        layouts = set()
        for name, made in oncrpc._STRUCTS.items():
            layouts.add(f"{name}. {ctypes.alignment(made)} {ctypes.sizeof(made)}")
            for field, *_ in made._fields_:
                layouts.add(f"{name}.{field} {getattr(made, field).offset} {getattr(made, field).size}")
        self.assertGreater(len(numbers | layouts), 100)
        of_version = {it for it in wanted if it.startswith("ONCRPC_VERSION_")}
        self.assertEqual((wanted - of_version) ^ (numbers | layouts), set())

    def test_functions(self):
        """Each function of the header is called with as many arguments as it takes there."""
        code = re.sub(r"/\*.*?\*/", "", read("include/oncrpc.h"), flags=re.S)
        declared = re.findall(r"^(?!static)\w[\w ]*[ *](oncrpc_\w+)\((.*?)\);", code, re.M | re.S)
        wanted = {name: given.count(",") + (given != "void") for name, given in declared}
        self.assertEqual({name: len(takes) for name, takes in oncrpc._FUNCTIONS.items()}, wanted)

    def test_arrays(self):
        for packed, made, numbers in [
            (oncrpc._PART, oncrpc._ValuePart, (1, 2, 3, 4, 5, 6, 7, 8)),
            (oncrpc._ITEM, oncrpc._Item, (1, -2, 3, 4, 5)),
        ]:
            self.assertEqual(packed.size, ctypes.sizeof(made))
            self.assertEqual(packed.unpack(bytes(made(*numbers))), numbers)

    def test_version(self):
        numbers = re.findall(r"define ONCRPC_VERSION_(?:MAJOR|MINOR|PATCH) (\d+)u", read("include/oncrpc.h"))
        self.assertEqual(oncrpc.Library().version(), tuple(map(int, numbers)))


class TheFileOfTheRfc(Case):
    """RFC 4506 section 7."""

    def setUp(self):
        super().setUp()
        self.file = self.declared(read("examples/file.x"))
        self.data = bytes.fromhex(read("examples/file.hex"))

    def test_decode(self):
        value = self.file.decode("file", self.data)
        self.assertEqual(value, FILE)
        self.assertEqual(list(value), list(FILE))
        self.assertEqual(value["type"]["case"].name, "EXEC")
        self.assertEqual(repr(value["type"]["case"]), "<EXEC: 2>")

    def test_strings(self):
        value = self.file.decode("file", self.data, encoding="ascii")
        texts = {"filename": "sillyprog", "type": {"case": 2, "interpretor": "lisp"}, "owner": "john"}
        self.assertEqual(value, {**texts, "data": b"(quit)"})
        odd = self.data.replace(b"john", b"j\xf6hn")
        self.assertEqual(self.file.decode("file", odd, encoding="latin-1")["owner"], "j\xf6hn")
        self.assertEqual(self.file.decode("file", odd, encoding="utf-8", errors="replace")["owner"], "j\ufffdhn")
        self.assertRaises(UnicodeDecodeError, self.file.decode, "file", odd, encoding="utf-8")

    def test_other_arms(self):
        self.assertEqual(self.file.decode("filetype", words(0)), {"case": 0})
        self.assertEqual(self.file.decode("filetype", words(1, 1, 0x61000000)), {"case": 1, "creator": b"a"})
        self.assertEqual(self.file.decode("filekind", words(1)).name, "DATA")

    def test_more_follows(self):
        longer = self.data + b"?"
        self.assertEqual(self.file.decode_front("file", longer), (FILE, 48))
        self.assertEqual(self.file.check("file", longer), (48, True))
        self.assertEqual(self.file.check("file", self.data), (48, False))
        with self.assertRaises(oncrpc.MoreFollowsError) as follows:
            self.file.decode("file", longer)
        self.assertEqual((follows.exception.status, follows.exception.at), (Status.MORE_FOLLOWS, 48))

    def test_each_part(self):
        parts = list(self.file.each_part("file", self.data))
        self.assertEqual(parts, list(self.file.parts("file", self.data).parts))
        going = self.file.each_part("file", self.data + b"more")
        self.assertEqual([next(going).at for _ in range(4)], [0, 0, 4, 16])
        owner = going.send(2)
        self.assertEqual((owner.at, owner.name), (28, "owner"))
        with self.assertRaises(StopIteration):
            going.send(1)
        with self.assertRaises(oncrpc.NoKindError):
            next(self.file.each_part("folder", self.data))
        with self.assertRaises(oncrpc.RefusedError):
            next(self.file.each_part("file", self.data[:47]))

    def test_each_part_is_given_back(self):
        """At the end of the parts, where it is closed before it, and behind a fault; nothing where none was started."""
        functions, freed = self.library._functions, []
        free = functions["oncrpc_parts_free"]
        functions["oncrpc_parts_free"] = lambda cursor: freed.append(free(cursor))
        list(self.file.each_part("file", self.data))
        self.assertEqual(len(freed), 1)
        going = self.file.each_part("file", self.data)
        next(going)
        going.close()
        self.assertEqual(len(freed), 2)
        going = self.file.each_part("file", self.data)
        next(going)
        with self.assertRaises(OverflowError):
            going.send(-1)
        self.assertEqual(len(freed), 3)
        with self.assertRaises(oncrpc.NoKindError):
            next(self.file.each_part("folder", self.data))
        self.assertEqual(len(freed), 3)

    def test_long_name(self):
        types = self.declared(f"struct wide {{ int {'n' * 65}; int b; }};")
        found = [(it.name, it.depth) for it in types.each_part("wide", words(1, 2))]
        self.assertEqual(found, [("", 1), ("n" * 65, 2), ("b", 2)])

    def test_find(self):
        for path, at, content, depth, number in [
            ("filename", 4, b"sillyprog", 2, None),
            ("type", 16, words(2), 2, 2),
            ("type.interpretor", 24, b"lisp", 3, None),
            ("owner", 32, b"john", 2, None),
            ("data", 40, b"(quit)", 2, None),
            ("", 0, b"", 1, None),
        ]:
            for data in (self.data, self.data + b"?"):
                part = self.file.find("file", data, path)
                self.assertEqual((part.at, part.content, part.depth, part.name), (at, content, depth, ""))
                self.assertEqual(self.file.number(part), number)
        for path in ("type.creator", "owner[0]", "x", ".", "type."):
            with self.assertRaises(oncrpc.NoPartError):
                self.file.find("file", self.data, path)
        self.refuses(Reason.TRUNCATED, 47, self.file.find, "file", self.data[:47], "type")
        with self.assertRaises(oncrpc.NoKindError):
            self.file.find("folder", self.data, "type")

    def test_kinds(self):
        kind = self.file.named("file")
        self.assertEqual(self.file.kind(kind), (XdrType.STRUCT, 4, 0, 0))
        self.assertEqual([it.name for it in self.file.fields(kind)], ["filename", "type", "owner", "data"])
        self.assertEqual([self.file.kind(it.kind).size for it in self.file.fields(kind)], [255, 0, 32, 65535])
        union, level = self.file.named("filetype"), self.file.named("filekind")
        self.assertEqual(self.file.kind(union), (XdrType.UNION, 0, 0, level))
        self.assertEqual([it[:2] for it in self.file.fields(level)], [("TEXT", 0), ("DATA", 1), ("EXEC", 2)])
        self.assertEqual([self.file.picked(union, it).name for it in range(3)], ["", "creator", "interpretor"])
        self.assertEqual(self.file.picked(level, 2), ("EXEC", 2, level))
        self.assertIsNone(self.file.picked(level, 3))
        self.assertIsNone(self.file.picked(level, 2**64))
        self.assertEqual(self.file.fields(union), [])
        self.assertEqual(self.file.types(), [("filekind", 0, level), ("filetype", 0, union), ("file", 0, kind)])
        self.assertEqual(self.declared("const SIZE = 4;").types(), [])
        with self.assertRaises(oncrpc.NoKindError):
            self.file.kind(1024)

    def test_encode(self):
        self.assertEqual(self.file.encode("file", FILE), self.data)
        texts = {"filename": "sillyprog", "type": {"case": "EXEC", "interpretor": "lisp"}, "owner": "john"}
        self.assertEqual(self.file.encode("file", {"data": bytearray(b"(quit)"), **texts}), self.data)
        self.assertEqual(self.file.encode("filetype", {"case": 0}), words(0))

    def test_encode_in_vain(self):
        for wrong, value in [
            (KeyError, {}),
            (KeyError, {**FILE, "type": {"case": 2}}),
            (KeyError, {**FILE, "type": {}}),
            (ValueError, {**FILE, "more": 1}),
            (ValueError, {**FILE, "type": {"case": 0, "interpretor": b"lisp"}}),
            (ValueError, {**FILE, "type": {"case": "FOLDER"}}),
            (TypeError, {**FILE, "type": 2}),
            (TypeError, {**FILE, "data": "(quit)"}),
            (TypeError, {**FILE, "owner": 7}),
            (TypeError, None),
        ]:
            with self.assertRaises(wrong):
                self.file.encode("file", value)
        for reason, at, value in [
            (Reason.BAD_NUMBERED, 1, {**FILE, "type": {"case": 3}}),
            (Reason.TOO_LONG, 3, {**FILE, "owner": b"j" * 33}),
        ]:
            with self.assertRaises(oncrpc.ItemError) as refused:
                self.file.encode("file", value)
            self.assertEqual((refused.exception.reason, refused.exception.at), (reason, at))

    def test_to_json(self):
        """docs/FORMATS.md, section 5."""
        told = self.file.to_json("file", self.data + b"?")
        self.assertEqual((told.used, told.more_follows), (48, True))
        wanted = {"filename": "sillyprog", "type": {"case": "EXEC", "interpretor": "lisp"}, "owner": "john"}
        self.assertEqual(json.loads(told.lines), {**wanted, "data": "287175697429"})
        indented = self.file.to_json("file", self.data, is_indented=True).lines
        self.assertEqual(json.loads(indented), json.loads(told.lines))
        self.assertEqual((told.lines.count("\n"), indented.count("\n")), (0, 8))
        self.refuses(Reason.TRUNCATED, 47, self.file.to_json, "file", self.data[:47])
        self.refuses(Reason.TOO_DEEP, 0, self.file.to_json, "file", self.data, Limits(depth=1))
        self.refuses(Reason.TOO_LARGE, 44, self.file.to_json, "file", self.data, Limits(bytes=44))

    def test_from_json(self):
        """docs/FORMATS.md, section 5: there and back, and another text that says the same."""
        for is_indented in (False, True):
            told = self.file.to_json("file", self.data, is_indented=is_indented)
            self.assertEqual(self.file.from_json("file", told.lines), self.data)
        value = {"data": "287175697429", "owner": "john", "type": {"interpretor": "lisp", "case": 2}}
        text = json.dumps({**value, "filename": "sillyprog"}, indent="\t")
        for given in (text, text.encode(), bytearray(text.encode())):
            self.assertEqual(self.file.from_json("file", given), self.data)
        with self.library.declarations("typedef string name<>;") as read:
            self.assertEqual(read.from_json("name", '"\u00e9"'), words(2, 0xC3A90000))

    def test_no_value_in_json(self):
        """Each reason, with its place in the text."""
        union = {"case": 2, "interpretor": "lisp"}
        declared = self.declared(read("examples/file.x") + "union picked switch (int d) { case 1: void; };")
        for reason, place, name, text in [
            (JsonReason.NOT_JSON, (0, 1, 1), "int", ""),
            (JsonReason.NOT_JSON, (1, 1, 2), "string", b'"\xff"'),
            (JsonReason.UNKNOWN_MEMBER, (1, 1, 2), "filetype", '{"more": 1, "case": 0}'),
            (JsonReason.MISSING_MEMBER, (0, 1, 1), "filetype", '{"case": 2}'),
            (JsonReason.MEMBER_TWICE, (12, 2, 1), "filetype", '{"case": 0,\n"case": 0}'),
            (JsonReason.WRONG_TYPE, (0, 1, 1), "file", "[]"),
            (JsonReason.OUT_OF_RANGE, (1, 1, 2), "int", " 2147483648"),
            (JsonReason.NOT_WHOLE, (0, 1, 1), "int", "1.5"),
            (JsonReason.UNKNOWN_NAME, (0, 1, 1), "filekind", '"FOLDER"'),
            (JsonReason.BAD_HEX, (0, 1, 1), "opaque", '"0"'),
            (JsonReason.WRONG_LENGTH, (27, 1, 28), "filetype", json.dumps({**union, "interpretor": "l" * 256})),
            (JsonReason.NO_ARM, (9, 1, 10), "picked", '{"case": 2}'),
            (JsonReason.TOO_DEEP, (4096, 1, 4097), "int", "[" * 5000),
        ]:
            with self.subTest(reason), self.assertRaises(oncrpc.JsonError) as caught:
                declared.from_json(name, text)
            error = caught.exception
            self.assertEqual((error.reason, error.status), (reason, Status.BAD_JSON))
            self.assertEqual((error.at, error.line, error.column), place)
        for reason, limits in [(JsonReason.TOO_DEEP, Limits(depth=1)), (JsonReason.TOO_LARGE, Limits(bytes=8))]:
            with self.assertRaises(oncrpc.JsonError) as caught:
                self.file.from_json("filetype", json.dumps(union), limits)
            self.assertEqual((caught.exception.reason, caught.exception.line), (reason, 1))
        self.assertRaises(oncrpc.NoKindError, self.file.from_json, "folder", "{}")
        self.assertRaises(oncrpc.LimitError, self.file.from_json, "file", "{}", Limits(depth=0))

    def test_dialect(self):
        text = "%#include <x.h>\n#ifdef RPC_HDR\ntypedef int here;\n#endif\ntypedef string name<>;"
        for names, is_there in [((), False), (["RPC_XDR"], False), (["RPC_XDR", "RPC_HDR"], True)]:
            with self.library.dialect(text, names) as read:
                self.assertEqual(read.decode("name", words(1, 0x61000000)), b"a")
                if is_there:
                    self.assertEqual(read.decode("here", words(7)), 7)
                else:
                    self.assertRaises(oncrpc.NoKindError, read.named, "here")
        self.assertRaises(TypeError, self.library.dialect, text, "RPC_HDR")
        for name in ("BIG=1", "1BIG", "RPC-HDR", "RPC_HDR\n"):
            self.assertRaises(ValueError, self.library.dialect, text, [name])
        with self.assertRaises(oncrpc.DeclarationError) as caught:
            self.library.dialect("\n#endif")
        self.assertEqual((caught.exception.fault, caught.exception.line), (TextFault.BAD_CHARACTER, 2))

    def test_show(self):
        self.assertEqual(self.file.show("file", self.data + b"?"), (FILE_LINES, 48, True))

    def test_parts(self):
        found = self.file.parts("file", self.data)
        self.assertEqual((len(found.parts), found.used, found.more_follows), (10, 48, False))
        contents = [(it.at, it.name, it.content) for it in found.parts if it.role is Role.CONTENT]
        wanted = [(4, "filename", b"sillyprog"), (24, "interpretor", b"lisp"), (32, "owner", b"john")]
        self.assertEqual(contents, [*wanted, (40, "data", b"(quit)")])
        self.assertEqual(found.parts[3][:4] + found.parts[3][5:], (16, words(2), "type", 2, XdrType.UNION, Role.NUMBER))

    def test_each_cut(self):
        for count in range(48):
            self.refuses(Reason.TRUNCATED, count, self.file.decode, "file", self.data[:count])

    def test_limits(self):
        self.refuses(Reason.TOO_DEEP, 20, self.file.check, "file", self.data, Limits(depth=2))
        self.refuses(Reason.TOO_LARGE, 44, self.file.decode, "file", self.data, Limits(bytes=44))
        above = Limits((1 << 32) + 4096, 4096), Limits(4096, (1 << 32) + 4096)
        for limits in (Limits(0, 4), Limits(4097, 4), Limits(1, 6), Limits(1, 16777220), Limits(-1, 4), *above):
            self.assertRaises(oncrpc.LimitError, self.file.decode, "file", self.data, limits)
        self.assertEqual(Limits(), (4096, 16777216))

    def test_names(self):
        for name in ("folder", "", "f\xf6lder", "1.2.3.4"):
            self.assertRaises(oncrpc.NoKindError, self.file.check, name, b"")
        with self.assertRaises(LookupError) as caught:
            self.file.show("folder", b"")
        self.assertEqual((caught.exception.status, caught.exception.reason), (Status.NO_KIND, None))

    def test_procedures(self):
        ping = self.declared(read("examples/ping.x"))
        for name in ("536870912.1.1.1", "536870912.1.1.result"):
            self.assertEqual(ping.decode(name, words(1, 0x61000000)), b"a")
        for name in ("536870912.1.0.1", "536870912.1.0.result", "536870912.1.1.2"):
            self.assertRaises(oncrpc.NoKindError, ping.check, name, b"")

    def test_at_once(self):
        self.assertEqual(self.library.check(read("examples/file.x"), "file", self.data), (48, False))
        self.refuses(Reason.BAD_NUMBERED, 0, self.library.check, read("examples/file.x"), "filekind", words(3))
        self.assertRaises(oncrpc.DeclarationError, self.library.check, "struct", "int", b"")

    def test_each_buffer(self):
        for data in (bytearray(self.data), memoryview(self.data), array.array("B", self.data)):
            self.assertEqual(self.file.decode("file", data), FILE)
        self.assertEqual(self.file.decode("file", memoryview(self.data + b"..")[:-2]), FILE)
        for data in (48, "text", None, [0, 0]):
            self.assertRaises(TypeError, self.file.check, "file", data)


class Values(Case):
    """RFC 4506 section 4, each type by bytes worked by hand."""

    TEXT = """
        enum colour { RED = 2, BLUE = -3 };
        union shape switch (colour c) { case RED: int side; case BLUE: void; };
        union signs switch (int d) { case -1: int a; default: bool b; };
        union highs switch (unsigned int d) { case 4294967295: int a; default: void; };
        union truth switch (bool is) { case FALSE: void; case TRUE: shape inner; };
        typedef int *maybe;
        typedef maybe *twice;
        struct node { int value; node *next; };
        struct all { unsigned int u; hyper h; unsigned hyper v; bool b; colour c; shape s; opaque f[3]; opaque o<3>;
            string n<3>; int p[2]; int l<2>; int *m; shape q<>; };
    """

    ALL = words(4294967295, 0x80000000, 0, 0xFFFFFFFF, 0xFFFFFFFE, 1, 0xFFFFFFFD, 2, 0xFFFFFFFF)
    ALL += b"abc\0" + words(1) + b"d\0\0\0" + words(2) + b"ef\0\0" + words(11, 12, 1, 13, 1, 14)
    ALL += words(2, 0xFFFFFFFD, 2, 9)

    def setUp(self):
        super().setUp()
        self.types = self.declared(self.TEXT)

    def test_each_part(self):
        """The parts one by one are those of the list, and so are those behind the ones that are passed over."""
        for kind, data in [("all", self.ALL), ("node", words(1, 1, 2, 1, 3, 0)), ("twice", words(1, 1, 5))]:
            parts = list(self.types.parts(kind, data).parts)
            self.assertEqual(list(self.types.each_part(kind, data)), parts)
            for seen in range(1, len(parts) + 1):
                for depth in range(8):
                    going = self.types.each_part(kind, data)
                    self.assertEqual([next(going) for _ in range(seen)], parts[:seen])
                    left = list(itertools.dropwhile(lambda it: it.depth > depth, parts[seen:]))
                    try:
                        found = [going.send(depth), *going]
                    except StopIteration:
                        found = []
                    self.assertEqual(found, left)

    def test_all(self):
        data = self.ALL
        wanted = {"u": 4294967295, "h": -(2**63), "v": 2**64 - 2, "b": True, "c": -3}
        wanted.update(s={"case": 2, "side": -1}, f=b"abc", o=b"d", n=b"ef", p=[11, 12], l=[13], m=14)
        wanted.update(q=[{"case": -3}, {"case": 2, "side": 9}])
        value = self.types.decode("all", data)
        self.assertEqual(value, wanted)
        self.assertEqual([type(it) for it in (value["u"], value["b"], value["c"])], [int, bool, Member])
        names = [it["case"].name for it in (value["s"], *value["q"])]
        self.assertEqual(names, ["RED", "BLUE", "RED"])
        self.assertEqual(self.types.encode("all", value), data)
        self.assertEqual(self.types.encode("all", wanted), data)

    def test_nothing_in_it(self):
        data = words(0, 0, 0, 0, 0, 0, 2, 2, 0, 0, 0, 0, 1, 2, 0, 0, 0)
        value = self.types.decode("all", data)
        self.assertEqual((value["o"], value["n"], value["l"], value["m"], value["q"]), (b"", b"", [], None, []))
        self.assertIs(value["b"], False)
        self.assertEqual(self.types.encode("all", value), data)

    def test_discriminants(self):
        for kind, bits, wanted in [
            ("signs", 0xFFFFFFFF, {"case": -1, "a": 5}),
            ("signs", 0x80000000, {"case": -(2**31), "b": True}),
            ("signs", 7, {"case": 7, "b": True}),
            ("highs", 0xFFFFFFFF, {"case": 2**32 - 1, "a": 5}),
        ]:
            after = 5 if "a" in wanted else 1
            self.assertEqual(self.types.decode(kind, words(bits, after)), wanted)
            self.assertEqual(self.types.encode(kind, wanted), words(bits, after))
        self.assertEqual(self.types.decode("highs", words(7)), {"case": 7})
        found = self.types.decode("truth", words(1, 2, 3))
        self.assertEqual(found, {"case": True, "inner": {"case": 2, "side": 3}})
        self.assertIs(found["case"], True)
        self.assertIs(self.types.decode("truth", words(0))["case"], False)

    def test_optionals(self):
        self.assertEqual(self.types.decode("maybe", words(1, 5)), 5)
        self.assertIsNone(self.types.decode("maybe", words(0)))
        twice = [self.types.decode("twice", words(*it)) for it in [(0,), (1, 0), (1, 1, 5)]]
        self.assertEqual(twice, [None, [None], [5]])
        self.assertEqual([self.types.encode("twice", it) for it in twice], [words(0), words(1, 0), words(1, 1, 5)])
        with self.assertRaises(TypeError):
            self.types.encode("twice", 5)

    def test_basic(self):
        self.assertEqual(self.types.decode("int", words(0xFFFFFFFF)), -1)
        self.assertEqual(self.types.decode("string", words(0)), b"")
        self.assertEqual(self.types.decode("opaque", words(1, 0x61000000)), b"a")

    def test_the_longest_list(self):
        """2047 links are at depth 4095, and one more is too deep; a level of Python's stack each would be too many."""
        links = 2047
        data = b"".join(words(it, 1) for it in range(links)) + words(links, 0)
        value = self.types.decode("node", data)
        self.assertEqual(self.types.encode("node", value), data)
        for number in range(links + 1):
            self.assertEqual(value["value"], number)
            value = value["next"]
        self.assertIsNone(value)
        self.refuses(Reason.TOO_DEEP, 8 * 2048, self.types.decode, "node", words(0, 1) + data)

    def test_reasons(self):
        for kind, numbers, limits, reason, at in [
            ("bool", (2,), Limits(), Reason.BAD_BOOL, 0),
            ("maybe", (2,), Limits(), Reason.BAD_BOOL, 0),
            ("colour", (3,), Limits(), Reason.BAD_NUMBERED, 0),
            ("shape", (3,), Limits(), Reason.BAD_NUMBERED, 0),
            ("string", (0xFFFFFFFF,), Limits(), Reason.TRUNCATED, 4),
            ("string", (1, 0x61000001), Limits(), Reason.BAD_PADDING, 4),
            ("node", (0, 1, 0, 0), Limits(depth=2), Reason.TOO_DEEP, 8),
            ("node", (0, 0), Limits(bytes=4), Reason.TOO_LARGE, 4),
            ("node", (0,), Limits(), Reason.TRUNCATED, 4),
        ]:
            for call in (self.types.check, self.types.show, self.types.parts, self.types.decode):
                self.refuses(reason, at, call, kind, words(*numbers), limits)
        cases = self.declared("union u switch (int d) { case 1: void; }; typedef opaque three<3>;")
        self.refuses(Reason.BAD_CASE, 0, cases.decode, "u", words(2))
        self.refuses(Reason.TOO_LONG, 0, cases.decode, "three", words(4))

    def test_many_members(self):
        """More discriminants than are kept: each is still its own."""
        numbers = [(7919 * it + 5) % 2**32 for it in range(9000)]
        lists = self.declared("union u switch (unsigned int d) { case 0: void; default: void; }; typedef u us<>;")
        for _ in range(2):
            value = lists.decode("us", words(len(numbers), *numbers))
            self.assertEqual([it["case"] for it in value], numbers)

    def test_members_are_copied(self):
        member = self.types.decode("colour", words(2))
        for same in (copy.deepcopy(member), pickle.loads(pickle.dumps(member))):
            self.assertEqual((same, same.name, str(same), f"{same:d}"), (2, "RED", "2", "2"))

    def test_faults_of_a_text(self):
        for text, fault, line, column, inner in [
            ("\n $", TextFault.BAD_CHARACTER, 2, 2, 0),
            (b"const = 1;", TextFault.UNEXPECTED, 1, 7, 0),
            ("struct a { int b; int b; };", TextFault.NAME_TWICE, 1, 23, 0),
            ("typedef opaque none[0];", TextFault.BAD_SCHEMA, 1, 9, 2),
            ("\n" * 262145, TextFault.TEXT_TOO_LONG, 1, 1, 0),
        ]:
            with self.assertRaises(oncrpc.DeclarationError) as caught:
                self.library.declarations(text)
            it = caught.exception
            self.assertEqual((it.fault, it.line, it.column, it.inner), (fault, line, column, inner))
            self.assertEqual((it.status, it.reason, it.at), (Status.UNDECLARED, None, None))

    def test_faults_are_copied(self):
        refused = self.refuses(Reason.TRUNCATED, 0, self.types.check, "int", b"")
        same = pickle.loads(pickle.dumps(refused))
        self.assertEqual((type(same), str(same), vars(same)), (type(refused), str(refused), vars(refused)))
        self.assertEqual(str(refused), "refused TRUNCATED at 0")
        self.assertIsInstance(refused, ValueError)


class Items(Case):
    """RFC 4506 section 4, the bytes of Values and of TheFileOfTheRfc from their items."""

    def refuses_item(self, reason, at, call, *given):
        with self.assertRaises(oncrpc.ItemError) as refused:
            call(*given)
        it = refused.exception
        self.assertEqual((it.status, it.reason, it.at), (Status.BAD_ITEM, reason, at))
        self.assertIs(type(it.reason), type(reason))

    def test_the_file(self):
        file = self.declared(read("examples/file.x"))
        items = [b"sillyprog", 2, b"lisp", bytearray(b"john"), b"(quit)"]
        self.assertEqual(file.write("file", items), bytes.fromhex(read("examples/file.hex")))
        for count in range(len(items)):
            self.refuses_item(oncrpc.ItemReason.UNFINISHED, count, file.write, "file", items[:count])
        self.refuses_item(oncrpc.ItemReason.PAST_END, 5, file.write, "file", [*items, 0])
        self.refuses_item(Reason.BAD_NUMBERED, 1, file.write, "file", [b"", 3])
        self.refuses_item(Reason.TOO_LONG, 2, file.write, "file", [b"", 0, bytes(33)])
        self.refuses_item(Reason.TOO_DEEP, 1, file.write, "file", items, Limits(depth=2))
        self.refuses_item(oncrpc.ItemReason.WRONG_ITEM, 0, file.write, "file", [oncrpc.Count(9)])

    def test_all(self):
        types = self.declared(Values.TEXT)
        items = [4294967295, -(2**63), 2**64 - 2, True, -3, 2, -1, b"abc", b"d", b"ef", 11, 12]
        items += [oncrpc.Count(1), 13, oncrpc.Flag(True), 14, oncrpc.Count(2), -3, 2, 9]
        data = types.write("all", items)
        numbers = words(4294967295, 0x80000000, 0, 0xFFFFFFFF, 0xFFFFFFFE, 1, 0xFFFFFFFD, 2, 0xFFFFFFFF)
        self.assertEqual(data[:36], numbers)
        value = types.decode("all", data)
        self.assertEqual((value["f"], value["p"], value["l"], value["m"]), (b"abc", [11, 12], [13], 14))
        self.assertEqual(value["q"], [{"case": -3}, {"case": 2, "side": 9}])
        for number in (2**31, -(2**31) - 1):
            self.refuses_item(oncrpc.ItemReason.NOT_IN_RANGE, 0, types.write, "int", [number])
        for number in (2**64, -(2**63) - 1):
            self.assertRaises(OverflowError, types.write, "int", [number])
        for item in ("text", None, 1.5):
            self.assertRaises(TypeError, types.write, "int", [item])


class Messages(Case):
    """RFC 5531 sections 8, 9 and appendix A."""

    def auth(self, message, at):
        """The flavor and the body at a place of a captured message, and the place behind its padding."""
        flavor, count = struct.unpack_from(">2I", message, at)
        return Auth(flavor, message[at + 8 : at + 8 + count]), at + 8 + (count + 3) // 4 * 4

    def test_captured_calls(self):
        calls = captured("call")
        self.assertGreaterEqual(len(calls), 30)
        for message in calls:
            credential, behind = self.auth(message, 24)
            verifier, behind = self.auth(message, behind)
            numbers = struct.unpack_from(">I8x3I", message)
            wanted = Call(*numbers, credential, verifier, message[behind:])
            self.assertEqual(self.library.read_call(message), wanted)
            self.assertEqual(self.library.write_call(wanted), message)

    def test_captured_replies(self):
        replies = captured("reply")
        self.assertGreaterEqual(len(replies), 30)
        for message in replies:
            verifier, behind = self.auth(message, 12)
            (xid,), (state,) = struct.unpack_from(">I", message), struct.unpack_from(">I", message, behind)
            wanted = Reply(xid, State(state), verifier)
            if state == 0:
                wanted = Reply(xid, State.SUCCESS, verifier, message[behind + 4 :])
            elif state == 2:
                wanted = Reply(xid, State.PROG_MISMATCH, verifier, b"", *struct.unpack_from(">2I", message, behind + 4))
            self.assertEqual(self.library.read_reply(message), wanted)
            self.assertEqual(self.library.write_reply(wanted), message)

    def test_captured_credentials(self):
        """Those of the flavor 1 are of the user 1000 and the group 100, of the machine `box`."""
        bodies = [self.auth(it, 24)[0].body for it in captured("call") if it[24:28] == words(1)]
        self.assertGreaterEqual(len(bodies), 2)
        for body in bodies:
            auth = self.library.read_auth_sys(body)
            self.assertEqual((auth.machine, auth.uid, auth.gid), (b"box", 1000, 100))
            self.assertEqual((auth.stamp, auth.gids[0]), struct.unpack(">I16xI", body[:4] + body[8:28]))
            self.assertEqual(self.library.write_auth_sys(auth), body)

    def test_no_two_fields_are_exchanged(self):
        auth = AuthSys(1, b"", 2, 3, (4, 5))
        self.assertEqual(self.library.write_auth_sys(auth), words(1, 0, 2, 3, 2, 4, 5))
        self.assertEqual(self.library.read_auth_sys(words(1, 0, 2, 3, 2, 4, 5)), auth)
        call = Call(1, 2, 3, 4, Auth(5, b"abcd"), Auth(6, b"efgh"), b"ijkl")
        wanted = words(1, 0, 2, 2, 3, 4, 5, 4) + b"abcd" + words(6, 4) + b"efghijkl"
        self.assertEqual(self.library.write_call(call), wanted)
        self.assertEqual(self.library.read_call(wanted), call)

    def test_each_state(self):
        verifier = Auth(7, b"abcd")
        accepted = words(9, 1, 0, 7, 4) + b"abcd"
        for reply, wanted in [
            (Reply(9, State.SUCCESS, verifier, words(5)), accepted + words(0, 5)),
            (Reply(9, State.PROG_UNAVAIL, verifier), accepted + words(1)),
            (Reply(9, State.PROG_MISMATCH, verifier, low=2, high=4), accepted + words(2, 2, 4)),
            (Reply(9, State.PROC_UNAVAIL, verifier), accepted + words(3)),
            (Reply(9, State.GARBAGE_ARGS, verifier), accepted + words(4)),
            (Reply(9, State.SYSTEM_ERR, verifier), accepted + words(5)),
            (Reply(9, State.RPC_MISMATCH, low=2, high=4), words(9, 1, 1, 0, 2, 4)),
            (Reply(9, State.AUTH_ERROR, auth_stat=5), words(9, 1, 1, 1, 5)),
        ]:
            self.assertEqual(self.library.write_reply(reply), wanted)
            self.assertEqual(self.library.read_reply(wanted), reply)

    def test_faults(self):
        body = bytes(404)
        for call, message, status, xid, version in [
            ("read_call", bytes(11), Status.NOT_A_CALL, None, None),
            ("read_call", words(7, 1, 2, 1, 1, 1), Status.NOT_A_CALL, None, None),
            ("read_call", words(7, 0, 3), Status.OTHER_VERSION, 7, 3),
            ("read_call", words(7, 0, 2, 1, 1, 1, 0, 404) + body, Status.BAD_CREDENTIAL, 7, 2),
            ("read_call", words(7, 0, 2, 1, 1, 1, 0, 0, 0, 404) + body, Status.BAD_VERIFIER, 7, 2),
            ("read_reply", words(7), Status.CUT, None, None),
            ("read_reply", words(7, 2, 0, 0, 0, 0), Status.NOT_A_REPLY, None, None),
            ("read_reply", words(7, 1, 0, 0, 0, 6), Status.BAD_STATE, None, None),
            ("read_reply", words(7, 1, 0, 0, 404) + body, Status.BAD_VERIFIER, None, None),
            ("read_reply", words(7, 1, 0, 0, 0, 1, 0), Status.BYTES_FOLLOW, None, None),
            ("read_auth_sys", words(0, 0, 0, 0, 17), Status.NOT_AUTH_SYS, None, None),
            ("write_call", Call(credential=Auth(0, bytes(401))), Status.BAD_CREDENTIAL, None, None),
            ("write_call", Call(verifier=Auth(0, bytes(401))), Status.BAD_VERIFIER, None, None),
            ("write_reply", Reply(verifier=Auth(0, bytes(401))), Status.BAD_VERIFIER, None, None),
            ("write_reply", Reply(state=8), Status.BAD_STATE, None, None),
            ("write_auth_sys", AuthSys(gids=(0,) * 17), Status.NOT_AUTH_SYS, None, None),
            ("write_auth_sys", AuthSys(machine=bytes(256)), Status.NOT_AUTH_SYS, None, None),
        ]:
            with self.assertRaises(oncrpc.MessageError) as caught:
                getattr(self.library, call)(message)
            it = caught.exception
            self.assertEqual((it.status, it.xid, it.rpc_version), (status, xid, version))

    def test_numbers_are_not_cut(self):
        for call in (Call(xid=2**32), Call(procedure=-1), Call(credential=Auth(2**32))):
            self.assertRaises(OverflowError, self.library.write_call, call)
        self.assertRaises(OverflowError, self.library.write_reply, Reply(auth_stat=2**32))
        self.assertRaises(OverflowError, self.library.write_auth_sys, AuthSys(gids=(2**32,)))
        self.assertRaises(TypeError, self.library.write_call, Call(xid=1.5))


class Streams(Case):
    """RFC 5531 section 11."""

    STREAM = b"\0\0\0\x02ab\x80\0\0\x01c\x80\0\0\0\x80\0\0\x03def"
    WHOLE = [b"abc", b"", b"def"]

    def test_each_cut_in_two(self):
        for at in range(len(self.STREAM) + 1):
            with self.library.records(3) as records:
                found = [*records.each(self.STREAM[:at]), *records.each(bytearray(self.STREAM[at:]))]
                records.end()
            self.assertEqual(found, self.WHOLE)

    def test_feed_and_take(self):
        with self.library.records(3) as records:
            self.assertIsNone(records.take())
            self.assertEqual(records.feed(self.STREAM), 11)
            self.assertEqual(records.feed(self.STREAM, 11), 11)
            records.end()
            self.assertEqual(records.take(), b"abc")
            self.assertEqual(records.feed(self.STREAM, 11), 15)
            self.assertEqual(records.take(), b"")
            self.assertIsNone(records.feed(self.STREAM[:20], 15))
            self.refuses(Reason.TRUNCATED, 20, records.end)
            self.assertRaises(IndexError, records.feed, b"a", 2)
            self.assertRaises(IndexError, records.feed, b"a", -1)

    def test_faults(self):
        with self.library.records(2) as records:
            for _ in range(2):
                self.refuses(Reason.TOO_LONG, 6, records.feed, self.STREAM)
            self.refuses(Reason.TOO_LONG, 6, records.end)
        for limit in (-1, oncrpc.MOST_RECORD + 1, 1 << 32):
            self.assertRaises(oncrpc.LimitError, self.library.records, limit)
            self.assertRaises(oncrpc.LimitError, self.library.normalise, b"", limit)

    def test_what_was_whole_comes_before_a_fault(self):
        with self.library.records(3) as records:
            each = records.each(b"\x80\0\0\x01a\x80\0\0\x04")
            self.assertEqual(next(each), b"a")
            self.refuses(Reason.TOO_LONG, 5, next, each)

    def test_long_records(self):
        long = bytes(range(256)) * 8192
        marked = struct.pack(">I", 1 << 31 | len(long)) + long
        with self.library.records() as records:
            self.assertEqual(list(records.each(marked + b"\x80\0\0\x01a")), [long, b"a"])
        self.assertEqual(self.library.normalise(marked), marked)

    def test_headers(self):
        self.assertEqual(self.library.record_header(3), b"\x80\0\0\x03")
        self.assertEqual(self.library.record_header(2, False), b"\0\0\0\x02")
        for count in (-1, 1 << 31):
            self.assertRaises(oncrpc.LimitError, self.library.record_header, count)

    def test_normalise(self):
        normal = b"\x80\0\0\x03abc"
        self.assertEqual(self.library.normalise(self.STREAM, 3), normal + b"\x80\0\0\0\x80\0\0\x03def")
        self.assertEqual(self.library.normalise(b""), b"")
        cut = self.refuses(Reason.TRUNCATED, 12, self.library.normalise, self.STREAM[:12], 3)
        self.assertEqual(cut.before, normal)


class Rows(Case):
    """RFC 1833."""

    def call(self, version, procedure, arguments=b"", credential=Auth()):
        return self.library.write_call(Call(9, 100000, version, procedure, credential, Auth(), arguments))

    def test_a_port(self):
        with self.library.registry(111) as registry:
            self.assertIs(registry.set(300, 7, "tcp", b"1.2.3.4.8.1", "1000"), True)
            self.assertIs(registry.set(300, 7, "tcp", "1.2.3.4.8.1", "1000"), False)
            asked = self.call(2, 3, words(300, 7, 6, 0))
            self.assertEqual(registry.answer("tcp", asked), words(9, 1, 0, 0, 0, 0, 2049))
            self.assertIs(registry.unset(300, 7, "", "1001"), False)
            self.assertIs(registry.unset(300, 7, "", "1000"), True)
            self.assertEqual(registry.answer("udp", asked), words(9, 1, 0, 0, 0, 0, 0))
            self.assertIsNone(registry.reply())
        with self.library.registry(2049) as registry:
            self.assertEqual({row.address for row in registry.rows()}, {b"0.0.0.0.8.1"})

    def test_all_rows(self):
        """DUMP of version 3, decoded by what RFC 1833 declares, in a reply that is longer than the first buffer."""
        kinds = [(version, netid) for version in (2, 3, 4) for netid in (b"tcp", b"udp")]
        rows = [(100000, *it, b"0.0.0.0.0.111", b"superuser") for it in kinds]
        more = [(300 + it, 1, b"tcp", b"a" * 200, b"7") for it in range(300)]
        declarations = self.declared(read(".ci/declarations/rfc1833_rpcbind.x"))
        with self.library.registry(111, b"no peer knows it") as registry:
            for row in more:
                self.assertTrue(registry.set(*row))
            reply = self.library.read_reply(registry.answer("tcp", self.call(3, 4)))
            self.assertEqual((reply.xid, reply.state), (9, State.SUCCESS))
            found, link = [], declarations.decode("rpcblist_ptr", reply.results)
            while link is not None:
                found.append(tuple(link["rpcb_map"].values()))
                link = link["rpcb_next"]
            self.assertEqual(found, rows + more)
            self.assertEqual(registry.rows(), rows + more)
            self.assertEqual(registry.rows()[0].netid, b"tcp")
            long = self.library.read_reply(registry.answer("udp", self.call(3, 4)))
            self.assertEqual(long.state, State.SYSTEM_ERR)

    def test_addresses(self):
        """RFC 5665 section 5.2.3.3: the port 2049 is 8 times 256 and 1."""
        self.assertEqual(self.library.read_address("127.0.0.1.8.1"), (b"\x7f\0\0\x01", 2049))
        self.assertEqual(self.library.write_address(b"\x7f\0\0\x01", 2049), "127.0.0.1.8.1")
        self.assertEqual(self.library.write_address(b"\xff" * 4, 65535), "255.255.255.255.255.255")
        for text in ("", "127.0.0.1", "127.0.0.1.8.256", "127.0.0.1.8.01", b"::1.8.1"):
            with self.assertRaises(oncrpc.AddressError) as caught:
                self.library.read_address(text)
            self.assertEqual(caught.exception.status, Status.NOT_AN_ADDRESS)
        self.assertRaises(ValueError, self.library.write_address, b"\0" * 5, 1)
        self.assertRaises(OverflowError, self.library.write_address, b"\0" * 4, 65536)

    def test_silence(self):
        with self.library.registry() as registry:
            self.assertIsNone(registry.answer("udp", b"no call"))
            with self.assertRaises(oncrpc.OncrpcError) as caught:
                registry.answer("sctp", self.call(2, 0))
            self.assertEqual(caught.exception.status, Status.NO_TRANSPORT)
            self.assertRaises(OverflowError, self.library.registry, 65536)
            self.assertRaises(OverflowError, registry.set, 1 << 32, 1, "tcp", "a", "b")


class Sessions(Case):
    """Connections to a registry, and answers by who calls (RFC 1833 section 3)."""

    SET = words(9, 0, 2, 100000, 2, 1, 0, 0, 0, 0, 300, 7, 6, 2049)

    def started(self):
        registry = self.library.registry(111, b"no peer knows it")
        self.addCleanup(registry.close)
        return registry

    def drained(self, session):
        found = b""
        while part := session.output(10):
            found += part
            session.took(len(part))
        return found

    def test_callers(self):
        registry = self.started()
        afar, user = oncrpc.Caller(), oncrpc.Caller(oncrpc.Peer.LOCAL_USER, 1000)
        self.assertEqual(registry.answer_from(afar, "udp", self.SET), words(9, 1, 1, 1, 5))
        for _ in range(2):
            self.assertEqual(registry.answer_from(user, "tcp", self.SET), words(9, 1, 0, 0, 0, 0, 1))
        self.assertEqual(registry.rows()[-1].owner, b"1000")
        trusted = oncrpc.Caller(host=b"\n\t\x08\x07", trusts_remote=True)
        self.assertEqual(registry.answer_from(trusted, "tcp", self.SET), words(9, 1, 0, 0, 0, 0, 0))
        self.assertTrue(registry.set(301, 7, "tcp", "0.0.0.0.8.1", "1000"))
        asked = words(9, 0, 2, 100000, 3, 3, 0, 0, 0, 0, 301, 7, 0, 0, 0)
        self.assertTrue(registry.answer_from(trusted, "tcp", asked).endswith(b"10.9.8.7.8.1"))
        self.assertTrue(registry.answer_from(afar, "tcp", asked).endswith(b"0.0.0.0.8.1\0"))
        self.assertRaises(ValueError, registry.answer_from, oncrpc.Caller(host=b"abc"), "tcp", self.SET)
        with self.assertRaises(oncrpc.OncrpcError) as refused:
            registry.answer_from(oncrpc.Caller(3), "tcp", self.SET)
        self.assertEqual(refused.exception.status, Status.NO_CALLER)

    def test_a_connection(self):
        registry, two = self.started(), 2 * (words(0x80000038) + self.SET)
        with self.library.session("local", oncrpc.Caller(oncrpc.Peer.LOCAL), 0) as session:
            self.assertEqual(session.feed(registry, two[:30]), (Status.MORE_WANTED, 30))
            self.assertEqual(session.feed(registry, two, 30), (Status.OK, 60))
            self.assertEqual(session.feed(registry, two, 60), (Status.OUTPUT_WAITS, 60))
            self.assertRaises(oncrpc.LimitError, session.took, 33)
            self.assertEqual(session.took(4), 28)
            self.assertEqual(self.drained(session), words(9, 1, 0, 0, 0, 0, 1))
            self.assertEqual(session.feed(registry, bytearray(two), 60), (Status.OK, 120))
            self.assertEqual(self.drained(session), words(0x8000001C, 9, 1, 0, 0, 0, 0, 1))
            self.refuses(Reason.TOO_LONG, 120, session.feed, registry, words(0x80010001))
            self.refuses(Reason.TOO_LONG, 120, session.feed, registry, b"")
            self.assertEqual(session.output(), b"")
            self.assertRaises(IndexError, session.feed, registry, b"", 1)
        self.assertRaises(ValueError, session.output)

    def test_a_registry_that_is_closed(self):
        registry = self.started()
        registry.close()
        with self.library.session() as session:
            self.assertRaises(ValueError, session.feed, registry, b"")


class Handles(Case):
    def test_closed(self):
        for handle, call in [
            (self.library.declarations(""), lambda it: it.check("int", bytes(4))),
            (self.library.records(), lambda it: it.feed(b"")),
            (self.library.registry(), lambda it: it.answer("tcp", b"")),
            (self.library.session(), lambda it: it.output()),
        ]:
            with handle as same:
                self.assertIs(same, handle)
                call(handle)
            self.assertRaises(ValueError, call, handle)
            handle.close()

    def test_another_thread(self):
        declarations = self.library.declarations("struct a { int b; };")
        said = []

        def use():
            for call in (lambda: declarations.check("a", bytes(4)), declarations.close):
                try:
                    call()
                except RuntimeError as error:
                    said.append(str(error))

        thread = threading.Thread(target=use)
        thread.start()
        thread.join()
        self.assertEqual(said, ["it was made on another thread, and stays there"] * 2)
        self.assertEqual(declarations.check("a", bytes(4)), (4, False))
        declarations.close()

    def test_many_threads(self):
        """One library, and a handle for each thread."""
        wrong = []

        def use(number):
            with self.library.declarations(f"struct a {{ int b[{number}]; }};") as declarations:
                for _ in range(200):
                    if declarations.decode("a", bytes(4 * number)) != {"b": [0] * number}:
                        wrong.append(number)

        threads = [threading.Thread(target=use, args=(it,)) for it in range(1, 5)]
        for it in threads:
            it.start()
        for it in threads:
            it.join()
        self.assertEqual(wrong, [])

    def test_dropped(self):
        """A handle goes with its object; one that another thread made is told, and lost."""
        with warnings.catch_warnings(record=True) as told:
            warnings.simplefilter("always")
            del_me = self.library.records()
            del del_me
            gc.collect()
            self.assertEqual(told, [])
            held = []
            thread = threading.Thread(target=lambda: held.append(self.library.records()))
            thread.start()
            thread.join()
            held.clear()
            gc.collect()
        self.assertEqual([it.category for it in told], [ResourceWarning])

    def test_left_open_at_the_end(self):
        code = "import oncrpc; held = oncrpc.Library().declarations('struct a { int b; };'); held.check('a', bytes(4))"
        folder = os.path.dirname(oncrpc.__file__)
        ran = subprocess.run([sys.executable, "-W", "error", "-c", code], cwd=folder, capture_output=True, check=False)
        self.assertEqual((ran.returncode, ran.stdout, ran.stderr), (0, b"", b""))

    def test_no_library(self):
        for path in ("/no/such/liboncrpc.so.0", "libc.so.6"):
            self.assertRaises(OSError, oncrpc.Library, path)
        named = os.environ.get("ONCRPC_LIBRARY")
        if named:
            self.assertEqual(oncrpc.Library(named).normalise(b""), b"")


if __name__ == "__main__":
    unittest.main()
