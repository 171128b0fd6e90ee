"""Values and their JSON, worked by hand after docs/FORMATS.md section 5 (RFC 4506, RFC 8259)."""
from .codec import ALIKE, BOOL_CHOICE, FLAG_CHOICE, HYPERS, NEST, OPTIONAL, SIGNED_ALIKE, SIX, VOID_CHOICE
from .shared import AROUND, FILE, HELD, LIST, MORE, PARTS, SILLYPROG, TWO_ENTRIES

# Fields and arms with the names that JSON's objects have of their own.
HEX = b"struct hexes { string hex<>; opaque case_<>; };"
CASES = b"union cases switch (int d) { case -1: int case_; case 2: void; default: string hex<>; };"
UNSIGNED_CASES = b"union cases switch (unsigned int d) { case 4294967295: bool b; };"
TWICE = b"""typedef int *maybe; typedef maybe *twice; typedef twice *thrice;
typedef opaque data<>; typedef data *datas;
typedef int few<>; typedef few *fews;
"""
SHARED_ARM = b"enum e { A = 1, B = 2 }; union u switch (e d) { case A: case B: hyper h; };"
NO_ITEMS = b"typedef void_less void_lesses<>; struct void_less { int none<>; };"
# A text, a kind, all bytes of a value, and its JSON in the compact layout.
JSON = [
    # Numbers (sections 4.1 to 4.5), both ends of each.
    (b"", "int", "80000000", "-2147483648"),
    (b"", "int", "7fffffff", "2147483647"),
    (b"", "int", "00000000", "0"),
    (b"", "unsigned", "ffffffff", "4294967295"),
    (b"", "hyper", "80000000 00000000", '"-9223372036854775808"'),
    (b"", "hyper", "00000000 00000000", '"0"'),
    (b"", "unsigned-hyper", "ffffffff ffffffff", '"18446744073709551615"'),
    (b"", "bool", "00000000", "false"),
    (b"", "bool", "00000001", "true"),
    (FILE, "filekind", "00000001", '"DATA"'),
    (ALIKE, "alike", "00000005", '"a"'),
    (SIGNED_ALIKE, "alike", "ffffffff", '"c"'),
    # Opaques (4.9, 4.10).
    (SIX, "six", "61ff0064 650a0000", '"61ff0064650a"'),
    (b"", "opaque", "00000000", '""'),
    (b"", "opaque", "00000001 ab000000", '"ab"'),
    # Strings (4.11; RFC 8259 section 7): what is escaped, and what is not.
    (b"", "string", "00000000", '""'),
    (b"", "string", "00000003 22415c00", '"\\"A\\\\"'),
    (b"", "string", "00000005 08090a0c 0d000000", '"\\b\\t\\n\\f\\r"'),
    (b"", "string", "00000004 00011f7f", '"\\u0000\\u0001\\u001f\x7f"'),
    (b"", "string", "00000003 2fc3a900", '"/\u00e9"'),
    (b"", "string", "00000003 e280a800", '"\u2028"'),
    (b"", "string", "00000004 f09f9880", '"\U0001f600"'),
    # Bytes that are no UTF-8 (RFC 3629): a lone byte, a cut, an overlong form, a surrogate, above the last character.
    (b"", "string", "00000002 ff220000", '{"hex":"ff22"}'),
    (b"", "string", "00000002 61c30000", '{"hex":"61c3"}'),
    (b"", "string", "00000002 c0800000", '{"hex":"c080"}'),
    (b"", "string", "00000003 eda08000", '{"hex":"eda080"}'),
    (b"", "string", "00000004 f4908080", '{"hex":"f4908080"}'),
    # Arrays (4.12, 4.13).
    (HYPERS, "hypers", "00000000 00000001 ffffffff ffffffff 00000001 00000000", '["1","-1","4294967296"]'),
    (MORE, "big", "00000000", "[]"),
    (MORE, "few", "00000002 00000007 ffffffff", "[7,-1]"),
    (NO_ITEMS, "void_lesses", "00000002 00000000 00000001 00000005", '[{"none":[]},{"none":[5]}]'),
    # Structures (4.14), the file of section 7, and a field of one that is called as a key of its own.
    (FILE, "file", SILLYPROG,
     '{"filename":"sillyprog","type":{"case":"EXEC","interpretor":"lisp"},"owner":"john","data":"287175697429"}'),
    (FILE, "file", "00000000 00000000 00000000 00000000",
     '{"filename":"","type":{"case":"TEXT"},"owner":"","data":""}'),
    (HEX, "hexes", "00000001 ff000000 00000001 61000000", '{"hex":{"hex":"ff"},"case_":"61"}'),
    (PARTS, "helds", HELD,
     '[{"name":"a","at":{"x":7,"y":"9"},"hue":"BLUE","tag":"010203040506","three":[1,2,3],"two":["1","-2"],'
     '"flags":[true,false]}]'),
    # Unions (4.15): void arms, defaults, discriminants of each kind, and one part under two cases.
    (VOID_CHOICE, "choice", "00000001", '{"case":1}'),
    (BOOL_CHOICE, "choice", "00000000 00000007", '{"case":false,"x":7}'),
    (FLAG_CHOICE, "choice", "00000000", '{"case":false}'),
    (FLAG_CHOICE, "choice", "00000001 00000007", '{"case":true,"x":7}'),
    (CASES, "cases", "ffffffff 00000007", '{"case":-1,"case_":7}'),
    (CASES, "cases", "00000002", '{"case":2}'),
    (CASES, "cases", "80000000 00000001 61000000", '{"case":-2147483648,"hex":"a"}'),
    (UNSIGNED_CASES, "cases", "ffffffff 00000001", '{"case":4294967295,"b":true}'),
    (SHARED_ARM, "u", "00000001 00000000 00000005", '{"case":"A","h":"5"}'),
    (SHARED_ARM, "u", "00000002 00000000 00000005", '{"case":"B","h":"5"}'),
    (PARTS, "around", AROUND, '{"at":{"x":-3,"y":"4294967296"},"one":{"case":"BLUE","seven":[1,2,3,4,5,6,7]}}'),
    # The union that no text declares: its arm `case` stands under `case_`, and the one without a name under no letter.
    (b"", "own", "00000001 00000000 00000007", '{"case":true,"case_":"7"}'),
    (b"", "own", "00000000 ffffffff ffffffff", '{"case":false,"":"-1"}'),
    # Void (4.16) and optional data (4.19), of an optional in brackets. Those of an array are its own.
    (b"", "void", "", "{}"),
    (LIST, "list", "00000000", "null"),
    (LIST, "list", TWO_ENTRIES, '{"item":"a","next":{"item":"bc","next":null}}'),
    (OPTIONAL, "optional", "00000001 00000001 61000000", '"a"'),
    (TWICE, "maybe", "00000001 00000000", "0"),
    (TWICE, "datas", "00000001 00000000", '""'),
    (TWICE, "fews", "00000000", "null"),
    (TWICE, "fews", "00000001 00000000", "[]"),
    (TWICE, "fews", "00000001 00000001 00000005", "[5]"),
    (TWICE, "twice", "00000000", "null"),
    (TWICE, "twice", "00000001 00000000", "[null]"),
    (TWICE, "twice", "00000001 00000001 00000005", "[5]"),
    (TWICE, "thrice", "00000001 00000001 00000000", "[[null]]"),
    (TWICE, "thrice", "00000001 00000001 00000001 00000005", "[[5]]"),
    (NEST, "nest", "00000001 00000001 00000000", "[[null]]"),
]
# The same in the indented layout.
INDENTED = [
    (b"", "int", "ffffffff", "-1"),
    (MORE, "big", "00000000", "[]"),
    (b"", "void", "", "{}"),
    (b"", "string", "00000001 ff000000", '{\n  "hex": "ff"\n}'),
    (MORE, "few", "00000002 00000007 ffffffff", "[\n  7,\n  -1\n]"),
    (TWICE, "thrice", "00000001 00000001 00000000", "[\n  [\n    null\n  ]\n]"),
    (NO_ITEMS, "void_lesses", "00000002 00000000 00000001 00000005",
     '[\n  {\n    "none": []\n  },\n  {\n    "none": [\n      5\n    ]\n  }\n]'),
    (FILE, "file", SILLYPROG,
     """{
  "filename": "sillyprog",
  "type": {
    "case": "EXEC",
    "interpretor": "lisp"
  },
  "owner": "john",
  "data": "287175697429"
}"""),
    (b"", "own", "00000000 00000000 00000001", '{\n  "case": false,\n  "": "1"\n}'),
]
