"""Lists of kinds and names that make a schema or none (RFC 4506 sections 4.3 to 4.19), and what a schema notes of its
kinds. `crates/tool_probe_more/src/kinds.rt` says how such lists are written."""

# Kinds, names, and the first fault with its place; `ok` where the lists make a schema.
FAULTS = [
    # One fault each.
    ("opaque:0", "", "ZeroSize at 0"),
    ("void", "n:0", "VoidMember at 0"),
    ("array:0:2", "", "NoFiniteValue at 0"),
    ("struct;x:0", "", "NoFiniteValue at 0"),
    ("struct;x:1,optional:0", "", "ok"),
    ("void,struct;x:0", "", "VoidMember at 1"),
    # A default that no number reaches has no value.
    ("bool,void,union:0::1;x:2:0:1", "", "NoFiniteValue at 2"),
    ("bool,union:0;x:0:1:1", "", "CaseTwice at 1"),
    ("bool,union:0;x:0:1:2", "", "CaseNotLegal at 1"),
    ("bool,union:0;x:0:0:1", "", "ok"),
    ("hyper,union:0;x:0:0:1", "", "BadDiscriminant at 1"),
    ("struct", "", "EmptyList at 0"),
    ("enum", "", "EmptyList at 0"),
    ("int,union:0", "", "EmptyList at 1"),
    ("int,union:0;x:0", "", "EmptyList at 1"),
    ("int,optional:2", "", "UnknownKind at 1"),
    ("enum;a:1;a:2", "", "NameTwice at 0"),
    ("int,struct;x:0;x:0", "", "NameTwice at 1"),
    ("int,union:0;x:0:0:1;y:0:2:0", "", "CaseTwice at 1"),
    ("int,union:0;x:0:0:1;x:0:2:3", "", "NameTwice at 1"),
    ("int,union:0;:0:0:1;:0:2:3", "", "ok"),
    ("int", "a:0,b:0,a:0", "NameTwice at 2"),
    # Two faults in one kind: the one that is listed first.
    ("int,array:7:0", "", "UnknownKind at 1"),
    ("void,array:0:0", "", "ZeroSize at 1"),
    ("hyper,union:0;x:0:1:1", "", "BadDiscriminant at 1"),
    ("bool,union:0;x:0:2:2", "", "CaseTwice at 1"),
    ("bool,union:0;x:1:1:2", "", "CaseNotLegal at 1"),
    # Two kinds with a fault: the lower place.
    ("opaque:0,struct;x:9", "", "ZeroSize at 0"),
    ("struct;x:9,opaque:0", "", "UnknownKind at 0"),
    ("int,struct,optional:9", "", "EmptyList at 1"),
    # Kinds before names, and names before heights.
    ("int,opaque:0", "n:5", "ZeroSize at 1"),
    ("struct;x:0", "n:5", "UnknownKind at 0"),
    ("struct;x:0,opaque:0", "", "ZeroSize at 1"),
    # Two names with a fault, and two faults of one name.
    ("int", "a:0,b:7,a:0", "UnknownKind at 1"),
    ("int", "a:0,a:7", "UnknownKind at 1"),
    ("int,void", "a:0,a:1", "VoidMember at 1"),
    # Two kinds without a height: the lower place.
    ("int,struct;x:2,struct;x:1", "", "NoFiniteValue at 1"),
    ("struct;x:1,array:2:3,struct;x:2", "", "NoFiniteValue at 0"),
]
# The same where no growth is granted: a fault of two entries is found all the same, and no schema is made.
WITHOUT_MEMORY = [
    ("int", "", "out of memory at 0"),
    ("int,struct;x:0;x:0", "", "NameTwice at 1"),
    ("int,union:0;x:0:0:1;y:0:2:0", "", "CaseTwice at 1"),
    ("int,union:0;x:0:0:1;x:0:2:3", "", "NameTwice at 1"),
    ("int", "n:0,n:0", "NameTwice at 1"),
]


def fields(*places):
    """A structure of fields of the kinds at these places."""
    return "struct" + "".join(f";f{number}:{place}" for number, place in enumerate(places))


# Kinds of one schema, each at its place, and what is noted of it. The extent: the bytes and the levels of each value,
# and whether any so many bytes are one. The unit that decides: the bytes before it, and the place of its kind. And the
# most levels.
NOTED = [
    # 0 to 6: what has no parts.
    ("int", "4 1 free, -, 1"),
    ("hyper", "8 1 free, -, 1"),
    ("bool", "4 1 bound, 0 2, 1"),
    ("enum;a:1", "4 1 bound, 0 3, 1"),
    ("void", "-, -, 1"),
    ("string:4294967295", "-, -, 1"),
    ("bytes:4294967295", "-, -, 1"),
    # 7 to 11: content of fixed size, which zeros fill to whole units.
    ("opaque:3", "4 1 bound, -, 1"),
    ("opaque:4", "4 1 free, -, 1"),
    ("opaque:65533", "65536 1 bound, -, 1"),
    ("opaque:65536", "65536 1 free, -, 1"),
    ("opaque:65537", "-, -, 1"),
    # 12 to 18: fixed arrays.
    ("array:0:3", "12 2 free, -, 2"),
    ("array:1:8192", "65536 2 free, -, 2"),
    ("array:0:16385", "-, -, 2"),
    ("array:0:4294967295", "-, -, 2"),
    ("array:2:1", "4 2 bound, -, 2"),
    ("array:12:2", "24 3 free, -, 3"),
    ("array:5:2", "-, -, 2"),
    # 19 to 26: structures.
    (fields(0, 1, 8), "16 2 free, -, 2"),
    (fields(1, 3, 0), "16 2 bound, 8 3, 2"),
    (fields(20, 12), "28 3 bound, 8 3, 3"),
    (fields(2, 3), "8 2 bound, -, 2"),
    (fields(2, 7), "8 2 bound, -, 2"),
    (fields(0, 16), "8 3 bound, -, 3"),
    (fields(10, 2), "-, 65536 2, 2"),
    (fields(0, 5), "-, -, 2"),
    # 27 to 30: optionals and unions, also where all values have one size, and where a default cannot be reached.
    ("optional:12", "-, -, 3"),
    ("union:2;x:0:0:1", "-, -, 2"),
    ("union:0::12;x:0:0:1", "-, -, 3"),
    ("union:2::17;x:0:0:1", "-, -, 4"),
    # 31 to 33: arrays of varying length, and what holds one.
    ("list:0:4294967295", "-, -, -"),
    (fields(0, 31), "-, -, -"),
    ("optional:31", "-, -, -"),
    # 34 and 35: a linked list.
    (fields(0, 35), "-, -, -"),
    ("optional:34", "-, -, -"),
    # 36 and 37: a structure in front of its part.
    (fields(37, 2), "12 3 bound, 8 2, 3"),
    (fields(0, 0), "8 2 free, -, 2"),
]
# The same. Structures with one boolean, with that structure behind a number, and with two booleans; and an array.
DECIDING = [
    ("unsigned", "4 1 free, -, 1"),
    ("bool", "4 1 bound, 0 1, 1"),
    (fields(0, 1, 0), "12 2 bound, 4 1, 2"),
    (fields(0, 2), "16 3 bound, 8 1, 3"),
    (fields(1, 0, 1), "12 2 bound, -, 2"),
    ("array:1:2", "8 2 bound, -, 2"),
]
# A number, and structures of one field, each around the one before. They stand by turns before and behind it, so that
# one more is known with each look over all kinds. The levels of each, of which 16 are the most that are noted.
NESTED = [*(fields(place) for place in range(8, 16)), "unsigned", *(fields(place) for place in range(8))]
LEVELS = [2, 4, 6, 8, 10, 12, 14, 16, 1, 3, 5, 7, 9, 11, 13, 15, 17]
# A boolean, an enumeration of nine members, of which two have one number, and a structure with a name; and what `{:?}`
# prints.
NINE = "bool,enum;a:8;b:7;c:6;d:5;e:4;f:3;g:2;h:1;i:8,struct;x:1"
PRINTED = (
    'Schema { kinds: [Bool, Numbered { members: [("a", 8), ("b", 7), ("c", 6), ("d", 5), ("e", 4), ("f", 3), ("g", 2), '
    '("h", 1), ("i", 8)] }, Structure { fields: [Member { name: "x", kind: KindId { place: 1 } }] }], '
    "lookups: [None, Some({1: 7, 2: 6, 3: 5, 4: 4, 5: 3, 6: 2, 7: 1, 8: 0}), None], "
    'names: [("t", KindId { place: 2 })] }'
)
