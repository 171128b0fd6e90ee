"""The shapes of values whose decoding and checking bench/shapes measures, each a kind of some 13 KB."""
from measured import nfs
from measured.kinds import BOOL, HYPER, INT, UNSIGNED, VOID, around, between, counted, enumeration, filled, fixed
from measured.kinds import linked, octets, octets_up_to, optional, spoiled, structure, text, tree, union

# Chains of hundreds of structures have fewer bytes.
LITTLE = 2900


def in_arrays():
    """Fixed arrays of numbers, as items and as parts of unions."""
    for size in (8, 16, 32, 60, 200):
        yield f"int[{size}] in <>", filled(fixed(INT, size))
    for size in (60, 8):
        yield f"hyper[{size}] in <>", filled(fixed(HYPER, size))
    for size in (16, 60, 200):
        yield f"union with int[{size}]", filled(union(fixed(INT, size)))
    yield "union with hyper[60]", filled(union(fixed(HYPER, 60)))


def of_enumerations():
    """Small structures in which more than one unit decides."""
    for members in (3, 8):
        e = enumeration(members)
        behind = f", {members} members"
        yield "{enum,enum}" + behind, filled(structure(e, e))
        yield "{enum,int,enum}" + behind, filled(structure(e, INT, e))
        yield "{enum,enum,bool}" + behind, filled(structure(e, e, BOOL))
        yield "three enums" + behind, filled(structure(e, e, e))
        yield "six enums" + behind, filled(structure(*[e] * 6))
        yield "enum[4]" + behind, filled(fixed(e, 4))
    yield "bool[8]", filled(fixed(BOOL, 8))
    yield "{bool,bool}", filled(structure(BOOL, BOOL))
    yield "{enum,int,int}", filled(structure(enumeration(3), INT, INT))


def of_strings():
    """Structures with content and with arrays of few items."""
    name = text(4, 16)
    for least, most, said in ((0, 8, "0..8"), (0, 0, "0"), (3, 3, "3"), (8, 8, "8")):
        yield "{string; int<>} " + said + " ints", filled(structure(name, counted(INT, between(least, most))))
    yield "{string n<>; e kids<>}", filled(tree(name, 3, 3))
    yield "union int<>/string/void", filled(union(counted(INT, between(0, 8)), name, VOID))
    for least, most in ((0, 4), (10, 30)):
        yield f"int<> of {least}..{most} in <>", filled(counted(INT, between(least, most)))
    yield "{opaque[5]; int; opaque[3]}", filled(structure(octets(5), INT, octets(3)))
    yield "{string,string}", filled(structure(name, name))
    yield "{int,int}", filled(structure(INT, INT))
    seven = union(INT, name, HYPER, VOID, BOOL, counted(INT, between(0, 4)), octets(8))
    yield "{string; union of 7 arms}", filled(structure(name, seven))
    either = union(INT, name)
    yield "structs with counted arrays and a union", filled(structure(INT, counted(INT, between(0, 8)), either, name))


def of_unions():
    """Unions in one another, and optional parts."""

    def levels(count, taken):
        kind = INT
        for _ in range(count):
            kind = union(kind, VOID, taken=taken)
        return kind

    yield "four unions in one another, all taken", filled(levels(4, lambda random: 1))
    yield "the same, mixed", filled(levels(4, None))
    yield "two unions", filled(levels(2, None))
    mixed = union(INT, text(4, 16), HYPER)
    yield "three unions, int/string/hyper", filled(union(union(mixed, HYPER), INT))
    yield "{int; union hyper/string}", filled(structure(INT, union(HYPER, text(4, 16))))
    yield "number in a union or void", filled(union(INT, VOID))
    yield "{int[16] *}", filled(structure(optional(fixed(INT, 16))))
    yield "{int; int[16] *}, 70 % there", filled(structure(INT, optional(fixed(INT, 16), 70)))


def of_levels():
    """Structures of one field in one another."""
    three = structure(INT, INT, BOOL)
    named = structure(text(4, 16), INT)
    yield "10 one-field structs round {int,int,bool}", filled(around(10, three))
    yield "17 the same", filled(around(17, three))
    yield "40 the same", filled(around(40, three))
    yield "400 the same", filled(around(400, three), LITTLE)
    yield "400 round {string,int}", filled(around(400, named), LITTLE)
    yield "40 round {string,int}", filled(around(40, named))


def refused():
    """Values of one size that are refused in their last unit."""
    e = enumeration(3)
    two = structure(INT, INT, BOOL)
    for _ in range(10):
        two = structure(fixed(two, 2))
    decides = structure(e, INT, e)
    yield "refused last: 10 levels of x[2]", spoiled(two)
    yield "refused last: {enum,int,enum}[40][25]", spoiled(fixed(fixed(decides, 40), 25))
    yield "refused last: enum[3000]", spoiled(fixed(e, 3000))
    yield "refused last: 999 ints and a bool", spoiled(fixed(structure(fixed(INT, 999), BOOL), 3))
    yield "refused last: list of 1000 {enum,int,enum}", spoiled(counted(decides, lambda random: 1000))


def in_lists():
    """Linked lists, and what protocols have."""
    yield "linked list of ints", linked(INT)
    yield "linked list of texts of 12", linked(text(12, 12))
    yield "linked list {int,hyper,string}", linked(INT, HYPER, text(4, 16))
    yield "linked list of {int,int,hyper}", linked(structure(INT, INT, HYPER))
    yield "entryplus3 list (fattr3)", nfs.ENTRIES
    yield "fattr3 list", filled(nfs.FATTR3)
    yield "nfstime3 list", filled(nfs.NFSTIME3)
    yield "READDIRPLUS3res, 90 entries", nfs.DIRECTORY
    yield "files of RFC 4506", filled(nfs.FILE)
    yield "enum list (nfsstat3)", filled(nfs.STATUS)
    yield "unsigned list", filled(UNSIGNED)
    yield "hyper list", filled(HYPER)


def further_arrays():
    """Arrays of other sizes, alone, in structures and in unions."""
    for size in (17, 24, 33, 100):
        yield f"{{int; int[{size}]}}", filled(structure(INT, fixed(INT, size)))
        yield f"union int[{size}]/void", filled(union(fixed(INT, size), VOID))
    yield "{string; int[60]}", filled(structure(text(4, 16), fixed(INT, 60)))
    yield "one int[3000]", fixed(INT, 3000)
    yield "hyper[17] in <>", filled(fixed(HYPER, 17))
    yield "{int; hyper[24]}", filled(structure(INT, fixed(HYPER, 24)))
    yield "hyper<> of 0..8 in <>", filled(counted(HYPER, between(0, 8)))
    yield "hyper<> of 10..30 in <>", filled(counted(HYPER, between(10, 30)))
    yield "{string; hyper<>} 0..8", filled(structure(text(4, 16), counted(HYPER, between(0, 8))))
    yield "{int<>; int<>} 0..8", filled(structure(counted(INT, between(0, 8)), counted(INT, between(0, 8))))


def further_structures():
    """Other structures in which some units decide, and structures in one another."""
    e = enumeration(5)
    yield "{bool,enum,bool}", filled(structure(BOOL, e, BOOL))
    yield "{bool,bool,enum,enum,bool}", filled(structure(BOOL, BOOL, e, e, BOOL))
    yield "{int,bool,hyper,enum,int}", filled(structure(INT, BOOL, HYPER, e, INT))
    yield "{bool,hyper[8],bool}", filled(structure(BOOL, fixed(HYPER, 8), BOOL))
    yield "{{enum,int},{bool,hyper}}", filled(structure(structure(e, INT), structure(BOOL, HYPER)))
    yield "{{enum,int},{bool,string}}", filled(structure(structure(e, INT), structure(BOOL, text(4, 16))))
    for levels in (1, 2, 3, 5, 10):
        yield f"{levels} round {{string,int}}", filled(around(levels, structure(text(4, 16), INT)))
    yield "{opaque data<64>} (nfs_fh3)", filled(nfs.HANDLE)
    yield "opaque<64> in <>", filled(octets_up_to(64, between(0, 64)))


def further_unions():
    """Lists and structures in unions."""
    name = text(4, 16)
    yield "union of a list of strings or void", filled(union(counted(name, between(0, 4)), VOID))
    yield "union of a list of structs or void", filled(union(counted(structure(INT, HYPER), between(0, 8)), VOID))
    yield "union of two structs of other sizes", filled(union(structure(INT, INT, BOOL), structure(INT, HYPER, INT)))
    yield "union with {enum,enum}", filled(union(structure(*[enumeration(3)] * 2), VOID))
    yield "union with a linked list", filled(union(linked(INT, wanted=60), INT))
    yield "{int *; hyper *; bool *}", filled(structure(*[optional(kind, 70) for kind in (INT, HYPER, BOOL)]))


TABLES = [in_arrays, of_enumerations, of_strings, of_unions, of_levels, refused, in_lists]
TABLES += [further_arrays, further_structures, further_unions]
SHAPES = [shape for table in TABLES for shape in table()]
