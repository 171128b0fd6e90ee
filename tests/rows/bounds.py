"""How many bytes the values of types have at least and at most, worked out by hand from RFC 4506: sections 4.9 and 4.11
pad content to four bytes, and a count, a length, a flag and a discriminant are four bytes each."""
from .shared import FILE, LIST

LISTS = b"""struct entry { string item<>; entry *next; };
struct tree { tree children<>; }; struct twig { twig children<0>; };
union chain switch (bool more) { case TRUE: chain rest; case FALSE: void; }; struct pair { int key; chain value; };"""
UNIONS = b"""union perhaps switch (bool there) { case TRUE: hyper number; case FALSE: void; };
union both switch (bool side) { case FALSE: hyper left; case TRUE: opaque right[12]; default: void; };
union some switch (int code) { case 1: hyper left; case -1: opaque right[12]; default: int other; };
union codes switch (unsigned int code) { case 0: case 1: case 4294967295: hyper number; default: void; };"""
SIZES = b"""typedef opaque five[5]; typedef opaque six<6>; typedef string text<>; typedef int three[3];
typedef opaque large[4294967295]; typedef large many[4294967295]; typedef large up_to<4294967295>;
typedef many more[2]; typedef many some<2>; typedef more none<0>;
typedef more *perhaps; typedef opaque most<>; typedef most all<>;"""
# Kinds in a row, each of the one before.
CHAIN = b"typedef int k0; " + b" ".join(b"struct k%d { k%d a; k%d b; };" % (n, n - 1, n - 1) for n in range(1, 63))

# A text, and names that it declares, each with both counts; `large` stands for one of 2^64 or more.
BOUNDS = [
    (FILE, {"file": "16 66100", "filetype": "4 264", "filekind": "4 4"}),
    (LIST, {"list": "4 unbounded"}),
    (LISTS, {
        "entry": "8 unbounded", "tree": "4 unbounded", "twig": "4 4", "chain": "4 unbounded", "pair": "8 unbounded",
    }),
    (UNIONS, {"perhaps": "4 12", "both": "12 16", "some": "8 16", "codes": "4 12"}),
    (SIZES, {
        "five": "8 8", "six": "4 12", "text": "4 4294967300", "three": "12 12", "many": f"{(2**32 - 1) * 2**32} "
        f"{(2**32 - 1) * 2**32}", "up_to": f"4 {(2**32 - 1) * 2**32 + 4}", "more": "large large", "some": "4 large",
        "none": "4 4", "perhaps": "4 large", "all": "4 large",
    }),
    (CHAIN, {"k0": "4 4", "k1": "8 8", "k61": f"{2**63} {2**63}", "k62": "large large"}),
]
