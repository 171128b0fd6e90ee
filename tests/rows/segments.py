"""Segments of a direction and the bytes that are due by then, worked by hand from their sequence numbers (RFC 9293
section 3.4). Of what is held behind a hole each piece counts as its bytes and 128 more."""

# The number of the first byte, how much is held at most, and the events, each with what is told: the answer, the place
# that is due then, how much is held, and what was handed on. An event without bytes skips a hole.
SEGMENTS = [
    # In order, and once more.
    (100, 600, [((100, b"ab"), ("ok", 2, 0, b"ab")), ((102, b"c"), ("ok", 3, 0, b"c")),
                ((101, b"xyd"), ("ok", 4, 0, b"d"))]),
    # Behind a hole, over the wrap of numbers, and of two bytes for a place the first that came.
    (4294967290, 600, [((4294967292, b"cd"), ("ok", 0, 130, b"")), ((4294967291, b"bxxefghi"), ("ok", 0, 392, b"")),
                       ((4294967290, b"a"), ("ok", 9, 0, b"abcdefghi")), ((3, b"j"), ("ok", 10, 0, b"j"))]),
    # A hole that is skipped, one that is none, and a segment from before.
    (0, 600, [(None, ("none", 0, 0, b"")), ((2, b"cd"), ("ok", 0, 130, b"")), ((6, b"g"), ("ok", 0, 259, b"")),
              (None, ("skipped 2", 4, 129, b"cd")), ((0, b"ab"), ("ok", 4, 129, b"")),
              ((3, b"def"), ("ok", 7, 0, b"efg"))]),
    # As much as is held, and no byte more; what is due is taken all the same.
    (0, 260, [((2, b"cd"), ("ok", 0, 130, b"")), ((6, b"ghi"), ("Full 0", 0, 130, b"")),
              ((6, b"gh"), ("ok", 0, 260, b"")), ((9, b"j"), ("Full 0", 0, 260, b"")),
              ((0, b"abxxefxxi"), ("ok", 9, 0, b"abcdefghi"))]),
]
