"""Records that are run as they stand: a reader call by call, a captured reply in three fragments, long records, and
records that are marked."""
from .shared import octets

# Two records of one byte each, as they stand in their normal form.
TWO = octets("80000001 61 80000001 62")
# Calls on one reader whose limit is 10, in order: the call, what is fed, and what is answered. Behind `whole` of a
# `feed_into` stands the record that its buffer has then. In the first table a second record waits in what was fed for
# the second time. In the second stand a record in one piece, in two, in two fragments, and one that waited; then a
# header whose record passes the limit.
TAKEN = [
    ("feed", TWO, "whole 5"),
    ("feed", octets("80000001 62"), "whole 0"),
    ("take", b"", "61"),
    ("take", b"", "none"),
    ("end", b"", "ok"),
    ("feed", octets("80"), "more"),
    ("end", b"", "refused Truncated at 6"),
    ("feed", b"", "refused Truncated at 6"),
]
FILLED = [
    ("feed_into", TWO, "whole 5 61"),
    ("feed_into", octets("800000"), "more"),
    ("feed_into", octets("01 62"), "whole 2 62"),
    ("feed_into", octets("00000001 61 80000001 62 80"), "whole 10 6162"),
    ("feed", TWO, "whole 5"),
    ("feed_into", octets("80000001 62"), "whole 0 61"),
    ("take", b"", "none"),
    ("feed_into", octets("8000000b"), "refused TooLong at 25"),
    ("feed_into", TWO, "refused TooLong at 25"),
]
# A length, and the header of a last fragment with such a content.
LONG = [(65536, octets("80010000")), (16777216, octets("81000000"))]
