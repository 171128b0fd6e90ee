"""Readers and writers of std as sources and sinks. A fault is one whatever the kind of the error, those that std's own
loops try again too; the end is a read of nothing; and a write of nothing is a fault."""

# What it is over, how many bytes a read gives and which read fails, what is enough, all bytes, and then the two answers
# of `read_past`, each with its bytes.
READ = [
    # More than enough in whole pieces, and then the rest.
    ("", (3, 0), 5, b"0123456789", "ok; ok", b"012345", b"6789"),
    ("memory", (3, 0), 5, b"0123456789", "ok; ok", b"012345", b"6789"),
    # All bytes, and then the end.
    ("", (1, 0), 100, b"abc", "ok; ok", b"abc", b""),
    ("memory", (4096, 0), 100, b"abc", "ok; ok", b"abc", b""),
    ("cursor", (4096, 0), 100, b"abc", "ok; ok", b"abc", b""),
    ("empty", (4096, 0), 100, b"", "ok; ok", b"", b""),
    # A fault at once, behind bytes, and at the end.
    ("", (1, 1), 100, b"abc", "read fault; ok", b"", b"abc"),
    ("", (1, 3), 100, b"abc", "read fault; ok", b"", b"c"),
    ("", (1, 4), 100, b"abc", "read fault; ok", b"", b""),
    ("", (1, 5), 100, b"abc", "ok; read fault", b"abc", b""),
]
# What it is over, how many bytes a write takes and which write fails; what is answered to a write of all bytes, and to
# all of them in as many writes as it takes. Of std's a slice of 5 bytes is full behind these.
WRITTEN = [
    ("", (4096, 0), b"abc", "3; ok"),
    ("", (1, 0), b"abc", "1; ok"),
    ("sink", (4096, 0), b"abc", "3; ok"),
    ("slice", (4096, 0), b"abc", "3; write fault after 2"),
    ("slice", (4096, 0), b"abcde", "5; write fault after 0"),
    ("memory", (4096, 0), b"abc", "3; write fault after 2"),
    ("memory", (1, 0), b"abcde", "1; write fault after 4"),
]
# Of a writer whose write fails, by an error or by taking nothing: what is answered in place of the count to the first.
FAILING = [
    ((1, 1), b"abc", "{}; ok"),
    ((1, 2), b"abc", "1; write fault after 0"),
    ((1, 4), b"abc", "1; write fault after 2"),
    ((2, 3), b"abc", "2; write fault after 2"),
    ((1, 5), b"abc", "1; ok"),
]
ERRORS = ("Interrupted", "UnexpectedEof", "Other")
