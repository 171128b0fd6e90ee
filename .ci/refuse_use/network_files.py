"""The limit on open files: that of the rows, and the line of a registry for which it is too low."""
import resource

# The most files that the rows have open, and how many a registry needs beside its connections over TCP.
MOST_FILES, BESIDE = 4096, 32
# The connections where none are named.
CONNECTIONS = 1024


def allow_files():
    """Has this process and those that it starts open as many files as the rows need."""
    soft, hard = resource.getrlimit(resource.RLIMIT_NOFILE)
    if soft != resource.RLIM_INFINITY and soft < MOST_FILES:
        most = MOST_FILES if hard == resource.RLIM_INFINITY else min(hard, MOST_FILES)
        resource.setrlimit(resource.RLIMIT_NOFILE, (most, hard))


def warning(connections=None, limit=None):
    """What a registry of so many connections says on standard error under this limit on open files, or that of this
    process, before it says where it listens."""
    if limit is None:
        limit, _ = resource.getrlimit(resource.RLIMIT_NOFILE)
    wanted = (CONNECTIONS if connections is None else connections) + BESIDE
    if limit == resource.RLIM_INFINITY or limit >= wanted:
        return b""
    return b"warning: the limit on open files is %d, and %d may be needed\n" % (limit, wanted)
