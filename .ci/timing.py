"""Rows whose verdict depends on time, on a machine where a process may have no processor for seconds."""
import time

# The seconds that are waited for what a fault alone keeps away, and those within which a run is to end that hangs else.
WAIT, SOON = 120, 30
# The seconds after which a command is ended that takes a second or two where nothing else runs.
LIMIT = 600
# How often a row of these is tried.
TRIES = 3


def in_time(once):
    """What a row comes to whose verdict depends on time: a machine short of processors makes any process late, so the
    row is tried up to three times, and one whole good try suffices. A fault of the program makes all three fail."""
    for _ in range(TRIES):
        is_well, *found = once()
        if is_well:
            break
    return is_well, *found


def wait_until(is_so, seconds=WAIT):
    """Whether something comes to be within so many seconds; it is looked at once more when they are over."""
    until = time.monotonic() + seconds
    while time.monotonic() < until:
        if is_so():
            return True
        time.sleep(0.05)
    return bool(is_so())
