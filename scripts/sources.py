"""What a crate is proved of, as texts."""
import os

# The folders of a crate that are proved.
PARTS = ("src", "specs", "proofs")


def texts(crate):
    """Each file of a crate that is proved, by its place in the crate's folder."""
    found = {}
    for part in PARTS:
        for at, _, files in os.walk(f"{crate}/{part}", followlinks=True):
            for name in files:
                with open(f"{at}/{name}", "rb") as it:
                    found[os.path.relpath(f"{at}/{name}", crate)] = it.read()
    return found
