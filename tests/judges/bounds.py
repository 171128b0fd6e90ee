"""How many bytes the values of types have (docs/LIBRARY.md)."""
from rows.bounds import BOUNDS
from rows.shared import Case


def bounds_rows():
    for text, kinds in BOUNDS:
        for name, wanted in kinds.items():
            case = Case("Bounds::of", text=text, kind=name)
            yield case, lambda told, wanted=wanted: told.answer == wanted


def bounds_cases():
    yield from bounds_rows()
    # As many kinds as a text may declare, each of the one before: both counts double up to 2^64.
    many = b"typedef int k0;" + b"".join(b"struct k%d{k%d a;k%d b;};" % (n, n - 1, n - 1) for n in range(1, 1015))
    yield Case("Bounds::of", text=many, kind="k60"), lambda told: told.answer == f"{2**62} {2**62}"
    yield Case("Bounds::of", text=many, kind="k1014"), lambda told: told.answer == "large large"
    # The same of arrays of two, and a union with many cases under one arm.
    many = b"typedef int k0;" + b"".join(b"typedef k%d k%d[2];" % (n - 1, n) for n in range(1, 1015))
    for kind, wanted in (("k0", "4 4"), ("k61", f"{2**63} {2**63}"), ("k62", "large large"), ("k1014", "large large")):
        yield Case("Bounds::of", text=many, kind=kind), lambda told, wanted=wanted: told.answer == wanted
    cases = b"".join(b"case %d:" % number for number in range(20000))
    union = b"union many switch (unsigned int n) { " + cases + b" hyper number; default: void; };"
    yield Case("Bounds::of", text=union, kind="many"), lambda told: told.answer == "4 12"
