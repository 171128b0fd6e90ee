"""How each script of the gate tells of a row: by a line that begins with FAILED where the row is not as it should be.
The gate prints these lines again at its end."""

FAILED = "FAILED: "


def line_of(name, is_well, found="", well="as it should be"):
    """The line of a row. Of one that failed it tells what was found, on the same line."""
    return f"{name}: {well}" if is_well else f"{FAILED}{name}: {found}"


def tell(name, is_well, found="", well="as it should be"):
    """Prints the line of a row, and says whether it is well."""
    print(line_of(name, is_well, found, well), flush=True)
    return bool(is_well)
