"""What scripts/prove keeps for later runs: in which lane it proved crates in turn, where copies share nothing."""
import re
import subprocess

from running import naming


def toolchain():
    """What the toolchain says of itself."""
    how = {"stdin": subprocess.DEVNULL, "stdout": subprocess.PIPE, "stderr": subprocess.DEVNULL, "text": True}
    return subprocess.run(["rt", "version"], check=False, **how).stdout


def lane_alone(lanes):
    """The lane in which an earlier run of this toolchain proved the crates in turn, or None where none did."""
    try:
        with open(f"{lanes}/alone", encoding="utf-8", errors="replace") as kept:
            found = re.fullmatch(r"(\d+)\n(.*)", kept.read(), re.S)
    except OSError:
        return None
    return int(found[1]) if found and found[2] == toolchain() else None


def keep_lane(lanes, number):
    """Keeps which lane that is, and which toolchain takes nothing over from other copies."""
    with naming(f"{lanes}/alone"), open(f"{lanes}/alone", "w", encoding="utf-8") as kept:
        kept.write(f"{number}\n{toolchain()}")
