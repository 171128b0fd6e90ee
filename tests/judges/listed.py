"""Random calls of the registry beside a plain list of its rows (RFC 1833 sections 2 and 3): after each call the
registry has the rows of the list, in their order, and no others."""
import random

from .directory import answers_of, asked, calls

NETIDS, PROTS = ("", "tcp", "udp", "tcp6"), (5, 6, 17, 5)
# The last address is not over IPv4, so that it has no port.
ADDRESSES, PORTS = ("", "0.0.0.0.0.111", "127.0.0.1.8.1", "::1.8.1"), {"0.0.0.0.0.111": 111, "127.0.0.1.8.1": 2049}
# The first may remove every row.
OWNERS = ("superuser", "1000", "unknown")


class Listed:
    """Rows of a key, a program, a version and a netid, with its address and its owner."""

    def __init__(self):
        self.rows = []

    def address_of(self, key):
        """The address of a key, empty where there is no row."""
        return next((address for mine, address, _ in self.rows if mine == key), "")

    def looked_up(self, key):
        """The same, of the greatest version where there is no row of its own."""
        others = [(mine[1], address) for mine, address, _ in self.rows if (mine[0], mine[2]) == (key[0], key[2])]
        return self.address_of(key) or max(others, default=(0, ""))[1]

    def set(self, key, address, owner):
        """Adds a row, where it may be added."""
        is_done = bool(key[2] and address and not self.address_of(key))
        if is_done:
            self.rows.append((key, address, owner))
        return is_done

    def unset(self, key, owner):
        """Removes rows of a key, or of all netids where that is empty."""
        before = self.rows
        self.rows = [row for row in before if not self.goes(row, key, owner)]
        return len(self.rows) < len(before)

    @staticmethod
    def goes(row, key, owner):
        mine, _, whose = row
        return mine[:2] == key[:2] and key[2] in ("", mine[2]) and owner in ("superuser", whose)

    def all(self):
        """Calls that tell all rows."""
        yield "rows", len(self.rows)
        yield from (("row", index, *row) for index, row in enumerate(self.rows))


def call(source, listed):
    """A random call of few programs, versions and texts, done on the list, with what it answers. An empty address
    stands for a port that is too high."""
    prog, vers, place = source.randrange(4), source.randrange(3), source.randrange(4)
    address, owner = source.choice(ADDRESSES), source.choice(OWNERS)
    key, port_key = (prog, vers, NETIDS[place]), (prog, vers, PROTS[place])
    is_port = NETIDS[place] in ("tcp", "udp")
    match source.randrange(8):
        case 0 | 1:
            return "set", key, address, owner, listed.set(key, address, owner)
        case 2 if address and is_port:
            return "set_port", port_key, 111, owner, listed.set(key, ADDRESSES[1], owner)
        case 2:
            return "set_port", port_key, 111 if address else 65536, owner, False
        case 3:
            return "unset", key, owner, listed.unset(key, owner)
        case 4:
            over = [listed.unset((prog, vers, netid), owner) for netid in ("tcp", "udp")]
            return "unset_port", prog, vers, owner, any(over)
        case 5:
            return "getaddr", key, listed.looked_up(key)
        case 6:
            return "getversaddr", key, listed.address_of(key)
        case _:
            return "get_port", port_key, PORTS.get(listed.looked_up(key), 0) if is_port else 0


def random_call_cases(seed=20100401, count=10000):
    """So many calls of one registry, and all its rows after each."""
    source, listed, made = random.Random(seed), Listed(), []
    for _ in range(count):
        made.append(asked(call(source, listed)))
        made += map(asked, listed.all())
    case, wanted = calls(*made)
    yield case, lambda told: answers_of(told)[1] == wanted
