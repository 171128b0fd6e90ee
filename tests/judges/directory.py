"""Calls of the registry, one after another: what each answers, and what is left where a growth is refused to it; its
types; and the texts of addresses (RFC 1833 sections 2 and 3, RFC 5665 section 5.2.3.3)."""
from rows.directory import (
    FILLS,
    FULL,
    KINDS,
    MAPPINGS,
    NAMES,
    NO_ROWS,
    OWN_FOUND,
    READ_UADDRS,
    RPCBS,
    TABLES,
    TAKING,
    TAKING_NONE,
    WRITTEN_UADDRS,
)
from rows.shared import Case, word

from .running import run

NO_MEMORY = "out of memory"


def field(content):
    """A number or a text as XDR (RFC 4506 sections 4.2 and 4.11)."""
    if isinstance(content, int):
        return word(content)
    return word(len(content)) + content.encode() + bytes(-len(content) % 4)


def listed(rows):
    """The bytes of the list of these rows (RFC 4506 section 4.19)."""
    return (b"".join(word(1) + b"".join(map(field, row)) for row in rows) + word(0)).hex()


def line(name, refused, **keys):
    """A call as a case: what is empty or no growth is not written."""
    words = {"call": name, **keys, "refuse": "" if refused == "0" else refused}
    return " ".join(f"{key}={each}" for key, each in words.items() if each != "")


def asked(row, refused="0"):
    """A call as a line, where this growth is refused, and what it answers where none is."""
    match row:
        case "start", port, count:
            return line("start", refused, port=port), str(count)
        case "set" as name, (prog, vers, netid), address, owner, is_done:
            keys = {"prog": prog, "vers": vers, "netid": netid, "address": address, "owner": owner}
            return line(name, refused, **keys), str(is_done).lower()
        case "set_port" as name, (prog, vers, prot), port, owner, is_done:
            keys = {"prog": prog, "vers": vers, "prot": prot, "port": port, "owner": owner}
            return line(name, refused, **keys), str(is_done).lower()
        case "unset" as name, (prog, vers, netid), owner, is_done:
            return line(name, refused, prog=prog, vers=vers, netid=netid, owner=owner), str(is_done).lower()
        case "unset_port" as name, prog, vers, owner, is_done:
            return line(name, refused, prog=prog, vers=vers, owner=owner), str(is_done).lower()
        case "getaddr" | "getversaddr" as name, (prog, vers, netid), address:
            return line(name, refused, prog=prog, vers=vers, netid=netid), f"address {address}"
        case "get_port" as name, (prog, vers, prot), port:
            return line(name, refused, prog=prog, vers=vers, prot=prot), str(port)
        case "rows" as name, count:
            return line(name, refused), str(count)
        case "row" as name, index, None:
            return line(name, refused, index=index), "no row"
        case "row" as name, index, (prog, vers, netid), address, owner:
            return line(name, refused, index=index), f"{prog} {vers} {netid} {address} {owner}"
        case "dump" | "dump_ports" as name, rows:
            return line(name, refused), f"rows {listed(rows)}"
        case "read_uaddr" as name, text, host, port:
            named = f"host {'.'.join(map(str, host))} port {port}" if host else "no address"
            return line(name, refused, address=text), named
        case "write_uaddr" as name, text, host, port:
            return line(name, refused, host=int.from_bytes(bytes(host), "big"), port=port), f"address {text}"


def answers_of(told):
    """How many growths each call met, and what it answered."""
    each = [answer.partition(" ") for answer in told.answer.split("; ")]
    return [int(met) if met.isdigit() else -1 for met, *_ in each], [answer for *_, answer in each]


def calls(*pairs):
    """Calls on one registry, in order, each a line and its answer."""
    return Case("Directory", calls=[line for line, _ in pairs]), [answer for _, answer in pairs]


def answered(*pairs):
    case, wanted = calls(*pairs)
    return case, lambda told: answers_of(told)[1] == wanted


def started(port):
    return [] if port is None else [asked(("start", port, 6))]


def directory_cases():
    """Calls of the registry, with all memory."""
    for port, rows in TABLES + [(111, FILLS + FULL), (None, READ_UADDRS + WRITTEN_UADDRS)]:
        yield answered(*started(port), *map(asked, rows))


def none_cases():
    """Without any memory the calls that take some want it, and the others take none."""
    taking = [(asked(row, "1..")[0], NO_MEMORY) for _, row, _ in TAKING]
    case, wanted = calls(*started(111), *taking, *(asked(row, "1..") for row in TAKING_NONE))

    def is_well(told):
        met, answers = answers_of(told)
        return answers == wanted and not any(met[-len(TAKING_NONE) :])

    yield case, is_well
    written = [(asked(row, "1..")[0], NO_MEMORY) for row in WRITTEN_UADDRS]
    yield answered(*(asked(row, "1..") for row in READ_UADDRS), *written, asked(("rows", 0), "1.."))


def is_refused_well(taken, found, left, number, met):
    """An allocation failure with the rows as they were, or the whole answer: each call takes memory, and so misses the
    first growth, and it misses none past all of its own."""
    def is_well(told):
        answer, *after = answers_of(told)[1][-1 - len(found) - len(left) :]
        if answer == taken[1]:
            return after[: len(found)] == [wanted for _, wanted in found] and number > 1
        return answer == NO_MEMORY and after[len(found) :] == [wanted for _, wanted in left] and number <= met

    return is_well


def refused_call_cases(heap):
    """Each growth of a call refused, alone and with all later ones, and what is found then."""
    for port, row, after in TAKING:
        found, left = ([asked(each) for each in rows] for rows in (after, OWN_FOUND if port else NO_ROWS))
        whole = run([calls(*started(port), asked(row))[0]], LD_PRELOAD=heap)[0]
        met = answers_of(whole)[0][-1]
        for number in range(1, met + 3):
            for refused in (str(number), f"{number}.."):
                taken = asked(row, refused)
                case, _ = calls(*started(port), taken, *found, *left)
                yield case, is_refused_well(taken, found, left, number, met)
    yield from none_cases()


def has_types(kinds, names):
    """Whether the types have these kinds behind the basic ones, and these names."""
    is_named = [f'("{name}", {place})' in names for name, place in NAMES.items()]
    return kinds.endswith("".join(f"\n{kind}" for kind in KINDS)) and all(is_named) and '"pmap"' not in names


def is_registry(told, has_row):
    """Whether a registry is made with its own rows, and those and the row that was set before, if it was, are dumped as
    values of the registry's types."""
    rows = RPCBS + [(2**29, 1, "tcp", "0.0.0.0.8.1", "unknown")] * has_row
    ports = MAPPINGS + [(2**29, 1, 6, 2049)] * has_row
    return told.answer == "; ".join(f"rows {listed(each)}" for each in (RPCBS, rows, ports))
