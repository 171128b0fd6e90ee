"""Connections of a registry that owe many replies or long ones, and many connections."""
import itertools

from rows.answers import GREATEST_USER, ROOT, called
from rows.shared import Case, DUMP, NULL, REPLY, SET, call, marked, octets, reply, word

from .serving import LIMIT, is_served, serving

# How many calls a connection makes, each with an xid of its own; how many bytes writes take of their replies, each of
# 28 bytes; and with more than how many bytes waiting `serve` takes no more.
OWED, TAKEN, SERVE_BOUND = 800, (1, 27, 28, 29, 3), 8192


class Owing:
    """A connection that owes replies: events, what each is answered, and the bytes that wait."""

    def __init__(self, bound):
        self.bound, self.waiting, self.rows = bound, b"", [("open", "open 0")]
        self.parts = itertools.cycle(TAKEN)

    def call(self, xid):
        """Brings a call of this xid, and tells whether it is taken."""
        record = marked(word(xid) + NULL[4:])
        reply = marked(word(xid) + octets(REPLY[8:] + "00000000"))
        is_taken = len(self.waiting) <= self.bound
        self.rows.append((f"take:0:{record.hex()}", f"answered {len(record)} {reply.hex()}" if is_taken else "full"))
        self.waiting += reply if is_taken else b""
        return is_taken

    def write(self):
        """A write takes some of what waits."""
        count = next(self.parts)
        self.rows.append((f"write:0:{count}", f"wrote {self.waiting[:count].hex()}"))
        self.waiting = self.waiting[count:]

    def case(self):
        """The case and its judge, once all that waits was written; nothing is kept then, and no more is written."""
        while self.waiting:
            self.write()
        self.rows += [("write:0:1", "wrote "), ("kept:0", "kept 0 of 1"), ("end:0", "ended")]
        wanted = "; ".join(answer for _, answer in self.rows)
        return serving(1, self.bound, [event for event, _ in self.rows]), lambda told: told.answer == wanted


def owing_cases():
    """A connection that owes many replies gives each once, in the order of its calls, whatever parts of them are taken:
    behind the last call, behind each, and where no more is taken until some were."""
    late, between, full = Owing(1 << 20), Owing(1 << 20), Owing(SERVE_BOUND)
    for xid in range(OWED):
        late.call(xid)
        between.call(xid)
        between.write()
        while not full.call(xid):
            full.write()
    yield from (owing.case() for owing in (late, between, full))


def large_session_cases():
    """The longest record, a mebibyte of replies that wait, ten thousand connections of which the last is served, and
    the longest reply."""
    yield from owing_cases()
    longest = marked(NULL.ljust(LIMIT, b"\xff"))
    sent = marked(octets(REPLY + "00000000"))
    case = Case("SessionTable", most=1, bound=0, events=["open", f"take:0:{longest.hex()}", "write:0:28"])
    wanted = f"open 0; answered {len(longest)} {sent.hex()}; wrote {sent.hex()}"
    yield case, lambda told: told.answer == wanted
    asked = [f"take:0:{marked(DUMP).hex()}"] * 8000
    case = serving(1, 1 << 20, [f"open", f"take:0:{marked(SET).hex()}", *asked, "kept:0", "write:0:600000", "kept:0",
                                f"take:0:{marked(NULL).hex()}", "write:0:2000000", "kept:0", "end:0"])
    yield case, is_served(case)
    case = serving(10000, 100, ["open"] * 10001 + [f"take:9999:{marked(SET).hex()}", "kept:9999", "write:9999:99"])
    yield case, is_served(case)
    yield from full_session_cases()


# The bound of `serve`, and how many bytes the longest reply has with its header: the rows of a full registry.
BOUND, LONGEST = 8192, 364576


def full_rows():
    """Calls that leave 1024 rows with the longest netid, address and owner, each with its reply; and the reply to DUMP
    then. The superuser removes the registry's own rows before."""
    texts = f"{word(64).hex()} {'74' * 64} {word(256).hex()} {'61' * 256}"
    named = [f"{program:08x} 00000001 {texts}" for program in range(1, 1025)]
    calls = [called(ROOT, 4, 2, f"000186a0 {vers:08x}" + "00000000" * 3, "00000000 00000001") for vers in (2, 3, 4)]
    calls += [called(GREATEST_USER, 4, 1, f"{each} 00000000", "00000000 00000001") for each in named]
    owner = word(10) + b"4294967295\0\0"
    rows = b"".join(word(1) + octets(each) + owner for each in named)
    return calls, reply("00000000") + rows + word(0)


def full_session_cases():
    """The output that one DUMP of a full registry leaves behind replies that wait and replies that writes have taken:
    within twice the bound and that reply, and above the bound no second one."""
    calls, rows = full_rows()
    nothing = f"answered {len(NULL) + 4} {marked(reply('00000000')).hex()}"
    happens = [("open", "open 0")]
    for record, said in calls:
        happens += [(f"take:0:{marked(record).hex()}", f"answered {len(record) + 4} {marked(said).hex()}")]
        happens += [("write:0:32", f"wrote {marked(said).hex()}")]
    waiting = b""
    for more, taken in ((293, 4101), (146, 2044), (73, 1022), (36, 504), (18, 0)):
        happens += [(f"take:0:{marked(NULL).hex()}", nothing)] * more
        waiting += marked(reply("00000000")) * more
        happens += [(f"write:0:{taken}", f"wrote {waiting[:taken].hex()}")]
        waiting = waiting[taken:]
    dump = call(4, 4, "")
    happens += [(f"take:0:{marked(dump).hex()}", f"answered {len(dump) + 4} {marked(rows).hex()}")]
    happens += [(f"take:0:{marked(dump).hex()}", "full")]
    *wanted, least = [answer for _, answer in happens] + [len(waiting) + LONGEST]
    case = Case("SessionTable", most=1, bound=BOUND, events=[event for event, _ in happens] + ["kept:0"])

    def is_well(told):
        *answers, kept = told.answer.split("; ")
        count, others = kept.removeprefix("kept ").split(" of ")
        is_within = least <= int(count) <= 2 * BOUND + LONGEST
        return answers == wanted and is_within and others == "1" and len(marked(rows)) == LONGEST

    yield case, is_well
