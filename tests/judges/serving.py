"""What many connections of a registry that are served at once are answered: the registry's table of two states, in the
order in which last bytes came.

`Reading` has the records of a stream as they come (RFC 5531 section 11), and is compared with `records_in`, of whole
streams. `Serving` says what each event is answered: it has the outputs, the bounds and the faults. Where growths are
refused, a connection may end at an allocation failure, and a call may be answered by SYSTEM_ERR: nothing else changes.
"""
from rows.shared import (
    ASKED_AFTER,
    BY_RECORD,
    Case,
    FURTHER,
    GETADDR,
    NULL,
    OWN_ADDRESS,
    REPLY,
    SET,
    UNSET,
    denied,
    marked,
    octets,
    reply,
    told_after,
    word,
)

from .streams import records_in

LIMIT = 65536
NO_MEMORY = "out of memory"
# A record, its replies without and with the row, and whether the row is there afterwards, where that changes. To a
# caller who is known a SET of a row that is there is TRUE.
REPLIES = BY_RECORD | {record: (record, sent, sent, None) for record, sent in (*FURTHER, (NULL[:24], denied(1)))}
REPLIES[SET] = (SET, BY_RECORD[SET][1], BY_RECORD[SET][1], True)
# The most bytes of a reply as a fragment.
MOST_MARKED = 16777244


# Who opens a connection: a user whom the kernel names, by the uid; all others are nobody by name here, since the calls
# that change the row have AUTH_NONE. Of another host, who came to 10.0.0.7, changes are taken of the trusted one alone.
LOCAL, NOBODY, SUPERUSER = "local", "nobody", 0
UIDS = {"user": 7, "superuser": SUPERUSER}
CALLERS = [LOCAL] * 4 + ["remote", "trusted", *UIDS]
IS_FALSE = reply("00000000 00000000")
# The replies that tell an address at 0.0.0.0, and what is told to one who came to 10.0.0.7 (RFC 1833 section 2.2.1).
TOLD_AFAR = {
    reply("00000000 0000000b 302e302e 302e302e 382e3100"): reply("00000000 0000000c 31302e30 2e302e37 2e382e31"),
    OWN_ADDRESS: reply("00000000 0000000e 31302e30 2e302e37 2e302e31 31310000"),
}


def is_change(record):
    """Whether a record is a SET or an UNSET of the registry (RFC 5531 section 9, RFC 1833 sections 2.2 and 3.2)."""
    is_call = record[4:16] == word(0) + word(2) + word(100000)
    return is_call and record[16:20] in map(word, (2, 3, 4)) and record[20:24] in (word(1), word(2))


class Reading:
    """The records of a stream that comes in pieces: the bytes of a header, how much of a fragment is to come, and the
    record so far."""

    def __init__(self):
        self.count, self.head, self.left, self.content, self.is_last = 0, b"", 0, b"", False
        self.is_begun = False

    def feed(self, piece):
        """Reads up to the end of a record. How many bytes were read, and the record, or where it gets too long."""
        at = 0
        while at < len(piece):
            if self.left:
                some = piece[at : at + self.left]
                self.content, self.left = self.content + some, self.left - len(some)
                at, self.count = at + len(some), self.count + len(some)
            else:
                self.head, at, self.count = self.head + piece[at : at + 1], at + 1, self.count + 1
                if len(self.head) < 4:
                    continue
                head, self.head, self.is_begun = int.from_bytes(self.head, "big"), b"", True
                self.left, self.is_last = head & 0x7FFFFFFF, bool(head >> 31)
                if len(self.content) + self.left > LIMIT:
                    return at, None, self.count - 4
            if not self.left and self.is_last:
                record, self.content, self.is_last, self.is_begun = self.content, b"", False, False
                return at, record, None
        return at, None, None

    def is_inside(self):
        return bool(self.head) or self.is_begun


class Connection:
    def __init__(self, caller):
        self.caller, self.reading, self.output, self.fault = caller, Reading(), b"", None
        self.brought, self.records = b"", []


class Serving:
    """A table and its registry. `answers` says what an event may be answered, the one without refused memory first."""

    def __init__(self, most, bound):
        self.most, self.bound, self.next, self.open = most, bound, 0, {}
        # Whose the row is, None where there is none.
        self.owner, self.missed = None, 0

    def reply_to(self, record, caller=LOCAL, is_datagram=False):
        """The reply to a record, and whose the row is then. GETADDR asks for the transport of the call. A change by who
        may make none is AUTH_TOOWEAK, and a row of another is neither set again nor removed."""
        _, without, with_row, after = REPLIES[record]
        mine, has_row = UIDS.get(caller, NOBODY), self.owner is not None
        if is_change(record):
            if caller == "remote":
                return denied(5, int.from_bytes(record[:4], "big")), self.owner
            is_refused = mine != self.owner and (record == SET or mine != SUPERUSER)
            if record in (SET, UNSET) and has_row and is_refused:
                return IS_FALSE, self.owner
        said = with_row if has_row and not (is_datagram and record == GETADDR) else without
        owner = self.owner if after is None else mine if after else None
        return (TOLD_AFAR.get(said, said) if caller == "remote" else said), owner

    def taken(self, number, piece, told):
        connection = self.open.get(number)
        if connection is None:
            return told == "not open"
        if connection.fault:
            return told == connection.fault
        if len(connection.output) > self.bound:
            return told == "full"
        if told == NO_MEMORY:
            connection.fault, self.missed = NO_MEMORY, self.missed + 1
            return True
        used, record, too_long = connection.reading.feed(piece)
        connection.brought += piece[:used]
        if too_long is not None:
            connection.fault = f"refused TooLong at {too_long}"
            return told == connection.fault
        if record is None:
            return told == "more"
        connection.records.append(record)
        return self.answered(connection, used, record, told)

    def answered(self, connection, used, record, told):
        reply, owner = self.reply_to(record, connection.caller)
        if reply is None:
            return told == f"answered {used}"
        missed = octets(record[:4].hex() + REPLY[8:] + "00000005")
        if told == f"answered {used} {marked(missed).hex()}":
            self.missed, connection.output = self.missed + 1, connection.output + marked(missed)
            return True
        self.owner, connection.output = owner, connection.output + marked(reply)
        return told == f"answered {used} {marked(reply).hex()}"

    def opened(self, caller, told):
        if len(self.open) >= self.most:
            return told == "all are open"
        if told == NO_MEMORY:
            self.missed += 1
            return True
        self.open[self.next], self.next = Connection(caller or LOCAL), self.next + 1
        return told == f"open {self.next - 1}"

    def came(self, record, told):
        reply, owner = self.reply_to(record, is_datagram=True)
        if reply is None:
            return told == "no reply"
        if told == f"out of memory, xid {int.from_bytes(record[:4], 'big')}":
            self.missed += 1
            return True
        self.owner = owner
        return told == f"reply {reply.hex()}"

    def kept(self, connection, told):
        """A connection keeps its record so far and its output, and of what was written no more than of that. Behind
        a fault of its bytes, and of memory, it keeps none of a record; at an end inside one it stays."""
        if connection is None:
            return told == f"not open of {len(self.open)}"
        count, _, others = told.removeprefix("kept ").partition(" of ")
        is_dropped = connection.fault and not connection.fault.startswith("refused Truncated")
        least = (0 if is_dropped else len(connection.reading.content)) + len(connection.output)
        most = least + len(connection.output)
        is_within = most <= LIMIT + 2 * self.bound + MOST_MARKED
        is_counted = least <= int(count) <= most
        return is_counted and is_within and others == str(len(self.open))

    def ended(self, connection, told):
        if connection and not connection.fault and connection.reading.is_inside():
            connection.fault = f"refused Truncated at {connection.reading.count}"
        return told == ("not open" if connection is None else connection.fault or "ended")

    def written(self, connection, count, told):
        output = connection.output if connection else b""
        if connection:
            connection.output = output[count:]
        return told == f"wrote {output[:count].hex()}"

    def is_answer(self, event, told):
        """Whether this event may be answered so, after those before it."""
        name, _, rest = event.partition(":")
        first, _, more = rest.partition(":")
        connection = self.open.get(int(first)) if first.isdigit() and name != "came" else None
        match name:
            case "open":
                return self.opened(rest, told)
            case "take":
                return self.taken(int(first), octets(more), told)
            case "write":
                return self.written(connection, int(more), told)
            case "end":
                return self.ended(connection, told)
            case "came":
                return self.came(octets(rest), told)
            case "kept":
                return self.kept(connection, told)
        self.open.pop(int(first), None)
        return told == (f"closed {len(connection.output)}" if connection else "not open")

    def is_well(self, events, answers, most_missed=0):
        """Whether all events are answered well, and no more calls than these missed memory; and whether the records
        that came are those of the bytes that were taken."""
        if len(events) != len(answers) or not all(map(self.is_answer, events, answers)):
            return False
        return self.missed <= most_missed and all(
            [record for _, record in records_in(each.brought, LIMIT)[0]] == each.records for each in self.open.values()
        )


def serving(most, bound, events, **more):
    return Case("SessionTable", most=most, bound=bound, events=events, after=ASKED_AFTER, **more)


def is_served(case, most_missed=0):
    """Whether the events are answered well, and the registry afterwards is as they left it."""
    def is_well(told):
        model = Serving(case.most, case.bound)
        is_right = model.is_well(case.events, told.answer.split("; "), most_missed)
        return is_right and told.streams[0] == told_after(model.owner is not None)

    return is_well
