"""Random pieces of many connections of a registry, with writes, ends and datagrams between them."""
import random

from rows.shared import LONG, marked, word

from .serving import CALLERS, REPLIES, Serving, is_served, serving

# What random pieces are made from, where nothing else is said.
SEED = 1


def random_stream(source):
    """Records in fragments; few are long, and few streams come to a record that is too long, or end inside one."""
    records = source.choices([*REPLIES], k=source.randrange(1, 12))
    stream = b"".join(
        marked(record, source.randrange(len(record) + 1)) if source.randrange(2) else marked(record)
        for record in records if record != LONG or not source.randrange(8)
    )
    return stream + source.choice([b""] * 12 + [word(0x80010001), word(2) + b"ab" + word(0x7FFFFFFF), b"\x80\0"])


class Interleaving:
    """Random events of many connections, each of which brings a random stream in random pieces."""

    def __init__(self, source, most):
        self.source, self.events = source, []
        self.model = Serving(most, source.choice((0, 28, 100, 1000, 100000)))
        self.streams = {}

    def happens(self, event, told):
        self.events.append(event)
        assert self.model.is_answer(event, told), (event, told)

    def open_one(self):
        """Begins a connection of any caller."""
        number = self.model.next
        self.happens(f"open:{self.source.choice(CALLERS)}", f"open {number}")
        self.streams[number] = random_stream(self.source)

    def take(self, number):
        """Brings a piece: what is told of it is what the model says, of which each other answer is refused."""
        source, connection = self.source, self.model.open[number]
        size = source.choice((1, 3, source.randrange(1, 80), source.randrange(1, 400), 10000))
        piece = self.streams[number][:size]
        event = f"take:{number}:{piece.hex()}"
        before = connection.reading.count
        is_full = len(connection.output) > self.model.bound
        self.events.append(event)
        self.model.is_answer(event, None)
        taken = 0 if is_full and not connection.fault else connection.reading.count - before
        self.streams[number] = self.streams[number][size if connection.fault else taken :]
        if not self.streams[number] and not connection.fault and not connection.reading.is_inside():
            self.streams[number] = random_stream(source)

    def step(self):
        source, model = self.source, self.model
        number = source.choice([*model.open])
        match source.choices(("take", "write", "came", "kept", "end", "close", "strange"), (800, 120, 20, 10, 4, 4, 2))[0]:
            case "take":
                self.take(number)
            case "write":
                count = source.choice((1, 27, 28, 64, 1000, 100000))
                self.events.append(f"write:{number}:{count}")
                model.is_answer(self.events[-1], None)
            case "came":
                self.events.append(f"came:{source.choice([*REPLIES]).hex()}")
                model.is_answer(self.events[-1], None)
            case "kept":
                self.events.append(f"kept:{number}")
            case "end":
                self.events.append(f"end:{number}")
                model.is_answer(self.events[-1], None)
            case "close":
                self.events.append(f"close:{number}")
                model.is_answer(self.events[-1], None)
                self.open_one()
            case _:
                self.events.append(source.choice((f"take:{model.next}:00", f"close:{model.next}", "end:99999", "write:99999:1")))

    def pieces(self):
        return sum(event.startswith("take") for event in self.events)


def random_session_cases(seed=SEED, count=20000, connections=64, most=2000):
    """So many pieces in runs of at most so many, the first of so many connections at a time, the others of some."""
    source, left = random.Random(seed), count
    while left > 0:
        made = Interleaving(source, connections)
        for _ in range(connections if left == count else source.randrange(1, connections + 1)):
            made.open_one()
        while made.pieces() < min(left, most):
            for _ in range(100):
                made.step()
        left -= made.pieces()
        case = serving(connections, made.model.bound, made.events)
        yield case, is_served(case)
