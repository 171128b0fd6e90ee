"""One direction of a connection beside a plain model of it: a byte for each place that has one (RFC 9293 section
3.4)."""
import random
from collections import Counter

from rows.segments import SEGMENTS
from rows.shared import Case, octets

# The runs of each limit, and how many of their answers at least are of each kind, and bytes that are handed on.
RUNS = 60
LEAST = {
    1 << 20: {"ok": 5000, "skipped": 500, "bytes": 20000},
    600: {"ok": 5000, "Full": 500, "skipped": 500, "bytes": 20000},
}


def event_words(event):
    return "skip" if event is None else f"{event[0]}:{event[1].hex()}"


def direction(first, limit, events):
    return Case("Direction", first=first, limit=limit, events=[*map(event_words, events)])


def told_of(answer):
    """What is told of each event: the answer, the place that is due, how much is held, and what was handed on."""
    for each in answer.split("; "):
        said, due, held, handed = each.split(", ")
        yield said, int(due), int(held), octets(handed)


class Model:
    """The place that is due, and a byte for each place behind it that has one: the first that came."""

    def __init__(self, first):
        self.first, self.due, self.bytes = first, 0, {}

    def place_of(self, sequence):
        """The place nearest to the due one that has the number."""
        return self.due + (sequence - self.first - self.due + (1 << 31)) % (1 << 32) - (1 << 31)

    def put(self, begin, content):
        for place, byte in enumerate(content, begin):
            if place >= self.due:
                self.bytes.setdefault(place, byte)

    def skip(self):
        """Makes the first place due that has a byte, and says how many have none before it; None where none has one."""
        if not self.bytes:
            return None
        missing = min(self.bytes) - self.due
        self.due += missing
        return missing

    def hand_on(self):
        """The bytes that are due, which are due no more."""
        handed = bytearray()
        while self.due in self.bytes:
            handed.append(self.bytes.pop(self.due))
            self.due += 1
        return bytes(handed)


def is_full(model, event, taken, held, limit):
    """Whether bytes may be refused from so many on: ahead of the due place, where the rest would bring what is held
    above the limit."""
    rest = len(event[1]) - taken
    return model.place_of(event[0]) > model.due and rest > 0 and held + rest + 128 > limit


def is_taken(model, event, said, held, limit):
    """Whether this is answered to the event, which the model does too."""
    if event is None:
        missing = model.skip()
        return said == ("none" if missing is None else f"skipped {missing}")
    begin, content = model.place_of(event[0]), event[1]
    if said.startswith("Full "):
        taken = int(said.removeprefix("Full "))
        model.put(begin, content[:taken])
        return is_full(model, event, taken, held, limit)
    model.put(begin, content)
    return said == "ok"


def is_step(model, event, told, limit):
    """Whether this is told of the event. Each piece that is held counts as 128 bytes more."""
    said, due, held, handed = told
    is_well = is_taken(model, event, said, held, limit) and (handed, due) == (model.hand_on(), model.due)
    kept = len(model.bytes)
    return is_well and kept <= held <= limit and (held - kept) % 128 == 0 and bool(held) == bool(kept)


def is_modelled(first, limit, events, counts):
    def is_well(told):
        model, steps = Model(first), [*told_of(told.answer)]
        for said, _, _, handed in steps:
            counts.update({said.partition(" ")[0]: 1, "bytes": len(handed)})
        return len(steps) == len(events) and all(is_step(model, *each, limit) for each in zip(events, steps))

    return is_well


def random_events(source, first):
    """Segments that begin at the place that is due where all are taken, before or behind it; and holes that are skipped
    now and then."""
    model, events = Model(first), []
    while model.due < 3600 and len(events) < 400:
        begin = model.due + source.choice((0, -source.randrange(64), source.randrange(100), source.randrange(100)))
        content = source.randbytes(source.randrange(24))
        events.append(((first + begin) % (1 << 32), content))
        model.put(begin, content)
        model.hand_on()
        if source.randrange(8) == 0:
            events.append(None)
            model.skip()
            model.hand_on()
    return events


def segment_cases(seed=1):
    for first, limit, rows in SEGMENTS:
        events, wanted = zip(*rows)
        yield direction(first, limit, events), lambda told, wanted=wanted: [*told_of(told.answer)] == [*wanted]
    source = random.Random(seed)
    for limit, least in LEAST.items():
        counts = Counter()
        for _ in range(RUNS):
            first = (1 << 32) - 1 - source.randrange(2000)
            events = random_events(source, first)
            yield direction(first, limit, events), is_modelled(first, limit, events, counts)
        # The last of them once more: with all those before it there were enough of each kind.
        yield direction(first, limit, events), lambda told, counts=counts, least=least: counts >= Counter(least)
