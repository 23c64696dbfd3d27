"""The desk as a slow, plain program. It keeps its events and the kept replies, and reads all else off them, by the rules
of docs/DEFINITIONS.md and docs/FORMATS.md. It shares no code with the desk.
More than 200 lines: the rules of the desk stand in one place.

A request is a tuple: ("load", name, rows), ("begin", plan line), ("step", id), ("abort", id, p), ("stop", id), or
("save", id). A row is a cell's text and its places. A reply is ("loaded", name, rows), ("begun", id),
("moved", id, item, pos, phase), or a Refusal. An item is ("T", step, option), ("C", step, option),
("B", target, cause) or ("S", position, 0).
"""
import copy
import functools
from typing import NamedTuple

from plain_texts import NAME, BadPlan, Plan, cell_in, number_in, plan_in

CODES = {"T": 0, "C": 1, "B": 2, "S": 3}
NAMES = {
    1: "BadHead", 2: "NoAgent", 3: "NoKey", 4: "BadBody", 5: "BadPlan", 6: "BadCsv", 7: "UnknownPath", 8: "WrongMethod",
    9: "NoJourney", 10: "Finished", 11: "NoSavePoint", 12: "BelowHeld", 13: "BatchDiffers", 14: "KeyReused",
    15: "TooLarge", 16: "Limit", 19: "NoLength", 23: "AlreadyNew", 28: "NoSave",
}
PHASES = RUN, BACK, ENDED, UNDONE = "run", "back", "ended", "undone"


class Refusal(NamedTuple):
    """A reply that says no."""

    number: int
    step: object = None
    row: object = None
    cause: object = None


class Journey(NamedTuple):
    """A plan that an agent has begun, and the items that it made."""

    agent: str
    plan: Plan
    items: tuple = ()

    def net(self):
        """The transactions that stand, each as step and option."""
        return standing(self.items, "T")

    def taken(self):
        """The positions at which a save-point was taken that stands."""
        return {position for position, _ in standing(self.items, "S")}

    def wants(self):
        """The wants of the transactions that stand."""
        return [self.plan.steps[step - 1].options[option - 1] for step, option in self.net()]

    def pos(self):
        return len(self.net())

    def refusals(self):
        return sum(kind == "B" and b == "r" for kind, _, b in self.items)

    def is_save_point(self, p):
        return 1 <= p <= self.pos() and self.plan.steps[p - 1].save or p in self.taken()

    def last_save(self):
        return max((p for p in range(1, len(self.plan.steps) + 1) if self.is_save_point(p)), default=0)

    def refused_target(self):
        return self.last_save() if self.refusals() < self.plan.tries else 0

    def next_option(self):
        return min(self.refusals() + 1, len(self.plan.steps[self.pos()].options))

    def next_want(self):
        return self.plan.steps[self.pos()].options[self.next_option() - 1]

    def phase(self):
        """What the journey is doing, and where it goes back to, or None."""
        pos = self.pos()
        if pos == len(self.plan.steps):
            return ENDED, None
        if pos == 0 and any(kind == "B" and a == 0 for kind, a, _ in self.items):
            return UNDONE, None
        # the target of the last turn, if no transaction came since
        last, target = next(((kind, a) for kind, a, _ in reversed(self.items) if kind in "TB"), ("T", 0))
        return (BACK, target) if last == "B" and target < pos else (RUN, None)

    def is_open(self):
        return self.phase()[0] in (RUN, BACK)


@functools.lru_cache(8192)
def standing(items, kind):
    """The items of this kind after which no compensation of their step comes, each as step and option."""
    last = {a: n for n, (other, a, _) in enumerate(items) if other == "C"}
    return tuple((a, b) for n, (other, a, b) in enumerate(items) if other == kind and last.get(a, 0) <= n)


class Desk:
    """The events of the ledger, and the kept replies. What is read off the events is kept, so that a desk of many events does
    not read all of them for one more: what stands of each journey, the places that journeys hold, the rows. `by_events` reads
    all anew."""

    def __init__(self):
        self.events, self.journeys, self.batches, self.allotted, self.kept = [], [], {}, {}, {}
        self.wants, self.phases, self.places, self.rows, self.way = [], [], {}, None, None
        self.open = set()
        self.known = {}  # rows of events and journeys that did not change since; copies share them

    def copy(self):
        other = copy.copy(self)
        for name in ("events", "journeys", "wants", "phases", "places", "batches", "allotted", "kept", "open"):
            setattr(other, name, copy.copy(getattr(self, name)))
        return other

    def by_events(self):
        """What is wrong with what was kept, beside what all events give."""
        plain = Desk()
        for event in self.events:
            plain.take(event)
        plain.kept = self.kept
        for cell in self.allotted:
            held = sum(want.count for journey in plain.journeys for want in journey.wants() if want.covers(cell))
            if held != self.held(cell):
                return f"places of {cell}: {held}, kept {self.held(cell)}"
        plain.open = {n for n, journey in enumerate(plain.journeys, 1) if journey.is_open()}
        kept = (self.phases, self.open, self.tables())
        return "" if kept == ([one.phase() for one in plain.journeys], plain.open, plain.tables()) else "what was kept"

    def is_same(self, other):
        return self.events == other.events and self.kept == other.kept

    def take(self, event):
        """One more event."""
        self.events.append(event)
        self.rows = self.way = None
        kind, first, second = event
        if kind == "load":
            self.batches[first] = second
            self.allotted.update((cell_in(cell), places) for cell, places in second)
        elif kind == "begin":
            self.journeys.append(Journey(first, second))
            self.wants.append([])
            self.phases.append((RUN, None))
            self.open.add(len(self.journeys))
        else:
            at = first - 1
            self.journeys[at] = self.journeys[at]._replace(items=(*self.journeys[at].items, second))
            self.hold(self.wants[at], -1)
            self.wants[at], self.phases[at] = self.journeys[at].wants(), self.journeys[at].phase()
            self.hold(self.wants[at], 1)
            if not self.journeys[at].is_open():
                self.open.discard(first)

    def hold(self, wants, sign):
        """Adds the places of these wants to those that journeys hold, or takes them away."""
        for want in wants:
            for cell in want.cells():
                self.places[cell] = self.places.get(cell, 0) + sign * want.count

    def held(self, cell):
        """How many places of a cell all journeys hold."""
        return self.places.get(cell, 0)

    def fits(self, want):
        return all(c in self.allotted and self.held(c) + want.count <= self.allotted[c] for c in want.cells())

    def answer_load(self, name, rows):
        rows = tuple((cell, places) for cell, places in rows)
        if name in self.batches:
            return None, ("loaded", name, len(rows)) if self.batches[name] == rows else Refusal(13)
        below = next((n for n, (cell, places) in enumerate(rows, 1) if places < self.held(cell_in(cell))), None)
        if below:
            return None, Refusal(12, row=below)
        return ("load", name, rows), ("loaded", name, len(rows))

    def may_come(self, journey, item):
        """Whether this item may come next."""
        kind, a, b = item
        phase, target = journey.phase()
        is_running = phase == RUN
        if kind == "T":
            return is_running and (a, b) == (journey.pos() + 1, journey.next_option()) and self.fits(journey.next_want())
        if kind == "C":
            return phase == BACK and journey.net()[-1:] == ((a, b),)
        if kind == "S":
            return is_running and a == journey.pos() > 0 and not journey.is_save_point(a)
        if b == "s":
            return is_running and a == journey.last_save()
        if b == "r":
            return is_running and a == journey.refused_target() and not self.fits(journey.next_want())
        return (a == 0 or journey.is_save_point(a)) and (is_running or a < target)

    def choices(self, journey, word, position):
        """What a request may make of an open journey."""
        if word == "step":
            forward = [("T", journey.pos() + 1, journey.next_option()), ("B", journey.refused_target(), "r")]
            return [*forward, *(("C", *last) for last in journey.net()[-1:])]
        if word == "abort":
            return [("B", position, "a")]
        return [("S", journey.pos(), 0)] if word == "save" else [("B", journey.last_save(), "s")]

    def answer_move(self, who, word, identity, position=0):
        """The answer to a request about a journey: the first of its choices that is allowed."""
        journey = self.journeys[identity - 1] if 1 <= identity <= len(self.journeys) else None
        if journey is None or who not in (None, journey.agent):
            return None, Refusal(9)
        if not journey.is_open():
            return None, Refusal(10)
        for item in self.choices(journey, word, position):
            if self.may_come(journey, item):
                grown = journey._replace(items=(*journey.items, item))
                return ("did", identity, item), ("moved", identity, item, grown.pos(), grown.phase())
        return None, Refusal(28 if word == "save" else 11)

    def answer(self, who, request):
        """The event of a request, if it makes one, and the reply."""
        word, *rest = request
        if word == "load":
            return self.answer_load(*rest)
        if word == "begin":
            return ("begin", who or "desk", plan_in(rest[0])), ("begun", len(self.journeys) + 1)
        return self.answer_move(who, word, *rest)

    def outcome(self, request, ask=None):
        """The reply to a request of the house, or of an agent with a key and a text; what it does is done."""
        agent, key, text = ask or (None, None, None)
        if (agent, key) in self.kept:
            known, reply = self.kept[agent, key]
            return reply if known == text else Refusal(14)
        event, reply = self.answer(agent, request)
        if event:
            self.take(event)
            if ask:
                self.kept[agent, key] = (text, reply)
        return reply

    def numbers(self, *phases):
        """The numbers of the open journeys in one of these phases."""
        return [n for n in sorted(self.open) if self.phases[n - 1][0] in phases]

    def recovery(self):
        """The desks on the way of recovery, from this one to the one that is recovered."""
        if self.way is None:
            self.way = self.recovered()
        return [self, *self.way]

    def recovered(self):
        """The desks on that way, without this one."""
        desks, last = [], self.copy()
        for request in last.way_back():
            last.outcome(request)
            desks.append(last.copy())
        return desks

    def way_back(self):
        """What recovery makes of this desk, one request after another, each once the one before was done."""
        for identity in self.numbers(RUN):
            yield "stop", identity
        for phases in ((BACK,), (RUN, BACK)):
            for identity in self.numbers(*phases):
                while self.phases[identity - 1][0] in phases:
                    yield "step", identity

    def tables(self):
        """The rows of each table, sorted, as docs/FORMATS.md has them."""
        if self.rows is None:
            self.rows = self.all_rows()
        return self.rows

    def stock_rows(self):
        return sorted((*cell, allot, allot - self.held(cell)) for cell, allot in self.allotted.items())

    def all_rows(self):
        """The rows, worked out from the events."""
        tables = {"batch": [], "journey": [], "step": [], "entry": [], "entry2": [], "mark": []}
        begun = 0
        for number, event in enumerate(self.events, 1):
            if event[0] == "begin":
                begun += 1
                made = self.made(("journey", begun), self.journeys[begun - 1], self.journey_rows, begun, number)
                for name, rows in made.items():
                    tables[name] += rows
            else:
                table, row = self.made(number, event, self.event_row, event, number)
                tables[table].append(row)
        tables["meta"] = [(1, 2, len(self.events), begun)]
        tables["stock"] = self.stock_rows()
        tables["answer"] = [(*under, text, line_of(reply)) for under, (text, reply) in self.kept.items()]
        return {name: sorted(rows) for name, rows in tables.items()}

    def made(self, name, source, make, *words):
        """What was made of this under this name, or is made now."""
        known, found = self.known.get(name, (None, None))
        if known is not source:
            found = make(*words)
            self.known[name] = source, found
        return found

    def event_row(self, event, number):
        """The row of a batch, or of an item, and its table."""
        kind, first, second = event
        if kind == "load":
            content = "".join(f"{cell}/{places}\n" for cell, places in second)
            return "batch", (first, number, content.encode())
        item, a, b = second
        return "entry2", (number, first, CODES[item], a, "sra".index(b) if item == "B" else b)

    def journey_rows(self, identity, number):
        """The rows of a journey but its items."""
        journey = self.journeys[identity - 1]
        plan, net, (phase, target) = journey.plan, journey.net(), self.phases[identity - 1]
        steps = [
            (identity, place, option, int(step.save), int((place, option) in net), *want)
            for place, step in enumerate(plan.steps, 1)
            for option, want in enumerate(step.options, 1)
        ]
        cursor = (len(net), PHASES.index(phase), target or 0, journey.refusals())
        row = (identity, number, journey.agent, len(plan.steps), plan.tries, *cursor)
        return {"journey": [row], "mark": [(identity, p) for p in journey.taken()], "step": steps}


# Texts of replies.


def item_text(item):
    kind, a, b = item
    return {"T": f"T{a}.{b}", "C": f"C{a}.{b}", "B": f"B{a}{b}", "S": f"S{a}"}[kind]


def state_text(pos, phase):
    word, target = phase
    return {RUN: f"run {pos}", BACK: f"back {pos} to {target}", ENDED: f"ended {pos}", UNDONE: "undone 0"}[word]


@functools.lru_cache(65536)
def line_of(reply):
    """The line of a reply."""
    if isinstance(reply, Refusal):
        told = (reply.step, reply.row, reply.cause)
        return " ".join(["refused", str(reply.number), NAMES[reply.number], *(str(t) for t in told if t is not None)])
    if reply[0] == "loaded":
        return f"loaded {reply[1]} {reply[2]}"
    if reply[0] == "begun":
        return f"journey {reply[1]} begun"
    _, identity, item, pos, phase = reply
    return f"journey {identity} {item_text(item)} {state_text(pos, phase)}"


def request_in(line):
    """The request of a line of the house, or the refusal that it gets."""
    try:
        text = line.decode() if len(line) <= 8192 else ""
    except UnicodeDecodeError:
        return Refusal(4)
    if text.startswith("begin "):
        try:
            plan_in(text[6:])
        except BadPlan as bad:
            return Refusal(5, step=bad.step, cause=bad.cause)
        return ("begin", text[6:])
    word, *rest = text.split(" ")
    if word == "set" and len(rest) == 3:
        name, cell, places = rest[0], cell_in(rest[1]), number_in(rest[2], 0, 100_000)
        is_right = NAME.fullmatch(name) and cell and places is not None
        return ("load", name, ((rest[1], places),)) if is_right else Refusal(4)
    if (word, len(rest)) in (("step", 1), ("save", 1), ("abort", 2)):
        numbers = [number_in(text, low, most) for text, low, most in zip(rest, (1, 0), (999_999_999_999, 99))]
        return (word, *numbers) if None not in numbers else Refusal(4)
    return Refusal(4)
