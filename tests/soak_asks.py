"""What the house and the agents of a simulated office ask of the desk, by chance.
More than 200 lines: all forms of what is asked, good and bad, are made by one office.

A saying is a dictionary that JSON can hold: `text`, its bytes as Latin-1; `means`, which is one of
["ask", agent, key, text, request], ["show", agent, what], ["refused", number, step, row, cause, allow]; and where it is
so `closes` (the connection ends with its page) and `head` (its page has no body). A line of the house has a text alone.
"""
import json

from plain_desk import BACK, RUN, Journey, Refusal
from plain_texts import (
    HEADING, LETTERS, WORDS, BadPlan, Plan, Step, Want, cell_text, day_in, plan_in, plan_line, plan_of, plan_value,
    rows_of,
)

BAD_LINES = (
    "", "hello", "step", "step 0", "step 01", "step 1 ", "step  1", " step 1", "step 1\r", "step 1000000000000",
    "Step 1", "step x", "abort 1", "abort 1 100", "abort 1 -1", "save 1 1", "stop 1", "begin", "load a", "begin \xe9!0",
    "step \xe9", "set a F/AL/A1/2030-06-01", "set A F/AL/A1/2030-06-01 1", "set a F/AL/A1/2030-02-30 1",
    "set a F/AL/A1/1999-12-31 1", "set a X/AL/A1/2030-06-01 1", "set a F/AL/A1/2030-06-01 100001",
    "set a F/al/A1/2030-06-01 1",
    "set a F/AL/A1/2030-06-01 01", "x" * 8193, "begin " + "x" * 8187,
)
BAD_HEADS = (
    (1, "\x00\xff\r\n\r\n"),
    (1, "GET /stock HTTP/1.1\r\nDesk-Agent: ann\r\n\r\n"),
    (1, "GET /stock HTTP/1.0\r\nHost: d\r\nDesk-Agent: ann\r\n\r\n"),
    (1, "GET /stock HTTP/1.1\r\nHost: d\r\nHost: d\r\nDesk-Agent: ann\r\n\r\n"),
    (1, "POST /journeys HTTP/1.1\r\nHost: d\r\nTransfer-Encoding: chunked\r\n\r\n"),
    (1, "POST /journeys HTTP/1.1\r\nHost: d\r\nContent-Length: 1\r\nContent-Length: 1\r\n\r\n"),
    (1, "POST /journeys HTTP/1.1\r\nHost: d\r\nContent-Length: +1\r\n\r\n"),
    (1, "GET /stock HTTP/1.1\r\nHost: d\r\n" + "".join(f"X-{n}: {n}\r\n" for n in range(33)) + "\r\n"),
    (15, "POST /journeys HTTP/1.1\r\nHost: d\r\nDesk-Agent: ann\r\nDesk-Key: k\r\nContent-Length: 262145\r\n\r\n"),
    (19, "POST /journeys/1/step HTTP/1.1\r\nHost: d\r\nDesk-Agent: ann\r\nDesk-Key: k\r\n\r\n"),
)
# the refusal, the method, the target, who asks, the key, the body; what allow is, where another method was asked
BAD_REQUESTS = (
    (7, "GET", "/", "ann", "", "", ""), (7, "GET", "/stock/", "ann", "", "", ""),
    (7, "GET", "/stock?x", "ann", "", "", ""), (7, "POST", "/journeys/1/stop", "ann", "k", "", ""),
    (8, "DELETE", "/unfinished", "ann", "", "", "GET"),
    (8, "GET", "/journeys", "ann", "", "", "POST"), (8, "HEAD", "/stock", "ann", "", "", "GET"),
    (8, "get", "/stock", "ann", "", "", "GET"), (2, "GET", "/stock", "", "", "", ""),
    (2, "GET", "/stock", "Ann", "", "", ""), (2, "POST", "/journeys/1/step", "a" * 17, "k", "", ""),
    (3, "POST", "/journeys/1/step", "ann", "", "", ""), (3, "POST", "/journeys", "ann", "k" * 33, "{}", ""),
    (4, "POST", "/journeys/0/step", "ann", "k", "", ""), (4, "POST", "/journeys/01/save", "ann", "k", "", ""),
    (4, "GET", "/journeys/x", "ann", "", "", ""), (4, "POST", "/journeys/1/abort/100", "ann", "k", "", ""),
    (4, "POST", "/journeys/1/step", "ann", "k", "x", ""), (4, "POST", "/batches/June", "ann", "k", "kind", ""),
    (4, "POST", "/journeys", "ann", "k", "", ""), (4, "POST", "/journeys", "ann", "k", '{"steps":', ""),
)


def bytes_of(saying):
    return saying["text"].encode("latin-1")


class Agent:
    """Who asks over HTTP: what it has sent, and what was not answered."""

    def __init__(self, name):
        self.name, self.sent, self.waiting, self.keys = name, [], [], 0


# who may ask: the agent `desk` sees what the house begins
AGENTS = ("ann", "bob", "cyd7", "desk", "e" * 16)
NIGHTS = tuple(map(day_in, ("2030-06-01", "2000-01-01", "2099-12-29", "2032-02-28")))


class Office:
    """A small world: few cells with few places, some plans over them, and agents who compete for them."""

    def __init__(self, chance):
        self.chance = chance
        self.cells = self.some_cells()
        self.plans = [self.plan() for _ in range(chance.randint(2, 6))]
        self.agents = [Agent(name) for name in chance.sample(AGENTS, chance.randint(1, 4))]
        self.names = 0
        self.most = chance.choice((3, 6, 12, 50))

    def some_cells(self):
        """Some products, each for some nights in a row."""
        cells = []
        for n in range(self.chance.randint(2, 6)):
            kind = self.chance.randrange(4)
            night, supplier = self.chance.choice(NIGHTS), self.chance.choice(("AL", "INN", "Z0000009"))
            nights = self.chance.choice((1, 1, 3)) if kind in (1, 3) else 1
            cells += [(kind, supplier, f"P{n}", night + k) for k in range(nights)]
        return cells

    def want(self):
        cell = self.chance.choice(self.cells)
        after = sum(1 for other in self.cells if other[:3] == cell[:3] and other[3] >= cell[3])
        return Want(*cell, self.chance.randint(1, after), self.chance.choice((1, 1, 1, 1, 2, 3)))

    def plan(self):
        chance = self.chance
        steps = []
        for _ in range(chance.choice((1, 2, 2, 3, 3, 4, 5, 24 if chance.random() < 0.1 else 6))):
            options = tuple(self.want() for _ in range(chance.choice((1, 1, 2, 3, 8 if chance.random() < 0.1 else 1))))
            steps.append(Step(options, chance.random() < 0.4))
        steps[-1] = steps[-1]._replace(save=False)
        return Plan(tuple(steps), chance.choice((0, 1, 1, 2, 3, 9)))

    def some_plan(self):
        if self.chance.random() < 0.05:
            self.plans[self.chance.randrange(len(self.plans))] = self.plan()
        return self.chance.choice(self.plans)

    def rows(self, desk, all_cells=False):
        """Rows of a batch, mostly with some places more than are held."""
        count = self.chance.randint(1, min(4, len(self.cells)))
        cells = list(self.cells) if all_cells else self.chance.sample(self.cells, count)
        return [(cell_text(cell), self.places(desk, cell)) for cell in cells]

    def places(self, desk, cell):
        held = desk.held(cell) if self.chance.random() < 0.8 else 0
        return held + self.chance.randint(int(self.chance.random() < 0.8), self.most)

    def name(self, desk):
        """The name of a batch: mostly a new one, else one that is known or was used."""
        if desk.batches and self.chance.random() < 0.25:
            return self.chance.choice(sorted(desk.batches))
        self.names += 1
        return self.chance.choice((f"b{self.names}", f"{self.names}-{'x' * 18}"[:24]))

    def opened(self, desk, who=None):
        """The numbers of the journeys that are open, of an agent or of all."""
        return [n for n in desk.numbers(RUN, BACK) if who in (None, desk.journeys[n - 1].agent)]

    def identity(self, desk, who=None):
        """The number of a journey, mostly of one that is open and seen."""
        opened = self.opened(desk, who)
        if opened and self.chance.random() < 0.92:
            return self.chance.choice(opened[-6:])
        return self.chance.randint(1, len(desk.journeys) + 1)

    def position(self, desk, identity):
        """A position to turn back to, mostly the start or a save-point."""
        journey = desk.journeys[identity - 1] if identity <= len(desk.journeys) else Journey("", self.plans[0])
        points = [p for p in range(1, len(journey.plan.steps) + 1) if journey.is_save_point(p)]
        return self.chance.choice((0, *points, self.chance.choice((1, 2, 3, 5, 25, 99))))

    def request(self, desk, who=None):
        """Something that is asked of this desk, by an agent or the house."""
        begin = (200, 30, 20)[min(2, len(self.opened(desk, who)))]
        weights = {"step": 60, "begin": begin, "abort": 6, "save": 9, "load": 10}
        word = self.chance.choices(list(weights), list(weights.values()))[0]
        if word == "load":
            return self.load(desk)
        if word == "begin":
            return ["begin", plan_line(self.some_plan())]
        identity = self.identity(desk, who)
        return [word, identity, self.position(desk, identity)] if word == "abort" else [word, identity]

    def load(self, desk):
        """A batch, of which the rows too may be those that are known."""
        name = self.name(desk)
        is_same = name in desk.batches and self.chance.random() < 0.5
        return ["load", name, [list(row) for row in desk.batches[name]] if is_same else self.rows(desk)]

    # Lines.

    def line(self, desk):
        """A line of the house."""
        if self.chance.random() < 0.08:
            return {"text": self.bad_line()}
        request = self.request(desk)
        if request[0] == "load":
            cell, places = request[2][0]
            return {"text": f"set {request[1]} {cell} {places}"}
        return {"text": " ".join(map(str, request))}

    def bad_line(self):
        return self.chance.choice(BAD_LINES) if self.chance.random() < 0.6 else f"begin {self.bad_plan_line()}"

    def bad_plan_line(self):
        """A plan line with one character changed, left out or put in, or with too much of something; it may be good."""
        line, letters = plan_line(self.plan()), "F/|;*!09AZa-"
        at, letter = self.chance.randrange(len(line)), self.chance.choice(letters)
        steps, tries = line.rsplit("!", 1)
        return self.chance.choice((
            line[:at] + letter + line[at + 1 :], line[:at] + line[at + 1 :], line[:at] + letter + line[at:],
            f"{';'.join([steps] * 25)}!{tries}", f"{'|'.join(steps.split(';')[:1] * 9)}!{tries}", f"{steps}*!{tries}",
        ))

    def lines(self, desk):
        """A line for each cell, so that there is something to book."""
        return [{"text": f"set {self.name_of_own()} {cell} {places}"} for cell, places in self.rows(desk, True)]

    def name_of_own(self):
        self.names += 1
        return f"s{self.names}"

    # Requests.

    def said(self, desk):
        """A request of one of the agents."""
        agent = self.chance.choice(self.agents)
        roll = self.chance.random()
        if agent.waiting and roll < 0.6:
            return dict(agent.waiting[0])
        if agent.sent and roll < 0.12:
            return dict(self.chance.choice(agent.sent[-30:]))
        if agent.sent and roll < 0.16:
            return self.reused(agent, desk)
        if roll < 0.24:
            return self.bad_request()
        if roll < 0.34:
            return self.shown(agent, desk)
        return self.asked(desk, agent, self.key(agent), self.request(desk, agent.name))

    def key(self, agent):
        agent.keys += 1
        return self.chance.choice((f"k{agent.keys}", f"K-{agent.keys}", f"{agent.keys:032}"))

    def reused(self, agent, desk):
        """Another request under a key that was sent before."""
        return self.asked(desk, agent, self.chance.choice(agent.sent)["means"][2], self.request(desk, agent.name))

    def asked(self, desk, agent, key, request):
        """A request with a key."""
        body = ""
        if request[0] == "load":
            target, body = f"/batches/{request[1]}", self.file_of(request[2])
        elif request[0] == "begin":
            target, body = "/journeys", self.json_of(plan_value(plan_in(request[1])))
        else:
            target = "/".join(("/journeys", str(request[1]), request[0], *map(str, request[2:])))
        if body and self.chance.random() < 0.08:
            return self.bad_body(desk, agent, key, target)
        means = ["ask", agent.name, key, f"{target}\n{body}", request]
        saying = {"text": self.message("POST", target, agent.name, key, body), "means": means}
        if self.chance.random() < 0.03:
            head, _, rest = saying["text"].partition("\r\n\r\n")
            return {"text": f"{head}\r\nConnection: close\r\n\r\n{rest}", "means": means, "closes": True}
        agent.sent.append(saying)
        return dict(saying)

    def file_of(self, rows):
        """The allotment file of these rows."""
        end = self.chance.choice(("\n", "\r\n"))
        return end.join(",".join(fields) for fields in [HEADING, *map(fields_of, rows)]) + self.chance.choice((end, ""))

    def json_of(self, value):
        """The text of a JSON value, its members in some order, with blanks or without."""
        def mixed(one):
            if isinstance(one, dict):
                return {name: mixed(one[name]) for name in self.chance.sample(sorted(one), len(one))}
            return [mixed(other) for other in one] if isinstance(one, list) else one
        return json.dumps(mixed(value), separators=self.chance.choice((None, (",", ":"))))

    def message(self, method, target, agent, key="", body=""):
        """The text of a request."""
        fields = ["Host: d"]
        if agent:
            fields.append(f"{self.chance.choice(('Desk-Agent', 'desk-agent'))}: {agent}")
        if key:
            fields.append(f"{self.chance.choice(('Desk-Key', 'DESK-KEY'))}:{self.chance.choice((' ', '', '  '))}{key}")
        if method == "POST" or body:
            fields.append(f"Content-Length: {len(body)}")
        if self.chance.random() < 0.2:
            fields.append("Connection: keep-alive")
        self.chance.shuffle(fields)
        return "\r\n".join([f"{method} {target} HTTP/1.1", *fields, "", ""]) + body

    def shown(self, agent, desk):
        """A request that shows something."""
        what = self.chance.choice(("stock", "unfinished", self.identity(desk, agent.name), self.identity(desk)))
        target = f"/journeys/{what}" if isinstance(what, int) else f"/{what}"
        return {"text": self.message("GET", target, agent.name), "means": ["show", agent.name, what]}

    def bad_request(self):
        if self.chance.random() < 0.15:
            number, text = self.chance.choice(BAD_HEADS)
            return {"text": text, "means": refused(Refusal(number)), "closes": True}
        number, method, target, agent, key, body, allow = self.chance.choice(BAD_REQUESTS)
        saying = {"text": self.message(method, target, agent, key, body), "means": refused(Refusal(number), allow)}
        return {**saying, "head": True} if method == "HEAD" else saying

    def bad_body(self, desk, agent, key, target):
        """A request of which the body has a fault by chance, or none in the end."""
        if target == "/journeys":
            value = self.bad_value()
            body, request = self.json_of(value), None
            try:
                request = ["begin", plan_line(plan_of(value))]
            except BadPlan as bad:
                refusal = Refusal(5, step=bad.step, cause=bad.cause)
        else:
            records = self.bad_records(desk)
            body, found = "".join(f"{','.join(fields)}\n" for fields in records), rows_of(records)
            request = ["load", target.split("/")[2], found] if isinstance(found, list) else None
            refusal = None if request else Refusal(6, row=found[0], cause=found[1])
        means = ["ask", agent.name, key, f"{target}\n{body}", request] if request else refused(refusal)
        return {"text": self.message("POST", target, agent.name, key, body), "means": means}

    def bad_value(self):
        """The JSON value of a plan, with something in it changed."""
        value = plan_value(self.plan())
        step = self.chance.choice(value["steps"])
        option = self.chance.choice(step["options"])
        changes = (
            (value, "tries", 10), (value, "tries", "1"), (value, "tries", 1.0), (value, "more", 1), (value, "steps", []),
            (value, "steps", {}), (step, "save", 1), (step, "save", True), (step, "options", []),
            (step, "options", [option] * 9), (option, "count", 51), (option, "count", True), (option, "nights", 61),
            (option, "nights", 0), (option, "kind", "bus"), (option, "first", "2030-02-30"), (option, "supplier", "al"),
            (option, "product", ""), (option, "more", None),
        )
        place, name, new = self.chance.choice(changes)
        place[name] = new
        return value

    def bad_records(self, desk):
        """The records of an allotment file, with something in them changed."""
        records = [list(HEADING), *map(fields_of, self.rows(desk))]
        row = self.chance.choice(records)
        change = self.chance.randrange(4)
        if change == 0:
            row[self.chance.randrange(5)] = self.chance.choice(("", "x", "-1", "100001", "2030-13-01", "TOOLONG99"))
        elif change == 1:
            row.append("1")
        elif change == 2:
            records.append(list(records[-1]))
        else:
            del records[1:]
        return records


def refused(refusal, allow=""):
    """What a saying means that is refused whatever the desk holds."""
    return ["refused", *refusal, allow]


def fields_of(row):
    """The fields of a row of a file."""
    kind, supplier, product, night = row[0].split("/")
    return [WORDS[LETTERS.index(kind)], supplier, product, night, str(row[1])]
