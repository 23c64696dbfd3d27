"""The reports of a desk that serves, over ledgers and filters by chance: each is, byte for byte, what the command prints of a copy of
the file at that moment, at the administrator's socket and by --at PATH."""
import json
import os
import shutil

import soak_asks
from driving import Client, Desk, desk, lay, parts_of, read_files, request, same
from plain_texts import HEADING, WORDS, cell_text, day_in, night_text, plan_value

ROUNDS, REPORTS = 2, 9
SUBCOMMANDS = ("stock", "summary", "holders", "unfinished", "journeys", "history", "why")
# the share of the reports that are asked for by --at too
ASKED = 0.3
NIGHT = day_in("2030-06-28")
HOUSE = "own/house"
# words that a report's command reads or refuses, and that are asked for by --at too
ODD = (
    ("stock", "--calendar"), ("holders", "--", "R/INN/DBL/2030-06-01"), ("history", "999999999999"), ("why", "999999999999"),
    ("history", "0"), ("history", "one"), ("history", "a b"), ("history", "R&D?"),
)


class Office(soak_asks.Office):
    """The office of the simulation over cells around the end of a month, with what it may ask of reports."""

    def some_cells(self):
        cells = []
        for n in range(self.chance.randint(2, 5)):
            kind, supplier, first = self.chance.randrange(4), self.chance.choice(("AL", "INN")), NIGHT + self.chance.randrange(4)
            cells += [(kind, supplier, f"P{n}", first + k) for k in range(self.chance.randint(1, 6) if kind in (1, 3) else 1)]
        return cells

    def batch(self):
        """An allotment file of all cells but a few."""
        cells = [cell for cell in self.cells if self.chance.random() < 0.9]
        rows = [soak_asks.fields_of((cell_text(cell), self.chance.randint(0, 4))) for cell in cells]
        return "".join(f"{','.join(row)}\n" for row in [HEADING, *rows]).encode() if rows else b""

    def asks(self, journeys):
        """Something that is asked of the desk: its path, its body, and by whom; the house by nobody."""
        if self.chance.random() < 0.3 or not journeys:
            who = self.chance.choice(("", "ann", "bob"))
            return "/journeys", json.dumps(plan_value(self.plan())).encode(), who
        word = self.chance.choice(("step",) * 9 + ("save", "abort/0", "abort/1"))
        return f"/journeys/{self.chance.randint(1, journeys)}/{word}", b"", ""

    # The words of a report.

    def cell(self):
        kind, supplier, product, night = self.chance.choice(self.cells)
        return cell_text((kind, supplier, product, night + self.chance.choice((0, 0, 0, 9))))

    def filters(self):
        kind, supplier, product, night = self.chance.choice(self.cells)
        values = {
            "kind": WORDS[kind], "supplier": supplier, "product": product, "from": night_text(night),
            "to": night_text(night + self.chance.randrange(3)),
        }
        return self.options({name: value for name, value in values.items() if self.chance.random() < 0.3})

    def option(self, name, value):
        """An option with its value, in one word or in two."""
        return [f"--{name}={value}"] if self.chance.random() < 0.5 else [f"--{name}", value]

    def options(self, values):
        """Options with their values, in an order by chance."""
        pairs = [self.option(name, value) for name, value in values.items()]
        self.chance.shuffle(pairs)
        return [word for pair in pairs for word in pair]

    def format(self):
        chosen = self.chance.choice((None, "text", "json", "csv"))
        return self.options({"format": chosen}) if chosen else []

    def words(self, name, journeys):
        """The words of a report, after FILE."""
        if name == "stock" and self.chance.random() < 0.4:
            return ["--calendar", *self.filters()]
        if name in ("stock", "summary"):
            return [*self.filters(), *self.format()]
        if name == "holders":
            return [*([self.cell()] if self.chance.random() < 0.5 else self.filters()), *self.format()]
        if name in ("history", "why"):
            return [str(self.chance.randint(1, journeys + 1)), *self.format()]
        states = ("run", "back") if name == "unfinished" else ("run", "back", "ended", "undone")
        values = {"agent": self.chance.choice(("ann", "bob", "desk", "eve")), "state": self.chance.choice(states)}
        return [*self.options({n: v for n, v in values.items() if self.chance.random() < 0.4}), *self.format()]

    def by_socket(self, words):
        """The same words with the socket, before or after them."""
        at = self.option("at", HOUSE)
        return [*at, *words] if self.chance.random() < 0.5 else [*words, *at]


def target(name, words):
    return f"/reports/{name}?{'&'.join(words)}" if words else f"/reports/{name}"


def unnamed(method, path, body=b""):
    """The bytes of a request that names nobody."""
    return request(method, path, "", body, agent="")


def page_of(ended):
    """The page of a report that the command printed so."""
    if ended.status == 0:
        return 200, "text/plain", ended.out.encode()
    same("the one refusal of a report", "refused 9 NoJourney\n", ended.out)
    return 404, "application/json", b'{"name":"NoJourney","refused":9}'


def same_by_socket(what, of_copy, words):
    """A report by --at is that of the copy: its output, its status, its standard error."""
    asked = desk(*words)
    same(f"{what}: by --at", (of_copy.status, of_copy.out, of_copy.err), (asked.status, asked.out, asked.err))


def compare(office, journeys, seed):
    """Some reports, each with the command's on a copy."""
    lay(read_files("own"))
    client = Client(HOUSE)
    for name in [*SUBCOMMANDS, *(office.chance.choice(SUBCOMMANDS) for _ in range(REPORTS - len(SUBCOMMANDS)))]:
        words = office.words(name, journeys)
        what, of_copy = f"ledger {seed}: {name} {words}", desk(name, "cut/trips.db", *words)
        same(what, page_of(of_copy), parts_of(client.ask(unnamed("GET", target(name, words)))))
        if office.chance.random() < ASKED:
            same_by_socket(what, of_copy, [name, *office.by_socket(words)])
    client.close()
    return REPORTS


def odd_words():
    """Words that are read or refused in the same way by --at, and an output that cannot be written."""
    for name, *words in ODD:
        same_by_socket(f"{name} {words}", desk(name, "cut/trips.db", *words), [name, "--at", HOUSE, *words])


def served_over(file):
    """A desk over a new file."""
    shutil.rmtree("own", ignore_errors=True)
    os.makedirs("own")
    return Desk(file, "--house", "house", folder="own")


def stops(served, what):
    """The administrator stops the desk, which ends in order."""
    client = Client(HOUSE)
    client.ask(unnamed("POST", "/stop"))
    client.close()
    served.ends(what)


def ledger(seed, chance, is_first):
    """A desk that serves, what is asked of it, and its reports meanwhile. Returns how many reports were compared."""
    office, journeys = Office(chance), 0
    served = served_over("trips.db")
    count = compare(office, journeys, seed)
    house, port = Client(HOUSE), Client(served.port)
    for _ in range(ROUNDS):
        if batch := office.batch():
            house.ask(unnamed("POST", f"/batches/{office.name_of_own()}", batch))
        for _ in range(chance.randint(1, 25)):
            path, body, who = office.asks(journeys)
            text = request("POST", path, office.name_of_own() if who else "", body, who)
            page = (port if who else house).ask(text)
            journeys += path == "/journeys" and page.startswith(b"HTTP/1.1 200")
        count += compare(office, journeys, seed)
    if is_first:
        odd_words()
    stops(served, f"ledger {seed}")
    return count
