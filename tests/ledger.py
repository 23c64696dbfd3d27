"""What a desk's tables hold after each event of its ledger, worked out from the events alone.

The events stand in the tables themselves, under their numbers. This module reads them with Python's own SQLite, has the plain desk
take them one after another, and so has the tables after each prefix.
"""
import contextlib
import sqlite3

from plain_desk import CODES, PHASES, Desk, item_text, state_text
from plain_texts import WORDS, Plan, Step, Want, night_text, plan_line

TABLES = ("meta", "stock", "batch", "journey", "step", "entry", "entry2", "mark", "answer")


def tables_of(path):
    """The rows of each table of a file that was closed in order, sorted; None where it has no tables."""
    with contextlib.closing(sqlite3.connect(f"file:{path}?immutable=1", uri=True)) as connection:
        names = {row[0] for row in connection.execute("SELECT name FROM sqlite_schema WHERE type = 'table'")}
        return {name: sorted(connection.execute(f"SELECT * FROM {name}")) for name in TABLES if name in names} if names else None


def statements_of(path):
    """The statements that made the tables and the index of a file."""
    with contextlib.closing(sqlite3.connect(f"file:{path}?immutable=1", uri=True)) as connection:
        return [row[0] for row in connection.execute("SELECT sql FROM sqlite_schema WHERE sql IS NOT NULL")]


def fill(connection, tables):
    """Puts these rows into the tables."""
    for name, rows in tables.items():
        for row in rows:
            connection.execute(f"INSERT INTO {name} VALUES ({','.join('?' * len(row))})", row)
    connection.commit()


def make_file(path, statements, tables):
    """Makes a file with these tables and rows, by Python's SQLite."""
    connection = sqlite3.connect(path)
    for statement in statements:
        connection.execute(statement)
    fill(connection, tables)
    connection.close()


def plans_of(tables):
    """The plans of the journeys."""
    steps = {}
    for identity, place, _, save, _, *want in tables["step"]:
        steps.setdefault(identity, {}).setdefault(place, ([], bool(save)))[0].append(Want(*want))
    made = {identity: tuple(Step(tuple(options), save) for options, save in places.values()) for identity, places in steps.items()}
    return {row[0]: Plan(made[row[0]], row[4]) for row in tables["journey"]}


def item_of(row):
    """An item, as the plain desk has it."""
    kind = next(kind for kind, code in CODES.items() if code == row[2])
    return kind, row[3], "sra"[row[4]] if kind == "B" else row[4]


def events_of(tables):
    """The events in these tables, in their order."""
    events, plans = {}, plans_of(tables)
    for name, number, content in tables["batch"]:
        rows = (line.rpartition("/") for line in content.decode().splitlines())
        events[number] = ("load", name, tuple((cell, int(places)) for cell, _, places in rows))
    for row in tables["journey"]:
        events[row[1]] = ("begin", row[2], plans[row[0]])
    for row in tables["entry2"]:
        events[row[0]] = ("did", row[1], item_of(row))
    count = tables["meta"][0][2]
    assert sorted(events) == list(range(1, count + 1)), "each event has its number"
    return [events[n + 1] for n in range(count)]


class Ledger:
    """The events of a file's ledger, in order, with the replies that were kept for them."""

    def __init__(self, tables):
        self.events, self.answers, self.desk = events_of(tables), tables["answer"], Desk()
        self.count = len(self.events)
        self.kept = self.events_of_answers()

    def events_of_answers(self):
        """For each kept reply the number of its event: keys were given in the order of their names."""
        found, last = {}, 0
        for row in sorted(self.answers, key=lambda row: row[1]):
            last = next(n for n in range(last + 1, self.count + 1) if self.is_answer(n, row[3]))
            found[row[1]] = last
        return found

    def is_answer(self, number, reply):
        """Whether this reply may be that of this event."""
        kind, first, second = self.events[number - 1]
        words = reply.split(" ")
        if kind == "load":
            return words[:2] == ["loaded", first]
        if kind == "begin":
            return words == ["journey", str(sum(event[0] == "begin" for event in self.events[:number])), "begun"]
        return words[:3] == ["journey", str(first), item_text(second)]

    def after(self, count):
        """What the tables hold after the first so many events."""
        if count < len(self.desk.events):
            self.desk = Desk()
        for event in self.events[len(self.desk.events) : count]:
            self.desk.take(event)
        return {**self.desk.tables(), "answer": sorted(row for row in self.answers if self.kept[row[1]] <= count)}


def is_open(journey):
    return PHASES[journey[6]] in ("run", "back")


def state_of(journey):
    """The state of a journey as reports print it."""
    return state_text(journey[5], (PHASES[journey[6]], journey[7]))


def is_settled(tables):
    """What is wrong with the tables of a desk that was recovered, in words; nothing where all is well."""
    held, taken = {}, {}
    for step in tables["step"]:
        if step[4]:
            taken[step[0]] = taken.get(step[0], 0) + 1
            for day in range(step[8], step[8] + step[9]):
                held[(*step[5:8], day)] = held.get((*step[5:8], day), 0) + step[10]
    for row in tables["stock"]:
        if row[4] - row[5] != held.get(row[:4], 0):
            return f"places of {row[:4]} are neither free nor held"
    for row in tables["journey"]:
        if is_open(row):
            return f"journey {row[0]} is unfinished"
        if taken.get(row[0], 0) != (row[3] if PHASES[row[6]] == "ended" else 0):
            return f"journey {row[0]} is half done"
    return ""


def stock_report(tables):
    """What the desk prints of these tables as stock."""
    lines = ["kind     supplier product  night       allot   held   free"]
    for kind, supplier, product, night, allot, free in tables["stock"]:
        places = f"{allot:6} {allot - free:6} {free:6}"
        lines.append(f"{WORDS[kind]:8} {supplier:8} {product:8} {night_text(night)} {places}")
    return "\n".join([*lines, f"cells {len(tables['stock'])}", ""])


def unfinished_report(tables):
    """What the desk prints of these tables as unfinished journeys."""
    rows = [row for row in tables["journey"] if is_open(row)]
    lines = [f"{row[0]:12} {row[2]:16} {state_of(row)}" for row in rows]
    return "\n".join([*lines, f"unfinished {len(rows)}", ""])


def history_report(tables, identity):
    """What the desk prints of these tables as the history of a journey."""
    journey = next(row for row in tables["journey"] if row[0] == identity)
    items = [item_text(item_of(row)) for row in tables.get("entry2", tables["entry"]) if row[1] == identity]
    return (
        f"journey {identity} agent {journey[2]}\nplan {plan_line(plans_of(tables)[identity])}\n"
        f"{' '.join(['items', *items])}\nstate {state_of(journey)}\n"
    )


def report(tables, word, *rest):
    """What the desk prints of these tables as a report of these words, and its status."""
    if word != "history":
        return {"stock": stock_report, "unfinished": unfinished_report}[word](tables), 0
    is_there = int(rest[0]) in {row[0] for row in tables["journey"]}
    return (history_report(tables, int(rest[0])), 0) if is_there else ("refused 9 NoJourney\n", 1)
