"""What the desk shows of the files that a cut, a failed call or damage left, and whether it goes on with them as it should."""
import contextlib
import sqlite3
from pathlib import Path

from driving import desk, killed_after, lay, read_files, talk
from ledger import Ledger, is_settled, make_file, report, statements_of, tables_of
from scenes import OLD_EVENTS, ON

NEW_TEXTS = ("CREATE TABLE entry2", "CREATE TABLE mark", "CREATE INDEX")
# The kinds of files of schema 2, by the statements that make one of a new file: as a new desk makes it; without the index for own
# journeys, as an older desk made it; and with an index on the items beside it, made by hand.
KINDS = {
    "as a new desk makes it": (),
    "without an index": ("DROP INDEX journey_agent",),
    "with an index on the items too": ("CREATE INDEX item_journey ON entry2(journey, num)",),
}


def kind_of(number):
    """The kinds in turn."""
    return list(KINDS)[number % len(KINDS)]


def change_indexes(path, kind):
    """Makes a file, which was just made by the desk, one of this kind, by Python's SQLite, which syncs it."""
    with contextlib.closing(sqlite3.connect(path)) as connection:
        for statement in KINDS[kind]:
            connection.execute(statement)


def look(files):
    """What the desk shows of these files without recovering the journeys: the tables, None without any, or a fault."""
    lay(files)
    if "trips.db" not in files:
        return None
    shown = desk("unfinished", "cut/trips.db")
    if shown.status != 0 or shown.err:
        return f"unfinished: {shown}"
    tables = tables_of("cut/trips.db")
    expected = "unfinished 0\n" if tables is None else report(tables, "unfinished")[0]
    return tables if shown.out == expected else f"unfinished: {shown}"


def has_rows(path, tables):
    """Whether a file that was closed in order has these rows, and each of its indexes has the same ones."""
    with contextlib.closing(sqlite3.connect(f"file:{path}?immutable=1", uri=True)) as connection:
        is_sound = connection.execute("PRAGMA integrity_check").fetchall() == [("ok",)]
    return is_sound and tables_of(path) == tables


class Events:
    """What the disks of a record may show: the ledger after some of its events. Each goes on as a file with the same
    tables does that Python's SQLite made."""

    def __init__(self, record):
        self.begin(look(read_files(record.folder)), [pair for pages in record.pages for pair in zip(*pages)])

    def begin(self, final, pages):
        """Takes in the tables that were just looked at, the last ones, and the pairs of requests and pages."""
        self.ledger, self.pages, self.on = Ledger(final), pages, {}
        self.states = [self.ledger.after(count) for count in range(self.ledger.count + 1)]
        assert self.states[-1] == final, "the rules give the tables"
        self.statements = statements_of("cut/trips.db")

    def find(self, tables):
        """After how many events the tables are as these."""
        count = 0 if tables is None else tables["meta"][0][2]
        if tables is None or (count < len(self.states) and self.states[count] == tables):
            return count
        return None

    def goes_on(self, count, chance):
        """What is wrong with the next opening of the disk that was just looked at."""
        expected = self.expected(count)
        recovered = desk("recover", "cut/trips.db")
        if (recovered.out, recovered.err, recovered.status) != (expected[0], "", 0):
            return f"recover: {recovered}, expected {expected[0]!r}"
        if tables_of("cut/trips.db") != expected[1]:
            return "what recovery made of it"
        if chance.random() < 0.1:
            return self.reports(expected[1], chance) or self.retries(count, expected[1])
        after = desk("run", "cut/trips.db", lines=ON)
        if (after.out, after.err, after.status) != (expected[2], "", 0):
            return f"one more journey: {after}, expected {expected[2]!r}"
        return "" if has_rows("cut/trips.db", expected[3]) else "what one more journey made of it"

    def expected(self, count):
        """What recovery prints and makes of the ledger after so many events, and one more journey then."""
        if count not in self.on:
            for path in Path().glob("plain.db*"):
                path.unlink()
            make_file("plain.db", self.statements, self.states[count])
            recovered = desk("recover", "plain.db")
            tables = tables_of("plain.db")
            assert recovered.status == 0 and not is_settled(tables), f"{recovered}, {is_settled(tables)}"
            after = desk("run", "plain.db", lines=ON)
            assert after.status == 0, str(after)
            self.on[count] = (recovered.out, tables, after.out, tables_of("plain.db"))
        return self.on[count]

    def reports(self, tables, chance):
        """What is wrong with the reports of the recovered disk."""
        calls = [("stock",)] + ([("history", str(chance.choice(tables["journey"])[0]))] if tables["journey"] else [])
        for words in calls:
            shown, text = desk(words[0], "cut/trips.db", *words[1:]), report(tables, *words)[0]
            if (shown.out, shown.err, shown.status) != (text, "", 0):
                return f"{' '.join(words)}: {shown}, expected {text!r}"
        return ""

    def retries(self, count, tables):
        """What is wrong where each request that made one of so many events is sent again."""
        again = [(sent, page) for sent, page in self.pages if self.ledger.kept.get(key_of(sent), count + 1) <= count]
        if not again:
            return ""
        pages, wrong = talk("cut/trips.db", [sent for sent, _ in again])
        if wrong or pages != [page for _, page in again]:
            return f"retried under their keys: {pages}, {wrong}"
        return "" if tables_of("cut/trips.db") == tables else "a retried request acted again"


def key_of(message):
    return message.partition(b"Desk-Key: ")[2].partition(b"\r\n")[0].decode()


class Migration:
    """What the disks of a migration may show: the old tables or the new ones."""

    def __init__(self, record):
        self.states = [look(record.start), look(read_files(record.folder))]

    def find(self, tables):
        return self.states.index(tables) if tables in self.states else None

    def goes_on(self, index, _):
        done = desk("migrate", "cut/trips.db")
        expected = ("migrated 1 to 2 events ", 0) if index == 0 else ("refused 23 AlreadyNew\n", 1)
        if not done.out.startswith(expected[0]) or done.err or done.status != expected[1]:
            return f"migrate: {done}"
        return "" if tables_of("cut/trips.db") == self.states[1] else "what migration made of it"


def make_disk(lines, kill=(), kind=kind_of(0)):
    """A disk with a file of this kind, on which these lines were run, and then those before a kill, so that its log holds events."""
    lay({})
    assert desk("run", "cut/trips.db").status == 0
    change_indexes("cut/trips.db", kind)
    assert desk("run", "cut/trips.db", lines="\n".join(lines) + "\n").status == 0
    if kill:
        killed_after(kill, "cut/trips.db")
    return read_files("cut")


def old_file(files):
    """A disk of schema 1 with the first events of a desk's disk, of which none is a save-point taken on the way."""
    tables = Ledger(look(files)).after(OLD_EVENTS)
    statements = [text for text in statements_of("cut/trips.db") if not text.startswith(NEW_TEXTS)]
    assert not tables.pop("mark") and all(row[2] < 3 for row in tables["entry2"])
    tables["entry"] = tables.pop("entry2")
    tables["meta"] = [(1, 1, *tables["meta"][0][2:])]
    Path("old.db").unlink(missing_ok=True)
    make_file("old.db", statements, tables)
    return {"trips.db": Path("old.db").read_bytes()}


class Shown:
    """What the desk made of the disks that were tried, each disk once."""

    def __init__(self, book, chance):
        self.book, self.chance, self.known, self.tried = book, chance, {}, 0

    def verdict(self, files, goes_on=True):
        """After how many events a disk is, and what is wrong with it."""
        key = hash(tuple(sorted(files.items())))
        if key not in self.known:
            self.tried += 1
            self.known[key] = self.opened(files, goes_on)
        return self.known[key]

    def opened(self, files, goes_on):
        tables = look(files)
        if isinstance(tables, str):
            return None, tables
        found = self.book.find(tables)
        if found is None:
            return None, "the tables are those of no such ledger"
        return found, self.book.goes_on(found, self.chance) if goes_on else ""
