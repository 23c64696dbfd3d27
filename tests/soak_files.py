"""The file that lives through a script of lives. After each life its rows, and the reports on copies of it, are those
of a desk that may stand there by then. More than 200 lines: one file is looked at, cut and spoiled in one place."""
import contextlib
import os
import random
import shutil
import sqlite3
import subprocess

from disks import Disk, Part, notes_in
from driving import DESK, FILES, PATIENCE, lay, read_files
from ledger import fill, is_settled, tables_of
from plain_desk import Desk
from soak_answers import report_of
from soak_lives import Life
from soak_talk import Wrong, without_repeats

NO_DATABASE = "file is not a database"


def rows_in(path):
    """The rows of the tables of a file and its log, by Python's own SQLite; none where there are no tables, or no database
    yet, as a first opening that was cut off may leave it."""
    if not os.path.exists(path):
        return None
    with contextlib.closing(sqlite3.connect(path)) as connection:
        try:
            names = [row[0] for row in connection.execute("SELECT name FROM sqlite_schema WHERE type = 'table'")]
            return {name: sorted(connection.execute(f"SELECT * FROM {name}")) for name in names} or None
        except sqlite3.DatabaseError as error:
            if str(error) == NO_DATABASE:
                return None
            raise Wrong(f"Python's SQLite: {error}") from error


def difference(found, expected):
    """The first table in which two files differ, with some rows."""
    for name in expected:
        if found.get(name) != expected[name]:
            more = [row for row in found.get(name, []) if row not in expected[name]]
            less = [row for row in expected[name] if row not in found.get(name, [])]
            return f"table {name}: unexpected rows {some(more)}, absent rows {some(less)}"
    return "no table differs"


def some(rows):
    """The first rows, cut off where they are long."""
    return "; ".join(f"{row!r:.200}" for row in rows[:3]) or "none"


class Place:
    """The file that lives through a script of lives, and what may stand in it."""

    def __init__(self, folder, libraries, count, chance, share=1.0, is_blind=False, has_syncs=True):
        self.folder, self.libraries, self.count, self.chance = folder, libraries, count, chance
        self.share, self.is_blind, self.has_syncs = share, is_blind, has_syncs
        shutil.rmtree(folder, ignore_errors=True)
        os.makedirs(folder)
        self.desks, self.disk, self.lives = [Desk()], Disk(), 0
        self.unsynced = list(self.desks)  # what a power cut may leave

    def path(self, name="trips.db"):
        return f"{self.folder}/{name}"

    def live(self, life):
        """One life, and a look at what it left. Gives what was said."""
        self.lives += 1
        env = dict(life.get("env", {}))
        if self.is_noted(life):
            env["NOTE"] = self.path("notes")
        if env:
            env["LD_PRELOAD"] = f"{self.libraries}/{'refuse' if 'REFUSE' in env else 'calls'}.so"
        one = Life(self.folder, life, env, self.desks, self.count)
        self.count.add("lives", f"life of {life['do'].split(' ')[0]}")
        try:
            self.desks = one.live()
        finally:
            if one.process and one.process.poll() is None:
                one.process.kill()
                one.process.communicate()
        for name in ("failed", "refused"):
            if os.path.exists(self.path(name)):
                os.remove(self.path(name))
                self.count.add(f"lives with what {name}")
        # an opening that comes to its end syncs what it found; what a kill left before may be lost until then
        self.unsynced = without_repeats(self.desks if one.talk.is_open else self.unsynced + self.desks)
        self.power(life)
        least = min(len(desk.events) for desk in self.desks)
        is_unsure = one.talk.is_open and len(self.desks) > 1
        if life.get("spoil") == "lose-event":
            self.spoil(life["spoil"])
        self.look()
        if self.is_cut(life):
            self.unsynced = list(self.desks)
        if is_unsure:
            self.count.add("cut off and done" if len(self.desks[0].events) > least else "cut off")
        if life.get("spoil") not in (None, "lose-event"):
            self.spoil(life["spoil"])
        return one.talk

    # Power cuts.

    def is_noted(self, life):
        return life.get("cut") is not None

    def is_cut(self, life):
        return self.is_noted(life) and life["cut"] >= 0

    def power(self, life):
        """Cuts the power, where that is said: what was not synced is there in part."""
        if not self.is_noted(life):
            return
        self.disk.restart()
        if os.path.exists(self.path("notes")):
            for note in notes_in(self.path("notes")):
                self.disk.take(note, self.has_syncs)
            os.remove(self.path("notes"))
        whole = self.disk.whole()
        if {name: whole[name] for name in FILES if name in whole} != read_files(self.folder):
            raise Wrong("the notes of the calls do not give the files")
        if self.is_cut(life):
            chance = random.Random(life["cut"])
            files = self.disk.cut(Part(chance.choice(Part.KINDS), chance, self.disk))
            files = {name: files[name] for name in FILES if name in files}
            lay(files, self.folder)
            self.disk, self.desks = Disk(files), self.unsynced
            self.count.add("power cuts")

    # A look at the file.

    def look(self):
        """Finds the desk that stands in the file, by its rows and by the reports on copies."""
        files = read_files(self.folder)
        if self.is_blind:
            return
        lay(files, self.path("look"))
        found = rows_in(self.path("look/trips.db"))
        same = [desk for desk in self.desks if self.is_found(desk, found)]
        if not same:
            tables = [desk.tables() for desk in self.desks]
            told = "; or ".join(difference(found or Desk().tables(), expected) for expected in tables[:3])
            raise Wrong(f"the file holds no ledger that may stand there ({len(tables)} may): {told}")
        self.desks = same[:1]
        settled = is_settled(found) if found else ""
        if settled.startswith("places of"):
            raise Wrong(settled)
        if "trips.db" in files and self.chance.random() < self.share:
            self.reports(files, found)
            if self.chance.random() < 0.25:
                self.recovered(files)

    def is_found(self, desk, found):
        return desk.tables() == found if found else not desk.events

    def reports(self, files, found):
        """The reports of a copy are those of the desk that stands."""
        lay(files, self.path("look"))
        journeys = len(self.desks[0].journeys)
        calls = [self.chance.choice((("unfinished",), ("stock",)))]
        calls += [("history", str(self.chance.randint(1, journeys + 1)))] if journeys else []
        for word, *rest in calls:
            self.told(word, *rest, expected=report_of(self.desks[0], word, rest))
        if tables_of(self.path("look/trips.db")) != (found or Desk().tables()):
            raise Wrong("a report changed the rows of a copy, or Python's SQLite finds others")

    def told(self, word, *rest, expected):
        """A call over the copy says what is expected."""
        done = subprocess.run(
            [DESK, word, "look/trips.db", *rest], cwd=self.folder, capture_output=True, timeout=PATIENCE, check=False,
        )
        if (done.stdout, done.stderr) != (expected, b""):
            call = " ".join([word, *rest])
            raise Wrong(f"{call} of a copy: {done.stdout!r}, {done.stderr!r}, expected {expected!r}")

    def recovered(self, files):
        """A copy is recovered: then no journey is half done."""
        lay(files, self.path("look"))
        way = self.desks[0].recovery()
        self.told("recover", expected=f"recovered {len(way) - 1}\n".encode())
        found = tables_of(self.path("look/trips.db"))
        if found != way[-1].tables():
            raise Wrong(f"a copy was recovered: {difference(found, way[-1].tables())}")
        if is_settled(found):
            raise Wrong(f"a copy was recovered: {is_settled(found)}")

    # A desk that is wrong on purpose.

    def spoil(self, how):
        """Changes the file as a desk that is wrong would."""
        connection = sqlite3.connect(self.path())
        if how == "lose-event":
            self.forget_event(connection)
        elif how == "forget-reply":
            connection.execute("DELETE FROM answer")
        elif how == "sell-twice":
            connection.execute("UPDATE stock SET allot = allot + 1, free = free + 1")
        connection.commit()
        connection.close()
        self.count.add("spoiled")

    def forget_event(self, connection):
        """Takes the last event out of the file, where it is a batch or an item."""
        last = self.desks[0].copy()
        desk = Desk()
        for event in last.events[:-1]:
            desk.take(event)
        kept = {under: known for under, known in last.kept.items() if known[1] != reply_of_last(last)}
        desk.kept = kept
        for name in desk.tables():
            connection.execute(f"DELETE FROM {name}")
        fill(connection, desk.tables())


def reply_of_last(desk):
    """The reply that the last event was answered by, as it is kept."""
    kind, first, second = desk.events[-1] if desk.events else ("", 0, 0)
    if kind == "load":
        return ("loaded", first, len(second))
    if kind == "begin":
        return ("begun", len(desk.journeys))
    journey = desk.journeys[first - 1] if kind else None
    return ("moved", first, second, journey.pos(), journey.phase()) if journey else None
