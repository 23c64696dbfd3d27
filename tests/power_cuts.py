"""Power cuts. The calls that runs of the desk make on their files are noted, and after each of them the power may be cut.
Every disk that a cut may leave is opened again: it shows the ledger of what was answered, or that with the event that was
under way, and the desk goes on with it. More than 200 lines: records, cuts and what they leave are one trial.

power_cuts.py CALLS.so DISKS SEED    tries about so many disks; says what it found, and ends with 1 where a disk is wrong
"""
import collections
import os
import shutil
import sys
from pathlib import Path

import hostile
from disks import Disk, Part, notes_in
from driving import desk, killed_after, page_size
from hostile import Life, finish, made_by_lines, made_by_pages, served, tell
from parts import PARTS, Deal, chances
from scenes import BUS, FIRST, FLIGHT, JUNE, LARGE, PLANS, SECOND, http_requests
from shown import KINDS, Events, Migration, change_indexes, kind_of, old_file, read_files

# about how many of the disks that were left are kept, so that the power is cut there again
KEPT = 100
EACH = int(os.environ.get("EACH", "1"))


class Record(Life):
    """Runs of the desk in a folder of their own, one after another, with the calls that they made."""

    def __init__(self, name, library, start=None, measure=None):
        super().__init__(name, start or {}, measure)
        self.library, self.sessions = library, []

    def path(self, file="trips.db"):
        return f"{self.folder}/{file}"

    def noting(self):
        """The environment of the next session, in which its calls are noted."""
        return {"NOTE": self.path(f"notes-{len(self.sessions)}"), "LD_PRELOAD": self.library}

    def took(self, made):
        """Takes in a session: its notes, after how many events it began, and how many each of its answers made."""
        self.last = self.events()
        self.sessions.append((self.noting()["NOTE"], self.last - sum(made), made))

    def run(self, lines, kill=False):
        if kill:
            said = killed_after(lines, self.path(), self.noting())
        else:
            said = desk("run", self.path(), lines="\n".join(lines) + "\n", env=self.noting()).out.splitlines()
        assert len(said) == len(lines), said
        self.took(made_by_lines(said))

    def words(self, *words, events=0):
        done = desk(*words, env=self.noting(), folder=self.folder)
        assert done.status == 0, str(done)
        self.took([events])

    def load(self, name, rows):
        Path(self.path(f"{name}.csv")).write_text(rows, encoding="utf-8")
        self.words("load", self.path(), self.path(f"{name}.csv"), "--batch", name, events=1)

    def serve(self, messages, kill=False):
        ended, pages = served(self.path(), messages, env=self.noting(), kill=kill)
        assert kill or ended.status == 0, str(ended)
        self.pages.append((messages, pages))
        self.took([0, *made_by_pages(pages)])

    def change_indexes(self, kind):
        """Makes the file one of this kind, between two sessions. What SQLite leaves of it is synced."""
        if KINDS[kind]:
            change_indexes(self.path(), kind)
            self.sessions.append((read_files(self.folder), self.last, []))


Cut = collections.namedtuple("Cut", "disk least where is_log_sync")
# what the last sync of the log covered: after how many events at least, the files, and whether this part tries them
Synced = collections.namedtuple("Synced", "least files is_mine")


def cuts_of(record, has_syncs=True):
    """Each moment at which the power may be cut: the disk, and how many events were answered for by then."""
    disk = Disk(record.start)
    least = record.first
    for number, (notes, first, answers) in enumerate(record.sessions):
        if isinstance(notes, dict):
            disk = Disk(notes)
            continue
        disk.restart()
        said, answered = b"", 0
        for place, note in enumerate(notes_in(notes)):
            is_log_sync = note[0] == "y" and disk.open.get(note[1]) == "trips.db-wal"
            may_differ = disk.take(note, has_syncs)
            if note[0] == "s":
                said += note[3]
                answered, said = count_answers(answered, said)
                if answered:
                    least = first + sum(answers[:answered])
                may_differ = True
            if may_differ:
                yield Cut(disk, least, f"{record.name}, session {number + 1}, after call {place + 1}", is_log_sync)


def dealt_out(cuts):
    """Each moment with the files as they are then, and whether this part has it. The moments at which the files are the same
    are one, and eight such are a case, as most of them need the same look at what was synced before."""
    deal, last, count, is_mine = Deal(), None, 0, False
    for cut in cuts:
        files = cut.disk.whole()
        if files != last:
            if count % 8 == 0:
                is_mine = deal.is_mine()
            last, count = files, count + 1
        yield cut, files, is_mine


def weight(cut, copying):
    """How often the power is cut at a moment, beside others: never where all is synced."""
    file = cut.disk.files.get("trips.db")
    return (copying if file and file.pending else 1) if cut.disk.pending() else 0


def count_answers(answered, said):
    """How many lines and pages are whole by now, and what comes after the last of them."""
    size_of = lambda text: page_size(text) if text.startswith(b"HTTP") else text.find(b"\n") + 1
    while 0 < (size := size_of(said)) <= len(said):
        answered, said = answered + 1, said[size:]
    return answered, said


class Trial(hostile.Trial):
    """Tries the disks that cuts of a record may leave."""

    def __init__(self, record, book, chance):
        super().__init__(book, chance)
        self.record, self.moments, self.cuts, self.kept, self.deeper = record, 0, 0, 0, []

    def run(self, disks, copying=1):
        """Cuts the power at each moment of this part, so often that all parts try about so many disks; where the log is being
        copied into the file, so many times as often. Returns itself."""
        share = disks / max(sum(weight(cut, copying) for cut in cuts_of(self.record)), 1)
        synced, self.kept = None, KEPT / max(disks, 1)
        for place, (cut, files, is_mine) in enumerate(dealt_out(cuts_of(self.record))):
            if cut.is_log_sync:
                synced = Synced(cut.least, files, is_mine)
            if place % EACH or not is_mine:
                continue
            self.moments += 1
            durable = self.whole(synced.files, synced.least, self.record.last, cut, synced.is_mine) if synced else 0
            least = max(cut.least, durable)
            most = self.whole(files, least, least + 1, cut)
            for _ in range(int(share * weight(cut, copying) * EACH + self.chance.random())):
                self.cut(cut, least, most)
        return self

    def whole(self, files, least, most, cut, goes_on=True):
        """After how many events a disk is that lost nothing."""
        return self.judge(files, least, most, f"{cut.where}: nothing lost", goes_on) or least

    def cut(self, cut, least, most):
        """One cut at this moment."""
        kind = self.chance.choice(Part.KINDS)
        files = cut.disk.cut(Part(kind, self.chance, cut.disk))
        self.cuts += 1
        before = self.shown.tried
        found = self.judge(files, least, most, f"{cut.where}: cut, {kind}")
        if self.shown.tried > before and found is not None and self.chance.random() < self.kept:
            self.deeper.append((files, cut.where))


def booking(library, kind):
    """All that one file lives through: the first opening, lines, reports, a load, a kill, recovery, requests with keys. From the
    recovery on it is of this kind."""
    record = Record("booking", library)
    record.run(FIRST)
    record.words("stock", record.path())
    record.load("june", JUNE)
    record.run(SECOND, kill=True)
    record.words("recover", record.path())
    record.change_indexes(kind)
    record.serve(http_requests(6))
    record.serve(http_requests(8), kill=True)
    record.run([f"begin {PLANS[0]}", "step 10", "step 10"])
    return record


def growing(library, kind):
    """A large load, and then, over a file of this kind, so many lines that the log is copied into the file while the desk runs."""
    record = Record("growing", library)
    record.load("large", LARGE)
    record.change_indexes(kind)
    lines = [f"set t {FLIGHT} 900", f"set u {BUS} 900"]
    for n in range(1, 121):
        lines += [f"begin {FLIGHT}/1/1;{BUS}/1/1!0", f"step {n}"]
    record.run(lines, kill=True)
    record.words("unfinished", record.path())
    return record


def migrating(library, start):
    """The migration of a file of schema 1."""
    record = Record("migrating", library, start, lambda tables: int("mark" in (tables or ())))
    record.words("migrate", record.path(), events=1)
    return record


def without_syncs(record, book, same, chance, count):
    """How many of so many disks are wrong where the syncs are left out of the record: the check of this trial. Of the moments
    that are chosen for every part, this part takes its own."""
    trial = Trial(record, book, chance)
    moments = range(sum(1 for _ in cuts_of(record)))
    chosen = set(Deal().mine(same.sample(moments, min(count, len(moments)))))
    for place, cut in enumerate(cuts_of(record, has_syncs=False)):
        if place in chosen:
            files = cut.disk.cut(Part(chance.choice(("sectors", "calls", "one lost")), chance, cut.disk))
            trial.judge(files, cut.least, cut.least + 1, cut.where, goes_on=False)
    return len(trial.wrong), len(chosen)


def cut_again(trial, chance, records, disks):
    """The power is cut again while a disk that a cut left is recovered."""
    results = []
    for n, (files, where) in enumerate(chance.sample(trial.deeper, min(records, len(trial.deeper)))):
        record = Record(f"again-{n}", trial.record.library, files)
        record.words("recover", record.path())
        again = Trial(record, Events(record), chance).run(disks)
        again.wrong = [f"{where}, and {text}" for text in again.wrong]
        results.append(again)
        shutil.rmtree(record.folder)
    return results


def told_of(name, trials):
    """Says what was tried, and returns how much of what."""
    told = collections.Counter()
    for trial in trials:
        told.update(moments=trial.moments, cuts=trial.cuts, disks=trial.shown.tried, wrong=len(trial.wrong))
    counts = ", ".join(f"{told[what]} {what}" for what in ("moments", "cuts", "disks", "wrong"))
    tell(f"{name}: {counts}", [text for trial in trials for text in trial.wrong])
    return told


def tries_all(library, disks, seed, same, chance):
    """Makes the records and tries what cuts of them leave; returns how much was tried, and how much is wrong."""
    record = booking(library, kind_of(seed))
    book = Events(record)
    trial = Trial(record, book, chance).run(disks * 6 // 10)
    told = told_of("a file's life", [trial])
    told += told_of("cut again while recovered", cut_again(trial, chance, max(2, disks // 400), disks // 50))
    grown = growing(library, kind_of(seed + 1))
    told += told_of("a log that is copied on the way", [Trial(grown, Events(grown), chance).run(disks // 10, copying=20)])
    moved = migrating(library, old_file(read_files(record.folder)))
    told += told_of("a migration", [Trial(moved, Migration(moved), chance).run(disks // 10)])
    bad, all_disks = without_syncs(record, book, same, chance, max(20, disks // 10))
    few = ["without the syncs too few disks are wrong, so this trial finds nothing"] * (bad * 3 < max(all_disks, 1))
    tell(f"without the syncs: {all_disks} disks, {bad} wrong", few)
    told["wrong"] += len(few)
    return told


def main():
    library, disks = os.path.abspath(sys.argv[1]), int(sys.argv[2])
    seed = int(sys.argv[3])
    told = tries_all(library, disks, seed, *chances(seed))
    finish(told["wrong"], told["cuts"], disks / PARTS / 2, "cuts")


main()
