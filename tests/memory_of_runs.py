"""Out of memory in each kind of run: lines, a recovery, a load, a migration, and a desk that serves. Of each run allocations
are refused, one at a time; then with all later ones; then with a call of the store that fails after it.

A run ends with its usual answers, or names a fault. What it leaves is the ledger of what was answered, or that with one whole
event more and its kept reply, and the next opening goes on with it. A desk that serves loses the connection at hand alone:
the next one, which sends all requests again under their keys, gets each page.

memory_of_runs.py REFUSE.so CALLS.so EACH SEED [SCENE ..]    of the allocations only each EACH-th, from one that chance
                                                             chooses on; these scenes alone
With SPOIL=event in the environment the last event of each file is taken away before it is looked at, and with SPOIL=fault each
named fault is hidden: both have to be found.
"""
import collections
import contextlib
import os
import random
import sqlite3
import sys
from pathlib import Path

from driving import is_whole
from failing_calls import ServeScene, Trial, named
from hostile import finish, tell

REFUSED = Path("refused")
NAMES = ("a run", "recover", "load", "migrate", "serve")
# what a run may name, of which only allocations were refused
MEMORY = {"fault 17 Memory", "fault 18 Store", "fault 21 Store", "fault 22 Memory"}
LATER = (1, 2, 3, 4, 6, 9, 14, 22)


class Refusals(Trial):
    """Refuses the allocations of a scene."""

    def __init__(self, scene, chance, libraries):
        super().__init__(scene, chance, libraries[0])
        self.both = " ".join(libraries)
        self.runs = collections.Counter()

    def drives(self, place, **more):
        """One run in which this allocation is refused, or none; how it ended, and whether it came so far."""
        REFUSED.unlink(missing_ok=True)
        ended = self.scene.run({**self.library, "REFUSE": str(place), **more})
        return ended, REFUSED.exists()

    def count(self):
        """How many allocations there are where none is refused."""
        ended, _ = self.drives("none")
        assert ended.status == 0 and not self.scene.fault(ended), str(ended)
        return int(REFUSED.read_text(encoding="ascii"))

    def lost(self):
        """Of a desk that serves: how many connections lack a page, and whether any page came."""
        pages = [is_whole(page) for page in self.scene.got]
        count = len(self.scene.requests)
        return sum(1 for first in range(0, len(pages), count) if not all(pages[first : first + count])), any(pages)

    def served(self, ended):
        """What is wrong with how a desk ended that served, of which one allocation was refused."""
        lost, has_pages = self.lost()
        if has_pages and ended.status != 0 and ended.fault() != "fault 18 Store":
            return f"the desk has ended: {ended}"
        if ended.status == 0 and (lost > 1 or not has_pages):
            return f"{lost} connections were lost"
        return ""

    def fault(self, ended, kind):
        """What is wrong with how it ended."""
        if kind != "with a call" and ended.status != 0 and ended.fault() not in MEMORY:
            return str(ended)
        if kind == "alone" and isinstance(self.scene, ServeScene):
            return self.served(ended) or self.scene.fault(ended)
        return self.scene.fault(ended)

    def refuse(self, place, kind, **more):
        """Refuses one allocation, and looks at what is left."""
        ended, has_come = self.drives(place, **more)
        spoil(ended)
        self.runs[kind] += 1
        what = f"allocation {place} {kind} {' '.join(f'{n}={v}' for n, v in more.items() if n != 'LD_PRELOAD')}"
        is_lost = ended.status == 0 and isinstance(self.scene, ServeScene) and self.lost()[0]
        self.looks(ended, what, self.fault(ended, kind) if has_come else "not made", "a connection was lost" if is_lost else "")

    def tries(self, each):
        """Each allocation, from one that chance chooses on. Gives how many there are."""
        count = self.count()
        place = self.chance.randrange(1, each + 1)
        while place <= count and len(self.wrong) < 10:
            self.refuse(place, "alone")
            if self.chance.random() < 0.25:
                self.refuse(place, "and all later ones", LATER="1")
            if self.chance.random() < 0.5:
                then = {"THEN": self.chance.choice(("1", "2", "5", "all"))} if self.chance.random() < 0.5 else {}
                failing = {"REFUSED": "1", "FAIL": str(self.chance.choice(LATER)), "ERROR": self.chance.choice(("5", "28"))}
                self.refuse(place, "with a call", LD_PRELOAD=self.both, **failing, **then)
            place += each
        return count


def spoil(ended):
    """Makes of a run what a desk that is wrong would, where the environment says so."""
    how = os.environ.get("SPOIL")
    if how == "fault" and ended.fault():
        ended.status, ended.err = 0, ""
    if how == "event":
        with contextlib.closing(sqlite3.connect("cut/trips.db")) as connection:
            connection.executescript("UPDATE meta SET events = events - 1; DELETE FROM entry2 WHERE num > (SELECT events FROM meta)")


def main():
    libraries, (each, seed) = [os.path.abspath(path) for path in sys.argv[1:3]], map(int, sys.argv[3:5])
    chance, wrong, refused = random.Random(seed), 0, 0
    for scene in named(sys.argv[5:] or NAMES):
        trial = Refusals(scene, chance, libraries)
        count = trial.tries(each)
        ends = ", ".join(f"{end}: {times}" for end, times in sorted(trial.ends.items()))
        runs = ", ".join(f"{kind} {times}" for kind, times in sorted(trial.runs.items()))
        tell(f"{scene.name}: {count} allocations, refused {runs}; {len(trial.wrong)} wrong; {ends}", trial.wrong)
        wrong, refused = wrong + len(trial.wrong), refused + trial.runs["alone"]
    finish(wrong, refused, 10, "allocations refused alone")


main()
