"""Damaged files. Bytes of a small database and of its log are changed, pages exchanged, lengths cut, runs of zeros put in,
and files given that are none of the desk's. Every subcommand ends by itself, with its answer or a named fault. What it
showed in spite of the damage is counted: the right rows, those of an older ledger, or wrong ones.
More than 200 lines: the sorts of damage are one list.

damage.py COUNT SEED    so many damages of each sort; COUNT=all: each byte, each pair of pages, each length
"""
import collections
import sqlite3
import sys
from pathlib import Path

from driving import desk, request
from hostile import served, tell
from ledger import Ledger, report, tables_of
from parts import IN_PART, PARTS, Deal, chances
from scenes import FIRST, FLIGHT, JUNE, PLANS, SECOND
from shown import kind_of, lay, look, make_disk, old_file, read_files

PAGE, SECTOR = 4096, 512
DB, LOG = "trips.db", "trips.db-wal"
ASKED = request("GET", "/stock"), request("POST", "/journeys/1/step", "z1"), request("GET", "/unfinished")


class Base:
    """A sound disk, and what the desk shows of it after each event."""

    def __init__(self, files, is_old=False):
        last = look(files)
        ledger = None if is_old else Ledger(last)
        self.is_old = is_old
        self.states = [last] if is_old else [ledger.after(count) for count in range(ledger.count + 1)]
        assert self.states[-1] == last, last
        self.journeys = [row[0] for row in last["journey"]]


def used(log):
    """How many bytes of a log come before the zeros that were written ahead."""
    return len(log.rstrip(b"\0"))


def with_bytes(files, name, at, piece):
    data = bytearray(files[name])
    data[at : at + len(piece)] = piece
    return {**files, name: bytes(data)}


class Damages:
    """The damages of a disk, by sort; of each sort so many, or all."""

    def __init__(self, count, chance):
        self.count, self.chance = count, chance

    def of(self, places):
        """Some of these places, or all."""
        places = list(places)
        if self.count is None or len(places) <= self.count:
            return places
        return self.chance.sample(places, self.count)

    def flips(self, files, name, size):
        for at in self.of(range(size)):
            yield with_bytes(files, name, at, bytes([files[name][at] ^ self.chance.randrange(1, 256)]))

    def zeros(self, files, name, size):
        for at in self.of(range(0, size, SECTOR)):
            length = min(self.chance.choice((16, SECTOR, PAGE)), size - at)
            yield with_bytes(files, name, at, bytes(length))

    def cuts(self, files, name, size):
        for length in self.of(range(size)):
            yield {**files, name: files[name][:length]}

    def exchanges(self, files):
        pages = len(files[DB]) // PAGE
        for one, other in self.of((a, b) for a in range(pages) for b in range(a)):
            first, second = (files[DB][n * PAGE : (n + 1) * PAGE] for n in (one, other))
            yield with_bytes(with_bytes(files, DB, one * PAGE, second), DB, other * PAGE, first)

    def strangers(self, files):
        """Files of random bytes, by themselves and behind a good beginning."""
        for n in self.of(range(200)):
            size = self.chance.choice((0, 1, 15, 16, 100, 511, PAGE - 1, PAGE, PAGE + 1, 5 * PAGE))
            kept = self.chance.choice((0, 0, 16, 100))
            data = files[DB][:kept] + self.chance.randbytes(size)
            yield {DB: data} if n % 2 else {DB: files[DB], LOG: files[DB][:0] + files.get(LOG, b"")[:kept] + data[kept:]}

    def logs(self, files, others):
        """The logs of other files, and of this one at other times; files and logs by themselves."""
        for log in others:
            yield {**files, LOG: log}
            for at in self.of(range(0, used(log), SECTOR)):
                yield {**files, LOG: files[LOG][:at] + log[at:]}
        yield {DB: files[DB]}
        yield {LOG: files[LOG]}
        yield {DB: files[LOG], LOG: files[DB]}
        yield {DB: files[DB], LOG: files[DB]}


class Trial:
    """Opens damaged disks by every subcommand."""

    WRITERS = ("run", "recover", "load", "migrate", "serve")

    def __init__(self, chance):
        self.chance, self.deal, self.turn, self.runs = chance, Deal(), 0, 0
        self.wrong, self.examples = [], []

    def ended(self, what, ended):
        """Counts a run, which has to end as it should."""
        self.runs += 1
        if not ended.is_orderly():
            self.wrong.append(f"{what}: {ended}")
        return ended

    def sort(self, base, files, what):
        """What the reports show of a damaged disk, in a word."""
        lay(files)
        reports = [("unfinished",), ("stock",), ("history", str(self.chance.choice(base.journeys)))]
        shown = [self.ended(f"{what}, {words[0]}", desk(words[0], f"cut/{DB}", *words[1:])) for words in reports]
        if any(ended.fault() or ended.out.startswith("refused 20") for ended in shown):
            return "a fault, by all" if all(e.status for e in shown) else "a fault, by some"
        ends = [(ended.out, ended.status) for ended in shown]
        fits = [count for count, tables in enumerate(base.states) if [report(tables, *words) for words in reports] == ends]
        try:
            tables = tables_of(f"cut/{DB}")
        except (sqlite3.Error, UnicodeDecodeError):
            return "wrong rows, which Python's SQLite does not read"
        if tables == base.states[-1]:
            return "the right rows" if len(base.states) - 1 in fits else "wrong rows shown"
        if tables in base.states or tables is None:
            return "an older ledger" if fits or tables is None else "wrong rows shown"
        return "wrong rows, not in these reports" if len(base.states) - 1 in fits else "wrong rows shown"

    def writes(self, base, files, what):
        """One of the subcommands that write meets the damage, and what it leaves is opened again."""
        word = "migrate" if base.is_old else self.WRITERS[self.turn % len(self.WRITERS)]
        self.turn += 1
        lay(files)
        what = f"{what}, {word}"
        if word == "serve":
            self.ended(what, served(f"cut/{DB}", ASKED, env={"FAIL": "0"})[0])
        else:
            words = {"load": ("june.csv", "--batch", "june")}.get(word, ())
            lines = f"set z {FLIGHT} 9\nbegin {PLANS[1]}\nstep 1\nstep 4\nsave 4\nabort 4 0\n" if word == "run" else ""
            self.ended(what, desk(word, f"cut/{DB}", *words, lines=lines))
        if DB in read_files("cut"):
            self.ended(f"{what}, and stock", desk("stock", f"cut/{DB}"))

    def run(self, name, base, disks):
        """Tries the damages of a sort that this part has, and prints what came of them."""
        sorts, made = collections.Counter(), 0
        for made, files in enumerate(disks, 1):
            if not self.deal.is_mine():
                continue
            what = f"{name}, {made}"
            sort = self.sort(base, files, what)
            sorts[sort] += 1
            if "wrong" in sort and len(self.examples) < 5:
                self.examples.append(f"{what}: {sort}")
            self.writes(base, files, what)
        tried = sum(sorts.values())
        if not made or tried < made // PARTS:
            self.wrong.append(f"{name}: of {made} damages {tried} were tried")
        print(f"{name}: {tried}; " + ", ".join(f"{s}: {c}" for s, c in sorts.most_common()), flush=True)
        return sorts


def main():
    count = None if sys.argv[1] == "all" else int(sys.argv[1])
    seed = int(sys.argv[2]) if len(sys.argv) > 2 else 1987
    same, own = chances(seed)
    Path("june.csv").write_text(JUNE, encoding="ascii")
    closed = make_disk(FIRST, kind=kind_of(seed))
    killed = make_disk(FIRST, kill=SECOND, kind=kind_of(seed + 1))
    others = [make_disk(FIRST[:8], kill=SECOND[:3])[LOG], make_disk(FIRST, kill=SECOND[:2])[LOG]]
    old = old_file(closed)
    sound, logged, older = Base(closed), Base(killed), Base(old, is_old=True)
    damages, trial = Damages(count, same), Trial(own)
    size = used(killed[LOG])
    trial.run("a byte of the file", sound, damages.flips(closed, DB, len(closed[DB])))
    trial.run("a byte of the file beside its log", logged, damages.flips(killed, DB, len(killed[DB])))
    trial.run("a byte of the log", logged, damages.flips(killed, LOG, size))
    trial.run("a byte of a file of schema 1", older, damages.flips(old, DB, len(old[DB])))
    trial.run("zeros in the file", sound, damages.zeros(closed, DB, len(closed[DB])))
    trial.run("zeros in the log", logged, damages.zeros(killed, LOG, size))
    trial.run("the file cut", sound, damages.cuts(closed, DB, len(closed[DB])))
    trial.run("the log cut", logged, damages.cuts(killed, LOG, size))
    trial.run("two pages exchanged", sound, damages.exchanges(closed))
    trial.run("random bytes", logged, damages.strangers(killed))
    trial.run("another log", logged, damages.logs(killed, others))
    for text in trial.examples:
        print(f"  {text}")
    tell(f"{trial.runs} runs, {len(trial.wrong)} that did not end as they should{IN_PART}", trial.wrong)
    sys.exit(1 if trial.wrong else 0)


main()
