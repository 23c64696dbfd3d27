"""Failing calls. Each call that a run of the desk makes on its files and streams fails, one at a time, with an error of the
disk; then a second one after it, or all later ones; and then a call of the next opening. The run ends with its usual
answers, or names a fault. What it leaves is the ledger of what was answered, or that with one whole event more.
More than 200 lines: each kind of run has its own bounds.

failing_calls.py CALLS.so MORE EACH SEED [SCENE ..]    after each failure so many second ones; of the calls only each EACH-th,
                                                       from one that chance chooses on; these scenes alone
"""
import collections
import errno
import os
import sys
from pathlib import Path

import hostile
from driving import desk, is_whole, killed_after
from hostile import Life, finish, made_by_lines, made_by_pages, served, tell
from parts import PARTS, Deal, chances
from scenes import FIRST, JUNE, PLANS, SECOND, http_requests
from shown import Events, Migration, kind_of, lay, look, make_disk, old_file, read_files

ERRORS = (errno.EIO, errno.ENOSPC)
FAILED = Path("failed")
THEN = (1, 2, 3, 4, 6, 9, "all")
# calls that change a file: a failure of one is named by the run that it came to, at the latest when the database is closed
CHANGES = {"pwrite", "ftruncate", "fsync", "fdatasync"}
# calls on sockets: a failure of one ends its connection, and not the desk
SOCKETS = {"accept", "recv", "send"}


class Scene(Life):
    """One run of the desk over a disk, and what it does where no call fails."""

    stride = 1

    def __init__(self, name, start, measure=None):
        super().__init__(name, start, measure)
        self.usual = self.run({})
        lay(read_files("cut"), self.folder)
        self.last = self.events()

    def run(self, env):
        """Runs it over its disk, as it was."""
        lay(self.start)
        FAILED.unlink(missing_ok=True)
        return self.drive(env)

    def drive(self, env):
        return desk(*self.words, env=env)

    def bounds(self, ended):
        """After how many events the disk may be, at least and at most."""
        return (self.last if ended.status == 0 else self.first), self.last

    def fault(self, ended):
        """What is wrong with how it ended."""
        is_usual = ended.status == 0 and not ended.err and ended.out == self.usual.out
        return "" if is_usual or (ended.fault() and self.usual.out.startswith(ended.out)) else str(ended)

    def silence(self, ended, names):
        """What is wrong with how it ended after calls of these names failed: a change of a file that failed is a fault."""
        is_silent = ended.status == 0 and CHANGES.intersection(names)
        return f"no fault is named: {ended}" if is_silent else ""


class WordScene(Scene):
    """One call with words, of which the answer comes at the end."""

    def __init__(self, name, start, *words, measure=None):
        self.words = words
        super().__init__(name, start, measure)
        assert self.usual.status == 0, str(self.usual)


class ReportScene(WordScene):
    """A report, which changes nothing: one that showed all its rows is done, even if its log could not be copied on closing."""

    def silence(self, ended, names):
        """What is wrong with how it ended after calls of these names failed."""
        is_shown = ended.out == self.usual.out
        return f"all is shown: {ended}" if is_shown and ended.status != 0 and CHANGES.issuperset(names) else ""


class LineScene(Scene):
    """Lines."""

    def __init__(self, name, start, lines):
        self.lines = lines
        super().__init__(name, start)
        self.made = made_by_lines(self.usual.out.splitlines())
        assert len(self.made) == len(lines), str(self.usual)

    def drive(self, env):
        return desk("run", "cut/trips.db", lines="\n".join(self.lines) + "\n", env=env)

    def bounds(self, ended):
        count = ended.out.count("\n")
        least = self.last - sum(self.made[count:]) if count else self.first
        return least, self.last - sum(self.made[count + 1 :])


class ServeScene(Scene):
    """Requests with keys, over two connections, of which the second sends all again."""

    def __init__(self, name, start, requests):
        self.requests, self.got = requests, []
        super().__init__(name, start)
        self.expected = self.got
        half = self.expected[: len(requests)]
        self.made = made_by_pages(half)
        self.pages = [(requests, half)]

    def drive(self, env):
        ended, self.got = served("cut/trips.db", self.requests, 2, env)
        return ended

    def bounds(self, ended):
        """A request was answered where a page came in either connection; after a fault the next one may be done too."""
        count = len(self.requests)
        pages = {n % count for n, page in enumerate(self.got) if is_whole(page)}
        base = self.last - sum(self.made)
        done = base + sum(self.made[n] for n in pages)
        return (done, min(done + 1, self.last)) if ended.out else (self.first, base)

    def fault(self, ended):
        """Each whole page is one that comes to this request without failures."""
        count = len(self.requests)
        for n, page in enumerate(self.got):
            if is_whole(page) and page not in (self.expected[n % count], self.expected[n % count + count]):
                return f"request {n + 1}: {page}"
        return "" if ended.fault() or (ended.status == 0 and not ended.err and ended.out) else str(ended)

    def silence(self, ended, names):
        """The same; and where only calls on sockets failed, the desk has gone on."""
        if ended.status != 0 and SOCKETS.issuperset(names):
            return f"the desk has ended: {ended}"
        return super().silence(ended, names)


class ByteScene(ServeScene):
    """The same, read and written one byte a call: 20 times as many calls, of which one in twenty is tried."""

    stride = 20

    def drive(self, env):
        return super().drive({**env, "SIPS": "1"} if env else env)


class Trial(hostile.Trial):
    """Makes each call of a scene fail, and looks at what is left."""

    def __init__(self, scene, chance, library):
        super().__init__(Migration(scene) if scene.name == "migrate" else Events(scene), chance)
        self.scene, self.library = scene, {"LD_PRELOAD": library}
        self.ends, self.names, self.calls = collections.Counter(), collections.Counter(), set()

    def fails(self, **env):
        """One run in which these calls fail; says whether there was such a call."""
        ended = self.scene.run({**self.library, **{name: str(value) for name, value in env.items()}})
        if not FAILED.exists():
            return False
        names = FAILED.read_text(encoding="ascii").split()
        self.names[names[0]] += 1
        what = f"{' '.join(f'{n}={v}' for n, v in env.items())} ({' '.join(names[:3])})"
        self.looks(ended, what, self.scene.fault(ended) or self.scene.silence(ended, names))
        return True

    def looks(self, ended, what, fault, end=""):
        """Takes in how a run ended, in a word, and what is wrong with that; and looks at what it left."""
        self.ends[end or ended.fault() or f"status {ended.status}"] += 1
        if fault:
            self.wrong.append(f"{self.scene.name}, {what}: {fault}")
        self.judge(read_files("cut"), *self.scene.bounds(ended), f"{self.scene.name}, {what}")

    def judge(self, files, least, most, what, goes_on=True):
        """What is left is as it should be; after a failing opening too."""
        found = super().judge(files, least, most, what, goes_on)
        if found is not None and self.chance.random() < 0.2:
            lay(files)
            again = {**self.library, "FAIL": str(self.chance.randrange(1, 120)), "ERROR": str(errno.EIO)}
            opened = desk("recover", "cut/trips.db", env=again)
            what = f"{what}, recovered with FAIL={again['FAIL']}"
            self.ends["opened again: " + (opened.fault() or f"status {opened.status}")] += 1
            if not opened.is_orderly():
                self.wrong.append(f"{what}: {opened}")
            self.is_kept(read_files("cut"), found, what)

    def is_kept(self, files, least, what):
        """After a recovery that may have failed, the desk opens the file, and no event is lost."""
        tables = look(files)
        if isinstance(tables, str) or self.scene.measure(tables) < least:
            self.wrong.append(f"{what}: {tables if isinstance(tables, str) else 'events are lost'}")

    def run(self, more, each, same, deal):
        """Each call of this part fails, with each error; then so often a second one after it. The first call is chosen by a
        chance that gives every part the same."""
        for error in ERRORS:
            for call in deal.mine_from(same.randrange(1, each + 1), each):
                if not self.fails(FAIL=call, ERROR=error) or len(self.wrong) >= 10:
                    break
                for _ in range(more):
                    self.fails(FAIL=call, ERROR=error, THEN=self.chance.choice(THEN))
                self.calls.add(call)

    def in_pieces(self, size, deal):
        """With writes, and reads of streams, of so few bytes all is as ever. A page that a read gives in parts is a fault
        to the library `sqlite`, which loses nothing."""
        for name in "PIECES", "PARTS":
            if deal.is_mine():
                ended = self.scene.run({**self.library, name: str(size)})
                fault = self.scene.fault(ended) or (name == "PIECES" and ended.status != 0 and str(ended))
                self.looks(ended, f"{name}={size}", fault, f"{name.lower()}: {ended.fault() or ended.status}")


def scenes(seed=1987):
    """Each scene, over a disk that was closed, or one that was killed in the midst; the two are of two kinds, by the seed."""
    make_disk(FIRST, kind=kind_of(seed + 1))
    assert desk("recover", "cut/trips.db").status == 0
    killed_after(SECOND[:5], "cut/trips.db")
    killed = read_files("cut")
    closed = make_disk(FIRST, kind=kind_of(seed))
    Path("june.csv").write_text(JUNE, encoding="ascii")
    yield LineScene("a first run", {}, FIRST[:6] + ["step 1", "step 01", "step 2", "save 2", "step 2"])
    yield LineScene("a run", killed, [f"begin {PLANS[1]}", "step 6", "save 6", "save 6", "step 6", "step 4", "step 06"])
    yield WordScene("recover", killed, "recover", "cut/trips.db")
    yield WordScene("load", closed, "load", "cut/trips.db", "june.csv", "--batch", "june")
    yield ServeScene("serve", closed, http_requests(4))
    yield ByteScene("serve, byte by byte", closed, http_requests(4))
    yield ReportScene("stock", killed, "stock", "cut/trips.db")
    yield ReportScene("unfinished", closed, "unfinished", "cut/trips.db")
    yield ReportScene("history", killed, "history", "cut/trips.db", "1")
    yield WordScene("migrate", old_file(closed), "migrate", "cut/trips.db", measure=lambda t: int("mark" in (t or ())))


def named(names, seed=1987):
    """The scenes of these names; all where there is none."""
    return (scene for scene in scenes(seed) if not names or scene.name in names)


def main():
    library, (more, each, seed), names = os.path.abspath(sys.argv[1]), map(int, sys.argv[2:5]), sys.argv[5:]
    same, own = chances(seed)
    deal, wrong, runs = Deal(), 0, 0
    for scene in named(names, seed):
        trial = Trial(scene, own, library)
        trial.run(more, each * scene.stride, same, deal)
        for size in (7, 509):
            trial.in_pieces(size, deal)
        count = sum(trial.names.values())
        ends = ", ".join(f"{end}: {times}" for end, times in sorted(trial.ends.items()))
        failed = ", ".join(f"{name} {times}" for name, times in trial.names.most_common())
        what = f"{scene.name}: {len(trial.calls)} calls, {count} runs, {len(trial.wrong)} wrong; {ends}"
        tell(f"{what}\n  what failed first: {failed}", trial.wrong)
        wrong, runs = wrong + len(trial.wrong), runs + count
    finish(wrong, runs, 0 if names else 2000 * (1 + more) // (each * PARTS), "runs with a failure")


if __name__ == "__main__":
    main()
