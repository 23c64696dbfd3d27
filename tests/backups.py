"""Backups of a desk at work. While a client steps journeys, over HTTP and then by lines, tools/backup makes backups at random
moments, some of them two at once. Each has the ledger of what was answered before it began, or with some of what was asked
until its end, whole events all of them; the desk goes on with some of them as it should; and the desk that was stopped for
them goes on answering. Two more backups are made while the desk goes on between the copies of its two files: they have to be
refused or wrong, which is the check of this trial.
More than 200 lines: a desk at work, its backups and what they hold are one trial.

backups.py TOOL COUNT [SEED]    makes so many backups; says what it found, and ends with 1 where something is wrong
"""
import os
import random
import shutil
import subprocess
import sys
import threading
import time
from pathlib import Path

from driving import PATIENCE, Client, Lines, Server, desk, request, waits_for
from ledger import is_settled, tables_of
from scenes import BUS, FLIGHT, JSON_PLAN, PLANS, SEA, YARD
from shown import Events, look, read_files

QUICK = 100
# a cp that waits after the file before it copies the log, so long that a desk at work would begin the log anew; where
# CONTINUED is a process, this goes on until it has done so while the file is another one than its copy: a file that had all
# of the former log is as good with the new one
APART = f"""#!/bin/sh
[ $# -gt 3 ] || exec {shutil.which("cp")} "$@"
{shutil.which("cp")} -- "$2" "$4" || exit
if [ -z "$CONTINUED" ]; then
  sleep 1.5
else
  before=$(head -c 32 "$3" | cksum)
  tries=0
  kill -CONT "$CONTINUED"
  while [ $tries -lt 4000 ]; do
    now=$(head -c 32 "$3" | cksum)
    if [ "$now" != "$before" ]; then
      before=$now
      cmp -s "$2" "$4/${{2##*/}}" || break
    fi
    sleep 0.01
    tries=$((tries + 1))
  done
  kill -STOP "$CONTINUED"
  sleep 0.1
fi
exec {shutil.which("cp")} -- "$3" "$4"
"""
STOCK = f"set a {FLIGHT} 900\nset b {SEA} 0\nset c {YARD} 90\nset d {BUS} 900\n"


def asks(chance, first):
    """What a client asks: it begins journeys, and moves those that it began last. The first journey has this number."""
    begun = first
    while True:
        if begun < first + 3 or chance.random() < 0.2:
            yield ("begin", begun)
            begun += 1
        one = chance.randrange(max(first, begun - 6), begun)
        yield (chance.choice(("step",) * 8 + ("save", "abort")), one)


def line_of(ask):
    """An ask as a line."""
    word, number = ask
    return f"begin {PLANS[number % 3]}" if word == "begin" else f"{word} {number}" + " 0" * (word == "abort")


def request_of(ask, key):
    """An ask as a request."""
    word, number = ask
    if word == "begin":
        return request("POST", "/journeys", key, JSON_PLAN)
    return request("POST", f"/journeys/{number}/{word}" + "/0" * (word == "abort"), key)


class Work(threading.Thread):
    """A client that asks one thing after another until it is to stop, and counts. For each backup it asks so many quickly,
    and more slowly what comes then, so that a slow machine does not get too large a file."""

    def __init__(self, chance, first, base):
        super().__init__(daemon=True)
        self.asks, self.base = asks(chance, first), base
        self.asked = self.answered = self.slow_after = 0
        self.going, self.lost = True, []

    def run(self):
        while self.going:
            ask = next(self.asks)
            self.asked += 1
            answer = self.answer(ask)
            if answer is None:
                self.lost.append(ask)
                return
            self.answered += answer
            time.sleep(0.004 if self.asked < self.slow_after else 0.1)

    def hurry(self, count=QUICK):
        """Asks quickly for a while."""
        self.slow_after = self.asked + count

    def stop(self):
        """Stops asking, and kills the desk."""
        self.going = False
        self.join()
        self.process.kill()


class Requests(Work):
    """The same over HTTP, over one connection."""

    def __init__(self, chance, first, base):
        super().__init__(chance, first, base)
        self.process, self.pages = Server("trips.db"), []
        self.client = Client(self.process.port)

    def answer(self, ask):
        """Whether the answer to this made an event; None without an answer."""
        sent = request_of(ask, f"k{self.asked:06}")
        page = self.client.ask(sent)
        if not page.startswith((b"HTTP/1.1 200", b"HTTP/1.1 409")):
            return None
        if page.startswith(b"HTTP/1.1 200"):
            self.pages.append((sent, page))
        return page.startswith(b"HTTP/1.1 200")


class LinesAsked(Work):
    """The same by lines."""

    def __init__(self, chance, first, base):
        super().__init__(chance, first, base)
        self.process = Lines("trips.db")

    def answer(self, ask):
        said = self.process.ask(line_of(ask))
        return not said.startswith("refused") if said else None


class Backup:
    """A backup, and between how many events it was made."""

    def __init__(self, name, least, most, done):
        self.name, self.least, self.most, self.done = name, least, most, done


def back_up(call, work, names, env):
    """Makes backups at once by this call, with these names, in this environment."""
    least = work.base + work.answered
    pipe = {"stdout": subprocess.PIPE, "stderr": subprocess.STDOUT, "env": {**os.environ, **env}}
    calls = [subprocess.Popen([*call, "trips.db", name], **pipe) for name in names]
    said = [call.communicate(timeout=5 * PATIENCE)[0].decode() for call in calls]
    most = work.base + work.asked
    return [Backup(name, least, most, (call.returncode, text)) for name, call, text in zip(names, calls, said)]


def goes_on(work):
    """Whether the desk answers something more."""
    work.hurry()
    before = work.answered
    waits_for(lambda: work.answered > before or work.lost, PATIENCE)
    return work.answered > before


def back_up_apart(tool, work):
    """Makes a backup while the desk goes on between the copies of its two files."""
    work.hurry(5000)
    env = {"PATH": f"{os.path.abspath('apart')}:{os.environ['PATH']}", "CONTINUED": str(work.process.process.pid)}
    return back_up([tool, "--seconds", "120"], work, [f"apart-{type(work).__name__}.db"], env)[0]


def back_up_while(tool, work, chance, names):
    """Makes backups with these names while a client asks; gives them, and what was wrong meanwhile."""
    made, wrong = [], []
    path = f"{os.path.abspath('apart')}:{os.environ['PATH']}"
    work.start()
    while names and not wrong:
        work.hurry()
        time.sleep(chance.random() / 5)
        now = [names.pop() for _ in range(min(len(names), 2 if chance.random() < 0.3 else 1))]
        if made:
            made += back_up([tool], work, now, {})
        else:
            work.hurry(1000)
            made += back_up([tool], work, now, {"PATH": path, "CONTINUED": ""})
        if not goes_on(work):
            wrong.append(f"{now}: after this the desk did not answer {work.lost}")
    return made, wrong


class Book(Events):
    """What backups of a desk may hold: its ledger after some of its events."""

    def __init__(self, final, pages):
        self.begin(final, pages)

    def fault(self, backup, chance):
        """What is wrong with a backup."""
        if backup.done != (0, f"saved {backup.name}\n"):
            return f"the call ended with {backup.done}"
        if os.stat(backup.name).st_mode & 0o777 != 0o600:
            return "others may read it"
        tables = look({"trips.db": Path(backup.name).read_bytes()})
        if not isinstance(tables, dict):
            return f"it cannot be shown: {tables}"
        count = tables["meta"][0][2]
        if not backup.least <= count <= backup.most:
            return f"it has {count} events, expected {backup.least} to {backup.most}"
        if tables != self.states[count]:
            return f"its tables are not those after {count} events"
        backup.is_open = bool(is_settled(tables))
        return self.goes_on(count, chance) if chance.random() < 0.4 else ""


def count_events():
    """How many events and journeys a desk has that was just recovered."""
    assert desk("recover", "trips.db").status == 0
    return tables_of("trips.db")["meta"][0][2:]


def main():
    tool, count = sys.argv[1], int(sys.argv[2])
    chance = random.Random(int(sys.argv[3]) if len(sys.argv) > 3 else 1987)
    assert desk("run", "trips.db", lines=STOCK).status == 0
    os.mkdir("apart")
    Path("apart/cp").write_text(APART, encoding="utf-8")
    os.chmod("apart/cp", 0o755)
    made, apart, wrong, pages = [], [], [], []
    for kind in (Requests, LinesAsked):
        base, journeys = count_events()
        work = kind(chance, journeys + 1, base)
        names = [f"backup-{kind.__name__}-{n}.db" for n in range(count // 2)]
        some, bad = back_up_while(tool, work, chance, names)
        made, wrong, pages = made + some, wrong + bad, pages + getattr(work, "pages", [])
        apart.append(back_up_apart(tool, work))
        work.stop()
    book = Book(look(read_files(".")), pages)
    for backup in made:
        fault = book.fault(backup, chance)
        if fault:
            wrong.append(f"{backup.name}: {fault}")
    for backup in apart:
        if not book.fault(backup, chance):
            wrong.append(f"{backup.name}: a desk that went on between the copies is not found, so this trial finds nothing")
    left = list(map(str, Path().glob(".desk-backup*")))
    under_way = sum(getattr(backup, "is_open", False) for backup in made)
    print(f"{len(made)} backups among {book.ledger.count} events, {under_way} with journeys under way, {len(wrong)} wrong")
    for text in wrong[:10] + left:
        print(f"backups.py: {text}", file=sys.stderr)
    sys.exit(1 if wrong or left or under_way == 0 else 0)


main()
