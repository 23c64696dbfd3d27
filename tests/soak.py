"""A seeded simulation of the desk in use: agents, the house, kills, calls that fail, power cuts and reopenings, over
the program itself. Every answer and every file is compared with a plain desk (plain_desk.py).
More than 200 lines: lives are planned, told, left out and repeated as one script of lives.

About COUNT commands are answered, which SEED decides. The last line says how many files went wrong, and the status is 1
if any did.
"""
import argparse
import collections
import json
import math
import os
import random
import shutil
import signal
import subprocess
import sys
import tempfile
import time
from pathlib import Path

from driving import DESK
from plain_texts import HEADING
from soak_answers import answer
from soak_asks import Office, fields_of
from soak_files import Place
from soak_talk import Wrong

ERRORS = ("5", "28")  # EIO and ENOSPC
MOST_WRONG = 5
PATIENCE_TO_SHRINK = 60.0
TOLD = 10_000  # after so many commands it says how far it has come
SPOILS = ("forget-reply", "lose-event", "sell-twice", "no-syncs")
SUMMARY = """seed {seed}: {0[commands]} commands, {0[files]} files
  lives {0[lives]} ({lives})
  acted {0[acted]} ({made}), given again {0[given again]}, shown {0[shown]}
  refused {0[refused]} ({refusals})
  ends: orderly {0[orderly]}, kills {0[killed]} ({0[killed in an opening]} in an opening), faults {0[by a fault]} ({faults})
  lives in which a call failed {0[lives with what failed]}, or an allocation was refused {0[lives with what refused]}; \
power cuts {0[power cuts]}; calls over a file in use {0[in use]}
  not answered, and done {0[cut off and done]}; not answered, and not done {0[cut off]}
wrong {wrong}"""


class Count(collections.Counter):
    """What was done so far."""

    def add(self, *names):
        for name in names:
            if name:
                self[name] += 1

    def answered(self, saying, reply, is_kept):
        """One command was answered so; whether nothing changed with it."""
        self.add("commands")
        if reply is None:
            self.add("shown")
        elif hasattr(reply, "number"):
            self.add("refused", f"refused {reply.number}")
        else:
            self.add("given again" if is_kept else "acted")
            kind = reply[2][0] + (reply[2][2] if reply[2][0] == "B" else "") if reply[0] == "moved" else reply[0]
            self.add("" if is_kept else f"made {kind}")


class Planner:
    """Plans the lives of a file, one after another, by chance."""

    def __init__(self, chance, spoil):
        self.chance, self.spoil = chance, spoil
        self.office = Office(chance)
        self.has_cuts = spoil == "no-syncs" or (chance.random() < 0.2 and not spoil)

    def life(self, desk, number):
        """The next life of a file in which this desk stands."""
        life = self.first(desk) if number == 0 else self.later(desk)
        if number or self.chance.random() < 0.5:
            self.end(life, len(desk.recovery()) - 1)
        if self.has_cuts:
            life["cut"] = self.chance.randrange(1 << 30) if self.chance.random() < 0.3 else -1
        if self.spoil not in (None, "no-syncs") and number > 2 and life["do"] in ("run", "serve"):
            life["spoil"] = self.spoil
            if self.spoil == "lose-event":
                life.update({"env": {}, "end": "kill"})
        return life

    def first(self, desk):
        if self.chance.random() < 0.3:
            rows = [fields_of(row) for row in self.office.rows(desk, True)]
            return {"do": "load", "name": "first", "records": [HEADING, *rows]}
        lines, ready = self.office.lines(desk), desk.copy()
        for line in lines:
            answer(ready, line)
        later = self.run(ready, 8)
        return {"do": "run", "bursts": [lines, *later["bursts"]]}

    def later(self, desk):
        do = self.chance.choices(("run", "serve", "recover", "load", "report"), (45, 40, 5, 5, 5))[0]
        ready = desk.recovery()[-1].copy()
        # now and then so many that the log is copied into the file meanwhile
        size = 300 if self.chance.random() < 0.02 else self.chance.choice((1, 5, 10, 15, 20, 30, 60))
        if do == "run":
            return self.run(ready, size)
        if do == "serve":
            return self.serve(ready, size)
        if do == "load":
            bad = self.chance.random() < 0.3
            records = self.office.bad_records(desk) if bad else [HEADING, *map(fields_of, self.office.rows(desk))]
            return {"do": "load", "name": self.office.name(desk), "records": records}
        words = ["stock", "unfinished", f"history {self.office.identity(desk)}", "migrate" if desk.events else "stock"]
        return {"do": do if do == "recover" else self.chance.choice(words)}

    def sizes(self, size):
        """Sizes of bursts that are so many together."""
        while size > 0:
            burst = min(size, 1 if self.chance.random() < 0.8 else self.chance.randint(2, 6))
            yield burst
            size -= burst

    def run(self, desk, size):
        bursts = []
        for count in self.sizes(size):
            bursts.append([])
            for _ in range(count):
                bursts[-1].append(self.office.line(desk))
                answer(desk, bursts[-1][-1])
        return {"do": "run", "bursts": bursts}

    def serve(self, desk, size):
        count = self.chance.choice((1, 1, 2, 3, 5))
        return {"do": "serve", "connections": [self.connection(desk, max(1, size // count)) for _ in range(count)]}

    def connection(self, desk, size):
        """What is said over one connection, up to the first that closes it."""
        end = self.chance.choices(("close", "half", "cut", "reset"), (60, 15, 12, 13))[0]
        bursts = []
        for count in self.sizes(size):
            bursts.append([])
            for _ in range(count):
                saying = self.office.said(desk)
                bursts[-1].append(saying)
                answer(desk, saying)
                if saying.get("closes"):
                    return {"bursts": bursts, "end": "closed"}
        connection = {"bursts": bursts, "end": end, "early": self.chance.random() < 0.3}
        if self.chance.random() < 0.05:
            connection["intrude"] = self.chance.choice(("recover", "stock"))
        if end == "cut":
            text = self.office.said(desk)["text"]
            connection["cut"] = text[: self.chance.randrange(1, len(text))]
        return connection

    def end(self, life, recovered):
        """How the life ends: in order, or killed at a call or after a while, or with calls that fail."""
        roll, count = self.chance.random(), self.place_in(life, 100 + 7 * recovered, 7)
        if roll < 0.3:
            life["env"] = {"KILL": count, "TEAR": str(self.chance.choice((0, 0, 100, 512, 4096)))}
        elif roll < 0.42:
            life["env"] = {"FAIL": count, "ERROR": self.chance.choice(ERRORS)}
            if self.chance.random() < 0.4:
                life["env"]["THEN"] = self.chance.choice(("1", "2", "3", "6", "all"))
        elif roll < 0.47 and not self.has_cuts:
            life["env"] = {"REFUSE": self.place_in(life, 6300 + 200 * recovered, 200)}
        elif roll < 0.57 and life["do"] in ("run", "serve"):
            # a kill that waits for a time, or for no answer, may come between a call and its note
            if not self.has_cuts:
                life["end"] = self.chance.choice(("kill", self.chance.random() / 300))
            elif life.get("connections", [{"end": "close"}])[-1]["end"] != "reset":
                life["end"] = "kill"

    def place_in(self, life, opening, each):
        """The number of a call or an allocation, of which an opening makes about so many, and each saying so many."""
        sayings = sum(map(len, bursts_of(life)))
        is_early = self.chance.random() < 0.3
        later = opening + self.chance.randint(0, each * (sayings + 3))
        return str(self.chance.randint(1, opening) if is_early else later)

    def lived(self, talk):
        """What was not answered is asked again, until it is."""
        for agent in self.office.agents:
            mine = [saying for saying in talk.left if saying.get("means", [""])[:2] == ["ask", agent.name]]
            waiting = {saying["text"]: saying for saying in agent.waiting + mine if saying["text"] not in talk.done}
            agent.waiting = list(waiting.values())


class Soak:
    """Files one after another, each with lives of its own, until so many commands were answered."""

    def __init__(self, words, folder):
        self.words, self.folder, self.count, self.wrong = words, folder, Count(), []

    def place(self, count, name="file"):
        share, has_syncs = self.words.looks, self.words.spoil != "no-syncs"
        chance = random.Random(1)
        return Place(f"{self.folder}/{name}", self.folder, count, chance, share, self.words.blind, has_syncs)

    def run(self):
        number = self.words.file or 1
        most_wrong, began, told = 1 if self.words.spoil else MOST_WRONG, time.monotonic(), 0
        while self.count["commands"] < self.words.count and len(self.wrong) < most_wrong:
            self.file(number)
            number += 1
            spent = time.monotonic() - began
            if self.words.file or spent > 60 * self.words.minutes:
                break
            if self.count["commands"] - told >= TOLD:
                told = self.count["commands"]
                print(f"soak.py: {told} commands, {len(self.wrong)} wrong, {spent:.0f} s", file=sys.stderr, flush=True)

    def file(self, number):
        """One file from its first life to its last."""
        chance = random.Random(f"{self.words.seed}/{number}")
        planner, place, script = Planner(chance, self.words.spoil), self.place(self.count), []
        size = min(chance.choice((30, 60, 120, 120, 250, 500, 1000)), max(30, self.words.count // 5))
        most = min(self.count["commands"] + size, self.words.count)
        self.count.add("files")
        try:
            while self.count["commands"] < most and len(script) < 400:
                script.append(planner.life(place.desks[0], len(script)))
                planner.lived(place.live(script[-1]))
            script.append({"do": "recover", **({"cut": -1} if planner.has_cuts else {})})
            place.live(script[-1])
            fault = place.desks[0].by_events()
            if fault:
                raise Wrong(f"the plain desk kept what its events do not give: {fault}")
        except Wrong as wrong:
            self.failed(number, script, str(wrong))

    def failed(self, number, script, wrong):
        """Says what is wrong, and writes the shortest script that still shows it."""
        self.wrong.append(wrong)
        where = f"seed {self.words.seed}, file {number}, life {len(script)}, after {self.count['commands']} commands"
        if self.words.spoil:
            print(f"soak.py: {where}: {wrong}", file=sys.stderr)
            return
        script, told = self.shrunk(script, wrong)
        path = f"{self.words.keep}/soak-{self.words.seed}-{number}.json"
        Path(path).write_text("[\n" + ",\n".join(map(json.dumps, script)) + "\n]\n", encoding="ascii")
        print(f"soak.py: {where}: {wrong}", file=sys.stderr)
        print(f"  repeat the file: ./soak {self.words.seed} 1000000 --file {number}", file=sys.stderr)
        print(f"  repeat {len(script)} lives of it ({told}): ./soak --repeat {path}", file=sys.stderr, flush=True)

    # Scripts.

    def fault(self, script):
        """What is wrong with a script, or nothing; in how many lives it was shown."""
        place = self.place(Count(), "again")
        for number, life in enumerate(script, 1):
            try:
                place.live(life)
            except Wrong as wrong:
                return str(wrong), number
        return "", len(script)

    def shrunk(self, script, wrong):
        """The script with whatever may be left out, and what is wrong with it."""
        until = time.monotonic() + PATIENCE_TO_SHRINK
        found, lives = self.fault(script)
        if not found:
            return script, "once more it is not wrong: it hangs on time"
        script, wrong = script[:lives], found
        for parts in (lives_in, sayings_in):
            at = len(parts(script))
            while at > 0 and time.monotonic() < until:
                at -= 1
                less = without(script, parts, at)
                found, lives = self.fault(less)
                if found:
                    script, wrong = less[:lives], found
                    at = min(at, len(parts(script)))
        return script, wrong

    def repeat(self, script):
        """Repeats a script, and says what is said in it."""
        place = self.place(self.count)
        for number, life in enumerate(script, 1):
            told = {name: value for name, value in life.items() if name not in ("bursts", "connections")}
            print(f"life {number}: {json.dumps(told)}")
            for saying in (one for burst in bursts_of(life) for one in burst):
                print(f"  {saying['text'][:400]!r}")
            try:
                place.live(life)
            except Wrong as wrong:
                print(f"  wrong: {wrong}")
                return 1
            desk = place.desks[0]
            print(f"  then: {len(desk.events)} events, {len(desk.journeys)} journeys, {len(desk.kept)} kept replies")
        return 0

    def summary(self):
        def told(prefix, form="{} {}"):
            """What was counted by names that begin so, refusals in the order of their numbers."""
            names = sorted((it[len(prefix):] for it in self.count if it.startswith(prefix)), key=lambda it: (it.isdigit() and int(it), it))
            return ", ".join(form.format(name, self.count[prefix + name]) for name in names)
        print(SUMMARY.format(self.count, seed=self.words.seed, wrong=len(self.wrong), lives=told("life of "), made=told("made "),
                             refusals=told("refused ", "{}: {}"), faults=told("fault ", "fault {}: {}")))


def bursts_of(life):
    return life.get("bursts", []) + [burst for one in life.get("connections", []) for burst in one["bursts"]]


def lives_in(script):
    return [(script, n) for n in range(len(script))]


def sayings_in(script):
    return [(burst, n) for life in script for burst in bursts_of(life) for n in range(len(burst))]


def without(script, parts, at):
    """A copy of the script without the part at this place."""
    copy = json.loads(json.dumps(script))
    found = parts(copy)
    owner, n = found[at]
    del owner[n]
    return copy


def words_of():
    words = argparse.ArgumentParser(prog="./soak", description=__doc__, formatter_class=argparse.RawDescriptionHelpFormatter)
    words.add_argument("seed", nargs="?", metavar="SEED", help="any word or number")
    words.add_argument("count", nargs="?", metavar="COUNT", type=int, help="about how many commands")
    words.add_argument("--file", metavar="N", type=int, help="only the N-th file of this seed")
    words.add_argument("--repeat", metavar="SCRIPT", help="the lives of a script that a failure wrote")
    words.add_argument("--spoil", choices=SPOILS, help="the file is spoiled on purpose between two lives")
    words.add_argument("--blind", action="store_true", help="files are not looked at: the answers have to show all")
    words.add_argument("--keep", metavar="FOLDER", default=".", help="where scripts of failures go")
    words.add_argument("--minutes", metavar="N", type=float, default=math.inf, help="it ends with the file at which so many "
                       "minutes have gone, if that comes first")
    words.add_argument("--trial", action="store_true", help="a trial program too; --looks is 0.2 then")
    words.add_argument("--looks", metavar="SHARE", type=float, help="after so many of the lives the reports of a "
                       "copy are compared too: 1 is each, 0.1 every tenth; the rows always are")
    found = words.parse_args()
    if found.looks is None:
        found.looks = 0.2 if found.trial else 1.0
    if not 0 <= found.looks <= 1:
        words.error("--looks is from 0 to 1")
    if (found.count is None) == (found.repeat is None):
        words.error("SEED and COUNT, or --repeat SCRIPT")
    return found


def main():
    words = words_of()
    words.keep = os.path.abspath(words.keep)
    for number in (signal.SIGHUP, signal.SIGINT, signal.SIGTERM):
        signal.signal(number, lambda number, _: sys.exit(128 + number))
    if not words.trial and "/out/trial/" in DESK:
        print("soak.py: this is a trial program, which is slow; --trial takes it", file=sys.stderr)
        sys.exit(2)
    folder = tempfile.mkdtemp(prefix="soak-", dir="/dev/shm" if os.access("/dev/shm", os.W_OK) else None)
    try:
        for name in ("calls", "refuse"):
            source = Path(__file__).with_name(f"{name}.c")
            subprocess.run(["cc", "-O1", "-shared", "-fPIC", "-o", f"{folder}/{name}.so", source, "-ldl"], check=True)
        soak = Soak(words, folder)
        if words.repeat:
            sys.exit(soak.repeat(json.loads(Path(words.repeat).read_text(encoding="ascii"))))
        soak.run()
        soak.summary()
    finally:
        shutil.rmtree(folder, ignore_errors=True)
    sys.exit(1 if soak.wrong else 0)


main()
