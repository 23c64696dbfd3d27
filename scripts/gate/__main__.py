"""The gate: proves all that it chooses by `rt ci`, tries mutants and runs the scripts beside it, and counts what passed.

python3 scripts/gate LANES [WORD ..]

LANES is the number of checks side by side, 0 for as many as fit; USAGE has the words. docs/GATE.md says what is chosen. Exit status: 0 all
has passed, 1 something failed, 2 wrong words, or another gate runs here.
"""

import os
import shutil
import sys
import time
from pathlib import Path

from alone import Busy, alone, ends_by_signals, undisturbed
from changes import Unknown, revision_of
from choice import everything, first_look, of_landing
from landings import add_landing, this_landing
from lanes import Fillers, end_group, lanes_now, reckoned
from proving import Proving, make_copy, pace_of_machine, wrongly_laid_out
from tables import Tables
from tasks import Results, all_tasks
from telling import tell_choice, tell_first_look, tell_fixed, tell_minutes, tell_turns

TOP = Path(__file__).resolve().parents[2]
# For how many seconds a processor is idle before a task fills it.
PAUSE = 3
USAGE = """usage: ./check [WORDS]
  ./check                    the gate: all proofs and scripts, and of tests and mutants what has changed and whose turn it is
  ./check --since REVISION   the same, as if what stands in this revision had landed
  ./check --quick            a first look: the core proved, with tests, and the short scripts over a trial program
  ./check --all              everything
  ./check --layout           names the sources that `rt fmt` lays out differently, in seconds; nothing is proved
  ./check --turns            says at which landing each crate has its turn
  ./check --landing          adds the line of a landing to docs/landings.tsv
docs/RUNNING.md says how long each takes"""


def say(text):
    print(f"check: {text}", flush=True)


class Gate:
    """One run of the gate."""

    def __init__(self, tables, lanes):
        self.tables, self.lanes = tables, lanes
        self.copy, self.first_copy, self.heard = TOP / "out/gate", TOP / "out/gate.first", TOP / "out/gate.said"
        self.began = time.time()
        self.results = Results(say)
        self.proving = self.first = self.fillers = None
        self.kept = set()

    def run(self, choice):
        """Tries all that was chosen, and returns whether everything passed."""
        tasks = all_tasks(self, choice, self.results)
        # the scripts of a first look need not wait for proofs
        proving = self.lanes - 1 if choice.over_trial and self.lanes > 2 else self.lanes
        if not is_laid_out(self.tables, self.lanes):
            return False
        pace = pace_of_machine(self.tables, self.lanes)
        minutes = reckoned(tasks, self.lanes, proving) * pace
        say(f"this takes about {minutes:.0f} minutes, with {self.lanes} checks side by side; a minute of the table takes {pace:.2f} here")
        make_copy(self.tables, choice.crates, self.copy)
        self.heard.mkdir(exist_ok=True)
        first = choice.first_crates(self.tables)
        if first:
            make_copy(self.tables, first, self.first_copy)
            with undisturbed():
                self.first = Proving(self.first_copy, proving, shared=True)
        with undisturbed():
            self.proving = Proving(self.copy, proving, nice=5 if first else 0)
        self.fillers = Fillers([it for it in tasks if it.fills], self.heard, self.lanes)
        self.wait()
        tell_minutes({**self.proving.minutes(), **(self.first.minutes() if self.first else {})}, say)
        say(f"this took {(time.time() - self.began) / 60:.0f} minutes, and was reckoned {minutes:.0f}")
        is_proved, passed = self.proving.status() == 0, self.results.tell(self.fillers.waiting)
        if choice.over_trial:
            tell_first_look(self.tables, choice, is_proved, self.results, say)
        return is_proved and passed

    def wait(self):
        """Waits until all has ended, and begins what fills the processors that `rt ci` leaves free."""
        busy_at = 0.0
        while True:
            has_ended, busy = self.proving.has_ended(), self.proving.look()
            if self.first and not self.first.has_ended():
                self.first.look()
                busy = self.lanes
            done = self.done(has_ended)
            if busy + len(self.fillers.running) >= self.lanes:
                busy_at = time.monotonic()
            # between two checks `rt ci` works for a moment by itself
            is_idle = has_ended or time.monotonic() - busy_at > PAUSE
            self.fillers.look(done, self.lanes - busy if is_idle else 0)
            if has_ended and not self.fillers.running:
                return
            time.sleep(0.5)

    def done(self, has_ended):
        """Returns what `rt ci` has done, once the programs that it built stand where the scripts look for them."""
        done = {*self.proving.done}
        if has_ended and self.proving.status() == 0:
            # it does not say of tests that they were proved by an earlier run
            done |= {(name, kind) for name in self.tables.uses for kind in ("proof", "tests")}
        for name, kind in done - self.kept:
            self.keep_program(name, name if kind == "proof" else f"{name}_tests")
        self.kept |= done
        return done

    def keep_program(self, name, program):
        """Copies a program that `rt ci` built to where the scripts look for it, as old as the sources that it was built from."""
        made, to = self.copy / "crates" / name / "out" / program, TOP / "crates" / name / "out"
        if made.is_file():
            to.mkdir(exist_ok=True)
            shutil.copy2(made, to / f".{program}")
            os.utime(to / f".{program}", (self.began, self.began))
            (to / f".{program}").replace(to / program)

    def end(self):
        """Ends what runs, and removes what this run has made."""
        if self.fillers:
            self.fillers.end()
        for run in (self.first, self.proving):
            if run and not run.has_ended():
                end_group(run.process)
        for made in (self.first_copy, self.copy, self.heard):
            shutil.rmtree(made, ignore_errors=True)


def is_laid_out(tables, lanes):
    """Returns whether the sources of all crates are laid out as `rt fmt` does it, and names those that are not."""
    odd = wrongly_laid_out(tables, lanes)
    for found in odd:
        say(found)
    if odd:
        say("lay out the sources of a crate by 'rt fmt' in its folder")
    return not odd


def choose(tables, lanes, words):
    """Returns what a run with these words tries."""
    if words in (["--all"], ["--quick"]):
        choice = everything(tables) if words == ["--all"] else first_look(tables)
        tell_fixed(tables, choice, say)
        return choice
    number, since = this_landing(TOP, say)
    if words:
        since = revision_of(TOP, words[1])
    choice = of_landing(tables, lanes, number, since)
    tell_choice(tables, lanes, number, since, choice, say)
    return choice


def main(words):
    lanes, words = int(words[0]) or lanes_now(), words[1:]
    tables = Tables(TOP)
    if words == ["--layout"]:
        ends_by_signals()
        if not is_laid_out(tables, lanes):
            return 1
        say(f"the sources of {len(tables.uses)} crates are laid out as rt fmt does it")
        return 0
    if words == ["--turns"]:
        return tell_turns(tables, lanes, this_landing(TOP, say)[0], say)
    if words == ["--landing"]:
        return add_landing(TOP, say)
    if words[:1] not in ([], ["--all"], ["--quick"], ["--since"]) or len(words) != (2 if words[:1] == ["--since"] else len(words[:1])):
        print(USAGE, file=sys.stderr)
        return 2
    gate = Gate(tables, lanes)
    try:
        with alone(TOP / "out/gate.lock"):
            try:
                return 0 if gate.run(choose(tables, lanes, words)) else 1
            finally:
                gate.end()
    except Busy:
        say("another ./check runs here")
    except Unknown as error:
        say(f"git cannot tell: {error}")
    return 2


if __name__ == "__main__":
    sys.exit(main(sys.argv[1:]))
