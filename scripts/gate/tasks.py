"""The tasks of a gate: the proofs and tests that `rt ci` makes, and the mutants and scripts that are tried beside it."""

import subprocess
import sys
from functools import partial
from math import ceil
from pathlib import Path

from lanes import Task
from tables import LAST_CHECK
from tried import Tried
from turns import LONGEST

# The scripts that do not drive the program, and so need not wait for it.
WITHOUT_PROGRAM = {f"{it}.sh" for it in ("build", "gate", "layout", "memory_of_crates", "mutants", "parts", "pictures", "spoiled")}
# The scripts that run programs of the crates' tests, and the crate, or none where they take all that this gate has built.
OVER_TESTS = {"memory_of_crates.sh": None, "spoiled.sh": "fault_tests"}
# The script that has a trial program compiled, which takes as much memory as a proof.
COMPILES = "trial.sh"
# The part of a shell's script that knows trial programs; its first argument is the top of the repository.
TRIAL = """
top=$1
say() { printf 'check: %s\\n' "$*"; }
for file in program needs trial; do . "$top/scripts/$file.bash"; done
trap 'exit 143' TERM
"""
# The rows of docs/minutes.tsv for what `rt ci` does before its first proof, and for its runs of programs and tests at its end.
READING, RUNNING = "(reading)", "(running)"


def all_tasks(gate, choice, results):
    """Returns the tasks of a choice."""
    trial = Task(("trial", "program"), gate.tables.number("(trial)", 0, 2.0), fills=True, proves=True, yields=True)
    trial.words, trial.ended = ["bash", "-c", f"{TRIAL} trial_program", "", str(gate.tables.top)], results.trial_ended
    filling = [trial] * choice.over_trial + mutant_tasks(gate, choice, results) + script_tasks(gate, choice, results)
    return proving_tasks(gate.tables, choice) + filling


def proving_tasks(tables, choice):
    """Returns what `rt ci` does."""
    tasks, first = [Task(("rt", "reading"), tables.number(READING, 0, 1.0))], choice.first_crates(tables)
    for name in choice.crates:
        waits = [("rt", "reading")] * (name not in first) + [(used, "proof") for used in tables.uses[name]]
        tasks.append(Task((name, "proof"), tables.proof(name), waits))
        if tables.tests(name):
            tasks.append(Task((name, "tests"), tables.tests(name), waits))
    return tasks + [Task(("rt", "running"), tables.number(RUNNING, 0, 1.0), [it.name for it in tasks])]


def trial_file(tables):
    """Returns where the trial program of these sources stands."""
    words = ["bash", "-c", f"{TRIAL} trial_file", "", str(tables.top)]
    return subprocess.run(words, capture_output=True, text=True, check=True).stdout.strip()


def mutant_tasks(gate, choice, results):
    """Returns the tries of mutants, each once its crate is proved."""
    tables, tasks = gate.tables, []
    tried = Tried(tables, tables.top / "out/tried") if choice.is_whole else None
    for name, mutants in side_by_side(tables, choice):
        if tried and tried.has(name, mutants):
            results.say(f"{len(mutants)} mutants of {name}: each rejected by an earlier run over the same sources")
            results.rejected += len(mutants)
            continue
        minutes = tables.proof(name) + LAST_CHECK + len(mutants) * tables.mutant(name)
        script = [sys.executable, "-B", str(tables.top / "scripts/mutants.py"), "--libraries", str(gate.copy), name]
        task = Task((name, "mutants", Path(mutants[0]).stem), minutes, [(name, "proof")], fills=True, proves=True, yields=True)
        task.words, task.ended = script + [Path(it).name for it in mutants], partial(results.mutants_ended, name, mutants, tried)
        tasks.append(task)
    return tasks


def side_by_side(tables, choice):
    """Returns the mutants of each crate, in parts where they would take longer than one part may."""
    for name, mutants in choice.mutants.items():
        parts = max(1, ceil(len(mutants) * tables.mutant(name) / LONGEST))
        yield from ((name, mutants[k::parts]) for k in range(parts))


def script_tasks(gate, choice, results):
    """Returns the runs of the scripts, each once what it drives is built."""
    tables, tasks = gate.tables, []
    tested = [name for name in choice.crates if tables.tests(name)]
    share = sum(map(tables.tests, tested)) / (sum(map(tables.tests, tables.uses)) or 1)
    program, ready, minutes = tables.top / "crates/desk/out/desk", ("desk", "proof"), tables.script
    if choice.over_trial:
        program, ready, minutes = trial_file(tables), ("trial", "program"), tables.script_over_trial
    for name, (part, parts) in choice.scripts.items():
        apart, compiles = name in WITHOUT_PROGRAM, name == COMPILES
        task = Task((name, "script"), minutes(name) / parts, [ready] * (not apart), fills=True, proves=compiles, yields=apart or compiles)
        if name in OVER_TESTS:
            task.minutes *= share if OVER_TESTS[name] is None else OVER_TESTS[name] in tested
            task.waits += [(it, "tests") for it in tested if OVER_TESTS[name] in (None, it)]
        task.words, task.ended = ["bash", str(tables.top / "tests" / name)], partial(results.script_ended, name)
        task.environment = {"DESK": str(program), "TESTED": " ".join(tested)}
        if parts > 1:
            task.environment["PART"] = f"{part}/{parts}"
        tasks.append(task)
    return tasks


class Results:
    """What the mutants and the scripts came to, told as it comes and counted at the end."""

    def __init__(self, say):
        self.say = say
        self.rejected, self.failed_mutants = 0, []
        self.passed, self.failed, self.skipped, self.left_out = [], [], [], []

    def mutants_ended(self, name, mutants, tried, status, heard, seconds):
        """Takes in the end of a try of mutants of a crate, and notes it where a whole run is to go on."""
        print(heard, end="", flush=True)
        self.say(f"{len(mutants)} mutants of {name}: {'each rejected' if status == 0 else 'FAILED'}, {seconds / 60:.1f} minutes")
        if status != 0:
            self.failed_mutants.append(name)
            return
        self.rejected += len(mutants)
        if tried:
            tried.add(name, mutants)

    def trial_ended(self, status, heard, seconds):
        """Takes in the end of making the trial program."""
        print(heard, end="", flush=True)
        self.say(f"the trial program {'is made' if status == 0 else 'FAILED'}, {seconds / 60:.1f} minutes")

    def script_ended(self, name, status, heard, seconds):
        """Takes in the end of a script. One that lacks a tool, or whose turn it is not, says so in a line of its own."""
        print(heard, end="", flush=True)
        is_said = lambda word: any(line.startswith(f"{name}: {word}") for line in heard.splitlines())
        if status != 0:
            self.failed.append(name)
            self.say(f"tests/{name} FAILED")
        elif is_said("skipped"):
            self.skipped.append(name)
            self.say(f"tests/{name} was skipped")
        elif is_said("left out until its turn"):
            self.left_out.append(name)
        else:
            self.passed.append(name)
        self.say(f"tests/{name} took {seconds:.0f} s")

    def tell(self, not_begun):
        """Says what all came to, and returns whether everything passed."""
        for task in not_begun:
            self.say(f"{' '.join(task.name)} could not begin")
        if self.rejected or self.failed_mutants:
            told = f"mutants: {self.rejected} rejected"
            self.say(told + (f", FAILED: {' '.join(self.failed_mutants)}" if self.failed_mutants else ""))
        if self.left_out:
            self.say(f"scripts left out until their turn: {' '.join(self.left_out)}")
        print(f"{len(self.passed)} passed, {len(self.failed)} failed, {len(self.skipped)} skipped", flush=True)
        return not (not_begun or self.failed_mutants or self.failed)
