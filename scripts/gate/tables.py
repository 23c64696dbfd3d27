"""What the gate knows beforehand: the crates of crates.txt, the minutes of docs/minutes.tsv, the mutants and the scripts."""

import sys
from pathlib import Path

# The minutes of what has no row in docs/minutes.tsv: a proof, a mutant, a script.
PROOF, MUTANT, SCRIPT = 2.0, 0.1, 0.1
# The check of the unedited crate after its mutants, in minutes.
LAST_CHECK = 0.3
# How much longer a script takes over a trial program, where that was not seen.
SLOWER = 1.7


class Tables:
    """The tables of one repository, read once."""

    def __init__(self, top):
        self.top = Path(top)
        self.uses, self.depends = read_crates(self.top / "crates.txt")
        self.rows = read_minutes(self.top / "docs/minutes.tsv")
        self.mutants = {name: self._mutants_of(name) for name in self.uses}
        self.scripts = sorted(path.name for path in (self.top / "tests").glob("*.sh"))

    def _mutants_of(self, name):
        """Returns the paths of a crate's mutants: the telling ones, and the others."""
        folder = self.top / "crates" / name
        found = [*folder.glob("must-fail/*.edit"), *folder.glob("mutants/*.edit")]
        return sorted((path.relative_to(self.top).as_posix() for path in found), key=lambda it: (it.rsplit("/", 1)[1], it))

    def below(self, *names):
        """Returns these crates and all that they stand on, lowest first."""
        wanted = {*names}
        for name in reversed(self.uses):
            if name in wanted:
                wanted.update(self.uses[name])
        return [name for name in self.uses if name in wanted]

    def above(self, names):
        """Returns the crates that stand on one of these, with how many steps above it each is."""
        steps = {name: 0 for name in names}
        for name in self.uses:
            near = [steps[used] + 1 for used in self.uses[name] if used in steps]
            if near and name not in steps:
                steps[name] = min(near)
        return {name: step for name, step in steps.items() if step}

    def program(self):
        """Returns the crates of the program."""
        return self.below("desk")

    def by_turns(self):
        """Returns the crates that a gate may leave out until their turn: those of tests, and the program that measures."""
        return [name for name in self.uses if name.endswith("_tests") or name == "bench"]

    def number(self, name, column, unknown):
        """Returns a number of the table: `unknown` without a row, 0 for '-'."""
        row = self.rows.get(name)
        return unknown if row is None else row[column]

    def proof(self, name):
        return self.number(name, 0, PROOF)

    def tests(self, name):
        return self.number(name, 1, 0.0)

    def mutant(self, name):
        """Returns the minutes of one mutant of a crate, where many are tried in one check."""
        count = len(self.mutants[name])
        return (self.number(name, 2, 0.0) / count or MUTANT) if count else 0.0

    def script(self, name):
        return self.number(name, 0, SCRIPT)

    def script_over_trial(self, name):
        return self.number(name, 2, 0.0) or SLOWER * self.script(name)


def crate_lines(text):
    """Returns, from the text of crates.txt, what each crate stands on, of this repository and of the kit."""
    lines = {}
    for line in text.splitlines():
        head, colon, tail = line.partition("#")[0].partition(":")
        if colon:
            lines[head.split()[0]] = tail.split()
    return lines


def read_crates(path):
    """Reads crates.txt, whose lines stand lowest first: returns what each crate stands on of this repository, and its whole line."""
    lines, uses = crate_lines(path.read_text(encoding="utf-8")), {}
    for name, depends in lines.items():
        uses[name] = [used for used in depends if used in lines]
        if not uses.keys() >= {*uses[name]}:
            sys.exit(f"crates.txt: {name} stands above a crate that it stands on")
    return uses, lines


def read_minutes(path):
    """Reads the table: of each name the three numbers of its row, 0 for '-'."""
    rows = {}
    for line in path.read_text(encoding="utf-8").splitlines():
        words = line.split("\t")
        if not line.startswith("#") and len(words) == 4 and words[0] != "crate":
            rows[words[0]] = [0.0 if word == "-" else float(word) for word in words[1:]]
    return rows
