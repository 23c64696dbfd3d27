"""What one gate tries: every proof of the program, and of the tests, the mutants and the long scripts what has changed and
whose turn it is.

Whether a mutant is refused, and whether a test is proved, depends on nothing but the sources of its crate, of those below,
and the toolchain. So what has changed comes first, and everything else comes by turns of landings.
"""

from dataclasses import dataclass, field

from changes import Unknown, changed_crates, changed_mutants
from tables import LAST_CHECK
from turns import mutant_turns, mutants_in, part_of_script, share_of, test_turns

# The minutes of each processor that mutants, and crates of tests, of what has changed may take beyond the turn's share.
CHANGED_MINUTES = 4
# The crates up to which a first look proves, the core and the tests of its lower crates; and the minutes over a trial program below which it takes a script.
CORE, SHORT = ("saga_core", "plan_tests", "command_tests"), 1.5


@dataclass
class Choice:
    """What a gate tries."""

    # the crates that are proved, and whose tests are
    crates: list = field(default_factory=list)
    # of each crate the paths of the mutants
    mutants: dict = field(default_factory=dict)
    # of each script its part (K, N)
    scripts: dict = field(default_factory=dict)
    # the crates with a source that has changed, and how many steps the others are above one
    changed: set = field(default_factory=set)
    above: dict = field(default_factory=dict)
    # whether this is the whole run, which goes on where one before was ended
    is_whole: bool = False
    # whether the scripts run over a trial program, which is compiled without its proofs
    over_trial: bool = False

    def first_crates(self, tables):
        """Returns the core, for which nearly all other crates wait, so that a run of `rt ci` of its own proves it while that of all crates
        still reads their sources. In a first look there is nothing above."""
        return [] if self.over_trial or CORE[0] not in self.crates else tables.below(CORE[0])


def everything(tables):
    """Returns the choice of the whole run."""
    scripts = {name: (1, 1) for name in tables.scripts}
    mutants = {name: found for name, found in tables.mutants.items() if found}
    return Choice([*tables.uses], mutants, scripts, is_whole=True)


def first_look(tables):
    """Returns the choice of a first look: the core with the tests of its lower crates, and the short scripts over a trial program."""
    scripts = {name: (1, 1) for name in tables.scripts if tables.script_over_trial(name) < SHORT}
    return Choice(tables.below(*(name for name in CORE if name in tables.uses)), scripts=scripts, over_trial=True)


def of_landing(tables, lanes, landing, since):
    """Returns what a gate with so many checks side by side tries at a landing, whose changes are those since a revision."""
    choice = Choice()
    try:
        choice.changed, changed = (changed_crates(tables, since), changed_mutants(tables.top, since)) if since else (set(), set())
    except Unknown:
        # history lacks the revision
        choice.changed, changed = {*tables.uses}, set()
    choice.above = tables.above(choice.changed)
    choice.crates = crates_of(tables, lanes, landing, choice)
    for part in share_of(mutant_turns(tables, lanes), landing):
        choice.mutants.setdefault(part[0], []).extend(mutants_in(tables, part))
    add_changed_mutants(tables, lanes, landing, choice, changed)
    for name in tables.scripts:
        # in how many parts gates take it, one at each landing
        parts = max(1, int(tables.number(name, 1, 1.0)))
        choice.scripts[name] = (part_of_script(parts, landing), parts)
    return choice


def nearest_first(choice, names):
    """Returns the names that have changed or stand above such a crate, the changed ones first and then the nearest."""
    steps = {**choice.above, **{name: 0 for name in choice.changed}}
    return sorted((name for name in names if name in steps), key=lambda it: steps[it])


def crates_of(tables, lanes, landing, choice):
    """Returns the crates that are proved: all but those by turns whose turn it is not, and that a change does not bring."""
    by_turns = tables.by_turns()
    taken, left = set(share_of(test_turns(tables, lanes), landing)), CHANGED_MINUTES * lanes
    for name in nearest_first(choice, by_turns):
        minutes = tables.proof(name) + tables.tests(name)
        if name not in taken and minutes <= left:
            left -= minutes
            taken.add(name)
    return [name for name in tables.uses if name not in by_turns or name in taken]


def add_changed_mutants(tables, lanes, landing, choice, changed):
    """Adds the mutants that have changed, those of crates that have, and those of the crates above, as far as their minutes go."""
    left = CHANGED_MINUTES * lanes
    own = [(name, [it for it in found if it in changed]) for name, found in tables.mutants.items()]
    for name, wanted in own + [(name, tables.mutants[name]) for name in nearest_first(choice, tables.uses)]:
        tried = choice.mutants.get(name, [])
        # the list begins elsewhere at each landing
        first = 7 * landing % max(1, len(wanted))
        wanted = [it for it in wanted[first:] + wanted[:first] if it not in tried]
        begin = 0 if tried else tables.proof(name) + LAST_CHECK
        count = min(len(wanted), int((left - begin) / (tables.mutant(name) or 1)))
        if count > 0:
            left -= begin + count * tables.mutant(name)
            choice.mutants[name] = tried + wanted[:count]
