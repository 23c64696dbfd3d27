"""What a gate says beforehand: what it tries, and when what it leaves out has its turn."""

from turns import landing_of, mutant_turns, test_turns


def counted(tables, mutants):
    """Returns of each crate how many of its mutants these are, as words."""
    return ", ".join(f"{name} {len(found)} of {len(tables.mutants[name])}" for name, found in mutants.items()) or "none"


def named(part):
    """Returns the words for a part (NAME, K, N) of a crate's mutants."""
    name, k, n = part
    return name if n == 1 else f"{name} ({k} of {n})"


def tell_choice(tables, lanes, number, since, choice, say):
    """Says what a landing tries, and of what it leaves out when that has its turn."""
    changed = " ".join(name for name in tables.uses if name in choice.changed) or "no crate"
    say(f"landing {number}, compared with {since[:8] or 'nothing'}: sources changed in {changed}")
    say(f"mutants: {sum(map(len, choice.mutants.values()))} of {sum(map(len, tables.mutants.values()))}: {counted(tables, choice.mutants)}")
    mutants, tests = mutant_turns(tables, lanes), test_turns(tables, lanes)
    say(f"a round of mutants takes {len(mutants)} landings, one of tests {len(tests)}")
    later = sorted((landing_of(mutants, part, number), named(part)) for share in mutants for part in share)
    say("mutants by turns, with the landing: " + ", ".join(f"{name} {at}" for at, name in later))
    left_out = [(landing_of(tests, name, number), name) for name in tables.uses if name not in choice.crates]
    say("left out until their turn: " + (", ".join(f"{name} {at}" for at, name in sorted(left_out)) or "no crate"))
    parts = {name: part for name, part in choice.scripts.items() if part[1] > 1}
    say("scripts in part: " + (", ".join(f"{name} {k} of {n}" for name, (k, n) in parts.items()) or "none"))


def tell_turns(tables, lanes, number, say):
    """Says when each crate has its turn, from a landing on."""
    mutants, tests = mutant_turns(tables, lanes), test_turns(tables, lanes)
    say(f"with {lanes} checks side by side a round of mutants takes {len(mutants)} landings, one of tests {len(tests)}")
    for at in range(number, number + max(len(mutants), len(tests))):
        tried = ", ".join(map(named, mutants[(at - 1) % len(mutants)]))
        say(f"landing {at}: mutants of {tried or 'no crate'}; {' '.join(tests[(at - 1) % len(tests)])}")
    return 0


def tell_minutes(minutes, say):
    """Says how many minutes each check of `rt ci` took, for docs/minutes.tsv."""
    told = sorted((name, kind, f"{taken:.1f}") for (name, kind), taken in minutes.items())
    say("minutes by the clock: " + ", ".join(f"{name} {kind} {taken}" for name, kind, taken in told))


def tell_fixed(tables, choice, say):
    """Says what a run tries whose choice does not depend on changes and turns."""
    mutants = sum(map(len, choice.mutants.values()))
    program = "a trial program, compiled without proofs" if choice.over_trial else "the program"
    say(f"proved, with their tests: {' '.join(choice.crates) or 'no crate'}; tried: {mutants} mutants")
    say(f"run over {program}: {' '.join(choice.scripts) or 'no script'}")
    say(f"left out: {not_tried(tables, choice)}")


def not_tried(tables, choice):
    """Returns the words for how much a choice leaves out."""
    crates, scripts = len(tables.uses) - len(choice.crates), len(tables.scripts) - len(choice.scripts)
    mutants = sum(map(len, tables.mutants.values())) - sum(map(len, choice.mutants.values()))
    return f"{crates} crates, {mutants} mutants, {scripts} scripts"


def tell_first_look(tables, choice, is_proved, results, say):
    """Says what a first look has proved, and what only ran."""
    proved = f"proved, with their tests: {' '.join(choice.crates)}" if is_proved else "NOT proved: what rt says above"
    ran = len(results.passed) + len(results.failed)
    say(f"{proved}. Only run, over a program without proofs: {ran} scripts. Left out: {not_tried(tables, choice)}. ./check is the gate")
