#!/usr/bin/env python3
"""Tries the mutants of a crate, wrong bodies that the prover must reject, many in one check.

    scripts/mutants.py [--alone] [--libraries FOLDER] [--results FILE] NAME [EDIT ..]

An EDIT is a file name in crates/NAME/must-fail or crates/NAME/mutants; none given: all of both. FOLDER is a copy of the
repository in which the libraries below the crate are built, this one by default (`./build --keep`). --alone tries each
alone, --results appends a line for each. The status is 0 if every mutant is rejected, 1 if not, 2 if nothing was tried.

Mutants share a check if each changes the body of one function in src/ and nothing else, and no two the same one. The prover
goes past failures there (`--allow-holes`): it checks a function against the contracts of those that it calls, whether these
are proved or not, and its line says what failed of its own. A mutant counts as rejected only if its function has an open goal or
a refused proof file of its own, and if nothing that was not changed fails by itself. This is sound since a proof sees of other
functions their contracts alone, which no such mutant changes. Everything else is tried alone: contracts, types, constants,
attributes, specs/ and proofs/, bodies that hold items, `const fn`, methods that a trait gives, bodies that name a further function
of the crate, functions that may call themselves through others, those whose proof files name another one's, and each mutant
that a shared check does not reject. One that is accepted over kept work is tried once more from nothing.
"""

import argparse
import re
import signal
import sys
import time
from pathlib import Path

TOP = Path(__file__).resolve().parents[1]
sys.path.insert(0, str(TOP / "scripts/gate"))

from edits import Stopped, changes, edits_of, function_of, functions_of, in_cycles, packed, rests_on_others, sources_of, texts_of  # noqa: E402
from prover import LOST_NAME, PLACE, Prover, is_proved, verdict  # noqa: E402
from tables import Tables  # noqa: E402

# What the line of a function says of others.
OF_OTHERS = re.compile(r"it (calls|passes|waits)\b|depends on a hole in ")
STANDS_ON = re.compile(r"it stands on `.*, which antt refuses")
VERDICTS = ("refused", "NOT REFUSED", "BAD MUTANT", "NOT TRIED")


def note(said):
    """Says how far it is."""
    print(f"mutants: {said}", file=sys.stderr, flush=True)


def proofs_of(path):
    """Returns how the names of the proof files of a function begin."""
    crate, _, rest = path.replace("::", ".").partition(".")
    return f"Rattle.{crate}.proofs.{rest}."


def is_of_others(path, part):
    """Returns whether this part of a function's line speaks of others: of one that it calls, or of refused proof files of theirs."""
    return f"`{proofs_of(path)}" not in part if STANDS_ON.match(part) else bool(OF_OTHERS.match(part))


def is_of_functions(part, folders):
    """Returns whether this part of an impl's line speaks of refused proof files of functions alone, which have lines of their own."""
    return bool(STANDS_ON.match(part)) and all(it.startswith(folders) for it in re.findall(r"`(.*?)`", part))


def failing(said):
    """Returns of each function, impl and type that fails by itself what its line says, without what it says of others."""
    found, lines = {}, re.findall(r"^(fn|impl|struct|enum|trait|law) (\S+): (?!(?:proved|no holes)$)(.*)$", said, re.M)
    folders = tuple(proofs_of(path) for kind, path, _ in lines if kind == "fn")
    for kind, path, why in lines:
        parts = re.sub(r"^(not proved; |no proof: )", "", why).split("; ")
        own = [it for it in parts if not is_of_others(path, it) and not (kind == "impl" and is_of_functions(it, folders))]
        if own:
            found[path] = "; ".join(own)
    return found


def judged(batch, functions, status, said, usual):
    """Returns why mutants of a batch are rejected, by their names: the first error of the function of each that fails by itself."""
    failed = failing(said)
    own = {it: of for _, of in batch for it in failed if it == of.path or it.startswith(of.closures)}
    if status != 1 or "\nholes=" not in said or failed.keys() != own.keys():
        return {}
    # those that fail for a goal of their own, or for a proof file of their own
    clear = {of for it, of in own.items() if failed[it] == "not proved" or "`search` did not prove" in failed[it] or STANDS_ON.search(failed[it])}
    errors = {}
    for place in [PLACE.match(it) for it in said.split("\n") if it not in usual and (it.startswith("note: ") or ": error" in it)]:
        if not place:
            continue
        of = next((it for it in functions.values() if place[1].startswith(it.folders) or place[1] == it.file and it.head <= int(place[2]) <= it.last + 1), None)
        if not of:
            return {}
        if not LOST_NAME.match(place[0]):
            errors.setdefault(of, place[0])
    return {edit.name: errors[of] for edit, of in batch if of in clear and of in errors}


def try_together(prover, said, edits):
    """Tries mutants in shared checks. Returns the number of checks, and why mutants are rejected, by their names."""
    sources, usual, reasons = sources_of(prover.crate), set(said.split("\n")), {}
    functions = functions_of(prover.name, sources, set(re.findall(r"^fn (\S+): proved$", said, re.M)))
    fit = [(edit, of) for edit in edits for of in [function_of(edit, functions, sources)] if of]
    apart = in_cycles(functions, sources) | {it.path for it in functions.values() if rests_on_others(prover.crate, it, functions)}
    batches = packed([(edit, of) for edit, of in fit if of.path not in apart])
    for batch in batches:
        began, texts = time.time(), {file: [*lines] for file, lines in sources.items()}
        for edit, _ in batch:
            for (file, at), line in changes(edit, sources).items():
                texts[file][at - 1] = line
        changed = {file: "\n".join(lines) for file, lines in texts.items() if lines != sources[file]}
        found = judged(batch, functions, *prover.check(changed, past_failures=True), usual)
        note(f"{prover.name}: {len(found)} of {len(batch)} rejected in one check, {time.time() - began:.0f} s")
        reasons.update(found)
    return len(batches), reasons


def try_alone(prover, edit):
    """Tries a mutant alone. Returns its verdict and the reason."""
    texts = texts_of(edit, prover.crate)
    if not texts:
        return "BAD MUTANT", "it cannot be applied, or changes nothing"
    tried = verdict(*prover.check(texts), texts)
    return tried if tried[0] in ("refused", "BAD MUTANT") else verdict(*prover.check(texts, from_nothing=True), texts)


def try_all(prover, edits, is_alone, kept):
    """Tries the mutants. Returns the number of shared checks, and of each mutant by its name the way, the verdict and the reason."""
    status, said = prover.begin(kept)
    if not is_proved(status, said):
        raise Stopped(f"{prover.name} is not proved as it stands: {said[-2000:]}")
    before = prover.listing()
    checks, reasons = try_together(prover, said, [] if is_alone else edits)
    told = {name: ("together", "refused", why) for name, why in reasons.items()}
    told.update({edit.name: ("alone", *try_alone(prover, edit)) for edit in edits if edit.name not in told})
    if prover.listing() != before or not prover.stands():
        note(f"{prover.name}: not proved again over its kept work, so every mutant is tried from nothing")
        for edit in edits:
            texts = texts_of(edit, prover.crate)
            told[edit.name] = ("alone", *(verdict(*prover.check(texts, from_nothing=True), texts) if texts else told[edit.name][1:]))
    return checks, told


def report(name, told, checks, began, results):
    """Prints a line for each mutant, appends it to the results, and returns whether every one is rejected."""
    for edit, (way, what, why) in told.items():
        print(f"mutants: {name}/{edit}: {what}: {why[:240]}")
        if results:
            with open(results, "a", encoding="utf-8") as file:
                print(name, edit, what, way, why[:240].replace("\t", " "), sep="\t", file=file)
    count = lambda wanted: sum(what == wanted for _, what, _ in told.values())
    alone = sum(way == "alone" for way, _, _ in told.values())
    counted = ", ".join(f"{count(it)} {it.lower()}" for it in VERDICTS)
    print(f"mutants: {name}: {counted}; {checks} checks of many, {alone} tried alone, {time.time() - began:.0f} s", flush=True)
    return count("refused") == len(told)


def main():
    words = argparse.ArgumentParser(usage=__doc__.split("\n")[2].strip())
    words.add_argument("--alone", action="store_true")
    words.add_argument("--libraries", default=str(TOP))
    words.add_argument("--results")
    words.add_argument("name")
    words.add_argument("edits", nargs="*")
    given = words.parse_intermixed_args()
    tables = Tables(TOP)
    if given.name not in tables.uses:
        raise Stopped(f"there is no crate {given.name}")
    for number in (signal.SIGTERM, signal.SIGINT, signal.SIGHUP):
        signal.signal(number, lambda number, _: sys.exit(128 + number))
    began, edits = time.time(), edits_of(tables.top / "crates" / given.name, given.edits)
    with Prover(tables, given.name, given.libraries) as prover:
        kept = Path(given.libraries) / "crates" / given.name / "out/incremental"
        checks, told = try_all(prover, edits, given.alone, kept)
        ordered = {edit.name: told[edit.name] for edit in edits}
        return 0 if report(given.name, ordered, checks, began, given.results) else 1


if __name__ == "__main__":
    try:
        sys.exit(main())
    except Stopped as why:
        note(why)
        sys.exit(2)
