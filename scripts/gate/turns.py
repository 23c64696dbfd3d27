"""Whose turn it is: what gates take in turn is laid out over as many landings as a round has, and each landing takes its share.

Nothing here is kept between gates. The share follows from the number of the landing, the tables and the number of checks
side by side, so who has its turn when can be computed for any landing.
"""

from math import ceil

from tables import LAST_CHECK

# On two processors each mutant has its turn within so many landings; on four within half as many.
ROUND = 30
# The minutes that one part of a crate's mutants takes at most, so that no gate ends with one.
LONGEST = 12
# The minutes of each processor that the crates of tests may take at a landing.
TEST_MINUTES = 3


def lay_out(minutes, count):
    """Lays things out over so many landings, in their order, each where the middle of its minutes falls. So minutes that change a little,
    or a thing more, move others by a landing at most, and each still has its turn in a round, or in the next one."""
    shares = [[] for _ in range(count)]
    whole, at = sum(minutes.values()), 0.0
    for name, taken in minutes.items():
        shares[min(count - 1, int((at + taken / 2) / whole * count))].append(name)
        at += taken
    return shares


def mutant_landings(lanes):
    """Returns the number of landings within which each mutant has its turn."""
    return max(1, ceil(2 * ROUND / lanes))


def mutant_parts(tables, lanes):
    """Returns the minutes of each part (NAME, K, N) of the crates' mutants: the K-th of N parts of a crate whose mutants
    would take longer than a landing's share, or than one part may. Each part proves the crate once more, as that is what its mutants begin with."""
    counts = {name: 1 for name, mutants in tables.mutants.items() if mutants}
    own = {name: len(tables.mutants[name]) * tables.mutant(name) for name in counts}
    begin = {name: tables.proof(name) + LAST_CHECK for name in counts}
    for _ in range(4):
        share = sum(counts[name] * begin[name] + own[name] for name in counts) / mutant_landings(lanes)
        for name in counts:
            room = max(min(share, LONGEST) - begin[name], 2)
            counts[name] = min(ceil(own[name] / room), len(tables.mutants[name])) or 1
    return {(name, k, n): begin[name] + own[name] / n for name, n in counts.items() for k in range(1, n + 1)}


def mutant_turns(tables, lanes):
    """Returns, landing by landing of a round, the parts of mutants that have their turn."""
    return lay_out(mutant_parts(tables, lanes), mutant_landings(lanes))


def test_turns(tables, lanes):
    """Returns, landing by landing of a round, the crates of tests, and others of that kind, that have their turn."""
    minutes = {name: tables.proof(name) + tables.tests(name) for name in tables.by_turns()}
    return lay_out(minutes, max(1, min(ROUND, ceil(sum(minutes.values()) / (TEST_MINUTES * lanes)))))


def share_of(turns, landing):
    """Returns what has its turn at a landing, whose numbers begin with 1."""
    return turns[(landing - 1) % len(turns)]


def landing_of(turns, thing, landing):
    """Returns the next landing, from this one on, at which a thing has its turn."""
    at = next(at for at, share in enumerate(turns) if thing in share)
    return landing + (at - (landing - 1)) % len(turns)


def part_of_script(parts, landing):
    """Returns which part of a script that gates take in so many parts has its turn."""
    return (landing - 1) % parts + 1


def mutants_in(tables, part):
    """Returns the mutants of a part (NAME, K, N)."""
    name, k, n = part
    return tables.mutants[name][k - 1 :: n]
