"""The number of a landing, by which turns count, and what had landed before it: the lines of docs/landings.tsv."""

from datetime import date

from changes import Unknown, git, landed_before

FILE = "docs/landings.tsv"
# The commits of a landing are at most so many hours old when its gate begins.
HOURS = 4


def lines_of(text):
    """Returns the lines of the file as (number, commit that had landed before)."""
    rows = [line.split("\t") for line in text.splitlines() if line and not line.startswith("#")]
    return [(int(number), before) for number, _, before in rows]


def landed_lines(top):
    """Returns the lines that had landed before these commits, and the newest commit of then; no lines where history does not tell."""
    try:
        before = landed_before(top, HOURS)
        return (lines_of(git(top, "show", f"{before}:{FILE}")) if before else []), before
    except Unknown:
        return [], ""


def this_landing(top, say):
    """Returns the number of the landing that a gate tries, and the commit with which it is compared, '' if none is known."""
    own = lines_of((top / FILE).read_text(encoding="utf-8"))
    landed, before = landed_lines(top)
    if own[-1:] != landed[-1:]:
        return own[-1]
    say(f"{FILE} has no line for this landing (./check --landing adds one): it counts as the next one")
    return own[-1][0] + 1, before


def add_landing(top, say):
    """Adds the line of this landing, once."""
    own = lines_of((top / FILE).read_text(encoding="utf-8"))
    landed, before = landed_lines(top)
    if landed and own[-1] != landed[-1]:
        say(f"landing {own[-1][0]} stands in {FILE}")
        return
    number = own[-1][0] + 1
    with open(top / FILE, "a", encoding="utf-8") as file:
        file.write(f"{number}\t{date.today()}\t{before[:8]}\n")
    say(f"landing {number} stands in {FILE} now")
