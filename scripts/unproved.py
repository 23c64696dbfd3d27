#!/usr/bin/env python3
"""Lists the functions that have no `ensures`, file by file with their lines, and keeps the table of them in docs/TESTING.md.

    scripts/unproved.py [REVISION]    each file with its functions, and the totals; of a REVISION of git in place of the files here
    scripts/unproved.py --table       the table for the page, with the reasons that stand there
    scripts/unproved.py --check       names each row that is not as counted, or gives no reason, and fails if there is one

A function of an `impl TRAIT for ..` has the contract of its trait, so it is counted apart. Crates of tests are left out, and what
only they and `bench` stand on.
"""

import re
import sys

sys.dont_write_bytecode = True
import weight  # noqa: E402

PAGE = weight.TOP / "docs/TESTING.md"
ROW = re.compile(r"\| `(crates/[\w/]+\.rt)` \| [\d,]+ \| (.*) \|$")
HEAD = re.compile(r"( *)(?:pub(?:\(\w+\))? )?(?:const )?fn (\w+)")
CLAUSE = re.compile(r"\s*(?:requires|ensures)\b")
ENSURES = re.compile(r"^\s*ensures\b", re.M)
LEFT_OUT = re.compile(r"\w+_tests$|bench$|memory_book$|memory_files$|failing_streams$")


def opening(lines, at, margin):
    """Where the body of the function whose head stands here begins, or the end of a head without a body or with an empty one."""
    for number in range(at, len(lines)):
        line = lines[number]
        if line.endswith(("{}", ";")) or line == margin + "{" or line.endswith("{") and not CLAUSE.match(line):
            return number
    return len(lines) - 1


def functions(text):
    """Each function with a body and without an `ensures`: its name, its lines, and whether it is one of a trait."""
    lines, end, is_of_trait = text.split("\n"), 0, False
    for at, line in enumerate(lines):
        if line == "}" or line.startswith("impl"):
            is_of_trait = bool(re.match(r"impl\b.*\bfor\b", line))
        head = HEAD.match(line)
        if not head or at < end:
            continue
        body = end = opening(lines, at, head[1])
        if not lines[body].endswith(("{}", ";")):
            end = lines.index(head[1] + "}", body)
            if not ENSURES.search("\n".join(lines[at : body + 1])):
                yield head[2], end - at + 1, is_of_trait


def counted(revision=None):
    """Of each file its functions, in the order of crates.txt, and how many lines those of traits have."""
    found, of_traits, files = weight.texts(revision), 0, {}
    for name in re.findall(r"^(\w+):", found["crates.txt"], re.M):
        if LEFT_OUT.match(name):
            continue
        for path in sorted(it for it in found if it.startswith(f"crates/{name}/src/")):
            each = list(functions(found[path]))
            of_traits += sum(lines for _, lines, is_of_trait in each if is_of_trait)
            if own := [(function, lines) for function, lines, is_of_trait in each if not is_of_trait]:
                files[path] = own
    return files, of_traits


def lines_of(own):
    return sum(lines for _, lines in own)


def rows():
    """The rows that the table of the page has to have, with the reasons that stand there."""
    reasons = dict(row.groups() for row in map(ROW.match, page_lines()) if row)
    return [f"| `{path}` | {lines_of(own)} | {reasons.get(path, '')} |" for path, own in counted()[0].items()]


def page_lines():
    return PAGE.read_text(encoding="utf-8").split("\n")


def check():
    """Names what is wrong in the table of the page, and returns whether something is."""
    wanted, stands = rows(), [line for line in page_lines() if ROW.match(line)]
    wrong = [f"to go: {row}" for row in stands if row not in wanted] + [f"to come: {row}" for row in wanted if row not in stands]
    wrong += [f"without a reason: {row}" for row in wanted if row.endswith("|  |")]
    print(*wrong, sep="\n", end="\n" if wrong else "")
    return bool(wrong)


def main(word=None):
    if word == "--check":
        sys.exit(check())
    if word == "--table":
        return print("| File | Lines | Why no clause sees it |", "|---|---|---|", *rows(), sep="\n")
    files, of_traits = counted(word)
    for path, own in files.items():
        print(f"{lines_of(own):4} {path}:", *(f"{function} {lines}" for function, lines in own))
    print(f"{sum(map(lines_of, files.values())):4} lines of functions without a clause, and {of_traits} of those of traits")


if len(sys.argv) > 2 or sys.argv[1:] == ["--help"]:
    sys.exit(__doc__)
main(*sys.argv[1:])
