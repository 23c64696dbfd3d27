#!/usr/bin/env python3
"""Compares the contracts of the public functions with those of an earlier revision, name by name.

    scripts/contracts.py REVISION

It prints each public function whose clauses are not the same texts: those that are gone, and those that came. That a clause which
is gone is said by a record that came, a reader sees; docs/CHANGES_OF_CRATES.md names the records.
"""

import re
import sys

sys.dont_write_bytecode = True
import weight  # noqa: E402

OWNER = re.compile(r"^(?:pub )?(?:impl|trait)\b.*?(\w+)(?:<[^{]*)?(?: \{|$)")
CLAUSE = re.compile(r"(requires|ensures)(?: (\w+))? \{((?:[^{}]|\{[^{}]*\})*)\}")


def contracts(found):
    """The clauses of each public function, by crate, type and name; those of a public trait are public too."""
    all_of = {}
    for path, text in sorted(found.items()):
        if not path.endswith(".rt"):
            continue
        lines, owner, is_trait = text.split("\n"), "", False
        starts = {at: (head, end) for at, head, end in weight.heads(lines)}
        for at, line in enumerate(lines):
            if not line.startswith(" ") and (of := OWNER.match(line)):
                owner, is_trait = of[1] + "::", line.startswith("pub trait")
            elif line == "}":
                owner, is_trait = "", False
            elif at in starts and (is_trait or re.match(r" *pub (?:const )?fn", line)):
                head, end = starts[at]
                name = f"{path.split('/')[1]}::{owner if head[1] else ''}{head[2]}"
                all_of[name] = [(kind, label, " ".join(fact.split())) for kind, label, fact in CLAUSE.findall("\n".join(lines[at:end]))]
    return all_of


def main(revision):
    was, now = contracts(weight.texts(revision)), contracts(weight.texts(None))
    for name in sorted(was.keys() | now.keys()):
        old, new = was.get(name), now.get(name)
        if old == new:
            continue
        print(name + (": gone" if new is None else ": new" if old is None else ""))
        for sign, some, other in (("-", old or [], new or []), ("+", new or [], old or [])):
            for kind, label, fact in some:
                if (kind, label, fact) not in other:
                    print(f"  {sign} {kind} {label}".rstrip(), f"{{ {fact} }}")


if len(sys.argv) != 2:
    sys.exit(__doc__)
main(sys.argv[1])
