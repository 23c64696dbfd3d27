#!/usr/bin/env python3
"""Makes docs/HEADLINE.md: the definitions that the one contract stands on, from specs/. The first ones stand there as they are, from
the top down; all are named, by crate and file.

    scripts/headline.py [--check]

With --check it only says whether the page is out of date.
"""

import re
import sys
import textwrap
from pathlib import Path

TOP = Path(__file__).resolve().parents[1]
PAGE = TOP / "docs/HEADLINE.md"
FIRST = ("Rattle.program_jobs.specs.Headline", "Headline")
SHOWN = {"program_jobs": ("Headline", "Invocations", "Promises"), "desk_jobs": ("Chains", "Worlds")}
USE = re.compile(r"(?:pub )?use (Rattle[\w.+-]+)(?:\.\{(.*)\})?(?: as (\S+))?$")
HEAD = re.compile(r"( *)((?:(?:pub|abbrev|unfoldable|record|data) )*)([^\s:(]+)(?P<typed> :)?")
HEADING = """# What the one contract stands on

[PROMISES.md](PROMISES.md#the-one-contract) says the contract in words: it is the law `any_invocations`, whose clause is `Headline`.
Whoever relies on it must agree with the definitions that are named on this page, of which the first stand here as they are. Not
named are what the prover makes of a type of the program, and the definitions of its libraries. `scripts/headline.py` makes this page
from `specs/`, by following what each definition names.
"""
WORD = re.compile(r"[^\s()\[\]{},;:λ|↦=]+")


class Module:
    """A file of definitions: what its imports bring, by name, and the lines of each definition, its comment among them."""

    def __init__(self, path):
        self.brought, self.aliases, self.texts = {}, {}, {}
        comment, name, inside = [], None, -1
        for line in path.read_text(encoding="utf-8").split("\n"):
            use, head = USE.match(line), HEAD.match(line)
            if use:
                self.bring(*use.groups())
            elif line.lstrip().startswith("--"):
                comment.append(line)
            elif not line or line.lstrip().startswith(("module ", "pub mod", "mod ")):
                comment = []
            elif head and (head[2] or head["typed"]) and not len(head[1]) > inside >= 0:
                name, inside = head[3], len(head[1]) if re.search("record|data", head[2]) else -1
                self.texts[name] = [*comment, line]
                comment = []
            elif name:
                self.texts[name] += [*comment, line]
                comment = []

    def bring(self, module, names, alias):
        """Takes in an import."""
        if not names:
            self.aliases[alias or module.rsplit(".", 1)[1]] = module
        for it in names.split(", ") if names else []:
            name, _, other = it.partition(" as ")
            self.brought[other or name] = module, name

    def cited(self, name):
        """Yields what a definition names, by module (None: this one) and name."""
        text = "\n".join(line for line in self.texts[name] if not line.lstrip().startswith("--"))
        for word in dict.fromkeys(WORD.findall(text)):
            front, _, back = word.partition(".")
            if word in self.texts:
                yield None, word
            elif front in self.aliases:
                yield self.aliases[front], back
            elif front in self.brought:
                yield self.brought[front]


def closure(modules):
    """Returns what the first definition stands on, itself first, each where it is named first."""
    found, waiting = {}, [FIRST]
    while waiting:
        module, name = waiting.pop(0)
        if module in modules and name in modules[module].texts and (module, name) not in found:
            found[module, name] = modules[module].texts[name]
            waiting += [(there or module, it) for there, it in modules[module].cited(name)]
    return found


def page(modules):
    """Returns the text of the page."""
    by_module, by_crate = {}, {}
    for (module, name), text in closure(modules).items():
        by_module.setdefault(module, {})[name] = text
    lines = [HEADING]
    for module, texts in by_module.items():
        _, crate, _, file = module.split(".", 3)
        if file in SHOWN.get(crate, ()):
            lines += [f"`{module.replace('Rattle.', 'crates/').replace('.', '/')}.antt`", "", "```text"]
            lines += [line for text in texts.values() for line in ["", *text]][1:] + ["```", ""]
        by_crate.setdefault(crate, {})[file] = texts
    sizes = {crate: [len(text) for texts in files.values() for text in texts.values()] for crate, files in by_crate.items()}
    count, length = sum(map(len, sizes.values())), sum(map(sum, sizes.values()))
    lines += [f"In all there are {count:,} definitions of {length:,} lines. By crate, with their number and their lines, and by file of its `specs/`:", "", "```text"]
    for crate in sorted(by_crate, key=lambda it: -sum(sizes[it])):
        files = "; ".join(f"{file}: {', '.join(texts)}" for file, texts in by_crate[crate].items())
        told = f"{crate}, {len(sizes[crate])} ({sum(sizes[crate])}): {files}"
        lines += textwrap.wrap(told, 130, subsequent_indent="  ", break_long_words=False, break_on_hyphens=False)
    return "\n".join([*lines, "```", ""])


def main():
    if sys.argv[1:] not in ([], ["--check"]):
        sys.exit(__doc__)
    modules = {}
    for path in TOP.glob("crates/*/specs/**/*.antt"):
        crate, _, *rest = path.relative_to(TOP / "crates").with_suffix("").parts
        modules[".".join(["Rattle", crate, "specs", *rest])] = Module(path)
    text = page(modules)
    if sys.argv[1:]:
        sys.exit(0 if PAGE.exists() and PAGE.read_text(encoding="utf-8") == text else f"{PAGE.relative_to(TOP)} is out of date: scripts/headline.py makes it")
    PAGE.write_text(text, encoding="utf-8")


if __name__ == "__main__":
    main()
