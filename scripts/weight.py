#!/usr/bin/env python3
"""Counts what the house weighs: of each crate its clauses, lines of sources, definitions and proofs, and in the last lines what a
reader meets that is long, and the lemmas that nothing names.

    scripts/weight.py [REVISION]

A REVISION of git is counted in place of the files that stand here, so that two can be compared.
"""

import io
import re
import subprocess
import sys
import tarfile
from collections import Counter
from pathlib import Path

TOP = Path(__file__).resolve().parents[1]
CLAUSE = re.compile(r"^\s*(?:requires|ensures)\b", re.M)
HEAD = re.compile(r"^( *)(?:pub(?:\(crate\))? )?(?:const )?fn (\w+)")
COLUMNS = "clauses sources definitions proofs imports".split()
IMPORT = re.compile(r"\s*(?:ghost )?(pub )?use ([\w.«»+-]+?)(?:\.\{(.*)\})?(?: as \S+)?;?$")
DEFINED = re.compile(r"\s*((?:(?:pub|abbrev|unfoldable|record|data) )*)([^\s:]*)( :(?: |$))?")
# How the line begins that says why the answers of a function are long.
REASON = "-- More than 60 lines: "
WORD = re.compile(r"[^\s()\[\]{},;.:λ|↦=]+")


def texts(revision):
    """The texts of the crates and of crates.txt, by path."""
    if revision:
        packed = subprocess.run(["git", "-C", TOP, "archive", revision, "crates", "crates.txt"], capture_output=True, check=True).stdout
        with tarfile.open(fileobj=io.BytesIO(packed)) as files:
            return {it.name: files.extractfile(it).read().decode() for it in files if it.isfile() and is_counted(it.name)}
    named = subprocess.run(["git", "-C", TOP, "ls-files", "-co", "--exclude-standard", "crates", "crates.txt"], capture_output=True, text=True, check=True).stdout.split("\n")
    return {it: (TOP / it).read_text(encoding="utf-8") for it in named if is_counted(it) and (TOP / it).is_file()}


def is_counted(path):
    """Returns whether a file is one of a crate's three parts, or the list of the crates."""
    return path == "crates.txt" or bool(re.match(r"crates/\w+/(?:src/.*\.rt|(?:specs|proofs)/.*\.antt)$", path))


def heads(lines):
    """The functions of a source: the number of the line at which each begins, its head, and where its body begins or the next head."""
    for at, head in enumerate(map(HEAD.match, lines)):
        if head:
            ends = (it for it in range(at + 1, len(lines)) if lines[it] in (head[1] + "{", head[1] + "}") or HEAD.match(lines[it]))
            yield at, head, next(ends, len(lines))


def heavy(path, text):
    """The functions of a source that have eight clauses or more, with how many."""
    lines = text.split("\n")
    found = [(sum(bool(CLAUSE.match(line)) for line in lines[at + 1 : end]), f"{path}: {head[2]}") for at, head, end in heads(lines)]
    return [(clauses, name) for clauses, name in found if clauses >= 8]


def blocks(code):
    """The definitions at the margin of a file of proofs, or at that of a `module`: the name, whether it is one, the lines."""
    each, margins = [], [0]
    for line in code:
        margin = len(line) - len(line.lstrip())
        while margin < margins[-1]:
            margins.pop()
        marks, name, signed = DEFINED.match(line).groups()
        if margin == margins[-1] and not (each and name in ("unfolding", each[-1][0])):
            each.append((name, bool(marks or signed) and name not in ("mod", "module"), []))
            margins += [margin + 2] * (name == "module")
        each[-1][2].append(line)
    return each


def unnamed(found):
    """The lemmas that nothing names: nothing else in their file, and no file that imports them, or the whole of theirs."""
    imports, words, own, lemmas = {}, {}, {}, []
    for path, text in found.items():
        own[path] = "Rattle." + path[len("crates/") :].rsplit(".", 1)[0].replace("/", ".")
        code = [it for it in text.split("\n") if it.strip() and not re.match(r"\s*(?:--|//)", it)]
        for again, module, names in (IMPORT.match(it).groups() for it in code if IMPORT.match(it)):
            for name, _, alias in (it.partition(" as ") for it in re.split(", *", names or "")):
                imports.setdefault((module, name), []).append((path, alias or name, again))
        code = [re.sub(" -- .*", "", it) for it in code if not IMPORT.match(it)]
        words[path] = set(WORD.findall("\n".join(code)))
        each = blocks(code) if "/proofs/" in path else []
        for name, is_lemma, lines in each:
            if is_lemma and not re.search(r":\s+goal\.", "\n".join(lines)):
                others = (line for _, _, others in each if others is not lines for line in others)
                lemmas.append((path, name, any(name in WORD.findall(it) for it in others)))
    attributes = set(re.findall(r"proofs::(?:\w+::)*(\w+)", "\n".join(text for path, text in found.items() if path.endswith(".rt"))))

    def is_named(module, name):
        brought = any(alias in words[it] or again and is_named(own[it], alias) for it, alias, again in imports.get((module, name), []))
        return brought or any(name in words[it] for it, _, _ in imports.get((module, ""), []))

    return [f"{path}: {name}" for path, name, inside in lemmas if not (inside or name in attributes or is_named(own[path], name))]


def main(revision=None):
    found = texts(revision)
    crates = [it.split(":")[0] for it in found["crates.txt"].split("\n") if re.match(r"\w+:", it)]
    rows, long, many = {it: Counter() for it in crates}, [], []
    for path, text in found.items():
        parts = path.split("/")
        if path == "crates.txt" or parts[1] not in rows:
            continue
        row, lines = rows[parts[1]], text.count("\n")
        row[{"src": "sources", "specs": "definitions", "proofs": "proofs"}[parts[2]]] += lines
        if parts[2] == "src":
            row["clauses"] += len(CLAUSE.findall(text))
            row["imports"] += text.count("ghost use ")
            many += heavy(path, text)
        if "/proofs/" in path and len(parts) > 4 and parts[-1] == "Answers.antt" and lines > 60 and REASON not in text:
            long.append((lines, path))
    for name, row in [*rows.items(), (f"{len(crates)} crates", sum(rows.values(), Counter()))]:
        print(f"{name:20}", *(f"{row[it]:7} {it}" for it in COLUMNS))
    for what, each in (("functions with more than 60 lines of answers that say no reason", long), ("functions with eight clauses or more", many)):
        print(f"{len(each)} {what}", *(f"    {count} {it}" for count, it in sorted(each, reverse=True)), sep="\n")
    nobody = unnamed(found)
    print(f"{len(nobody)} lemmas that nothing names", *(f"    {it}" for it in nobody), sep="\n")


if __name__ == "__main__":
    main(*sys.argv[1:])
