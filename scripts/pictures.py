#!/usr/bin/env python3
"""Draws the pictures of the pages, docs/pictures/*.svg, from what the repository says of itself.

scripts/pictures.py                       draws each picture that is out of date, by Graphviz
scripts/pictures.py --check               changes nothing; names each picture that would be another one, and ends with 1
scripts/pictures.py --history 'T1.1 ..'   prints a picture of this history: the items of a journey, or all that
                                          "desk history" prints; ends with 2 where it is none
"""
import re
import sys
from pathlib import Path

sys.dont_write_bytecode = True
TOP = Path(__file__).resolve().parents[1]
sys.path.append(str(TOP / "scripts/gate"))

from drawing import crates, graphs, journey
from drawing.graphs import Bad
from tables import Tables

FOLDER = "docs/pictures"


def source(path):
    """The text of a file of the repository."""
    return (TOP / path).read_text(encoding="utf-8")


def printed(path, command):
    """What a page says that a command prints, the first time that it stands there."""
    found = re.search(rf"^\$ {re.escape(command)}\n((?:(?!\$ |```).*\n)*)", source(path), re.MULTILINE)
    if not found:
        raise Bad(f"{path} has no '{command}'")
    return found[1]


def items_under(page, heading, crates):
    """The items of the numbered list under a heading of a page: the number, the words in bold, and the crates that it names, in order."""
    section = page.partition(f"\n## {heading}\n")[2].partition("\n## ")[0]
    for number, bold, text in re.findall(r"^(\d+)\. \*\*(.+?)\.?\*\*(.*?)(?=^\S|^$|\Z)", section, re.MULTILINE | re.DOTALL):
        named = [name for name in dict.fromkeys(re.findall("`([a-z_]+)`", text)) if name in crates]
        yield f"{number}. {bold}\\n{' → '.join(named)}"


def way():
    """The picture of the way of a command, which has to have each item of two lists of a page, and no other."""
    page, graph, uses = source("docs/ARCHITECTURE.md"), source(f"{FOLDER}/way.dot"), Tables(TOP).uses
    items = [item for heading in HEADINGS for item in items_under(page, heading, uses)]
    labels = [label for *_, label in graphs.labels_of(graph) if "\\n" in label]
    if labels != items:
        raise Bad("way.dot is not docs/ARCHITECTURE.md in " + "; ".join(sorted({*labels} ^ {*items})).replace("\\n", ": "))
    return graphs.read(graph)


HEADINGS = "One command, from the line to the commit", "One request, from the socket to the page"
# each picture, and what makes it
PICTURES = {
    "crates": lambda: crates.picture(Tables(TOP)),
    "journey": lambda: journey.picture(printed("README.md", "./desk history first.db 1"), "Journey 1 of the README"),
    "phases": lambda: graphs.read(source(f"{FOLDER}/phases.dot")),
    "two_stops": lambda: journey.picture(source(f"{FOLDER}/two_stops.txt"), "Six steps, stopped twice"),
    "way": way,
}


def wrong():
    """Each picture that is not as it is to be: the name of its file, why, and what draws it, or nothing."""
    there = {path.stem for path in (TOP / FOLDER).glob("*.svg")}
    pictures = {name: make() for name, make in PICTURES.items()}
    for name in sorted(there | pictures.keys()):
        if name not in pictures:
            yield f"{FOLDER}/{name}.svg", "not drawn by anything", None
        elif name not in there:
            yield f"{FOLDER}/{name}.svg", "absent", pictures[name]
        elif not pictures[name].is_drawn(source(f"{FOLDER}/{name}.svg")):
            yield f"{FOLDER}/{name}.svg", "not what is drawn now", pictures[name]


def settle(is_check):
    """Draws each picture that is not as it is to be, or removes it where nothing draws it any more; a check only names it."""
    found = list(wrong())
    for file, why, picture in found:
        if is_check:
            print(f"{file} is {why}; scripts/pictures.py draws the pictures anew", file=sys.stderr)
        elif picture:
            (TOP / file).write_text(picture.draw(), encoding="utf-8")
            print(file)
        else:
            (TOP / file).unlink()
    return 1 if is_check and found else 0


def main(words):
    try:
        if words in ([], ["--check"]):
            return settle(bool(words))
        if len(words) == 2 and words[0] == "--history":
            sys.stdout.write(journey.picture(words[1]).draw())
            return 0
    except Bad as why:
        print(f"pictures.py: {why}", file=sys.stderr)
        return 2 if words[:1] == ["--history"] else 1
    except FileNotFoundError as why:
        print(f"pictures.py: {why.filename} of Graphviz is absent (Debian: graphviz)", file=sys.stderr)
        return 2
    print("usage: scripts/pictures.py [--check | --history ITEMS]", file=sys.stderr)
    return 2


if __name__ == "__main__":
    sys.exit(main(sys.argv[1:]))
