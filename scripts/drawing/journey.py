"""A journey's history as a way up and down: a step goes up, a compensation down, a turn and a save-point stay.

The history is a line of items, as "desk history" prints them, or all that it prints.
"""

import re
import textwrap
from collections import namedtuple

from drawing.graphs import Bad, Picture, edge, node

STEP = "([1-9]|1[0-9]|2[0-4])"
ITEM = re.compile(rf"T{STEP}\.([1-8])|C{STEP}\.([1-8])|B(0|{STEP[1:-1]})([sra])|S{STEP}")
STATE = re.compile("(run|ended|undone) [0-9]{1,2}|back [0-9]{1,2} to [0-9]{1,2}")
WANT = "[FRTC](/[A-Z0-9]{1,8}){2}/[-0-9]{10}(/[0-9]{1,2}){2}"
PLAN = re.compile(rf"({WANT}([|]{WANT}){{,7}}[*]?(;{WANT}([|]{WANT}){{,7}}[*]?){{,23}}![0-9])?")
CAUSES = {"s": "stop", "r": "refused", "a": "asked"}
MEANINGS = {
    "T": "{0}: step {1} is done, with option {2}",
    "C": "{0}: step {1} is compensated",
    "Br": "{0}: a step is refused, turn back to {1}",
    "Bs": "{0}: a stop, turn back to {1}",
    "Ba": "{0}: somebody asks, turn back to {1}",
    "S": "{0}: a save-point is taken at {1}",
}
# how far a position is above the one before, and an item to the right of the one before
UP, PITCH = 40, 52


# an item, with the position before it and after it; of a turn, target is where it leads
Item = namedtuple("Item", "word kind before after target", defaults=[None])


class History:
    """The items of a journey, and its plan and state where they are known."""

    def __init__(self, text):
        lines = text.strip().splitlines()
        parts = {word: rest.strip() for word, _, rest in (line.strip().partition(" ") for line in lines)}
        if "items" in parts:
            words, self.state = parts["items"].split(), parts.get("state")
            self.steps = [step for step in parts.get("plan", "").rpartition("!")[0].split(";") if step]
            if not STATE.fullmatch(self.state or "run 0"):
                raise Bad(f"{self.state} is no state")
            if not PLAN.fullmatch(parts.get("plan", "")):
                raise Bad("the plan is no plan line")
        else:
            words, self.state, self.steps = text.split(), None, []
        self.items, self.standing, self.target = [], [], None
        for word in words:
            self.items.append(self.read(word))

    def read(self, word):
        """The item of a word; it has to be one that may come after those before."""
        found = ITEM.fullmatch(word)
        if not found:
            raise Bad(f"{word} is no item")
        step, option, undone, its_option, target, cause, saved = found.groups()
        at = len(self.standing)
        going_back = self.target is not None and self.target < at
        where = "goes back" if going_back else "is"
        if at == 0 and self.target == 0 or self.steps and at == len(self.steps):
            where = "has finished"
        elif step and int(step) == at + 1 and not going_back:
            self.standing.append(option)
            self.target = None
            return Item(word, "T", at, at + 1)
        elif undone and going_back and (int(undone), its_option) == (at, self.standing[-1]):
            self.standing.pop()
            return Item(word, "C", at, at - 1)
        elif target and int(target) <= at and (not going_back or cause == "a" and int(target) < self.target):
            self.target = int(target)
            return Item(word, "B" + cause, at, at, self.target)
        elif saved and int(saved) == at and not going_back:
            return Item(word, "S", at, at)
        raise Bad(f"{word} cannot come where the journey {where} at {at}")

    def highest(self):
        return max([item.after for item in self.items], default=0)

    def product(self, item):
        """The product of the option that a step takes, where the plan is known."""
        if item.kind != "T" or not self.steps:
            return ""
        step, option = (int(part) for part in item.word[1:].split("."))
        options = self.steps[step - 1].removesuffix("*").split("|")
        return options[option - 1].split("/")[2] if option <= len(options) else ""

    def level_name(self, position):
        """What a position is to the journey."""
        if position == 0:
            return "start"
        if position == len(self.steps):
            return "end"
        marked = self.steps and position < len(self.steps) and self.steps[position - 1].endswith("*")
        return "save-point" if marked else ""

    def said(self):
        """The history in words."""
        words = {"T": "{0}: up to {1}", "C": "{0}: down to {1}", "S": "{0}: a save-point at {1}"}
        turn = "{0}: at {1}, turned back to {2}"
        said = [words.get(item.kind, turn).format(item.word, item.after, item.target) for item in self.items]
        return "; ".join(said or ["No item"]) + (f". State: {self.state}." if self.state else ".")


def caption(history, item):
    """A word under an item."""
    if item.kind == "T":
        return history.product(item)
    return {"C": "undo", "S": "saved"}.get(item.kind) or CAUSES[item.kind[1]]


def at(name, x, y, look="", **words):
    """What stands at a place, of positions up and items to the right; without a label it is a point, which is not drawn."""
    shape = {"shape": "plaintext"} if "label" in words else {"style": "invis", "shape": "point", "width": 0}
    return node(name, pos=f"{x * PITCH:.0f},{y * UP:.0f}", **{**shape, **words, "class": look})


def disc(name, x, y, look, width=0.08, **words):
    return at(name, x, y, look, **{"shape": "circle", "label": "", "style": "", "width": width, "height": width, **words})


def levels(history):
    """The line of each position, with what it is to the journey."""
    for position in range(max(history.highest(), len(history.steps), 1) + 1):
        name, ends = history.level_name(position), (f"left{position}", f"right{position}")
        yield from (at(ends[0], -0.2, position), at(ends[1], len(history.items) + 0.2, position))
        yield edge(*ends, arrowhead="none", **{"class": "level" if name == "save-point" else "grid"})
        yield at(f"position{position}", -0.5, position, "bold", label=str(position))
        yield at(f"name{position}", -1.2, position, "soft", label=name)


def moves(history):
    """The way of the journey, with the items below it."""
    yield disc("way0", 0, history.items[0].before if history.items else 0, "dot")
    for n, item in enumerate(history.items):
        look, half = {"T": "up", "C": "down"}.get(item.kind, "stay"), n + 0.5
        yield disc(f"way{n + 1}", n + 1, item.after, "dot") if item.after != item.before else at(f"way{n + 1}", n + 1, item.after)
        yield edge(f"way{n}", f"way{n + 1}", arrowhead="none", headclip="false", tailclip="false", **{"class": look})
        if item.target is not None:
            yield disc(f"turn{n}", half, item.before, "turned", 0.14)
            if item.target < item.before:
                yield at(f"to{n}", half, item.target)
                yield edge(f"turn{n}", f"to{n}", arrowsize=0.7, **{"class": "turn"})
        if item.kind == "S":
            yield disc(f"saved{n}", half, item.before, "saved", 0.2, **{"shape": "diamond"})
        yield at(f"item{n}", half, -0.6, "bold", label=item.word)
        yield at(f"caption{n}", half, -1, "soft", label=caption(history, item))
    if history.state:
        yield at("state", len(history.items) + 1, history.items[-1].after if history.items else 0, "bold", label=history.state)


def picture(text, title="The history of a journey"):
    """The picture of a history."""
    history, first = History(text), {}
    for item in history.items:
        first.setdefault(item.kind, item)
    means = "   ".join(MEANINGS[item.kind].format(item.word, *re.findall("[0-9]+", item.word)) for item in first.values())
    wide = max(len(history.items), 8)
    means = "\n".join(textwrap.wrap(means, 9 * wide))
    lines = ["splines=line; outputorder=edgesfirst; node [margin=0]", *levels(history), *moves(history)]
    lines.append(at("means", wide / 2, -1.6 - 0.15 * means.count("\n"), "soft", label=means))
    return Picture(title, history.said(), lines, "neato")
