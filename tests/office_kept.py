"""What has to hold after an office's day: the ledger is one that a plain desk comes to, each of its events was asked for by one press or
made by an opening, and it is what the tabs were shown."""
import re
from collections import Counter
from typing import NamedTuple

from plain_desk import ENDED, UNDONE, Desk, item_text
from plain_texts import WORDS, night_text, plan_line
from soak_files import difference

NOTE = re.compile(r"Journey (\d+)(?: is begun|: (?:step (\d+) is (done|given back)|save-point (\d+) is taken"
                  r"|(the step found no place|as you asked).*: it turns back to (?:the start|save-point (\d+))))")


class Tab(NamedTuple):
    """What an agent did in a tab, and what it showed."""

    agent: str
    # the lines of the plans that were begun, and how many moves were pressed
    begun: list
    moves: int
    # all messages, and each history, as the number of a journey and its items
    notes: list
    histories: list
    # at the end: what the list says of each journey, and the free places of each cell
    listed: dict
    free: dict


class Day(NamedTuple):
    """The events at the end, and those of a backup; the tables; of each opening, how many events there were before it and how many it made;
    and the tabs."""

    events: list
    saved: list
    tables: dict
    openings: dict
    tabs: list


def replayed(day):
    """The plain desk after all events, the numbers of those that no opening made, and what is wrong with those that one did."""
    desk, asked, way, wrong = Desk(), [], [], []
    for number, event in enumerate(day.events):
        if number in day.openings:
            way = [one.events[-1] for one in desk.recovery()[1:]]
            if len(way) != day.openings[number]:
                wrong.append(f"the opening after {number} events made {day.openings[number]}, and had {len(way)} to make")
        if not way:
            asked.append(number)
        elif way.pop(0) != event:
            wrong.append(f"an opening would not make {event}")
        desk.take(event)
    return desk, asked, wrong


def names_of(events):
    """Each event as its reply begins."""
    begun, names = 0, []
    for kind, first, second in events:
        begun += kind == "begin"
        names.append(f"journey {begun} begun" if kind == "begin" else f"loaded {first}" if kind == "load"
                     else f"journey {first} {item_text(second)}")
    return names


def noted(note):
    """The event that a message tells of, without the option; nothing where it tells of none, or of one again."""
    found = NOTE.match(note)
    if not found or " Stopped" in note:
        return None
    journey, step, moved, save, cause, target = found.groups()
    if step:
        return f"journey {journey} {'T' if moved == 'done' else 'C'}{step}"
    if cause:
        return f"journey {journey} B{target or 0}{'a' if 'asked' in cause else 'r'}"
    return f"journey {journey} S{save}" if save else f"journey {journey} begun"


def list_text(journey):
    """What the list says that a journey holds, all in June."""
    wants = journey.wants()
    held = ", ".join(f"{WORDS[want.kind]} {want.supplier} {want.product}" for want in wants)
    return f"holds {int(night_text(wants[0].night)[8:])} Jun 2030 · {held}" if wants else "holds nothing"


def wrong_in_tab(tab, desk, asked):
    """What a tab was shown otherwise than it is; of the events by their names those that were asked for."""
    own = {number: one for number, one in enumerate(desk.journeys, 1) if one.agent == tab.agent}
    mine = Counter(name.split(".")[0] for name in asked if name.startswith("journey") and int(name.split()[1]) in own)
    shown = Counter(filter(None, map(noted, tab.notes)))
    if shown != mine:
        yield f"it was told of what is not there: {dict(shown - mine)}; and not of: {dict(mine - shown)}"
    moves = sum(not name.endswith("begun") for name in mine.elements())
    if moves > tab.moves:
        yield f"{tab.moves} moves were pressed, and {moves} were made"
    if sorted(tab.begun) != sorted(plan_line(one.plan) for one in own.values()):
        yield f"{len(tab.begun)} journeys were begun, and {len(own)} are there, or others"
    for number, *items in tab.histories:
        if number not in own or items != [item_text(item) for item in own[number].items][: len(items)]:
            yield f"journey {number} was shown as {items}"
    if tab.listed != {number: (desk.phases[number - 1][0], list_text(one)) for number, one in own.items()}:
        yield f"the list at the end: {tab.listed}"
    if tab.free != {f"{WORDS[kind]} {supplier} {product} {night_text(night)}": free
                    for kind, supplier, product, night, _, free in desk.stock_rows() if night_text(night).startswith("2030-06")}:
        yield "the stock at the end"


def wrong_in(day):
    """What was lost, doubled, stuck or shown otherwise; nothing where all is well."""
    desk, numbers, wrong = replayed(day)
    tables = {name: rows for name, rows in desk.tables().items() if name != "answer"}
    if any(day.tables[name] != rows for name, rows in tables.items()):
        wrong.append(difference(day.tables, tables))
    if day.events[: len(day.saved)] != day.saved:
        wrong.append("a backup has another ledger")
    names = names_of(day.events)
    asked = [names[number] for number in numbers]
    kept = Counter(" ".join(row[3].split(" ")[: 2 if row[3].startswith("loaded") else 3]) for row in day.tables["answer"])
    if Counter(asked) != kept:
        wrong.append(f"events that nobody asked for: {dict(Counter(asked) - kept)}; replies without one: {dict(kept - Counter(asked))}")
    wrong += [f"journey {number} is {phase}" for number, (phase, _) in enumerate(desk.phases, 1) if phase not in (ENDED, UNDONE)]
    for tab in day.tabs:
        wrong += [f"{tab.agent}: {text}" for text in wrong_in_tab(tab, desk, asked)]
    return wrong


# what is wrong on purpose with what a day came to: as if the desk lost an event that was answered, or made one twice, and so on
SPOILED = {
    "the last event is lost": lambda day: day._replace(events=day.events[:-1]),
    "a backup of another ledger": lambda day: day._replace(saved=day.saved[1:]),
    "a journey is begun twice": lambda day: day._replace(events=[*day.events, next(one for one in day.events if one[0] == "begin")]),
    "a step is made twice": lambda day: in_tab(day, moves=1),
    "a message that is not shown": lambda day: in_tab(day, notes=[one for one in day.tabs[0].notes if not one.endswith("is begun.")]),
    "a history that is not there": lambda day: in_tab(day, histories=[[journey, *items, "T24.8"] for journey, *items in day.tabs[0].histories]),
    "an opening that made more": lambda day: day._replace(openings={number: made + 1 for number, made in day.openings.items()}),
    "a list that lacks a journey": lambda day: in_tab(day, listed=dict(list(day.tabs[0].listed.items())[1:])),
    "a place that is sold twice": lambda day: in_tab(day, free={cell: free + 1 for cell, free in day.tabs[0].free.items()}),
}


def in_tab(day, **changes):
    """The same day, with the first tab changed."""
    return day._replace(tabs=[day.tabs[0]._replace(**changes), *day.tabs[1:]])


def not_found(day):
    """What of this is not found in a day that is right."""
    return [what for what, spoils in SPOILED.items() if not wrong_in(spoils(day))]
