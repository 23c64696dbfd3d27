"""Plans, cells and allotment files as their texts say them, by docs/FORMATS.md; each refused by its first fault.
More than 200 lines: each text is read and written in one place."""
import datetime
import functools
import re
from typing import NamedTuple

EPOCH = datetime.date(1970, 1, 1)
LETTERS, WORDS = "FRTC", ("flight", "room", "transfer", "cover")
MOST_NIGHTS = (1, 30, 1, 60)
CODE, NAME, DAY = re.compile("[A-Z0-9]{1,8}"), re.compile("[a-z0-9-]{1,24}"), re.compile("20[0-9]{2}-[0-9]{2}-[0-9]{2}")
LAST = (datetime.date(2099, 12, 31) - EPOCH).days
HEADING = ["kind", "supplier", "product", "night", "places"]


class BadPlan(Exception):
    """The first fault of a plan."""

    def __init__(self, step, cause):
        super().__init__(step, cause)
        self.step, self.cause = step, cause


class Want(NamedTuple):
    """So many places of a product, for some nights; the night is the number of its day."""

    kind: int
    supplier: str
    product: str
    night: int
    nights: int
    count: int

    def cells(self):
        return [(*self[:3], self.night + n) for n in range(self.nights)]

    def covers(self, cell):
        return self[:3] == cell[:3] and self.night <= cell[3] < self.night + self.nights


class Step(NamedTuple):
    options: tuple
    save: bool


class Plan(NamedTuple):
    steps: tuple
    tries: int


def number_in(text, least, most):
    """The number of a text without sign and leading zeros; None where it is none or beyond the limits."""
    return int(text) if re.fullmatch("0|[1-9][0-9]{0,11}", text) and least <= int(text) <= most else None


def day_in(text):
    """The number of a day of the years 2000 to 2099, or None."""
    try:
        return (datetime.date.fromisoformat(text) - EPOCH).days if DAY.fullmatch(text) else None
    except ValueError:
        return None


def night_text(day):
    return (EPOCH + datetime.timedelta(day)).isoformat()


@functools.lru_cache(4096)
def cell_in(text):
    """A cell, as tables have it, or None."""
    parts = text.split("/")
    is_right = len(parts) == 4 and parts[0] in [*LETTERS] and all(map(CODE.fullmatch, parts[1:3])) and day_in(parts[3]) is not None
    return (LETTERS.index(parts[0]), *parts[1:3], day_in(parts[3])) if is_right else None


def cell_text(cell):
    kind, supplier, product, night = cell
    return f"{LETTERS[kind]}/{supplier}/{product}/{night_text(night)}"


def want_in(step, kind, supplier, product, night, nights, count):
    """A want by its parts, of which each is None where it is none of its sort."""
    for cause, part in (("kind", kind), ("code", supplier), ("code", product), ("night", night), ("nights", nights)):
        if part is None:
            raise BadPlan(step, cause)
    if not 1 <= nights <= MOST_NIGHTS[kind] or night + nights - 1 > LAST:
        raise BadPlan(step, "nights")
    if count is None or not 1 <= count <= 50:
        raise BadPlan(step, "count")
    return Want(kind, supplier, product, night, nights, count)


def code_in(text):
    return text if isinstance(text, str) and CODE.fullmatch(text) else None


def option_in(step, text):
    """The want of an option of a plan line."""
    if text.count("/") != 5:
        raise BadPlan(step, "shape")
    kind, supplier, product, day, *numbers = text.split("/")
    kind = LETTERS.index(kind) if kind in [*LETTERS] else None
    return want_in(step, kind, code_in(supplier), code_in(product), day_in(day), *(number_in(it, 0, 999) for it in numbers))


@functools.lru_cache(4096)
def plan_in(line):
    """The plan of a plan line."""
    if not re.fullmatch("(?s).*![0-9]", line):
        raise BadPlan(0, "tries")
    texts = line[:-2].split(";")
    if len(texts) > 24:
        raise BadPlan(0, "steps")
    steps = []
    for number, text in enumerate(texts, 1):
        save = text.endswith("*")
        if save and number == len(texts):
            raise BadPlan(number, "save")
        options = (text[:-1] if save else text).split("|")
        if len(options) > 8:
            raise BadPlan(number, "options")
        steps.append(Step(tuple(option_in(number, option) for option in options), save))
    return Plan(tuple(steps), int(line[-1]))


def plan_line(plan):
    """The line of a plan."""
    def option_text(want):
        return f"{cell_text(want[:4])}/{want.nights}/{want.count}"
    steps = ("|".join(map(option_text, step.options)) + "*" * step.save for step in plan.steps)
    return ";".join(steps) + f"!{plan.tries}"


def plan_value(plan):
    """The JSON value of a plan."""
    def option(want):
        kind, night = WORDS[want.kind], night_text(want.night)
        return {
            "count": want.count, "first": night, "kind": kind, "nights": want.nights, "product": want.product,
            "supplier": want.supplier,
        }
    steps = [{"options": [option(want) for want in step.options], "save": step.save} for step in plan.steps]
    return {"steps": steps, "tries": plan.tries}


def is_object(value, *members):
    return isinstance(value, dict) and set(value) == set(members)


def whole(value):
    return value if isinstance(value, int) and not isinstance(value, bool) else None


def option_of(step, value):
    if not is_object(value, "count", "first", "kind", "nights", "product", "supplier"):
        raise BadPlan(step, "shape")
    kind = WORDS.index(value["kind"]) if value["kind"] in WORDS else None
    night = day_in(value["first"]) if isinstance(value["first"], str) else None
    codes = (code_in(value["supplier"]), code_in(value["product"]))
    return want_in(step, kind, *codes, night, whole(value["nights"]), whole(value["count"]))


def plan_of(value):
    """The plan of a JSON value."""
    if not is_object(value, "steps", "tries") or not isinstance(value["steps"], list):
        raise BadPlan(0, "shape")
    tries, values, steps = whole(value["tries"]), value["steps"], []
    if tries is None or not 0 <= tries <= 9:
        raise BadPlan(0, "tries")
    if not 1 <= len(values) <= 24:
        raise BadPlan(0, "steps")
    for number, one in enumerate(values, 1):
        is_right = is_object(one, "options", "save") and isinstance(one["options"], list)
        if not is_right or not isinstance(one["save"], bool):
            raise BadPlan(number, "shape")
        if one["save"] and number == len(values):
            raise BadPlan(number, "save")
        if not 1 <= len(one["options"]) <= 8:
            raise BadPlan(number, "options")
        steps.append(Step(tuple(option_of(number, option) for option in one["options"]), one["save"]))
    return Plan(tuple(steps), tries)


def row_fault(fields, earlier):
    """What is wrong with a row of an allotment file after these cells, or nothing."""
    if len(fields) != 5:
        return "shape"
    kind, supplier, product, night, places = fields
    for cause, is_right in (
        ("kind", kind in WORDS), ("code", code_in(supplier)), ("code", code_in(product)),
        ("night", day_in(night) is not None), ("places", number_in(places, 0, 100_000) is not None),
    ):
        if not is_right:
            return cause
    return "twice" if cell_of(fields) in earlier else ""


def cell_of(fields):
    return f"{LETTERS[WORDS.index(fields[0])]}/{fields[1]}/{fields[2]}/{fields[3]}"


def rows_of(records):
    """The rows of the records of an allotment file, or the number of a row and what is wrong with it."""
    if records[:1] != [HEADING]:
        return 0, "header"
    rows = []
    for number, fields in enumerate(records[1:], 1):
        if number > 2000:
            return number, "many"
        fault = row_fault(fields, {cell for cell, _ in rows})
        if fault:
            return number, fault
        rows.append((cell_of(fields), int(fields[4])))
    return rows or (0, "empty")
