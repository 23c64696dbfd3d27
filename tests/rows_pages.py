"""The requests and pages over HTTP that mean the same as a line and its answer."""
import json

from driving import compact
from plain_texts import HEADING, LETTERS, WORDS

PHRASES = {
    200: "OK", 400: "Bad Request", 404: "Not Found", 405: "Method Not Allowed", 409: "Conflict", 411: "Length Required",
    413: "Content Too Large",
}
# of the refusals those whose pages have another status than most have
STATUSES = {7: 404, 8: 405, 9: 404, 15: 413, 19: 411}
# what some refusals tell beside their names
TOLD = {"5": ("step", "cause"), "6": ("row", "cause"), "12": ("row",)}


def page(status, body, *fields, head=False):
    """The bytes of a page, or of its head alone."""
    kind = "application/json" if body.startswith("{") else "text/plain"
    lines = [f"HTTP/1.1 {status} {PHRASES[status]}", f"Content-Length: {len(body)}", f"Content-Type: {kind}", *fields, "", ""]
    return ("\r\n".join(lines) + body * (not head)).encode()


def plan_value(line):
    """The plan of a line in JSON, also where it is refused; nothing where JSON has no such plan."""
    steps, mark, tries = line.rpartition("!")
    options = [[option.split("/") for option in step.rstrip("*").split("|")] for step in steps.split(";")]
    if not mark or any(len(parts) != 6 for step in options for parts in step):
        return None
    names, words = ("kind", "supplier", "product", "first", "nights", "count"), dict(zip(LETTERS, WORDS))
    made = [[dict(zip(names, (words[k], *codes, int(nights), int(count)))) for k, *codes, nights, count in one] for one in options]
    marks = [step.endswith("*") for step in steps.split(";")]
    return {"steps": [{"options": one, "save": mark} for one, mark in zip(made, marks)], "tries": int(tries)}


def request_of(line):
    """The target and the body that mean the same as a line; nothing where none do."""
    word, *rest = line.split(" ")
    if word == "set" and len(rest) == 3:
        kind, *cell = rest[1].split("/")
        rows = HEADING, (WORDS[LETTERS.index(kind)], *cell, rest[2])
        return f"/batches/{rest[0]}", "".join(f"{','.join(row)}\n" for row in rows)
    if word == "begin":
        value = plan_value(line[6:])
        return value and ("/journeys", json.dumps(value))
    if (word, len(rest)) in (("step", 1), ("save", 1), ("abort", 2)):
        return "/".join(("/journeys", rest[0], word, *rest[1:])), ""
    return None


def page_of(answer, *fields, head=False):
    """The page that says the same as an answer."""
    words, status = answer.split(" "), 200
    if words[0] == "refused":
        number = int(words[1])
        told = {name: int(word) if word.isdigit() else word for name, word in zip(TOLD.get(words[1], ()), words[3:])}
        value, status = {"name": words[2], "refused": number, **told}, STATUSES.get(number, 400 if number < 9 else 409)
    elif words[0] == "loaded":
        value = {"batch": words[1], "rows": int(words[2])}
    elif words[2] == "begun":
        value = {"journey": int(words[1])}
    else:
        target = {"target": int(words[6])} if words[3] == "back" else {}
        value = {"item": words[2], "journey": int(words[1]), "pos": int(words[4]), "state": words[3], **target}
    return page(status, compact(value), *fields, head=head)
