"""Worked rows: what the desk is asked and has to answer, written by hand in rows.txt, through the program. A row of lines is
run over HTTP too, each line as the request of the same meaning, and each page as the answer says it.
More than 200 lines: the forms of a row are read and run in one place.

rows.py ROWS.txt [WORD]    the rows whose names have this word; prints how many rows and runs there were
"""
import contextlib
import itertools
import json
import os
import re
import sqlite3
import sys
from pathlib import Path

from driving import desk, request, talk
from plain_texts import HEADING
from rows_pages import page, page_of, plan_value, request_of

DAY = "2030-06-01"
SHORT = {"$A1": f"F/AL/A1/{DAY}", "$X": f"T/BUS/X/{DAY}", "$RM": f"R/INN/DBL/{DAY}"}
SHORT.update({f"$P{n}": f"F/AL/P{n}/{DAY}/1/1" for n in range(1, 7)})
ITEMS = "FROM (SELECT * FROM entry2 ORDER BY num) WHERE journey ="
# Short forms of statements.
STATEMENTS = {
    "$journeys": "SELECT id, num, agent, steps, tries, pos, phase, target, used FROM journey ORDER BY id",
    "$stock": "SELECT kind, supplier, product, date('1970-01-01', '+' || night || ' days'), allot, free FROM stock ORDER BY kind, supplier, product, night",
    "$items": f"SELECT num, item, a, b {ITEMS}",
    "$told": f"SELECT substr('TCBS', item + 1, 1) || a || CASE item WHEN 2 THEN substr('sra', b + 1, 1) WHEN 3 THEN '' ELSE '.' || b END {ITEMS}",
    "$taken": "SELECT place, opt FROM (SELECT * FROM step WHERE taken = 1 ORDER BY place, opt) WHERE journey =",
    "$marks": "SELECT journey, pos FROM mark ORDER BY journey, pos",
}


class Wrong(Exception):
    """The desk is not as the row says."""


def expect(what, expected, found):
    if expected != found:
        raise Wrong(f"{what}\n  expected: {expected!r}\n  found:    {found!r}")


# The text of the rows.


def long(text):
    """The text with its short forms written out, the inner ones first."""
    while (shorter := re.sub(r"\[(\d+) ([^\[\]]*)\]", lambda m: m[2] * int(m[1]), text)) != text:
        text = shorter
    for name, cell in {**STATEMENTS, **SHORT}.items():
        text = text.replace(name, cell)
    return text


def values(group):
    """What a group in braces stands for, one after another."""
    if ".." not in group:
        return group.split(",")
    first, last = map(int, group.split(".."))
    width, step = group.index("."), 1 if first <= last else -1
    return [f"{n:0{width}}" for n in range(first, last + step, step)]


def each(line):
    """The line with each of the values of its groups."""
    texts = re.split(r"\{(\d+\.\.\d+|[\w/-]+(?:,[\w/-]+)+)\}", line)
    groups = zip(*map(values, texts[1::2]), strict=True)
    return ["".join(itertools.chain(*zip(texts[::2], (*group, "")))) for group in groups] if texts[1:] else [line]


def rows_in(path):
    """The rows: their names, and their parts, each with its words and its lines."""
    for block in re.split(r"^= ", path.read_text(encoding="ascii"), flags=re.M)[1:]:
        name, *lines = block.rstrip("\n").split("\n")
        parts = []
        for line in lines:
            word, _, rest = line.partition(" ")
            if word in FORMS:
                parts.append((word, long(rest), []))
            elif line:
                parts = parts or [("run", "", [])]
                parts[-1][2].extend(each(long(line)))
        yield name, parts


def pair(line):
    """What is asked, and the answer."""
    asked, _, answer = line.partition(" => ")
    return ("" if asked == "(empty)" else asked), answer


KEYS = itertools.count(1)

# The parts of a row, each with its words and its lines.


def run(_, lines):
    asked = [pair(line) for line in lines]
    ended = desk("run", "trips.db", lines="".join(line + "\n" for line, _ in asked))
    found = ended.out.split("\n")
    for (line, answer), one in zip(asked, found):
        expect(line[:200], answer, one)
    expect("the output", "".join(answer + "\n" for _, answer in asked), ended.out)
    expect("the end", (0, ""), (ended.status, ended.err))


def call(words, lines):
    out = "".join(line[2:] + "\n" for line in lines if line.startswith("| "))
    err = "".join(line + "\n" for line in lines if line.startswith("fault "))
    ended = desk(*words.split(" "))
    expect(words, (out, err, int(err != "" or out.startswith("refused "))), (ended.out, ended.err, ended.status))


def write(name, lines):
    Path(name).write_text("".join(line[2:] + "\n" for line in lines), encoding="ascii")


def load(text, _):
    asked, answer = pair(text)
    batch, *rows = asked.split(" ")
    write("rows.csv", [f"| {row}" for row in (",".join(HEADING), *rows)])
    call(f"load trips.db rows.csv --batch {batch}", [f"| {answer}"])


def sql(text, _=()):
    statement, expected = pair(text)
    with contextlib.closing(sqlite3.connect("trips.db")) as connection:
        rows = connection.execute(statement).fetchall()
        connection.commit()
    if expected:
        expect(statement, expected, " ".join("|".join(map(str, row)) for row in rows) or "(none)")


def recovers(count, _):
    """Recovery makes so many commits, and none when it is called again; and then no journey is unfinished."""
    for made in (count, 0):
        call("recover trips.db", [f"| recovered {made}"])
    call("unfinished trips.db", ["| unfinished 0"])


def is_sound():
    """What a row leaves is sound to SQLite."""
    if Path("trips.db").exists() and Path("trips.db").read_bytes().startswith(b"SQLite"):
        sql("PRAGMA integrity_check => ok")
        sql("PRAGMA foreign_key_check => (none)")


def http(_, lines):
    """Requests over one connection."""
    asked = [pair(line) for line in lines]
    pages, wrong = talk("trips.db", [message(line) for line, _ in asked])
    for (line, answer), found in zip(asked, pages):
        status, size, body = answer.split(" ", 2)
        if size == "+":
            expect(line, True, found.startswith(b"HTTP/1.1 200 OK\r\n") and f"\n{body}\n".encode() in found)
            continue
        body = body.replace("\\n", "\n")
        expect(f"{line}: the length", int(size), len(body))
        expect(line, page(int(status), body, *["Allow: GET"] * (status == "405")), found)
    expect("the end", "", wrong)


def message(line):
    """The request of a line, which may have a key, an agent and a body."""
    first, *fields = re.split(r" (?=(?:key|as|body|file|plan) )", line)
    told = dict(field.split(" ", 1) for field in fields)
    return request(*first.split(" "), told.get("key", ""), body_of(told), told.get("as", "ann"))


def body_of(told):
    """The body that a request is told to have."""
    if "file" in told:
        return Path(told["file"]).read_bytes()
    if "plan" in told:
        return json.dumps(plan_value(told["plan"])).encode()
    return told.get("body", "").replace("\\n", "\n").encode()


def run_over_http(_, lines):
    """The lines of a row as requests of the agent `desk`, whose journeys are those of the house too."""
    asked = [pair(line) for line in lines]
    targets = [request_of(line) for line, _ in asked]
    sent = [request("POST", target, f"k{next(KEYS)}", body.encode(), "desk") for target, body in targets]
    pages, wrong = talk("trips.db", sent)
    for (line, answer), found in zip(asked, pages):
        expect(f"{line[:200]}, over HTTP", page_of(answer), found)
    expect("the end", "", wrong)


def has_twin(parts):
    """Whether all that a row asks of `run` may be asked over HTTP."""
    lines = [line for word, _, lines in parts if word == "run" for line in lines]
    return bool(lines) and all(request_of(pair(line)[0]) for line in lines)


FORMS = {"run": run, "call": call, "file": write, "load": load, "sql": sql, "recovers": recovers, "http": http}


def runs(parts, as_lines):
    """One run of a row, on a new file."""
    for path in Path().iterdir():
        path.unlink()
    for word, words, lines in parts:
        {**FORMS, "run": as_lines}[word](words, lines)
    is_sound()


def main():
    word = sys.argv[2] if len(sys.argv) > 2 else ""
    rows, count, wrong = [row for row in rows_in(Path(sys.argv[1])) if word in row[0]], 0, 0
    Path("rows").mkdir(exist_ok=True)
    os.chdir("rows")
    for name, parts in rows:
        for kind, as_lines in (("", run), (", over HTTP", run_over_http))[: 1 + has_twin(parts)]:
            count += 1
            try:
                runs(parts, as_lines)
            except Wrong as fault:
                wrong += 1
                print(f"rows.py: {name}{kind}: {fault}", file=sys.stderr)
    print(f"{len(rows)} rows, {count} runs, {wrong} wrong")
    sys.exit(1 if wrong or not rows else 0)


if __name__ == "__main__":
    main()
