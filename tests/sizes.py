"""The largest sizes, each through the program: plans, tries, save-points, allotments, files, inputs, connections and pages.

No clause says that memory suffices, so a body that gives up beyond some size has to be seen here. Each answer is computed
from the rules alone.
"""
import sys
from pathlib import Path

from driving import compact, desk, parts_of, plan_of, request, same, talk, wrong

DAY = "2030-06-01"
MOST_PLACES, MOST_STEPS, MOST_OPTIONS, MOST_TRIES, MOST_COUNT = 100_000, 24, 8, 9, 50
MOST_ROWS, MOST_BODY, PAGE = 2_000, 262_144, 4_096
COLUMNS = "kind,supplier,product,night,places\n"
HEADING = "kind     supplier product  night       allot   held   free\n"


def says(what, expected, *words, lines=""):
    """The program prints this and ends with status 0, and then its log holds no page that is not in the file."""
    ended = desk(*words, lines=lines)
    same(f"{what}: the output", expected, ended.out)
    same(f"{what}: the end", "status 0, ", f"status {ended.status}, {ended.err}")
    same(f"{what}: logs with a page", [], [path for path in Path().glob("*-wal") if path.stat().st_size >= PAGE])


def answers(what, file, rows):
    """The lines are answered so, in one run."""
    lines, expected = ("".join(f"{row[at]}\n" for row in rows) for at in (0, 1))
    says(what, expected, "run", file, lines=lines)


def stock_line(product, allot, held):
    return f"{'flight':8} {'AL':8} {product:8} {DAY} {allot:6} {held:6} {allot - held:6}\n"


def set_places(product, places):
    return f"set {product.lower()} F/AL/{product}/{DAY} {places}", f"loaded {product.lower()} 1"


def options(*products):
    return "|".join(f"F/AL/{product}/{DAY}/1/{MOST_COUNT}" for product in products)


def steps(journey, items):
    return [(f"step {journey}", f"journey {journey} {item}") for item in items]


def largest_plan():
    """24 steps of 8 options, of which the last alone fits; to the end, and back; nine tries; save-points at 1 and 23."""
    full = [f"P{n}" for n in range(1, MOST_OPTIONS)]
    first, other = options("A1", *full), options(*full, "P8")
    plan = f"{first}*;" + f"{other};" * (MOST_STEPS - 3) + f"{other}*;{other}!{MOST_TRIES}"
    last = MOST_STEPS - 1
    there = ["T1.1 run 1", *["B1r run 1"] * (MOST_OPTIONS - 1)]
    there += [f"T{n}.{MOST_OPTIONS} run {n}" for n in range(2, MOST_STEPS)]
    back = [f"C{n}.{MOST_OPTIONS} back {n - 1} to 0" for n in range(last, 1, -1)]
    freely = ";".join([options("P8", *full)] * MOST_STEPS) + "!0"
    answers("the largest plan", "trips.db", [
        *[set_places(product, 0) for product in full], set_places("A1", MOST_PLACES), set_places("P8", MOST_PLACES),
        (f"begin {plan}", "journey 1 begun"), *steps(1, [*there, f"T{MOST_STEPS}.{MOST_OPTIONS} ended {MOST_STEPS}"]),
        (f"begin {plan}", "journey 2 begun"), *steps(2, there),
        (f"abort 2 {last}", f"journey 2 B{last}a run {last}"), ("abort 2 2", "refused 11 NoSavePoint"),
        ("abort 2 0", f"journey 2 B0a back {last} to 0"), *steps(2, [*back, "C1.1 undone 0"]),
        (f"begin {first}*;{options(*full, 'P7')}!{MOST_TRIES}", "journey 3 begun"),
        *steps(3, ["T1.1 run 1", *["B1r run 1"] * MOST_TRIES, "B0r back 1 to 0", "C1.1 undone 0"]),
        (f"begin {freely}", "journey 4 begun"),
        *[row for n in range(1, MOST_STEPS)
          for row in (*steps(4, [f"T{n}.1 run {n}"]), ("save 4", f"journey 4 S{n} run {n}"))],
        (f"abort 4 {last}", f"journey 4 B{last}a run {last}"),
    ])
    says("recovered from the save-point at 23", "recovered 2\n", "recover", "trips.db")
    items = [item for n in range(1, MOST_STEPS) for item in (f"T{n}.1", f"S{n}")]
    said = [*items, f"B{last}a", f"B{last}s", f"T{MOST_STEPS}.1"]
    history = f"journey 4 agent desk\nplan {freely}\nitems {' '.join(said)}\nstate ended {MOST_STEPS}\n"
    says("the history of that journey", history, "history", "trips.db", "4")
    held = MOST_COUNT * (last + MOST_STEPS)
    lines = [stock_line("A1", MOST_PLACES, MOST_COUNT), *[stock_line(product, 0, 0) for product in full],
             stock_line("P8", MOST_PLACES, held)]
    says("the stock", f"{HEADING}{''.join(lines)}cells {MOST_OPTIONS + 1}\n", "stock", "trips.db")
    sent = plan_of(["A1", *full], *[[*full, "P8"]] * last, saves=(1, last), tries=MOST_TRIES, count=MOST_COUNT)
    requests = [request("POST", "/journeys", "k", sent), request("GET", "/journeys/5/plan")]
    pages = asked("the largest plan in JSON", "trips.db", requests)
    same("the largest plan in JSON", [page(journey=5), (200, sent)], pages)


def all_places():
    """100,000 places of one cell are taken, fifty at a time; the next want does not fit."""
    rows, taken, journey = [set_places("A1", MOST_PLACES)], 0, 0
    while taken < MOST_PLACES:
        journey += 1
        count = min(MOST_STEPS, (MOST_PLACES - taken) // MOST_COUNT)
        rows.append((f"begin {';'.join([options('A1')] * count)}!0", f"journey {journey} begun"))
        rows += steps(journey, [*[f"T{n}.1 run {n}" for n in range(1, count)], f"T{count}.1 ended {count}"])
        taken += count * MOST_COUNT
    rows += [(f"begin F/AL/A1/{DAY}/1/1!0", f"journey {journey + 1} begun"), *steps(journey + 1, ["B0r undone 0"])]
    answers("all places of a cell", "places.db", rows)
    says("no place is left", HEADING + stock_line("A1", MOST_PLACES, MOST_PLACES) + "cells 1\n", "stock", "places.db")


def file_of(start, count):
    return COLUMNS + "".join(f"flight,AL,X{n:05},{DAY},7\n" for n in range(start, start + count))


def all_cells():
    """Ten files of 2,000 rows; one row more is refused; the report and the page of 20,000 cells."""
    for batch in range(10):
        Path("rows.csv").write_text(file_of(batch * MOST_ROWS, MOST_ROWS), encoding="ascii")
        says(f"file {batch} of {MOST_ROWS} rows", f"loaded b{batch} {MOST_ROWS}\n",
             "load", "cells.db", "rows.csv", "--batch", f"b{batch}")
    refused = desk("load", "cells.db", "-", "--batch", "more", lines=file_of(0, MOST_ROWS + 1))
    same("a file of a row more", "1 refused 6 BadCsv 2001 many\n", f"{refused.status} {refused.out}")
    lines = [stock_line(f"X{n:05}", 7, 0) for n in range(10 * MOST_ROWS)]
    stock = f"{HEADING}{''.join(lines)}cells {len(lines)}\n"
    says("the stock of 20,000 cells", stock, "stock", "cells.db")
    pages = asked("the page of 20,000 cells", "cells.db", [request("GET", "/stock")] * 2)
    same("the page of 20,000 cells: is above 1 MiB", True, len(stock) > 1 << 20)
    same("the page of 20,000 cells", [(200, stock.encode())] * 2, pages)


def asked(what, file, requests):
    """The pages of these requests over one connection, each its status and body."""
    pages, fault = talk(file, requests)
    same(f"{what}: the end", "", fault)
    return [(status, body) for status, _, body in map(parts_of, pages)]


def page(**members):
    return 200, compact(members).encode()


def one_connection():
    """A thousand requests over one connection: 300 journeys of one agent, each begun, done a step and asked for again."""
    count = 300
    plan = plan_of(["A1"], ["A1"], count=MOST_COUNT)
    answers("places for many journeys", "many.db", [set_places("A1", MOST_PLACES)])
    requests, pages = [], []
    for n in range(1, count + 1):
        begin, first = request("POST", "/journeys", f"b{n}", plan), request("POST", f"/journeys/{n}/step", f"s{n}")
        requests += [begin, begin, first]
        pages += [page(journey=n), page(journey=n), page(item="T1.1", journey=n, pos=1, state="run")]
    for n in range(1, 100):
        requests.append(request("GET", f"/journeys/{n}"))
        pages.append(page(history=["T1.1"], journey=n, pos=1, state="run"))
    requests.append(request("GET", "/unfinished"))
    pages.append(page(unfinished=[{"journey": n, "pos": 1, "state": "run"} for n in range(1, count + 1)]))
    same("a thousand requests: how many", 1000, len(requests))
    same("a thousand requests over one connection", pages, asked("a thousand requests", "many.db", requests))
    lines = "".join(f"{n:12} {'ann':16} run 1\n" for n in range(1, count + 1))
    says("300 unfinished journeys", f"{lines}unfinished {count}\n", "unfinished", "many.db")
    says("300 journeys are recovered", f"recovered {2 * count}\n", "recover", "many.db")


def large_inputs():
    """A hundred thousand lines, of ten megabytes; and over a connection forty-eight of the largest bodies, of twelve."""
    rows = []
    for n in range(1, 101):
        rows += [("x" * 99, "refused 4 BadBody")] * 999 + [(f"begin F/AL/A1/{DAY}/1/1!0", f"journey {n} begun")]
    answers("a hundred thousand lines", "lines.db", rows)
    body = COLUMNS.encode().ljust(MOST_BODY, b"\n")
    refused = compact({"cause": "empty", "name": "BadCsv", "refused": 6, "row": 0}).encode()
    pages = asked("the largest bodies", "lines.db", [request("POST", "/batches/b", f"k{n}", body) for n in range(48)])
    same("the largest bodies", [(400, refused)] * 48, pages)


for scene in (largest_plan, all_places, all_cells, one_connection, large_inputs):
    scene()
print(f"sizes.sh: {len(wrong)} wrong")
sys.exit("\n".join(wrong) or 0)
