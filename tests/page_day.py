"""What an agent needs all day: what is held, what is free for a trip, what cannot be undone, messages, sheets, and a page that is silent
while nothing happens. More than 200 lines: each scene stands by itself."""
import collections
import datetime
import time

from selenium.webdriver.common.keys import Keys

from page_driving import wait_until
from page_network import html_page, page_of
from page_scenes import FLIGHT, JUNE, LINE, SEA, TRANSFER, TWO, comes, option, plan, same


# the plan of LINE
LINE_PLAN = plan(FLIGHT, [SEA, option("room", "INN", "YARD", nights=2)], TRANSFER, saves=(1,), tries=1)


# wants of a plan line, and how they are spoken of
IN_WORDS = (
    ("R/INN/YARD/2030-06-10/3/2", "room INN YARD, Mon, 10 Jun 2030, 3 nights, leaving Thu 13 June, 2 places"),
    ("R/INN/YARD/2030-06-30/1/1", "room INN YARD, Sun, 30 Jun 2030, 1 night, leaving Mon 1 July, 1 place"),
    ("R/INN/YARD/2030-12-31/1/1", "room INN YARD, Tue, 31 Dec 2030, 1 night, leaving Wed 1 January, 1 place"),
    ("R/INN/YARD/2032-02-28/2/1", "room INN YARD, Sat, 28 Feb 2032, 2 nights, leaving Mon 1 March, 1 place"),
    ("R/INN/YARD/2099-12-31/1/1", "room INN YARD, Thu, 31 Dec 2099, 1 night, leaving Fri 1 January, 1 place"),
    ("C/CO/TRIP/2030-06-10/3/2", "cover CO TRIP, Mon, 10 Jun 2030, 3 nights, 2 places"),
    ("F/AL/A1/2030-06-01/1/1", "flight AL A1, Sat, 1 Jun 2030, 1 place"),
)


def nights_in_words(scene):
    """Beside its nights a room has the day on which it is left: in the plan, in the bar, before a step and in what happened."""
    browser = scene.browser
    browser.types("#line", ";".join(line for line, _ in IN_WORDS) + "!0", Keys.TAB)
    comes("the plan", [words for _, words in IN_WORDS], lambda: [one.text for one in browser.all(".options .what")])
    browser.types('[data-f="nights.0.0"]', Keys.BACKSPACE, "5", Keys.TAB)
    browser.shows("5 nights, leaving Sat 15 June", ".step .what")
    scene.chooses("room INN YARD", JUNE[28])
    scene.chooses("room INN YARD", JUNE[29])
    browser.shows("room INN YARD, Sat, 29 Jun 2030, 2 nights, leaving Mon 1 July", "#bar")
    scene.begins(plan(option("room", "INN", "YARD", nights=3), FLIGHT))
    scene.shows_journey(1)
    for css in ("#next", ".planned"):
        browser.shows("INN YARD, 1 Jun 2030, 3 nights, leaving Tue 4 June, 1 place", css)
    scene.does("Do step 1", "T1.1")
    browser.shows("step 1 done (room INN YARD, 1 Jun 2030, 3 nights, leaving Tue 4 June, 1 place)", "ol.items")


# whether all of an element is in the window, and nothing is before its middle and its corners
IN_VIEW = """const one = arguments[0], box = one.getBoundingClientRect();
return [[0.5, 0.5], [0.05, 0.2], [0.95, 0.8]].every(([x, y]) =>
  one.contains(document.elementFromPoint(box.left + x * box.width, box.top + y * box.height)))
  && box.top >= 0 && box.left >= 0 && box.bottom <= innerHeight && box.right <= innerWidth"""
SIZES = ((1366, 768), (390, 844))


def begin_in_view(scene):
    """Below a plan of 24 steps, wherever that is scrolled to, and with a chosen night, one sees and presses "Begin the journey"."""
    browser = scene.browser
    line = ";".join(["R/INN/YARD/2030-06-01/2/1|R/INN/SEA/2030-06-01/1/1*"] * 23 + ["F/AL/A1/2030-06-01/1/1"]) + "!3"
    scene.plans(line, 24)
    for choice in (False, True):
        for width, height in SIZES:
            browser.size(width, height)
            if choice and not browser.all("#bar"):
                browser.open(scene.desk.url("#/stock"))
                scene.chooses("room INN YARD", JUNE[4])
                browser.open(scene.desk.url("#/plan"))
            for step in (1, 8, 16, 24):
                what = f"{width} by {height}, a choice: {choice}, at step {step}"
                browser.script("document.querySelectorAll('.step')[arguments[0] - 1].scrollIntoView({block: 'center'})", step)
                same(what, True, browser.script(IN_VIEW, browser.named("Begin the journey")))
                same(f"{what}: the step", True, browser.script(IN_VIEW, browser.named(f"Remove step {step}")))
    browser.one('[data-f="begin"]').click()
    browser.shows("Journey 1", "#h-one")


# the controls that are seen, at whose middle a note lies
UNDER_NOTES = """const css = 'main button, main a, main input, main select, header a, header button, #bar button';
return [...document.querySelectorAll(css)].filter(one => {
  const box = one.getBoundingClientRect(), x = box.left + box.width / 2, y = box.top + box.height / 2;
  // what is scrolled out of its view is not seen
  for (let at = one; (at = at.parentElement);) {
    const view = at.getBoundingClientRect();
    if (getComputedStyle(at).overflowY !== 'visible' && (y < view.top || y > view.bottom)) return false;
  }
  return one.checkVisibility() && document.elementFromPoint(x, y)?.closest('#notes');
}).map(one => one.dataset.f || one.textContent)"""


def notes_cover_nothing(scene):
    """Three notes at once, beside a chosen night and without: nothing that can be pressed is below one, wherever it is scrolled to."""
    browser = scene.browser
    scene.begins(steps=1)
    scene.plans(LINE)
    scene.network.instead = (409, {"name": "Finished", "refused": 10})
    scene.shows_journey(1)
    browser.press("Do step 2", ".acts")
    scene.note("cannot be changed any more")
    scene.network.instead = (400, {"cause": "night", "name": "BadPlan", "refused": 5, "step": 2})
    browser.open(scene.desk.url("#/plan"))
    browser.press("Begin the journey")
    browser.one(".step.isbad")
    scene.network.front = lambda request: html_page(502)
    browser.shows("The desk cannot be reached", "#away")
    scene.network.front = None
    scene.note("The desk can be reached again.")
    for path in ("stock", "plan", "journeys", "journeys/1"):
        browser.script("location.hash = arguments[0]", f"#/{path}")
        for width, height in SIZES:
            browser.size(width, height)
            for part in (0, 0.5, 1):
                browser.script("""for (const one of document.querySelectorAll('main, main section, #cals'))
                  one.scrollTop = arguments[0] * one.scrollHeight""", part)
                same(f"{path}, {width} by {height}, scrolled to {part}: what is below a note", [], browser.script(UNDER_NOTES))
        same(f"{path}: notes", True, len(browser.all(".note")) > 1)
        if path == "stock":
            scene.chooses("room INN YARD", JUNE[0])


def notes_end(scene):
    """A note ends with what it speaks of: the plan is changed, the journey goes on or is moved elsewhere, the agent is another."""
    browser, desk, network = scene.browser, scene.desk, scene.network

    def ends(what, words):
        # what goes by itself goes later
        time.sleep(0.7)
        same(f"{what}: the note", False, words in browser.text("#notes"))
    scene.chooses("transfer BUS X", JUNE[0])
    browser.press("Add as step 1")
    scene.note("Step 1 of the new journey")
    browser.press("Remove step 1")
    ends("the step is removed", "Step 1")
    browser.types("#line", "F/AL", Keys.TAB)
    scene.note("A plan line ends with")
    browser.retypes("#line", LINE, Keys.TAB)
    comes("the steps", 3, lambda: len(browser.all(".step")))
    ends("the line is another", "A plan line")
    browser.press("Begin the journey")
    scene.note("Journey 1 is begun.")
    network.instead = (409, {"name": "Limit", "refused": 15})
    browser.press("Do step 1", ".acts")
    scene.note("The desk cannot hold any more events.")
    ends("it was pressed", "Journey 1 is begun")
    network.gets.hold()
    browser.press("Do step 1", ".acts")
    ends("it is pressed again", "cannot hold")
    network.gets.release()
    browser.shows("T1.1", "ol.items")
    scene.does("Do step 2", "B1r")
    scene.note("the step found no place")
    desk.post("/journeys/1/step", "elsewhere")
    browser.shows("T2.2", "ol.items")
    ends("it is moved elsewhere", "no place")
    for status in (502, 0, 502):
        network.front = (lambda request: html_page(502)) if status else None
        browser.shows("The desk cannot be reached" if status else "The desk can be reached again.")
    ends("it is away again", "reached again")
    network.front = None
    scene.note("The desk can be reached again.")
    scene.becomes("bob")
    ends("there is an agent", "An agent")
    same("no note is left", [], browser.names(".note p"))


def nothing_is_fetched(scene):
    """While the desk does nothing, the page asks how much it has and for nothing else; once it did something, for what is shown, once."""
    browser, network = scene.browser, scene.network
    scene.begins(TWO, "silent", 1)
    scene.begins(plan(TRANSFER), "silent-2")

    def asked_for(seconds):
        """How often each path is asked for meanwhile."""
        before = len(network.paths)
        time.sleep(seconds)
        return collections.Counter(path for _, path, _ in network.paths[before:])
    scene.shows_journey(1)
    browser.shows("holds 1 Jun 2030 · flight AL A1", "#list")
    wait_until(lambda: [path for _, path, _ in network.paths[-2:]] == ["/health"] * 2, "a look that finds nothing new")
    asked = asked_for(5)
    same("while nothing happens", {"/health"}, set(asked))
    same("every four seconds", True, 1 <= asked["/health"] <= 2)
    scene.begins(plan(TRANSFER), "silent-3", agent="bob")
    asked = asked_for(6)
    del asked["/health"]
    same("after an event of another agent", {"/unfinished": 1, "/mine/2": 1, "/journeys/1": 1, "/journeys/1/why": 1}, dict(asked))
    before = len(network.paths)
    browser.press("Journey 2", "#list")
    browser.named("Do step 1", ".acts")
    time.sleep(4.5)
    asked = {path for _, path, _ in network.paths[before:]}
    same("another journey is read, and nothing else", {"/health", "/journeys/2", "/journeys/2/why"}, asked)
    scene.desk.post("/journeys/2/step", "silent-4")
    browser.shows("T1.1", "ol.items")
    browser.shows("ended", "#list")
    browser.press("Stock")
    network.front = lambda request: html_page(403) if request.where.path == "/health" else None
    asked = asked_for(4.5)
    same("where a server hides how much it has, all is asked for", True, asked["/health"] >= 1 <= asked["/stock"])
    browser.shows("Up to date", "#state")


def large_stock(scene):
    """A stock of 40,000 cells is read every twenty seconds at most where it is shown, and not beside a journey, but for the question before
    all steps. The month of one supplier that is shown is read in between."""
    browser, desk, network, count, times, parts = scene.browser, scene.desk, scene.network, 40_000, [], []
    last = option("flight", "AL", "LAST")
    many = "".join(f"{'cover':8} {'MANY':8} {f'P{n // 28}':8} 2031-01-{n % 28 + 1:02} {1:6} {0:6} {1:6}\n" for n in range(count))

    def in_front(request):
        if request.where.path.startswith("/stock/"):
            parts.append(request.where.path)
        if request.where.path != "/stock":
            return None
        times.append(time.monotonic())
        *lines, _ = desk.ask("GET", "/stock")[1].splitlines(keepends=True)
        return page_of(200, "OK", [("Content-Type", "text/plain")], f"{''.join(lines)}{many}cells {len(lines) - 1 + count}\n".encode())

    def moves(until):
        """Bob begins a journey each second, until this holds."""
        for n in range(60):
            if until():
                return
            scene.begins(plan(TRANSFER), f"{len(times)}-{n}", agent="bob")
            time.sleep(1)
    network.front = in_front
    scene.begins(plan(FLIGHT, last), "all")
    moves(lambda: len(times) > 1)
    same("the seconds between two reads", True, times[1] - times[0] > 19 or times)
    scene.shows_journey(1)
    browser.named("Do all 2 steps that are left", ".acts")
    begun = time.monotonic()
    moves(lambda: time.monotonic() - begun > 6)
    same("reads beside a journey", 2, len(times))
    scene.begins(plan(last), "last", 1, "bob")
    browser.press("Do all 2 steps that are left", ".acts")
    browser.shows("which is step 2 now", "dialog[open]")
    browser.click_on("#sure-no")
    scene.begins(plan(TRANSFER), "opened", agent="bob")
    browser.press("Stock")
    wait_until(lambda: len(times) > 3, "it is read once its view is opened")
    same("no supplier is chosen, and no part is read", [], parts)
    free = lambda: browser.one('[data-f="flight AL A1 2030-06-01"]').get_attribute("aria-label")
    for name, value in (("kind", "flight"), ("supplier", "AL")):
        browser.picks(f'[data-f="filter.{name}"]', value)
    before = free()
    scene.begins(plan(FLIGHT), "part", 1, "bob")
    wait_until(lambda: free() != before, "a place that is taken")
    same("what was read for that", (["/stock/2030-06-01/2030-06-30/flight/AL"], 4), (sorted({*parts}), len(times)))


def by_what_is_held(scene):
    """Journeys are listed and found by what they hold, whatever was planned; the path names the option that is tried next."""
    browser, desk = scene.browser, scene.desk
    two = plan(FLIGHT, [SEA, option("room", "INN", "YARD")], TRANSFER, saves=(1,), tries=1)
    for n, (body, steps) in enumerate(((two, 3), (plan(option("room", "INN", "SEA")), 1), (plan(SEA), 0), (two, 1)), 1):
        scene.begins(body, f"held-{n}", steps)
    scene.shows_journey(4)
    for item, word in (("T1.1", "SEA"), ("B1r", "YARD")):
        browser.shows(item, ".path")
        comes(f"after {item}: the option at its step, and below", (1, 1), lambda: tuple(
            browser.script("return [...document.querySelectorAll('.path text')].filter(one => one.textContent === arguments[0]).length", text)
            for text in (f"R INN {word}", word)))
        browser.press("Do step 2", ".acts")
    browser.shows("T2.2", "ol.items")
    for n, words in ((4, "holds 1 Jun 2030 · flight AL A1, room INN YARD; to come: 1 Jun 2030 · transfer BUS X"), (2, "holds 1 Jun 2030 · room INN SEA"),
                     (3, "holds nothing; to come: 1 Jun 2030 · room INN SEA")):
        comes(f"journey {n}", words, lambda n=n: browser.script(
            "return document.querySelector(arguments[0]).closest('tr').querySelector('.plan')?.innerText", f'[data-f="to.{n}"]'))
    scene.found_by("sea", 2)
    scene.found_by("yard", 4, 1)
    scene.found_by("transfer")
    desk.post("/journeys/1/step", "more")
    comes("found once it is held", ["Journey 1"], lambda: browser.names("#list tbody a"))
    desk.post("/journeys/4/abort/0", "back")
    desk.post("/journeys/4/step", "give")
    scene.found_by("room inn yard", 1)
    scene.found_by("flight", 4, 1)


# what is no content of a sheet
CONTROLS = "header, nav, #state, button:not(.night), input, select, [role=group], label:not(.save.on label), dialog, #notes"


def printed(scene):
    """Each view as a sheet: with the agent and the date, of the stock the month too; without controls, in light colours, and whole."""
    browser, today = scene.browser, datetime.date.today()
    agent = f"Agent ann, {today.day} {today:%B} {today.year}"
    scene.begins(LINE_PLAN, "printed", 2)
    scene.plans(LINE)
    browser.open(scene.desk.url("#/stock"))
    scene.chooses("flight AL A1", JUNE[0])
    sheets = (
        ("stock", f"{agent}: June 2030", ("room INN YARD", "In each night", "of 4"), ("New journey", "My journeys")),
        ("plan", agent, ("Step 2", "INN YARD, Sat, 1 Jun 2030, 2 nights, leaving Mon 3 June, 1 place", "Save-point after step 1"),
         ("Save-point after step 2", "Tries", "Stock")),
        ("journeys", agent, ("My journeys", "holds 1 Jun 2030 · flight AL A1", "to come"), ("Number", "One journey")),
        ("journeys/1", agent, ("Journey 1", "under way, at 1 of 3", "T1.1", "no place was found for step 2"),
         ("Turn back to", "Do step", "My journeys")),
    )
    for path, head, has, has_not in sheets:
        browser.script("location.hash = arguments[0]", f"#/{path}")
        lacks = lambda has=has: [words for words in has if words not in browser.text("main").replace("\n", " ")]
        comes(f"{path}: what it has to print", [], lacks)
        browser.driver.execute_cdp_cmd("Emulation.setEmulatedMedia", {
            "media": "print", "features": [{"name": "prefers-color-scheme", "value": "dark"}]})
        browser.size(718, 600)
        same(f"{path}: agent, date and month", head, browser.text("#sheet"))
        same(f"{path}: controls", [], browser.names(CONTROLS))
        same(f"{path}: what it has", [], lacks())
        same(f"{path}: what it has not", [], [words for words in has_not if words in browser.text("main")])
        same(f"{path}: its ground", "rgb(255, 255, 255)", browser.script("return getComputedStyle(document.body).backgroundColor"))
        same(f"{path}: what is cut", [], browser.script("""return [...document.querySelectorAll('main, main *')].filter(one => {
            const is = getComputedStyle(one);
            // what scrolls is not broken over pages
            return one.checkVisibility() && is.overflowY !== 'visible' && !one.matches('.night, .unseen, .plan')
              && (one.matches('main, section, #cals') || one.scrollHeight > one.clientHeight + 1);
          }).map(one => one.id || one.className)"""))
        browser.driver.execute_cdp_cmd("Emulation.setEmulatedMedia", {"media": "", "features": []})
        browser.size(1280, 900)


def free_in(stock, least, first, last):
    """The products with so many places: rooms and cover on each night before the last day, others on a day."""
    cells = {}
    for line in stock.splitlines()[1:-1]:
        kind, supplier, product, night, _, _, free = line.split()
        cells.setdefault(f"{kind} {supplier} {product}", {})[night] = int(free) >= least
    days = [night for night in JUNE if first <= night <= last]
    return [name for name, free in cells.items() if (
        all(free.get(night) for night in days[:-1]) if name.startswith(("room", "cover")) else any(free.get(night) for night in days))]


def as_table(scene):
    """40 products in one table: each night as in the calendars, by mouse and by keys; a search; and all that stays in view."""
    browser, desk = scene.browser, scene.desk
    rows = [f"{('room', 'flight', 'cover', 'transfer')[n % 4]},S{n:02},PRODUCT{n % 7},{night},{(n * 5 + at * 3) % 11 + n % 3}"
            for n in range(35) for at, night in enumerate(JUNE[16 * (n // 4 % 2):][:14]) if (n + at) % 17]
    desk.load("many", rows)
    labels = "return Object.fromEntries([...document.querySelectorAll('.night')].map(one => [one.dataset.f, one.ariaLabel]))"
    comes("the calendars", 40, lambda: len(browser.all(".cal")))
    nights = browser.script(labels)
    browser.click_on('[data-f="filter.table"]')
    comes("the products", 40, lambda: len(browser.all(".grid tbody tr")))
    same("each night as in the calendars", nights, browser.script(labels))
    for width, height in SIZES:
        browser.size(width, height)
        for across, down in ((0, 0), (9e3, 9e3), (300, 200)):
            what = f"{width} by {height}, scrolled to {across} and {down}"
            browser.script("for (const one of document.querySelectorAll('main, main section, #cals')) one.scrollTo(...arguments)", across, down)
            for name in ("filter.kind", "month", "filter.places", "filter.from", "filter.to", "filter.table"):
                same(f"{what}: {name} is in view", True, browser.script(IN_VIEW, browser.one(f'[data-f="{name}"]')))
            same(f"{what}: nights, each below its day and beside its product", [], browser.script("""
                const head = document.querySelector('.grid thead th').getBoundingClientRect(), at = (x, y) => document.elementFromPoint(x, y);
                const seen = [...document.querySelectorAll('.night')].filter(one => {
                  const box = one.getBoundingClientRect();
                  one.x = box.left + box.width / 2;
                  one.y = box.top + box.height / 2;
                  return one.contains(at(one.x, one.y));
                });
                const code = ({of}) => of.slice(of.indexOf(' ') + 1);
                const wrong = seen.filter(({x, y, dataset}) => at(head.left + 40, y).closest('th')?.textContent.slice(2) !== code(dataset)
                  || !at(x, head.bottom - 6).closest('th')?.textContent.endsWith(+dataset.night.slice(8)));
                return seen.length < 20 ? [seen.length] : wrong.map(one => one.dataset.f)"""))
    browser.size(1366, 768)
    scene.chooses("room INN YARD", JUNE[9])
    scene.chooses("room INN YARD", JUNE[11])
    browser.shows("room INN YARD, Mon, 10 Jun 2030, 3 nights, leaving Thu 13 June", "#bar")
    browser.press("Drop the choice")
    same("where it was", f"room INN YARD {JUNE[9]}", browser.focus())
    browser.keys(Keys.ARROW_UP, Keys.ARROW_RIGHT)
    same("the product above, the next night", ["room INN SEA", JUNE[9]], browser.focus().rsplit(" ", 1))
    browser.keys(Keys.ARROW_DOWN, Keys.ARROW_LEFT, Keys.ENTER)
    browser.shows("room INN YARD, Sun, 9 Jun 2030, 1 night", "#bar")
    browser.keys(Keys.ESCAPE)
    browser.retypes('[data-f="filter.places"]', "2", Keys.TAB)
    browser.size(*SIZES[1])
    browser.script("document.querySelector('#cals').scrollTo(0, 0)")
    browser.gives('[data-f="filter.from"]', JUNE[9])
    for css in (".key", f'.night[data-night="{JUNE[9]}"]', "th.sought"):
        same(f"{css} of a trip is in view at {SIZES[1]}", True, browser.script(IN_VIEW, browser.one(css)))
    browser.size(*SIZES[0])
    for first, last in ((JUNE[9], JUNE[12]), (JUNE[19], JUNE[20]), (JUNE[0], JUNE[3])):
        scene.browser.gives('[data-f="filter.from"]', first)
        scene.browser.gives('[data-f="filter.to"]', last)
        expected = free_in(desk.ask("GET", "/stock")[1], 2, first, last)
        comes(f"2 places from {first} to {last}", sorted(expected), lambda: sorted({one.rsplit(" ", 1)[0] for one in browser.script(labels)}))
        browser.shows(f"{len(expected)} products, rooms and cover on each night", "#cals")
    scene.chooses("room INN YARD", JUNE[0])
    same("the places that were sought", "2", browser.one('[data-f="bar.count"]').get_attribute("value"))
    browser.driver.refresh()
    comes("they stay after a reload", len(expected), lambda: len(browser.all(".grid tbody tr")))
    scene.browser.gives('[data-f="filter.from"]', "")
    comes("all products", 40, lambda: len(browser.all(".grid tbody tr")))
