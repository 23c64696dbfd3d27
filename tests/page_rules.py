"""The rules by which everybody can use the page, in light and dark, from 360 to 1,920 pixels, in whichever language; and views that
hold much. More than 200 lines: the rules are one list.

1. Each control, picture, table and region has a name; two controls of a kind in one view do not share one, but for nights.
2. One heading of the first level; no level is left out; each id once; the page has a language, and each view a title.
3. Words have a contrast of 4.5 with all that may be behind them, large ones 3; the borders of fields and the lines of the
   path have 3.
4. Each control is at least 24 by 24 pixels; nothing is wider than the window.
5. The tabulator comes to each control once, in the order of the page, and one sees where it is; nothing holds it back.
"""
import re
import time
from pathlib import Path

from selenium.webdriver.common.keys import Keys

from page_driving import wait_until
from page_scenes import JUNE, LINE, TWO, comes, same

# what the page shows and is to have a name, by its role in the browser's own tree for screen readers
NAMED = {
    "button", "link", "textbox", "searchbox", "combobox", "checkbox", "spinbutton", "Date", "dialog", "img", "image", "table",
    "grid", "region", "navigation", "article", "group", "log",
}
CONTROLS = {"button", "link", "textbox", "searchbox", "combobox", "checkbox", "spinbutton", "Date"}

LOOK = Path(__file__).with_suffix(".js").read_text(encoding="utf-8")


def names_of(browser):
    """What is wrong with the names, by the browser's own tree for screen readers."""
    wrong, seen, inner = [], set(), set()
    for node in browser.driver.execute_cdp_cmd("Accessibility.getFullAXTree", {})["nodes"]:
        # what a date is made of is the browser's own
        if node.get("role", {}).get("value") == "Date" or node["nodeId"] in inner:
            inner.update(node.get("childIds", ()))
        if node["nodeId"] in inner:
            continue
        role, name = node.get("role", {}).get("value"), node.get("name", {}).get("value", "").strip()
        if node.get("ignored") or role not in NAMED:
            continue
        if not name:
            wrong.append(f"a {role} has no name")
        elif role in CONTROLS and not re.search(r" (free|frei), ", name):
            if (role, name) in seen:
                wrong.append(f"more than one {role} is named {name!r}")
            seen.add((role, name))
    return wrong


def settles(browser):
    """Waits until the page is drawn in its new size; a journey is drawn anew a while after it."""
    browser.driver.execute_async_script("const done = arguments[0]; requestAnimationFrame(() => requestAnimationFrame(done))")
    if browser.script("return document.body.dataset.view") == "journey":
        time.sleep(0.25)


def look_at(browser, what, schemes=("dark", "light")):
    """No rule is broken by what is shown."""
    # the browser completes its tree a while after the page
    comes(f"{what}: names", [], lambda: names_of(browser))
    for scheme in schemes:
        browser.scheme(scheme)
        for width in (360, 1280, 1920):
            browser.size(width, 900)
            settles(browser)
            same(f"{what}, {scheme}, {width} pixels", [], browser.script(LOOK))
    browser.size(1280, 900)


def views(scene):
    """Shows each view in each of its forms, in whichever language, and gives what is shown."""
    browser, desk = scene.browser, scene.desk
    yield "stock"
    scene.chooses("room INN SEA", JUNE[2])
    yield "a night that is chosen"
    browser.press_at("bar.step")
    browser.press_at("filter.table")
    browser.one(".grid")
    yield "the stock as a table"
    browser.press_at("filter.table")
    browser.gives('[data-f="filter.from"]', JUNE[9])
    yield "the stock of a trip"
    browser.gives('[data-f="filter.from"]', "")
    scene.chooses("room INN YARD", JUNE[2])
    yield "a night that may become an option"
    browser.open(desk.url("#/plan"))
    yield "a plan of one step"
    scene.plans(LINE)
    scene.network.instead = (400, {"cause": "night", "name": "BadPlan", "refused": 5, "step": 2})
    browser.press_at("begin")
    browser.one(".step.isbad")
    yield "a plan that is refused"
    browser.press_at("clear")
    browser.one("dialog[open]")
    yield "a question"
    browser.click_on("#sure-no")
    browser.press_at("begin")
    browser.one(".path svg")
    yield "a journey that is begun"
    for path in ("step", "step", "step", "save", "abort/1"):
        desk.post(f"/journeys/1/{path}", f"rule-{len(desk.history(1))}", "")
    browser.shows("B1a", "ol.items")
    yield "a journey that goes back"
    for n in range(3):
        desk.post("/journeys/1/step", f"last-{n}", "")
    browser.one("#one .is.ended")
    yield "a journey that has ended"
    undone = scene.begins(TWO, "undone")
    desk.post(f"/journeys/{undone}/abort/0", "undo", "")
    scene.begins(TWO, "other", 1)
    browser.open(desk.url("#/journeys"))
    comes("three journeys", 3, lambda: len(browser.all("#list tbody tr")))
    yield "the list"
    scene.desk.kill()
    browser.one("#away p")
    yield "no desk"
    desk.start()
    browser.click_on("#who")
    yield "who works here"


def rules(scene):
    for what in views(scene):
        look_at(scene.browser, what)


FOCUS = """const a = document.activeElement, style = getComputedStyle(a), box = a.getBoundingClientRect();
let down = 0;
for (let at = a; at; at = at.parentElement) down += at.scrollTop;
if (a === document.body) return null;
return {at: [...document.querySelectorAll('*')].indexOf(a), what: a.dataset.f || a.getAttribute('aria-label') || a.id || a.textContent,
  ring: style.outlineStyle !== 'none' && parseFloat(style.outlineWidth) >= 2, inMain: !!a.closest('main'),
  left: box.left, top: box.top + down, right: box.right, bottom: box.bottom + down};"""
ALL = """const all = [...document.querySelectorAll('a[href], button, input, select, [tabindex="0"]')];
return all.filter(a => a.tabIndex >= 0 && a.checkVisibility({visibilityProperty: true}))
  .map(a => a.dataset.f || a.getAttribute('aria-label') || a.id || a.textContent);"""
FROM_THE_START = """const first = document.createElement('span'); first.tabIndex = -1;
document.body.prepend(first); first.focus(); first.remove();"""


def comes_to_all(browser, what):
    """The tabulator comes to each control once, in the order of the page, and one sees where it is."""
    browser.script(FROM_THE_START)
    stops = []
    for _ in range(200):
        browser.keys(Keys.TAB)
        stop = browser.script(FOCUS)
        if stop is None or (len(stops) > 1 and stop["at"] == stops[0]["at"]):
            break
        # a date is one control with some stops
        if not stops or stop["at"] != stops[-1]["at"]:
            stops.append(stop)
    same(f"{what}: what the tabulator comes to", browser.script(ALL), [stop["what"] for stop in stops])
    for before, after in zip(stops, stops[1:]):
        pair = f"{what}: {before['what']} and then {after['what']}"
        same(f"{pair}: the order of the page", True, before["at"] < after["at"])
        is_left = before["inMain"] == after["inMain"] and after["right"] <= before["left"]
        is_back = is_left and (after["bottom"] <= before["top"] or abs(after["top"] - before["top"]) < 4)
        same(f"{pair}: the order that is seen", False, is_back)
    for stop in stops:
        same(f"{what}: one sees that the focus is at {stop['what']}", True, stop["ring"])


def focus_order(scene):
    browser = scene.browser
    scene.plans(LINE)
    browser.picks('[data-f="filter.kind"]', "room")
    comes("rooms", 2, lambda: len(browser.all(".cal")))
    for width in (1280, 360):
        browser.size(width, 900)
        comes_to_all(browser, f"a new journey, {width} pixels")
    browser.size(1280, 900)
    scene.begins(TWO, "focus", 1)
    scene.shows_journey(1)
    browser.shows("X", "#list")
    for width in (1280, 360):
        browser.size(width, 900)
        time.sleep(0.4)
        comes_to_all(browser, f"a journey, {width} pixels")
    browser.size(1280, 900)
    browser.open(scene.desk.url("#/journeys"))
    browser.driver.refresh()
    browser.one("#list tbody tr")
    browser.keys(Keys.TAB)
    wait_until(lambda: browser.script("return document.activeElement.className") == "skip", "the link that skips comes first")
    browser.keys(Keys.ENTER)
    same("it skips to the content", "main", browser.script("return document.activeElement.id"))


def first_visit(scene):
    """A browser that was never here is asked who works here, and the question has the focus."""
    browser = scene.browser
    browser.open(scene.desk.url())
    comes("the focus", "agent", lambda: browser.script("return document.activeElement.id"))
    look_at(browser, "the first visit")
    comes_to_all(browser, "the first visit")
    browser.driver.switch_to.active_element.click()
    browser.types("#agent", "ann\n")
    browser.is_up_to_date()


first_visit.without_agent = True


def large(scene):
    """1,000 journeys of an agent, and 2,000 cells in a month: all are there, and nothing becomes too wide."""
    browser, desk = scene.browser, scene.desk

    def has_plans(count):
        """So many journeys of the list have their plans, so that nothing below them moves any more."""
        comes("the plans", count, lambda: len(browser.all("#list tbody .plan")))

    have = len(desk.ask("GET", "/stock")[1].splitlines()) - 2
    june = [f"room,S{n:03},DBL,{night},{n + 1}" for n in range(66) for night in JUNE][:2000 - have]
    desk.load("large", june)
    for n in range(1000):
        desk.post("/journeys", f"large-{n}", TWO)
        if n % 10 < 9:
            desk.post(f"/journeys/{n + 1}/abort/0", f"undo-{n}")
    same("the cells", 2000, len(desk.ask("GET", "/stock")[1].splitlines()) - 2)
    here = browser.driver.current_url
    # the page as it is would go on asking until it is loaded anew
    browser.open("about:blank")
    browser.open(here)
    comes("the nights", 2000, lambda: browser.script("return document.querySelectorAll('.night').length"))
    browser.press("My journeys (100)")
    browser.shows("all (1000)", "#list")
    paths = [path for _, path, _ in scene.network.paths]
    pages = [path for path in paths[len(paths) - paths[::-1].index("/") :] if path.startswith("/mine")]
    same("each page of own journeys is read once", ["/mine", *(f"/mine/{n}" for n in range(100, 1001, 100))], pages[:11])
    same("and then what may be new", {"/mine/1000"}, {"/mine/1000", *pages[11:]})
    same("the newest is first", "Journey 1000", browser.names("#list tbody a")[0])
    browser.picks('[data-f="list.state"]', "open")
    browser.shows("not finished (100)", "#list")
    comes("those under way", ["Journey 1000", "Journey 990"], lambda: browser.names("#list tbody a")[:2])
    has_plans(50)
    browser.press("Show 50 more of 100")
    comes("all of them", "Journey 10", lambda: browser.names("#list tbody a")[-1])
    # others are listed while the plans of the first ones are still to come
    scene.network.gets.hold()
    browser.picks('[data-f="list.state"]', "")
    browser.types('[data-f="list.text"]', "77")
    comes("those of a number", 11, lambda: len(browser.all("#list tbody tr")))
    scene.network.gets.release()
    has_plans(11)
    browser.press("Journey 77")
    browser.shows("undone", "#one")
    browser.open(desk.url("#/stock"))
    comes("the nights", 2000, lambda: browser.script("return document.querySelectorAll('.night').length"))
    for width in (360, 1920):
        browser.size(width, 900)
        same(f"{width} pixels", width, browser.script("return Math.max(document.documentElement.scrollWidth, innerWidth)"))
    scene.night("room S064 DBL", JUNE[-1])
    browser.script("arguments[0].focus()", scene.night("room S064 DBL", JUNE[0]))
    browser.keys(*[Keys.ARROW_RIGHT] * 5)
    same("the arrows", f"room S064 DBL {JUNE[5]}", browser.focus())
