"""What the page asks the desk for beside its views: what a step would make, why one found no place, and which journey has a number
of the agency."""
import json

from selenium.webdriver.common.keys import Keys

from page_driving import wait_until
from page_network import html_page, json_page
from page_scenes import FLIGHT, JUNE, LAST, TRANSFER, comes, option, plan, same


def said_by_desk(scene):
    """What a step would make is told as the desk says it, also where the page would think otherwise. A proxy answers for the desk here."""
    browser, network, want = scene.browser, scene.network, "R/INN/YARD/2030-06-01/2/1"
    full = [{"free": 4, "night": JUNE[0]}, {"free": 0, "night": JUNE[1]}]
    # the nights and the step that the desk names, and what is said of them
    rows = ((full, "B1r", "Does not fit now: none free on 2 Jun 2030.", "turn the journey back to save-point 1, where it is."),
            (full[:1] + [{"night": JUNE[1]}], "B0r", "Does not fit now: nothing is allotted on 2 Jun 2030.", "and so undo it."),
            (full[:1] + [{"free": 3, "night": JUNE[1]}], "T2.1", "Fits now: 3 free on 2 Jun 2030, the fullest night.", LAST))
    for identity, (nights, step, fits, comes_of_it) in enumerate(rows, 1):
        scene.begins(plan(FLIGHT, option("room", "INN", "YARD", nights=2), saves=(1,)), f"by-desk-{identity}", 1)
        said = {"agent": "ann", "journey": identity, "next": "T2.1", "nights": nights, "pos": 1, "state": "run", "step": step,
                "want": want}
        network.front = lambda request, said=said: json_page(200, said) if request.where.path.endswith("/why") else None
        scene.shows_journey(identity)
        browser.shows(fits, "#next")
        browser.shows(comes_of_it, "#next")
        same(f"{step}: all steps that are left", [], [name for name in browser.names(".acts button") if "Do all" in name])
    # what the desk said of an option that is not the next one any more is not shown
    said["want"] = "R/INN/SEA/2030-06-01/2/1"
    scene.begins(plan(FLIGHT, option("room", "INN", "YARD", nights=2)), "by-desk-4", 1)
    scene.shows_journey(4)
    browser.shows("Fits now: 4 free on 1 Jun 2030, the fullest night.", "#next")


def yard(night, count=4, nights=1):
    return option("room", "INN", "YARD", JUNE[night - 1], nights, count)


LAST_SEAT = option("flight", "AL", "LAST")
# a plan, how often it is stepped before, what bob then takes, the item that comes, and what is said of it
TAKEN = (
    (plan(yard(1, 2, 3)), 0, yard(2, 3), "B0r", "(room INN YARD, 1 Jun 2030, 3 nights, leaving Tue 4 June, 2 places: only 1 free on "
     "2 Jun 2030): it turns back to the start. Nothing is held any more: the journey is undone."),
    (plan(FLIGHT, [LAST_SEAT, TRANSFER], saves=(1,), tries=1), 1, LAST_SEAT, "B1r", "(flight AL LAST, 1 Jun 2030, 1 place: none free on "
     "1 Jun 2030): it turns back to save-point 1. It is there."),
    (plan(FLIGHT, yard(8), saves=(1,), tries=1), 1, yard(8, 1), "B1r", "4 places: only 3 free on 8 Jun 2030): it turns back"),
    (plan(yard(10)), 0, yard(10, 1), "B0r", "4 places: by now 4 free): it turns back"),
    (plan(yard(12)), 0, yard(12, 1), "B0r", "12 Jun 2030, 1 night, leaving Thu 13 June, 4 places): it turns back"),
)


def taken_meanwhile(scene):
    """A step that fitted as it was shown finds no place, since bob takes it first: the page names the night that lacks it. Of the last
    two, bob gives back what he took, and a server hides the stock."""
    browser, desk, network = scene.browser, scene.desk, scene.network

    def takes(want):
        network.before = lambda: scene.begins(plan(want, FLIGHT), f"bob-{identity}", 1, "bob")

    def gives_back(request):
        if request.where.path == "/stock":
            network.front = None
            for word in ("abort/0", "step"):
                desk.post(f"/journeys/{identity + 1}/{word}", f"bob-{identity}-{word[0]}", "", "bob")
    hides = lambda request: html_page(403) if request.where.path == "/stock" else None
    for identity, (body, steps, want, item, words) in zip(range(1, 99, 2), TAKEN):
        scene.begins(body, f"taken-{identity}", steps)
        scene.shows_journey(identity)
        browser.shows("Fits now", "#next")
        takes(want)
        network.front = {7: gives_back, 9: hides}.get(identity)
        browser.press(f"Do step {steps + 1}", ".acts")
        scene.note(words)
        same(f"journey {identity}: the history", item, desk.history(identity)[-1])
    # the page is lost, and another one, which has read neither the plan nor the stock, gets the answer
    network.front = None
    identity = scene.begins(plan(yard(14)), "taken-lost")
    scene.shows_journey(identity)
    browser.shows("Fits now", "#next")
    takes(yard(14, 1))
    network.mode = "lose"
    browser.press("Do step 1", ".acts")
    browser.shows("A request got no answer", "#away")
    network.mode = "pass"
    browser.driver.refresh()
    scene.note("4 places: only 3 free on 14 Jun 2030): it turns back")


def by_booking_number(scene):
    """A journey that is begun under a number of the agency has that for its key; it is shown in the list, and found by it."""
    browser, desk, network = scene.browser, scene.desk, scene.network

    def types_number(text):
        browser.retypes('[data-f="booking"]', Keys.DELETE, text, Keys.TAB)
    browser.types("#line", "F/AL/A1/2030-06-01/1/1!0", Keys.TAB)
    types_number("A 1")
    scene.note("A booking number is 1 to 32 letters, digits and hyphens.")
    types_number("Trip-A-07")
    browser.press("Begin the journey")
    browser.shows("booking Trip-A-07", "#one")
    same("its key", ("/journeys", "ann", "Trip-A-07"), network.posts[-1][:3])
    same("its plan has no number", ["steps", "tries"], sorted(json.loads(network.posts[-1][3])))
    scene.does("Do step 1", "T1.1")
    same("the key of a step", "seen-1-0", network.posts[-1][2])
    browser.shows("booking Trip-A-07", "#list")
    # it is that of one journey alone
    browser.open(desk.url("#/plan"))
    browser.types("#line", "T/BUS/X/2030-06-01/1/1!0", Keys.TAB)
    same("the next journey has none", "", browser.one('[data-f="booking"]').get_attribute("value"))
    types_number("Trip-A-07")
    browser.press("Begin the journey")
    scene.note("The booking number Trip-A-07 is taken")
    same("nothing was begun", 1, len(desk.ask("GET", "/mine")[1]["mine"]))
    types_number("")
    browser.press("Begin the journey")
    browser.shows("Journey 2", "#h-one")
    # another client begins under numbers, of which this browser knows none; one is found in the dates too
    for booking, agent in (("30", "ann"), ("Other-4", "bob")):
        scene.begins(plan(TRANSFER), booking, agent=agent)
    browser.open(desk.url("#/journeys"))
    comes("three journeys", 3, lambda: len(browser.all("#list tbody tr")))
    scene.found_by("trip-a", 1)
    scene.found_by("Other-4")
    browser.shows("No journey matches.", "#list")
    wait_until(lambda: ("GET", "/journeys/by-key/Other-4") in [one[:2] for one in network.paths], "the desk is asked")
    scene.found_by("30", 3, 1)
    browser.shows("booking 30", "#list")
    asked = [path for _, path, _ in network.paths if "/by-key/" in path]
    same("it is asked for what is not known alone, once", ["/journeys/by-key/30", "/journeys/by-key/Other-4"], sorted(set(asked)))
    same("once", 2, len(asked))
    scene.found_by("", 3, 2, 1)
    # a desk over another file has another journey of this number
    desk.kill()
    desk.file = f"{scene.folder}/other.db"
    desk.start()
    scene.begins(plan(TRANSFER), "another")
    browser.driver.refresh()
    browser.shows("transfer BUS X", "#list")
    same("a number of another file", False, "booking" in browser.text("#list tbody"))
