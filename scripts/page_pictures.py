#!/usr/bin/python3
"""Makes the pictures of the page for agents, docs/pictures/page_*.png, of a desk with a month of an agency, in headless Chromium.

It needs chromium, chromium-driver, python3-selenium and python3-pil, and the program: that of the environment variable DESK, or the one
that ./build made. The pictures are not compared by the gate, since fonts differ from one machine to another: look at them.

scripts/page_pictures.py [NAME ..]   makes all, or those of these names
"""
import datetime
import io
import os
import sys
import tempfile
import time

sys.dont_write_bytecode = True
TOP = os.path.dirname(os.path.dirname(os.path.abspath(__file__)))
os.environ.setdefault("DESK", os.path.join(TOP, "crates/desk/out/desk"))
os.environ["LANGUAGE"] = "en_GB"
sys.path.insert(0, os.path.join(TOP, "tests"))
from PIL import Image
from selenium.webdriver.common.keys import Keys

from page_driving import Browser, Desk, wait_until
from page_network import Network
from page_scenes import option, plan

FIRST = datetime.date(2030, 6, 1)
# products with the places of each night of June, by the day's number from 0
PRODUCTS = {
    "flight,AL,OSLO1": lambda n: (9, 5, 9, 9, 7, 0, 9)[n % 7], "flight,AL,OSLO2": lambda n: (30, 30, 24, 30)[n % 4],
    "room,FJORD,DBL": lambda n: 12, "room,FJORD,SUITE": lambda n: 2, "room,INN,DBL": lambda n: 20, "room,INN,SEA": lambda n: 6,
    "transfer,BUS,PIER": lambda n: 16 if n % 2 == 0 else None, "cover,CO,TRIP": lambda n: 500,
}


def want(product, day, nights=1, count=2):
    return option(*product.split(","), str(FIRST + datetime.timedelta(day)), nights, count)


def trip(day, nights=3, count=2):
    """A flight, a room or another one, a transfer and a flight back."""
    return [
        [want("flight,AL,OSLO1", day, 1, count)], [want("room,FJORD,SUITE", day, nights, count), want("room,FJORD,DBL", day, nights, count)],
        [want("transfer,BUS,PIER", day - day % 2, 1, count)], [want("flight,AL,OSLO2", day + nights, 1, count)],
    ]


class Agency:
    """A desk with a month, other agents' journeys, and ann's."""

    def __init__(self, folder):
        self.keys = 0
        self.desk = Desk(f"{folder}/trips.db")
        nights = [(product, FIRST + datetime.timedelta(n), places(n)) for product, places in PRODUCTS.items() for n in range(30)]
        self.desk.load("june", [f"{product},{night},{places}" for product, night, places in nights if places is not None])
        for n in range(24):
            self.journey("bob", [[want("room,INN,DBL", n % 9 + 2, 4 + n % 3, 1 + n % 2)], [want("room,INN,SEA", n % 11 + 5, 5, 1)], [want("flight,AL,OSLO2", n % 12, 1, 1 + n % 5)]], 3)
        for day in (8, 10, 12, 19):
            self.journey("bob", [[want("room,FJORD,SUITE", day, 2, 1)], [want("room,FJORD,DBL", day, 6, 2)]], 2)
        for n, steps in enumerate((4, 4, 1, 2, 5, 4, 0, 3)):
            self.journey("ann", trip(13 + n, 2 + n % 3), steps, (1,))
        self.path = self.journey("ann", trip(9), 0, (1,))
        for word in ("step", "step", "step", "save", "step", "abort/2", "step"):
            self.post("ann", f"/journeys/{self.path}/{word}")
        back = self.journey("ann", trip(20), 3, (1,))
        self.post("ann", f"/journeys/{back}/abort/0")

    def post(self, agent, path, body=""):
        self.keys += 1
        return self.desk.ask("POST", path, agent, f"k{self.keys}", body)[1]

    def journey(self, agent, steps, moves, saves=()):
        identity = self.post(agent, "/journeys", plan(*steps, saves=saves, tries=1))["journey"]
        for _ in range(moves):
            self.post(agent, f"/journeys/{identity}/step")
        return identity


class Camera:
    """A browser that keeps what it shows."""

    def __init__(self, agency, browser, names):
        self.agency, self.browser, self.names = agency, browser, names

    def opens(self, path, shows, css="main"):
        self.browser.open(self.agency.desk.url(path))
        self.browser.shows(shows, css)

    def keeps(self, name, width=1280, height=860):
        """Keeps what is shown as a picture of this size."""
        if self.names and name not in self.names:
            return
        self.browser.size(width, height)
        time.sleep(0.6)
        path = os.path.join(TOP, "docs/pictures", f"page_{name}.png")
        shown = Image.open(io.BytesIO(self.browser.driver.get_screenshot_as_png()))
        shown.convert("RGB").quantize(256, dither=Image.Dither.NONE).save(path, optimize=True)
        self.browser.size(1280, 860)
        print(f"docs/pictures/page_{name}.png {os.path.getsize(path)}")


def take(camera, network):
    agency, browser = camera.agency, camera.browser
    browser.open(agency.desk.url())
    browser.one("#agent")
    camera.keeps("who", 900, 420)
    browser.works_as(agency.desk.url(), "ann")
    browser.one('.night[data-of="room FJORD SUITE"]')
    camera.keeps("stock")
    browser.click_on('[data-f="filter.table"]')
    browser.retypes('[data-f="filter.places"]', "2", Keys.TAB)
    for name, day in (("from", "2030-06-10"), ("to", "2030-06-13")):
        browser.gives(f'[data-f="filter.{name}"]', day)
    browser.shows("2 places free from Mon, 10 June 2030 to Thu, 13 June 2030", "#cals")
    browser.script("document.activeElement.blur()")
    camera.keeps("table", 1366, 520)
    browser.gives('[data-f="filter.from"]', "")
    browser.retypes('[data-f="filter.places"]', "1", Keys.TAB)
    browser.click_on('[data-f="filter.table"]')
    for night in ("2030-06-10", "2030-06-12"):
        browser.click_on(f'.night[data-of="room FJORD SUITE"][data-night="{night}"]')
    camera.keeps("chosen")
    browser.press("Drop the choice")
    browser.gives("#line", "F/AL/OSLO1/2030-06-10/1/2*;R/FJORD/SUITE/2030-06-10/3/2|R/FJORD/DBL/2030-06-10/3/2;T/BUS/PIER/2030-06-11/1/2!1")
    wait_until(lambda: len(browser.all(".step")) == 3, "three steps")
    browser.script("document.querySelector('#cals').scrollTo(0, 0)")
    camera.keeps("plan", 1280, 1030)
    camera.opens("#/journeys", "all (10)")
    time.sleep(1)
    camera.keeps("journeys", 1280, 760)
    camera.opens(f"#/journeys/{agency.path}", "C3.1")
    camera.keeps("journey", 1280, 1000)
    browser.press("Turn back to save-point 1", ".acts")
    browser.one("dialog[open]")
    camera.keeps("question", 1280, 620)
    browser.click_on("#sure-no")
    network.instead = (409, {"name": "Finished", "refused": 10})
    browser.press("Do step 3", ".acts")
    browser.shows("Refused", "#notes")
    camera.keeps("refused", 1280, 620)
    browser.press("Close: Step 3 of journey %d: The journey has ended or is undone. It cannot be changed any more." % agency.path)
    browser.scheme("dark")
    camera.keeps("dark", 1280, 900)
    camera.opens("#/stock", "FJORD DBL", "#cals")
    browser.script("document.querySelector('#cals').scrollTo(0, 0)")
    camera.keeps("narrow", 360, 720)
    browser.scheme("light")
    camera.opens(f"#/journeys/{agency.path}", "C3.1")
    network.mode = "hold"
    browser.press("Do step 3", ".acts")
    wait_until(lambda: len(network.posts) > 1, "the request")
    agency.desk.kill()
    network.let_go.set()
    browser.shows("The desk cannot be reached", "#away")
    camera.keeps("away", 1280, 520)


def take_german(camera):
    """The journey, in German."""
    agency, browser = camera.agency, camera.browser
    browser.works_as(agency.desk.url(), "ann")
    camera.opens(f"#/journeys/{agency.path}", "C3.1")
    browser.shows("16 frei", ".acts")
    time.sleep(1)
    camera.keeps("german", 1280, 760)


def main(names):
    with tempfile.TemporaryDirectory() as folder:
        os.environ["HOME"] = folder
        agency, network = Agency(folder), Network()
        browser = Browser(f"{folder}/profile", network, width=1280, height=860)
        german = Browser(f"{folder}/german", network, width=1280, height=860, languages="de-DE,de")
        try:
            for one in (german, browser):
                one.scheme("light")
            take_german(Camera(agency, german, names))
            take(Camera(agency, browser, names), network)
        finally:
            browser.end()
            german.end()
            network.end()
            agency.desk.kill()


if __name__ == "__main__":
    main(sys.argv[1:])
