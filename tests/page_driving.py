"""A desk with its page, and headless Chromium: for the scripts that try the page and draw it.
More than 200 lines: one window of the browser."""
import json
import os
import shutil
import subprocess
import time

from selenium import webdriver
from selenium.common.exceptions import (
    ElementClickInterceptedException, ElementNotInteractableException, StaleElementReferenceException,
)
from selenium.webdriver.chrome.options import Options
from selenium.webdriver.chrome.service import Service
from selenium.webdriver.common.action_chains import ActionChains
from selenium.webdriver.common.keys import Keys
from selenium.webdriver.support.ui import Select

from driving import PATIENCE, Server, asked, parts_of, request
from ports import free_port

SEEN = """const isSeen = one => one.checkVisibility({visibilityProperty: true});
const seen = css => [...document.querySelectorAll(css)].filter(isSeen);
const named = one => one.getAttribute('aria-label') || one.innerText.trim();
"""
CHROMIUM, DRIVER = shutil.which("chromium"), shutil.which("chromedriver")


def wait_until(holds, what):
    """Waits until this holds, and gives what it returned; what it looks for may be drawn anew meanwhile. What is waited for is a
    text, or a call that gives one."""
    deadline = time.monotonic() + PATIENCE
    while True:
        try:
            found = holds()
        except (StaleElementReferenceException, ElementClickInterceptedException, ElementNotInteractableException):
            found = None
        if found:
            return found
        if time.monotonic() > deadline:
            raise AssertionError(f"this did not come: {what() if callable(what) else what}")
        time.sleep(0.05)


class Desk(Server):
    """The program over a file, with its page, at a port that it keeps when it is started again. A log is kept in a file, if named."""

    def __init__(self, file, words=(), log=None):
        self.file, self.words, self.port, self.log = file, words, free_port(), log
        self.start()

    def start(self):
        words = ["--page", *self.words, *(["--log"] if self.log else [])]
        with open(self.log or os.devnull, "ab") as log:
            super().__init__(self.file, None, words=words, port=self.port, errors=log if self.log else subprocess.PIPE)
        if not self.said:
            raise RuntimeError(f"no desk at {self.port}")

    def ask(self, method, path, agent="ann", key="", body=""):
        """The status and the body of a page, of which JSON is read."""
        sent = request(method, path, key, body.encode(), agent, f"127.0.0.1:{self.port}")
        status, media, text = parts_of(asked(self.port, sent))
        return status, json.loads(text) if media == "application/json" else text.decode()

    def post(self, path, key, body="", agent="ann"):
        status, page = self.ask("POST", path, agent, key, body)
        if status != 200:
            raise AssertionError(f"{path}: {status} {page}")
        return page

    def load(self, name, rows):
        """Loads rows of a cell's five fields."""
        text = "".join(f"{row}\n" for row in ["kind,supplier,product,night,places", *rows])
        self.post(f"/batches/{name}", "load-" + name, text)

    def history(self, identity, agent="ann"):
        return self.ask("GET", f"/journeys/{identity}", agent)[1].get("history")

    def url(self, path=""):
        return f"http://127.0.0.1:{self.port}/{path}"


class Browser:
    """A window of headless Chromium of its own, which asks for these languages, with a profile that is gone at its end."""

    def __init__(self, folder, network=None, words=(), width=1280, height=900, languages="en-GB,en", choices=()):
        options = Options()
        options.binary_location = CHROMIUM
        for word in (
            "--headless=new", "--no-sandbox", "--disable-gpu", "--disable-dev-shm-usage", "--hide-scrollbars", "--lang=en-GB",
            "--force-color-profile=srgb", "--disable-background-networking", "--disable-component-update", "--no-first-run",
            f"--user-data-dir={folder}", f"--window-size={width},{height}", *words,
        ):
            options.add_argument(word)
        if network:
            options.add_argument(f"--proxy-server=http://127.0.0.1:{network.port}")
            options.add_argument("--proxy-bypass-list=<-loopback>")
        options.add_experimental_option("prefs", {"intl.accept_languages": languages, **dict(choices)})
        options.set_capability("goog:loggingPrefs", {"browser": "ALL"})
        self.network = network
        self.driver = webdriver.Chrome(service=Service(DRIVER), options=options)
        self.driver.set_page_load_timeout(PATIENCE)
        self.size(width, height)

    def size(self, width, height, factor=1):
        self.driver.execute_cdp_cmd("Emulation.setDeviceMetricsOverride", {
            "width": width, "height": height, "deviceScaleFactor": factor, "mobile": False})

    def scheme(self, name):
        self.driver.execute_cdp_cmd("Emulation.setEmulatedMedia", {"features": [
            {"name": "prefers-color-scheme", "value": name}, {"name": "prefers-reduced-motion", "value": "reduce"}]})

    def open(self, url):
        self.driver.get(url)

    def script(self, text, *words):
        return self.driver.execute_script(text, *words)

    def all(self, css):
        """What is seen of these, in the order of the page."""
        return self.script(SEEN + "return seen(arguments[0])", css)

    def new_window(self, kind="window"):
        """Opens a further window, or tab, which has the focus then; gives the one before and this one."""
        before = self.driver.current_window_handle
        self.driver.switch_to.new_window(kind)
        return before, self.driver.current_window_handle

    def replace_window(self):
        """Closes the window, and has another one in its place."""
        before, after = self.new_window()
        self.driver.switch_to.window(before)
        self.driver.close()
        self.driver.switch_to.window(after)

    def one(self, css, what=""):
        return wait_until(lambda: next(iter(self.all(css)), None), what or css)

    def named(self, name, within=""):
        """The button or link with this accessible name, or this text, once it may be pressed."""
        def find():
            return self.script(SEEN + """const [name, within] = arguments;
                return seen(`${within} button, ${within} a`)
                    .find(one => named(one) === name && one.ariaDisabled !== 'true')""", name, within)
        return wait_until(find, lambda: f"a button {name!r}; there are {self.names('main button:not(.night)')}")

    def names(self, css):
        return self.script(SEEN + "return seen(arguments[0]).map(named)", css)

    def click(self, find):
        """Clicks what is found, once it can be clicked."""
        def done():
            one = find()
            self.script("arguments[0].scrollIntoView({block: 'center'})", one)
            one.click()
            return True
        wait_until(done, "a click")

    def click_on(self, css):
        self.click(lambda: self.one(css))

    def presses_slowly(self, css):
        """Presses the button of the mouse on this, and releases it a while later, as a hand does."""
        one = self.one(css)
        self.script("arguments[0].scrollIntoView({block: 'center'})", one)
        ActionChains(self.driver).click_and_hold(one).pause(0.3).release().perform()

    def press(self, name, within=""):
        self.click(lambda: self.named(name, within))

    def types(self, css, *keys):
        """Types keys to a field."""
        wait_until(lambda: self.one(css).send_keys(*keys) is None, "a field to type to")

    def retypes(self, css, *keys):
        """Types keys to a field in place of what it has."""
        self.types(css, Keys.CONTROL + "a" + Keys.NULL, *keys)

    def gives(self, css, value):
        """Gives a whole value to a field, as a browser does whose own window chose a day."""
        self.script("""const [one, value] = arguments;
          one.value = value;
          one.dispatchEvent(new Event('change', {bubbles: true}));""", self.one(css), value)

    def picks(self, css, value):
        """Picks a value from a list."""
        wait_until(lambda: Select(self.one(css)).select_by_value(value) is None, f"{value!r} in a list")

    def keys(self, *keys):
        """Types keys to whatever has the focus."""
        for key in keys:
            ActionChains(self.driver, duration=0).send_keys(key).perform()

    def keys_with_shift(self, *keys):
        ActionChains(self.driver, duration=0).key_down(Keys.SHIFT).send_keys(*keys).key_up(Keys.SHIFT).perform()

    def focus(self):
        """What has the focus: its data-f, its accessible name, or its id."""
        return self.script("""const a = document.activeElement;
            return a.dataset.f || a.getAttribute('aria-label') || a.id || a.textContent""")

    def text(self, css="body"):
        return " ".join(self.script(SEEN + "return seen(arguments[0]).map(one => one.innerText)", css))

    def shows(self, text, css="body"):
        wait_until(lambda: text in self.text(css), lambda: f"{text!r} in {css}; it is {self.text(css)!r}")

    def works_as(self, url, agent):
        """Opens the page, and names the agent of this window."""
        self.open(url)
        self.retypes("#agent", agent, Keys.ENTER)
        self.is_up_to_date()

    def is_up_to_date(self):
        """Waits until the page says so, in its language."""
        wait_until(lambda: self.text("#state") in ("Up to date", "Aktuell"), lambda: f"up to date; it is {self.text('#state')!r}")

    def press_at(self, name):
        """Clicks the control of this data-f, in whichever language."""
        self.click_on(f'[data-f="{name}"]:not([aria-disabled])')

    def errors(self):
        """What the console has to complain of, except for pages that did not come and refusals."""
        said = [one["message"] for one in self.driver.get_log("browser") if one["level"] == "SEVERE"]
        return [text for text in said if "Failed to load resource" not in text]

    def end(self):
        self.driver.quit()
