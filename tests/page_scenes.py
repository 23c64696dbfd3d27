"""What agents do at the page, as scenes over a new desk: each tells what went wrong by an AssertionError.
More than 200 lines: the scenes that all others are built like, with the harness."""
from selenium.webdriver.common.keys import Keys

from driving import option, plan
from page_driving import Browser, Desk, wait_until
from page_network import Network, json_page

JUNE = [f"2030-06-{day:02}" for day in range(1, 31)]
LINE = "F/AL/A1/2030-06-01/1/1*;R/INN/SEA/2030-06-01/2/1|R/INN/YARD/2030-06-01/2/1;T/BUS/X/2030-06-01/1/1!1"
SHORT_LINE = "F/AL/A1/2030-06-01/1/1*;T/BUS/X/2030-06-01/1/1!0"
START = "Turn back to the start"


def same(what, expected, found):
    if expected != found:
        raise AssertionError(f"{what}\n  expected: {expected!r}\n  found:    {found!r}")


def comes(what, expected, find):
    """Waits until this is found."""
    found = []

    def holds():
        found[:] = [find()]
        return found == [expected]
    try:
        wait_until(holds, what)
    except AssertionError:
        same(what, expected, found[0])


FLIGHT, TRANSFER = option("flight", "AL", "A1"), option("transfer", "BUS", "X")
TWO = plan(FLIGHT, TRANSFER, saves=(1,))


class Scene:
    """A desk with places in June, a network, and a browser before both."""

    def __init__(self, folder, spoil=None, agent="ann", languages="en-GB,en"):
        self.folder, self.spoil = folder, spoil
        self.desk = Desk(f"{folder}/trips.db")
        self.network = Network(spoil)
        self.browser = None
        try:
            rows = [f"flight,AL,A1,{JUNE[0]},9", f"transfer,BUS,X,{JUNE[0]},9", f"flight,AL,LAST,{JUNE[0]},1"]
            rows += [f"room,INN,SEA,{night},{0 if night == JUNE[1] else 4}" for night in JUNE[:10]]
            rows += [f"room,INN,YARD,{night},4" for night in JUNE]
            self.desk.load("june", rows)
            self.browser = Browser(f"{folder}/profile", self.network, languages=languages)
            if agent:
                self.browser.works_as(self.desk.url(), agent)
        except BaseException:
            self.end()
            raise

    def end(self):
        if self.browser:
            self.browser.end()
        self.network.end()
        self.desk.kill()

    def night(self, product, when):
        return self.browser.one(f'.night[data-of="{product}"][data-night="{when}"]')

    def chooses(self, product, when):
        self.browser.click(lambda: self.night(product, when))

    def kept(self):
        """How many requests the browser keeps to be sent."""
        return self.browser.script("return Object.keys(localStorage).filter(key => key.startsWith('desk.post.')).length")

    def note(self, text):
        self.browser.shows(text, "#notes")

    def becomes(self, agent):
        """Another agent works here than ann, once a name that is no agent's was refused."""
        browser = self.browser
        browser.press("Agent ann, change")
        browser.types("#agent", "No Agent\n")
        self.note("An agent is 1 to 16 small letters and digits.")
        browser.one("#agent").clear()
        browser.types("#agent", f"{agent}\n")
        browser.shows(f"Agent {agent}", "#who")

    def may(self, *names):
        """The buttons of the journey that is shown are these, and no others."""
        comes("what may be done now", list(names), lambda: self.browser.names(".acts button:not([aria-disabled])"))

    def does(self, button, item, identity=1):
        """Presses this button; the journey then ends with this item."""
        self.browser.press(button, ".acts")
        comes(f"{button}: the item", item, lambda: (self.desk.history(identity) or [""])[-1])
        self.browser.shows(item, "ol.items")

    def turns(self, button, item):
        """Presses a button that asks once more, and says yes."""
        self.browser.press(button, ".acts")
        self.browser.one("dialog[open]")
        self.does_yes(item)

    def does_yes(self, item):
        self.browser.click_on("#sure-yes")
        comes("the item", item, lambda: self.desk.history(1)[-1])
        self.browser.shows(item, "ol.items")

    def begins(self, body=TWO, key="b1", steps=0, agent="ann"):
        """A journey that was begun, and stepped, without the page."""
        identity = self.desk.post("/journeys", key, body, agent)["journey"]
        for n in range(steps):
            self.desk.post(f"/journeys/{identity}/step", f"{key}-{n}", "", agent)
        return identity

    def plans(self, line, steps=0):
        """Opens the new journey, and puts it together by a plan line of so many steps."""
        self.browser.open(self.desk.url("#/plan"))
        self.browser.retypes("#line", line, Keys.TAB)
        comes("the steps", steps or line.count(";") + 1, lambda: len(self.browser.all(".step")))

    def found_by(self, text, *journeys):
        """The list, searched by this text, has these journeys."""
        self.browser.retypes('[data-f="list.text"]', Keys.DELETE, text)
        comes(f"found by {text}", [f"Journey {n}" for n in journeys], lambda: self.browser.names("#list tbody a"))

    def shows_journey(self, identity):
        self.browser.open(self.desk.url(f"#/journeys/{identity}"))
        self.browser.shows(f" {identity}", "#h-one")
        self.browser.one(".path svg")


def is_ended(scene):
    """The journey of LINE has ended; its picture shows what stands and what was undone."""
    browser = scene.browser
    scene.may()
    browser.shows("The journey has ended", ".acts")
    same("the history", ["T1.1", "B1r", "T2.2", "S2", "B1a", "C2.2", "T2.2", "T3.1"], scene.desk.history(1))
    counts = [browser.script("return document.querySelectorAll(arguments[0]).length", f".path {name}") for name in (
        "path.stands", "path.gone", "path.down", "circle.turned", "path.turning")]
    same("the picture: stands, undone, given back, turns, turns that lead lower", [3, 1, 1, 2, 1], counts)
    said = browser.script("return document.querySelector('.path desc').textContent")
    for words in (
        "B1r: turned back to save-point 1: no place was found for step 2 (room INN SEA, 1 Jun 2030, 2 nights, "
        "leaving Mon 3 June, 1 place)",
        "T2.2: step 2 done with option 2", "S2: save-point taken at 2", "B1a: turned back to save-point 1: as asked",
        "C2.2: step 2 given back",
    ):
        same(f"the picture says {words}", True, words in said)
    same("the console", [], browser.errors())


def by_clicks(scene):
    """A journey of three steps with options and a save-point is put together, stepped, refused, turned back and ended."""
    browser = scene.browser
    scene.chooses("flight AL A1", JUNE[0])
    browser.press("Add as step 1")
    scene.chooses("room INN SEA", JUNE[0])
    scene.chooses("room INN SEA", JUNE[1])
    browser.shows("Does not fit now: none free on 2 Jun 2030", "#bar")
    browser.press("Add as step 2")
    scene.chooses("room INN YARD", JUNE[0])
    browser.shows("Fits now: 4 free", "#bar")
    browser.types('[data-f="bar.nights"]', Keys.BACKSPACE, "2")
    browser.press("Add as an option of the step that is named next")
    scene.chooses("transfer BUS X", JUNE[0])
    browser.press("Add as step 3")
    browser.click_on('[data-f="save.0"]')
    browser.types('[data-f="tries"]', Keys.BACKSPACE, "1", Keys.TAB)
    comes("the plan line", LINE, lambda: browser.one("#line").get_attribute("value"))
    browser.press("Begin the journey")
    scene.may("Do step 1", "Do all 3 steps that are left", START)
    same("the plan", LINE.count(";"), browser.text(".planned").count("Step") - 1)
    scene.does("Do step 1", "T1.1")
    scene.may("Do step 2", "Turn back to save-point 1", START)
    scene.does("Do step 2", "B1r")
    scene.note("the step found no place (room INN SEA, 1 Jun 2030, 2 nights, leaving Mon 3 June, 1 place: none free on 2 Jun 2030): "
               "it turns back to save-point 1. It is there.")
    scene.may("Do step 2", "Do all 2 steps that are left", "Turn back to save-point 1", START)
    scene.does("Do step 2", "T2.2")
    scene.may("Do step 3", "Take save-point 2", "Turn back to save-point 1", START)
    scene.does("Take save-point 2", "S2")
    scene.may("Do step 3", "Turn back to save-point 2", "Turn back to save-point 1", START)
    browser.press(START, ".acts")
    browser.shows("2 steps will then be given back, one at a time, and the journey will be undone", "dialog")
    browser.click_on("#sure-no")
    same("left as it is", "S2", scene.desk.history(1)[-1])
    scene.turns("Turn back to save-point 1", "B1a")
    scene.may("Give back step 2", START)
    scene.does("Give back step 2", "C2.2")
    scene.does("Do step 2", "T2.2")
    scene.does("Do step 3", "T3.1")
    is_ended(scene)


def tab_to(browser, name, most=60):
    """Presses the tabulator until this has the focus."""
    passed = []
    for _ in range(most):
        if browser.focus() == name:
            return
        browser.keys(Keys.TAB)
        passed.append(browser.focus())
    raise AssertionError(f"the tabulator does not come to {name!r}; it came to {passed}")


# the buttons by their data-f, and the items that come of them
PRESSED = (
    ("step", "T1.1"), ("step", "B1r"), ("step", "T2.2"), ("mark", "S2"), ("turn.1", "B1a"), ("step", "C2.2"), ("step", "T2.2"),
    ("step", "T3.1"),
)


def by_keys(scene):
    """The same by the keyboard alone: no element is clicked or focused by a script."""
    browser = scene.browser
    tab_to(browser, "flight AL A1 2030-06-01")
    browser.keys(Keys.ENTER)
    same("the focus after a night is chosen", "bar.step", browser.focus())
    browser.keys(Keys.ENTER)
    same("the focus after a step was added", "flight AL A1 2030-06-01", browser.focus())
    tab_to(browser, "room INN SEA 2030-06-01")
    browser.keys(Keys.ARROW_RIGHT, Keys.ARROW_DOWN, Keys.END, Keys.HOME)
    same("arrows come back", "room INN SEA 2030-06-01", browser.focus())
    browser.keys(Keys.SPACE, Keys.ESCAPE)
    same("a choice that is dropped", "room INN SEA 2030-06-01", browser.focus())
    browser.keys(Keys.SPACE)
    browser.keys(Keys.ESCAPE)
    browser.keys(Keys.SPACE)
    browser.keys_with_shift(Keys.TAB, Keys.TAB)
    same("back to the nights", "bar.nights", browser.focus())
    browser.keys("2", Keys.TAB)
    same("the next field", "bar.count", browser.focus())
    browser.keys("1", Keys.TAB)
    same("the next control", "bar.step", browser.focus())
    browser.keys(Keys.ENTER)
    tab_to(browser, "room INN YARD 2030-06-01")
    browser.keys_with_shift(Keys.ARROW_RIGHT)
    browser.keys(Keys.ENTER)
    browser.shows("room INN YARD, Sat, 1 Jun 2030, 2 nights, leaving Mon 3 June", "#bar")
    tab_to(browser, "bar.option")
    browser.keys(Keys.ENTER)
    tab_to(browser, "transfer BUS X 2030-06-01")
    browser.keys(Keys.SPACE, Keys.ENTER)
    tab_to(browser, "save.0")
    browser.keys(Keys.SPACE)
    tab_to(browser, "tries")
    browser.keys(Keys.ARROW_UP, Keys.TAB)
    comes("the plan line", LINE, lambda: browser.one("#line").get_attribute("value"))
    tab_to(browser, "begin")
    browser.keys(Keys.ENTER)
    comes("the view", "Journey 1", lambda: browser.text("#h-one"))
    same("the focus in a view that was opened", "h-one", browser.focus())
    browser.named("Do step 1", ".acts")
    browser.keys(Keys.TAB)
    same("what comes next", "step", browser.focus())
    for n, (name, item) in enumerate(PRESSED, 1):
        tab_to(browser, name)
        comes(f"{item}: it may be pressed", None, lambda: browser.script("return document.activeElement.ariaDisabled"))
        browser.keys(Keys.ENTER)
        if name.startswith("turn"):
            same("the focus in the question", "sure-no", browser.focus())
            browser.keys(Keys.ESCAPE)
            same("the focus after the question", name, browser.focus())
            browser.keys(Keys.ENTER, Keys.TAB, Keys.ENTER)
        comes(f"{item}: the items that are shown", n, lambda: len(browser.all("ol.items li")))
        same(item, item, scene.desk.history(1)[-1])
        if item in ("T1.1", "B1r"):
            comes("the focus stays at the step", "step", browser.focus)
    is_ended(scene)


# the refusals of a request, but for that of a plan
NAMES = (
    "BadHead", "NoAgent", "NoKey", "BadBody", "UnknownPath", "WrongMethod", "NoJourney", "Finished", "NoSavePoint", "NoSave",
    "KeyReused", "TooLarge", "Limit", "NoLength",
)


def refusals_in_words(scene):
    """Each refusal that the desk may give is said in words of its own."""
    browser = scene.browser
    scene.begins()
    scene.shows_journey(1)
    said = set()
    for number, name in enumerate(NAMES):
        scene.network.instead = (409, {"name": name, "refused": number + 1})
        browser.press("Do step 1", ".acts")
        text = wait_until(lambda: next((text for text in browser.names(".note.isbad p, .note.iswarn p") if text not in said), ""), f"words for {name}")
        same(f"{name} is put in words", False, name in text or "The desk refused it" in text)
        said.add(text)
        scene.may("Do step 1", "Do all 2 steps that are left", START)
    same("nothing is kept to be retried", 0, scene.kept())
    browser.open(scene.desk.url("#/plan"))
    browser.types("#line", "F/AL/A1/2030-06-01/1/1!0", Keys.TAB)
    scene.network.instead = (400, {"cause": "night", "name": "BadPlan", "refused": 5, "step": 1})
    browser.press("Begin the journey")
    scene.note("The plan is refused: in step 1, its first night is no day from 2000 to 2099.")
    browser.one(".step.isbad")


def refused_by_the_desk(scene):
    """What another client did after the page's last look makes the desk refuse; the page says why, and then shows what is."""
    browser = scene.browser
    rows = (
        (["step"], "Take save-point 1", "save", "No save-point can be taken here"),
        (["step", "save", "abort/0"], "Turn back to save-point 1", None, "The journey cannot turn back to there"),
        (["step"], "Do step 2", "abort/0 step", "The journey has ended or is undone"),
    )
    for n, (before, button, meanwhile, words) in enumerate(rows, 1):
        identity = scene.begins(plan(FLIGHT, TRANSFER), key=f"b{n}")
        if meanwhile is None:
            before, meanwhile = before[:-1], before[-1]
        for k, word in enumerate(before):
            scene.desk.post(f"/journeys/{identity}/{word}", f"b{n}-{k}")
        scene.shows_journey(identity)
        browser.named(button, ".acts")

        def does_meanwhile(identity=identity, words=meanwhile.split(), key=f"m{n}"):
            for k, word in enumerate(words):
                scene.desk.post(f"/journeys/{identity}/{word}", f"{key}-{k}")
        scene.network.before = does_meanwhile
        browser.press(button, ".acts")
        if browser.all("dialog[open]"):
            browser.click_on("#sure-yes")
        scene.note(words)
        comes("what may be done then", False, lambda: button in browser.names(".acts button"))
        same(f"it is still told: {words!r}", True, words in browser.text("#notes"))


SEA = option("room", "INN", "SEA", nights=2)
TURNS, LAST = "As it is now, it would turn the journey back ", "This is the last step."
UNDOES = TURNS + "to its start, and so undo it."
# a plan, and what is said before each press: the item that then comes, what is said, and what is not
SAID_BEFORE = (
    (plan(FLIGHT), (("T1.1", LAST, TURNS),)),
    (plan(SEA, TRANSFER), (("B0r", UNDOES, LAST),)),
    (plan(FLIGHT, TRANSFER, SEA, saves=(1,), tries=1), (
        ("T1.1", "Fits now", LAST), ("T2.1", "Fits now", TURNS), ("B1r", TURNS + "to save-point 1.", ", where it is"),
        ("C2.1", "The journey goes back to save-point 1", LAST), ("T2.1", "Fits now", LAST),
        ("B0r", TURNS + "to its start, since no tries are left, and so undo it.", "save-point"))),
    (plan(FLIGHT, SEA, saves=(1,), tries=1), (("T1.1", "Fits now", TURNS), ("B1r", TURNS + "to save-point 1, where it is.", "undo"))),
)


def is_older(request):
    """The answer of a desk that does not say what a step would make, where it is asked for that."""
    return json_page(404, {"name": "UnknownPath", "refused": 7}) if request.where.path.endswith("/why") else None


def said_before(scene):
    """What cannot be undone, and what comes of a step that does not fit, is said before the press; it then comes so."""
    for identity, (body, presses) in enumerate(SAID_BEFORE, 1):
        scene.begins(body, f"said-{identity}")
        scene.shows_journey(identity)
        for item, words, others in presses:
            scene.browser.shows(words, ".acts > :last-child")
            same(f"journey {identity}, before {item}: {others}", False, others in scene.browser.text(".acts > :last-child"))
            scene.does(scene.browser.names(".acts button.main")[0], item, identity)


def said_by_page(scene):
    """The same, before a desk that leaves it to the page."""
    scene.network.front = is_older
    said_before(scene)


def all_steps(scene):
    """All steps that are left are done after a question, up to the first that does not fit, or that found no place."""
    browser, desk, network = scene.browser, scene.desk, scene.network
    yard, last = option("room", "INN", "YARD"), option("flight", "AL", "LAST")
    three = option("room", "INN", "SEA", count=3)
    # a plan; what comes of all its steps; what is said then
    rows = ((plan(FLIGHT, yard, TRANSFER), "T1.1,T2.1,T3.1", "All steps are done: the journey has ended."),
            (plan(FLIGHT, SEA, TRANSFER, saves=(1,), tries=1), "T1.1",
             "Stopped before step 2, which does not fit now: none free on 2 Jun 2030."),
            (plan(three, three), "T1.1", "Stopped before step 2, which does not fit now: only 1 free on 1 Jun 2030."),
            (plan(FLIGHT, last, TRANSFER, saves=(1,), tries=1), "T1.1,B1r", "It is there. Stopped."))

    def takes_last(request):
        # after the last look at the stock, before the step
        if request.where.path == "/journeys/4/step" and desk.history(4):
            network.front = None
            desk.post(f"/journeys/{scene.begins(plan(last), 'other', agent='bob')}/step", "other-1", "", "bob")
    for identity, (body, items, words) in enumerate(rows, 1):
        scene.begins(body, f"all-{identity}")
        scene.shows_journey(identity)
        network.front, before = takes_last, len(network.posts)
        for answer in ("#sure-no", "#sure-yes"):
            same("nothing is done unasked", [], desk.history(identity))
            browser.press(f"Do all {body.count('options')} steps that are left", ".acts")
            browser.shows("which then cannot be cancelled any more", "dialog[open]")
            same("what is known not to fit", identity == 2, "which is step 2 now" in browser.text("dialog"))
            browser.click_on(answer)
        scene.note(words)
        same(f"journey {identity}: the history", items.split(","), desk.history(identity))
        posts = network.posts[before:]
        same(f"journey {identity}: each step has its key", len(items.split(",")), len({post[2] for post in posts}))
        same(f"journey {identity}: once", len(posts), len({post[2] for post in posts}))
    desk.post("/journeys/2/abort/0", "all-back")
    scene.shows_journey(2)
    scene.may("Give back step 1")


def asked_twice(scene):
    """A question that is answered by no, and at once asked again, takes the second answer."""
    browser = scene.browser
    scene.begins(steps=1)
    scene.shows_journey(1)
    browser.script(
        "arguments[0].click(); document.getElementById('sure-no').click(); arguments[0].click()", browser.named(START, ".acts")
    )
    scene.does_yes("B0a")


def last_place(scene):
    """Two agents in two windows want the last place: one has it, the other is told, and both see that it is gone."""
    browser, driver = scene.browser, scene.browser.driver
    windows = browser.new_window()
    browser.works_as(scene.desk.url("#/who"), "bob")
    for at, agent in enumerate(("ann", "bob")):
        driver.switch_to.window(windows[at])
        driver.refresh()
        same("each window has its own agent", f"Agent {agent}", browser.text("#who"))
        scene.chooses("flight AL LAST", JUNE[0])
        browser.press("Add as step 1")
        browser.press("Begin the journey")
        browser.shows("Fits now: 1 free", ".acts")
    for at in (0, 1):
        driver.switch_to.window(windows[at])
        browser.press("Do step 1", ".acts")
    outcomes = []
    for at, agent in enumerate(("ann", "bob"), 1):
        driver.switch_to.window(windows[at - 1])
        comes("it is over", True, lambda: bool(browser.all(".is.ended, .is.undone")) and not browser.all(".acts button"))
        outcomes.append((scene.desk.history(at, agent), browser.text("#one .is")))
        browser.press("Stock")
        gone = "1 June 2030, 0 of 1 free, 100 % taken"
        comes("the place is gone", gone, lambda: scene.night("flight AL LAST", JUNE[0]).get_attribute("aria-label"))
    same("one has it", [(["B0r"], "undone"), (["T1.1"], "ended")], sorted(outcomes))
    refused = scene.desk.ask("GET", "/journeys/1", "bob")
    same("another's journey is not shown", (404, {"name": "NoJourney", "refused": 9}), refused)
    browser.open(scene.desk.url("#/journeys/1"))
    browser.shows("bob has no journey 1", "#one")
