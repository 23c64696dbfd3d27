"""Requests whose page is lost, while the desk, the page or the window ends: each takes effect once, under its first key."""
import re
import signal
import time

from page_driving import wait_until
from page_scenes import SHORT_LINE, TWO, comes, same

WAITS = "1 request will be retried, and takes effect once"

# what becomes of the request, and what happens before it is retried
BETWEEN = (
    ("lose", "nothing"), ("lose", "restart"), ("lose", "reload"), ("lose", "restart, reload"), ("lose", "another window"),
    ("hold", "restart"), ("hold", "reload"), ("hold", "restart, reload"),
)


def click_is_lost(scene, what, button, mode, within):
    """Presses a button while the network loses what comes of it; waits until the request has come as far as it may."""
    before = len(scene.network.posts)
    scene.network.mode = mode
    scene.browser.press(button, within)
    wait_until(lambda: len(scene.network.posts) > before, f"{what}: the request")
    if mode == "lose":
        scene.browser.shows("A request got no answer", "#away")
        scene.browser.shows(WAITS, "#away")
    return before


def between(scene, what, events):
    """The desk is killed and started again, the page is loaded again, or its window is closed and another one is opened."""
    browser, network, driver = scene.browser, scene.network, scene.browser.driver
    if "restart" in events:
        scene.desk.kill()
        network.let_go.set()
        browser.shows("The desk cannot be reached", "#away")
        browser.shows(WAITS, "#away")
        time.sleep(0.5)
        scene.desk.start()
    if "window" in events:
        browser.replace_window()
        browser.open(scene.desk.url())
    network.mode = "pass"
    if "reload" in events:
        driver.refresh()
    network.let_go.set()
    browser.shows("Up to date", "#state")
    comes(f"{what}: nothing is left to be sent", 0, scene.kept)
    network.let_go.clear()


def was_sent_once(scene, what, before, path):
    """All that was sent since is one request, under one key: of 32 digits for a begin, of what was shown for a move."""
    posts = scene.network.posts[before:]
    same(f"{what}: the path and the agent", {(path, "ann")}, {post[:2] for post in posts})
    same(f"{what}: one key and one body", 1, len({post[2:] for post in posts}))
    form = "[0-9a-f]{32}" if path == "/journeys" else r"seen-\d+-\d+"
    same(f"{what}: the form of the key", True, bool(re.fullmatch(form, posts[0][2])))


def nothing_twice(scene, rows=BETWEEN):
    browser = scene.browser
    begun = 0
    for n, (mode, events) in enumerate(rows):
        what = f"{mode}, {events}"
        scene.plans(SHORT_LINE)
        before = click_is_lost(scene, what, "Begin the journey", mode, "#plan")
        between(scene, what, events)
        begun += 1
        was_sent_once(scene, what, before, "/journeys")
        mine = scene.desk.ask("GET", "/mine")[1]["mine"]
        same(f"{what}: the journeys", list(range(1, begun + 1)), [one["journey"] for one in mine])
        same(f"{what}: the plan is done with", "", browser.text("#steps-in-plan"))

        identity = scene.begins(TWO, f"begun-{n}")
        begun += 1
        scene.shows_journey(identity)
        before = click_is_lost(scene, what, "Do step 1", mode, ".acts")
        between(scene, what, events)
        was_sent_once(scene, what, before, f"/journeys/{identity}/step")
        scene.shows_journey(identity)
        # a desk that was killed first recovers: what was done once leads on from its save-point, what was not is undone
        expected = ["T1.1"] if "restart" not in events else ["T1.1", "B1s", "T2.1"] if mode == "lose" else ["B0s"]
        same(f"{what}: the history", expected, scene.desk.history(identity))
        comes(f"{what}: what the page shows", len(expected), lambda: len(browser.all("ol.items li")))
        if "restart" in events and mode == "hold":
            browser.shows(f"journey {identity} was undone", "#notes")
            same(f"{what}: refusals", [], browser.names(".note.isbad p"))


def hang_and_kill(scene):
    """The desk is stopped, a button is pressed, the desk is killed and started again; then what was asked for is done."""
    browser = scene.browser
    scene.plans(SHORT_LINE)
    browser.named("Begin the journey")
    scene.desk.process.send_signal(signal.SIGSTOP)
    browser.press("Begin the journey")
    comes("it is kept", 1, scene.kept)
    scene.desk.kill()
    browser.shows("The desk cannot be reached", "#away")
    scene.desk.start()
    scene.may("Do step 1", "Do all 2 steps that are left", "Turn back to the start")
    same("one journey", [{"journey": 1, "pos": 0, "state": "run"}], scene.desk.ask("GET", "/mine")[1]["mine"])


def many_wait(scene):
    """Requests of more journeys wait at once: each is sent once, in the order in which they were made."""
    browser = scene.browser
    for n in range(3):
        scene.begins(TWO, f"many-{n}")
    browser.press("My journeys (3)")
    scene.network.mode = "lose"
    before = len(scene.network.posts)
    for identity in (2, 1, 3):
        browser.press(f"Journey {identity}", "#list")
        browser.shows(f"Journey {identity}", "#h-one")
        browser.press("Do step 1", ".acts")
        browser.shows("Sending", ".acts")
        scene.may()
    browser.shows("3 requests will be retried, and each takes effect once", "#away")
    scene.network.mode = "pass"
    browser.shows("Up to date", "#state")
    paths = [post[0] for post in scene.network.posts[before:]]
    same("the order", ["/journeys/2/step", "/journeys/1/step", "/journeys/3/step"], list(dict.fromkeys(paths)))
    same("each once", [["T1.1"]] * 3, [scene.desk.history(n) for n in (1, 2, 3)])
