"""What a restart of the desk did to journeys that were not finished: the page tells it, journey by journey, once."""
import datetime

from page_driving import wait_until
from page_lost import click_is_lost
from page_rules import look_at
from page_scenes import FLIGHT, JUNE, TRANSFER, TWO, comes, option, plan, same


def is_killed_before(scene, button):
    """The desk is killed before the request of a button comes to it, and the page sees that the desk is away."""
    click_is_lost(scene, button, button, "hold", ".acts")
    scene.desk.kill()
    scene.network.let_go.set()
    scene.browser.shows("The desk cannot be reached", "#away")


def after_restart(scene):
    """What a restart did is told journey by journey, also of the step that was pressed and never came; no refusal is told."""
    browser, desk, network = scene.browser, scene.desk, scene.network
    one, three = option("transfer", "BUS", "X"), (FLIGHT, FLIGHT, TRANSFER, TRANSFER)
    # what is begun, its steps, and what comes of a restart
    rows = [(TWO, 1, "step 2 of journey 1 was done"), (TWO, 0, "journey 2 was undone"), (plan(FLIGHT, one), 1, "journey 3 was undone"),
            (plan(one), 1, ""), (plan(*three, saves=(1, 2)), 1, "steps 2, 3 and 4 of journey 5 were done")]
    rows += [(TWO, 0, f"journey {n} was undone") for n in range(6, 14)]
    for n, (body, steps, _) in enumerate(rows, 1):
        scene.begins(body, f"anew-{n}", steps)
    # one goes back already, so that no turn says that it was the restart
    desk.post("/journeys/3/abort/0", "anew-back")
    scene.shows_journey(1)
    browser.shows("My journeys (12)", "#nav")
    is_killed_before(scene, "Do step 2")
    network.mode = "pass"
    desk.start()
    browser.shows("The journey has ended", ".acts")
    comes("nothing is kept", 0, scene.kept)
    expected = [text for _, _, text in rows if text]
    comes("what it did", expected, lambda: browser.text(".note.iswarn p").split("\n")[1:])
    seen = datetime.datetime.strptime(browser.text(".note.iswarn p").split("\n")[0], "Restarted (seen at %H:%M):")
    now = datetime.datetime.now()
    same("when", True, (now - now.replace(hour=seen.hour, minute=seen.minute, second=0)).total_seconds() < 180)
    same("refusals, and other warnings", ([], 1), (browser.names(".note.isbad p"), len(browser.all(".note.iswarn"))))
    scene.begins(TWO, "later", 1)
    desk.post("/journeys/14/step", "later-2")
    browser.shows("My journeys", "#nav")
    comes("one that ended later", expected, lambda: browser.text(".note.iswarn p").split("\n")[1:])
    look_at(browser, "after a restart")
    browser.driver.refresh()
    browser.shows("Up to date", "#state")
    same("it is told once", [], browser.names(".note p"))


def says_of_restart(scene, what, *expected):
    """What the page says of a restart, in the order of journeys, and that it refuses nothing."""
    scene.browser.shows("Up to date", "#state")
    comes(what, list(expected), lambda: scene.browser.text(".note.iswarn p").split("\n")[1:])
    same(f"{what}: refusals", [], scene.browser.names(".note.isbad p"))


def looks_again(scene):
    """Waits until the page has asked for news once more."""
    before = len(scene.network.paths)
    wait_until(lambda: [path for _, path, _ in scene.network.paths[before:]].count("/health") > 1, "a further look")


def goes_back(scene, key):
    """A journey that goes back to its save-point, and then forward to its end, is shown."""
    identity = scene.begins(plan(FLIGHT, TRANSFER, TRANSFER, saves=(1,)), key, 2)
    scene.desk.post(f"/journeys/{identity}/abort/1", f"{key}-back")
    scene.shows_journey(identity)
    scene.browser.named("Give back step 2", ".acts")
    return identity


def restart_unseen(scene):
    """A page that saw nothing of a restart, since it asked for nothing meanwhile or was loaded later, tells what became of each journey:
    also of one that was going back, and not of one that another client ended before."""
    browser, desk, network, driver = scene.browser, scene.desk, scene.network, scene.browser.driver
    desk.load("more", [f"flight,AL,A1,{JUNE[0]},99", f"transfer,BUS,X,{JUNE[0]},99"])
    for events in ("", "reload", "window"):
        under_way, ended = (scene.begins(TWO, f"{what}-{events}", 1) for what in ("run", "over"))
        back = goes_back(scene, f"back-{events}")
        if events == "window":
            browser.replace_window()
        network.gets.hold()
        desk.post(f"/journeys/{ended}/step", f"over-{events}-2")
        desk.kill()
        desk.start()
        if events == "reload":
            driver.refresh()
        network.gets.release()
        if events == "window":
            browser.open(desk.url())
        says_of_restart(scene, events or "nothing is asked", f"step 2 of journey {under_way} was done",
                        f"step 3 of journey {back} was done")
    same("what the restart did", ["T1.1", "T2.1", "B1a", "C2.1", "T2.1", "T3.1"], desk.history(back))


def restart_told_once(scene):
    """A restart is told by one page of a browser, once. That of a journey that was going back, and of no other, is told where the page
    saw that the desk was away; what was pressed for it is not told as refused."""
    browser, desk, network, driver = scene.browser, scene.desk, scene.network, scene.browser.driver
    back = goes_back(scene, "away")
    is_killed_before(scene, "Give back step 2")
    looks_again(scene)
    network.mode = "pass"
    network.gets.hold()
    desk.start()
    driver.refresh()
    network.gets.release()
    comes("nothing is kept", 0, scene.kept)
    says_of_restart(scene, "the desk was away", f"step 3 of journey {back} was done")
    driver.refresh()
    says_of_restart(scene, "loaded once more")
    # of two pages the one that is seen tells, and the other one does not once it is seen
    under_way, back = scene.begins(TWO, "tab", 1), goes_back(scene, "tab-back")
    first, _ = browser.new_window("tab")
    browser.open(desk.url("#/journeys"))
    browser.named("My journeys (2)")
    desk.kill()
    browser.shows("The desk cannot be reached", "#away")
    desk.start()
    says_of_restart(scene, "the page that is seen", f"step 2 of journey {under_way} was done", f"step 3 of journey {back} was done")
    driver.switch_to.window(first)
    browser.named("My journeys")
    says_of_restart(scene, "the other page")


def restart_of_another_file(scene):
    """A page is loaded over another file, after a restart over that. Its journeys have the numbers of those that were open, and are
    others: one is absent, or none has the history that was known. Nothing is told."""
    browser, desk = scene.browser, scene.desk
    for ended, (name, others) in enumerate((("absent", (1,)), ("other", (0, 0, 0)))):
        for n in (1, 2):
            scene.begins(TWO, f"{name}-{n}", 1)
        browser.open(desk.url("#/journeys"))
        comes("both are read", 2 + ended, lambda: browser.text("#list").count("holds 1 Jun 2030"))
        looks_again(scene)
        browser.open("about:blank")
        desk.kill()
        desk.file = f"{scene.folder}/{name}.db"
        desk.start()
        desk.load(name, [f"flight,AL,A1,{JUNE[0]},9", f"transfer,BUS,X,{JUNE[0]},9"])
        for n, steps in enumerate(others):
            scene.begins(TWO, f"another-{n}", steps)
        desk.kill()
        desk.start()
        browser.open(desk.url("#/journeys"))
        browser.shows("ended" if name == "absent" else "undone", "#list tbody")
        says_of_restart(scene, name)
