"""The views by themselves: the stock by its filters, the plan that is changed, who works here, and a page that is hidden."""
import time

from selenium.webdriver.common.keys import Keys

from page_driving import wait_until
from page_scenes import LINE, TRANSFER, comes, plan, same


def draft_is_changed(scene):
    """Steps and options are moved, changed and removed; the plan line follows, and is read."""
    browser = scene.browser

    def line_is(expected):
        comes("the plan line", expected, lambda: browser.one("#line").get_attribute("value"))
    browser.types("#line", LINE, Keys.TAB)
    line_is(LINE)
    browser.press("Move step 3 up")
    line_is("F/AL/A1/2030-06-01/1/1*;T/BUS/X/2030-06-01/1/1;R/INN/SEA/2030-06-01/2/1|R/INN/YARD/2030-06-01/2/1!1")
    browser.press("Prefer option 2 of step 3 to the one before")
    browser.press("Remove option 2 of step 3")
    browser.press("Remove step 1")
    line_is("T/BUS/X/2030-06-01/1/1;R/INN/YARD/2030-06-01/2/1!1")
    # a click ends what is typed, and still does what it is for
    browser.types('[data-f="count.0.0"]', Keys.BACKSPACE, "7")
    browser.presses_slowly('[data-f="save.0"]')
    line_is("T/BUS/X/2030-06-01/1/7*;R/INN/YARD/2030-06-01/2/1!1")
    # the 7th of July, in whichever order the browser has day and month
    browser.script("arguments[0].focus()", browser.one('[data-f="first.0.0"]'))
    browser.keys(*"07072031")
    browser.press("Move step 2 up")
    line_is("R/INN/YARD/2030-06-01/2/1;T/BUS/X/2031-07-07/1/7!1")
    browser.open(scene.desk.url("#/plan"))
    browser.driver.refresh()
    line_is("R/INN/YARD/2030-06-01/2/1;T/BUS/X/2031-07-07/1/7!1")
    for bad, words in (
        ("F/AL/A1/2030-02-29/1/1!0", "night"), ("F/AL/A1/2030-06-01/2/1!0", "too many nights"),
        ("F/AL/A1/2030-06-01/1/1", "tries"), ("F/AL/A1/2030-06-01/1/1*!0", "save-point"),
    ):
        browser.retypes("#line", bad, Keys.TAB)
        scene.note(words)
    browser.press("Clear the new journey")
    browser.click_on("#sure-yes")
    comes("no step is left", 0, lambda: len(browser.all(".step")))


def titles(scene):
    """The titles of all tabs."""
    return [one["title"] for one in scene.browser.driver.execute_cdp_cmd("Target.getTargets", {})["targetInfos"]]


def not_while_hidden(scene):
    """News come every few seconds, and none are asked for while another tab hides the page."""
    browser, driver = scene.browser, scene.browser.driver
    asked = lambda: len(scene.network.paths)
    before = asked()
    wait_until(lambda: asked() > before + 1, "news")
    browser.script("document.addEventListener('visibilitychange', () => document.title = `hidden ${document.hidden}`)")
    first, _ = browser.new_window("tab")
    wait_until(lambda: "hidden true" in titles(scene), "the page is hidden")
    time.sleep(3)  # what was asked for before may come a while later
    before = asked()
    time.sleep(9)
    same("requests of a hidden page", [], scene.network.paths[before:])
    scene.begins()
    driver.switch_to.window(first)
    browser.press("My journeys (1)")


def agents_are_apart(scene):
    """Who works here is kept, also over a reload; another agent's window sees nothing of the first one's."""
    browser = scene.browser
    scene.begins(agent="ann")
    browser.driver.refresh()
    browser.shows("Agent ann", "#who")
    browser.press("My journeys (1)")
    browser.shows("under way, at 0", "#list")
    scene.becomes("bob")
    browser.press("My journeys")
    browser.shows("You have no journey yet", "#list")
    browser.press("Agent bob, change")
    browser.press("ann", "#known")
    browser.named("My journeys (1)")


def another_file(scene):
    """The desk is started over another file: the page shows what that one has, and says nothing of the first one."""
    browser, desk = scene.browser, scene.desk
    browser.open(desk.url("#/journeys/1"))
    browser.shows("ann has no journey 1", "#one")
    scene.begins()
    scene.begins(key="b2")
    browser.shows("Fits now", ".acts")
    browser.press("My journeys (2)")
    browser.shows("flight AL A1, transfer BUS X", "#list")
    desk.kill()
    browser.shows("The desk cannot be reached", "#away")
    desk.file = f"{scene.folder}/other.db"
    desk.start()
    browser.shows("You have no journey yet", "#list")
    scene.begins(plan(TRANSFER), "other")
    browser.named("My journeys (1)")
    browser.shows("transfer BUS X", "#list")
    same("the first file's plan", False, "flight AL A1" in browser.text("#list"))
    same("refusals", [], browser.names(".note.isbad p"))


def filters(scene):
    """The stock is shown by kind, supplier, product and month."""
    browser = scene.browser
    scene.desk.load("july", ["flight,AL,A1,2030-07-31,5", "room,SUN,DBL,2030-08-01,5"])
    def cards():
        return [one.text.replace("\n", " ") for one in browser.all(".cal h3")]
    def pick(name, value):
        browser.picks(f'[data-f="{name}"]', value)
    comes("all", ["flight AL A1", "flight AL LAST", "room INN SEA", "room INN YARD", "transfer BUS X"], cards)
    comes("three months", 3, lambda: browser.script("return document.querySelectorAll('[data-f=month] option').length"))
    pick("filter.kind", "room")
    comes("rooms", ["room INN SEA", "room INN YARD"], cards)
    pick("filter.product", "SEA")
    comes("a product", ["room INN SEA"], cards)
    nights = ["1 June 2030, 4 of 4 free, 0 % taken", "2 June 2030, 0 of 0 free, 100 % taken"]
    same("each night: free, allotted, how full", nights, browser.names(".night")[:2])
    pick("filter.product", "")
    pick("filter.kind", "")
    browser.press("Month after")
    comes("July", ["flight AL A1"], cards)
    same("Wednesday is the third day", 2, browser.script("return document.querySelector('.night').closest('td').cellIndex"))
    browser.press("Month after")
    comes("August", ["room SUN DBL"], cards)
    browser.types(".night", Keys.PAGE_UP)
    comes("July again", "2030-07", lambda: browser.script("return document.querySelector('[data-f=month]').value"))
