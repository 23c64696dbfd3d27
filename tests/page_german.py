"""The page in German: its texts, of which none is in English; the rules by which everybody can use it; which language is chosen."""
import re
import sys
from pathlib import Path

from selenium.webdriver.common.keys import Keys

from page_rules import comes_to_all, focus_order, look_at, views
from page_scenes import JUNE, LINE, comes, same

sys.path.append(str(Path(__file__).resolve().parents[1] / "scripts"))
import page  # noqa: E402

GERMAN = "de-DE,de,en"
# all that is said: to see, to hear, to choose from
SAID = """const labels = [...document.querySelectorAll('[aria-label]')].map(one => one.ariaLabel);
const hidden = [...document.querySelectorAll('option, desc, title')].map(one => one.textContent);
return [document.body.innerText, document.title, ...labels, ...hidden].join('\\n')"""


def english_texts():
    """What of each English text stands between its values, if it is no German one too and is too long to be found by chance."""
    words, _ = page.words_of(page.PAGE.read_text(encoding="utf-8"))
    german = " ".join(text for _, text in words.values())
    parts = {part.strip(" .,:;()") for text, _ in words.values() for part in re.split(r"\{\d\}|\|", text)}
    return [part for part in parts if len(part) > 4 and part not in german]


ENGLISH = english_texts()


def is_german(browser, what):
    said = browser.script(SAID)
    same(f"{what}: what is in English", [], [text for text in ENGLISH if re.search(rf"\b{re.escape(text)}\b", said)])


def rules_in_german(scene):
    """The rules hold in each view of the page in German too, whose words are longer. Its colours are those of the English one."""
    for what in views(scene):
        look_at(scene.browser, what, ("light",))
        is_german(scene.browser, what)


def focus_in_german(scene):
    focus_order(scene)


# wants, as they are spoken of
SEA = "Zimmer INN SEA, 1. Juni 2030, 2 Nächte, Abreise Mo., 3. Juni, 1 Platz"
YARD = "Zimmer INN YARD, 1. Juni 2030, 2 Nächte, Abreise Mo., 3. Juni, 1 Platz"
# what is pressed, the item that comes of it, and what is then said of it
PRESSED = (
    ("Schritt 1 ausführen", "T1.1", "Schritt 1 ausgeführt (Flug AL A1, 1. Juni 2030, 1 Platz)"),
    ("Schritt 2 ausführen", "B1r", f"zurück zu Sicherungspunkt 1: kein Platz für Schritt 2 ({SEA})"),
    ("Schritt 2 ausführen", "T2.2", f"Schritt 2 ausgeführt mit Variante 2 ({YARD})"),
    ("Sicherungspunkt 2 setzen", "S2", "Sicherungspunkt gesetzt bei 2"),
    ("Zurück zu Sicherungspunkt 1", "B1a", "zurück zu Sicherungspunkt 1: wie gewünscht"),
    ("Schritt 2 zurückgeben", "C2.2", f"Schritt 2 zurückgegeben ({YARD})"),
    ("Schritt 2 ausführen", "T2.2", f"Schritt 2 ausgeführt mit Variante 2 ({YARD})"),
)


def in_german(scene):
    """A day in German, from the first visit to a journey that has ended, by the texts that are seen."""
    browser, network = scene.browser, scene.network
    browser.open(scene.desk.url())
    browser.shows("Wer arbeitet hier?", "#v-who")
    same("the language, and the title", ["de", "Wer arbeitet hier? – Desk"], browser.script(
        "return [document.documentElement.lang, document.title]"))
    look_at(browser, "the first visit")
    comes_to_all(browser, "the first visit")
    browser.types("#agent", "Nie Mand\n")
    scene.note("Abgelehnt. Ein Kürzel hat 1 bis 16 Kleinbuchstaben und Ziffern.")
    browser.one("#agent").clear()
    browser.types("#agent", "ann\n")
    browser.shows("Kürzel ann", "#who")
    browser.shows("Aktuell", "#state")
    same("the menu", ["Bestand", "Neue Reise", "Meine Reisen"], browser.names("#nav a"))
    same("the days", ["Mo", "Di", "Mi", "Do", "Fr", "Sa", "So"], [one.text for one in browser.all(".cal th")][:7])
    label = "1. Juni 2030, 4 von 4 frei, 0 % belegt"
    same("a night", label, scene.night("room INN SEA", JUNE[0]).get_attribute("aria-label"))
    same("the kinds", ["alle", "Flug", "Zimmer", "Transfer"], browser.script(
        "return [...document.querySelectorAll('[data-f=\"filter.kind\"] option')].map(one => one.textContent)"))
    for name, value in (("places", "2"), ("from", JUNE[9]), ("to", JUNE[12])):
        browser.gives(f'[data-f="filter.{name}"]', value)
    browser.shows("2 Plätze frei vom Mo., 10. Juni 2030 bis Do., 13. Juni 2030: 1 Produkt; Zimmer und Versicherungen in jeder Nacht, "
                  "anderes an einem dieser Tage. In jeder Nacht: freie Plätze vom Kontingent.", "#cals")
    browser.gives('[data-f="filter.from"]', "")
    browser.gives('[data-f="filter.places"]', "1")
    scene.chooses("room INN SEA", JUNE[0])
    scene.chooses("room INN SEA", JUNE[1])
    browser.shows("Gewählt: Zimmer INN SEA, Sa., 1. Juni 2030, 2 Nächte, Abreise Mo., 3. Juni", "#bar")
    browser.shows("Passt jetzt nicht: nichts frei am 2. Juni 2030", "#bar")
    browser.press("Als Schritt 1 hinzufügen")
    scene.note(f"Schritt 1 der neuen Reise: {SEA}.")
    browser.retypes("#line", "R/INN/SEA/2030-02-30/1/1!0", Keys.TAB)
    scene.note("Abgelehnt. Schritt 1 der Planzeile ist nicht lesbar: die erste Nacht ist kein Tag von 2000 bis 2099.")
    browser.retypes("#line", LINE, Keys.TAB)
    network.instead = (400, {"cause": "count", "name": "BadPlan", "refused": 5, "step": 2})
    browser.press("Die Reise beginnen")
    scene.note("Abgelehnt. Eine Reise beginnen: Der Plan ist abgelehnt: in Schritt 2, es sind 1 bis 50 Plätze möglich.")
    is_german(browser, "a plan that is refused")
    browser.press("Die Reise beginnen")
    scene.may("Schritt 1 ausführen", "Alle 3 übrigen Schritte ausführen", "Zurück zum Start")
    browser.shows("Schritt 1 wird belegen: Flug AL A1, 1. Juni 2030, 1 Platz. Passt jetzt: 9 frei.", ".acts")
    for at, (button, item, said) in enumerate(PRESSED):
        browser.press(button, ".acts")
        if item == "B1a":
            browser.shows("Reise 1 zurück zu Sicherungspunkt 1?", "#sure-title")
            browser.shows("1 Schritt wird dann zurückgegeben. Von dort geht sie wieder vorwärts.", "#sure-text")
            browser.click_on("#sure-yes")
        comes(item, f"{item} {said}", lambda at=at: (browser.names("ol.items li") + [""] * 9)[at])
        if item == "T1.1":
            browser.shows("So wie es jetzt ist, ginge die Reise zurück zu Sicherungspunkt 1, wo sie schon ist.", ".acts")
        if item == "B1r":
            scene.note(f"Reise 1: der Schritt fand keinen Platz ({SEA}: nichts frei am 2. Juni 2030); sie geht zurück zu "
                       "Sicherungspunkt 1. Sie ist schon dort.")
        is_german(browser, item)
    browser.shows("Dies ist der letzte Schritt. Hat er seine Plätze, ist die Reise abgeschlossen und kann nicht mehr storniert werden.",
                  ".acts")
    network.instead = (409, {"name": "Finished", "refused": 10})
    browser.press("Schritt 3 ausführen", ".acts")
    scene.note("Abgelehnt. Schritt 3 von Reise 1: Die Reise ist abgeschlossen oder aufgehoben. Sie kann nicht mehr geändert werden.")
    browser.press("Schritt 3 ausführen", ".acts")
    scene.note("Reise 1: Schritt 3 ist ausgeführt (Transfer BUS X, 1. Juni 2030, 1 Platz). Alle Schritte sind ausgeführt: Die Reise ist "
               "abgeschlossen.")
    browser.press("Meine Reisen")
    browser.shows("belegt: 1. Juni 2030 · Flug AL A1, Zimmer INN YARD, Transfer BUS X", "#list")
    for text, count in (("zimmer inn yard", 1), ("1. juni", 1), ("room", 0)):
        browser.retypes('[data-f="list.text"]', text)
        comes(f"found by {text}", count, lambda: len(browser.all("#list tbody tr")))
    browser.shows("Keine Reise passt dazu.", "#list")
    same("the console", [], browser.errors())


# the languages that a browser asks for; that of the page, and a date
CHOSEN = (
    ("fr,de-AT,en", "de", "1. Juni 2030"), ("fr-CA,es", "en", "1 June 2030"), ("en-US,de", "en", "June 1, 2030"),
    ("den,en-GB", "en", "1 June 2030"),
)


def other_languages(scene):
    """The first language of the browser that is English or German is that of the page, and else English."""
    browser = scene.browser
    for languages, expected, date in CHOSEN:
        browser.driver.execute_cdp_cmd("Network.setUserAgentOverride", {"userAgent": "Chromium", "acceptLanguage": languages})
        browser.driver.refresh()
        browser.is_up_to_date()
        night = scene.night("room INN SEA", JUNE[0]).get_attribute("aria-label").rsplit(",", 2)[0]
        same(f"{languages}: the language", (expected, date), (browser.script("return document.documentElement.lang"), night))


in_german.languages = rules_in_german.languages = focus_in_german.languages = GERMAN
in_german.without_agent = True
