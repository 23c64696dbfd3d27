"""Runs the scenes of the page in headless Chromium; prints those that went wrong. With names, only those scenes.
More than 200 lines: most lines are the table of spoiled pages.

Then each of SPOILED is put into the page on its way to the browser, one at a time, and the scene has to find it."""
import os
import sys
import tempfile
import time
import traceback
from concurrent.futures import ThreadPoolExecutor

import page_driving
from page_asking import by_booking_number, said_by_desk, taken_meanwhile
from page_day import (
    as_table, begin_in_view, by_what_is_held, large_stock, nights_in_words, notes_cover_nothing, notes_end, nothing_is_fetched,
    printed,
)
from page_foreign import foreign_pages, silent_ahead
from page_german import focus_in_german, in_german, other_languages, rules_in_german
from page_lost import hang_and_kill, many_wait, nothing_twice
from page_office import (
    SIGNED_OUT, away_by_status, behind_a_password, moved_elsewhere, not_found, one_question, other_signed_in, part_is_barred,
    signed_in, signed_out, signed_out_in_windows, turned_away, two_browsers, two_windows,
)
from page_restart import after_restart, restart_of_another_file, restart_told_once, restart_unseen
from page_rules import first_visit, focus_order, large, rules
from page_scenes import (
    Scene, all_steps, asked_twice, by_clicks, by_keys, last_place, refusals_in_words, refused_by_the_desk, said_before,
    said_by_page,
)
from page_views import agents_are_apart, another_file, draft_is_changed, filters, not_while_hidden
from parts import IN_PART, PARTS, Deal

SCENES = {scene.__name__: scene for scene in (
    nothing_twice, signed_out, large, rules, by_clicks, by_keys, not_while_hidden, many_wait, hang_and_kill, after_restart,
    restart_unseen, restart_told_once, restart_of_another_file, last_place, foreign_pages, silent_ahead, refused_by_the_desk,
    refusals_in_words, said_before, said_by_page, said_by_desk, taken_meanwhile, by_booking_number, asked_twice, all_steps,
    draft_is_changed, agents_are_apart, another_file, by_what_is_held, filters, begin_in_view, notes_cover_nothing, notes_end,
    nights_in_words, nothing_is_fetched, large_stock, as_table, printed, focus_order, first_visit, in_german, rules_in_german,
    focus_in_german, other_languages, one_question, two_windows, two_browsers, away_by_status, part_is_barred, turned_away,
    not_found, moved_elsewhere, signed_out_in_windows, behind_a_password, signed_in, other_signed_in,
)}


def one_row(mode, events):
    return lambda scene: nothing_twice(scene, ((mode, events),))


def signed_out_by(row):
    return lambda scene: signed_out(scene, (SIGNED_OUT[row],))


def away_by(status):
    return lambda scene: away_by_status(scene, (status,))


# what is spoiled; the old and the new text of the page; the scene that finds it, and what it then says
SPOILED = (
    ("a last step that is like any other", "next === plan.steps.length && h('p'", "next > 24 && h('p'", said_before,
     "'This is the last step.' in .acts"),
    ("tries that are never used up", "way.used < plan.tries ? Math", "plan.tries ? Math", said_by_page, "since no tries are left"),
    ("a list by what was planned", "named(stands.map(step => step.want))", "named(plan.steps.map(step => step.options[0]))",
     by_what_is_held, "journey 4"),
    ("what the desk says of another option", "said.want !== optionText(want)", "false", said_by_desk, "Fits now: 4 free"),
    ("what the page thinks where the desk knows", "said?.state !== 'run'", "said?.state", said_by_desk, "none free on 2 Jun 2030"),
    ("a number that is no key", "move || booking || key", "move || key", by_booking_number, "its key"),
    ("a number of another file", "!plan || planLine(plan) === line ? booking", "line ? booking", by_booking_number,
     "a number of another file"),
    ("a path that names the first option", "taken.want : optionAt(plan, p, way.used)", "taken.want : plan.steps[p - 1].options[0]",
     by_what_is_held, "the option at its step"),
    ("a plan that hides how it is begun", ".begin { position: sticky;", ".begin {", begin_in_view, "at step 1"),
    ("a refusal of what the restart did", "(!page || page.refused) && await", "!page && await", after_restart, "refusals, and"),
    ("a restart of many that is told of some", "over.length > 200", "over.length > 8", after_restart, "what it did"),
    ("a restart that is told where it was seen alone", "    openBefore.push(...kept(local, OPEN + agent, []));\n", "", restart_unseen,
     "reload"),
    ("a journey that went back, and of which nothing is told", " || one.state === 'back'", "", restart_unseen, "nothing is asked"),
    ("a restart that each page tells", "one.isNew || toTell.includes(one.journey)", "true", restart_told_once, "the other page"),
    ("a restart over another file", ".startsWith(one.history || '')", ".startsWith('')", restart_of_another_file, "other"),
    ("a refusal by an older look", "    if (is || !isSaid) {", "    if (!isSaid) {", taken_meanwhile, "only 1 free on 2 Jun 2030"),
    ("notes that lie over the page", "#notes { display: flex;", "#notes { position: fixed; bottom: 60px; display: flex;",
     notes_cover_nothing, "what is below a note"),
    ("a note of a step that is gone", "  end('new');\n", "", notes_end, "the step is removed"),
    ("a note of a journey that went on", "  end(about);\n", "", notes_end, "it is pressed again"),
    ("a room that is left on its last night", "leaving(plus(w.first, w.nights))", "leaving(plus(w.first, w.nights - 1))",
     nights_in_words, "the plan"),
    ("a number that is drawn as another one", "node.value = node.drawn = String(value)", "node.value = node.drawn = value",
     nights_in_words, "'5 nights, leaving Sat 15 June'"),
    ("all steps, also those that do not fit", "  if (is) send(`/journeys", "  if (plan) send(`/journeys", all_steps,
     "Stopped before step 2"),
    ("all steps by what was known", "  try { await lookAtWhy(about); }", "  try { }", all_steps, "Stopped before step 2"),
    ("a question by an old stock", "    try { await lookAtStock(turn); }", "    try { }", large_stock, "which is step 2 now"),
    ("a large stock that is read at each look", "stockAt > stockText.length / (", "stockAt > 0 / (", large_stock,
     "the seconds between two reads"),
    ("a large stock that is read whole alone", "part && !isStockDue()", "part && isStockDue()", large_stock, "a place that is taken"),
    ("all steps without a question", "if (!wait && await sure(t('doAllSure'", "if (!wait || await sure(t('doAllSure'", all_steps,
     "this did not come"),
    ("news of what stands still", "read.get(name) === now", "read.get(name) === null", nothing_is_fetched,
     "a look that finds nothing new"),
    ("a search that a single night satisfies", "days.slice(0, -1).every(Boolean)", "days.slice(0, -1).some(Boolean)", as_table,
     "2 places from 2030-06-10"),
    ("filters that scroll away", "#v-stock { display: flex; flex-direction: column; overflow: hidden;", "#v-stock {", as_table,
     "is in view"),
    ("a table of the nights before", "const cell = one.nights.get(when);", "const cell = one.nights.get(plus(when, -1));", as_table,
     "each night as in the calendars"),
    ("a sheet with controls", "button:not(.night), input, .options label,", ".options label,", printed, "controls"),
    ("a sheet that ends with the window",
     "  main, .desk > section, .cals, .path { overflow: visible !important; max-height: none; }\n", "", printed, "what is cut"),
    ("a sheet without its month", "view === 'stock' && filter.month ?", "view === 'sheet' ?", printed, "agent, date and month"),
    ("a refusal that goes by itself", "  if (isOwn && request.seen !== undefined) settling.set(request.about, request.key);\n", "",
     refused_by_the_desk, "'No save-point can be taken here'"),
    ("a new key each time", "'Desk-Key': move || booking || key", "'Desk-Key': newKey()", one_row("lose", "nothing"),
     "one key and one body"),
    ("a request that is not kept", "if (!keep(local, 'post.' + request.key, request)) {",
     "if (!keep(session, 'post.' + request.key, request)) {", one_row("lose", "nothing"), "lose, nothing: the request"),
    ("a key with hyphens", "return key.slice(0, 12) + '4'", "return key.slice(0, 8) + '-4'", one_row("lose", "nothing"),
     "the form of the key"),
    ("another window's request is left", "(navigator.locks ? !held.has(TAB + one.tab) : Date.now() - one.at > 2 * PATIENCE)",
     "false", one_row("lose", "another window"), "'Up to date' in #state; it is 'Sending'"),
    ("news while hidden", "if (document.hidden || !agent) return;", "if (!agent) return;", not_while_hidden,
     "requests of a hidden page"),
    ("a button that is refused", "!isBack && way.pos > 0 && !way.saves.includes(way.pos)", "!isBack && way.pos > 0", by_clicks,
     "what may be done now"),
    ("a button too few", "[0, ...way.saves].filter(", "way.saves.filter(", by_clicks, "what may be done now"),
    ("an undone step that is drawn as standing", "if (last) last.stands = false;", "", by_clicks, "the picture: stands, undone"),
    ("a night that no key chooses", "if (at) choose(at, event.shiftKey, event.detail === 0);",
     "if (at && event.detail) choose(at, event.shiftKey, false);", by_keys, "the focus after a night is chosen"),
    ("the focus is lost", "next.focus({ preventScroll: true });", "", by_keys, "the focus stays at the step"),
    ("a view that is opened without the focus", "$(STARTS[view]).focus({ preventScroll: true });", "", by_keys,
     "the focus in a view that was opened"),
    ("a click that is lost where it ends what is typed", "isChanging || clock() - pressed < 2000", "isChanging",
     draft_is_changed, "the plan line"),
    ("a focus that is lost once a number was typed", "  isChanging = true;\n", "", by_keys, "the next field"),
    ("an agent for all windows", "kept(session, 'agent', kept(local, 'agent', ''))", "kept(local, 'agent', '')", last_place,
     "each window has its own agent"),
    ("a refusal without words", "  'refused.Finished': [", "  'refused.Other': [", refusals_in_words, "Finished is put in words"),
    ("faint words", "--soft: light-dark(#4a5663, #abb7c3);", "--soft: light-dark(#8a96a3, #abb7c3);", rules,
     "its words have a contrast"),
    ("faint words in the dark", "--bad: light-dark(#a02c14, #ffa28c);", "--bad: light-dark(#a02c14, #7a3a20);", rules,
     "its words have a contrast"),
    ("a field without a name", "h('option', { value, selected: value === filter[name] }, n ? value : kindText(value))));",
     "h('option', { value, selected: value === filter[name] }, n ? value : kindText(value)))).lastChild;", rules,
     "a combobox has no name"),
    ("a page that is too wide", "main { flex: 1;", "main { flex: 1; min-width: 420px;", rules, "in a window of 360"),
    ("a view that is too wide", ".tools { display: flex;", ".tools { display: flex; min-width: 420px;", rules,
     "in a window of 360"),
    ("an order of its own", "#state { margin", "#nav a:last-child { order: -1; } #state { margin", focus_order,
     "the order that is seen"),
    ("a focus that is not seen", ":focus-visible { outline: 3px solid var(--accent);",
     ":focus-visible { outline: 0 solid var(--accent);", focus_order, "one sees that the focus is at"),
    ("own journeys end with a page", "if (page.length < PAGE) return true;", "return true;", large, "'My journeys (100)'"),
    ("an answer that an older question gets", "if (!box.open) then(is);", "then(is);", asked_twice, "the item"),
    ("a login page that is taken for a stock", "get('/stock', isStock)", "get('/stock', () => true)", signed_out_by(1),
     "a login page: the stock"),
    ("a login page that is barred", "status < 400 ||", "", signed_out_by(1), "'You are signed out' in #away"),
    ("a redirect that is followed", "redirect: 'manual'", "redirect: 'follow'", signed_out_by(2), "'You are signed out' in #away"),
    ("a login in JSON that is taken for a stock", "answer.status === 200 && is(Object(page))", "answer.status === 200",
     signed_out_by(4), "'You are signed out' in #away"),
    ("a page that goes on asking", "if (reached === 'out') throw new Failed('out');", "", signed_out_by(0), "requests meanwhile"),
    ("a question that is taken away and asked again", "PATIENCE = 120000", "PATIENCE = 16000", one_question, "questions"),
    ("windows that each ask for a password", "if (event.newValue) { isReached('out'); draw(); }", "if (event.newValue) draw();",
     signed_out_in_windows, "'Signed out' in #state"),
    ("a request that blocks all others", "else if (why.why === 'barred') {", "else if (why.why === 'blocked') {", turned_away,
     "Set aside"),
    ("a stock that hides own journeys", "if (met !== 'barred') break;", "break;", part_is_barred, "'My journeys (1)'"),
    ("a gateway that is taken for a refusal", "status > 499 || ", "", away_by(503), "'The desk cannot be reached' in #away"),
    ("what moved is done", ".history.join() !== seen", ".history.join() === null", moved_elsewhere, "not done"),
    ("a move under a key of its own", "'Desk-Key': move ||", "'Desk-Key':", two_browsers, "the history after both"),
    ("a move of a window under a key of its own", "'Desk-Key': move ||", "'Desk-Key':", two_windows, "the history"),
    ("a move that came too late as a refusal", "why.page?.name === 'KeyReused'", "why.page?.name === 'Key'", two_browsers,
     "not done, since"),
    ("requests without a password", "credentials: 'same-origin'", "credentials: 'omit'", behind_a_password,
     "this did not come: #agent"),
    ("relative addresses", "await fetch(HOME + path, {", "await fetch(path.slice(1), {", behind_a_password,
     "this did not come: #agent"),
    ("a page at the root alone", "location.origin + FOLDER.slice(0, -1)", "location.origin", behind_a_password,
     "this did not come: #agent"),
    ("one store for all desks of an origin", "FOLDER === '/' ? 'desk.' : `desk${FOLDER}.`", "'desk.'", behind_a_password, "#agent"),
    ("a request that does not say for whom it is meant", "...meantFor(agent), 'Desk-Key'", "'Desk-Agent': agent, 'Desk-Key'",
     other_signed_in, "1 request will be sent once"),
    ("a kept request that is dropped when another agent is signed in", "if (await isAnother(why, request.agent)) return true;", "",
     other_signed_in, "1 request will be sent once"),
    ("a page that asks who works where a server says so", "  isKnown = true;\n  if (!given) return;",
     "  isKnown = true;\n  given = '';\n  return;", signed_in, "Agent ann"),
    ("the last language of a browser", "navigator.languages.find(", "navigator.languages.findLast(", other_languages,
     "fr,de-AT,en: the language"),
    ("dates of one language", "new Intl.DateTimeFormat(TONGUE, {", "new Intl.DateTimeFormat('en-GB', {", in_german, "the days"),
    ("a German text in English", "'Als Schritt {0} hinzufügen'", "'Add as step {0}'", in_german,
     "a button 'Als Schritt 1 hinzufügen'"),
    ("a list that is left without its plans", "  delete $('list').dataset.key;\n  drawList();\n", "  drawList();\n", large,
     "the plans"),
)


def failure_of(act, spoil=None):
    """What went wrong with a scene, or nothing."""
    # a process of the browser may still write there when the others have ended
    with tempfile.TemporaryDirectory(dir=os.environ["HOME"], ignore_cleanup_errors=True) as folder:
        scene = None
        try:
            agent = "" if getattr(act, "without_agent", False) else "ann"
            scene = Scene(folder, spoil, agent, getattr(act, "languages", "en-GB,en"))
            act(scene)
            return ""
        except AssertionError as wrong:
            return str(wrong) or traceback.format_exc(limit=-4)
        except Exception:  # whatever else stops a scene is wrong too
            return traceback.format_exc(limit=-4)
        finally:
            if scene:
                scene.end()


def run_scene(name):
    begun = time.monotonic()
    wrong = failure_of(SCENES[name])
    return f"{name}: {wrong}" if wrong else "", f"{name} {time.monotonic() - begun:.0f}"


def run_spoiled(row):
    what, old, new, act, says = row
    begun = time.monotonic()
    found = failure_of(act, (old, new))
    wrong = "" if says in found else f"spoiled by {what}: the scene should say {says!r}; it says {found or 'nothing'!r}"
    return wrong, f"{what} {time.monotonic() - begun:.0f}"


def main(names):
    deal = Deal()
    with ThreadPoolExecutor(3) as runs:
        outcomes = list(runs.map(run_scene, deal.mine(name for name in SCENES if not names or name in names)))
        if not names or "spoiled" in names:
            page_driving.PATIENCE = min(page_driving.PATIENCE, 12)
            outcomes += runs.map(run_spoiled, deal.mine(SPOILED))
    for wrong, took in outcomes:
        print(took, file=sys.stderr)
        if wrong:
            print(wrong)
    if len(outcomes) < max(deal.dealt // PARTS, 1):
        print(f"of {deal.dealt} scenes and spoiled pages {len(outcomes)} were tried")
    if IN_PART:
        print(f"{len(outcomes)} of {deal.dealt} scenes and spoiled pages{IN_PART}", file=sys.stderr)


if __name__ == "__main__":
    main(sys.argv[1:])
