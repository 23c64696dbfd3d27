"""A day of an office: ten tabs of ten agents at one desk behind a proxy. A backup is made meanwhile, the desk is killed, and it is ended in
order and started again; office_kept.py says what has to hold at the end.
More than 200 lines: a third is what runs in the tabs."""
import contextlib
import os
import random
import shutil
import signal
import subprocess
import sys
import time

from driving import DESK
from ledger import events_of
from office_kept import Day, Tab
from office_proxies import Proxy
from page_driving import PATIENCE, Browser, Desk, wait_until
from page_scenes import JUNE, same
from soak_files import rows_in

HERE = os.path.dirname(os.path.abspath(__file__))
AGENTS = {f"agent{n}": f"secret-{n}" for n in range(10)}
CELLS = int(os.environ.get("CELLS", "0"))
KINDS = {"F": ("flight", 1), "R": ("room", 3), "T": ("transfer", 1), "C": ("cover", 3)}
PRODUCTS = [f"{letter}/S{n}/P{n}" for letter in KINDS for n in range(2)]
NIGHTS = JUNE[:8]

# Keeps each message that is shown, and each history of a journey as it is drawn; of the network, how much came.
KEEPS = """
window.seen = {notes: [], histories: []};
performance.setResourceTimingBufferSize(1e6);
new MutationObserver(changes => {
  for (const {addedNodes} of changes) for (const one of addedNodes) if (one.matches?.('.note')) seen.notes.push(one.querySelector('p').textContent);
  const path = document.querySelector('#one .path');
  const items = [...document.querySelectorAll('#one .items .code')].map(one => one.textContent);
  const shown = path && [+/\\d+/.exec(path.ariaLabel)[0], ...items];
  if (shown && String(seen.histories.at(-1)) !== String(shown)) seen.histories.push(shown);
}).observe(document.body, {childList: true, subtree: true});
"""
# What is shown: whether a question is asked, the moves that may be made, the open journeys of the list.
LOOK = """
const of = css => [...document.querySelectorAll(css)].filter(one => one.checkVisibility());
return {asks: !!document.querySelector('dialog[open]'), state: document.getElementById('state').textContent,
  moves: of('.acts button:not([aria-disabled])').map(one => one.dataset.f),
  open: of('#list tr').filter(row => row.querySelector('.run, .back')).map(row => row.querySelector('a').dataset.f),
  count: document.getElementById('open-ones').textContent, kept: Object.keys(localStorage).filter(key => key.startsWith('desk.post.')).length};
"""
# Begins a journey under a booking number, of a plan line or of a night that is chosen, and gives its line; nothing where one is being begun.
BEGINS = """
const [line, booking, done] = arguments;
const comes = async css => {
  for (let n = 0; n < 50; n++) {
    await new Promise(then => setTimeout(then, 50));
    const found = [...document.querySelectorAll(css)];
    if (found.length) return found[Math.floor(Math.random() * found.length)];
  }
  throw css;
};
const gives = async (css, value) => {
  const one = await comes(css);
  one.value = value;
  one.dispatchEvent(new Event('change', {bubbles: true}));
};
(async () => {
  location.hash = line ? '#/plan' : '#/stock';
  if (document.querySelector('[data-f=begin][aria-disabled]')) return '';
  if (line) await gives('#line', line);
  else {
    (await comes('.night:not(.isfull)')).click();
    (await comes('[data-f="bar.step"]')).click();
  }
  await gives('[data-f=booking]', booking);
  const is = (await comes('#line')).value;
  (await comes('[data-f=begin]:not([aria-disabled])')).click();
  return is;
})().catch(() => '').then(done);
"""
# At the end: the free places of June, the list with what was kept, and how many bytes came.
FREE = "return Object.fromEntries([...document.querySelectorAll('.night')].map(one => [one.dataset.f, +/, (\\d+) of/.exec(one.ariaLabel)[1]]))"
AT_END = """
const rows = [...document.querySelectorAll('#list tbody tr')].map(row => [
  +row.querySelector('a').textContent, row.querySelector('.is').classList[1], row.querySelector('.plan')?.firstChild.textContent]);
return {...seen, rows};
"""
BYTES = "return performance.getEntriesByType('resource').reduce((sum, one) => sum + one.transferSize, 0)"


def plan_by(chance):
    """The line of a plan of one to four steps, in June."""
    def option(letter):
        nights = chance.randint(1, KINDS[letter][1])
        product = chance.choice([one for one in PRODUCTS if one[0] == letter])
        return f"{product}/{chance.choice(NIGHTS[:-2])}/{nights}/{chance.randint(1, 3)}"
    steps = []
    for _ in range(chance.randint(1, 4)):
        letter = chance.choice(list(KINDS))
        steps.append("|".join(option(letter) for _ in range(chance.randint(1, 2))))
    return "".join(f"{step}{chance.choice(('*;', ';'))}" for step in steps[:-1]) + f"{steps[-1]}!{chance.randint(0, 2)}"


class Clerk:
    """An agent in a tab of their own, whose server asks for a password under a name of its own."""

    def __init__(self, browser, agent, port, chance):
        self.browser, self.agent, self.chance = browser, agent, chance
        self.tab, self.begun, self.moves, self.at = browser.driver.current_window_handle, [], 0, None
        self.address = f"{agent}.example:{port}"
        browser.open(f"https://{agent}:{AGENTS[agent]}@{self.address}/#/stock")
        browser.shows(f"Agent {agent}", "header")
        browser.is_up_to_date()
        browser.script(KEEPS)

    def comes(self):
        self.browser.driver.switch_to.window(self.tab)

    def clicks(self, css):
        return self.browser.script("const one = document.querySelector(arguments[0]); one?.click(); return one?.textContent", css)

    def turn(self, is_closing=False):
        """A look at what is shown, and a press."""
        self.comes()
        at = self.at = self.browser.script(LOOK)
        if at["asks"]:
            return self.answers(self.chance.random() < 0.8)
        # as many requests at once as a hand makes
        if at["kept"] > 1:
            return None
        if at["moves"] and (is_closing or self.chance.random() < 0.8):
            return self.moves_on(at["moves"], is_closing)
        if at["open"] and (is_closing or len(at["open"]) > 1 or self.chance.random() < 0.5):
            return self.clicks(f'[data-f="{self.chance.choice(at["open"])}"]')
        if is_closing or self.chance.random() < 0.2:
            return self.browser.script("location.hash = arguments[0]", "#/journeys" if is_closing else "#/stock")
        line = plan_by(self.chance) if self.chance.random() < 0.7 else ""
        if begun := self.browser.driver.execute_async_script(BEGINS, line, f"{self.agent}-{len(self.begun) + 1}"):
            self.begun.append(begun)
        return begun

    def answers(self, is_yes):
        asked = self.clicks("#sure-yes" if is_yes else "#sure-no")
        if is_yes:
            self.moves += self.asked if asked == "Do them" else 1

    def moves_on(self, moves, is_closing):
        """Presses one of the moves: mostly the next step."""
        weights = {"step": 8, "mark": 1, "all": 2 if is_closing else 0.5, "turn": 0 if is_closing else 0.5}
        move = self.chance.choices(moves, [weights[one.split(".")[0]] for one in moves])[0]
        said = self.clicks(f'.acts [data-f="{move}"]:not([aria-disabled])')
        # a question stands in between
        self.asked = int(said.split(" ")[2]) if said and move == "all" else 1
        self.moves += move in ("step", "mark")

    def is_done(self):
        at = self.at
        return not at["moves"] and not at["open"] and not at["count"] and not at["kept"] and at["state"] == "Up to date"

    def at_end(self):
        """What was shown, and what is."""
        browser = self.browser
        self.comes()
        free = browser.script(FREE)
        browser.script("location.hash = '#/journeys'")
        while browser.all('[data-f="more"]'):
            self.clicks('[data-f="more"]')
        wait_until(lambda: len(browser.all("#list tbody .plan")) == len(self.begun),
                   lambda: f"the {len(self.begun)} journeys of {self.agent}; the list has {browser.text('#list')!r}")
        end = browser.script(AT_END)
        listed = {number: (state, held) for number, state, held in end["rows"]}
        return Tab(self.agent, self.begun, self.moves, end["notes"], end["histories"], listed, free)


@contextlib.contextmanager
def backup_of(desk):
    """A backup is made meanwhile; gives the list that has its events then."""
    saved, to, least = [], f"{desk.file}-backup", desk.ask("GET", "/health")[1]["events"]
    words = [os.path.join(os.path.dirname(HERE), "tools", "backup"), desk.file, to]
    with subprocess.Popen(words, env={**os.environ, "DESK": DESK}, stdout=subprocess.PIPE) as call:
        yield saved
        same("a backup", (f"saved {to}\n".encode(), 0), (call.communicate()[0], call.returncode))
    saved += events_of(rows_in(to))
    same("it has what had happened before", True, len(saved) >= least)


def rows_of(file):
    """The rows of all tables of a desk's file now, where nobody writes."""
    for end in ("", "-wal"):
        if os.path.exists(file + end):
            shutil.copy(file + end, f"{file}-copy{end}")
    return rows_in(f"{file}-copy")


class Office:
    """The desk, the proxy and the tabs."""

    def __init__(self, folder, name, seed):
        self.chance, self.openings = random.Random(seed), {}
        self.file = f"{folder}/day-{name}.db"
        self.desk = Desk(self.file, ["--wide"], f"{folder}/day-{name}.log")
        self.loads(0, 12)
        if CELLS:
            # in other months, so that the table at the end is that of a small desk
            nights = [f"20{year}-{month:02}-{day:02}" for year in range(31, 41) for month in range(1, 13) for day in range(1, 29)]
            rows = [f"room,M{n},{chr(65 + n % 26)},{night},{n % 90 + 10}" for n in range(200) for night in nights][:CELLS]
            for at in range(0, CELLS, 2000):
                self.desk.load(f"many-{at}", rows[at:at + 2000])
        self.proxy = Proxy(folder, name, self.desk.port)
        self.browser = None
        self.proxy.changes(AGENTS)
        words = ["--ignore-certificate-errors", "--host-resolver-rules=MAP *.example 127.0.0.1"]
        self.browser = Browser(f"{folder}/day-{name}", words=words)
        self.clerks = []
        for agent in AGENTS:
            if self.clerks:
                self.browser.driver.switch_to.new_window("window")
            self.clerks.append(Clerk(self.browser, agent, self.proxy.port, self.chance))

    def loads(self, number, places):
        """An allotment file for all products and nights."""
        cells = [[KINDS[kind][0], supplier, product] for kind, supplier, product in (one.split("/") for one in PRODUCTS)]
        self.desk.load(f"day-{number}", [",".join([*cell, night, str(places)]) for cell in cells for night in NIGHTS])

    def works(self, seconds):
        """The tabs work for a while, in turn."""
        until = time.monotonic() + seconds
        while time.monotonic() < until:
            self.chance.choice(self.clerks).turn()

    def saves(self, seconds):
        """A backup is made while the tabs work; gives what it has."""
        with backup_of(self.desk) as saved:
            self.works(seconds)
        return saved

    def starts_again(self, by, spoil=None):
        """The desk is ended, and started again while the tabs go on."""
        self.desk.process.send_signal(by)
        self.desk.process.communicate()
        self.works(2)
        if spoil:
            spoil(self.file)
        before = len(events_of(rows_of(self.file)))
        self.desk.start()
        with open(self.desk.log, encoding="utf-8") as log:
            made = [line for line in log if " opened recovered=" in line][-1]
        self.openings[before] = int(made.split("=")[1])

    def closes(self):
        """Each journey is brought to its end; then all is said to be up to date."""
        left, until, before = list(self.clerks), 0, None
        while left:
            for clerk in left:
                clerk.turn(is_closing=True)
            now = [(clerk.agent, clerk.at) for clerk in left]
            if now != before:
                before, until = now, time.monotonic() + PATIENCE
            if time.monotonic() > until:
                raise AssertionError(f"stuck: {now}")
            left = [clerk for clerk in left if not clerk.is_done()]

    def shows_stock(self):
        """All tabs show the stock as a table, as it is now."""
        for clerk in self.clerks:
            clerk.comes()
            clerk.browser.script("location.hash = '#/stock'")
            clerk.browser.click_on('[data-f="filter.table"]')
        # a look comes every four seconds
        time.sleep(8 + CELLS / 10_000)

    def rests(self, seconds):
        """Nothing but how much there is is asked for, while nothing happens."""
        with open(self.desk.log, encoding="utf-8") as log:
            log.seek(0, os.SEEK_END)
            time.sleep(seconds)
            asked = {line.split("target=")[1].split(" ")[0] for line in log if " request " in line}
        same("what is asked for while nothing happens", {"/health"}, asked)

    def measured(self, act, seconds):
        """What this takes: how much of a processor the desk uses, and how many Mbit a second come to all tabs, in words."""
        begun, used, came = time.monotonic(), self.used(), self.bytes()
        act(seconds)
        took = time.monotonic() - begun
        return f"{(self.used() - used) / took:.2%} of the desk, {(self.bytes() - came) * 8e-6 / took:.3f} Mbit/s"

    def used(self):
        """The seconds of a processor that the desk has used since its start."""
        with open(f"/proc/{self.desk.process.pid}/stat", encoding="ascii") as stat:
            return sum(map(int, stat.read().rpartition(")")[2].split()[11:13])) / os.sysconf("SC_CLK_TCK")

    def bytes(self):
        """How many bytes came to all tabs."""
        total = 0
        for clerk in self.clerks:
            clerk.comes()
            total += self.browser.script(BYTES)
        return total

    def ends(self):
        if self.browser:
            self.browser.end()
        self.proxy.end()
        self.desk.process.kill()


def day(folder, name, seconds, seed=0, spoil=None):
    """A day of so many seconds behind this proxy; what it came to."""
    office = Office(folder, name, f"{seed} {name}")
    try:
        office.works(seconds * 0.3)
        saved = office.saves(seconds * 0.2)
        office.starts_again(signal.SIGKILL, spoil)
        office.loads(1, 40)
        office.works(seconds * 0.25)
        office.starts_again(signal.SIGTERM)
        at_work = office.measured(office.works, seconds * 0.25)
        office.closes()
        office.shows_stock()
        at_rest = office.measured(office.rests, 10)
        rows = rows_of(office.file)
        found = Day(events_of(rows), saved, rows, office.openings, [clerk.at_end() for clerk in office.clerks])
        print(f"{name}, {seconds} seconds: {len(found.events)} events, {len(rows['journey'])} journeys, openings {office.openings}; "
              f"at work {at_work}; at rest {at_rest}", file=sys.stderr)
        return found
    finally:
        office.ends()
