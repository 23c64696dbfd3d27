"""How long an agent waits behind many events: for a begin, a step, a compensation, journeys, own journeys and a part of the stock.
Then the processor's time and the memory of an opening.

growth.py DESK EVENTS: the file grows to EVENTS events, ten of each journey, all of which have ended but one; fifty journeys are of one
agent. Prints for each request how long half of the pages took at most, and 99 of 100, beside the same at 1,000 events.
"""
import os
import subprocess
import sys
import time

from day import Client, request, serving

STEPS, OF_AN_AGENT, TIMES = 9, 50, 1000
# how much longer a page may take than at 1,000 events, and one of a begin or a T
MOST, MOST_OF_STEPS = 1.3, 1.2
NIGHTS = [f"2030-06-{day:02}" for day in range(1, 31)]
FLIGHT = '{{"options":[{{"kind":"flight","supplier":"AL","product":"{0}","first":"{1}","nights":1,"count":1}}],"save":false}}'


def plan(wants):
    return f'{{"steps":[{",".join(FLIGHT.format(*want) for want in wants)}],"tries":1}}'.encode()


# the second step of a moved journey never fits
LONG, MOVED = plan([("A1", night) for night in NIGHTS[:STEPS]]), plan([("A1", NIGHTS[20]), ("NONE", NIGHTS[20])])


class Grown:
    """A desk that serves a file, and what it has answered."""

    def __init__(self, program):
        rows = [f"flight,AL,A1,{night},100000\n" for night in NIGHTS]
        rows += [f"room,H{n},R{m},{night},9\n" for n in range(10) for m in range(5) for night in NIGHTS]
        with open("places.csv", "w", encoding="ascii") as file:
            file.writelines(["kind,supplier,product,night,places\n", *rows])
        subprocess.run([program, "load", "grown.db", "places.csv", "--batch", "places"], check=True, stdout=subprocess.PIPE)
        self.process, port = serving(program, "grown.db")
        self.client = Client(port)
        # one journey stays under way from the first event on
        self.events, self.journeys, self.asked, self.late = 3, 1, 0, ()
        self.posts("early", "/journeys", MOVED)
        self.posts("early", "/journeys/1/step")

    def posts(self, agent, path, body=b""):
        self.asked += 1
        return self.client.ask(request("POST", path, agent, f"k{self.asked}", body))

    def grow(self, events):
        """Journeys begin and end until there are so many events."""
        while self.events + STEPS < events:
            self.journeys += 1
            agent = f"a{self.journeys // OF_AN_AGENT}"
            self.late = agent, f"/journeys/{self.journeys}"
            self.posts(agent, "/journeys", LONG)
            for _ in range(STEPS):
                self.posts(agent, f"/journeys/{self.journeys}/step")
            self.events += 1 + STEPS

    def waits(self, ask):
        """The microseconds that half of the pages took at most, and 99 of 100."""
        taken = []
        for at in range(TIMES):
            begun = time.perf_counter()
            ask(at)
            taken.append(1e6 * (time.perf_counter() - begun))
        taken.sort()
        return taken[TIMES // 2], taken[TIMES * 99 // 100]

    def measure(self):
        """How long each kind of request took."""
        last, moved = self.journeys, f"m{self.events}"
        get = lambda agent, path: self.waits(lambda at: self.client.ask(request("GET", path, agent)))
        move = lambda path: self.waits(lambda at: self.posts(moved, f"/journeys/{last + 1 + at}/{path}"))
        found = {
            "an early journey": get("a0", "/journeys/2"),
            "a late journey": get(*self.late),
            "an early journey under way": get("early", "/journeys/1"),
            f"own journeys, {OF_AN_AGENT - 2}": get("a0", "/mine"),
            "no own journeys": get("nobody", "/mine"),
            "a part of the stock": get("a0", f"/stock/{NIGHTS[0]}/{NIGHTS[-1]}/flight/AL"),
            "health": get("a0", "/health"),
            "begin": self.waits(lambda at: self.posts(moved, "/journeys", MOVED)),
            "T": move("step"),
            "turn": move("abort/0"),
            "C": move("step"),
        }
        self.journeys, self.events = last + TIMES, self.events + 4 * TIMES
        return found

    def closes(self):
        self.process.terminate()
        self.process.wait()


def opening(program):
    """The processor's seconds of an opening, and its memory in MB."""
    process = os.spawnlp(os.P_NOWAIT, "sh", "sh", "-c", 'exec "$0" unfinished grown.db >/dev/null', program)
    _, status, used = os.wait4(process, 0)
    return used.ru_utime + used.ru_stime, used.ru_maxrss / 1000 if not status else sys.exit("an opening failed")


def main(program, events):
    desk = Grown(program)
    desk.grow(1000)
    few = desk.measure()
    desk.grow(events)
    many = desk.measure()
    desk.closes()
    print(f"us at-1000-events-half of-100-99 at-{events}-events-half of-100-99 ratio-half ratio-99 at-most")
    for name, (half, most) in few.items():
        late, latest = many[name]
        limit = MOST_OF_STEPS if name in ("begin", "T") else MOST
        print(f"{name}: {half:.0f} {most:.0f} {late:.0f} {latest:.0f} {late / half:.2f} {latest / most:.2f} {limit}")
    size = sum(entry.stat().st_size for entry in os.scandir() if entry.name.startswith("grown.db"))
    seconds, memory = opening(program)
    held = f"{desk.events} events, {desk.journeys} journeys, a file of {size / 1e6:.0f} MB"
    print(f"opening at {held}: {seconds:.2f} s, {memory:.0f} MB of memory")


if __name__ == "__main__":
    main(sys.argv[1], int(sys.argv[2]))
