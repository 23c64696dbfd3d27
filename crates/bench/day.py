"""A day of agencies: how long 10, 100 and 1,000 agents wait in their busiest hour, and what one desk carries at most.

An agent works eight hours and puts together ten trips an hour, each of four steps: a look at the agent's unfinished journeys,
the begin, four steps and a look at the journey, half a second apart. In the busiest hour there are twice as many. Trips begin
at random moments, and agents share at most 200 connections that are kept open. Prints a line for each number of agents, and
one for ten clients that never pause.

day.py DESK SECONDS: SECONDS of each such hour are played, in the folder where it is called.
"""
import os
import random
import socket
import statistics
import subprocess
import sys
import threading
import time

HOURS, TRIPS_AN_HOUR, BUSIEST = 8, 10, 2
PAUSE = 0.5  # seconds between two requests of a trip
CONNECTIONS = 200
NIGHTS = [f"2030-{month:02}-{day:02}" for month in range(1, 13) for day in range(1, 29)]
PRODUCTS = (("flight", "AL", "A1", 1), ("room", "INN", "SEA", 3), ("transfer", "BUS", "X", 1), ("cover", "SAFE", "BASIC", 1))
REQUESTS = 3 + len(PRODUCTS)


def request(method, path, agent, key=None, body=b""):
    fields = [f"{method} {path} HTTP/1.1", "Host: desk", f"Desk-Agent: {agent}"]
    if key:
        fields += [f"Desk-Key: {key}", f"Content-Length: {len(body)}"]
    return "\r\n".join(fields).encode() + b"\r\n\r\n" + body


class Client:
    """A connection that is kept open."""

    def __init__(self, port):
        self.stream = socket.create_connection(("127.0.0.1", port), 60)
        self.stream.setsockopt(socket.IPPROTO_TCP, socket.TCP_NODELAY, 1)

    def ask(self, message):
        """The body of the page."""
        self.stream.sendall(message)
        page = b""
        while b"\r\n\r\n" not in page:
            page += self.received()
        head, _, body = page.partition(b"\r\n\r\n")
        length = next(int(row[15:]) for row in head.split(b"\r\n") if row.startswith(b"Content-Length:"))
        while len(body) < length:
            body += self.received()
        if not head.startswith(b"HTTP/1.1 200 "):
            raise SystemExit(f"a request was refused: {body.decode()}")
        return body

    def received(self):
        some = self.stream.recv(65536)
        if not some:
            raise SystemExit("the desk ended a connection")
        return some


def plan(chance):
    """A plan of four steps, on a random night."""
    night = chance.choice(NIGHTS[:-3])
    steps = ",".join(
        f'{{"options":[{{"kind":"{kind}","supplier":"{supplier}","product":"{product}","first":"{night}",'
        f'"nights":{nights if night[-2:] < "26" else 1},"count":1}}],"save":{"false" if at else "true"}}}'
        for at, (kind, supplier, product, nights) in enumerate(PRODUCTS)
    )
    return f'{{"steps":[{steps}],"tries":1}}'.encode()


def trip(client, agent, key, chance, pause, waits):
    """Puts one trip together. Each request's wait is added to waits."""

    def ask(method, path, number=None, body=b""):
        begun = time.monotonic()
        told = client.ask(request(method, path, agent, None if number is None else f"{key}-{number}", body))
        waits.append(time.monotonic() - begun)
        time.sleep(pause)
        return told

    ask("GET", "/unfinished")
    journey = ask("POST", "/journeys", 0, plan(chance)).rpartition(b":")[2].rstrip(b"}\n").decode()
    for number in range(1, 1 + len(PRODUCTS)):
        ask("POST", f"/journeys/{journey}/step", number)
    ask("GET", f"/journeys/{journey}")


def serving(program, file):
    """A desk that serves this file, and its port."""
    with socket.socket() as taken:
        taken.bind(("127.0.0.1", 0))
        port = taken.getsockname()[1]
    process = subprocess.Popen([program, "serve", file, "--port", str(port)], stdout=subprocess.PIPE)
    if not process.stdout.readline():
        raise SystemExit("no desk")
    return process, port


class Desk:
    """The desk over a new file with places enough."""

    def __init__(self, program):
        self.program = program
        rows = [
            f"{kind},{supplier},{product},{night},90000\n"
            for kind, supplier, product, _ in PRODUCTS for night in NIGHTS
        ]
        for at in range(0, len(rows), 1000):
            with open("places.csv", "w") as file:
                file.write("kind,supplier,product,night,places\n" + "".join(rows[at:at + 1000]))
            subprocess.run([program, "load", "day.db", "places.csv", "--batch", f"places-{at}"], check=True, stdout=subprocess.PIPE)
        self.process, self.port = serving(program, "day.db")

    def spent(self):
        """The processor's seconds that the desk took so far."""
        with open(f"/proc/{self.process.pid}/schedstat") as file:
            return int(file.read().split()[0]) / 1e9

    def end(self):
        self.process.kill()
        self.process.wait()
        for name in os.listdir("."):
            if name.startswith("day.db"):
                os.remove(name)


def play(desk, calls):
    """Makes these calls side by side, each with a connection and a list for its waits: all waits."""
    waits = [[] for _ in calls]
    failed = []

    def guarded(call, mine):
        try:
            call(Client(desk.port), mine)
        except BaseException as why:
            failed.append(why)

    threads = [threading.Thread(target=guarded, args=both) for both in zip(calls, waits)]
    for thread in threads:
        thread.start()
    for thread in threads:
        thread.join()
    if failed:
        raise SystemExit(f"bench: {failed[0]}")
    return sorted(sum(waits, []))


def busy(number, agents, seconds):
    """The agents that share a connection, in the busiest hour: each trip begins at a random moment."""
    chance = random.Random(number)
    rate = agents * TRIPS_AN_HOUR * BUSIEST / 3600

    def call(client, waits):
        due, end, made = time.monotonic() + chance.expovariate(rate), time.monotonic() + seconds, 0
        while due < end:
            time.sleep(max(0, due - time.monotonic()))
            trip(client, f"a{number}", f"{number}-{made}", chance, PAUSE / agents if agents > 1 else PAUSE, waits)
            made += 1
            due += chance.expovariate(rate)

    return call


def restless(number, seconds):
    """A client that never pauses."""
    chance = random.Random(number)

    def call(client, waits):
        end, made = time.monotonic() + seconds, 0
        while time.monotonic() < end:
            trip(client, f"a{number}", f"r{number}-{made}", chance, 0, waits)
            made += 1

    return call


def at(part, waits):
    return waits[min(len(waits) - 1, int(part * len(waits)))] * 1000 if waits else 0


def main(program, seconds):
    print("agents requests-a-day requests middle-ms of-100-the-99th-ms longest-ms processor-ms-a-request")
    for agents in (10, 100, 1000):
        desk = Desk(program)
        lanes = min(agents, CONNECTIONS)
        before = desk.spent()
        waits = play(desk, [busy(lane, agents // lanes, seconds) for lane in range(lanes)])
        spent = desk.spent() - before
        desk.end()
        print(
            f"{agents} {agents * HOURS * TRIPS_AN_HOUR * REQUESTS} {len(waits)} {statistics.median(waits or [0]) * 1000:.1f} "
            f"{at(0.99, waits):.1f} {at(1, waits):.1f} {spent * 1000 / max(1, len(waits)):.2f}", flush=True)
    desk = Desk(program)
    begun, before = time.monotonic(), desk.spent()
    waits = play(desk, [restless(number, seconds / 3) for number in range(10)])
    rate = len(waits) / (time.monotonic() - begun)
    agents = rate * 3600 / (TRIPS_AN_HOUR * BUSIEST * REQUESTS)
    print("clients-without-a-pause requests-a-second middle-ms of-100-the-99th-ms processor-ms-a-request agents-in-their-busiest-hour")
    print(f"10 {rate:.0f} {statistics.median(waits) * 1000:.1f} {at(0.99, waits):.1f} "
          f"{(desk.spent() - before) * 1000 / len(waits):.2f} {agents:.0f}")
    desk.end()


if __name__ == "__main__":
    main(sys.argv[1], float(sys.argv[2]))
