"""Many clients of one desk at once, over real sockets. Prints what went wrong, and nothing else.
More than 200 lines: all that waits for 30 seconds waits side by side, in one process."""
import contextlib
import os
import signal
import socket
import stat
import struct
import sys
import threading
import time
from concurrent.futures import ThreadPoolExecutor
from pathlib import Path

from driving import (
    DESK, PLAN, Client, Desk, Logged, asked, desk, free_port, holds, is_whole, opened, page_size, peak, request, rest_of, same,
    side_by_side, sockets_of, waits_for, wrong,
)

FILE = b"kind,supplier,product,night,places\nflight,AL,A1,2030-06-01,1000\n"
STOCK = request("GET", "/stock")
UNFINISHED = request("GET", "/unfinished")
MEANWHILE = 10  # seconds: the most that a client may wait for a page beside others


def body_of(page):
    return page.partition(b"\r\n\r\n")[2]


def post(path, key, body=b"", agent="ann"):
    return request("POST", path, key, body, agent)


def is_served(what, port):
    """Another client is served meanwhile, and at once."""
    begun = time.monotonic()
    holds(f"{what}: another one is served", body_of(asked(port, STOCK)).rstrip().endswith(b"cells 1"))
    holds(f"{what}: and at once", time.monotonic() - begun < MEANWHILE)


def loads(port):
    same("the file", b'{"batch":"b1","rows":1}', body_of(asked(port, post("/batches/b1", "k0", FILE))))


# ---- what waits

def half_a_head(port):
    begun = time.monotonic()
    stream = opened(port)
    stream.sendall(STOCK[:20])
    is_served("half a head", port)
    rest_of(stream)
    took = time.monotonic() - begun
    holds(f"half a head: ended after 30 seconds, {took:.1f}", 29.5 < took < 45)


def byte_by_byte(port):
    """A byte each half second: it is never silent, and its request is never whole."""
    begun = time.monotonic()
    stream = opened(port)
    stream.setblocking(False)
    ended = None
    for at in range(80):
        try:
            stream.send(b"GET /stock HTTP/1.1\r\nHost: d\r\nX: "[at : at + 1] or b"x")
            if stream.recv(1) == b"":
                ended = time.monotonic() - begun
                break
        except BlockingIOError:
            pass
        except OSError:
            ended = time.monotonic() - begun
            break
        if at == 4:
            is_served("byte by byte", port)
        time.sleep(0.5)
    holds(f"byte by byte: ended after 30 seconds, {ended}", ended and 29.5 < ended < 45)


def never_reads():
    """Requests without end, of which no page is read: the pages that wait are bounded, and so is what is taken in."""
    greedy = Logged("greedy.db", "--log")
    nights = [f"flight,AL,A{n},2030-06-{night:02},9\n" for n in range(20) for night in range(1, 31)]
    same("a file of 600 rows", b'{"batch":"b1","rows":600}',
         body_of(Client(greedy.port).ask(post("/batches/b1", "k0", FILE[:35] + "".join(nights).encode()))))
    stream = socket.socket()
    stream.setsockopt(socket.SOL_SOCKET, socket.SO_RCVBUF, 4096)
    stream.connect(("127.0.0.1", greedy.port))
    stream.settimeout(5)
    sent = 0
    started = time.monotonic()
    with contextlib.suppress(OSError):
        while sent < 50_000_000:
            sent += stream.send(STOCK * 100)
    holds(f"never reads: no more is taken in after {sent} bytes", sent < 50_000_000)
    begun = time.monotonic()
    holds("never reads: another one is served", is_whole(Client(greedy.port).ask(UNFINISHED)))
    holds("never reads: and at once", time.monotonic() - begun < MEANWHILE)
    waits_for(lambda: sockets_of(greedy.process) == 1, 200)
    took = time.monotonic() - started
    holds(f"never reads: it is ended 30 seconds after it took no more, {took:.1f}", 29.5 < took < 200)
    rest_of(stream)
    # a trial program keeps freed memory for a while
    if "/out/trial/" not in DESK:
        holds(f"never reads: the desk takes less than 64 MB, {peak(greedy.process)} kB", peak(greedy.process) < 65536)
    greedy.tells_why("late-page")
    greedy.kill()


def silent(port):
    """Silent for more than 30 seconds between two requests, of which the second comes in two pieces: it is served."""
    client = Client(port)
    is_whole(client.ask(STOCK))
    time.sleep(33)
    client.stream.sendall(STOCK[:30])
    time.sleep(0.5)
    holds("silent, and then in two pieces", body_of(client.ask(STOCK[30:])).rstrip().endswith(b"cells 1"))
    client.close()


def stopped_for_long():
    """A desk that was stopped for more than 30 seconds does not blame the client whose request was half there."""
    stopped = Desk("stopped.db")
    client = Client(stopped.port)
    client.stream.sendall(STOCK[:30])
    time.sleep(0.5)
    stopped.process.send_signal(signal.SIGSTOP)
    time.sleep(32)
    stopped.process.send_signal(signal.SIGCONT)
    time.sleep(0.5)
    holds("after a stop of 32 seconds", body_of(client.ask(STOCK[30:])).rstrip().endswith(b"cells 0"))
    stopped.kill()


# ---- what does not

def books(port, number):
    """One agent books, over one connection that is kept open; its journey."""
    agent = f"a{number}"
    client = Client(port)
    begun = body_of(client.ask(post("/journeys", "k1", PLAN, agent)))
    journey = begun.partition(b":")[2].rstrip(b"}").decode()
    stepped = body_of(client.ask(post(f"/journeys/{journey}/step", "k2", b"", agent)))
    same(f"the step of {agent}", b'{"item":"T1.1","journey":%s,"pos":1,"state":"ended"}' % journey.encode(), stepped)
    for _ in range(20):
        client.ask(request("GET", f"/journeys/{journey}", agent=agent))
    client.close()
    return journey


def ten_book(port):
    with ThreadPoolExecutor(10) as pool:
        same("ten clients: as many journeys", 10, len(set(pool.map(books, [port] * 10, range(10)))))


def places_taken():
    """256 at once are served, each again; the one that is silent for longest is ended for one more."""
    full = Logged("full.db", "--log")
    clients = []
    for number in range(256):
        clients.append(Client(full.port))
        holds(f"connection {number}", is_whole(clients[-1].ask(UNFINISHED)))
    time.sleep(0.3)
    for number in [*range(0, 100), *range(101, 256)]:
        holds(f"connection {number} again", is_whole(clients[number].ask(UNFINISHED)))
    holds("one more", is_whole(Client(full.port).ask(UNFINISHED)))
    same("the one that was silent for longest", b"", clients[100].stream.recv(1))
    full.has("why it was ended", "ended connection=101 door=port requests=1 why=displaced")
    for number in [*range(0, 100), *range(101, 256)]:
        holds(f"connection {number} once more", is_whole(clients[number].ask(UNFINISHED)))
    full.kill()


def few_descriptors():
    """Where there is no descriptor for one more connection, it waits until another one ends."""
    few = Desk("few.db", files=40)
    clients = [Client(few.port) for _ in range(60)]
    for client in clients:
        client.stream.sendall(UNFINISHED)
    time.sleep(1)
    holds("the first one", is_whole(clients[0].ask(b"")))
    for client in clients[1:]:
        client.stream.settimeout(10)
    for number, client in enumerate(clients[1:], 1):
        clients[number - 1].close()
        holds(f"connection {number} of 60, with 40 descriptors", is_whole(client.ask(b"")))
    few.kill()


def stopped_shortly():
    """A signal that stops the desk ends nothing: not a wait, not a connection, not a request that is half there."""
    stopped = Desk("short.db", "--connections", "2")
    clients = [Client(stopped.port), Client(stopped.port)]
    clients[0].stream.sendall(UNFINISHED[:30])
    for _ in range(20):
        stopped.process.send_signal(signal.SIGSTOP)
        time.sleep(0.02)
        stopped.process.send_signal(signal.SIGCONT)
        time.sleep(0.02)
        holds("beside stops", is_whole(clients[1].ask(UNFINISHED)))
    holds("what was half there", is_whole(clients[0].ask(UNFINISHED[30:])))
    for client in clients:
        client.close()
    stopped.ends("a desk that was stopped and continued")


def answered(port, message):
    """Sends a request again and again, over a new connection each time, until its page comes."""
    for _ in range(2400):
        with contextlib.suppress(OSError):
            client = Client(port)
            client.stream.settimeout(5)
            page = client.ask(message)
            client.close()
            if is_whole(page):
                return body_of(page)
        time.sleep(0.05)
    return b"no page"


def retries(port, number, journeys):
    """Begins three journeys, each request until it is answered."""
    for count in range(3):
        page = answered(port, post("/journeys", f"k{count}", PLAN, f"a{number}"))
        journeys.append(page)
        same("a page, whatever was killed", True, page.startswith(b'{"journey":'))


def kills():
    """The desk is killed again and again while ten clients begin journeys: each begins just three."""
    killed = Desk("killed.db")
    journeys = []
    with ThreadPoolExecutor(10) as pool:
        clients = [pool.submit(retries, killed.port, number, journeys) for number in range(10)]
        for count in range(12):
            if all(client.done() for client in clients):
                break
            time.sleep(0.15 + 0.05 * (count % 4))
            killed.kill()
            killed = Desk("killed.db", port=killed.port)
    same("after the kills: as many journeys as were asked for", 30, len(set(journeys)))
    killed.kill()
    last = desk("run", "killed.db", lines="begin F/AL/A1/2030-06-01/1/1!0\n").out
    same("after the kills: the next journey", "journey 31 begun\n", last)


def refused_at(what, path):
    """A desk that is to listen at this path ends with the fault of the net, and leaves what is there."""
    before = os.lstat(path)
    ended = desk("serve", "refused.db", "--port", str(free_port()), "--connections", "1", "--house", path)
    same(f"{what}: how it ends", (1, "", "fault 27 Net\n"), (ended.status, ended.out, ended.err))
    after = os.lstat(path)
    same(f"{what}: what is there", (before.st_ino, before.st_mode, before.st_size), (after.st_ino, after.st_mode, after.st_size))


def unix_socket():
    """The file of the Unix socket: its mode and owner; one that a kill left, one that is in use, and other files."""
    Path("a_file").write_text("as it was", encoding="ascii")
    os.symlink("nowhere", "a_link")
    refused_at("a file at the path", "a_file")
    refused_at("a link at the path", "a_link")
    old = Desk("house.db", "--house", "desk.sock")
    there = os.lstat("desk.sock")
    same("the file: a socket, its mode and its owner", (stat.S_IFSOCK | 0o600, os.getuid()), (there.st_mode, there.st_uid))
    holds("a request at the path", is_whole(asked("desk.sock", UNFINISHED)))
    holds("a request at the port", is_whole(Client(old.port).ask(UNFINISHED)))
    for _ in range(3):  # clients that go away before they take their pages
        with socket.socket(socket.AF_UNIX) as hasty:
            hasty.connect("desk.sock")
            hasty.sendall(UNFINISHED * 50)
    holds("after hasty clients", is_whole(asked("desk.sock", UNFINISHED)))
    refused_at("a desk listens at the path", "desk.sock")
    old.process.send_signal(signal.SIGSTOP)
    refused_at("a desk that is stopped listens at the path", "desk.sock")
    old.process.send_signal(signal.SIGCONT)
    old.kill()
    same("a kill leaves the file", True, os.path.exists("desk.sock"))
    new = Desk("house.db", "--house", "desk.sock", "--connections", "2")
    holds("a request at the path after a kill", is_whole(asked("desk.sock", UNFINISHED)))
    holds("a request at the port after a kill", is_whole(asked(new.port, UNFINISHED)))
    new.ends("a desk with a path")
    same("what an orderly end leaves", [], [name for name in os.listdir(".") if name.startswith("desk.sock")])


def resets_one(port, number):
    """A client that goes away by a reset: within its head, its body or its pages, or once it has sent all."""
    stream = opened(port)
    stream.setsockopt(socket.SOL_SOCKET, socket.SO_LINGER, struct.pack("ii", 1, 0))
    begin = post("/journeys", f"k{number}", PLAN, "rex")
    message = (STOCK[:20], begin[:-10], begin, begin + STOCK * 20)[number % 4]
    stream.sendall(message)
    if number % 3 == 0:
        stream.settimeout(0.2)
        with contextlib.suppress(OSError):
            stream.recv(1)
    stream.close()


def resets():
    """400 clients that reset their connections, beside three that are served: each begin acts at most once."""
    torn = Logged("torn.db", "--log")
    loads(torn.port)
    done = threading.Event()

    def is_served_on(number):
        client = Client(torn.port)
        count = 0
        while not done.is_set():
            begun = time.monotonic()
            same(f"beside resets: client {number}", b"cells 1", body_of(client.ask(STOCK)).rstrip()[-7:])
            holds(f"beside resets: client {number}, at once", time.monotonic() - begun < MEANWHILE)
            count += 1
        client.close()
        return count

    with ThreadPoolExecutor(3) as pool:
        beside = [pool.submit(is_served_on, number) for number in range(3)]
        for number in range(400):
            resets_one(torn.port, number)
        done.set()
    served = [client.result() for client in beside]
    holds(f"beside resets: pages for each, {served}", min(served) > 10)
    client = Client(torn.port)
    begun = {body_of(client.ask(post("/journeys", f"k{number}", PLAN, "rex"))) for number in range(400) if number % 4 > 1}
    same("after resets: a journey for each that began one", 200, len(begun))
    same("after resets: no journey more", b'{"journey":201}', body_of(client.ask(post("/journeys", "last", PLAN, "rex"))))
    holds("after resets: no connection is left", waits_for(lambda: sockets_of(torn.process) == 2, 20))
    for why in ("cut-off", "not-taken"):
        torn.tells_why(why)
    client.close()
    torn.kill()


def unread_at_a_stop():
    """Pages wait for a peer that has not read any when the house stops the desk: it gets them whole, and none after them."""
    path = "unread.sock"
    served = Desk("unread.db", "--house", path)
    late = Client(path)
    late.stream.sendall(request("GET", "/metrics", agent="") * 300)
    time.sleep(2)
    same("the house stops it", b'{"state":"stopping"}', body_of(asked(path, request("POST", "/stop", agent=""))))
    pages, count = rest_of(late.stream), 0
    while is_whole(pages):
        pages, count = pages[page_size(pages):], count + 1
    same("whole pages, but not all", (b"", True), (pages[:200], 0 < count < 300 or count))
    served.ends("a desk that is stopped while pages wait")


def main():
    whole = Logged("trips.db", "--log")
    loads(whole.port)
    waiting = [half_a_head, byte_by_byte, silent]
    calls = [(case, whole.port) for case in waiting] + [(never_reads,), (stopped_for_long,)]
    beside = [(ten_book, whole.port), (places_taken,), (few_descriptors,), (stopped_shortly,), (kills,),
        (unix_socket,), (unread_at_a_stop,), (resets,)]
    side_by_side(*calls, *beside)
    is_served("at the end", whole.port)
    whole.tells_why("late-request", 2)
    whole.kill()
    told = desk("unfinished", "trips.db")
    same("nothing is unfinished", "unfinished 0\n", told.out)
    sys.exit("\n".join(wrong) or 0)


main()
