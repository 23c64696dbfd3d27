"""Looking at a desk that serves, over real sockets: its reports, what is refused of them, what else may listen at the path of --at,
and what a monitor reads. Prints what went wrong, and how many reports were compared."""
import os
import shutil
import socket
import subprocess
import sys
import threading
import time
from pathlib import Path

from driving import DESK, PATIENCE, PLAN, Client, asked, desk, parts_of, request, same, waits_for, wrong
from looking_reports import HOUSE, ledger, served_over, stops, target, unnamed
from parts import IN_PART, Deal, chances

LEDGERS = int(os.environ.get("LEDGERS", "40"))
METRICS = unnamed("GET", "/metrics")
UNKNOWN = (404, "application/json", b'{"name":"UnknownPath","refused":7}')
BAD = (400, "application/json", b'{"name":"BadBody","refused":4}')
# subcommands with words that ask for no report, or that the command line refuses
REFUSED = (
    ("run", ()), ("serve", ("--port=1",)), ("recover", ()), ("migrate", ()), ("--version", ()), ("", ()), ("stocks", ()),
    ("stock", ("--kind=boat",)), ("stock", ("--calendar", "--format=json")), ("stock", ("",)), ("stock", ("--help",)),
    ("stock", ("--at=house",)), ("holders", ("R/INN/DBL/2030-06-01", "--kind=room")), ("holders", ("R/inn/DBL/2030-06-01",)),
    ("history", ()), ("history", ("0",)), ("history", ("x",)), ("why", ("01",)), ("why", ("1", "2")),
    ("unfinished", ("--state=ended",)), ("journeys", ("--agent=Ann",)), ("summary", ("--from=2030-02-30",)),
    ("summary", ("--format=xml",)),
)
NO_DESK = "No desk serves at the path of --at. Start one with --house, or name its file."
NO_ANSWER = "No whole report came from the path of --at. Ask again; an older desk has none."
HEAD = b"HTTP/1.1 200 OK\r\nContent-Length: 8\r\nContent-Type: text/plain\r\nConnection: close\r\n\r\n"
# what may answer at the path of --at that is no whole report
NO_REPORTS = (
    ("nothing", b""), ("a report without its end", HEAD + b"cells 0"), ("more than a report", HEAD + b"cells 0\nc"),
    ("a head without its end", HEAD[:-3]), ("another program", b"SSH-2.0-OpenSSH_9.2\r\n"),
    ("an older desk", b"HTTP/1.1 404 Not Found\r\nContent-Length: 34\r\nContent-Type: application/json\r\nConnection: close\r\n\r\n"
     b'{"name":"UnknownPath","refused":7}'),
)


def refusals():
    """What is refused at the socket: words that ask for no report, another method; and who may not ask."""
    served = served_over("refused.db")
    for name, words in REFUSED:
        same(f"no report: {name} {words}", BAD, parts_of(asked(HOUSE, unnamed("GET", target(name, words)))))
    for text in ("/reports/stock?--calendar?", "/reports/stock&--calendar", "/reports/"):
        same(f"no report: {text}", BAD, parts_of(asked(HOUSE, unnamed("GET", text))))
    wrong_method = asked(HOUSE, unnamed("POST", "/reports/stock"))
    same("another method", (405, True), (parts_of(wrong_method)[0], b"\r\nAllow: GET\r\n" in wrong_method))
    same("no path of the desk", UNKNOWN, parts_of(asked(HOUSE, unnamed("GET", "/reports"))))
    same("no path of a monitor", UNKNOWN, parts_of(asked(HOUSE, unnamed("POST", "/metrics"))))
    for path in ("/reports/stock", "/metrics"):
        same(f"{path} of an agent at the socket", UNKNOWN, parts_of(asked(HOUSE, request("GET", path))))
        same(f"{path} of an agent at the port", UNKNOWN, parts_of(asked(served.port, request("GET", path))))
        same(f"{path} of nobody at the port", UNKNOWN, parts_of(asked(served.port, unnamed("GET", path))))
    with open("/dev/full", "wb") as full:
        told = subprocess.run([DESK, "stock", "--at", HOUSE], stdout=full, stderr=subprocess.PIPE, check=False)
    same("a report by --at that cannot be written", (1, b"fault 25 Write\n"), (told.returncode, told.stderr))
    stops(served, "refusals")


def fails(what, why, path):
    """A report by --at is a fault with this cause, and nothing of it is printed."""
    told = desk("--explain", "stock", "--at", path)
    same(what, (1, "", f"fault 27 Net\n{why}\n"), (told.status, told.out, told.err))


def answers_once(listener, page):
    """Reads one request, sends these bytes and ends the connection."""
    peer, _ = listener.accept()
    with peer:
        text = b""
        while not text.endswith(b"\r\n\r\n"):
            text += peer.recv(4096)
        peer.sendall(page)


def no_reports():
    """What else may be at the path of --at than a desk that serves."""
    Path("a_file").touch()
    fails("a desk that has ended", NO_DESK, HOUSE)
    for what, path in (("a file in place of a socket", "a_file"), ("a path that is too long", "1" * 200), ("an empty path", "")):
        fails(what, NO_DESK, path)
    with socket.socket(socket.AF_UNIX) as listener:
        listener.settimeout(PATIENCE)
        listener.bind("other")
        listener.listen()
        for what, page in NO_REPORTS:
            answering = threading.Thread(target=answers_once, args=(listener, page))
            answering.start()
            fails(what, NO_ANSWER, "other")
            answering.join()
    fails("a socket on which nobody listens any more", NO_DESK, "other")


def numbers_read(monitor, wanted):
    """What a monitor reads, once it has this line: the lines of the head, the body, and the numbers by their names."""
    waits_for(lambda: f"\n{wanted}\n".encode() in monitor.ask(METRICS))
    head, _, body = monitor.ask(METRICS).decode().partition("\r\n\r\n")
    return head.split("\r\n"), body, dict(line.rsplit(" ", 1) for line in body.splitlines() if not line.startswith("#"))


def monitored():
    """What a monitor reads after these requests and connections, and that promtool reads it, where that is there."""
    served = served_over("monitored.db")
    one, cut, monitor = Client(served.port), Client(served.port), Client(HOUSE)
    for method, path, key, body in (
        ("POST", "/journeys", "k1", PLAN), ("POST", "/journeys", "k1", PLAN), ("POST", "/journeys", "k2", b"{}"),
        ("GET", "/stock", "", b""), ("GET", "/nowhere", "", b""),
    ):
        one.ask(request(method, path, key, body))
    cut.stream.sendall(request("GET", "/stock")[:9])
    time.sleep(0.3)
    cut.close()
    head, body, numbers = numbers_read(monitor, 'desk_connections_ended_total{why="cut-off"} 1')
    same("its head", ["HTTP/1.1 200 OK", "Content-Type: text/plain; version=0.0.4"], [head[0], head[2]])
    expected = {
        "desk_events_total": "1", "desk_journeys_total": "1", "desk_journeys_unfinished": "1", "desk_connections_open": "2",
        'desk_connections_ended_total{why="cut-off"}': "1", 'desk_connections_ended_total{why="late-page"}': "0",
        'desk_requests_total{status="400"}': "1", 'desk_requests_total{status="404"}': "1",
        'desk_requests_total{status="lost"}': "0",
        'desk_command_seconds_bucket{le="+Inf"}': "2", "desk_command_seconds_count": "2",
    }
    same("its numbers", expected, {name: numbers.get(name) for name in expected})
    times = [int(number) for name, number in numbers.items() if name.startswith("desk_command_seconds_bucket")]
    same("buckets that grow", (sorted(times), 11), (times, len(times)))
    same("a sum of seconds", True, 0 < float(numbers["desk_command_seconds_sum"]) < 60)
    if shutil.which("promtool"):
        told = subprocess.run(["promtool", "check", "metrics"], input=body.encode(), capture_output=True, check=False)
        same("promtool", (0, b"", b""), (told.returncode, told.stdout, told.stderr))
    one.close()
    monitor.close()
    stops(served, "a desk with a monitor")


def main():
    deal, count = Deal(), 0
    for scene in (refusals, no_reports, monitored):
        if deal.is_mine():
            scene()
    for seed in deal.mine(range(LEDGERS)):
        count += ledger(seed, chances(f"house reports {seed}")[0], seed == 0)
    print(f"looking.sh: {count} reports compared{IN_PART}")
    sys.exit("\n".join(f"looking.sh: {line}" for line in wrong) or 0)


main()
