"""The log of a desk that serves, over real sockets. Prints what went wrong, and nothing else. Why connections end that wait too long,
are cut off or displaced is looked at in live.py, where they are."""
import calendar
import os
import re
import time
from pathlib import Path

from driving import LOG_HEAD, PLAN, Client, Logged, asked, desk, request, same, side_by_side, wrong

STOCK = request("GET", "/stock")
TIME = re.compile(r"[0-9]{4}-[0-9]{2}-[0-9]{2}T[0-9]{2}:[0-9]{2}:[0-9]{2}\.[0-9]{3}Z ")


def kinds():
    """Each kind of line: a request, a kept page, a refusal, what has no agent, what is no head; the house; the ends."""
    desk("run", "kinds.db", lines="begin F/AL/A1/2030-06-01/1/1!0\n")
    served = Logged("kinds.db", "--log", "--house", "kinds.sock")
    same("the opening", ["opened recovered=1"], served.log())
    one = Client(served.port)
    begin = request("POST", "/journeys", "k1", PLAN)
    kept = one.ask(begin)
    same("a kept page", kept, one.ask(begin))
    one.ask(request("POST", "/journeys/2/abort/0", "k1"))
    one.ask(STOCK)
    one.ask(b"GET /stock HTTP/1.1\r\nHost: d\r\n\r\n")
    one.ask(b"GET /stock HTTP/1.1\r\nHost: d\r\nDesk-Agent: A\r\nDesk-Key: \xff\r\n\r\n")
    one.close()
    first = "request connection=1 door=port agent="
    served.has("the first connection ends", "ended connection=1 door=port requests=6 why=left")
    same("its lines", [
        f"{first}ann method=POST target=/journeys status=200 key=k1 again=no refused=",
        f"{first}ann method=POST target=/journeys status=200 key=k1 again=yes refused=",
        f"{first}ann method=POST target=/journeys/2/abort/0 status=409 key=k1 again=no refused=14",
        f"{first}ann method=GET target=/stock status=200 key= again=no refused=",
        f"{first} method=GET target=/stock status=400 key= again=no refused=2",
    ], served.log()[1:6])
    two = Client(served.port)
    two.ask(request("POST", "/journeys", "k1", PLAN).replace(b"ann", b"bob"))
    two.ask(b"\x00\x1b[31m\r\n\r\n")
    two.close()
    served.has("another agent's key", "request connection=2 door=port agent=bob method=POST target=/journeys status=200 key=k1 again=no refused=")
    served.has("what is no head", "request connection=2 door=port agent= method= target= status=400 key= again=no refused=1")
    served.has("a closing page", "ended connection=2 door=port requests=2 why=closed")
    asked("kinds.sock", b"GET /unfinished HTTP/1.1\r\nHost: d\r\n\r\n")
    served.has("the house", "request connection=3 door=house agent= method=GET target=/unfinished status=200 key= again=no refused=")
    served.has("the house leaves", "ended connection=3 door=house requests=1 why=left")
    silent = Client(served.port)
    silent.ask(STOCK)
    asked("kinds.sock", b"POST /stop HTTP/1.1\r\nHost: d\r\nContent-Length: 0\r\n\r\n")
    served.ends("a stop")
    served.has("the stop", "request connection=5 door=house agent= method=POST target=/stop status=200 key= again=no refused=")
    served.has("a silent connection at a stop", "ended connection=4 door=port requests=1 why=stopped")
    silent.close()


def widely():
    """With --wide: each request is logged once, by its own method and the digits of its key; a first byte that begins no method
    closes."""
    served = Logged("widely.db", "--log", "--wide")
    uuid = "7d444840-9dc0-11d1-b245-5ffdce74fad2"
    digits = uuid.replace("-", "")
    one = Client(served.port)
    one.stream.sendall(STOCK.replace(b"GET", b"HEAD", 1))
    found = b""
    while not found.endswith(b"\r\n\r\n"):
        found += one.stream.recv(65536)
    head = b"POST /journeys HTTP/1.1\r\nHost: d\r\nDesk-Agent: ann\r\nDesk-Key: %s\r\n" % uuid.encode()
    one.ask(head + b"Transfer-Encoding: chunked\r\n\r\n%x\r\n%s\r\n0\r\n\r\n" % (len(PLAN), PLAN))
    one.stream.sendall(head + b"Content-Length: %d\r\nExpect: 100-continue\r\n\r\n" % len(PLAN))
    same("it goes on", b"HTTP/1.1 100 Continue\r\n\r\n", one.stream.recv(25))
    one.ask(PLAN)
    one.close()
    first = "request connection=1 door=port agent=ann"
    served.has("the first connection ends", "ended connection=1 door=port requests=3 why=left")
    same("its lines", [
        f"{first} method=HEAD target=/stock status=200 key= again=no refused=",
        f"{first} method=POST target=/journeys status=200 key={digits} again=no refused=",
        f"{first} method=POST target=/journeys status=200 key={digits} again=yes refused=",
    ], served.log()[1:4])
    hello = Client(served.port)
    same("a TLS hello gets no page", b"", hello.ask(bytes.fromhex("16030102000100fc0303") + b"\x5a" * 60))
    hello.close()
    served.has("a TLS hello", "request connection=2 door=port agent= method= target= status=? key= again=no refused=")
    served.has("its end", "ended connection=2 door=port requests=1 why=closed")
    served.kill()


def timed():
    """With --log=time: each line begins with its time in UTC, and goes on as without. The milliseconds of a request count from its
    last byte on, so they are no more than its client waited after that."""
    begun = time.time()
    served = Logged("timed.db", "--log=time", "--house", "timed.sock")
    one = Client(served.port)
    begin = request("POST", "/journeys", "k1", PLAN)
    one.stream.sendall(begin[:-1])
    time.sleep(1)
    sent = time.monotonic()
    one.ask(begin[-1:])
    waited = (time.monotonic() - sent) * 1000
    asked("timed.sock", b"POST /stop HTTP/1.1\r\nHost: d\r\nContent-Length: 0\r\n\r\n")
    served.ends("a stop with times")
    one.close()
    lines = Path(served.name).read_text(encoding="utf-8").splitlines()
    times = [TIME.match(line) for line in lines]
    same("each line has its time", [True] * 5, [it is not None for it in times])
    told = [served.told(TIME.sub("", line, count=1)).split() for line in lines]
    same("what the lines say", ["opened", "request", "request", "ended", "ended"], [words[0] for words in told])
    read = [calendar.timegm(time.strptime(it[0][:19], "%Y-%m-%dT%H:%M:%S")) + int(it[0][20:23]) / 1000 for it in times]
    same("times in order, of now", True, begun - 0.001 <= read[0] and read == sorted(read) and read[-1] <= time.time())
    millis = int(lines[1].rpartition("ms=")[2])
    same("no more than its client waited", True, millis <= waited + 1 or (millis, waited))


def odd_bytes():
    """Bytes of a peer that do not print are escaped: one line is one record, however odd they are."""
    served = Logged("odd.db", "--log")
    targets = [
        (b"/\\x0a\xc3\xa9", "/\\x5cx0a\\xc3\\xa9"), (b"/" + b"a" * 200, "/" + "a" * 127 + "\\.."), (b"*", "*"),
    ]
    for number, (target, shown) in enumerate(targets, 1):
        stream = Client(served.port)
        page = stream.ask(b"BREW " + target + b" HTTP/1.1\r\nHost: d\r\n\r\n").decode()
        status, refused = page[9:12], page.partition('"refused":')[2].rstrip("}")
        stream.close()
        served.has(f"the target {target!r}",
            f"request connection={number} door=port agent= method=BREW target={shown} status={status} key= again=no refused={refused}")
    for odd in [b"/a\nrequest connection=9\n", b"/\x1b[2J", b"/\x00", b"/\x7f", b"/\xff\xfe", b"\r", b"\t"]:
        stream = Client(served.port)
        stream.ask(b"GET " + odd + b" HTTP/1.1\r\nHost: d\r\nDesk-Agent: a\nb\r\nDesk-Key: \x01\r\n\r\n")
        stream.close()
    served.has("the end of the last one", "ended connection=10 door=port requests=1 why=closed")
    time.sleep(0.5)
    lines = served.log()
    same("a line for each request, and one for each end", (10, 10), tuple(
        sum(line.startswith(f"{kind} ") for line in lines) for kind in ("request", "ended")))
    served.kill()


def broken():
    """Standard error that is closed, full, or a pipe that nobody reads from any more: each page comes, the desk goes on
    and ends well, and its database is whole."""
    reading, writing = os.pipe()
    os.close(reading)
    with open("/dev/full", "wb") as full:
        for case, errors in [("full", full), ("a pipe without a reader", writing), ("closed", None)]:
            file = case.replace(" ", "_") + ".db"
            served = Logged(file, "--connections", "2", "--log", errors=errors)
            first, second = Client(served.port), Client(served.port)
            pages = [first.ask(request("POST", "/journeys", f"k{n}", PLAN)) for n in range(3)]
            same(f"{case}: its pages", [b'{"journey":%d}' % n for n in (1, 2, 3)], [found[-13:] for found in pages])
            same(f"{case}: another one's page", True, second.ask(STOCK).endswith(b"cells 0\n"))
            first.close()
            second.close()
            served.ends(case)
            unfinished = desk("unfinished", file)
            same(f"{case}: its database", "unfinished 3\n", unfinished.out[-13:])
    os.close(writing)


def silent():
    """Without --log not a byte is written, whatever comes and goes, and a fault is as ever."""
    desk("run", "silent.db", lines="begin F/AL/A1/2030-06-01/1/1!0\n")
    served = Logged("silent.db", "--connections", "3")
    one, two, three = (Client(served.port) for _ in range(3))
    one.ask(request("POST", "/journeys", "k1", PLAN))
    two.ask(b"\x00\r\n\r\n")
    two.close()
    three.stream.sendall(STOCK[:20])
    three.close()
    refused = desk("serve", "other.db", "--port", str(served.port), "--connections", "1")
    same("a fault without a log", (1, "fault 27 Net\n"), (refused.status, refused.err))
    refused = desk("serve", "other.db", "--port", str(served.port), "--connections", "1", "--log")
    same("a fault with a log", (1, f"{LOG_HEAD}opened recovered=0\nfault 27 Net\n"), (refused.status, refused.err))
    one.close()
    served.ends("without a log")
    same("without a log: not a byte", 0, os.path.getsize(served.name))


side_by_side((kinds,), (widely,), (timed,), (odd_bytes,), (broken,), (silent,))
print("\n".join(wrong))
