"""Runs the desk with its words, its lines or its requests, for the scripts that try it beside hostile files.
More than 200 lines: the one home of what these scripts share."""
import contextlib
import itertools
import json
import os
import re
import resource
import signal
import socket
import subprocess
import time
from concurrent.futures import ThreadPoolExecutor
from pathlib import Path

from ports import free_port

DESK = os.environ["DESK"]
PATIENCE = float(os.environ.get("PATIENCE", "60"))
NAMED_FAULTS = {
    f"fault {number} {name}\n"
    for number, name in [
        (17, "Memory"), (18, "Store"), (21, "Store"), (22, "Memory"),
        (24, "Read"), (25, "Write"), (26, "File"), (27, "Net"),
    ]
}


def waits_for(is_so, within=30.0):
    """Waits until this is so, for so many seconds at most; says whether it came to be so."""
    until = time.monotonic() + within
    while not is_so():
        if time.monotonic() > until:
            return False
        time.sleep(0.02)
    return True


class Ended:
    """How a run ended: its status, its output and its standard error."""

    def __init__(self, status, out, err):
        self.status, self.out, self.err = status, out.decode("utf-8", "replace"), (err or b"").decode("utf-8", "replace")

    def fault(self):
        """The fault that it named, where it ended by one."""
        return self.err.strip() if self.status == 1 and self.err in NAMED_FAULTS else ""

    def is_refused(self):
        """Whether it ended by a refusal, which its last line says."""
        return self.status == 1 and not self.err and self.out.rstrip("\n").split("\n")[-1].startswith("refused ")

    def is_orderly(self):
        """Whether it did its work, or said by name why not."""
        return (self.status == 0 and not self.err) or self.fault() != "" or self.is_refused()

    def __str__(self):
        return f"status {self.status}, output {self.out!r}, standard error {self.err!r}"


def desk(*words, lines="", env=None, folder=None):
    """One run of the program, to its end. One that does not end has the status 'hang'."""
    try:
        done = subprocess.run(
            [DESK, *words], input=lines.encode(), capture_output=True, cwd=folder, timeout=PATIENCE,
            env={**os.environ, **env} if env else None, check=False,
        )
    except subprocess.TimeoutExpired as late:
        return Ended("hang", late.stdout or b"", late.stderr or b"")
    return Ended(done.returncode, done.stdout, done.stderr)


class Lines:
    """The program at its lines, which are asked one by one, so that it can be killed between two of them."""

    def __init__(self, file, env=None, folder=None):
        self.process = subprocess.Popen(
            [DESK, "run", file], stdin=subprocess.PIPE, stdout=subprocess.PIPE, stderr=subprocess.DEVNULL,
            env={**os.environ, **(env or {})}, cwd=folder,
        )

    def ask(self, line):
        self.process.stdin.write(line.encode() + b"\n")
        self.process.stdin.flush()
        return self.process.stdout.readline().decode().rstrip("\n")

    def kill(self):
        self.process.send_signal(signal.SIGKILL)
        self.process.stdin.close()
        self.process.stdout.close()
        self.process.wait()


def killed_after(lines, file, env=None):
    """The answers to these lines, after which the program is killed."""
    run = Lines(file, env)
    said = [run.ask(line) for line in lines]
    run.kill()
    return said


class Server:
    """The program at its port, for so many connections; a port that was taken meanwhile is tried again."""

    def __init__(self, file, connections=1, env=None, folder=None, words=(), port=None, errors=subprocess.PIPE, before=(), files=None):
        words = [*words, *(["--connections", str(connections)] if connections else [])]
        limit = (lambda: resource.setrlimit(resource.RLIMIT_NOFILE, (files, files))) if files else None
        for _ in range(3):
            self.port = port or free_port()
            self.process = subprocess.Popen(
                [*before, DESK, "serve", file, "--port", str(self.port), *words],
                stdin=subprocess.DEVNULL, stdout=subprocess.PIPE, stderr=errors,
                env={**os.environ, **(env or {})}, cwd=folder, preexec_fn=limit,
            )
            self.said = self.process.stdout.readline()
            if self.said or (env and ("FAIL" in env or "REFUSE" in env)):
                return
            self.process.communicate()

    def end(self):
        """Waits until it ends by itself."""
        try:
            out, err = self.process.communicate(timeout=PATIENCE)
        except subprocess.TimeoutExpired:
            self.process.kill()
            out, err = self.process.communicate()
            return Ended("hang", self.said + out, err)
        return Ended(self.process.returncode, self.said + out, err)

    def kill(self):
        self.process.send_signal(signal.SIGKILL)
        self.process.communicate()


class Desk(Server):
    """The program at its port, with further words, until it is stopped; with `files`, so many descriptors are all that it has."""

    def __init__(self, file, *words, **how):
        super().__init__(file, None, words=words, **how)
        if not self.said:
            raise RuntimeError(f"no desk over {file}")

    def ends(self, what, status=0):
        """It ends by itself, and has told nothing but that it is ready."""
        ended = self.end()
        same(f"{what}: how it ends", (status, f"ready {self.port}\n", ""), (ended.status, ended.out, ended.err))


LOG_HEAD = "[INFO  desk] "
LOG_LINE = re.compile(r"\[INFO  desk\] (request( [a-z]+=[!-~]*){9}(?P<millis> ms=[0-9]+)|(ended|opened)( [a-z]+=[!-~]*)+)")


class Logged(Desk):
    """A desk whose standard error is a file of its own, or goes to `errors`; None: nowhere, it is closed."""

    count = itertools.count(1)

    def __init__(self, file, *words, errors=-1):
        self.name = f"errors.{next(Logged.count)}"
        closed = ["sh", "-c", 'exec "$@" 2>&-', "sh"] if errors is None else []
        with open(self.name, "wb") as kept:
            super().__init__(file, *words, errors=kept if errors == -1 else errors, before=closed)

    def log(self):
        """The lines so far, each without its head, and those of requests without their milliseconds."""
        found = Path(self.name).read_text(encoding="utf-8").split("\n")
        same("the log ends with a whole line", "", found[-1])
        return [self.told(line) for line in found[:-1]]

    def told(self, line):
        """What a line says."""
        read = LOG_LINE.fullmatch(line)
        same("a line of the log", True, read is not None or line)
        return line.removeprefix(LOG_HEAD).removesuffix((read and read["millis"]) or "")

    def has(self, what, line, within=30):
        """A line is in the log, or soon comes."""
        same(what, True, waits_for(lambda: line in self.log(), within) or self.log())

    def tells_why(self, why, count=1, number="[0-9]+"):
        """At least so many connections have ended for this reason: those of this number, if one is given."""
        found = [line for line in self.log() if re.fullmatch(f"ended connection={number} .* why={why}", line)]
        holds(f"{self.name}: {count} with why={why}: {found}", len(found) >= count)


# The two files of a database.
FILES = ("trips.db", "trips.db-wal")


def read_files(folder):
    return {name: path.read_bytes() for name in FILES if (path := Path(folder, name)).exists()}


def lay(files, folder="cut"):
    """Puts these files on a disk of their own, and no others."""
    os.makedirs(folder, exist_ok=True)
    for name in FILES:
        Path(folder, name).unlink(missing_ok=True)
    for name, content in files.items():
        Path(folder, name).write_bytes(content)


# What went wrong, which a script prints at its end.
wrong = []


def same(what, expected, found):
    """Both are the same. Of what is long there is shown what stands where they part."""
    if expected == found:
        return
    if type(expected) is type(found) in (str, bytes, list) and len(repr(expected)) > 3000:
        at = next((n for n, pair in enumerate(zip(expected, found)) if pair[0] != pair[1]), min(len(expected), len(found)))
        what, expected, found = f"{what}, from {at} on", expected[at : at + 120], found[at : at + 120]
    wrong.append(f"{what}\n  expected: {expected!r:.3000}\n  found:    {found!r:.3000}")


def holds(what, is_so):
    same(what, True, bool(is_so))


def side_by_side(*calls):
    """Makes these calls at the same time, each a function with its words; what one raises is said too."""
    with ThreadPoolExecutor(len(calls)) as pool:
        made = [(call.__name__, pool.submit(call, *words)) for call, *words in calls]
    for name, ended in made:
        same(name, "None", repr(ended.exception()))


def peak(process):
    """The most memory that a process has taken, in kB."""
    return int(re.search(r"VmHWM:\s*(\d+)", Path(f"/proc/{process.pid}/status").read_text(encoding="ascii"))[1])


def sockets_of(process):
    """How many sockets a process has, of those that listen and those of connections; what is closed meanwhile is none."""
    count = 0
    for descriptor in Path(f"/proc/{process.pid}/fd").iterdir():
        with contextlib.suppress(FileNotFoundError):
            count += os.readlink(descriptor).startswith("socket:")
    return count


def compact(value):
    """A JSON value as the desk writes it."""
    return json.dumps(value, sort_keys=True, separators=(",", ":"))


def option(kind, supplier, product, first="2030-06-01", nights=1, count=1):
    return {"kind": kind, "supplier": supplier, "product": product, "first": first, "nights": nights, "count": count}


def plan(*steps, saves=(), tries=0):
    """The body of a plan of these steps, each an option or a list of some, with save-points after these steps."""
    options = [one if isinstance(one, list) else [one] for one in steps]
    return compact({"steps": [{"options": one, "save": n in saves} for n, one in enumerate(options, 1)], "tries": tries})


def plan_of(*products, count=1, **more):
    """The bytes of a plan whose steps want a flight each, of one of these products."""
    return plan(*([option("flight", "AL", one, count=count) for one in names] for names in products), **more).encode()


PLAN = plan_of(["A1"])


def request(method, path, key="", body=b"", agent="ann", host="d"):
    """The bytes of a request."""
    fields = [f"Host: {host}"] + [f"Desk-Agent: {agent}"] * bool(agent) + [f"Desk-Key: {key}"] * bool(key)
    fields += [f"Content-Length: {len(body)}"] * (method == "POST")
    return "\r\n".join([f"{method} {path} HTTP/1.1", *fields, "", ""]).encode() + body


def opened(port):
    """A connection to the desk, on which each write is sent at once."""
    stream = socket.create_connection(("127.0.0.1", port), PATIENCE)
    stream.setsockopt(socket.IPPROTO_TCP, socket.TCP_NODELAY, 1)
    return stream


def end_writing(stream):
    """Ends what this side writes, if the desk has not ended the connection already."""
    with contextlib.suppress(OSError):
        stream.shutdown(socket.SHUT_WR)


def rest_of(stream):
    """All that comes until the desk ends the connection, in order or not; then it is closed."""
    text = b""
    with stream, contextlib.suppress(OSError):
        while piece := stream.recv(65536):
            text += piece
    return text


class Client:
    """A connection to the desk, at its port or at a path."""

    def __init__(self, place):
        self.stream = socket.socket(socket.AF_UNIX if isinstance(place, str) else socket.AF_INET)
        self.stream.settimeout(PATIENCE)
        self.stream.connect(place if isinstance(place, str) else ("127.0.0.1", place))
        self.rest = b""

    def ask(self, message):
        """The page that answers this request, or what came of it where the connection ended before."""
        with contextlib.suppress(OSError):
            self.stream.sendall(message)
            while not is_whole(self.rest) and (piece := self.stream.recv(65536)):
                self.rest += piece
        size = page_size(self.rest)
        page, self.rest = self.rest[:size], self.rest[size:]
        return page

    def close(self):
        self.stream.close()


def asked(place, message):
    """The page of a request over a connection of its own."""
    client = Client(place)
    page = client.ask(message)
    client.close()
    return page


def talk(file, messages):
    """The pages of these messages over one connection to a desk over a file, each sent once the page before it has come; and what
    is wrong with how the desk ended."""
    server = Server(file)
    client = Client(server.port)
    pages = [client.ask(message) for message in messages]
    client.close()
    ended = server.end()
    return pages, "" if (ended.status, ended.out, ended.err) == (0, f"ready {server.port}\n", "") else str(ended)


def parts_of(page):
    """The status of a page, its media type, and its body."""
    head, _, body = page.partition(b"\r\n\r\n")
    media = [field[14:] for field in head.split(b"\r\n") if field.startswith(b"Content-Type: ")]
    return int(head[9:12] or 0), b"".join(media).decode(), body


def page_size(text):
    """How many bytes the page has that begins these, as its head says; more than there are where that is not whole."""
    head, end, _ = text.partition(b"\r\n\r\n")
    size = re.search(rb"\r\ncontent-length: *(\d+)", head, re.IGNORECASE)
    return len(head + end) + int(size[1]) if end and size else len(text) + 1


def is_whole(text):
    """Whether a whole page begins these bytes."""
    return page_size(text) <= len(text)
