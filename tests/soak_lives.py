"""One life of the program, as a script says: what is said to it, each answer compared with the desks that may stand.
More than 200 lines: a life may be lived in each of the ways above.

A life is a dictionary that JSON can hold:

  do             run, serve, recover, load, or the words of a report
  env            what calls.c or refuse.c is told
  end            "": it ends by itself; "kill": once all is answered; seconds: killed so long after the last burst was sent
  bursts         of run: the sayings, so many at once
  connections    of serve: bursts; an end, which is close, half, cut, reset or closed; the part of a request that is
                 cut; early, where it is made before the one before it is over; intrude, another call over the file
  name, records  of load
  cut            the calls are noted; from 0 on the number for chance by which the power is cut afterwards
  spoil          how the file is spoiled afterwards
"""
import contextlib
import os
import select
import signal
import socket
import struct
import subprocess
import time
from pathlib import Path

from driving import DESK, NAMED_FAULTS, PATIENCE, free_port
from plain_desk import Refusal, line_of
from plain_texts import rows_of
from soak_answers import report_of
from soak_asks import bytes_of
from soak_talk import Gone, Stream, Talk, Wrong, without_repeats

PORT_TAKEN, UNOPENED = "fault 27 Net\n", ("fault 21 Store\n", "fault 22 Memory\n")


class Life:
    """One life of the program."""

    def __init__(self, folder, life, env, desks, count):
        self.folder, self.life, self.before, self.count = folder, life, desks, count
        self.talk = Talk(desks, count)
        self.env = {**os.environ, **env}
        self.may_fail = bool(env.keys() & {"FAIL", "REFUSE"})
        self.may_break = self.may_fail or "KILL" in env or life.get("end", "") != ""
        self.process = None

    def start(self, *words):
        pipes = {"stdin": subprocess.PIPE, "stdout": subprocess.PIPE, "stderr": subprocess.PIPE}
        self.process = subprocess.Popen([DESK, *words], env=self.env, cwd=self.folder, **pipes)

    def said(self):
        """Some of what it says, as soon as there is any; nothing at its end."""
        out = self.process.stdout.fileno()
        if not select.select([out], [], [], PATIENCE)[0]:
            raise Wrong("it did not answer")
        return os.read(out, 65536)

    def kill(self, after=0.0):
        time.sleep(after)
        self.process.send_signal(signal.SIGKILL)

    def ended(self):
        """Waits for the end, once the input has ended: the rest of the output, standard error and the status."""
        if self.process.stdin:
            with contextlib.suppress(BrokenPipeError):
                self.process.stdin.close()
            self.process.stdin = None
        try:
            out, err = self.process.communicate(timeout=PATIENCE)
        except subprocess.TimeoutExpired:
            self.process.kill()
            self.process.communicate()
            raise Wrong("it did not end") from None
        return out, err.decode("utf-8", "replace"), self.process.returncode

    def judge(self, err, status, refused=False):
        """Whether the program ended in order; counts how, and says what is wrong with it."""
        if status == -signal.SIGKILL and self.may_break and not err:
            self.count.add("killed", "killed in an opening" if not self.talk.is_open else "")
            return False
        if status == 1 and (self.may_fail or self.life["do"] == "serve" and err == PORT_TAKEN) and err in NAMED_FAULTS:
            self.count.add("by a fault", err.strip())
            if err in UNOPENED:
                self.talk.desks, self.talk.opening = self.before, []
            elif err == PORT_TAKEN:
                self.talk.opened()
            return False
        if status == int(refused) and not err:
            self.count.add("orderly")
            return True
        raise Wrong(f"it ended with status {status}, and said {err!r}")

    def live(self):
        """The desks that may stand at its end."""
        do = self.life["do"]
        is_orderly = getattr(self, do if do in ("run", "serve", "recover", "load") else "report")()
        return self.talk.over(is_orderly)

    # Lines.

    def run(self):
        self.start("run", "trips.db")
        out = Stream(self.said)
        end, bursts = self.life.get("end", ""), self.life["bursts"]
        try:
            for n, burst in enumerate(bursts):
                self.talk.say(*burst)
                self.process.stdin.write(b"".join(bytes_of(saying) + b"\n" for saying in burst))
                self.process.stdin.flush()
                if n + 1 == len(bursts) and isinstance(end, float):
                    break
                for _ in burst:
                    self.talk.got(out.line())
        except (Gone, BrokenPipeError):
            if not self.may_break:
                raise Wrong(f"it ended before it answered: {self.ended()}") from None
        if end != "":
            self.kill(end if isinstance(end, float) else 0.0)
        return self.finish(out)

    def finish(self, out):
        """The last answers, and the end."""
        rest, err, status = self.ended()
        out.read, out.rest = (lambda: b""), out.rest + rest
        is_whole = False
        try:
            while self.talk.pending:
                self.talk.got(out.line())
            is_whole = True
        except Gone:
            self.talk.broke(out.rest)
        if is_whole and out.rest:
            raise Wrong(f"after the last answer came {out.rest!r}")
        is_orderly = self.judge(err, status)
        if is_orderly and not is_whole:
            raise Wrong("it ended in order before it answered all")
        return is_orderly

    # Requests.

    def serve(self):
        connections, end = self.life["connections"], self.life.get("end", "")
        port = self.ready(len(connections) + (end != ""))
        if port is None:
            return self.finish(Stream(lambda: b""))
        early = None
        for n, connection in enumerate(connections):
            stream = early or self.connected(port)
            if stream is None:
                break
            is_last = n + 1 == len(connections)
            early = self.connected(port) if not is_last and connections[n + 1].get("early") else None
            self.intrude(connection.get("intrude"))
            self.speak(stream, connection, end if is_last and isinstance(end, float) else None)
        if end == "kill":
            self.kill()
        elif end == "" and self.may_break:
            self.use_up(port)
        out, err, status = self.ended()
        if out:
            raise Wrong(f"after it was ready it said {out!r}")
        return self.judge(err, status)

    def ready(self, connections):
        """Starts the server, and gives its port once it is ready; None where it ended before. A port that was taken
        meanwhile is tried again."""
        for _ in range(4):
            port = free_port()
            self.start("serve", "trips.db", "--port", str(port), "--connections", str(connections))
            out, ready = Stream(self.said), f"ready {port}\n".encode()
            try:
                if out.line() == ready:
                    self.talk.opened()
                    return port
                raise Wrong(f"it was to be ready, and said {out.rest!r}")
            except Gone:
                if not ready.startswith(out.rest):
                    raise Wrong(f"it was to be ready, and said {out.rest!r}") from None
            if self.may_break:
                return None
            _, err, status = self.ended()
            if err != PORT_TAKEN:
                raise Wrong(f"it was to be ready, and ended with status {status}, and said {err!r}")
        raise Wrong("no port is free")

    def intrude(self, word):
        """Another call over the file that is in use; it is told so, and changes nothing."""
        if word and not self.may_break:
            done = subprocess.run(
                [DESK, word, "trips.db"], cwd=self.folder, capture_output=True, timeout=PATIENCE, check=False,
            )
            if (done.stdout, done.stderr, done.returncode) != (b"", UNOPENED[0].encode(), 1):
                raise Wrong(f"{word} of a file in use: {done.stdout!r}, {done.stderr!r}")
            self.count.add("in use")

    def use_up(self, port):
        """Ends a server that waits for connections which others took: each that is made counts as one."""
        for _ in range(200):
            try:
                self.process.wait(0.05)
                return
            except subprocess.TimeoutExpired:
                with contextlib.suppress(OSError):
                    socket.create_connection(("127.0.0.1", port), PATIENCE).close()

    def connected(self, port):
        """A connection; none where the program has ended."""
        try:
            return socket.create_connection(("127.0.0.1", port), PATIENCE)
        except OSError:
            if not self.may_break:
                raise Wrong("no connection was taken") from None
            return None

    def speak(self, stream, connection, kill_after):
        """What is said over one connection."""
        with stream:
            pages = Stream(lambda: stream.recv(65536))
            try:
                self.converse(stream, pages, connection, kill_after)
            except (Gone, OSError) as error:
                if not self.may_break:
                    raise Wrong(f"the connection ended before its page came: {error!r}, {pages.rest!r}") from None
                self.talk.broke(pages.rest)

    def converse(self, stream, pages, connection, kill_after):
        """Says all bursts, and compares each page; the last ones may not be waited for."""
        bursts, end = connection["bursts"], connection["end"]
        stream.settimeout(PATIENCE)
        for n, burst in enumerate(bursts):
            is_last = n + 1 == len(bursts)
            self.talk.say(*burst)
            stream.sendall(b"".join(map(bytes_of, burst)))
            if is_last and kill_after is not None:
                self.kill(kill_after)
            if is_last and end == "reset":
                stream.setsockopt(socket.SOL_SOCKET, socket.SO_LINGER, struct.pack("ii", 1, 0))
                self.talk.broke(b"", most=len(burst))
                return
            if is_last and end == "half":
                stream.shutdown(socket.SHUT_WR)
            for saying in burst:
                self.talk.got(pages.page(saying.get("head", False)))
        self.part(stream, pages, connection)

    def part(self, stream, pages, connection):
        """Ends a connection of which all is answered."""
        if connection["end"] == "cut":
            stream.sendall(connection["cut"].encode("latin-1"))
        if connection["end"] in ("half", "closed"):
            pages.to_end()
        if pages.rest:
            raise Wrong(f"after the last page came {pages.rest!r}")

    # Words.

    def told(self, *words):
        """The output of a call with words, with how it ended."""
        self.start(*words)
        return self.ended()

    def recover(self):
        out, err, status = self.told("recover", "trips.db")
        counts = {len(desk.recovery()) - 1 for desk in self.before}
        self.is_front(out, [f"recovered {count}\n".encode() for count in counts], status)
        if out:
            self.talk.opened()
        return self.judge(err, status)

    def load(self):
        name, records = self.life["name"], self.life["records"]
        Path(self.folder, "rows.csv").write_text("".join(f"{','.join(fields)}\n" for fields in records), encoding="ascii")
        found = rows_of(records)
        request = ("load", name, found) if isinstance(found, list) else Refusal(6, row=found[0], cause=found[1])
        out, err, status = self.told("load", "trips.db", "rows.csv", "--batch", name)
        answers = []
        for desk in self.talk.desks:
            after = desk.copy()
            reply = request if isinstance(request, Refusal) else after.outcome(request)
            answers.append(((line_of(reply) + "\n").encode(), after))
        self.is_front(out, [text for text, _ in answers], status)
        told = [after for text, after in answers if text == out]
        if told:
            self.talk.opened()
        self.talk.desks = without_repeats(told or self.talk.desks + [after for _, after in answers])
        return self.judge(err, status, out.startswith(b"refused") and bool(told))

    def is_front(self, out, expected, status):
        """The output is one of these, or the front of one where the program did not end in order."""
        is_front = any(text.startswith(out) for text in expected)
        if out not in expected and not (self.may_break and status != 0 and is_front):
            told = " or ".join(sorted(set(map(repr, expected))))
            raise Wrong(f"{self.life['do']} said {out!r}, expected {told}")

    def report(self):
        word, *rest = self.life["do"].split(" ")
        self.talk.desks, self.talk.opening = self.before, []
        answers = [report_of(desk, word, rest) for desk in self.before]
        out, err, status = self.told(word, "trips.db", *rest)
        if not os.path.exists(f"{self.folder}/trips.db") and (out, err, status) == (b"", "fault 26 File\n", 1):
            self.count.add("orderly")
            return True
        self.is_front(out, answers, status)
        return self.judge(err, status, out.startswith(b"refused"))
