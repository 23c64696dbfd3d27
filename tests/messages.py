"""What clients, proxies and browsers send, what is no request, and what would smuggle one, at a desk with --wide and at one without:
whole, byte by byte beside one another, and cut at every length, over sockets that end in order or by a reset. Each gets the pages of
HTTP.md, and does nothing else. Prints what went wrong, and how much was sent.

Which bytes are which message, and which page a request gets, is proved, and tried row by row by the crates' tests (message_tests,
http_tests); messages_rows.py has the messages as such programs send them, and one for each page of a refusal.

messages.py EACH    of the cuts only each EACH-th; whole messages and single bytes always
"""
import collections
import contextlib
import email.utils
import random
import re
import select
import socket
import struct
import sys
import time

from driving import DESK, PLAN, Server, end_writing, opened, peak, rest_of
from messages_rows import (
    ANN, ASKING, BAD_HEAD, BEGIN, CACHE, GET, GO_ON, HIDDEN, HOST, NO_METHOD, SETUP, SIZE, UNFINISHED, head_of, large_rows,
    long_rows, page, plainly, request, rows_of,
)

DATE = re.compile(rb"Date: [A-Z][a-z]{2}, [0-3]\d [A-Z][a-z]{2} \d{4} [0-2]\d:[0-5]\d:[0-6]\d GMT\r\n")


class Desk:
    """A desk to which rows of parts are sent: the bytes of each, with the page that is certain once it is whole."""

    def __init__(self, name, words, chance):
        self.name, self.is_wide, self.chance = name, bool(words), chance
        self.server = Server(f"{name}.db", None, words=words)
        self.wrong, self.sent = [], collections.Counter()
        self.rows, self.long, self.large = rows_of(self.is_wide), long_rows(self.is_wide), large_rows(self.is_wide)

    def page(self, shown):
        return shown if self.is_wide else plainly(shown)

    def expect(self, what, expected, text):
        """These bytes are one of what is expected, but for dates; and for 100 Continue, where a body was asked for."""
        text = DATE.sub(b"", text)
        if self.is_wide and any(what.startswith(name) for name in ASKING):
            text = text.replace(GO_ON, b"")
        if text not in expected and len(self.wrong) < 20:
            self.wrong.append(f"{self.name}: {what}\n  expected: {' or '.join(map(str, expected))}\n  found:    {text}")

    def pages(self, parts, count):
        """What may come for the first bytes of a row, so many: the pages of the parts that are whole, and perhaps the next."""
        done, start = b"", 0
        for number, (text, shown) in enumerate(parts):
            if count < start + len(text):
                return [done, done + self.page(shown)] if number and shown == BAD_HEAD and count > start else [done]
            done, start = done + self.page(shown), start + len(text)
        return [done]

    def whole(self, rows):
        for name, parts in rows.items():
            message = b"".join(text for text, _ in parts)
            stream = opened(self.server.port)
            try:
                stream.sendall(message)
            except OSError:
                pass
            end_writing(stream)
            self.expect(f"{name}, whole", self.pages(parts, len(message)), rest_of(stream))
            self.sent["whole"] += 1

    def byte_by_byte(self, rows, most=60):
        """All rows at once: the next byte of each in turn. A page is read when it comes, so that a reset loses none."""
        waiting, talks = list(rows.items()), {}
        while waiting or talks:
            while waiting and len(talks) < most:
                name, parts = waiting.pop()
                talks[opened(self.server.port)] = [name, parts, b"".join(text for text, _ in parts), 0, b""]
            ready = select.select(list(talks), [], [], 0)[0]
            for stream, talk in list(talks.items()):
                if self.is_over(stream, talk, stream in ready):
                    self.expect(f"{talk[0]}, byte by byte", self.pages(talk[1], len(talk[2])), talk[4] + rest_of(stream))
                    del talks[stream]

    def is_over(self, stream, talk, is_ready):
        """Sends the next byte of a talk, and reads what has come; whether the connection has ended."""
        message, at = talk[2:4]
        try:
            if is_ready:
                piece = stream.recv(65536)
                talk[4] += piece
                if not piece:
                    return True
            if at < len(message):
                talk[3] += 1
                stream.send(message[at : at + 1])
                self.sent["bytes"] += 1
        except OSError:
            return True
        if at + 1 == len(message):
            end_writing(stream)
        return False

    def cut(self, rows, each):
        """Each beginning of each row, in one piece or byte by byte; then the connection ends in order, or is reset."""
        for name, parts in rows.items():
            message = b"".join(text for text, _ in parts)
            for count in range(self.chance.randrange(each), len(message), each):
                stream, step = opened(self.server.port), 1 if self.chance.random() < 0.3 else max(count, 1)
                try:
                    for at in range(0, count, step):
                        stream.send(message[at : min(at + step, count)])
                except OSError:
                    pass
                self.sent["cuts"] += 1
                if self.chance.random() < 0.3:
                    stream.setsockopt(socket.SOL_SOCKET, socket.SO_LINGER, struct.pack("ii", 1, 0))
                    stream.close()
                    self.sent["resets"] += 1
                    continue
                end_writing(stream)
                self.expect(f"{name}, cut after {count} bytes", self.pages(parts, count), rest_of(stream))

    def goes_on(self):
        """The desk asks for a body once, when its head has come and nothing of it, also for the second request of a connection."""
        for name, (message, shown, *_) in ASKING.items():
            head, body = head_of(message), message[len(head_of(message)) :]
            stream = opened(self.server.port)
            stream.settimeout(20)
            for _ in range(2):
                stream.sendall(head)
                asked = stream.recv(len(GO_ON))
                if asked != GO_ON:
                    self.wrong.append(f"{self.name}: {name}: it goes on: {asked}")
                for at in range(len(body)):
                    stream.send(body[at : at + 1])
                text = b""
                with contextlib.suppress(OSError):
                    while not DATE.sub(b"", text).endswith(shown) and (piece := stream.recv(65536)):
                        text += piece
                if DATE.sub(b"", text) != shown:
                    self.wrong.append(f"{self.name}: {name}: after that: {text}")
                self.sent["goes on"] += 1
            stream.close()

    def waits(self):
        """What begins no method ends the connection at once, although its client waits; a page has the date of its second."""
        for text in NO_METHOD.values():
            stream = opened(self.server.port)
            stream.sendall(text)
            self.expect("no method", [b""], rest_of(stream))
        begin = time.time()
        stream = opened(self.server.port)
        stream.sendall(GET)
        end_writing(stream)
        head = rest_of(stream).partition(CACHE)[2]
        seconds = [email.utils.parsedate_to_datetime(date[6:].decode()).timestamp() for date in DATE.findall(head)]
        if len(seconds) != 1 or not int(begin) <= seconds[0] <= time.time():
            self.wrong.append(f"{self.name}: the date: {head}")

    def tries(self, each):
        """All rows; then begins byte by byte, each of which acts once, and one that is always cut off and never acts."""
        before = peak(self.server.process)
        for message, shown in SETUP:
            self.whole({"the set-up": [(message, shown)]})
        self.whole(self.rows | self.long | self.large)
        # a trial program keeps freed memory for a while
        if peak(self.server.process) - before > 16384 and "/out/trial/" not in DESK:
            self.wrong.append(f"{self.name}: more than 16 MB for one connection: {before} kB, then {peak(self.server.process)}")
        self.byte_by_byte(self.rows | self.long)
        self.cut({**self.rows, "a begin that is never whole": [(HIDDEN, b"")]}, each)
        if self.is_wide:
            self.goes_on()
            self.waits()
        for number in range(3, 8):
            key = b"Desk-Key: k%d" % number
            shown = page(b"200 OK", b'{"journey":%d}' % number)
            self.byte_by_byte({f"begin {number}": [(request(BEGIN, HOST, ANN, key, SIZE, body=PLAN), shown)]})
        self.whole({"another client": [(GET, UNFINISHED)]})
        if self.server.process.poll() is not None:
            self.wrong.append(f"{self.name}: the desk has ended")
        self.server.process.kill()
        err = self.server.process.communicate()[1]
        if err:
            self.wrong.append(f"{self.name}: the desk told {err!r}")
        print(f"{self.name}: " + ", ".join(f"{what}: {count}" for what, count in self.sent.items()))


def main():
    desks = [Desk("wide", ["--wide"], random.Random(2022)), Desk("plain", [], random.Random(1987))]
    for desk in desks:
        desk.tries(int(sys.argv[1]))
    sys.exit("\n".join(text for desk in desks for text in desk.wrong) or 0)


main()
