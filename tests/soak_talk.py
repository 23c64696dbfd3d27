"""What was said to one life of the program, and the desks that may stand by then: an answer leaves those that give it."""
from driving import is_whole, page_size
from soak_answers import answer


class Wrong(Exception):
    """The desk is not as it should be."""


class Gone(Exception):
    """The program, or the connection, ended before it answered."""


def without_repeats(desks):
    """The different ones of these desks."""
    found = []
    for desk in desks:
        if not any(desk.is_same(other) for other in found):
            found.append(desk)
    return found


class Talk:
    """What was said to one life of the program: the desks that may stand, and the sayings that were not answered."""

    def __init__(self, desks, count):
        self.opening = [way for desk in desks for way in desk.recovery()]
        self.desks = without_repeats([desk.recovery()[-1] for desk in desks])
        self.pending, self.count, self.is_open, self.left, self.done = [], count, False, [], set()

    def opened(self):
        """The program said something, so it is recovered."""
        self.is_open = True

    def say(self, *sayings):
        self.pending += sayings

    def expected(self):
        """For each desk that may stand: what it answers next, and the desk and the reply then."""
        for desk in self.desks:
            after = desk.copy()
            found, reply = answer(after, self.pending[0])
            yield found, after, reply

    def got(self, found):
        """The first of what was said is answered by these bytes."""
        self.opened()
        same = [(after, reply) for expected, after, reply in self.expected() if expected == found]
        if not same:
            expected = " or ".join(sorted({repr(expected) for expected, _, _ in self.expected()}))
            raise Wrong(f"{self.pending[0]['text'][:300]!r} was answered by {found!r}, expected {expected}")
        is_kept = any(after.is_same(desk) for after, _ in same for desk in self.desks)
        self.desks = without_repeats([after for after, _ in same])
        self.done.add(self.pending[0]["text"])
        self.count.answered(self.pending.pop(0), same[0][1], is_kept)

    def broke(self, part, most=1):
        """The connection ended after this part of an answer; at most so many of what was said were done, the first."""
        if part and not any(expected.startswith(part) for expected, _, _ in (self.expected() if self.pending else ())):
            raise Wrong(f"after the last answer came {part!r}")
        found = list(self.desks)
        for desk in self.desks:
            for saying in self.pending[:most]:
                desk = desk.copy()
                answer(desk, saying)
                found.append(desk)
        self.left += self.pending
        self.desks, self.pending = without_repeats(found), []

    def over(self, is_orderly):
        """The desks that may stand at the end."""
        if self.pending:
            self.broke(b"")
        return self.desks if is_orderly or self.is_open else without_repeats(self.opening + self.desks)


class Stream:
    """What the program or a connection sends, read by lines or pages."""

    def __init__(self, read):
        self.read, self.rest = read, b""

    def until(self, is_whole):
        """The first bytes up to this size, once they are whole."""
        while (size := is_whole(self.rest)) is None:
            piece = self.read()
            if not piece:
                raise Gone
            self.rest += piece
        found, self.rest = self.rest[:size], self.rest[size:]
        return found

    def line(self):
        return self.until(lambda text: text.index(b"\n") + 1 if b"\n" in text else None)

    def page(self, is_head):
        def size(text):
            if is_head:
                return text.find(b"\r\n\r\n") + 4 if b"\r\n\r\n" in text else None
            return page_size(text) if is_whole(text) else None
        return self.until(size)

    def to_end(self):
        """What comes until the end."""
        try:
            while piece := self.read():
                self.rest += piece
        except OSError:
            pass
        return self.rest
