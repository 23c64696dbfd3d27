"""A disk on which the power may be cut: what the program's noted calls made of its files, and what a cut may leave of them.

A cut leaves what the last sync of a file covered. Of the rest it leaves any part: each write torn into its sectors, each
change of length done or not. A file that was made since the last sync of its folder may be absent.
"""
import struct
from pathlib import Path

HEAD = struct.Struct("<iiqq")  # as calls.c writes it
SECTOR = 512


def notes_in(path):
    """The calls that were noted: kind, descriptor, place, bytes."""
    data, at = Path(path).read_bytes(), 0
    while at < len(data):
        kind, descriptor, place, size = HEAD.unpack_from(data, at)
        at += HEAD.size + size
        yield chr(kind), descriptor, place, data[at - size : at]


class File:
    """A file: its bytes at the last sync, and the writes and changes of length since."""

    def __init__(self, content=b""):
        self.synced, self.now, self.pending = bytes(content), bytearray(content), []

    def change(self, at, written):
        """A write at a place, or a change to this length, where nothing is written."""
        self.pending.append((at, written))
        apply(self.now, at, written)

    def sync(self):
        self.synced, self.pending = bytes(self.now), []


def apply(data, at, written):
    """What a write, or a change of length, makes of these bytes."""
    size = at if written is None else max(len(data), at + len(written))
    data[size:] = bytes(max(0, size - len(data)))
    data[at : at + len(written or b"")] = written or b""


class Disk:
    """The files of one folder, by name; unsure are those that a cut may leave without their entry."""

    def __init__(self, contents=None):
        self.files = {name: File(content) for name, content in (contents or {}).items()}
        self.unsure, self.open = set(), {}

    def restart(self):
        """The program ended, and another one begins: descriptors are its own."""
        self.open = {}

    def take(self, note, has_syncs=True):
        """One noted call. Says whether a cut after it may leave something else than one before it."""
        kind, descriptor, place, data = note
        if kind == "o":
            return self.opened(descriptor, place, data.decode().rsplit("/", 1)[-1])
        name = self.open.get(descriptor)
        file = self.files.get(name)
        if kind == "c":
            self.open.pop(descriptor, None)
        elif kind == "?":
            raise ValueError(f"a call that these notes do not tell: {data.decode()}")
        elif kind == "y" and has_syncs:
            if file:
                file.sync()
            elif name is not None:
                self.unsure.clear()
        elif kind in "wt" and file:
            file.change(place, data if kind == "w" else None)
        return kind in "wty"

    def opened(self, descriptor, is_made, name):
        self.open[descriptor] = name
        if is_made:
            self.files[name] = File()
            self.unsure.add(name)
        return bool(is_made)

    def whole(self):
        """The disk as the system shows it while the power is on."""
        return {name: bytes(file.now) for name, file in self.files.items()}

    def pending(self):
        """How many writes, changes of length and entries are not sure."""
        return len(self.unsure) + sum(len(file.pending) for file in self.files.values())

    def cut(self, part):
        """The files that a cut leaves, where part says what of each it keeps."""
        return {
            name: part.image(name, file)
            for name, file in self.files.items()
            if name not in self.unsure or part.keeps_entry(name)
        }


class Part:
    """What of the pending calls a cut keeps: by the kind of cut, and by chance."""

    KINDS = ("none", "sectors", "calls", "one lost", "one kept", "torn end", "bytes", "garbage")

    def __init__(self, kind, chance, disk):
        self.kind, self.chance = kind, chance
        calls = [(name, n) for name, file in sorted(disk.files.items()) for n in range(len(file.pending))]
        self.one = chance.choice(calls) if calls else None

    def keeps_entry(self, _):
        return {"none": False, "one lost": True, "torn end": True}.get(self.kind, self.chance.random() < 0.5)

    def keeps(self, call):
        """Whether this piece of this call is kept."""
        if self.kind == "none":
            return False
        if self.kind in ("one lost", "one kept"):
            return (call == self.one) == (self.kind == "one kept")
        return self.chance.random() < 0.5

    def image(self, name, file):
        """The bytes that are left of this file."""
        if self.kind == "none":
            return file.synced
        data = bytearray(file.synced)
        for n, (at, written) in enumerate(file.pending):
            if self.kind == "torn end" and self.one and self.one[0] == name:
                self.apply_until(data, n, at, written)
            elif self.kind != "calls":
                self.apply_parts(data, (name, n), at, written, len(file.synced))
            elif self.keeps((name, n)):
                apply(data, at, written)
        return bytes(data)

    def apply_until(self, data, n, at, written):
        """All calls up to one, and a first part of that one."""
        if n < self.one[1]:
            apply(data, at, written)
        elif n == self.one[1] and written is not None:
            end = (at + self.chance.randrange(len(written) + 1)) // SECTOR * SECTOR
            apply(data, at, written[: max(0, end - at)])

    def apply_parts(self, data, call, at, written, synced):
        """Each piece of a write, and the change of length that it makes, by chance."""
        end_of_call = at if written is None else at + len(written)
        if (written is None or end_of_call > len(data)) and self.keeps(call):
            apply(data, end_of_call, None)
        if written is None:
            return
        for start, end in self.pieces(at, len(written)):
            if start >= len(data):
                return
            if self.keeps(call):
                apply(data, start, written[start - at : min(end, len(data)) - at])
            elif self.kind == "garbage" and start >= synced:
                apply(data, start, self.chance.randbytes(min(end, len(data)) - start))

    def pieces(self, at, size):
        """A write in pieces: its sectors, or where it is torn at any byte, some pieces by chance."""
        if self.kind == "bytes":
            ends = sorted({at, at + size, *(at + self.chance.randrange(size + 1) for _ in range(4))})
        else:
            ends = [at, *range((at // SECTOR + 1) * SECTOR, at + size, SECTOR), at + size]
        return zip(ends, ends[1:])
