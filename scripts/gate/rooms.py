"""Rooms: copies of the repository's sources, one for each crate that is proved side by side with others, since two runs of rt in one
repository wait for each other. What rt keeps is good in another place too, so it moves in and out.
"""

import os
import shutil

# what rt keeps of a crate, only to prove less the next time
KEPT = ("incremental", "rlib")


def link(one, other):
    """Gives a file a second name, or copies it where it can have none."""
    try:
        os.link(one, other)
    except OSError:
        shutil.copy2(one, other)


def move_kept(crate, to):
    """Moves what rt keeps of a crate to another folder of it."""
    for part in KEPT:
        if (crate / "out" / part).is_dir():
            shutil.rmtree(to / "out" / part, ignore_errors=True)
            (to / "out").mkdir(parents=True, exist_ok=True)
            (crate / "out" / part).rename(to / "out" / part)


class Rooms:
    """The rooms of a repository."""

    def __init__(self, tables):
        self.tables, self.crates, self.folder = tables, tables.top / "crates", tables.top / "out/build"
        # when the sources were copied, as the time of a file
        self.copied = 0

    def copy_sources(self):
        """Copies the sources once, so that all rooms have the same, whatever changes meanwhile."""
        sources = self.folder / "sources"
        sources.mkdir(parents=True)
        self.copied = sources.stat().st_mtime_ns
        shutil.copytree(self.crates, sources / "crates", ignore=shutil.ignore_patterns("out", "must-fail", "mutants"))
        for name in ("crates.txt", "HANDLES"):
            shutil.copy2(self.tables.top / name, sources)

    def open(self, name):
        """Makes the room of a crate, with what is kept of it and with the libraries below it."""
        room = self.folder / name
        shutil.copytree(self.folder / "sources", room, copy_function=link)
        for below in self.tables.below(name)[:-1]:
            shutil.copytree(self.crates / below / "out/rlib", room / "crates" / below / "out/rlib", copy_function=link)
        move_kept(self.crates / name, room / "crates" / name)
        return room

    def close(self, name):
        """Moves what rt keeps of the crate back, and removes its room."""
        move_kept(self.folder / name / "crates" / name, self.crates / name)
        shutil.rmtree(self.folder / name)

    def close_all(self):
        """Closes the rooms that a build left, so that it goes on where it was."""
        for room in self.folder.glob("*/crates"):
            if room.parent.name != "sources":
                self.close(room.parent.name)
        shutil.rmtree(self.folder, ignore_errors=True)
