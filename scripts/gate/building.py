"""What ./build does: proves the crates of the program, and builds it. Exit status: 0 the program is built, 1 it is not, 2 wrong words.
"""

import contextlib
import os
import shutil
import subprocess
import sys
import time
from pathlib import Path

from alone import Busy, alone, locked, undisturbed
from lanes import Task, chains, lanes_now, reckoned
from rooms import KEPT, Rooms
from tables import Tables

TOP = Path(__file__).resolve().parents[2]
PROGRAM = TOP / "crates/desk/out/desk"
# stands where all that rt has kept was kept by ./build
OWN = TOP / "out/build.own"
# what rt says of a crate beside why it is not proved
PLAIN = (": proved\n", "so far:", "statements ")


class Failed(Exception):
    """Why the build ends."""


def say(text, file=sys.stdout):
    print(f"build: {text}", file=file, flush=True)


def size(*paths):
    """Returns the size of these files and folders."""
    return subprocess.run(["du", "-shc", *paths], capture_output=True, text=True, check=False).stdout.split()[-2]


class Build:
    """One run of ./build."""

    def __init__(self, tables, lanes):
        self.tables, self.lanes, self.began = tables, lanes, time.monotonic()
        self.crates = tables.program()
        # of each crate that is being proved the process, its jobs and when it began
        self.running, self.proved = {}, set()
        longest = chains([self.task(name) for name in self.crates])
        # those first on which the longest chain waits
        self.waiting = sorted(self.crates, key=lambda it: -longest[it])
        self.whole = self.reckoned()
        self.rooms = Rooms(tables)

    def task(self, name):
        """Returns the proof of a crate, or what is left of it, by the minutes of the table."""
        spent = (time.monotonic() - self.running[name][2]) / 60 if name in self.running else 0
        return Task(name, max(0.0, self.tables.proof(name) - spent), [it for it in self.tables.uses[name] if it not in self.proved])

    def reckoned(self):
        """Returns how many minutes the proofs that are left take by the table."""
        return reckoned([self.task(name) for name in (*self.running, *self.waiting)], self.lanes, self.lanes)

    def minutes(self):
        return (time.monotonic() - self.began) / 60

    def newer_source(self):
        """Returns whether a source is newer than the program, or there is none."""
        files = [path for name in self.crates for part in ("src", "specs", "proofs") for path in (TOP / "crates" / name / part).rglob("*")]
        return not PROGRAM.exists() or any(it.stat().st_mtime_ns > PROGRAM.stat().st_mtime_ns for it in [TOP / "crates.txt", *files] if it.is_file())

    def kept_folders(self):
        return [path for name in self.tables.uses for part in KEPT if (path := TOP / "crates" / name / "out" / part).is_dir()]

    def start(self, name, jobs):
        """Begins to prove a crate in its room. Without words the program only says how it is used, so `rt run`
        proves, compiles and links it."""
        room = self.rooms.open(name)
        with open(room / "said", "w", encoding="utf-8") as said:
            words = ["setpriv", "--pdeathsig", "TERM", "rt", "run" if name == "desk" else "lib", "--jobs", str(jobs)]
            how = {"cwd": room / "crates" / name, "stdin": subprocess.DEVNULL, "stdout": said, "stderr": subprocess.STDOUT}
            with undisturbed():
                self.running[name] = subprocess.Popen(words, **how), jobs, time.monotonic()
        self.waiting.remove(name)
        say(self.so_far())

    def start_ready(self):
        """Begins with as many crates as there are lanes left; where fewer can begin, they share the lanes."""
        left = self.lanes - sum(jobs for _, jobs, _ in self.running.values())
        ready = [name for name in self.waiting if self.proved.issuperset(self.tables.uses[name])]
        for name in ready[: max(0, left)]:
            self.start(name, min(4, max(1, left // len(ready))))

    def look_at_running(self):
        """Takes in the crates that have ended; where one is not proved, shows why and ends."""
        for name, (process, _, _) in [*self.running.items()]:
            if process.poll() is None:
                continue
            del self.running[name]
            made = self.rooms.folder / name / "crates/desk/out/desk"
            if name == "desk" and made.exists():
                # as old as the sources that it was built from
                os.utime(made, ns=(self.rooms.copied, self.rooms.copied))
                PROGRAM.parent.mkdir(exist_ok=True)
                made.replace(PROGRAM)
            elif process.returncode:
                said = (self.rooms.folder / name / "said").read_text(encoding="utf-8", errors="replace").splitlines(keepends=True)
                sys.stderr.writelines([line for line in said if not line.startswith(PLAIN[1:]) and not line.endswith(PLAIN[0])][-40:])
                raise Failed(f"{name} is not proved; what rt said last is above")
            self.rooms.close(name)
            self.proved.add(name)

    def so_far(self):
        """Returns how far the build is, with the minutes left at the pace so far."""
        left = self.reckoned()
        if self.minutes() > 5 and self.whole > left:
            left *= self.minutes() / (self.whole - left)
        done = len(self.proved) + len(self.running)
        return ", ".join([f"{self.minutes():.0f} min, crate {done} of {len(self.crates)}", *self.running, f"about {left:.0f} min left"])

    def run(self):
        """Proves all crates."""
        seen = 0
        self.rooms.copy_sources()
        self.start_ready()
        while self.running:
            time.sleep(1)
            self.look_at_running()
            self.start_ready()
            if int(self.minutes()) != seen:
                seen = int(self.minutes())
                say(self.so_far())
        if self.waiting:
            raise Failed(f"crates that could not begin: {' '.join(self.waiting)}")
        if self.newer_source():
            raise Failed("a source has changed meanwhile: run ./build again")

    def end(self):
        """Ends what runs, and moves what is kept back."""
        for process, _, _ in self.running.values():
            process.terminate()
        for process, _, _ in self.running.values():
            process.wait()
        self.rooms.close_all()

    def tell_end(self, keep):
        """Says where the program is, and what of the disk can be given back."""
        kept = self.kept_folders()
        if not keep and OWN.exists() and kept:
            say(f"removing {size(*kept)} that only a further proof would use (./build --keep keeps it)")
            for path in kept:
                shutil.rmtree(path)
            kept = []
        OWN.unlink(missing_ok=True)
        # the trial programs, which no call needs now; not while a call makes one
        lock = TOP / "crates/desk/out/trial/lock"
        if lock.exists():
            with contextlib.suppress(Busy), locked(lock):
                shutil.rmtree(lock.parent)
        say(f"the program is {PROGRAM.relative_to(TOP)}, {size(PROGRAM)}; it took {self.minutes():.0f} min")
        if kept:
            say(f"{size(*kept)} are kept to prove less after a change; 'rm -r crates/*/out/incremental crates/*/out/rlib' gives them back")


def main(words):
    if words not in ([], ["--keep"]):
        print("usage: ./build [--keep]", file=sys.stderr)
        return 2
    build = Build(Tables(TOP), lanes_now())
    if not build.newer_source():
        say(f"the program is {PROGRAM.relative_to(TOP)}, {size(PROGRAM)}, and no source is newer")
        return 0
    try:
        with alone(TOP / "out/build.lock", lambda: say("stopped; the next ./build goes on from here")):
            try:
                build.rooms.close_all()
                if not build.kept_folders():
                    OWN.touch()
                say(f"proving {len(build.crates)} crates, {build.lanes} side by side, and building the program: about {build.whole:.0f} minutes")
                build.run()
                build.tell_end(words)
            finally:
                build.end()
    except Busy:
        say("another ./build runs here", sys.stderr)
        return 1
    except Failed as why:
        say(why, sys.stderr)
        return 1
    return 0


if __name__ == "__main__":
    sys.exit(main(sys.argv[1:]))
