"""`rt ci` in a copy of the repository: which crates it has proved so far, how many checks it runs, and how long each takes."""

import os
import re
import shutil
import subprocess
import tempfile
import threading
import time
from concurrent.futures import ThreadPoolExecutor
from pathlib import Path

from lanes import rt_fills
from prover import Prover, is_proved

# The crate by whose proof the gate learns how fast a machine is.
SMALL = "failing_streams"
PROVED = re.compile(r"rt: (\w+)(: its tests are)? (?:proved|is kept: .*)$")


def make_copy(tables, crates, copy):
    """Makes a copy of the repository, which is one of its own to `rt`, with these crates alone and without their mutants."""
    left_out = {(): {".git", "out"}, ("crates",): {*tables.uses} - {*crates}}

    def leave(folder, names):
        inside = Path(folder).relative_to(tables.top).parts
        of_crate = {"out", "must-fail", "mutants"} if len(inside) == 2 and inside[0] == "crates" else set()
        return left_out.get(inside, of_crate) & {*names}

    shutil.rmtree(copy, ignore_errors=True)
    shutil.copytree(tables.top, copy, ignore=leave, symlinks=True)
    (copy / ".git").mkdir()
    lines = [f"{name}: {' '.join(tables.depends[name])}\n" for name in crates]
    (copy / "crates.txt").write_text("".join(lines), encoding="utf-8")


def wrongly_laid_out(tables, lanes):
    """Returns, in words, which sources of all crates `rt fmt` lays out differently, as it does in a copy. `rt ci` finds those of the crates
    that it proves, late."""
    with tempfile.TemporaryDirectory(prefix="layout-") as room, ThreadPoolExecutor(lanes) as pool:
        copy = Path(room, "copy")
        make_copy(tables, [*tables.uses], copy)
        return [found for each in pool.map(lambda name: laid_out_otherwise(tables, copy, name), tables.uses) for found in each]


def laid_out_otherwise(tables, copy, name):
    """Returns, in words, which sources of a crate `rt fmt` has changed in the copy, or what it said where it failed."""
    ran = subprocess.run(["rt", "fmt"], cwd=copy / "crates" / name, capture_output=True, text=True, check=False)
    files = [it.relative_to(copy) for it in sorted((copy / "crates" / name).rglob("*")) if it.suffix in (".rt", ".antt")]
    odd = [f"rt fmt lays out {it.as_posix()} differently" for it in files if (copy / it).read_bytes() != (tables.top / it).read_bytes()]
    failed = f"rt fmt fails in crates/{name}: {ran.stdout}{ran.stderr}".replace(f"{copy}/", "").strip()
    return odd + ([failed] if ran.returncode else [])


def pace_of_machine(tables, lanes):
    """Returns how many minutes a minute of the table takes here: by the processor's time for the proof of a small crate that stands on
    none, so many side by side, since checks wait for memory as well."""
    if SMALL not in tables.uses:
        return 1.0
    began = os.times()
    with ThreadPoolExecutor(lanes) as pool:
        proved = [*pool.map(lambda _: prove_alone(tables, SMALL), range(lanes))]
    used = os.times().children_user - began.children_user + os.times().children_system - began.children_system
    return used / lanes / 60 / tables.proof(SMALL) if all(proved) else 1.0


def prove_alone(tables, name):
    """Proves a crate that stands on none of the repository, from nothing, and returns whether it is proved."""
    with Prover(tables, name, tables.top) as prover:
        return is_proved(*prover.check({}, from_nothing=True))


class Proving:
    """A run of `rt ci` with so many checks side by side; or, where `shared` or where memory allows, with so many processors that its checks
    share: where few can begin, each has several."""

    def __init__(self, copy, lanes, shared=False, nice=0):
        environment, words = {**os.environ}, ["nice", "-n", str(nice), "rt", "ci"]
        if shared or rt_fills(lanes):
            environment.pop("RT_JOBS", None)
            words = ["taskset", "-c", ",".join(map(str, sorted(os.sched_getaffinity(0))[:lanes])), *words]
        elif lanes > 1:
            environment["RT_JOBS"] = str(lanes)
        how = {"cwd": copy, "stdout": subprocess.PIPE, "stderr": subprocess.STDOUT, "stdin": subprocess.DEVNULL, "process_group": 0}
        self.process = subprocess.Popen(words, env=environment, text=True, errors="replace", **how)
        self.done, self.seen = set(), {}
        self.reader = threading.Thread(target=self._read, daemon=True)
        self.reader.start()

    def _read(self):
        """Prints what `rt ci` says, and notes what is proved."""
        for line in self.process.stdout:
            print(line, end="", flush=True)
            found = PROVED.match(line)
            if found:
                self.done.add((found[1], "tests" if found[2] else "proof"))

    def has_ended(self):
        return self.process.poll() is not None

    def status(self):
        """Returns its exit status, once all that it said is printed."""
        self.reader.join()
        return self.process.wait()

    def look(self):
        """Returns how many checks run now, and notes how long each has run."""
        count = 0
        for words in commands_of_children(self.process.pid) if not self.has_ended() else []:
            if words[:1] != ["sh"]:
                count += 1
            if "--crate-name" in words:
                name = words[words.index("--crate-name") + 1], "tests" if "--test" in words else "proof"
                first, _ = self.seen.get(name, (time.monotonic(), 0))
                self.seen[name] = first, time.monotonic()
                if "--backend rattle" in " ".join(words):
                    # a program that is proved, and stands as LLVM compiled it: then only does the other compiler begin
                    self.done.add(name)
        return count

    def minutes(self):
        """Returns the minutes of each check that was seen."""
        return {name: (last - first) / 60 for name, (first, last) in self.seen.items()}


def commands_of_children(process):
    """Returns the command lines of the processes that this one has begun."""
    found = []
    for entry in os.scandir("/proc"):
        try:
            if entry.name.isdigit() and int(Path(entry.path, "stat").read_text().rpartition(")")[2].split()[1]) == process:
                found.append(Path(entry.path, "cmdline").read_bytes().decode(errors="replace").split("\0"))
        except OSError:
            # it has ended meanwhile
            pass
    return found
