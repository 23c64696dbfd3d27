"""Tasks side by side: how long they are likely to take, and how those that fill what `rt ci` leaves free are run."""

import contextlib
import heapq
import os
import signal
import subprocess
import time
from dataclasses import dataclass, field

from alone import undisturbed

# The memory in kB that must be free before a task that proves begins: the mutants of some crates take as much.
MEMORY = 9_000_000
# What rt reckons for a check of a large crate, in kB, of 85 hundredths of the free memory.
RECKONED = 7_000_000


@dataclass(eq=False)
class Task:
    """Something that takes minutes, once what it waits for has ended."""

    name: tuple
    minutes: float
    waits: list = field(default_factory=list)
    # those of `rt ci` come first; the others fill the processors that it leaves free
    fills: bool = False
    # what runs it, and what is told of its end: (status, output, seconds)
    words: list = field(default_factory=list)
    environment: dict = field(default_factory=dict)
    ended: object = None
    # whether it takes much memory, as a proof does
    proves: bool = False
    # whether proofs go before it on a processor that they share, as before what measures no time
    yields: bool = False


def chains(tasks):
    """Returns of each task the minutes of the longest chain that begins with it. A task stands after those that it waits for."""
    found, after = {}, {}
    for task in reversed(tasks):
        found[task.name] = task.minutes + after.get(task.name, 0)
        for name in task.waits:
            after[name] = max(after.get(name, 0), found[task.name])
    return found


def reckoned(tasks, lanes, proving):
    """Returns the minutes that the tasks take, so many side by side, of which `rt ci` may have `proving`: of those that can begin, those of
    `rt ci` first, and then those on which the longest chain waits."""
    longest = chains(tasks)
    waiting = sorted(tasks, key=lambda it: (it.fills, -longest[it.name]))
    now, running, done = 0.0, [], set()
    while waiting or running:
        for task in [it for it in waiting if done.issuperset(it.waits)]:
            proves = sum(not fills for _, _, fills in running)
            if len(running) < lanes and (task.fills or proves < proving):
                waiting.remove(task)
                heapq.heappush(running, (now + task.minutes, task.name, task.fills))
        now, name, _ = heapq.heappop(running)
        done.add(name)
    return now


def free_memory():
    """Returns how many kB of memory are free. A test sets MEMINFO to a file in place of the kernel's."""
    with open(os.environ.get("MEMINFO", "/proc/meminfo"), encoding="ascii") as file:
        return next(int(line.split()[1]) for line in file if line.startswith("MemAvailable:"))


def rt_fills(lanes):
    """Returns whether rt, left to itself, would run so many checks side by side."""
    return lanes * RECKONED <= 0.85 * free_memory()


def lanes_now():
    """Returns how many checks run side by side: one a processor, as many as the free memory holds. A check here takes at most 5 GB; rt
    reckons with more, and would leave processors idle."""
    processors = int(subprocess.run(["nproc"], capture_output=True, text=True, check=True).stdout)
    return max(1, min(processors, free_memory() // 5_000_000))


class Fillers:
    """Runs tasks on the processors that others leave free, those that take longest first."""

    def __init__(self, tasks, folder, lanes):
        self.lanes = lanes
        self.waiting = sorted(tasks, key=lambda it: -it.minutes)
        self.folder = folder
        self.running, self.done = {}, set()

    def look(self, done, left):
        """Takes in what has ended, and begins tasks on the processors that `rt ci` has left; one that proves only where memory is free, or
        where nothing else runs."""
        for task in [task for task, (process, _, _) in self.running.items() if process.poll() is not None]:
            self._take_in(task)
        done = done | self.done
        idle = max(0, left - len(self.running))
        for task in [it for it in self.waiting if done.issuperset(it.waits)][:idle]:
            if not task.proves or free_memory() > MEMORY or not self.running and left == self.lanes:
                self._begin(task)

    def _begin(self, task):
        self.waiting.remove(task)
        heard = open(self.folder / "-".join(map(str, task.name)).replace("/", "_"), "w+", encoding="utf-8", errors="replace")
        how = {"stdin": subprocess.DEVNULL, "stdout": heard, "stderr": subprocess.STDOUT, "process_group": 0}
        nice = ["nice", "-n", "10"] if task.yields else []
        with undisturbed():
            process = subprocess.Popen([*nice, *task.words], env={**os.environ, **task.environment}, **how)
            self.running[task] = process, heard, time.monotonic()

    def _take_in(self, task):
        process, heard, began = self.running.pop(task)
        heard.seek(0)
        task.ended(process.returncode, heard.read(), time.monotonic() - began)
        heard.close()
        if process.returncode == 0:
            self.done.add(task.name)

    def end(self):
        """Ends what runs."""
        for process, _, _ in self.running.values():
            end_group(process)


def end_group(process):
    """Ends a process and all that it started in its group: asked to first, and made to after five seconds."""
    for sent, seconds in ((signal.SIGTERM, 5), (signal.SIGKILL, None)):
        with contextlib.suppress(ProcessLookupError):
            os.killpg(process.pid, sent)
        with contextlib.suppress(subprocess.TimeoutExpired):
            process.wait(seconds)
            return
