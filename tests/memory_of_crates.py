"""Each allocation of the tests of these crates is refused in turn. The test passes still, or it ends by the one fault that names
want of memory, as the value that a call gave or as its own result: no call answers another value in place of that fault, nor at the
next call. Of a test that does one thing again at each byte so many are refused, evenly over it, from another one on each day.

The tests of memory of fault_tests pass always: what is refused to the desk they send again, and where memory is refused to them
they begin again. They make 25,000 allocations; each fifth is refused, from another one on each day, and with EACH=1 every one. Each
fifth takes 40 seconds of one processor, by a program with checks at run time.

MEMORY_TESTS=FOLDER: takes the programs of the tests, CRATE_tests, from there, and not from where ./check leaves them
TESTED="CRATE ..":   leaves out the crates that are not among these, whose tests the gate has built; these have to be there
"""
import os
import re
import subprocess
import sys
import time
from pathlib import Path

from driving import same, wrong
from parts import IN_PART, PARTS, Deal

CRATES = "plan_tests command_tests book_tests page_tests recovery_tests message_tests line_tests report_tests http_tests"
# a test that does one thing again at each byte, and how many of its allocations are refused
AT_EACH_BYTE = re.compile("anywhere|cut|a_writer_that_fails_has_a_prefix|a_failed_read_leaves_the_lines"
                          "|a_failed_write_leaves_a_beginning_of_the_answers")
FEW = 10
REFUSED = Path("refused")
# as many days as there are parts count as one, so that all parts are of the same allocations
TODAY = int(time.time()) // 86400 // PARTS
# the fault as a test prints it; how it ends where that is its own result, and where a check stops it at the value of a call
FAULT = r"(AllocError|AllocFailed \{ \.\. \}|Kind\(OutOfMemory\)|Memory|(Some|Err)\(Memory\)|Error\(out of memory\)"
FAULT += r'|"out of memory")'
STOPPED = r"\n\ntest stopped at src/[a-z_/]+\.rt:[0-9]+:[0-9]+\Z"
BY_RESULT = re.compile(rf"\A[Ee]rror: {FAULT}\nthe test failed: its result gives status 1\Z")
BY_CHECK = re.compile(rf"(\A|: |;){FAULT}{STOPPED}")
BY_COMPARISON = re.compile(rf"\n  left: {FAULT}\n right: [^\n]*{STOPPED}")

AT, RESULT = "\n\ntest stopped at src/tests.rt:24:5", "\nthe test failed: its result gives status 1"
# ends of a test, and what this script makes of them
JUDGED = (
    (0, "\ntest result: ok", "passed"), (1, "\ntest result: ok", "wrong"), (0, "out of memory", "wrong"),
    (101, f"error: AllocError{RESULT}", "named"), (101, f"error: Kind(OutOfMemory){RESULT}", "named"),
    (101, f"error: Kind(TimedOut){RESULT}", "wrong"), (101, f"error: Store{RESULT}", "wrong"),
    (101, f"error: the memory differs{RESULT}", "wrong"), (101, f"Memory\nerror: Store{RESULT}", "wrong"),
    (134, f"a plan of 24 steps: Some(Memory){AT}", "named"), (134, f"Err(Memory){AT}", "named"), (134, f"Err(Write){AT}", "wrong"),
    (134, f"out of memory: Some(Tries){AT}", "wrong"), (134, f"out of memory changes nothing{AT}", "wrong"),
    (134, f"assertion failed: a cell\n  left: Some(Memory)\n right: Some(Twice){AT}", "named"),
    (134, f"assertion failed: a cell\n  left: Some(Twice)\n right: Some(Memory){AT}", "wrong"),
    (139, f"a plan: Memory{AT}", "wrong"),
)


def judged(status, told):
    """What a test came to: it passed, it ended by the one fault and by nothing else, or it is wrong."""
    if status == 0 and f"\n{told}".endswith("\ntest result: ok"):
        return "passed"
    by_stop = BY_COMPARISON if "\n  left: " in told else BY_CHECK
    ends = {101: BY_RESULT, 134: by_stop}.get(status)
    return "named" if ends and ends.search(told) else "wrong"


def run(program, test, place):
    """How a test ends with this allocation refused: its status as a shell has it, and what it told."""
    REFUSED.unlink(missing_ok=True)
    pipes = {"stdin": subprocess.DEVNULL, "stdout": subprocess.PIPE, "stderr": subprocess.STDOUT}
    done = subprocess.run([program, test], env={**os.environ, "REFUSE": str(place), "LD_PRELOAD": "./refuse.so"}, check=False, **pipes)
    if not REFUSED.exists():
        same(f"{test}, allocation {place}", "refused", "not made")
    status = done.returncode
    return status if status >= 0 else 128 - status, done.stdout.decode("utf-8", "replace").rstrip("\n")


def count_allocations(program, test):
    """How many allocations a test makes, which passes where none is refused."""
    status, told = run(program, test, "none")
    same(f"{test}, no allocation refused: {told}", "passed", judged(status, told))
    return int(REFUSED.read_text(encoding="ascii"))


class Trial:
    """The tests of crates, with what came of the allocations that were refused to them."""

    def __init__(self):
        self.deal, self.ends, self.taken, self.left_out = Deal(), {"passed": 0, "named": 0, "wrong": 0, "kept": 0}, [], []
        self.tested = os.environ["TESTED"].split() if "TESTED" in os.environ else None

    def program_of(self, crate):
        """The tests of a crate where it has its turn, as the gate has built them, or should have."""
        if self.tested is not None and crate not in self.tested:
            self.left_out.append(crate)
            return None
        self.taken.append(crate)
        built = Path(__file__).resolve().parents[1] / "crates" / crate / "out"
        program = Path(os.environ.get("MEMORY_TESTS") or built, f"{crate}_tests")
        if os.access(program, os.X_OK):
            return program
        same(f"the tests of {crate}, which ./check leaves", "built", "absent")
        return None

    def runs(self):
        return sum(self.ends.values()) - self.ends["kept"]

    def names_each(self, program, test):
        """It passes, or names the fault, at each of its allocations; or at a few of them, and then the test is one case, since counting
        its allocations takes about as long as refusing one."""
        is_one = AT_EACH_BYTE.search(test)
        if is_one and not self.deal.is_mine():
            return
        count = count_allocations(program, test)
        step = count // FEW if is_one and count > FEW else 1
        for place in range(TODAY * 7919 % step + 1, count + 1, step):
            if is_one or self.deal.is_mine():
                status, told = run(program, test, place)
                self.ends[judged(status, told)] += 1
                if judged(status, told) == "wrong":
                    same(f"{test}, allocation {place}", "the test passes, or the one fault", f"{status}: {told}")

    def passes_at_each(self, program, test, first, step):
        """So many allocations apart, from this one on; the test passes each time."""
        for place in range(first, count_allocations(program, test) + 1, step):
            if self.deal.is_mine():
                self.ends["kept"] += 1
                status, told = run(program, test, place)
                same(f"{test}, allocation {place}: {told}", "passed", judged(status, told))


def tests_of(program):
    listed = subprocess.run([program, "--list"], capture_output=True, text=True, check=True).stdout
    return [line.removesuffix(": test") for line in listed.splitlines() if line.endswith(": test")]


def main():
    trial, crates = Trial(), os.environ.get("CRATES")
    for status, told, expected in JUDGED:
        same(f"what {told!r} with status {status} is", expected, judged(status, told))
    for crate in (crates or CRATES).split():
        if program := trial.program_of(crate):
            before, dealt = trial.runs(), trial.deal.dealt
            for test in tests_of(program):
                trial.names_each(program, test)
            runs, cases = trial.runs() - before, trial.deal.dealt - dealt
            same(f"the tests of {crate}: of {cases} allocations {runs} were refused", True, cases > 0 and runs >= cases // PARTS)
    runs = trial.runs()
    same(f"{runs} allocations were refused", True, runs * PARTS > 100 or bool(crates) or trial.tested is not None)
    first, step = (1, 1) if os.environ.get("EACH") == "1" else (TODAY % 5 + 1, 5)
    if not crates and (program := trial.program_of("fault_tests")):
        for test in tests_of(program):
            if "::memory::" in test:
                trial.passes_at_each(program, test, first, step)
        kept = trial.ends["kept"]
        same(f"{kept} allocations were refused to commands, loads and recovery", True, kept * PARTS > 1000)
    if trial.tested is not None:
        taken, left_out = (" ".join(names) or "none" for names in (trial.taken, trial.left_out))
        print(f"tests with their turn: {taken}; left out until theirs: {left_out}")
    passed, named, _, kept = trial.ends.values()
    print(f"{runs} allocations refused to tests, of which {passed} passed still, and {named} named the fault; "
          f"{kept} to commands, loads and recovery{IN_PART}")
    sys.exit("\n".join(f"memory_of_crates.sh: {text}" for text in wrong) or 0)


main()
