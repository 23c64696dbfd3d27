"""The prover over a crate with changed sources, in a folder of its own, over the libraries that a copy of the repository holds."""

import re
import shutil
import signal
import subprocess
import tempfile
from pathlib import Path

from rooms import link

PARTS = ("src", "specs", "proofs")
# A limit of the prover's own, which it meets wherever it checks the same, and which is none of a machine's memory.
LIMIT = re.compile(r"antt ran out of (stack|the (steps|memory) that the check of one declaration may (take|use))|(outgrew the memory limit|stopped at the step limit) \(")
# A proof file names what a mutant has taken away.
LOST_NAME = re.compile(r"(?:note: )?(?:\./)?proofs/.*(has no field|is not in scope|has no `|was not admitted)")
PLACE = re.compile(r"(?:note: )?(?:\./)?(\S+?):(\d+):\d+: (.*)")


class Prover:
    """Checks one crate again and again. `with` removes its folder."""

    def __init__(self, tables, name, libraries):
        self.name, self.crate = name, tables.top / "crates" / name
        self.room = Path(tempfile.mkdtemp(prefix="mutants-"))
        self.seed, self.over, self.child = self.room / "seed", self.room / "over", None
        self.words = words_of(tables, name, Path(libraries))
        for part in PARTS:
            if (self.crate / part).is_dir():
                shutil.copytree(self.crate / part, self.room / part)

    def __enter__(self):
        return self

    def __exit__(self, *_):
        if self.child and self.child.poll() is None:
            self.child.kill()
            self.child.wait()
        shutil.rmtree(self.room, ignore_errors=True)

    def begin(self, kept):
        """Checks the crate as it stands, begun with kept work if there is any; what that leaves is what every later check begins with."""
        if kept.is_dir():
            shutil.copytree(kept, self.seed, copy_function=linked)
        return self._run(self.seed)

    def check(self, texts, from_nothing=False, past_failures=False):
        """Checks the crate with these texts in place of its own, by their paths in it; if asked, also functions that call one which fails.
        Returns the status and what the prover said."""
        were = {path: (self.room / path).read_bytes() for path in texts}
        try:
            for path, text in texts.items():
                (self.room / path).write_text(text, encoding="utf-8")
            if from_nothing:
                return self._run(None)
            shutil.copytree(self.seed, self.over, copy_function=linked)
            return self._run(self.over, ["--allow-holes"] if past_failures else [])
        finally:
            for path, was in were.items():
                (self.room / path).write_bytes(was)
            shutil.rmtree(self.over, ignore_errors=True)

    def stands(self):
        """Returns whether the crate as it stands is still proved over the kept work."""
        return is_proved(*self._run(self.seed))

    def listing(self):
        """Returns what shows whether the kept work was changed."""
        files = [path for path in self.seed.rglob("*") if path.is_file()]
        return {path: (found.st_ino, found.st_size, found.st_mtime_ns) for path in files for found in [path.stat()]}

    def _run(self, kept, flags=()):
        """Runs the prover, and once more where it was killed, most likely for memory."""
        words = [*self.words, *flags, *(["--incremental", str(kept)] if kept else [])]
        how = {"stdin": subprocess.DEVNULL, "stdout": subprocess.PIPE, "stderr": subprocess.STDOUT, "text": True, "errors": "replace"}
        for _ in range(2):
            self.child = subprocess.Popen(words, cwd=self.room, **how)
            said, _ = self.child.communicate()
            if self.child.returncode != -signal.SIGKILL:
                break
        return self.child.returncode, said


def linked(one, other):
    """Copies a file of the kept work. What was proved, which a check never writes into, only gets a second name."""
    (link if str(one).endswith(".oantt") else shutil.copy2)(one, other)


def words_of(tables, name, libraries):
    """Returns the words that check a crate in the folder that has its src/, over the libraries in this copy of the repository."""
    said = subprocess.run(["rt", "doc"], capture_output=True, text=True, check=True).stdout
    kit = Path(said.strip()).parent
    root = "src/main.rt" if (tables.top / "crates" / name / "src/main.rt").is_file() else "src/lib.rt"
    rlib = lambda it: libraries / "crates" / it / "out/rlib"
    words = [str(kit / "bin/rattle"), "check", "--crate-name", name, root, "-L", f"dependency={kit}/rlibs"]
    for it in ["std", *tables.depends[name]]:
        words += ["--extern", f"{it}={rlib(it) if it in tables.uses else f'{kit}/rlibs'}/{it}.rlib"]
    for it in tables.below(name)[:-1]:
        words += ["-L", f"dependency={rlib(it)}"]
    return words + ["--antt-project", f"{kit}/rattle/logic/antt-project.json", "--logic-built", f"{kit}/logic_built", "--jobs", "1"]


def is_proved(status, said):
    """Returns whether a check proved the crate."""
    return status == 0 and "\nlogic=proved" in said


def is_unread(line, changed):
    """Returns whether the prover could not read a text, where a change that only makes a statement false reads well."""
    at = re.match(r"(?:\./)?(\S+?):\d+:\d+: error: (?:(`[^`]*`): )?(.*)", line)
    if not at or at[1] not in changed and not at[1].startswith(("src/", "specs/")):
        return False
    said = re.sub(r"`[^`]*`", "", at[3])
    return not at[2] or bool(re.search(r"is not in scope|has no field|is no name|operand is missing|expected the end|cannot continue", said))


def verdict(status, said, changed):
    """Returns what the check of one mutant alone comes to, and why: 'refused', 'NOT REFUSED', 'BAD MUTANT' or 'NOT TRIED'."""
    lines = said.rstrip("\n").split("\n")
    unread = next((it for it in lines if is_unread(it, changed)), None)
    if status == 1 and unread:
        return "BAD MUTANT", f"the prover cannot read it, so no contract was tried: {unread}"
    if status == 1 and lines[-1].startswith("logic=not-proved"):
        places = [it for it in lines if PLACE.match(it)]
        told = [it for it in places if ": error" in it or it.startswith("note: ")] or places
        why = next((it for it in told if not LOST_NAME.match(it)), "")
        return "refused", why or "only since a proof file names what it took away, which says little of the contract: " + "".join(told[:1])
    if status == 0:
        return "NOT REFUSED", "the crate is still proved with it"
    limit = next((it for it in lines if LIMIT.search(it)), None)
    if status == 3 and limit:
        return "refused", f"only by a limit of the prover, which says less of the contract: {limit}"
    if status == 1 and re.search(r"\berror\[[\w-]+\]", said):
        return "BAD MUTANT", f"it did not reach the prover: {' '.join(lines[:3])}"
    return "NOT TRIED", f"its check ended with status {status}: {' '.join(lines[-3:])}"
