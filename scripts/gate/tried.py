"""Which crates had each mutant of theirs rejected, so that a whole run that was ended goes on where it was."""

import hashlib
import subprocess


class Tried:
    """Notes in a folder, each named by a digest of all that the rejections rest on."""

    def __init__(self, tables, folder):
        self.tables, self.folder = tables, folder
        self.version = subprocess.run(["rt", "version"], capture_output=True, check=True).stdout
        self.sums = {}

    def _sum(self, name):
        """Returns a digest of a crate's own sources and its line of crates.txt."""
        if name not in self.sums:
            found = hashlib.sha256(repr(self.tables.depends[name]).encode())
            folder = self.tables.top / "crates" / name
            for path in sorted(it for part in ("src", "specs", "proofs") for it in (folder / part).rglob("*") if it.is_file()):
                found.update(repr((str(path.relative_to(folder)), path.read_bytes())).encode())
            self.sums[name] = found.hexdigest()
        return self.sums[name]

    def _note(self, name, mutants):
        """Returns where the note on these mutants stands."""
        scripts = ("mutants.py", "gate/edits.py", "gate/prover.py")
        found = hashlib.sha256(self.version + b"".join((self.tables.top / "scripts" / it).read_bytes() for it in scripts))
        for below in self.tables.below(name):
            found.update(self._sum(below).encode())
        for path in mutants:
            found.update(repr((path, (self.tables.top / path).read_bytes())).encode())
        return self.folder / f"{name}.{found.hexdigest()[:32]}"

    def has(self, name, mutants):
        return self._note(name, mutants).exists()

    def add(self, name, mutants):
        self.folder.mkdir(parents=True, exist_ok=True)
        self._note(name, mutants).touch()
