"""What has changed in the repository since a revision, as git knows it, with what is not committed yet."""

import subprocess

from tables import crate_lines


class Unknown(Exception):
    """The revision is not known, or there is no git."""


def git(top, *words):
    """Runs git over the repository, whoever owns it, and returns what it prints."""
    command = ["git", "-c", f"safe.directory={top}", "-c", "core.quotePath=false", "-C", str(top), *words]
    try:
        ran = subprocess.run(command, capture_output=True, text=True, check=True)
    except (OSError, subprocess.CalledProcessError) as error:
        raise Unknown(" ".join(words)) from error
    return ran.stdout


def revision_of(top, name):
    """Returns the commit of this name."""
    return git(top, "rev-parse", "--verify", "--quiet", f"{name}^{{commit}}").strip()


def landed_before(top, hours=12):
    """Returns the newest commit that is older than so many hours, or nothing."""
    return git(top, "log", "-1", "--first-parent", f"--before={hours} hours ago", "--format=%H").strip()


def untracked(top, *paths):
    return git(top, "ls-files", "--others", "--exclude-standard", "--", *paths).splitlines()


def changed_mutants(top, since):
    """Returns the paths of the mutants that are not as in the revision; one that has only moved is."""
    told = git(top, "diff", "-M100%", "-l0", "--diff-filter=AM", "--name-only", since, "--", "crates/*.edit")
    return {*told.splitlines(), *untracked(top, "crates/*.edit")}


def changed_crates(tables, since):
    """Returns the crates with a source, or a line in crates.txt, that is not as in the revision; all where the toolchain is not the one
    that the revision's docs/RUNNING.md names."""
    top = tables.top
    version = subprocess.run(["rt", "version"], capture_output=True, text=True, check=True).stdout.strip()
    if version not in git(top, "show", f"{since}:docs/RUNNING.md"):
        return {*tables.uses}
    files = git(top, "diff", "--no-renames", "--name-only", since, "--", "crates").splitlines() + untracked(top, "crates")
    found = {path.split("/")[1] for path in files if path.split("/")[2:3] and path.split("/")[2] in ("src", "specs", "proofs")}
    old = crate_lines(git(top, "show", f"{since}:crates.txt"))
    return {name for name, depends in tables.depends.items() if name in found or old.get(name) != depends}
