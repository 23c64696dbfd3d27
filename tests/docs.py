"""Runs the commands of Markdown pages as printed, in order, all pages in one folder, and compares what they print with what
the page prints: DESK FOLDER PAGE .. More than 200 lines: pages are read, run and compared in one pass.

A block that begins with ```console has commands, each after "$ ", its further lines after "> ", and its output below. What a
command prints on standard output and standard error is compared line by line; a line feed at the end may be absent. A command
that ends with "&" goes on in the background, and its output is awaited. The ports 8080 and 8081 stand for two that are free.
The folder has the program, as desk, and the repository's tools. A block of another kind has no commands, and its kind is named.

A block that begins with ```console TOOL needs this tool: a command, or what NEEDS says. Where it is absent, the commands of the
block are skipped, which the last line says. A tool that goes on in the background is a proxy, which listens at port 8081.
"""
import os
import re
import shutil
import signal
import subprocess
import sys
import tempfile
from pathlib import Path

from driving import waits_for
from ports import accepts, free_port

# commands that are not run here, by their first word, and why
NOT_RUN = {"sudo": "it changes the machine"}
# tools that are no commands, and the command that succeeds where they are there
NEEDS = {"php-curl": ["php", "-r", "exit(extension_loaded('curl') ? 0 : 1);"], "requests": ["python3", "-c", "import requests"]}
# the folders in which commands are looked for, with that in which Debian has servers; not every user looks there
PLACES = f"{os.environ['PATH']}{os.pathsep}/usr/sbin"
# kinds of blocks without commands
OTHER_KINDS = {"text", "csv", "json", "sql", "http", "antt", "rust"}
SECONDS = 60


class Wrong(Exception):
    """What is wrong with a page, and where."""


class Command:
    """A command with its line on the page, the tool that its block needs, and the lines that it is to print."""

    def __init__(self, line, text, tool):
        self.line, self.text, self.tool, self.printed = line, [text], tool, []

    def source(self):
        return "\n".join(self.text) + "\n"

    def is_run(self):
        return self.text[0].split(" ")[0] not in NOT_RUN

    def is_background(self):
        return re.search(r"(?<!&)&\s*(#.*)?$", self.text[-1]) is not None

    def ends_background(self):
        """Whether it ends the last command of the background: by a signal, or as the house stops the desk."""
        return re.match(r"kill\b|curl .*/stop$", self.text[0]) is not None


def commands_of(block, first, tool):
    """The commands of a console block whose first line has this number, and which needs this tool, or none."""
    commands = []
    for number, line in enumerate(block, first):
        if line.startswith("$ "):
            commands.append(Command(number, line[2:], tool))
        elif not commands:
            raise Wrong(f"line {number}: a console block begins with a command, after '$ '")
        elif not commands[-1].printed and (line == ">" or line.startswith("> ")):
            commands[-1].text.append(line[2:])
        else:
            commands[-1].printed.append(line)
    return commands


def blocks_of(lines):
    """The blocks of a page: the kind, the number of its first line, and its lines."""
    kind, first, block = None, 0, []
    for number, line in enumerate(lines, 1):
        if kind is None and line.lstrip().startswith("```"):
            kind, first, block = line.strip()[3:], number + 1, []
        elif kind is not None and line.strip() == "```":
            yield kind, first, block
            kind = None
        elif kind is not None:
            block.append(line)
    if kind is not None:
        raise Wrong(f"line {first - 1}: the block has no end")


def commands_on(lines):
    """All commands of a page."""
    commands = []
    for kind, first, block in blocks_of(lines):
        words = kind.split()
        if words[:1] == ["console"] and len(words) < 3:
            commands += commands_of(block, first, words[1] if words[1:] else None)
        elif kind not in OTHER_KINDS:
            raise Wrong(f"line {first - 1}: a block of no kind that is known: '{kind}'")
        elif any(re.match(r"\s*(\$ |\./)", line) for line in block):
            raise Wrong(f"line {first - 1}: a command outside a console block")
    return commands


def anchors_in(path):
    """The names under which the headings of a page can be linked to."""
    headings = re.findall(r"^#+ (.*)$", path.read_text(encoding="utf-8"), re.MULTILINE)
    return {re.sub(r"[^\w\- ]", "", heading.lower()).replace(" ", "-") for heading in headings}


def check_links(page, lines):
    """Each link within the repository leads to a file, and to a heading, that is there."""
    for number, line in enumerate(lines, 1):
        for target, anchor in re.findall(r"\]\(([^)#:\s]*)(?:#([^)\s]*))?\)", line):
            path = page.parent / target if target else page
            if not path.exists():
                raise Wrong(f"line {number}: a link to {target}, which is absent")
            if anchor and anchor not in anchors_in(path):
                raise Wrong(f"line {number}: a link to #{anchor}, which is no heading of {target or page}")
        for path in re.findall(r"`((?:crates|docs|scripts|tests)/[^`\s]*)`", line):
            if not re.search(r"NAME|\*|\.\.|/out/", path) and not Path(path).exists():
                raise Wrong(f"line {number}: {path} is absent")


def has(tool):
    """Whether this tool is here."""
    name, *words = NEEDS.get(tool, [tool])
    path = shutil.which(name, path=PLACES)
    return path is not None and (not words or subprocess.run([path, *words], capture_output=True, check=False).returncode == 0)


class Shell:
    """A shell in a folder, in which commands run one after another."""

    def __init__(self, folder, desk):
        self.background, self.outputs = [], 0
        self.kept = Path(tempfile.mkdtemp(dir=folder.parent))
        environment = {**os.environ, "DESK": desk, "HOME": folder, "CURL_HOME": self.kept, "LC_ALL": "C", "TZ": "UTC", "PATH": PLACES,
                       "NO_PROXY": "127.0.0.1", "no_proxy": "127.0.0.1"}
        # no progress, which a terminal does not show either
        (self.kept / ".curlrc").write_text("silent\nshow-error\nnoproxy = *\n", encoding="utf-8")
        self.bash = subprocess.Popen(["bash", "--norc", "--noprofile"], cwd=folder, env=environment, text=True,
                                     stdin=subprocess.PIPE, stdout=subprocess.PIPE, start_new_session=True)

    def run(self, command, ports):
        """Runs a command, and gives the file that has its output."""
        self.outputs += 1
        source, output = self.kept / f"command{self.outputs}", self.kept / f"output{self.outputs}"
        source.write_text(at_ports(command.source(), ports), encoding="utf-8")
        # a job that is disowned is not reported by the shell when it ends
        self.bash.stdin.write(f". {source} </dev/null >{output} 2>&1; disown -a; echo done $!\n")
        self.bash.stdin.flush()
        signal.alarm(SECONDS)
        said = self.bash.stdout.readline().split()
        signal.alarm(0)
        if said[:1] != ["done"]:
            raise Wrong(f"line {command.line}: the shell has ended")
        if command.is_background():
            self.background.append(said[1])
        elif command.ends_background() and self.background:
            # a process that a proxy has started may listen for longer than the proxy itself
            waits_for(lambda: not Path("/proc", self.background[-1]).exists() and not (command.tool and accepts(int(ports[1]))), SECONDS)
        return output

    def end(self):
        os.killpg(self.bash.pid, signal.SIGKILL)
        self.bash.wait()


def lines_in(path):
    return path.read_text(encoding="utf-8", errors="replace").splitlines()


def at_ports(text, ports):
    """A text of a page with the ports that stand for 8080 and 8081."""
    return re.sub("808[01]", lambda port: ports[int(port[0][-1])], text)


def compare(command, found, ports):
    """The lines that a command has printed are those that the page prints."""
    printed = [at_ports(line, ports) for line in command.printed]
    if printed != found:
        shown = lambda lines: "".join(f"\n  {line}" for line in lines)
        source = command.source().rstrip("\n")
        raise Wrong(f"line {command.line}:\n  {source}\nprinted on the page:{shown(printed)}\nfound:{shown(found)}")


def make_folder(desk, room):
    """A new folder below the room, with the program and the tools."""
    folder = Path(tempfile.mkdtemp(dir=room))
    (folder / "desk").symlink_to(desk)
    (folder / "tools").symlink_to(Path(__file__).resolve().parents[1] / "tools")
    return folder


def run_commands(desk, folder, commands):
    """Runs these commands in this folder."""
    ports = set()
    while len(ports) < 2:
        ports.add(str(free_port()))
    ports = tuple(ports)
    shell = Shell(folder, desk)
    try:
        background = []
        for command in commands:
            output = shell.run(command, ports)
            if command.is_background():
                waits_for(lambda: len(lines_in(output)) >= len(command.printed), SECONDS)
                background.append((command, output))
                if command.tool:
                    waits_for(lambda: accepts(int(ports[1])), SECONDS)
            compare(command, lines_in(output), ports)
        for command, output in background:
            compare(command, lines_in(output), ports)
    finally:
        shell.end()


def run_page(desk, folder, page, absent):
    """Runs the commands of a page in this folder, and gives how many ran, were not run, and were skipped because their tool is
    absent; these tools are added to absent."""
    lines = page.read_text(encoding="utf-8").splitlines()
    check_links(page, lines)
    commands = commands_on(lines)
    lacking = {tool for tool in {command.tool for command in commands} if tool and not has(tool)}
    absent |= lacking
    here = [command for command in commands if command.tool not in lacking]
    run = [command for command in here if command.is_run()]
    if run:
        run_commands(desk, folder, run)
    return len(run), len(here) - len(run), len(commands) - len(here)


def took_too_long(*_):
    raise Wrong(f"a command took more than {SECONDS} seconds")


def main(desk, room, pages):
    signal.signal(signal.SIGALRM, took_too_long)
    counts, absent, wrong = [0, 0, 0], set(), 0
    desk = os.path.abspath(desk)
    folder = make_folder(desk, os.path.abspath(room))
    for page in map(Path, pages):
        try:
            counts = [sum(pair) for pair in zip(counts, run_page(desk, folder, page, absent))]
        except Wrong as why:
            print(f"{page}: {why}", file=sys.stderr)
            wrong += 1
    skipped = f"{counts[2]} skipped" + (f", without {', '.join(sorted(absent))}" if absent else "")
    print(f"{counts[0]} commands of {len(pages)} pages printed what the pages print; {counts[1]} were not run, {skipped}")
    return 1 if wrong else 0


if __name__ == "__main__":
    sys.exit(main(sys.argv[1], sys.argv[2], sys.argv[3:]))
