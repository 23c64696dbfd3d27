"""A trial of the desk over a hostile disk: a run over it, what the run may leave there, and what is told of it. Shared by
power_cuts, failing_calls, memory_of_runs and damage."""
import os
import sys

from driving import Client, Server
from parts import IN_PART
from shown import Shown, lay, look, read_files

SCRIPT = os.path.basename(sys.argv[0])


def made_by_lines(answers):
    """How many events each answer to a line made."""
    return [int(not line.startswith("refused")) for line in answers]


def made_by_pages(pages):
    """How many events each page made: one that came before made none."""
    return [int(page.startswith(b"HTTP/1.1 200") and page not in pages[:n]) for n, page in enumerate(pages)]


def served(file, requests, connections=1, env=None, kill=False):
    """Asks a desk over a file all these requests over each of so many connections. Returns how it ended, nothing where it is
    killed, and the pages, or what came of them."""
    server, pages = Server(file, connections, env), []
    for _ in range(connections if server.said else 0):
        try:
            client = Client(server.port)
        except OSError:
            break
        pages += [client.ask(message) for message in requests]
        if kill:
            server.kill()
        client.close()
    return None if kill else server.end(), pages


class Life:
    """What the desk does over the files of a folder, and after how many events it begins and ends."""

    def __init__(self, name, start, measure=None):
        self.name, self.folder, self.start, self.pages = name, os.path.abspath(f"life of {name}"), start, []
        self.measure = measure or (lambda tables: tables["meta"][0][2] if tables else 0)
        lay(start, self.folder)
        self.first = self.last = self.events()

    def events(self):
        """After how many events the files are."""
        return self.measure(look(read_files(self.folder)))


class Trial:
    """Judges what runs leave, by a book of what they may leave."""

    def __init__(self, book, chance):
        self.chance, self.shown, self.wrong = chance, Shown(book, chance), []

    def judge(self, files, least, most, what, goes_on=True):
        """What is left has to be after least to most events, and the desk goes on with it. Returns after how many it is,
        nothing where it is wrong."""
        found, fault = self.shown.verdict(files, goes_on)
        if not fault and least <= found <= most:
            return found
        self.wrong.append(f"{what}: {fault or f'{found} events, expected {least} to {most}'}")
        return None


def tell(text, wrong):
    """Says what was tried, and of what is wrong the first."""
    print(text, flush=True)
    sys.stderr.writelines(f"{SCRIPT}: {one}\n" for one in wrong[:10])


def finish(is_wrong, done, least, what):
    """Ends a script that has tried so many of these: with 1 where something is wrong, or where they are too few."""
    if done < least:
        print(f"{SCRIPT}: {done} {what}, which are too few", file=sys.stderr)
    if IN_PART:
        print(f"{done} {what}{IN_PART}")
    sys.exit(1 if is_wrong or done < least else 0)
